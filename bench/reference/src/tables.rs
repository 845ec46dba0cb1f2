//! The core's three tables, in which programs leave traces, and what their use costs.

use crate::paging::{Access, Leaf};

pub const INSTRUCTION: u64 = 1;
pub const WALK: u64 = 30;
pub const MISS: u64 = 20;
pub const WRITE_BACK: u64 = 10;
pub const MISPREDICTION: u64 = 3;
pub const COPIED_WORD: u64 = 1;
pub const HIGHEST: u64 = INSTRUCTION + WALK + WALK + MISS + WRITE_BACK;

pub const LINES: usize = 64;
pub const LINE_WORDS: usize = 16;
pub const TLB_ENTRIES: usize = 16;
pub const COUNTERS: usize = 64;

#[derive(Clone, Copy, Debug, PartialEq, Eq)]
struct Line {
    tag: u32,
    dirty: bool,
}

#[derive(Clone, Debug, PartialEq, Eq)]
pub struct Cache {
    lines: [Option<Line>; LINES],
}

impl Cache {
    pub fn new() -> Self {
        Cache { lines: [None; LINES] }
    }

    /// A load or store of a word address; answers its extra cycles.
    pub fn access(&mut self, address: usize, store: bool) -> u64 {
        let number = address / LINE_WORDS;
        let tag = (number / LINES) as u32;
        let place = &mut self.lines[number % LINES];
        match place {
            Some(line) if line.tag == tag => {
                line.dirty |= store;
                0
            }
            _ => {
                let dirty = place.is_some_and(|line| line.dirty);
                *place = Some(Line { tag, dirty: store });
                MISS + if dirty { WRITE_BACK } else { 0 }
            }
        }
    }

    pub fn dirty_lines(&self) -> u64 {
        self.lines.iter().flatten().filter(|line| line.dirty).count() as u64
    }
}

#[derive(Clone, Debug, PartialEq, Eq)]
pub struct Tlb {
    entries: [Option<(u32, Leaf)>; TLB_ENTRIES],
}

impl Tlb {
    pub fn new() -> Self {
        Tlb { entries: [None; TLB_ENTRIES] }
    }

    /// Looks a page up and walks if it is not there. Answers the frame, or none for a page fault; a walk is added to the cost.
    pub fn look_up(&mut self, page: u32, access: Access, cost: &mut u64, walk: impl FnOnce() -> Option<Leaf>) -> Option<usize> {
        let entry = &mut self.entries[page as usize % TLB_ENTRIES];
        if let Some((held, leaf)) = *entry {
            if held == page {
                return leaf.permits(access).then_some(usize::from(leaf.frame));
            }
        }
        *cost += WALK;
        let leaf = walk().filter(|leaf| leaf.permits(access))?;
        *entry = Some((page, leaf));
        Some(usize::from(leaf.frame))
    }
}

#[derive(Clone, Debug, PartialEq, Eq)]
pub struct Predictor {
    counters: [u8; COUNTERS],
}

impl Predictor {
    pub fn new() -> Self {
        Predictor { counters: [1; COUNTERS] }
    }

    /// A branch and its outcome; answers its extra cycles.
    pub fn branch(&mut self, pc: u32, taken: bool) -> u64 {
        let counter = &mut self.counters[pc as usize / 4 % COUNTERS];
        let predicted = *counter >= 2;
        *counter = if taken { (*counter + 1).min(3) } else { counter.saturating_sub(1) };
        if predicted == taken {
            0
        } else {
            MISPREDICTION
        }
    }
}

#[derive(Clone, Debug, PartialEq, Eq)]
pub struct Tables {
    pub cache: Cache,
    pub tlb: Tlb,
    pub predictor: Predictor,
}

impl Tables {
    pub fn new() -> Self {
        Tables { cache: Cache::new(), tlb: Tlb::new(), predictor: Predictor::new() }
    }
}

impl Default for Cache {
    fn default() -> Self {
        Self::new()
    }
}

impl Default for Tlb {
    fn default() -> Self {
        Self::new()
    }
}

impl Default for Predictor {
    fn default() -> Self {
        Self::new()
    }
}

impl Default for Tables {
    fn default() -> Self {
        Self::new()
    }
}
