//! Memory under construction: frames that are handed out in a random order, and page tables in them.

use std::collections::BTreeSet;

use reference::memory::{Memory, FRAME_WORDS};
use reference::paging::{A, D, G, U, V};

use crate::rng::Rng;

pub struct World {
    words: Vec<u32>,
    free: Vec<usize>,
}

impl World {
    pub fn new(frames: usize, reserved: &BTreeSet<usize>, rng: &mut Rng) -> Self {
        let mut free: Vec<usize> = (0..frames).filter(|frame| !reserved.contains(frame)).collect();
        rng.shuffle(&mut free);
        World { words: vec![0; frames * FRAME_WORDS], free }
    }

    /// A frame that nobody has yet.
    pub fn take(&mut self) -> Option<usize> {
        self.free.pop()
    }

    pub fn word(&self, frame: usize, index: usize) -> u32 {
        self.words[frame * FRAME_WORDS + index]
    }

    pub fn set(&mut self, frame: usize, index: usize, word: u32) {
        self.words[frame * FRAME_WORDS + index] = word;
    }

    pub fn frame_mut(&mut self, frame: usize) -> &mut [u32] {
        &mut self.words[frame * FRAME_WORDS..(frame + 1) * FRAME_WORDS]
    }

    /// Writes a leaf; takes a frame for a table where there is none yet. The bits that nobody looks at are random.
    pub fn map(&mut self, root: usize, page: u32, frame: usize, permissions: u32, rng: &mut Rng) -> Option<()> {
        let (high, low) = (page as usize / FRAME_WORDS, page as usize % FRAME_WORDS);
        if self.word(root, high) & V == 0 {
            let table = self.take()?;
            let unseen = rng.word() & (U | G | A | D | 0x300);
            self.set(root, high, (table as u32) << 10 | V | unseen);
        }
        let table = (self.word(root, high) >> 10) as usize;
        let unseen = if rng.chance(20) { rng.word() & (G | 0x300) } else { 0 };
        self.set(table, low, (frame as u32) << 10 | permissions | V | U | A | D | unseen);
        Some(())
    }

    pub fn into_memory(self) -> Memory {
        Memory::new(self.words)
    }

    /// The same frames from another world.
    pub fn copy_frames(&mut self, from: &World, frames: &BTreeSet<usize>) {
        for &frame in frames {
            let start = frame * FRAME_WORDS;
            self.words[start..start + FRAME_WORDS].copy_from_slice(&from.words[start..start + FRAME_WORDS]);
        }
    }
}
