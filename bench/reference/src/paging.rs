//! Sv32 translation: two levels, no superpages, and a walk that never writes.

use crate::memory::{Memory, FRAME_WORDS, MOST_FRAMES};

pub const V: u32 = 1 << 0;
pub const R: u32 = 1 << 1;
pub const W: u32 = 1 << 2;
pub const X: u32 = 1 << 3;
pub const U: u32 = 1 << 4;
/// Nobody looks at it.
pub const G: u32 = 1 << 5;
pub const A: u32 = 1 << 6;
pub const D: u32 = 1 << 7;

#[derive(Clone, Copy, Debug, PartialEq, Eq)]
pub enum Access {
    Fetch,
    Load,
    Store,
}

/// A page-table entry.
#[derive(Clone, Copy, Debug, PartialEq, Eq)]
pub struct Entry(pub u32);

/// What a walk ends in: a frame below 256 and what may be done there.
#[derive(Clone, Copy, Debug, PartialEq, Eq)]
pub struct Leaf {
    pub frame: u8,
    pub read: bool,
    pub write: bool,
    pub execute: bool,
}

impl Entry {
    pub fn valid(self) -> bool {
        self.0 & V != 0
    }

    pub fn pointer(self) -> bool {
        self.valid() && self.0 & (R | W | X) == 0
    }

    /// A valid entry with a permission, and with U, A and D set.
    pub fn leaf_form(self) -> bool {
        self.0 & (V | U | A | D) == V | U | A | D && self.0 & (R | W | X) != 0
    }

    /// The frame that the entry names, if it is below 256.
    pub fn frame(self) -> Option<u8> {
        u8::try_from(self.0 >> 10).ok()
    }

    fn leaf(self) -> Option<Leaf> {
        let write_only = self.0 & W != 0 && self.0 & R == 0;
        if !self.leaf_form() || write_only {
            return None;
        }
        Some(Leaf { frame: self.frame()?, read: self.0 & R != 0, write: self.0 & W != 0, execute: self.0 & X != 0 })
    }
}

impl Leaf {
    pub fn permits(self, access: Access) -> bool {
        match access {
            Access::Fetch => self.execute,
            Access::Load => self.read,
            Access::Store => self.read && self.write,
        }
    }
}

/// Why a walk gives no leaf.
#[derive(Clone, Copy, Debug, PartialEq, Eq)]
pub enum NoLeaf {
    Fault,
    /// it has to read a frame below 256 that is not lent
    NotLent,
}

/// The leaf of a page; the frame that the leaf names need not be lent.
pub fn find_leaf(memory: &Memory, root: usize, page: u32) -> Result<Leaf, NoLeaf> {
    if page >= 1 << 20 || root >= MOST_FRAMES {
        return Err(NoLeaf::Fault);
    }
    if !memory.has(root) {
        return Err(NoLeaf::NotLent);
    }
    let first = Entry(memory.word(root, page as usize / FRAME_WORDS));
    if !first.pointer() {
        return Err(NoLeaf::Fault);
    }
    let table = usize::from(first.frame().ok_or(NoLeaf::Fault)?);
    if !memory.has(table) {
        return Err(NoLeaf::NotLent);
    }
    let second = Entry(memory.word(table, page as usize % FRAME_WORDS));
    second.leaf().ok_or(NoLeaf::Fault)
}

/// The walk of a running program: whatever is not lent faults.
pub fn walk(memory: &Memory, root: usize, page: u32) -> Option<Leaf> {
    let leaf = find_leaf(memory, root, page).ok()?;
    memory.has(usize::from(leaf.frame)).then_some(leaf)
}
