//! Memory: frames of 1,024 words.

pub const FRAME_WORDS: usize = 1024;
pub const MOST_FRAMES: usize = 256;

#[derive(Clone, Debug, PartialEq, Eq)]
pub struct Memory {
    words: Vec<u32>,
}

impl Memory {
    /// Memory of whole frames; words after the last whole frame are dropped.
    pub fn new(mut words: Vec<u32>) -> Self {
        words.truncate(words.len() / FRAME_WORDS * FRAME_WORDS);
        Memory { words }
    }

    pub fn frames(&self) -> usize {
        self.words.len() / FRAME_WORDS
    }

    /// Whether a walk may go to a frame.
    pub fn has(&self, frame: usize) -> bool {
        frame < MOST_FRAMES && frame < self.frames()
    }

    pub fn word(&self, frame: usize, index: usize) -> u32 {
        self.words[frame * FRAME_WORDS + index]
    }

    pub fn word_mut(&mut self, frame: usize, index: usize) -> &mut u32 {
        &mut self.words[frame * FRAME_WORDS + index]
    }

    pub fn frame(&self, frame: usize) -> &[u32] {
        &self.words[frame * FRAME_WORDS..(frame + 1) * FRAME_WORDS]
    }

    pub fn copy_frame(&mut self, from: usize, to: usize) {
        let start = from * FRAME_WORDS;
        self.words.copy_within(start..start + FRAME_WORDS, to * FRAME_WORDS);
    }
}
