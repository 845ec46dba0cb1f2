//! The image of memory: a count of frames and the frames.

use crate::memory::{Memory, FRAME_WORDS, MOST_FRAMES};
use crate::refusal::{Refusal, Rule};

const COUNT: usize = 2;
const FRAME_BYTES: usize = 4 * FRAME_WORDS;

/// The most bytes that can matter: a frame more than there may be, and a byte after it.
pub const MOST_BYTES: usize = COUNT + (MOST_FRAMES + 1) * FRAME_BYTES + 1;

/// How many frames the image counts.
fn count(bytes: &[u8]) -> Option<usize> {
    Some(usize::from(u16::from_le_bytes(*bytes.first_chunk()?)))
}

/// The whole frames that the image has, at most as many as it counts.
pub fn lent(bytes: &[u8]) -> Memory {
    let frames = count(bytes).unwrap_or(0);
    let body = bytes.get(COUNT..).unwrap_or(&[]);
    let words = body.chunks_exact(4).take(frames * FRAME_WORDS);
    Memory::new(words.map(|w| u32::from_le_bytes([w[0], w[1], w[2], w[3]])).collect())
}

/// The image's own rules.
pub fn check(bytes: &[u8]) -> Result<(), Refusal> {
    let frames = count(bytes).ok_or(Refusal::not_lent())?;
    let end = COUNT + frames * FRAME_BYTES;
    if bytes.len() < end {
        return Err(Refusal::not_lent());
    }
    if bytes.len() > end {
        return Err(Refusal::new(Rule::Surplus, end));
    }
    Ok(())
}

/// The bytes of an image with the given memory.
pub fn to_bytes(memory: &Memory) -> Vec<u8> {
    let mut bytes = (memory.frames() as u16).to_le_bytes().to_vec();
    for frame in 0..memory.frames() {
        bytes.extend(memory.frame(frame).iter().flat_map(|word| word.to_le_bytes()));
    }
    bytes
}
