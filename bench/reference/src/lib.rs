//! The whole machine once more, in plain Rust: instructions, translation, tables, checker, slots and messages.
//!
//! It was written from the rules alone and shares no line with the proved crates, so that the two can be compared.

pub mod checker;
pub mod cli;
pub mod hart;
pub mod image;
pub mod isa;
pub mod machine;
pub mod memory;
pub mod paging;
pub mod plan;
pub mod refusal;
pub mod tables;
