//! Generators of plans, page tables and programs, and pairs of machines. All of it is decided by a seed.

pub mod asm;
pub mod broken;
pub mod case;
pub mod leaky;
pub mod pair;
pub mod partition;
pub mod program;
pub mod rng;
pub mod world;
