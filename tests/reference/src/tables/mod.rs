//! What the tables in src/bin share: draws, hashes, the calls with the refusals that are drawn, and counts.
//!
//! On x86-64 `f32::max` and `f32::min` of equal operands give the left one, as the specification has it: the stored outputs have the
//! sign of such a zero.

pub mod calls;
pub mod draws;
pub mod hash;
pub mod reached;
