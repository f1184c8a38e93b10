//! The static library beside avian's own Rust: seeded random lists of calls on both, compared after every call, damaged input
//! against the specification's table of refusals, and traces.

pub mod arguments;
pub mod branches;
pub mod counts;
pub mod damage;
pub mod differences;
pub mod draws;
pub mod encode;
pub mod lists;
pub mod oracle;
pub mod refusals;
pub mod sides;
pub mod traces;
