//! avian's narrow phase and contact graph, 3D, f32, on typed values.
//!
//! Carried over from avianphysics/avian at commit 2c2d6934e3, MIT OR Apache-2.0: NOTICE. Each file names the one it comes from;
//! order of statements, names and comments are the source's. Left out, as the specification does: 2D, sleeping,
//! `CollidingEntities`, timing, debug checks.
//!
//! Stand-ins for what is not at hand, each after the specification: vectors and quaternions for glam (`math`), queries, `Friction`,
//! `Restitution` and their combining rules, `SpeculativeCcd`, `BodySizeMetrics` (`components`), `Edges` for the `StableUnGraph`
//! (`contact_graph`), one list of events in the pass's order for two writers, each event with its contact's id, and the given
//! workers for threads (`system_param`).
//!
//! Beside the Rust, and no part of it: `by_place`, a model of the specification's matching by place, which a step asks in place of
//! `match_contacts` where its settings say so.
//!
//! `trace` reads and plays traces over these.
//!
//! `layout` has the sizes and places of docs/BUFFERS.md by name, and `words` reads typed values from such words. `tables`, and the
//! programs in src/bin, make stored outputs of crates/.
//!
//! `reach!` counts how often a branch is reached; `reached` holds the counts that need more than the source computes. Neither
//! changes anything, and both are compiled out without the feature `counts`.

pub mod addition;
pub mod branches;
pub mod by_place;
pub mod components;
pub mod contact_graph;
pub mod contact_types;
pub mod counts;
pub mod data_structures;
pub mod layout;
pub mod math;
mod reached;
pub mod system_param;
pub mod tables;
pub mod trace;
pub mod words;

pub use addition::*;
pub use by_place::*;
pub use components::*;
pub use contact_graph::*;
pub use contact_types::*;
pub use data_structures::*;
pub use math::*;
pub use system_param::*;
