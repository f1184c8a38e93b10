//! Contact stepping for a load planner: avian's 3D narrow phase and contact graph (f32), written in Rattle and proved, linked as
//! the static library `contact_api`.
//!
//! Another library proposes contact manifolds, a solver writes impulses into the stored points, and what lies between them is here.
//! A [`ContactGraph`] holds the pairs, a [`World`] what a step reads, [`Shares`] which worker updates what. A step reports
//! [`Event`]s and [`Change`]s; [`Pair`], [`Manifold`] and [`Point`] look at what is stored.
//!
//! ```
//! use sardinerod::{
//!     Addition, Body, Collider, ContactGraph, Event, ProposedManifold, ProposedPoint, Shares, World,
//! };
//!
//! let mut graph = ContactGraph::new(4)?;
//! let contact = graph.add(&Addition {
//!     collider1: 0,
//!     collider2: 1,
//!     body1: Some(0),
//!     body2: Some(1),
//!     contact_events: true,
//!     ..Addition::default()
//! })?;
//!
//! // A crate of side 1 stands on a floor whose top is at height 0.
//! let mut world = World::new(4)?;
//! for (n, y) in [(0, -0.5), (1, 0.5)] {
//!     let position = [0.0, y, 0.0];
//!     world.set_body(n, &Body { is_static: n == 0, position, ..Body::default() })?;
//!     world.set_collider(n, &Collider {
//!         body: Some(n),
//!         lower: [-0.5, y - 0.5, -0.5],
//!         upper: [0.5, y + 0.5, 0.5],
//!         position,
//!         ..Collider::default()
//!     })?;
//! }
//! let middle = ProposedPoint { anchor1: [0.0, 0.5, 0.0], anchor2: [0.0, -0.5, 0.0], ..ProposedPoint::default() };
//! world.propose(contact, true, &[ProposedManifold { normal: [0.0, 1.0, 0.0], points: vec![middle] }])?;
//!
//! let report = graph.step(&world, &Shares::single(&graph))?;
//! assert_eq!((report.events, report.changes, report.recycled), (1, 1, 0));
//! assert!(matches!(graph.events().next(), Some(Event::Started { collider2: 1, .. })));
//! assert!(graph.look_up(contact)?.touching);
//!
//! // A solver's turn.
//! graph.for_each_point_mut(|_, _, _, mut point| point.set_normal_impulse(9.81));
//!
//! // Nothing moves: the contact is recycled, its impulses stay.
//! let report = graph.step(&world, &Shares::single(&graph))?;
//! assert_eq!((report.events, report.changes, report.recycled), (0, 0, 1));
//! # Ok::<(), sardinerod::Refusal>(())
//! ```
//!
//! # Traces
//!
//! A [`Trace`] is a recorded load as text; a [`Play`] plays it line by line. docs/TRACES.md lists its lines.
//!
//! # Refusals
//!
//! A call whose rows or numbers do not fit answers a [`Refusal`], and then nothing has changed. No call panics, whatever floats,
//! numbers or damaged graphs it is given.
//!
//! # Words
//!
//! Everything is kept in the rows of words that the library takes, and each type gives them out as they are, for tests, for
//! snapshots, or for other languages; [`layout`] names their places, [`raw`] has the calls on them. A float crosses as its bits:
//! any NaN pattern is read as NaN.
//!
//! # Linking
//!
//! The folder of `libcontact_api.a` is that in the variable `SARDINEROD_LIB_DIR`, or else `target/staticlib` of the repository; if
//! it is not there, `bindings/library` makes it.
#![deny(missing_docs)]

mod graph;
mod ids;
pub mod layout;
mod prune;
pub mod raw;
mod refusal;
mod report;
mod rows;
mod shares;
mod trace;
mod views;
mod words;
mod world;

pub use graph::{Addition, ContactEdge, ContactGraph};
pub use ids::{ContactId, PackedFeatureId};
pub use prune::{Kept, PrunePoint, prune};
pub use refusal::Refusal;
pub use report::{Change, Event, StepReport};
pub use shares::Shares;
pub use trace::{Play, Trace};
pub use views::{ContactRecyclingCache, Manifold, Pair, Point, PointMut};
pub use world::{
    Body, Coefficient, CoefficientCombine, Collider, Matching, ProposedManifold, ProposedPoint,
    Settings, World,
};
