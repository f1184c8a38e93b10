//! Limits, lengths and places by name: the table of docs/BUFFERS.md.
//!
//! A place is counted from the start of its record. Of an optional value, an optional body or a coefficient it is the place of the
//! mark; of a default coefficient it is the place of its value.

macro_rules! layout {
    ($($(#[$doc:meta])* $name:ident = $value:literal;)*) => {
        $($(#[$doc])* pub const $name: usize = $value;)*

        /// Every name with its value, in the order in which [`raw::layout`](crate::raw::layout) answers them.
        pub const TABLE: [(&str, usize); LAYOUT_LENGTH] = [$((stringify!($name), $name)),*];
    };
}

layout! {
    /// Most contacts that a graph can hold: the largest capacity.
    MOST_CONTACTS = 256;
    /// Colliders in a step's row.
    COLLIDERS = 256;
    /// Bodies in a step's row.
    BODIES = 128;
    /// Most manifolds of a pair.
    MANIFOLDS = 6;
    /// Most points of a stored manifold.
    STORED_POINTS = 4;
    /// Most points of a proposed manifold.
    PROPOSED_POINTS = 24;
    /// Most workers of a step.
    MOST_WORKERS = 8;
    /// Graph: the capacity.
    GRAPH_CAPACITY = 0;
    /// Graph: how many ids were given.
    GRAPH_GIVEN = 1;
    /// Graph: how many pairs are listed.
    GRAPH_LISTED = 2;
    /// Graph: how many ids are free.
    GRAPH_FREED = 3;
    /// Graph: the list of ids in the pairs' order. The free ids and the records follow it.
    GRAPH_LIST = 4;
    /// Words of a contact's record.
    CONTACT_SIZE = 523;
    /// Contact: the first collider.
    CONTACT_COLLIDER1 = 0;
    /// Contact: the second collider.
    CONTACT_COLLIDER2 = 1;
    /// Contact: the first body, a mark and a number.
    CONTACT_BODY1 = 2;
    /// Contact: the second body, a mark and a number.
    CONTACT_BODY2 = 4;
    /// Contact: its place in the list.
    CONTACT_PAIR_INDEX = 6;
    /// Contact: the edge's marks `TOUCHING` and `CONTACT_EVENTS`.
    CONTACT_EDGE_FLAGS = 7;
    /// Contact: the pair's nine marks, from `TOUCHING` to `MODIFY_CONTACTS`.
    CONTACT_FLAGS = 9;
    /// Contact: the change of the manifold count, an `i32`.
    CONTACT_COUNT_CHANGE = 18;
    /// Contact: the speculative distance.
    CONTACT_SPECULATIVE_DISTANCE = 19;
    /// Contact: the recycling cache, a mark and 15 floats.
    CONTACT_CACHE = 20;
    /// Contact: the number of manifolds. The manifolds follow it.
    CONTACT_MANIFOLDS = 36;
    /// Words of a stored manifold, which begins with its number of points.
    MANIFOLD_SIZE = 81;
    /// Manifold: the normal.
    MANIFOLD_NORMAL = 1;
    /// Manifold: the friction.
    MANIFOLD_FRICTION = 4;
    /// Manifold: the restitution.
    MANIFOLD_RESTITUTION = 5;
    /// Manifold: the tangent velocity.
    MANIFOLD_TANGENT_VELOCITY = 6;
    /// Manifold: the first point.
    MANIFOLD_POINTS = 9;
    /// Words of a stored point.
    POINT_SIZE = 18;
    /// Point: the anchor on the first body.
    POINT_ANCHOR1 = 0;
    /// Point: the anchor on the second body.
    POINT_ANCHOR2 = 3;
    /// Point: the position in world space.
    POINT_POSITION = 6;
    /// Point: the penetration.
    POINT_PENETRATION = 9;
    /// Point: the penetration of the last full update.
    POINT_BASE_PENETRATION = 10;
    /// Point: the normal impulse, a solver's.
    POINT_NORMAL_IMPULSE = 11;
    /// Point: the normal speed.
    POINT_NORMAL_SPEED = 12;
    /// Point: the normal impulse for warm starting, a solver's.
    POINT_WARM_START_NORMAL_IMPULSE = 13;
    /// Point: the two tangent impulses for warm starting, a solver's.
    POINT_WARM_START_TANGENT_IMPULSE = 14;
    /// Point: the two feature ids.
    POINT_FEATURES = 16;
    /// Words of the settings.
    SETTINGS_LENGTH = 12;
    /// Settings: the step time.
    SETTINGS_STEP_TIME = 0;
    /// Settings: the length unit.
    SETTINGS_LENGTH_UNIT = 1;
    /// Settings: the contact tolerance.
    SETTINGS_CONTACT_TOLERANCE = 2;
    /// Settings: the recycle distance.
    SETTINGS_RECYCLE_DISTANCE = 3;
    /// Settings: the squared cosine of half the recycle angle.
    SETTINGS_RECYCLE_COSINE = 4;
    /// Settings: the mark `match_contacts`.
    SETTINGS_MATCH_CONTACTS = 5;
    /// Settings: the default friction, a coefficient and a rule.
    SETTINGS_FRICTION = 6;
    /// Settings: the default restitution, a coefficient and a rule.
    SETTINGS_RESTITUTION = 8;
    /// Settings: the matching, a mark and a [`Matching`](crate::Matching).
    SETTINGS_MATCHING = 10;
    /// Words of a collider's record, which begins with its presence mark.
    COLLIDER_SIZE = 23;
    /// Collider: its body, a mark and a number.
    COLLIDER_BODY = 1;
    /// Collider: the lower corner of its box.
    COLLIDER_LOWER = 3;
    /// Collider: the upper corner of its box.
    COLLIDER_UPPER = 6;
    /// Collider: its position.
    COLLIDER_POSITION = 9;
    /// Collider: the layers it belongs to.
    COLLIDER_MEMBERSHIPS = 12;
    /// Collider: the layers it interacts with.
    COLLIDER_FILTERS = 13;
    /// Collider: its friction, a mark, a coefficient and a rule.
    COLLIDER_FRICTION = 14;
    /// Collider: its restitution, a mark, a coefficient and a rule.
    COLLIDER_RESTITUTION = 17;
    /// Collider: its margin, a mark and a value.
    COLLIDER_MARGIN = 20;
    /// Collider: the mark `sensor`.
    COLLIDER_SENSOR = 22;
    /// Words of a body's record, which begins with its presence mark.
    BODY_SIZE = 26;
    /// Body: the mark `static`.
    BODY_STATIC = 1;
    /// Body: its position.
    BODY_POSITION = 2;
    /// Body: its rotation (x, y, z, w).
    BODY_ROTATION = 5;
    /// Body: its centre of mass.
    BODY_CENTER_OF_MASS = 9;
    /// Body: its linear velocity.
    BODY_LINEAR_VELOCITY = 12;
    /// Body: its angular velocity.
    BODY_ANGULAR_VELOCITY = 15;
    /// Body: its friction, a mark, a coefficient and a rule.
    BODY_FRICTION = 18;
    /// Body: its margin, a mark and a value.
    BODY_MARGIN = 21;
    /// Body: its speculative maximum, a mark and a value.
    BODY_SPECULATIVE_MAXIMUM = 23;
    /// Body: its sweep radius.
    BODY_SWEEP_RADIUS = 25;
    /// Words of a contact's proposal.
    PROPOSAL_SIZE = 1754;
    /// Proposal: the hook's answer, a mark.
    PROPOSAL_HOOK = 0;
    /// Proposal: the number of manifolds.
    PROPOSAL_COUNT = 1;
    /// Proposal: the first manifold.
    PROPOSAL_MANIFOLDS = 2;
    /// Words of a proposed manifold, which begins with its number of points.
    PROPOSED_MANIFOLD_SIZE = 292;
    /// Proposed manifold: the normal.
    PROPOSED_MANIFOLD_NORMAL = 1;
    /// Proposed manifold: the first point.
    PROPOSED_MANIFOLD_POINTS = 4;
    /// Words of a proposed point, which begins with its two anchors and its position.
    PROPOSED_POINT_SIZE = 12;
    /// Proposed point: the penetration.
    PROPOSED_POINT_PENETRATION = 9;
    /// Proposed point: the two feature ids.
    PROPOSED_POINT_FEATURES = 10;
    /// Shares: how many contacts each worker has. The number of workers stands before it.
    SHARES_COUNTS = 1;
    /// Shares: the contacts' ids, worker by worker.
    SHARES_ENTRIES = 9;
    /// Words of an event.
    EVENT_SIZE = 8;
    /// Words of a constraint change.
    CHANGE_SIZE = 5;
    /// Words of an addition's request.
    REQUEST_LENGTH = 9;
    /// Words of an addition's answer.
    ADD_ANSWER_LENGTH = 1;
    /// Words of a step's answer.
    STEP_ANSWER_LENGTH = 3;
    /// Words of a look up's answer.
    LOOK_UP_ANSWER_LENGTH = 10;
    /// Words of the normal that pruning takes.
    PRUNE_NORMAL_LENGTH = 3;
    /// Words of the points that pruning takes.
    PRUNE_POINTS_LENGTH = 96;
    /// Words of pruning's answer.
    PRUNE_ANSWER_LENGTH = 5;
    /// Words of a player of traces.
    PLAYER_LENGTH = 5;
    /// Words of the answer of a line that is played.
    PLAY_ANSWER_LENGTH = 2;
    /// Bytes that a line may print for each contact of the capacity.
    PRINTED_SIZE = 136;
    /// Words of the answer of `lengths`.
    LENGTHS_LENGTH = 10;
    /// Words of the answer of `layout`: the names of this table.
    LAYOUT_LENGTH = 99;
}
