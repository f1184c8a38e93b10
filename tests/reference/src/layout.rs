//! The layout of the lent rows by name, as docs/BUFFERS.md has it: each limit once, sizes and places counted up from the fields before.
//!
//! A place is counted from the start of its record. Of an optional value, an optional body or a coefficient it is the place of the
//! mark; of a default coefficient it is the place of its value. tests/contact_graph.rs takes this file too.

// ---- Words of a field.

const WORD: usize = 1;
const MARK: usize = 1;
const FLOAT: usize = 1;
const VECTOR: usize = 3;
const ROTATION: usize = 4;
const FEATURES: usize = 2;
/// A body's number behind its mark.
const NAMED: usize = MARK + WORD;

/// Words of a coefficient: its value and its rule.
pub const COEFFICIENT: usize = FLOAT + WORD;

/// A combining rule is 1 to this.
pub const RULES: usize = 5;

// ---- The document's table.

macro_rules! layout {
    ($($name:ident = $value:expr;)*) => {
        $(pub const $name: usize = $value;)*

        const NAMES: &[&str] = &[$(stringify!($name)),*];

        /// The names of the document's table with their values, in its order.
        pub const TABLE: [(&str, usize); LAYOUT_LENGTH] = [$((stringify!($name), $name)),*];
    };
}

layout! {
    // Limits.
    MOST_CONTACTS = 256;
    COLLIDERS = 256;
    BODIES = 128;
    MANIFOLDS = 6;
    STORED_POINTS = 4;
    PROPOSED_POINTS = 24;
    MOST_WORKERS = 8;

    // A graph: the head, then the list, the free ids and the records.
    GRAPH_CAPACITY = 0;
    GRAPH_GIVEN = GRAPH_CAPACITY + WORD;
    GRAPH_LISTED = GRAPH_GIVEN + WORD;
    GRAPH_FREED = GRAPH_LISTED + WORD;
    GRAPH_LIST = GRAPH_FREED + WORD;

    // A contact's record: the manifolds follow their number.
    CONTACT_SIZE = CONTACT_FIRST_MANIFOLD + MANIFOLDS * MANIFOLD_SIZE;
    CONTACT_COLLIDER1 = 0;
    CONTACT_COLLIDER2 = CONTACT_COLLIDER1 + WORD;
    CONTACT_BODY1 = CONTACT_COLLIDER2 + WORD;
    CONTACT_BODY2 = CONTACT_BODY1 + NAMED;
    CONTACT_PAIR_INDEX = CONTACT_BODY2 + NAMED;
    CONTACT_EDGE_FLAGS = CONTACT_PAIR_INDEX + WORD;
    CONTACT_FLAGS = CONTACT_EDGE_CONTACT_EVENTS + MARK;
    CONTACT_COUNT_CHANGE = CONTACT_MODIFY_CONTACTS + MARK;
    CONTACT_SPECULATIVE_DISTANCE = CONTACT_COUNT_CHANGE + WORD;
    CONTACT_CACHE = CONTACT_SPECULATIVE_DISTANCE + FLOAT;
    CONTACT_MANIFOLDS = CONTACT_CACHE + MARK + CACHE_SIZE;

    // A stored manifold: the number of its points, then these.
    MANIFOLD_SIZE = MANIFOLD_POINTS + STORED_POINTS * POINT_SIZE;
    MANIFOLD_NORMAL = MANIFOLD_COUNT + WORD;
    MANIFOLD_FRICTION = MANIFOLD_NORMAL + VECTOR;
    MANIFOLD_RESTITUTION = MANIFOLD_FRICTION + FLOAT;
    MANIFOLD_TANGENT_VELOCITY = MANIFOLD_RESTITUTION + FLOAT;
    MANIFOLD_POINTS = MANIFOLD_TANGENT_VELOCITY + VECTOR;

    // A stored point.
    POINT_SIZE = POINT_FEATURES + FEATURES;
    POINT_ANCHOR1 = 0;
    POINT_ANCHOR2 = POINT_ANCHOR1 + VECTOR;
    POINT_POSITION = POINT_ANCHOR2 + VECTOR;
    POINT_PENETRATION = POINT_POSITION + VECTOR;
    POINT_BASE_PENETRATION = POINT_PENETRATION + FLOAT;
    POINT_NORMAL_IMPULSE = POINT_BASE_PENETRATION + FLOAT;
    POINT_NORMAL_SPEED = POINT_NORMAL_IMPULSE + FLOAT;
    POINT_WARM_START_NORMAL_IMPULSE = POINT_NORMAL_SPEED + FLOAT;
    POINT_WARM_START_TANGENT_IMPULSE = POINT_WARM_START_NORMAL_IMPULSE + FLOAT;
    POINT_FEATURES = POINT_WARM_START_TANGENT_IMPULSE2 + FLOAT;

    // The settings.
    SETTINGS_LENGTH = SETTINGS_MATCHING + MARK + MARK;
    SETTINGS_STEP_TIME = 0;
    SETTINGS_LENGTH_UNIT = SETTINGS_STEP_TIME + FLOAT;
    SETTINGS_CONTACT_TOLERANCE = SETTINGS_LENGTH_UNIT + FLOAT;
    SETTINGS_RECYCLE_DISTANCE = SETTINGS_CONTACT_TOLERANCE + FLOAT;
    SETTINGS_RECYCLE_COSINE = SETTINGS_RECYCLE_DISTANCE + FLOAT;
    SETTINGS_MATCH_CONTACTS = SETTINGS_RECYCLE_COSINE + FLOAT;
    SETTINGS_FRICTION = SETTINGS_MATCH_CONTACTS + MARK;
    SETTINGS_RESTITUTION = SETTINGS_FRICTION + COEFFICIENT;
    SETTINGS_MATCHING = SETTINGS_RESTITUTION + COEFFICIENT;

    // A collider.
    COLLIDER_SIZE = COLLIDER_SENSOR + MARK;
    COLLIDER_BODY = PRESENCE + MARK;
    COLLIDER_LOWER = COLLIDER_BODY + NAMED;
    COLLIDER_UPPER = COLLIDER_LOWER + VECTOR;
    COLLIDER_POSITION = COLLIDER_UPPER + VECTOR;
    COLLIDER_MEMBERSHIPS = COLLIDER_POSITION + VECTOR;
    COLLIDER_FILTERS = COLLIDER_MEMBERSHIPS + WORD;
    COLLIDER_FRICTION = COLLIDER_FILTERS + WORD;
    COLLIDER_RESTITUTION = COLLIDER_FRICTION + MARK + COEFFICIENT;
    COLLIDER_MARGIN = COLLIDER_RESTITUTION + MARK + COEFFICIENT;
    COLLIDER_SENSOR = COLLIDER_MARGIN + MARK + FLOAT;

    // A body.
    BODY_SIZE = BODY_SWEEP_RADIUS + FLOAT;
    BODY_STATIC = PRESENCE + MARK;
    BODY_POSITION = BODY_STATIC + MARK;
    BODY_ROTATION = BODY_POSITION + VECTOR;
    BODY_CENTER_OF_MASS = BODY_ROTATION + ROTATION;
    BODY_LINEAR_VELOCITY = BODY_CENTER_OF_MASS + VECTOR;
    BODY_ANGULAR_VELOCITY = BODY_LINEAR_VELOCITY + VECTOR;
    BODY_FRICTION = BODY_ANGULAR_VELOCITY + VECTOR;
    BODY_MARGIN = BODY_FRICTION + MARK + COEFFICIENT;
    BODY_SPECULATIVE_MAXIMUM = BODY_MARGIN + MARK + FLOAT;
    BODY_SWEEP_RADIUS = BODY_SPECULATIVE_MAXIMUM + MARK + FLOAT;

    // A contact's proposal.
    PROPOSAL_SIZE = PROPOSAL_MANIFOLDS + MANIFOLDS * PROPOSED_MANIFOLD_SIZE;
    PROPOSAL_HOOK = 0;
    PROPOSAL_COUNT = PROPOSAL_HOOK + MARK;
    PROPOSAL_MANIFOLDS = PROPOSAL_COUNT + WORD;

    // A proposed manifold: the number of its points, then these.
    PROPOSED_MANIFOLD_SIZE = PROPOSED_MANIFOLD_POINTS + PROPOSED_POINTS * PROPOSED_POINT_SIZE;
    PROPOSED_MANIFOLD_NORMAL = PROPOSED_MANIFOLD_COUNT + WORD;
    PROPOSED_MANIFOLD_POINTS = PROPOSED_MANIFOLD_NORMAL + VECTOR;

    // A proposed point.
    PROPOSED_POINT_SIZE = PROPOSED_POINT_FEATURES + FEATURES;
    PROPOSED_POINT_PENETRATION = PROPOSED_POINT_POSITION + VECTOR;
    PROPOSED_POINT_FEATURES = PROPOSED_POINT_PENETRATION + FLOAT;

    // Shares: the number of workers, how many contacts each has, their ids.
    SHARES_COUNTS = SHARES_WORKERS + WORD;
    SHARES_ENTRIES = SHARES_COUNTS + MOST_WORKERS;

    // What a step writes.
    EVENT_SIZE = EVENT_BODY2 + NAMED;
    CHANGE_SIZE = CHANGE_DELTA + WORD;

    // Requests and answers.
    REQUEST_LENGTH = REQUEST_SPECULATIVE_DISTANCE + FLOAT;
    ADD_ANSWER_LENGTH = 1;
    STEP_ANSWER_LENGTH = 3;
    LOOK_UP_ANSWER_LENGTH = LOOK_UP_CONTACT_EVENTS + MARK;
    PRUNE_NORMAL_LENGTH = VECTOR;
    PRUNE_POINTS_LENGTH = PROPOSED_POINTS * PRUNE_POINT_SIZE;
    PRUNE_ANSWER_LENGTH = WORD + STORED_POINTS;
    PLAYER_LENGTH = PLAYER_FITS + MARK;
    PLAY_ANSWER_LENGTH = PLAY_ANSWER_PRINTED + WORD;
    PRINTED_SIZE = printed_line(EVENT_FIELDS) + printed_line(CHANGE_FIELDS);
    LENGTHS_LENGTH = 10;
    LAYOUT_LENGTH = NAMES.len();
}

// ---- Names beside the table.

/// Of a collider's or a body's record: the presence mark.
pub const PRESENCE: usize = 0;

pub const CONTACT_BODY1_NUMBER: usize = CONTACT_BODY1 + MARK;
pub const CONTACT_BODY2_NUMBER: usize = CONTACT_BODY2 + MARK;

/// The edge's marks.
pub const CONTACT_EDGE_TOUCHING: usize = CONTACT_EDGE_FLAGS;
pub const CONTACT_EDGE_CONTACT_EVENTS: usize = CONTACT_EDGE_TOUCHING + MARK;

/// The pair's marks.
pub const CONTACT_TOUCHING: usize = CONTACT_FLAGS;
pub const CONTACT_DISJOINT_AABB: usize = CONTACT_TOUCHING + MARK;
pub const CONTACT_STARTED_TOUCHING: usize = CONTACT_DISJOINT_AABB + MARK;
pub const CONTACT_STOPPED_TOUCHING: usize = CONTACT_STARTED_TOUCHING + MARK;
pub const CONTACT_GENERATE_CONSTRAINTS: usize = CONTACT_STOPPED_TOUCHING + MARK;
pub const CONTACT_STARTED_GENERATING_CONSTRAINTS: usize = CONTACT_GENERATE_CONSTRAINTS + MARK;
pub const CONTACT_STATIC1: usize = CONTACT_STARTED_GENERATING_CONSTRAINTS + MARK;
pub const CONTACT_STATIC2: usize = CONTACT_STATIC1 + MARK;
pub const CONTACT_MODIFY_CONTACTS: usize = CONTACT_STATIC2 + MARK;

/// The recycling cache, counted from behind its mark.
pub const CACHE_ROTATION1: usize = 0;
pub const CACHE_ROTATION2: usize = CACHE_ROTATION1 + ROTATION;
pub const CACHE_RELATIVE_TRANSLATION: usize = CACHE_ROTATION2 + ROTATION;
pub const CACHE_RELATIVE_ROTATION: usize = CACHE_RELATIVE_TRANSLATION + VECTOR;
pub const CACHE_SIZE: usize = CACHE_RELATIVE_ROTATION + ROTATION;
pub const CONTACT_CACHED: usize = CONTACT_CACHE + MARK;

pub const CONTACT_FIRST_MANIFOLD: usize = CONTACT_MANIFOLDS + WORD;

pub const MANIFOLD_COUNT: usize = 0;
pub const POINT_WARM_START_TANGENT_IMPULSE2: usize = POINT_WARM_START_TANGENT_IMPULSE + FLOAT;

pub const SETTINGS_FRICTION_RULE: usize = SETTINGS_FRICTION + FLOAT;
pub const SETTINGS_RESTITUTION_RULE: usize = SETTINGS_RESTITUTION + FLOAT;
pub const SETTINGS_MATCHING_VALUE: usize = SETTINGS_MATCHING + MARK;

pub const COLLIDER_BODY_NUMBER: usize = COLLIDER_BODY + MARK;
pub const COLLIDER_FRICTION_RULE: usize = COLLIDER_FRICTION + MARK + FLOAT;
pub const COLLIDER_RESTITUTION_RULE: usize = COLLIDER_RESTITUTION + MARK + FLOAT;

pub const BODY_FRICTION_RULE: usize = BODY_FRICTION + MARK + FLOAT;

pub const PROPOSED_MANIFOLD_COUNT: usize = 0;
pub const PROPOSED_POINT_ANCHOR1: usize = 0;
pub const PROPOSED_POINT_ANCHOR2: usize = PROPOSED_POINT_ANCHOR1 + VECTOR;
pub const PROPOSED_POINT_POSITION: usize = PROPOSED_POINT_ANCHOR2 + VECTOR;

pub const SHARES_WORKERS: usize = 0;

/// An event's kinds.
pub const EVENT_STARTED: u32 = 0;
pub const EVENT_ENDED: u32 = 1;

pub const EVENT_KIND: usize = 0;
pub const EVENT_CONTACT: usize = EVENT_KIND + WORD;
pub const EVENT_COLLIDER1: usize = EVENT_CONTACT + WORD;
pub const EVENT_COLLIDER2: usize = EVENT_COLLIDER1 + WORD;
pub const EVENT_BODY1: usize = EVENT_COLLIDER2 + WORD;
pub const EVENT_BODY2: usize = EVENT_BODY1 + NAMED;

/// A constraint change's kinds.
pub const CHANGE_START: u32 = 0;
pub const CHANGE_STOP: u32 = 1;
pub const CHANGE_COUNT: u32 = 2;

pub const CHANGE_KIND: usize = 0;
pub const CHANGE_CONTACT: usize = CHANGE_KIND + WORD;
pub const CHANGE_BODY1: usize = CHANGE_CONTACT + WORD;
pub const CHANGE_BODY2: usize = CHANGE_BODY1 + WORD;
pub const CHANGE_DELTA: usize = CHANGE_BODY2 + WORD;

pub const REQUEST_COLLIDER1: usize = 0;
pub const REQUEST_COLLIDER2: usize = REQUEST_COLLIDER1 + WORD;
pub const REQUEST_BODY1: usize = REQUEST_COLLIDER2 + WORD;
pub const REQUEST_BODY2: usize = REQUEST_BODY1 + NAMED;
pub const REQUEST_CONTACT_EVENTS: usize = REQUEST_BODY2 + NAMED;
pub const REQUEST_MODIFY_CONTACTS: usize = REQUEST_CONTACT_EVENTS + MARK;
pub const REQUEST_SPECULATIVE_DISTANCE: usize = REQUEST_MODIFY_CONTACTS + MARK;

pub const LOOK_UP_CONTACT: usize = 0;
pub const LOOK_UP_COLLIDER1: usize = LOOK_UP_CONTACT + WORD;
pub const LOOK_UP_COLLIDER2: usize = LOOK_UP_COLLIDER1 + WORD;
pub const LOOK_UP_BODY1: usize = LOOK_UP_COLLIDER2 + WORD;
pub const LOOK_UP_BODY2: usize = LOOK_UP_BODY1 + NAMED;
pub const LOOK_UP_PAIR_INDEX: usize = LOOK_UP_BODY2 + NAMED;
pub const LOOK_UP_TOUCHING: usize = LOOK_UP_PAIR_INDEX + WORD;
pub const LOOK_UP_CONTACT_EVENTS: usize = LOOK_UP_TOUCHING + MARK;

/// A point that is given to pruning: its first anchor, its penetration.
pub const PRUNE_POINT_PENETRATION: usize = VECTOR;
pub const PRUNE_POINT_SIZE: usize = PRUNE_POINT_PENETRATION + FLOAT;

/// A player of traces: places in the trace, then marks.
pub const PLAYER_PLACE: usize = 0;
pub const PLAYER_STRETCH: usize = PLAYER_PLACE + WORD;
pub const PLAYER_TAKES_POINTS: usize = PLAYER_STRETCH + WORD;
pub const PLAYER_SETTINGS: usize = PLAYER_TAKES_POINTS + MARK;
pub const PLAYER_FITS: usize = PLAYER_SETTINGS + MARK;

pub const PLAY_ANSWER_ENDED: usize = 0;
pub const PLAY_ANSWER_PRINTED: usize = PLAY_ANSWER_ENDED + MARK;

/// The fields of an event and of a change as they are printed, behind the letter.
const EVENT_FIELDS: usize = 6;
const CHANGE_FIELDS: usize = 5;

/// Contacts of a bit word.
pub const BITS: usize = u64::BITS as usize;

// ---- Places and lengths by number.

/// In a graph, the first of the free ids.
pub const fn graph_free(capacity: usize) -> usize {
    GRAPH_LIST + capacity
}

/// In a graph, the first of the records.
pub const fn graph_records(capacity: usize) -> usize {
    graph_free(capacity) + capacity
}

/// In a graph, the record of a contact.
pub const fn graph_record(capacity: usize, id: usize) -> usize {
    graph_records(capacity) + CONTACT_SIZE * id
}

pub const fn graph_length(capacity: usize) -> usize {
    graph_record(capacity, capacity)
}

/// In a contact's record, a manifold.
pub const fn contact_manifold(m: usize) -> usize {
    CONTACT_FIRST_MANIFOLD + MANIFOLD_SIZE * m
}

/// In a contact's record, a point of a manifold.
pub const fn contact_point(m: usize, p: usize) -> usize {
    contact_manifold(m) + manifold_point(p)
}

/// In a stored manifold, a point.
pub const fn manifold_point(p: usize) -> usize {
    MANIFOLD_POINTS + POINT_SIZE * p
}

/// In a contact's proposal, a manifold.
pub const fn proposed_manifold(m: usize) -> usize {
    PROPOSAL_MANIFOLDS + PROPOSED_MANIFOLD_SIZE * m
}

/// In a proposed manifold, a point.
pub const fn proposed_point(p: usize) -> usize {
    PROPOSED_MANIFOLD_POINTS + PROPOSED_POINT_SIZE * p
}

/// The most bytes of a printed line: letter, LF, and for each field a tab, a sign and ten digits.
const fn printed_line(fields: usize) -> usize {
    2 + 12 * fields
}

/// Bit words of a worker.
pub const fn bit_words(capacity: usize) -> usize {
    capacity.div_ceil(BITS)
}
