//! Words that passed the table's refusals (docs/BUFFERS.md) as typed values.

use super::*;
use crate::layout::*;

/// Marks of a contact's record.
pub const EDGE_MARKS: &[(usize, ContactEdgeFlags)] = &[
    (CONTACT_EDGE_TOUCHING, ContactEdgeFlags::TOUCHING),
    (
        CONTACT_EDGE_CONTACT_EVENTS,
        ContactEdgeFlags::CONTACT_EVENTS,
    ),
];

pub const PAIR_MARKS: &[(usize, ContactPairFlags)] = &[
    (CONTACT_TOUCHING, ContactPairFlags::TOUCHING),
    (CONTACT_DISJOINT_AABB, ContactPairFlags::DISJOINT_AABB),
    (CONTACT_STARTED_TOUCHING, ContactPairFlags::STARTED_TOUCHING),
    (CONTACT_STOPPED_TOUCHING, ContactPairFlags::STOPPED_TOUCHING),
    (
        CONTACT_GENERATE_CONSTRAINTS,
        ContactPairFlags::GENERATE_CONSTRAINTS,
    ),
    (
        CONTACT_STARTED_GENERATING_CONSTRAINTS,
        ContactPairFlags::STARTED_GENERATING_CONSTRAINTS,
    ),
    (CONTACT_STATIC1, ContactPairFlags::STATIC1),
    (CONTACT_STATIC2, ContactPairFlags::STATIC2),
    (CONTACT_MODIFY_CONTACTS, ContactPairFlags::MODIFY_CONTACTS),
];

/// The words of a record, read by their places.
#[derive(Clone, Copy)]
struct Record<'a>(&'a [u32]);

impl<'a> Record<'a> {
    /// What stands from a place on.
    fn at(self, place: usize) -> Record<'a> {
        Record(&self.0[place..])
    }

    fn word(self, place: usize) -> u32 {
        self.0[place]
    }

    fn count(self, place: usize) -> usize {
        self.word(place) as usize
    }

    fn mark(self, place: usize) -> bool {
        let word = self.word(place);
        assert!(word < 2);
        word == 1
    }

    fn float(self, place: usize) -> f32 {
        f32::from_bits(self.word(place))
    }

    fn floats<const N: usize>(self, place: usize) -> [f32; N] {
        std::array::from_fn(|k| self.float(place + k))
    }

    fn vec3(self, place: usize) -> Vec3 {
        let [x, y, z] = self.floats(place);
        vec3(x, y, z)
    }

    fn quat(self, place: usize) -> Quat {
        let [x, y, z, w] = self.floats(place);
        quat(x, y, z, w)
    }

    /// What stands behind a mark, which is read only if that is 1.
    fn optional<T>(self, mark: usize, read: impl Fn(Self, usize) -> T) -> Option<T> {
        self.mark(mark).then(|| read(self, mark + 1))
    }

    fn body_number(self, mark: usize) -> Option<Entity> {
        self.optional(mark, Self::word).map(Entity)
    }

    fn features(self, place: usize) -> [PackedFeatureId; 2] {
        [0, 1].map(|k| PackedFeatureId(self.word(place + k)))
    }

    fn rule(self, place: usize) -> CoefficientCombine {
        CoefficientCombine::ALL[self.count(place) - 1]
    }

    fn friction(self, place: usize) -> Friction {
        Friction {
            dynamic_coefficient: self.float(place),
            combine_rule: self.rule(place + 1),
        }
    }

    fn restitution(self, place: usize) -> Restitution {
        Restitution {
            coefficient: self.float(place),
            combine_rule: self.rule(place + 1),
        }
    }

    fn matching(self, mark: usize) -> Matching {
        match self.optional(mark, Self::mark) {
            Some(false) => Matching::ByNumber,
            Some(true) => Matching::ByPlace,
            None => Matching::default(),
        }
    }

    fn margin(self, mark: usize) -> Option<CollisionMargin> {
        self.optional(mark, Self::float).map(CollisionMargin)
    }

    fn collider(self) -> Option<ColliderQuery> {
        self.mark(PRESENCE).then(|| ColliderQuery {
            of: self
                .body_number(COLLIDER_BODY)
                .map(|body| ColliderOf { body }),
            enlarged_aabb: ColliderAabb {
                min: self.vec3(COLLIDER_LOWER),
                max: self.vec3(COLLIDER_UPPER),
            },
            position: self.vec3(COLLIDER_POSITION),
            layers: CollisionLayers {
                memberships: self.word(COLLIDER_MEMBERSHIPS),
                filters: self.word(COLLIDER_FILTERS),
            },
            friction: self.optional(COLLIDER_FRICTION, Self::friction),
            restitution: self.optional(COLLIDER_RESTITUTION, Self::restitution),
            collision_margin: self.margin(COLLIDER_MARGIN),
            is_sensor: self.mark(COLLIDER_SENSOR),
        })
    }

    fn body(self) -> Option<RigidBodyQuery> {
        self.mark(PRESENCE).then(|| RigidBodyQuery {
            is_static: self.mark(BODY_STATIC),
            position: self.vec3(BODY_POSITION),
            rotation: self.quat(BODY_ROTATION),
            center_of_mass: self.vec3(BODY_CENTER_OF_MASS),
            linear_velocity: self.vec3(BODY_LINEAR_VELOCITY),
            angular_velocity: self.vec3(BODY_ANGULAR_VELOCITY),
            friction: self.optional(BODY_FRICTION, Self::friction),
            collision_margin: self.margin(BODY_MARGIN),
            speculative_ccd: self
                .optional(BODY_SPECULATIVE_MAXIMUM, Self::float)
                .map(|max_distance| SpeculativeCcd { max_distance }),
            size_metrics: BodySizeMetrics {
                sweep_radius: self.float(BODY_SWEEP_RADIUS),
            },
        })
    }

    fn proposed_point(self) -> ContactPoint {
        let [feature_id1, feature_id2] = self.features(PROPOSED_POINT_FEATURES);
        ContactPoint::new(
            self.vec3(PROPOSED_POINT_ANCHOR1),
            self.vec3(PROPOSED_POINT_ANCHOR2),
            self.vec3(PROPOSED_POINT_POSITION),
            self.float(PROPOSED_POINT_PENETRATION),
        )
        .with_feature_ids(feature_id1, feature_id2)
    }

    fn proposed_manifold(self) -> ContactManifold {
        let points = 0..self.count(PROPOSED_MANIFOLD_COUNT);
        ContactManifold::new(
            points.map(|p| self.at(proposed_point(p)).proposed_point()),
            self.vec3(PROPOSED_MANIFOLD_NORMAL),
        )
    }

    fn point(self) -> ContactPoint {
        let [feature_id1, feature_id2] = self.features(POINT_FEATURES);
        ContactPoint {
            anchor1: self.vec3(POINT_ANCHOR1),
            anchor2: self.vec3(POINT_ANCHOR2),
            point: self.vec3(POINT_POSITION),
            penetration: self.float(POINT_PENETRATION),
            base_penetration: self.float(POINT_BASE_PENETRATION),
            normal_impulse: self.float(POINT_NORMAL_IMPULSE),
            normal_speed: self.float(POINT_NORMAL_SPEED),
            warm_start_normal_impulse: self.float(POINT_WARM_START_NORMAL_IMPULSE),
            warm_start_tangent_impulse: Vec2 {
                x: self.float(POINT_WARM_START_TANGENT_IMPULSE),
                y: self.float(POINT_WARM_START_TANGENT_IMPULSE2),
            },
            feature_id1,
            feature_id2,
        }
    }

    fn manifold(self) -> ContactManifold {
        let points = 0..self.count(MANIFOLD_COUNT);
        ContactManifold {
            normal: self.vec3(MANIFOLD_NORMAL),
            friction: self.float(MANIFOLD_FRICTION),
            restitution: self.float(MANIFOLD_RESTITUTION),
            tangent_velocity: self.vec3(MANIFOLD_TANGENT_VELOCITY),
            points: points.map(|p| self.at(manifold_point(p)).point()).collect(),
        }
    }

    fn cache(self, place: usize) -> ContactRecyclingCache {
        ContactRecyclingCache {
            rotation1: self.quat(place + CACHE_ROTATION1),
            rotation2: self.quat(place + CACHE_ROTATION2),
            relative_translation: self.vec3(place + CACHE_RELATIVE_TRANSLATION),
            relative_rotation: self.quat(place + CACHE_RELATIVE_ROTATION),
        }
    }

    fn edge(self, id: ContactId) -> ContactEdge {
        let colliders = [CONTACT_COLLIDER1, CONTACT_COLLIDER2];
        let [collider1, collider2] = colliders.map(|place| Entity(self.word(place)));
        let mut edge = ContactEdge::new(collider1, collider2);
        edge.id = id;
        edge.body1 = self.body_number(CONTACT_BODY1);
        edge.body2 = self.body_number(CONTACT_BODY2);
        edge.pair_index = self.count(CONTACT_PAIR_INDEX);
        for (place, flag) in EDGE_MARKS {
            edge.flags.set(*flag, self.mark(*place));
        }
        edge
    }

    fn pair(self, edge: &ContactEdge) -> ContactPair {
        let mut pair = ContactPair::new(edge.collider1, edge.collider2, edge.id);
        pair.body1 = edge.body1;
        pair.body2 = edge.body2;
        for (place, flag) in PAIR_MARKS {
            pair.flags.set(*flag, self.mark(*place));
        }
        pair.manifold_count_change = self.word(CONTACT_COUNT_CHANGE) as i32;
        pair.speculative_distance = self.float(CONTACT_SPECULATIVE_DISTANCE);
        pair.recycling_cache = self.optional(CONTACT_CACHE, Self::cache);
        pair.manifolds = (0..self.count(CONTACT_MANIFOLDS))
            .map(|m| self.at(contact_manifold(m)).manifold())
            .collect();
        pair
    }
}

/// A body's record, if the body is there.
pub fn body(record: &[u32]) -> Option<RigidBodyQuery> {
    Record(record).body()
}

/// The edge and the pair of a contact's record.
pub fn contact(id: ContactId, record: &[u32]) -> (ContactEdge, ContactPair) {
    let edge = Record(record).edge(id);
    let pair = Record(record).pair(&edge);
    (edge, pair)
}

/// A graph.
pub fn graph(words: &[u32]) -> ContactGraph {
    let head = [GRAPH_CAPACITY, GRAPH_GIVEN, GRAPH_LISTED, GRAPH_FREED];
    let [capacity, given, pairs, freed] = head.map(|place| words[place] as usize);
    let mut raw_edges = vec![None; given];
    let mut graph = ContactGraph::default();
    for id in &words[GRAPH_LIST..][..pairs] {
        let record = &words[graph_record(capacity, *id as usize)..];
        let (edge, pair) = contact(ContactId(*id), record);
        let key = PairKey::new(edge.collider1.index_u32(), edge.collider2.index_u32());
        graph.pair_set.insert(key);
        graph.active_pairs.push(pair);
        raw_edges[*id as usize] = Some(edge);
    }
    let free = &words[graph_free(capacity)..][..freed];
    graph.edges = Edges::from_parts(raw_edges, free.iter().copied().map(ContactId).collect());
    graph
}

/// Each worker's list places.
pub fn workers(shares: &[u32], graph: &ContactGraph) -> Vec<Vec<usize>> {
    let mut entries = shares[SHARES_ENTRIES..].iter();
    shares[SHARES_COUNTS..][..shares[SHARES_WORKERS] as usize]
        .iter()
        .map(|count| {
            entries
                .by_ref()
                .take(*count as usize)
                .map(|id| graph.get_edge_by_id(ContactId(*id)).unwrap().pair_index)
                .collect()
        })
        .collect()
}

/// The rows that a step reads beside graph and shares.
#[derive(Clone, Copy)]
pub struct Rows<'a> {
    pub settings: &'a [u32],
    pub colliders: &'a [u32],
    pub bodies: &'a [u32],
    pub proposals: &'a [u32],
}

/// What a step on a graph of that capacity is given, and the step time. Proposals of ids that are not active are none.
pub fn step(
    rows: Rows,
    contact_graph: ContactGraph,
    capacity: usize,
) -> (NarrowPhase, Hooks, Shapes, f32) {
    let mut hooks = Hooks(vec![false; capacity]);
    let mut shapes = Shapes {
        proposed: vec![vec![]; capacity],
        asked: vec![None; capacity],
    };
    for pair in &contact_graph.active_pairs {
        let id = pair.contact_id.0 as usize;
        let proposal = Record(rows.proposals).at(PROPOSAL_SIZE * id);
        hooks.0[id] = proposal.mark(PROPOSAL_HOOK);
        shapes.proposed[id] = (0..proposal.count(PROPOSAL_COUNT))
            .map(|m| proposal.at(proposed_manifold(m)).proposed_manifold())
            .collect();
    }
    let settings = Record(rows.settings);
    let (colliders, bodies) = (Record(rows.colliders), Record(rows.bodies));
    let narrow_phase = NarrowPhase {
        collider_query: Query(
            (0..COLLIDERS)
                .map(|n| colliders.at(COLLIDER_SIZE * n).collider())
                .collect(),
        ),
        body_query: Query(
            (0..BODIES)
                .map(|n| bodies.at(BODY_SIZE * n).body())
                .collect(),
        ),
        contact_graph,
        contact_status_changes: vec![],
        contact_status_bits: BitVec::default(),
        thread_locals: vec![],
        length_unit: settings.float(SETTINGS_LENGTH_UNIT),
        config: NarrowPhaseConfig {
            contact_tolerance: settings.float(SETTINGS_CONTACT_TOLERANCE),
            recycle_distance: settings.float(SETTINGS_RECYCLE_DISTANCE),
            recycle_angular_distance: settings.float(SETTINGS_RECYCLE_COSINE),
            match_contacts: settings.mark(SETTINGS_MATCH_CONTACTS),
        },
        default_friction: settings.friction(SETTINGS_FRICTION),
        default_restitution: settings.restitution(SETTINGS_RESTITUTION),
        matching: settings.matching(SETTINGS_MATCHING),
        combined_by: vec![[CoefficientCombine::Average; 2]; capacity],
    };
    (
        narrow_phase,
        hooks,
        shapes,
        settings.float(SETTINGS_STEP_TIME),
    )
}
