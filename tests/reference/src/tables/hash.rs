//! 32 bit FNV-1a over what a call leaves, each word's four bytes from the lowest.

use super::calls::Stepped;
use crate::layout::*;
use crate::words::{EDGE_MARKS, PAIR_MARKS};
use crate::*;

pub struct Hash(pub u32);

/// All NaNs alike.
pub fn bits(x: f32) -> u32 {
    if x.is_nan() { 0x7fc00000 } else { x.to_bits() }
}

impl Hash {
    pub const START: Self = Self(2166136261);

    pub fn word(&mut self, w: u32) {
        for byte in w.to_le_bytes() {
            self.0 = (self.0 ^ byte as u32).wrapping_mul(16777619);
        }
    }

    pub fn words(&mut self, words: &[u32]) {
        words.iter().for_each(|w| self.word(*w));
    }

    fn float(&mut self, x: f32) {
        self.word(bits(x));
    }

    fn floats(&mut self, xs: &[f32]) {
        xs.iter().for_each(|x| self.float(*x));
    }

    fn vec3(&mut self, v: Vec3) {
        self.floats(&[v.x, v.y, v.z]);
    }

    fn quat(&mut self, q: Quat) {
        self.floats(&[q.x, q.y, q.z, q.w]);
    }

    fn point(&mut self, p: &ContactPoint) {
        self.vec3(p.anchor1);
        self.vec3(p.anchor2);
        self.vec3(p.point);
        self.floats(&[
            p.penetration,
            p.base_penetration,
            p.normal_impulse,
            p.normal_speed,
            p.warm_start_normal_impulse,
            p.warm_start_tangent_impulse.x,
            p.warm_start_tangent_impulse.y,
        ]);
        self.word(p.feature_id1.0);
        self.word(p.feature_id2.0);
    }

    fn manifold(&mut self, m: &ContactManifold) {
        self.word(m.points.len() as u32);
        self.vec3(m.normal);
        self.floats(&[m.friction, m.restitution]);
        self.vec3(m.tangent_velocity);
        m.points.iter().for_each(|p| self.point(p));
    }

    /// A contact's record: what edge and pair both hold once. Nothing behind a mark of 0 or past a count.
    pub fn record(&mut self, edge: &ContactEdge, pair: &ContactPair) {
        assert!(edge.id == pair.contact_id);
        assert!((edge.collider1, edge.collider2) == (pair.collider1, pair.collider2));
        assert!((edge.body1, edge.body2) == (pair.body1, pair.body2));
        self.word(pair.collider1.0);
        self.word(pair.collider2.0);
        for body in [pair.body1, pair.body2] {
            self.word(body.is_some() as u32);
            if let Some(Entity(n)) = body {
                self.word(n);
            }
        }
        self.word(edge.pair_index as u32);
        for (_, flag) in EDGE_MARKS {
            self.word(edge.flags.contains(*flag) as u32);
        }
        for (_, flag) in PAIR_MARKS {
            self.word(pair.flags.contains(*flag) as u32);
        }
        self.word(pair.manifold_count_change as u32);
        self.float(pair.speculative_distance);
        self.word(pair.recycling_cache.is_some() as u32);
        if let Some(cache) = &pair.recycling_cache {
            self.quat(cache.rotation1);
            self.quat(cache.rotation2);
            self.vec3(cache.relative_translation);
            self.quat(cache.relative_rotation);
        }
        self.word(pair.manifolds.len() as u32);
        pair.manifolds.iter().for_each(|m| self.manifold(m));
    }
}

pub fn graph_hash(graph: &ContactGraph, capacity: usize) -> u32 {
    let mut h = Hash::START;
    h.word(capacity as u32);
    h.word(graph.edges.raw_edges().len() as u32);
    h.word(graph.edges.free().len() as u32);
    for id in graph.edges.free() {
        h.word(id.0);
    }
    h.word(graph.active_pairs.len() as u32);
    for (place, pair) in graph.active_pairs.iter().enumerate() {
        let edge = graph.get_edge_by_id(pair.contact_id).unwrap();
        assert!(edge.pair_index == place);
        h.word(pair.contact_id.0);
        h.record(edge, pair);
    }
    h.0
}

impl CollisionEvent {
    /// Bodies are a mark and a number each.
    fn words(&self) -> [u32; EVENT_SIZE] {
        let (kind, id, colliders, bodies) = match *self {
            CollisionEvent::CollisionStart {
                contact_id,
                collider1,
                collider2,
                body1,
                body2,
            } => (
                EVENT_STARTED,
                contact_id,
                [collider1, collider2],
                [body1, body2],
            ),
            CollisionEvent::CollisionEnd {
                contact_id,
                collider1,
                collider2,
                body1,
                body2,
            } => (
                EVENT_ENDED,
                contact_id,
                [collider1, collider2],
                [body1, body2],
            ),
        };
        let mut words = [0; EVENT_SIZE];
        words[EVENT_KIND] = kind;
        words[EVENT_CONTACT] = id.0;
        words[EVENT_COLLIDER1] = colliders[0].0;
        words[EVENT_COLLIDER2] = colliders[1].0;
        for (place, body) in [EVENT_BODY1, EVENT_BODY2].into_iter().zip(bodies) {
            words[place] = body.is_some() as u32;
            words[place + 1] = body.map_or(0, |n| n.0);
        }
        words
    }
}

impl ContactStatusChange {
    /// A start has neither bodies nor a change of the count, a stop no change.
    fn words(&self) -> [u32; CHANGE_SIZE] {
        let none = Entity(0);
        let (kind, id, bodies, delta) = match *self {
            ContactStatusChange::StartedGeneratingConstraints(id) => {
                (CHANGE_START, id, [none; 2], 0)
            }
            ContactStatusChange::StoppedGeneratingConstraints {
                contact_id,
                body1,
                body2,
            } => (CHANGE_STOP, contact_id, [body1, body2], 0),
            ContactStatusChange::ManifoldCountChanged {
                contact,
                body1,
                body2,
                delta,
            } => (CHANGE_COUNT, contact, [body1, body2], delta),
        };
        let mut words = [0; CHANGE_SIZE];
        words[CHANGE_KIND] = kind;
        words[CHANGE_CONTACT] = id.0;
        words[CHANGE_BODY1] = bodies[0].0;
        words[CHANGE_BODY2] = bodies[1].0;
        words[CHANGE_DELTA] = delta as u32;
        words
    }
}

impl Stepped {
    pub fn event_words(&self) -> Vec<u32> {
        self.events.iter().flat_map(CollisionEvent::words).collect()
    }

    pub fn change_words(&self) -> Vec<u32> {
        let changes = self.changes.iter();
        changes.flat_map(ContactStatusChange::words).collect()
    }

    /// Of the events, the changes, the distances.
    pub fn hashes(&self) -> [u32; 3] {
        let mut hashes = [Hash::START; 3];
        let [events, changes, distances] = &mut hashes;
        events.words(&self.event_words());
        changes.words(&self.change_words());
        distances.floats(&self.distances);
        hashes.map(|h| h.0)
    }
}
