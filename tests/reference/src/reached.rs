//! Branches whose counting needs more than the source computes there.

use super::*;
use crate::branches::{reach, reach_by_place};
use crate::layout::PROPOSED_POINTS;

pub fn matched_by_features(contact: &ContactPoint, previous: &ContactPoint) {
    reach!(match (contact.feature_id1.0, contact.feature_id2.0) {
        (0, 0) => "matched by features 0 and 0",
        (0, _) | (_, 0) => "matched by features, one 0",
        (a, _) if a == previous.feature_id1.0 => "matched by features straight",
        _ => "matched by features crossed",
    });
}

fn anchors_near(a: &ContactPoint, b: &ContactPoint, threshold: f32) -> bool {
    a.anchor1.distance_squared(b.anchor1) < threshold
        && a.anchor2.distance_squared(b.anchor2) < threshold
}

fn unknown(contact: &ContactPoint) -> bool {
    contact.feature_id1 == PackedFeatureId::UNKNOWN
        || contact.feature_id2 == PackedFeatureId::UNKNOWN
}

pub fn matched_by_anchors(contact: &ContactPoint, previous: &ContactPoint, threshold: f32) {
    reach!(
        match (unknown(contact), anchors_near(contact, previous, threshold)) {
            (true, true) => "matched by anchors straight, a feature unknown",
            (true, false) => "matched by anchors crossed, a feature unknown",
            (false, _) => "matched by anchors crossed, features known",
        }
    );
}

pub fn not_matched(contact: &ContactPoint, previous: &ContactPoint, threshold: f32) {
    reach!(
        match (unknown(contact), anchors_near(contact, previous, threshold)) {
            (false, true) => "not matched: anchors near, features known",
            (false, false) => "not matched: features known",
            (true, _) => "not matched: a feature unknown",
        }
    );
}

fn features(contact: &ContactPoint) -> [PackedFeatureId; 2] {
    [contact.feature_id1, contact.feature_id2]
}

fn crossed<T>([a, b]: [T; 2]) -> [T; 2] {
    [b, a]
}

fn features_equal(a: &ContactPoint, b: &ContactPoint) -> bool {
    features(a) == features(b) || features(a) == crossed(features(b))
}

fn anchors_near_crossed(a: &ContactPoint, b: &ContactPoint, threshold: f32) -> bool {
    a.anchor1.distance_squared(b.anchor2) < threshold
        && a.anchor2.distance_squared(b.anchor1) < threshold
}

pub fn placed_by_features(contact: &ContactPoint, previous: &ContactPoint) {
    reach_by_place!(if (features(contact) == features(previous)) {
        "by place: matched by features straight"
    } else {
        "by place: matched by features crossed"
    });
}

pub fn placed_by_anchors(contact: &ContactPoint, previous: &ContactPoint, threshold: f32) {
    reach_by_place!(
        match (unknown(contact), anchors_near(contact, previous, threshold)) {
            (true, true) => "by place: matched by anchors straight, a feature unknown",
            (true, false) => "by place: matched by anchors crossed, a feature unknown",
            (false, _) => "by place: matched by anchors crossed, features known",
        }
    );
}

pub fn not_placed(contact: &ContactPoint, previous: &ContactPoint, threshold: f32) {
    let (new, old) = (features(contact), features(previous));
    let none = [PackedFeatureId::UNKNOWN; 2];
    let near = anchors_near(contact, previous, threshold);
    reach_by_place!(match () {
        _ if new == none && old == none => "by place: not matched: features 0 and 0 on both sides",
        _ if new == old => "by place: not matched: features equal straight, one 0",
        _ if new == crossed(old) => "by place: not matched: features equal crossed, one 0",
        _ if unknown(contact) => "by place: not matched: a feature unknown",
        _ if near => "by place: not matched: anchors near, features known",
        _ => "by place: not matched: features known",
    });
}

/// Where a new point takes its impulses by place, beside where it would by number.
pub fn parted(contact: &ContactPoint, previous_contacts: &[ContactPoint], threshold: f32) {
    let near = |previous: &ContactPoint| {
        unknown(contact) && anchors_near(contact, previous, threshold)
            || anchors_near_crossed(contact, previous, threshold)
    };
    let equal = |previous: &ContactPoint| features_equal(contact, previous);
    let first = |compared: bool| {
        let mut previous = previous_contacts.iter();
        previous.position(|previous| compared && equal(previous) || near(previous))
    };
    match (first(true), first(!unknown(contact))) {
        (by_number, by_place) if by_number == by_place => {}
        (Some(_), None) => {
            reach_by_place!("by place: no old point, where by number there is one")
        }
        _ => reach_by_place!("by place: another old point than by number"),
    }
}

pub fn disjoint_event(edge: &ContactEdge) {
    let touching = edge.flags.contains(ContactEdgeFlags::TOUCHING);
    reach!(match (touching, edge.events_enabled()) {
        (true, true) => "disjoint: end event",
        (false, true) => "disjoint: no event, not touching",
        (true, false) => "disjoint: no event, touching without events",
        (false, false) => "disjoint: no event, neither",
    });
}

/// The place in the row of four names of a stop.
pub fn stop(pair: &ContactPair) -> usize {
    match (pair.generates_constraints(), pair.body1, pair.body2) {
        (false, _, _) => 0,
        (true, Some(_), Some(_)) => 1,
        (true, None, None) => 2,
        (true, _, _) => 3,
    }
}

pub fn started(pair: &ContactPair) {
    let both = pair
        .flags
        .contains(ContactPairFlags::STARTED_GENERATING_CONSTRAINTS);
    reach!(match (pair.generates_constraints(), both) {
        (true, true) => "started: start, both marks cleared",
        (true, false) => "started: start",
        (false, true) => "started: not generating, both marks cleared",
        (false, false) => "started: not generating",
    });
}

pub fn boxes(collider1: &ColliderQuery, collider2: &ColliderQuery, distance: f32) {
    let (a, b) = (collider1.enlarged_aabb, collider2.enlarged_aabb);
    let (grown1, grown2) = (
        a.grow(Vector::splat(distance)),
        b.grow(Vector::splat(distance)),
    );
    reach!(match (
        a.intersects(&grown2),
        a.intersects(&b),
        grown1.intersects(&grown2)
    ) {
        (true, true, _) => "boxes overlap",
        (true, false, _) => "boxes overlap by growing",
        (false, true, _) => "boxes apart by shrinking",
        (false, false, true) => "boxes apart, not if both grew",
        (false, false, false) => "boxes apart",
    });
    let tests = [
        a.min.x <= grown2.max.x,
        a.max.x >= grown2.min.x,
        a.min.y <= grown2.max.y,
        a.max.y >= grown2.min.y,
        a.min.z <= grown2.max.z,
        a.max.z >= grown2.min.z,
    ];
    if let Some(first) = tests.iter().position(|holds| !holds) {
        reach!("first test of the boxes that fails: 1" + first);
    }
}

pub fn apart(overlap: bool, collider1: &ColliderQuery, collider2: &ColliderQuery) {
    let first = collider1.layers.memberships & collider2.layers.filters != 0;
    reach!(match (overlap, first) {
        (false, _) => "way: apart by boxes",
        (true, false) => "way: apart by the first's memberships",
        (true, true) => "way: apart by the second's memberships",
    });
}

pub fn body(collider: &ColliderQuery, body: Option<&RigidBodyQuery>) {
    reach!(match (collider.of, body) {
        (None, _) => "body not named",
        (Some(_), None) => "body named and absent",
        (Some(_), Some(body)) if body.is_static => "body static",
        (Some(_), Some(_)) => "body moving",
    });
    if let Some(body) = body {
        let floats = body_floats(body);
        if floats.iter().any(|x| x.is_nan()) {
            reach!("body with NaN");
        }
        if floats.iter().any(|x| x.is_infinite()) {
            reach!("body with an infinity");
        }
    }
}

fn body_floats(body: &RigidBodyQuery) -> [f32; 16] {
    let (p, q, c) = (body.position, body.rotation, body.center_of_mass);
    let (v, w) = (body.linear_velocity, body.angular_velocity);
    [
        p.x, p.y, p.z, q.x, q.y, q.z, q.w, c.x, c.y, c.z, v.x, v.y, v.z, w.x, w.y, w.z,
    ]
}

pub fn angle(min_angle: f32, recycle_angular_distance: f32) {
    if min_angle.is_nan() || recycle_angular_distance.is_nan() {
        reach!("NaN in the angle");
    }
}

pub fn material(
    collider: &ColliderQuery,
    friction: Option<Friction>,
    margin: Option<CollisionMargin>,
) {
    reach!(match (collider.friction, friction) {
        (Some(_), Some(_)) => "friction of a collider before its body",
        (Some(_), None) => "friction of a collider",
        (None, Some(_)) => "friction of a body",
        (None, None) => "friction by default",
    });
    reach!(match (collider.restitution) {
        Some(_) => "restitution of a collider",
        None => "restitution by default",
    });
    reach!(match (collider.collision_margin, margin) {
        (Some(_), Some(_)) => "margin of a collider before its body",
        (Some(_), None) => "margin of a collider",
        (None, Some(_)) => "margin of a body",
        (None, None) => "no margin",
    });
}

pub fn maximum(speculative_ccd: Option<SpeculativeCcd>) {
    reach!(match (speculative_ccd.map(|s| s.max_distance)) {
        None => "maximum absent",
        Some(0.0) => "maximum 0",
        Some(f32::MAX) => "maximum the largest",
        Some(f32::INFINITY) => "maximum infinite",
        Some(x) if x.is_nan() => "maximum NaN",
        Some(x) if x < 0.0 => "maximum negative",
        Some(_) => "maximum positive",
    });
}

pub fn point(kept: bool, penetration: f32, distance: f32) {
    reach!(match () {
        _ if -penetration < distance => "point kept by penetration",
        _ if kept => "point kept by speed",
        _ if -penetration == distance => "point dropped, equal",
        _ => "point dropped",
    });
}

pub fn points_left(count: usize) {
    reach!(match count {
        0 => "points left: 0",
        1..=3 => "points left: 1 to 3",
        4 => "points left: 4",
        5 => "points left: 5",
        6..=16 => "points left: 6 to 16",
        17..PROPOSED_POINTS => "points left: over 16, not the most",
        _ => "points left: the most",
    });
}

pub fn hook(touching: bool, pair: &ContactPair, hooks: &Hooks) {
    let marked = pair.flags.contains(ContactPairFlags::MODIFY_CONTACTS);
    reach!(
        match (touching, marked, hooks.0[pair.contact_id.0 as usize]) {
            (true, true, true) => "hook yes, marked",
            (true, true, false) => "hook no, marked",
            (true, false, true) => "hook yes, not marked",
            (true, false, false) => "hook no, not marked",
            (false, _, _) => "hook not asked",
        }
    );
}

pub fn matching(manifolds: usize, on: bool, by: Matching) {
    if by == Matching::ByPlace {
        reach_by_place!(match (manifolds, on) {
            (0, _) => "by place: none to match",
            (1..=3, true) => "by place: matching on",
            (4, true) => "by place: 4 manifolds, matching on",
            (1..=4, false) => "by place: matching off",
            (_, true) => "by place: over 4 manifolds, matching on",
            (_, false) => "by place: over 4 manifolds, matching off",
        });
    }
    reach!(match (manifolds, on) {
        (0, _) => "none to match",
        (1..=3, true) => "matching on",
        (4, true) => "4 manifolds, matching on",
        (1..=4, false) => "matching off",
        (_, true) => "over 4 manifolds, matching on",
        (_, false) => "over 4 manifolds, matching off",
    });
}
