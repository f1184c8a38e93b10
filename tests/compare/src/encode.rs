//! The reference's typed values as those of the bindings.

use crate::draws::StepSettings;
use reference::{self, ContactManifold, ContactPoint, Quat, Vec3};
use sardinerod::{
    Body, Coefficient, CoefficientCombine, Collider, Matching, PackedFeatureId, ProposedManifold,
    ProposedPoint, Settings,
};

pub fn settings(s: &StepSettings) -> Settings {
    Settings {
        step_time: s.delta_secs,
        length_unit: s.length_unit,
        contact_tolerance: s.config.contact_tolerance,
        recycle_distance: s.config.recycle_distance,
        recycle_cosine: s.config.recycle_angular_distance,
        match_contacts: s.config.match_contacts,
        default_friction: friction(s.default_friction),
        default_restitution: restitution(s.default_restitution),
        matching: s.matching.map(matching),
    }
}

fn matching(matching: reference::Matching) -> Matching {
    match matching {
        reference::Matching::ByNumber => Matching::ByNumber,
        reference::Matching::ByPlace => Matching::ByPlace,
    }
}

pub fn collider(c: &reference::ColliderQuery) -> Collider {
    Collider {
        body: c.of.map(|of| of.body.0),
        lower: vector(c.enlarged_aabb.min),
        upper: vector(c.enlarged_aabb.max),
        position: vector(c.position),
        memberships: c.layers.memberships,
        filters: c.layers.filters,
        friction: c.friction.map(friction),
        restitution: c.restitution.map(restitution),
        margin: c.collision_margin.map(|margin| margin.0),
        sensor: c.is_sensor,
    }
}

pub fn body(b: &reference::RigidBodyQuery) -> Body {
    Body {
        is_static: b.is_static,
        position: vector(b.position),
        rotation: quaternion(b.rotation),
        center_of_mass: vector(b.center_of_mass),
        linear_velocity: vector(b.linear_velocity),
        angular_velocity: vector(b.angular_velocity),
        friction: b.friction.map(friction),
        margin: b.collision_margin.map(|margin| margin.0),
        speculative_maximum: b.speculative_ccd.map(|ccd| ccd.max_distance),
        sweep_radius: b.size_metrics.sweep_radius,
    }
}

pub fn proposed(manifolds: &[ContactManifold]) -> Vec<ProposedManifold> {
    manifolds
        .iter()
        .map(|manifold| ProposedManifold {
            normal: vector(manifold.normal),
            points: manifold.points.iter().map(proposed_point).collect(),
        })
        .collect()
}

fn proposed_point(point: &ContactPoint) -> ProposedPoint {
    ProposedPoint {
        anchor1: vector(point.anchor1),
        anchor2: vector(point.anchor2),
        point: vector(point.point),
        penetration: point.penetration,
        feature_id1: PackedFeatureId(point.feature_id1.0),
        feature_id2: PackedFeatureId(point.feature_id2.0),
    }
}

pub fn vector(v: Vec3) -> [f32; 3] {
    [v.x, v.y, v.z]
}

pub fn quaternion(q: Quat) -> [f32; 4] {
    [q.x, q.y, q.z, q.w]
}

fn friction(friction: reference::Friction) -> Coefficient {
    Coefficient {
        value: friction.dynamic_coefficient,
        combine_rule: rule(friction.combine_rule),
    }
}

fn restitution(restitution: reference::Restitution) -> Coefficient {
    Coefficient {
        value: restitution.coefficient,
        combine_rule: rule(restitution.combine_rule),
    }
}

fn rule(rule: reference::CoefficientCombine) -> CoefficientCombine {
    match rule {
        reference::CoefficientCombine::Average => CoefficientCombine::Average,
        reference::CoefficientCombine::GeometricMean => CoefficientCombine::GeometricMean,
        reference::CoefficientCombine::Min => CoefficientCombine::Min,
        reference::CoefficientCombine::Multiply => CoefficientCombine::Multiply,
        reference::CoefficientCombine::Max => CoefficientCombine::Max,
    }
}
