//! From src/collision/contact_types/mod.rs and src/collision/contact_types/feature_id.rs.

use super::math::*;
use crate::branches::reach;
use std::ops::BitOr;

#[derive(Clone, Copy, Debug, PartialEq, Eq)]
pub struct Entity(pub u32);

impl Entity {
    #[inline]
    pub fn index_u32(self) -> u32 {
        self.0
    }
}

/// A stable identifier for a [`ContactEdge`].
#[derive(Clone, Copy, Debug, PartialEq, Eq, PartialOrd, Ord)]
pub struct ContactId(pub u32);

impl ContactId {
    /// A placeholder identifier for a [`ContactEdge`].
    ///
    /// Used as a temporary value before the contact pair is added to the [`ContactGraph`].
    pub const PLACEHOLDER: Self = Self(u32::MAX);
}

#[derive(Copy, Clone, Debug, PartialEq, Eq)]
pub struct PackedFeatureId(pub u32);

impl PackedFeatureId {
    /// Packed feature id identifying an unknown feature.
    pub const UNKNOWN: Self = Self(0);
}

// Stands in for `bitflags::bitflags`.
macro_rules! bitflags {
    ($type:ident: $bits:ty { $($name:ident = $value:expr;)* }) => {
        #[derive(Clone, Copy, Debug, PartialEq, Eq)]
        pub struct $type(pub $bits);

        impl $type {
            $(pub const $name: Self = Self($value);)*

            #[inline]
            pub const fn empty() -> Self {
                Self(0)
            }

            #[inline]
            pub const fn contains(self, other: Self) -> bool {
                self.0 & other.0 == other.0
            }

            #[inline]
            pub fn set(&mut self, other: Self, value: bool) {
                if value {
                    self.0 |= other.0;
                } else {
                    self.0 &= !other.0;
                }
            }
        }

        impl BitOr for $type {
            type Output = Self;
            #[inline]
            fn bitor(self, other: Self) -> Self {
                Self(self.0 | other.0)
            }
        }
    };
}

// SLEEPING is left out.
bitflags! {
    ContactEdgeFlags: u8 {
        TOUCHING = 1 << 0;
        CONTACT_EVENTS = 1 << 2;
    }
}

bitflags! {
    ContactPairFlags: u16 {
        TOUCHING = 1 << 0;
        DISJOINT_AABB = 1 << 1;
        STARTED_TOUCHING = 1 << 2;
        STOPPED_TOUCHING = 1 << 3;
        GENERATE_CONSTRAINTS = 1 << 4;
        STARTED_GENERATING_CONSTRAINTS = 1 << 5;
        STATIC1 = 1 << 6;
        STATIC2 = 1 << 7;
        MODIFY_CONTACTS = 1 << 8;
    }
}

/// Cold contact data stored in the [`ContactGraph`]. Used as a persistent handle for a [`ContactPair`].
#[derive(Clone, Debug)]
pub struct ContactEdge {
    pub id: ContactId,
    pub collider1: Entity,
    pub collider2: Entity,
    pub body1: Option<Entity>,
    pub body2: Option<Entity>,
    pub pair_index: usize,
    pub flags: ContactEdgeFlags,
}

impl ContactEdge {
    /// Creates a new non-touching [`ContactEdge`] with the given entities.
    #[inline]
    pub fn new(collider1: Entity, collider2: Entity) -> Self {
        Self {
            // This gets set to a valid ID when the contact pair is added to the `ContactGraph`.
            id: ContactId::PLACEHOLDER,
            collider1,
            collider2,
            body1: None,
            body2: None,
            pair_index: 0,
            flags: ContactEdgeFlags::empty(),
        }
    }

    /// Returns `true` if collision events are enabled for the contact.
    #[inline]
    pub fn events_enabled(&self) -> bool {
        self.flags.contains(ContactEdgeFlags::CONTACT_EVENTS)
    }
}

/// A contact pair between two colliders.
#[derive(Clone, Debug)]
pub struct ContactPair {
    pub contact_id: ContactId,
    pub collider1: Entity,
    pub collider2: Entity,
    pub body1: Option<Entity>,
    pub body2: Option<Entity>,
    pub manifolds: Vec<ContactManifold>,
    pub manifold_count_change: i32,
    pub speculative_distance: f32,
    pub recycling_cache: Option<ContactRecyclingCache>,
    pub flags: ContactPairFlags,
}

/// A cache of data used for recycling contacts across timesteps.
#[derive(Clone, Debug)]
pub struct ContactRecyclingCache {
    pub rotation1: Rot,
    pub rotation2: Rot,
    pub relative_translation: Vector,
    pub relative_rotation: Rot,
}

impl ContactPair {
    /// Creates a new [`ContactPair`] with the given entities.
    #[inline]
    pub fn new(collider1: Entity, collider2: Entity, contact_id: ContactId) -> Self {
        Self {
            contact_id,
            collider1,
            collider2,
            body1: None,
            body2: None,
            manifolds: Vec::new(),
            manifold_count_change: 0,
            speculative_distance: 0.0,
            recycling_cache: None,
            flags: ContactPairFlags::empty(),
        }
    }

    /// Returns `true` if the colliders are touching, including sensors.
    #[inline]
    pub fn is_touching(&self) -> bool {
        self.flags.contains(ContactPairFlags::TOUCHING)
    }

    /// Returns `true` if the AABBs of the colliders are no longer overlapping.
    #[inline]
    pub fn aabbs_disjoint(&self) -> bool {
        self.flags.contains(ContactPairFlags::DISJOINT_AABB)
    }

    /// Returns `true` if a collision started during the current frame.
    #[inline]
    pub fn collision_started(&self) -> bool {
        self.flags.contains(ContactPairFlags::STARTED_TOUCHING)
    }

    /// Returns `true` if the contact pair should generate contact constraints.
    #[inline]
    pub fn generates_constraints(&self) -> bool {
        self.flags.contains(ContactPairFlags::GENERATE_CONSTRAINTS)
    }
}

/// A contact manifold describing a contact surface between two colliders.
#[derive(Clone, Debug)]
pub struct ContactManifold {
    pub points: Vec<ContactPoint>,
    pub normal: Vector,
    pub friction: f32,
    pub restitution: f32,
    pub tangent_velocity: Vector,
}

impl ContactManifold {
    /// Creates a new [`ContactManifold`] with the given contact points and surface normals.
    #[inline]
    pub fn new(points: impl IntoIterator<Item = ContactPoint>, normal: Vector) -> Self {
        Self {
            points: points.into_iter().collect(),
            normal,
            friction: 0.0,
            restitution: 0.0,
            tangent_velocity: Vector::ZERO,
        }
    }

    /// Copies impulses from previous contacts to matching contacts in `self`.
    ///
    /// Contacts are first matched based on their [feature IDs](PackedFeatureId), and if they are unknown,
    /// matching is done based on contact positions using the given `distance_threshold`
    /// for determining if points are too far away from each other to be considered matching.
    #[inline]
    pub fn match_contacts(&mut self, previous_contacts: &[ContactPoint], distance_threshold: f32) {
        // The squared maximum distance for two contact points to be considered matching.
        let distance_threshold_squared = distance_threshold.powi(2);

        for contact in self.points.iter_mut() {
            for previous_contact in previous_contacts.iter() {
                // If the feature IDs match, copy the contact impulses over for warm starting.
                if (contact.feature_id1 == previous_contact.feature_id1
                    && contact.feature_id2 == previous_contact.feature_id2) ||
                    // we have to check both directions because the entities are sorted in order
                    // of aabb.min.x, which could have changed even the two objects in contact are the same
                    (contact.feature_id2 == previous_contact.feature_id1
                    && contact.feature_id1 == previous_contact.feature_id2)
                {
                    reach!(by super::reached::matched_by_features(contact, previous_contact));
                    contact.warm_start_normal_impulse = previous_contact.warm_start_normal_impulse;
                    contact.warm_start_tangent_impulse =
                        previous_contact.warm_start_tangent_impulse;
                    break;
                }

                let unknown_features = contact.feature_id1 == PackedFeatureId::UNKNOWN
                    || contact.feature_id2 == PackedFeatureId::UNKNOWN;

                // If the feature IDs are unknown and the contact positions match closely enough,
                // copy the contact impulses over for warm starting.
                if unknown_features
                    && (contact.anchor1.distance_squared(previous_contact.anchor1)
                        < distance_threshold_squared
                        && contact.anchor2.distance_squared(previous_contact.anchor2)
                            < distance_threshold_squared)
                    || (contact.anchor1.distance_squared(previous_contact.anchor2)
                        < distance_threshold_squared
                        && contact.anchor2.distance_squared(previous_contact.anchor1)
                            < distance_threshold_squared)
                {
                    reach!(by super::reached::matched_by_anchors(
                        contact,
                        previous_contact,
                        distance_threshold_squared,
                    ));
                    contact.warm_start_normal_impulse = previous_contact.warm_start_normal_impulse;
                    contact.warm_start_tangent_impulse =
                        previous_contact.warm_start_tangent_impulse;
                    break;
                }
                reach!(by super::reached::not_matched(contact, previous_contact, distance_threshold_squared));
            }
        }
    }

    /// Prunes the contact points in the manifold to a maximum of 4 points.
    /// This is done to improve performance and stability.
    #[inline]
    pub fn prune_points(&mut self) {
        // Based on `PruneContactPoints` in Jolt by Jorrit Rouwe.
        // https://github.com/jrouwe/JoltPhysics/blob/f3dbdd2dadac4a5510391f103f264c0427d55c50/Jolt/Physics/Collision/ManifoldBetweenTwoFaces.cpp#L16

        // We use a heuristic of `distance_to_com * penetration` to find the points we should keep.
        // Neither of these should become zero, so we clamp the minimum distance.
        const MIN_DISTANCE_SQUARED: f32 = 1e-6;

        // Project the contact points onto the contact normal and compute the squared penetration depths.
        let (projected, penetrations_squared): (Vec<Vector>, Vec<f32>) = self
            .points
            .iter()
            .map(|point| {
                (
                    point.anchor1.reject_from_normalized(self.normal),
                    (point.penetration * point.penetration).max(MIN_DISTANCE_SQUARED),
                )
            })
            .unzip();

        // Find the point that is farthest from the center of mass, as its torque has the largest influence,
        // while also taking into account the penetration depth heuristic.
        let mut point1_index = 0;
        let mut value = f32::MIN;
        for (i, point) in projected.iter().enumerate() {
            let v = point.length_squared().max(MIN_DISTANCE_SQUARED) * penetrations_squared[i];
            if v > value {
                value = v;
                point1_index = i;
            }
        }
        let point1 = projected[point1_index];

        // Find the point farthest from the first point, forming a line segment.
        // Also consider the penetration depth heuristic.
        let mut point2_index = usize::MAX;
        let mut max_distance = f32::MIN;
        for (i, point) in projected.iter().enumerate() {
            if i == point1_index {
                continue;
            }
            let v =
                point.distance_squared(point1).max(MIN_DISTANCE_SQUARED) * penetrations_squared[i];
            if v > max_distance {
                max_distance = v;
                point2_index = i;
            }
        }
        let point2 = projected[point2_index];

        // Find the farthest points on both sides of the line segment in order to maximize the area.
        let mut point3_index = usize::MAX;
        let mut point4_index = usize::MAX;
        let mut min_value = 0.0;
        let mut max_value = 0.0;
        let perp = (point2 - point1).cross(self.normal);
        for (i, point) in projected.iter().enumerate() {
            if i == point1_index || i == point2_index {
                continue;
            }
            let v = perp.dot(point - point1);
            if v < min_value {
                min_value = v;
                point3_index = i;
            } else if v > max_value {
                max_value = v;
                point4_index = i;
            } else {
                reach!(match () {
                    _ if v.is_nan() => "side value NaN",
                    _ if v == 0.0 => "side value 0",
                    _ => "side value not further",
                });
            }
        }
        reach!(
            match (point3_index != usize::MAX, point4_index != usize::MAX) {
                (true, true) => "pruned to four points",
                (true, false) => "pruned to three, one below",
                (false, true) => "pruned to three, one above",
                (false, false) => "pruned to two points",
            }
        );

        // Construct the manifold, ensuring the order is correct to form a convex polygon.
        let points = core::mem::take(&mut self.points);
        self.points.push(points[point1_index]);
        if point3_index != usize::MAX {
            self.points.push(points[point3_index]);
        }
        self.points.push(points[point2_index]);
        if point4_index != usize::MAX {
            self.points.push(points[point4_index]);
        }
    }

    /// Retains only the elements specified by the predicate.
    #[inline]
    pub(crate) fn retain_points_mut<F>(&mut self, f: F)
    where
        F: FnMut(&mut ContactPoint) -> bool,
    {
        self.points.retain_mut(f);
    }
}

/// Data associated with a contact point in a [`ContactManifold`].
#[derive(Clone, Copy, Debug)]
pub struct ContactPoint {
    pub anchor1: Vector,
    pub anchor2: Vector,
    pub point: Vector,
    pub penetration: f32,
    pub base_penetration: f32,
    pub normal_impulse: f32,
    pub normal_speed: f32,
    pub warm_start_normal_impulse: f32,
    pub warm_start_tangent_impulse: Vec2,
    pub feature_id1: PackedFeatureId,
    pub feature_id2: PackedFeatureId,
}

impl ContactPoint {
    /// Creates a new [`ContactPoint`] with the given world-space contact points
    /// relative to the centers of mass of the two shapes, the world-space contact point,
    /// and the penetration depth.
    pub fn new(anchor1: Vector, anchor2: Vector, world_point: Vector, penetration: f32) -> Self {
        Self {
            anchor1,
            anchor2,
            point: world_point,
            penetration,
            base_penetration: penetration,
            normal_impulse: 0.0,
            normal_speed: 0.0,
            warm_start_normal_impulse: 0.0,
            warm_start_tangent_impulse: Vec2::ZERO,
            feature_id1: PackedFeatureId::UNKNOWN,
            feature_id2: PackedFeatureId::UNKNOWN,
        }
    }

    /// Sets the [feature IDs](PackedFeatureId) of the contact points.
    #[inline]
    pub fn with_feature_ids(mut self, id1: PackedFeatureId, id2: PackedFeatureId) -> Self {
        self.feature_id1 = id1;
        self.feature_id2 = id2;
        self
    }
}
