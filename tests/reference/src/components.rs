//! What a step reads: boxes and layers from src/collision/collider, the queries of src/collision/narrow_phase/system_param.rs.
//! The files of `Friction`, `Restitution`, `CoefficientCombine`, `SpeculativeCcd` and `BodySizeMetrics` are not at hand: two
//! coefficients combine by the specification's rule 7.

use super::{ContactManifold, ContactPair, Entity, Rot, Vector};
use crate::branches::reach;
use crate::layout::RULES;

#[derive(Clone, Copy, Debug)]
pub struct ColliderAabb {
    pub min: Vector,
    pub max: Vector,
}

impl ColliderAabb {
    /// Increases the size of the bounding volume in each direction by the given amount.
    #[inline(always)]
    pub fn grow(&self, amount: Vector) -> Self {
        Self {
            min: self.min - amount,
            max: self.max + amount,
        }
    }

    /// Checks if `self` intersects with `other`.
    #[inline(always)]
    pub fn intersects(&self, other: &Self) -> bool {
        let x_overlaps = self.min.x <= other.max.x && self.max.x >= other.min.x;
        let y_overlaps = self.min.y <= other.max.y && self.max.y >= other.min.y;
        let z_overlaps = self.min.z <= other.max.z && self.max.z >= other.min.z;
        x_overlaps && y_overlaps && z_overlaps
    }
}

#[derive(Clone, Copy, Debug)]
pub struct CollisionLayers {
    pub memberships: u32,
    pub filters: u32,
}

impl CollisionLayers {
    /// Returns true if an entity with this [`CollisionLayers`] configuration
    /// can interact with an entity with the `other` [`CollisionLayers`] configuration.
    pub fn interacts_with(self, other: Self) -> bool {
        (self.memberships & other.filters) != 0 && (other.memberships & self.filters) != 0
    }
}

#[derive(Clone, Copy, Debug, PartialEq, Eq, PartialOrd, Ord)]
pub enum CoefficientCombine {
    Average = 1,
    GeometricMean = 2,
    Min = 3,
    Multiply = 4,
    Max = 5,
}

impl CoefficientCombine {
    pub const ALL: [Self; RULES] = [
        Self::Average,
        Self::GeometricMean,
        Self::Min,
        Self::Multiply,
        Self::Max,
    ];

    pub fn mix(&self, a: f32, b: f32) -> f32 {
        match self {
            CoefficientCombine::Average => (a + b) * 0.5,
            CoefficientCombine::GeometricMean => (a * b).sqrt(),
            CoefficientCombine::Min => a.min(b),
            CoefficientCombine::Multiply => a * b,
            CoefficientCombine::Max => a.max(b),
        }
    }
}

#[derive(Clone, Copy, Debug)]
pub struct Friction {
    pub dynamic_coefficient: f32,
    pub combine_rule: CoefficientCombine,
}

impl Friction {
    pub fn combine(&self, other: Self) -> Self {
        reach!("friction by 1 and 1" + pair_of_rules(self.combine_rule, other.combine_rule));
        // Choose rule with higher priority
        let rule = self.combine_rule.max(other.combine_rule);
        Self {
            dynamic_coefficient: rule.mix(self.dynamic_coefficient, other.dynamic_coefficient),
            combine_rule: rule,
        }
    }
}

#[derive(Clone, Copy, Debug)]
pub struct Restitution {
    pub coefficient: f32,
    pub combine_rule: CoefficientCombine,
}

impl Restitution {
    pub fn combine(&self, other: Self) -> Self {
        reach!("restitution by 1 and 1" + pair_of_rules(self.combine_rule, other.combine_rule));
        // Choose rule with higher priority
        let rule = self.combine_rule.max(other.combine_rule);
        Self {
            coefficient: rule.mix(self.coefficient, other.coefficient),
            combine_rule: rule,
        }
    }
}

fn pair_of_rules(a: CoefficientCombine, b: CoefficientCombine) -> usize {
    (a as usize - 1) * RULES + (b as usize - 1)
}

#[derive(Clone, Copy, Debug)]
pub struct CollisionMargin(pub f32);

#[derive(Clone, Copy, Debug)]
pub struct SpeculativeCcd {
    pub max_distance: f32,
}

#[derive(Clone, Copy, Debug, Default)]
pub struct BodySizeMetrics {
    pub sweep_radius: f32,
}

#[derive(Clone, Copy, Debug)]
pub struct ColliderOf {
    pub body: Entity,
}

#[derive(Clone, Copy, Debug)]
pub struct ColliderQuery {
    pub of: Option<ColliderOf>,
    pub enlarged_aabb: ColliderAabb,
    pub position: Vector,
    pub layers: CollisionLayers,
    pub friction: Option<Friction>,
    pub restitution: Option<Restitution>,
    pub collision_margin: Option<CollisionMargin>,
    pub is_sensor: bool,
}

#[derive(Clone, Copy, Debug)]
pub struct RigidBodyQuery {
    pub is_static: bool,
    pub position: Vector,
    pub rotation: Rot,
    pub center_of_mass: Vector,
    pub linear_velocity: Vector,
    pub angular_velocity: Vector,
    pub friction: Option<Friction>,
    pub collision_margin: Option<CollisionMargin>,
    pub speculative_ccd: Option<SpeculativeCcd>,
    pub size_metrics: BodySizeMetrics,
}

#[derive(Clone, Copy, Debug)]
pub struct QueryEntityError;

/// An entity's components, or none.
#[derive(Clone, Debug)]
pub struct Query<T>(pub Vec<Option<T>>);

impl<T> Query<T> {
    #[inline]
    pub fn get(&self, entity: Entity) -> Result<&T, QueryEntityError> {
        self.0[entity.0 as usize].as_ref().ok_or(QueryEntityError)
    }

    #[inline]
    pub fn get_many(&self, [a, b]: [Entity; 2]) -> Result<[&T; 2], QueryEntityError> {
        Ok([self.get(a)?, self.get(b)?])
    }
}

#[derive(Clone, Copy, Debug)]
pub struct NarrowPhaseConfig {
    pub contact_tolerance: f32,
    pub recycle_distance: f32,
    /// The squared cosine of half the recycle angle, which the Rust computes from the angle.
    pub recycle_angular_distance: f32,
    pub match_contacts: bool,
}

/// Shapes that clear the manifolds and return the proposed ones, by contact id. They note the distance that they are asked for.
#[derive(Clone, Debug, Default)]
pub struct Shapes {
    pub proposed: Vec<Vec<ContactManifold>>,
    pub asked: Vec<Option<f32>>,
}

impl Shapes {
    #[inline]
    pub fn contact_manifolds(
        &mut self,
        contact_id: usize,
        max_contact_distance: f32,
        manifolds: &mut Vec<ContactManifold>,
    ) {
        self.asked[contact_id] = Some(max_contact_distance);
        manifolds.clear();
        manifolds.extend(self.proposed[contact_id].iter().cloned());
    }
}

/// Hooks that modify nothing; the answers by contact id.
#[derive(Clone, Debug, Default)]
pub struct Hooks(pub Vec<bool>);

impl Hooks {
    #[inline]
    pub fn modify_contacts(&self, contacts: &mut ContactPair) -> bool {
        self.0[contacts.contact_id.0 as usize]
    }
}
