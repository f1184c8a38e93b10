//! Settings, colliders and bodies.

use super::tables::*;
use super::{Rng, Style};
use reference::*;

/// The settings of a step.
#[derive(Clone, Copy, Debug)]
pub struct StepSettings {
    pub delta_secs: f32,
    pub length_unit: f32,
    pub config: NarrowPhaseConfig,
    pub default_friction: Friction,
    pub default_restitution: Restitution,
    /// None where it is not named.
    pub matching: Option<Matching>,
}

impl Rng {
    /// A unit, nearly always.
    fn rotation(&mut self, style: Style) -> Quat {
        if style == Style::Awkward && self.one_in(4) {
            return quat(
                self.float(style),
                self.float(style),
                self.float(style),
                self.float(style),
            );
        }
        match self.below(4) {
            0 => {
                let q = quat(
                    self.float(Style::Common),
                    self.float(Style::Common),
                    self.float(Style::Common),
                    self.float(Style::Common),
                );
                let length = q.dot(q).sqrt();
                quat(q.x / length, q.y / length, q.z / length, q.w / length)
            }
            _ => self.of(&ROTATIONS),
        }
    }

    fn optional<T>(&mut self, n: usize, draw: impl FnOnce(&mut Self) -> T) -> Option<T> {
        self.one_in(n).then(|| draw(self))
    }

    fn friction(&mut self) -> Friction {
        Friction {
            dynamic_coefficient: self.of(&COEFFICIENTS),
            combine_rule: self.of(&CoefficientCombine::ALL),
        }
    }

    fn restitution(&mut self) -> Restitution {
        Restitution {
            coefficient: self.of(&COEFFICIENTS),
            combine_rule: self.of(&CoefficientCombine::ALL),
        }
    }

    fn margin(&mut self) -> Option<CollisionMargin> {
        self.optional(3, |rng| CollisionMargin(rng.of(&MARGINS)))
    }

    /// Of the table, or of an angle up to a quarter turn, as the Rust computes it.
    fn cosine(&mut self) -> f32 {
        if self.one_in(3) {
            let angle = self.word() as f32 / u32::MAX as f32 * 1.570_796_4;
            let cosine = (angle * 0.5).cos();
            cosine * cosine
        } else {
            self.of(&COSINES)
        }
    }

    /// Matching is named by number: the Rust's.
    pub fn settings(&mut self) -> StepSettings {
        StepSettings {
            delta_secs: self.of(&TIMES),
            length_unit: self.of(&UNITS),
            config: NarrowPhaseConfig {
                contact_tolerance: self.of(&TOLERANCES),
                recycle_distance: self.of(&DISTANCES),
                recycle_angular_distance: self.cosine(),
                match_contacts: !self.one_in(4),
            },
            default_friction: self.friction(),
            default_restitution: self.restitution(),
            matching: Some(Matching::ByNumber),
        }
    }

    /// By number, by place, or not named.
    pub fn matching(&mut self) -> Option<Matching> {
        self.of(&[Some(Matching::ByNumber), Some(Matching::ByPlace), None])
    }

    /// From -1 to 1 on most axes.
    fn aabb(&mut self) -> ColliderAabb {
        let mut ends = || match self.below(160) {
            k @ 0..8 => ENDS[k],
            _ => (-1.0, 1.0),
        };
        let [x, y, z] = [ends(), ends(), ends()];
        ColliderAabb {
            min: vec3(x.0, y.0, z.0),
            max: vec3(x.1, y.1, z.1),
        }
    }

    /// At times none.
    fn layers(&mut self) -> CollisionLayers {
        let mut mask = |masks: &[u32; 8]| match self.one_in(64) {
            true => 0,
            false => self.of(masks),
        };
        CollisionLayers {
            memberships: mask(&MEMBERSHIPS),
            filters: mask(&FILTERS),
        }
    }

    /// A collider of that body, at times of another or none. Half of them stand where their bodies do.
    pub fn collider(
        &mut self,
        style: Style,
        body: u32,
        other: u32,
        position: Option<Vec3>,
    ) -> Option<ColliderQuery> {
        if self.one_in(64) {
            return None;
        }
        let number = match self.below(24) {
            0 => other,
            _ => body,
        };
        let named = !self.one_in(12);
        let position = match position {
            Some(position) if self.one_in(2) => position,
            _ => self.vector(style),
        };
        Some(ColliderQuery {
            of: named.then_some(ColliderOf {
                body: Entity(number),
            }),
            enlarged_aabb: self.aabb(),
            position,
            layers: self.layers(),
            friction: self.optional(2, Self::friction),
            restitution: self.optional(2, Self::restitution),
            collision_margin: self.margin(),
            is_sensor: self.one_in(12),
        })
    }

    pub fn body(&mut self, style: Style) -> Option<RigidBodyQuery> {
        if self.one_in(16) {
            return None;
        }
        let off_centre = self.one_in(2);
        Some(RigidBodyQuery {
            is_static: self.one_in(4),
            position: self.vector(style),
            rotation: self.rotation(style),
            center_of_mass: match off_centre {
                true => self.vector(style),
                false => Vec3::ZERO,
            },
            linear_velocity: self.vector(style),
            angular_velocity: self.vector(style),
            friction: self.optional(2, Self::friction),
            collision_margin: self.margin(),
            speculative_ccd: self.optional(2, |rng| SpeculativeCcd {
                max_distance: rng.of(&MAXIMA),
            }),
            size_metrics: BodySizeMetrics {
                sweep_radius: self.of(&RADII),
            },
        })
    }

    /// Moves one in four parts of the position and one in eight of the rotation a little; of a wild body they become awkward.
    pub fn move_body(&mut self, body: &mut RigidBodyQuery, wild: bool) {
        let RigidBodyQuery {
            position: p,
            rotation: q,
            ..
        } = body;
        for x in [&mut p.x, &mut p.y, &mut p.z] {
            self.move_part(x, 4, wild);
        }
        for x in [&mut q.x, &mut q.y, &mut q.z, &mut q.w] {
            self.move_part(x, 8, wild);
        }
    }

    fn move_part(&mut self, x: &mut f32, n: usize, wild: bool) {
        if self.one_in(n) {
            *x = match wild {
                true => self.of(&AWKWARD),
                false => *x + self.of(&MOVES),
            };
        }
    }
}
