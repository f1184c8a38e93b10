//! Lines as bytes. A number may have zeros in front, a float small letters; now and then a number is out of its range or too large.

use crate::draws::{Rng, StepSettings};
use crate::sides::Against;
use reference::layout::*;
use reference::*;

/// The lines of a text, each with its LF.
pub fn lines(text: &[u8]) -> impl Iterator<Item = &[u8]> {
    text.split_inclusive(|byte| *byte == b'\n')
}

/// Numbers that fit no record.
const TOO_LARGE: [&str; 4] = [
    "4294967296",
    "4294967303",
    "0000000004294967296",
    "99999999999999999999",
];

/// A line that is being written.
pub struct Line<'a> {
    rng: &'a mut Rng,
    text: Vec<u8>,
}

impl<'a> Line<'a> {
    fn new(rng: &'a mut Rng, letter: u8) -> Self {
        Self {
            rng,
            text: vec![letter],
        }
    }

    fn end(mut self) -> Vec<u8> {
        self.text.push(b'\n');
        self.text
    }

    fn field(mut self, text: &str) -> Self {
        self.text.push(b'\t');
        self.text.extend(text.bytes());
        self
    }

    fn number(self, number: u32) -> Self {
        let zeros = match self.rng.below(96) {
            0 => 12,
            1..=3 => 1 + self.rng.below(3),
            _ => 0,
        };
        let digits = match self.rng.below(20_000) {
            0 => self.rng.of(&TOO_LARGE),
            1 => "4294967295",
            _ => &number.to_string(),
        };
        let text = "0".repeat(zeros) + digits;
        self.field(&text)
    }

    /// A number that has to be below a limit.
    fn below(self, number: u32, limit: usize) -> Self {
        let limit = limit as u32;
        let number = match self.rng.one_in(900) {
            true => self.rng.of(&[limit, limit + 1, u32::MAX]),
            false => number,
        };
        self.number(number)
    }

    fn collider_number(self, number: u32) -> Self {
        self.below(number, COLLIDERS)
    }

    fn mark(self, mark: bool) -> Self {
        self.below(u32::from(mark), 2)
    }

    fn rule(self, rule: CoefficientCombine) -> Self {
        let number = match self.rng.one_in(900) {
            true => 0,
            false => rule as u32,
        };
        self.below(number, RULES + 1)
    }

    fn float(self, float: f32) -> Self {
        let any_nan = float.is_nan() && self.rng.one_in(2);
        let bits = match any_nan {
            true => f32::INFINITY.to_bits() | self.rng.word() | 1,
            false => float.to_bits(),
        };
        let text = match self.rng.below(8) {
            0 => format!("{bits:08x}"),
            1 => format!("{:04X}{:04x}", bits >> 16, bits & 0xffff),
            _ => format!("{bits:08X}"),
        };
        self.field(&text)
    }

    fn optional<T>(self, value: Option<T>, write: impl Fn(Self, T) -> Self) -> Self {
        match value {
            Some(value) => write(self, value),
            None => self.field("-"),
        }
    }

    fn body_number(self, body: Option<Entity>) -> Self {
        self.optional(body, |line, body| line.below(body.0, BODIES))
    }

    fn vector(self, v: Vec3) -> Self {
        self.float(v.x).float(v.y).float(v.z)
    }

    fn friction(self, friction: Friction) -> Self {
        let line = self.float(friction.dynamic_coefficient);
        line.rule(friction.combine_rule)
    }

    fn restitution(self, restitution: Restitution) -> Self {
        let line = self.float(restitution.coefficient);
        line.rule(restitution.combine_rule)
    }

    /// A mark; a dash or nothing where it is not named; now and then a number out of range, no mark, or a field more.
    fn matching(self, matching: Option<Matching>) -> Self {
        match (self.rng.below(1000), matching) {
            (0, _) => self.field(""),
            (1, _) => self.field("--"),
            (2, _) => self.field("-").field("-"),
            (3, Some(matching)) => self.below(matching as u32, 2).field("0"),
            (4..12, Some(_)) => self.number(2),
            (12..16, Some(_)) => self.number(u32::MAX),
            (_, Some(matching)) => self.below(matching as u32, 2),
            (..500, None) => self.field("-"),
            (_, None) => self,
        }
    }

    /// In either order.
    fn pair(self, (a, b): (u32, u32)) -> Self {
        let (a, b) = if self.rng.one_in(2) { (a, b) } else { (b, a) };
        self.collider_number(a).collider_number(b)
    }
}

pub fn addition(rng: &mut Rng, a: &Addition) -> Vec<u8> {
    Line::new(rng, b'A')
        .collider_number(a.collider1.0)
        .collider_number(a.collider2.0)
        .body_number(a.body1)
        .body_number(a.body2)
        .mark(a.contact_events)
        .mark(a.modify_contacts)
        .float(a.speculative_distance)
        .end()
}

/// What a line says for the matching setting: nothing or by number, against the model also by place.
pub fn matching(rng: &mut Rng, against: Against) -> Option<Matching> {
    match against {
        Against::Rust => rng.of(&[None, Some(Matching::ByNumber)]),
        Against::Model => rng.matching(),
    }
}

pub fn settings(rng: &mut Rng, s: &StepSettings) -> Vec<u8> {
    Line::new(rng, b'T')
        .float(s.delta_secs)
        .float(s.length_unit)
        .float(s.config.contact_tolerance)
        .float(s.config.recycle_distance)
        .float(s.config.recycle_angular_distance)
        .mark(s.config.match_contacts)
        .friction(s.default_friction)
        .restitution(s.default_restitution)
        .matching(s.matching)
        .end()
}

pub fn collider(rng: &mut Rng, number: u32, c: &ColliderQuery) -> Vec<u8> {
    Line::new(rng, b'C')
        .collider_number(number)
        .body_number(c.of.map(|of| of.body))
        .vector(c.enlarged_aabb.min)
        .vector(c.enlarged_aabb.max)
        .vector(c.position)
        .number(c.layers.memberships)
        .number(c.layers.filters)
        .optional(c.friction, Line::friction)
        .optional(c.restitution, Line::restitution)
        .optional(c.collision_margin, |line, margin| line.float(margin.0))
        .mark(c.is_sensor)
        .end()
}

pub fn body(rng: &mut Rng, number: u32, b: &RigidBodyQuery) -> Vec<u8> {
    let q = b.rotation;
    Line::new(rng, b'B')
        .below(number, BODIES)
        .mark(b.is_static)
        .vector(b.position)
        .float(q.x)
        .float(q.y)
        .float(q.z)
        .float(q.w)
        .vector(b.center_of_mass)
        .vector(b.linear_velocity)
        .vector(b.angular_velocity)
        .optional(b.friction, Line::friction)
        .optional(b.collision_margin, |line, margin| line.float(margin.0))
        .optional(b.speculative_ccd, |line, ccd| line.float(ccd.max_distance))
        .float(b.size_metrics.sweep_radius)
        .end()
}

pub fn hook(rng: &mut Rng, pair: (u32, u32), answer: bool) -> Vec<u8> {
    Line::new(rng, b'H').pair(pair).mark(answer).end()
}

/// A manifold's line and those of its points.
pub fn manifold(rng: &mut Rng, pair: (u32, u32), m: &ContactManifold) -> Vec<u8> {
    let mut text = Line::new(rng, b'M').pair(pair).vector(m.normal).end();
    for point in &m.points {
        text.extend(self::point(rng, point));
    }
    text
}

fn point(rng: &mut Rng, p: &ContactPoint) -> Vec<u8> {
    Line::new(rng, b'P')
        .vector(p.anchor1)
        .vector(p.anchor2)
        .vector(p.point)
        .float(p.penetration)
        .number(p.feature_id1.0)
        .number(p.feature_id2.0)
        .end()
}
