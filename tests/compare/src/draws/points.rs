//! Points, manifolds and proposals.

use super::tables::*;
use super::{Rng, Style};
use reference::layout::*;
use reference::*;

impl Rng {
    pub fn speculative_distance(&mut self) -> f32 {
        self.of(&SPECULATIVE)
    }

    pub fn normal(&mut self, style: Style) -> Vec3 {
        match self.one_in(8) {
            true => self.vector(style),
            false => self.of(&NORMALS),
        }
    }

    /// In coarse manifolds a grid with small offsets.
    fn anchor(&mut self, style: Style) -> Vec3 {
        match style {
            Style::Coarse => vec3(
                self.of(&[0.0, 0.5]),
                self.of(&OFFSETS),
                self.of(&[0.0, 0.0, 0.1]),
            ),
            _ => self.vector(style),
        }
    }

    fn penetration(&mut self, style: Style) -> f32 {
        match self.one_in(2) {
            true => self.of(&PENETRATIONS),
            false => self.float(style),
        }
    }

    /// Few features, unknown ones among them; many; many and unknown ones; few known ones.
    fn feature(&mut self, kind: usize) -> PackedFeatureId {
        PackedFeatureId(match kind {
            0 => self.of(&[0, 0, 0x4000_0001, 0x4000_0001, 0x8000_0002]),
            1 => 0xc000_0000 + self.below(50) as u32,
            2 if self.one_in(3) => 0,
            2 => 0x4000_0000 + self.below(50) as u32,
            _ => 1 + self.below(5) as u32,
        })
    }

    fn point(&mut self, style: Style, features: usize) -> ContactPoint {
        ContactPoint::new(
            self.anchor(style),
            self.anchor(style),
            self.vector(style),
            self.penetration(style),
        )
        .with_feature_ids(self.feature(features), self.feature(features))
    }

    /// A stored point proposed again: where an update brings it back, but for a small offset, at times crossed; with its features,
    /// these crossed, one of them unknown, or others.
    pub fn repeated_point(&mut self, stored: &ContactPoint, shifts: [Vec3; 2]) -> ContactPoint {
        let (mut anchor1, mut anchor2) = (stored.anchor1, stored.anchor2);
        if self.one_in(3) {
            std::mem::swap(&mut anchor1, &mut anchor2);
        }
        let (id1, id2) = (stored.feature_id1, stored.feature_id2);
        let (id1, id2) = match self.below(6) {
            0 | 1 => (id1, id2),
            2 => (id2, id1),
            3 => (PackedFeatureId::UNKNOWN, PackedFeatureId(self.word())),
            4 => (PackedFeatureId(self.word()), PackedFeatureId::UNKNOWN),
            _ => (PackedFeatureId(self.word()), PackedFeatureId(self.word())),
        };
        ContactPoint::new(
            anchor1 - shifts[0] + self.offset(),
            anchor2 - shifts[1] + self.offset(),
            stored.point,
            self.penetration(Style::Common),
        )
        .with_feature_ids(id1, id2)
    }

    /// Makes one or both features of each point unknown, so that unknown ones come up among old and new points alike.
    pub fn forget_features(&mut self, manifolds: &mut [ContactManifold]) {
        let manifolds = manifolds.iter_mut();
        for point in manifolds.flat_map(|manifold| &mut manifold.points) {
            let forgotten = self.below(4);
            if forgotten != 0 {
                point.feature_id1 = PackedFeatureId::UNKNOWN;
            }
            if forgotten != 1 {
                point.feature_id2 = PackedFeatureId::UNKNOWN;
            }
        }
    }

    fn offset(&mut self) -> Vec3 {
        vec3(self.of(&OFFSETS), 0.0, self.of(&[0.0, 0.0, 0.1]))
    }

    /// A number of points: up to as many as are stored.
    pub fn few_points(&mut self) -> usize {
        self.below(STORED_POINTS + 1)
    }

    /// More than are stored, up to as many as are proposed.
    pub fn many_points(&mut self) -> usize {
        STORED_POINTS + 1 + self.below(PROPOSED_POINTS - STORED_POINTS)
    }

    /// More than are proposed.
    pub fn too_many_points(&mut self) -> usize {
        PROPOSED_POINTS + 1 + self.below(3)
    }

    /// Many in one of four, and the most in one of sixteen, else few.
    fn point_count(&mut self) -> usize {
        match self.below(16) {
            0 => PROPOSED_POINTS,
            1..=4 => self.many_points(),
            _ => self.few_points(),
        }
    }

    pub fn manifold(&mut self, points: usize, style: Style, features: usize) -> ContactManifold {
        let normal = self.normal(style);
        ContactManifold::new((0..points).map(|_| self.point(style, features)), normal)
    }

    /// Up to the most manifolds, seldom 0.
    pub fn proposal(&mut self) -> Vec<ContactManifold> {
        let count = match self.one_in(12) {
            true => 0,
            false => 1 + self.below(MANIFOLDS),
        };
        let (style, features) = (self.style(), self.below(4));
        (0..count)
            .map(|_| {
                let points = self.point_count();
                self.manifold(points, style, features)
            })
            .collect()
    }

    /// What a solver may leave as an impulse: anything.
    pub fn impulse(&mut self) -> f32 {
        match self.below(4) {
            0 => self.any_float(),
            1 => self.of(&AWKWARD),
            _ => self.float(Style::Common),
        }
    }
}
