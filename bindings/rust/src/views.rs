//! Views of a graph's words. A damaged graph can be looked at too: counts over their limit are read as the limit.

use crate::ids::{ContactId, PackedFeatureId};
use crate::layout::*;
use crate::words::{float, floats, mark, optional, put_float, put_floats};

/// The words of a contact's record.
pub(crate) type Record = [u32; CONTACT_SIZE];

/// The poses that a pair's next recycle test compares with. Rotations are x, y, z, w.
#[derive(Clone, Copy, Debug, PartialEq)]
pub struct ContactRecyclingCache {
    /// The first body's rotation.
    pub rotation1: [f32; 4],
    /// The second body's rotation.
    pub rotation2: [f32; 4],
    /// The second body's position as seen from the first.
    pub relative_translation: [f32; 3],
    /// The second body's rotation as seen from the first.
    pub relative_rotation: [f32; 4],
}

/// A contact pair in a graph.
#[derive(Clone, Copy, Debug, PartialEq, Eq)]
pub struct Pair<'a> {
    id: ContactId,
    words: &'a Record,
}

/// Methods that read a mark.
macro_rules! marks {
    ($($(#[$doc:meta])* $name:ident = $place:expr;)*) => {
        $($(#[$doc])* pub fn $name(&self) -> bool {
            mark(self.words, $place)
        })*
    };
}

impl<'a> Pair<'a> {
    pub(crate) fn new(id: ContactId, words: &'a Record) -> Self {
        Pair { id, words }
    }

    /// The contact's id.
    pub fn id(&self) -> ContactId {
        self.id
    }

    /// The first collider.
    pub fn collider1(&self) -> u32 {
        self.words[CONTACT_COLLIDER1]
    }

    /// The second collider.
    pub fn collider2(&self) -> u32 {
        self.words[CONTACT_COLLIDER2]
    }

    /// The first collider's body.
    pub fn body1(&self) -> Option<u32> {
        optional(self.words, CONTACT_BODY1)
    }

    /// The second collider's body.
    pub fn body2(&self) -> Option<u32> {
        optional(self.words, CONTACT_BODY2)
    }

    /// The pair's place in the list.
    pub fn pair_index(&self) -> u32 {
        self.words[CONTACT_PAIR_INDEX]
    }

    marks! {
        /// The edge's `TOUCHING`: whether the last status pass left the pair touching.
        edge_touching = CONTACT_EDGE_FLAGS;
        /// The edge's `CONTACT_EVENTS`: whether events are written.
        contact_events = CONTACT_EDGE_FLAGS + 1;
        /// `TOUCHING`: whether the pair has manifolds.
        touching = CONTACT_FLAGS;
        /// `DISJOINT_AABB`: whether the boxes are apart.
        disjoint_aabb = CONTACT_FLAGS + 1;
        /// `STARTED_TOUCHING`: whether a start is not yet passed on.
        started_touching = CONTACT_FLAGS + 2;
        /// `STOPPED_TOUCHING`: whether a stop is not yet passed on.
        stopped_touching = CONTACT_FLAGS + 3;
        /// `GENERATE_CONSTRAINTS`: whether a solver holds constraints for the pair while it touches.
        generate_constraints = CONTACT_FLAGS + 4;
        /// `STARTED_GENERATING_CONSTRAINTS`: whether that began and is not yet passed on.
        started_generating_constraints = CONTACT_FLAGS + 5;
        /// `STATIC1`: whether the first body is static.
        static1 = CONTACT_FLAGS + 6;
        /// `STATIC2`: whether the second body is static.
        static2 = CONTACT_FLAGS + 7;
        /// `MODIFY_CONTACTS`: whether the hook's answer is heeded.
        modify_contacts = CONTACT_FLAGS + 8;
    }

    /// The change of the number of manifolds, new minus old.
    pub fn manifold_count_change(&self) -> i32 {
        self.words[CONTACT_COUNT_CHANGE].cast_signed()
    }

    /// By how much the second box is grown in the next step.
    pub fn speculative_distance(&self) -> f32 {
        float(self.words, CONTACT_SPECULATIVE_DISTANCE)
    }

    /// The recycling cache, where a full update has left one.
    pub fn recycling_cache(&self) -> Option<ContactRecyclingCache> {
        let rotation1 = CONTACT_CACHE + 1;
        let rotation2 = rotation1 + 4;
        let translation = rotation2 + 4;
        mark(self.words, CONTACT_CACHE).then(|| ContactRecyclingCache {
            rotation1: floats(self.words, rotation1),
            rotation2: floats(self.words, rotation2),
            relative_translation: floats(self.words, translation),
            relative_rotation: floats(self.words, translation + 3),
        })
    }

    /// The manifolds, in their order.
    pub fn manifolds(&self) -> impl ExactSizeIterator<Item = Manifold<'a>> + use<'a> {
        let count = self.words[CONTACT_MANIFOLDS] as usize;
        let (manifolds, _) = self.words[CONTACT_MANIFOLDS + 1..].as_chunks();
        manifolds.iter().take(count).map(|words| Manifold { words })
    }

    /// The words of the pair's record.
    pub fn words(&self) -> &'a [u32; CONTACT_SIZE] {
        self.words
    }
}

/// A stored manifold.
#[derive(Clone, Copy, Debug, PartialEq, Eq)]
pub struct Manifold<'a> {
    words: &'a [u32; MANIFOLD_SIZE],
}

impl<'a> Manifold<'a> {
    /// The normal, in world space, from the first body towards the second.
    pub fn normal(&self) -> [f32; 3] {
        floats(self.words, MANIFOLD_NORMAL)
    }

    /// The two sides' combined friction.
    pub fn friction(&self) -> f32 {
        float(self.words, MANIFOLD_FRICTION)
    }

    /// The two sides' combined restitution.
    pub fn restitution(&self) -> f32 {
        float(self.words, MANIFOLD_RESTITUTION)
    }

    /// The wanted relative velocity along the surface.
    pub fn tangent_velocity(&self) -> [f32; 3] {
        floats(self.words, MANIFOLD_TANGENT_VELOCITY)
    }

    /// The points, in their order.
    pub fn points(&self) -> impl ExactSizeIterator<Item = Point> + use<'a> {
        let count = self.words[POINT_COUNT] as usize;
        let (points, _) = self.words[MANIFOLD_POINTS..].as_chunks();
        points.iter().take(count).map(Point::read)
    }

    /// The words of the manifold.
    pub fn words(&self) -> &'a [u32; MANIFOLD_SIZE] {
        self.words
    }
}

/// A stored manifold begins with its number of points.
const POINT_COUNT: usize = 0;

/// A stored point.
#[derive(Clone, Copy, Debug, PartialEq)]
pub struct Point {
    /// The point relative to the first body's centre of mass, in world space.
    pub anchor1: [f32; 3],
    /// The point relative to the second body's centre of mass, in world space.
    pub anchor2: [f32; 3],
    /// The point in world space.
    pub point: [f32; 3],
    /// How deep the shapes overlap; negative where they are apart.
    pub penetration: f32,
    /// The penetration of the last full update.
    pub base_penetration: f32,
    /// The impulse along the normal that a solver applied.
    pub normal_impulse: f32,
    /// The relative velocity along the normal; negative where the bodies near each other.
    pub normal_speed: f32,
    /// The impulse along the normal that a solver starts from.
    pub warm_start_normal_impulse: f32,
    /// The impulses along the surface that a solver starts from.
    pub warm_start_tangent_impulse: [f32; 2],
    /// The first shape's feature.
    pub feature_id1: PackedFeatureId,
    /// The second shape's feature.
    pub feature_id2: PackedFeatureId,
}

impl Point {
    fn read(words: &[u32; POINT_SIZE]) -> Point {
        Point {
            anchor1: floats(words, POINT_ANCHOR1),
            anchor2: floats(words, POINT_ANCHOR2),
            point: floats(words, POINT_POSITION),
            penetration: float(words, POINT_PENETRATION),
            base_penetration: float(words, POINT_BASE_PENETRATION),
            normal_impulse: float(words, POINT_NORMAL_IMPULSE),
            normal_speed: float(words, POINT_NORMAL_SPEED),
            warm_start_normal_impulse: float(words, POINT_WARM_START_NORMAL_IMPULSE),
            warm_start_tangent_impulse: floats(words, POINT_WARM_START_TANGENT_IMPULSE),
            feature_id1: PackedFeatureId(words[POINT_FEATURES]),
            feature_id2: PackedFeatureId(words[POINT_FEATURES + 1]),
        }
    }
}

/// A stored point whose impulses can be written, as a solver does between steps.
#[derive(Debug, PartialEq, Eq)]
pub struct PointMut<'a> {
    words: &'a mut [u32; POINT_SIZE],
}

impl<'a> PointMut<'a> {
    /// The point as it is now.
    pub fn get(&self) -> Point {
        Point::read(self.words)
    }

    /// Writes the normal impulse.
    pub fn set_normal_impulse(&mut self, impulse: f32) {
        put_float(self.words, POINT_NORMAL_IMPULSE, impulse);
    }

    /// Writes the normal impulse for warm starting.
    pub fn set_warm_start_normal_impulse(&mut self, impulse: f32) {
        put_float(self.words, POINT_WARM_START_NORMAL_IMPULSE, impulse);
    }

    /// Writes the two tangent impulses for warm starting.
    pub fn set_warm_start_tangent_impulse(&mut self, impulses: [f32; 2]) {
        put_floats(self.words, POINT_WARM_START_TANGENT_IMPULSE, impulses);
    }
}

/// The counted manifolds of a record, to write.
fn manifolds_mut(record: &mut Record) -> impl Iterator<Item = &mut [u32; MANIFOLD_SIZE]> {
    let count = record[CONTACT_MANIFOLDS] as usize;
    let (manifolds, _) = record[CONTACT_MANIFOLDS + 1..].as_chunks_mut();
    manifolds.iter_mut().take(count)
}

/// The counted points of a manifold, to write.
fn points_mut(manifold: &mut [u32; MANIFOLD_SIZE]) -> impl Iterator<Item = PointMut<'_>> {
    let count = manifold[POINT_COUNT] as usize;
    let (points, _) = manifold[MANIFOLD_POINTS..].as_chunks_mut();
    points
        .iter_mut()
        .take(count)
        .map(|words| PointMut { words })
}

/// One point of a record.
pub(crate) fn point_mut(
    record: &mut Record,
    manifold: usize,
    point: usize,
) -> Option<PointMut<'_>> {
    points_mut(manifolds_mut(record).nth(manifold)?).nth(point)
}

/// Every point of a record, with the numbers of its manifold and its own.
pub(crate) fn for_each_point_mut(
    record: &mut Record,
    mut visit: impl FnMut(usize, usize, PointMut<'_>),
) {
    for (m, manifold) in manifolds_mut(record).enumerate() {
        for (p, point) in points_mut(manifold).enumerate() {
            visit(m, p, point);
        }
    }
}
