//! Pruning: which points of a manifold stay.

use std::ops::Deref;

use crate::layout::*;
use crate::raw;
use crate::refusal::Refusal;
use crate::words::{count, put_float, put_floats};

/// A point to prune.
#[derive(Clone, Copy, Debug, Default, PartialEq)]
pub struct PrunePoint {
    /// The point relative to the first body's centre of mass.
    pub anchor1: [f32; 3],
    /// How deep the shapes overlap.
    pub penetration: f32,
}

/// The numbers of the points that stay, two to four, in the order of the output. It is a slice.
#[derive(Clone, Copy, Debug, PartialEq, Eq, Hash)]
pub struct Kept {
    count: usize,
    points: [usize; STORED_POINTS],
}

impl Deref for Kept {
    type Target = [usize];

    fn deref(&self) -> &[usize] {
        &self.points[..self.count]
    }
}

/// Words of a point to prune: anchor 1 and the penetration.
const PRUNE_POINT_SIZE: usize = PRUNE_POINTS_LENGTH / PROPOSED_POINTS;

/// Which of 5 to 24 points stay, by the points' anchors as seen along the normal, and their penetrations. Refusal 8 where there are
/// fewer than 5 points, 6 where there are over [`PROPOSED_POINTS`], 24.
pub fn prune(normal: [f32; 3], points: &[PrunePoint]) -> Result<Kept, Refusal> {
    let normal: [u32; PRUNE_NORMAL_LENGTH] = normal.map(f32::to_bits);
    let words = point_words(points);
    let mut answer = [0; PRUNE_ANSWER_LENGTH];
    let number = raw::prune(&normal, &words, count(points.len()), &mut answer);
    Refusal::outcome(number)?;
    let [kept, points @ ..] = answer.map(|n| n as usize);
    Ok(Kept {
        count: kept.min(STORED_POINTS),
        points,
    })
}

/// The points that there is room for.
fn point_words(points: &[PrunePoint]) -> [u32; PRUNE_POINTS_LENGTH] {
    let mut words = [0; PRUNE_POINTS_LENGTH];
    let (places, _) = words.as_chunks_mut::<PRUNE_POINT_SIZE>();
    for (place, point) in places.iter_mut().zip(points) {
        put_floats(place, 0, point.anchor1);
        put_float(place, point.anchor1.len(), point.penetration);
    }
    words
}
