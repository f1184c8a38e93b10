//! A list as it stands, as a trace: what its next step is given, line by line.

use super::Rng;
use crate::draws::StepSettings;
use crate::sides::Sides;
use crate::traces::text;
use reference::layout::*;
use reference::{Addition, ContactPair, Entity};

/// Pairs of a stretch with hooks and manifolds.
const PAIRS: usize = 8;

/// Up to three stretches, the last without its go.
pub fn trace(rng: &mut Rng, sides: &Sides) -> Vec<u8> {
    let mut trace = vec![];
    for _ in 0..1 + rng.below(2) {
        trace.extend(stretch(rng, sides));
        trace.extend(b"G\n");
    }
    if rng.one_in(3) {
        trace.extend(stretch(rng, sides));
    }
    trace
}

/// Settings, colliders, bodies, hooks, manifolds and additions, in any order.
fn stretch(rng: &mut Rng, sides: &Sides) -> Vec<u8> {
    let mut blocks = vec![settings(rng, sides)];
    let world = &sides.narrow_phase;
    for (n, collider) in world.collider_query.0.iter().enumerate() {
        if let Some(collider) = collider {
            blocks.push(text::collider(rng, n as u32, collider));
        }
    }
    for (n, body) in world.body_query.0.iter().enumerate() {
        if let Some(body) = body {
            blocks.push(text::body(rng, n as u32, body));
        }
    }
    let mut pairs: Vec<&ContactPair> = world.contact_graph.active_pairs.iter().collect();
    rng.shuffle(&mut pairs);
    for pair in pairs.into_iter().take(PAIRS) {
        proposal(rng, sides, pair, &mut blocks);
    }
    for _ in 0..rng.below(3) {
        blocks.push(addition(rng, sides));
    }
    rng.shuffle(&mut blocks);
    blocks.concat()
}

fn settings(rng: &mut Rng, sides: &Sides) -> Vec<u8> {
    let settings = StepSettings {
        matching: text::matching(rng, sides.against),
        ..sides.settings
    };
    text::settings(rng, &settings)
}

/// Now and then with more than is taken.
fn proposal(rng: &mut Rng, sides: &Sides, pair: &ContactPair, blocks: &mut Vec<Vec<u8>>) {
    let id = pair.contact_id.0 as usize;
    let colliders = (pair.collider1.0, pair.collider2.0);
    if rng.one_in(2) {
        blocks.push(text::hook(rng, colliders, sides.hooks.0[id]));
    }
    let mut manifolds = sides.shapes.proposed[id].clone();
    if rng.one_in(24) {
        let style = rng.style();
        let (count, points) = match rng.one_in(2) {
            true => (MANIFOLDS + 1, 1),
            false => (1, rng.too_many_points()),
        };
        manifolds.extend((0..count).map(|_| rng.manifold(points, style, 0)));
    }
    for manifold in manifolds {
        blocks.push(text::manifold(rng, colliders, &manifold));
    }
}

/// Of a pair that stands, of the list's colliders, of any, or of none.
pub fn addition(rng: &mut Rng, sides: &Sides) -> Vec<u8> {
    let present = sides.narrow_phase.collider_query.0.iter().enumerate();
    let present = present.filter(|(_, collider)| collider.is_some());
    let numbers: Vec<u32> = present.map(|(n, _)| n as u32).collect();
    let mut number = || match rng.below(16) {
        0 => COLLIDERS as u32,
        1..12 if !numbers.is_empty() => rng.of(&numbers),
        _ => rng.below(COLLIDERS) as u32,
    };
    let mut colliders = [number(), number()];
    let pairs = &sides.narrow_phase.contact_graph.active_pairs;
    if !pairs.is_empty() && rng.one_in(4) {
        let pair = &pairs[rng.below(pairs.len())];
        colliders = [pair.collider2.0, pair.collider1.0];
    }
    let mut body = || rng.one_in(2).then(|| Entity(rng.below(BODIES) as u32));
    let bodies = [body(), body()];
    let addition = Addition {
        collider1: Entity(colliders[0]),
        collider2: Entity(colliders[1]),
        body1: bodies[0],
        body2: bodies[1],
        contact_events: rng.one_in(2),
        modify_contacts: rng.one_in(2),
        speculative_distance: rng.any_float(),
    };
    text::addition(rng, &addition)
}
