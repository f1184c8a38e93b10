//! A world of boxes.

use sardinerod::{
    Addition, Body, Collider, ContactGraph, ContactId, ProposedManifold, ProposedPoint, Shares,
    StepReport, World,
};

pub const CAPACITY: u32 = 4;

/// A pair of colliders with the bodies of their numbers, and events.
pub fn pair(collider1: u32, collider2: u32) -> Addition {
    Addition {
        collider1,
        collider2,
        body1: Some(collider1),
        body2: Some(collider2),
        contact_events: true,
        ..Addition::default()
    }
}

/// A unit box at a height, with a body of its number.
pub fn unit_box(n: u32, y: f32) -> (Collider, Body) {
    let collider = Collider {
        body: Some(n),
        lower: [-0.5, y - 0.5, -0.5],
        upper: [0.5, y + 0.5, 0.5],
        position: [0.0, y, 0.0],
        ..Collider::default()
    };
    let body = Body {
        position: [0.0, y, 0.0],
        ..Body::default()
    };
    (collider, body)
}

/// Unit boxes at these heights.
pub fn boxes(heights: &[f32]) -> World {
    let mut world = World::new(CAPACITY).unwrap();
    for (n, &y) in (0..).zip(heights) {
        let (collider, body) = unit_box(n, y);
        world.set_collider(n, &collider).unwrap();
        world.set_body(n, &body).unwrap();
    }
    world
}

/// A manifold of `points` points without penetration, with the normal up.
pub fn manifold(points: usize) -> ProposedManifold {
    ProposedManifold {
        normal: [0.0, 1.0, 0.0],
        points: vec![ProposedPoint::default(); points],
    }
}

/// A graph of one pair that touches with one point, and the world that it was stepped in.
pub fn touching() -> (ContactGraph, World, ContactId) {
    let mut graph = ContactGraph::new(CAPACITY).unwrap();
    let contact = graph.add(&pair(0, 1)).unwrap();
    let mut world = boxes(&[0.0, 1.0]);
    world.propose(contact, true, &[manifold(1)]).unwrap();
    let report = step(&mut graph, &world);
    assert_eq!((report.events, report.changes), (1, 1));
    (graph, world, contact)
}

/// A step by one worker.
pub fn step(graph: &mut ContactGraph, world: &World) -> StepReport {
    let shares = Shares::single(graph);
    graph.step(world, &shares).expect("the step is accepted")
}
