//! Records word by word, as the tables of docs/BUFFERS.md have them: what the setters write, and what the views read.

use sardinerod::layout::*;
use sardinerod::{
    Body, Coefficient, CoefficientCombine, Collider, ContactGraph, ContactId,
    ContactRecyclingCache, Matching, PackedFeatureId, Pair, Point, ProposedManifold, ProposedPoint,
    Settings, World,
};

/// The whole numbers from one on.
fn floats<const N: usize>(from: u32) -> [f32; N] {
    std::array::from_fn(|k| (from + k as u32) as f32)
}

fn bits(values: impl IntoIterator<Item = f32>) -> Vec<u32> {
    values.into_iter().map(f32::to_bits).collect()
}

fn coefficient(value: f32, combine_rule: CoefficientCombine) -> Coefficient {
    Coefficient {
        value,
        combine_rule,
    }
}

#[test]
fn settings() {
    let mut world = World::new(1).unwrap();
    world.set_settings(&Settings {
        step_time: 1.0,
        length_unit: 2.0,
        contact_tolerance: 3.0,
        recycle_distance: 4.0,
        recycle_cosine: 5.0,
        match_contacts: true,
        default_friction: coefficient(6.0, CoefficientCombine::Min),
        default_restitution: coefficient(7.0, CoefficientCombine::GeometricMean),
        matching: Some(Matching::ByPlace),
    });
    let mut words = bits([1.0, 2.0, 3.0, 4.0, 5.0]);
    words.extend([1, 6f32.to_bits(), 3, 7f32.to_bits(), 2, 1, 1]);
    assert_eq!(world.settings_words(), words);
}

/// A mark and the matching; zeros where it is not named, after one that was named too.
#[test]
fn a_matching() {
    assert_eq!(Matching::default(), Matching::ByPlace);
    assert_eq!(Settings::default().matching, None);
    let mut world = World::new(1).unwrap();
    assert_eq!(world.settings_words()[10..], [0, 0]);
    for (matching, words) in [
        (Some(Matching::ByPlace), [1, 1]),
        (None, [0, 0]),
        (Some(Matching::ByNumber), [1, 0]),
        (Some(Matching::ByPlace), [1, 1]),
    ] {
        world.set_settings(&Settings {
            matching,
            ..Settings::default()
        });
        assert_eq!(world.settings_words()[10..], words);
    }
}

#[test]
fn a_collider() {
    let mut world = World::new(1).unwrap();
    let collider = Collider {
        body: Some(9),
        lower: floats(1),
        upper: floats(4),
        position: floats(7),
        memberships: 0xaaaa,
        filters: 0xbbbb,
        friction: Some(coefficient(10.0, CoefficientCombine::Average)),
        restitution: Some(coefficient(11.0, CoefficientCombine::Max)),
        margin: Some(12.0),
        sensor: true,
    };
    world.set_collider(3, &collider).unwrap();
    let mut words = vec![1, 1, 9];
    words.extend(bits(floats::<9>(1)));
    words.extend([0xaaaa, 0xbbbb, 1, 10f32.to_bits(), 1, 1, 11f32.to_bits(), 5]);
    words.extend([1, 12f32.to_bits(), 1]);
    let at = 3 * COLLIDER_SIZE;
    let row = world.colliders_words();
    assert_eq!(row[at..][..COLLIDER_SIZE], words);
    assert!(
        row[..at]
            .iter()
            .chain(&row[at + COLLIDER_SIZE..])
            .all(|&w| w == 0)
    );
    // A second collider in its place keeps nothing of the first.
    world.set_collider(3, &Collider::default()).unwrap();
    let mut words = [0; COLLIDER_SIZE];
    words[0] = 1;
    words[COLLIDER_MEMBERSHIPS] = 1;
    words[COLLIDER_FILTERS] = u32::MAX;
    assert_eq!(world.colliders_words()[at..][..COLLIDER_SIZE], words);
    world.clear_collider(3).unwrap();
    assert!(world.colliders_words().iter().all(|&w| w == 0));
}

#[test]
fn a_body() {
    let mut world = World::new(1).unwrap();
    let body = Body {
        is_static: true,
        position: floats(1),
        rotation: floats(4),
        center_of_mass: floats(8),
        linear_velocity: floats(11),
        angular_velocity: floats(14),
        friction: Some(coefficient(17.0, CoefficientCombine::Multiply)),
        margin: Some(18.0),
        speculative_maximum: Some(19.0),
        sweep_radius: 20.0,
    };
    world.set_body(5, &body).unwrap();
    let mut words = vec![1, 1];
    words.extend(bits(floats::<16>(1)));
    words.extend([
        1,
        17f32.to_bits(),
        4,
        1,
        18f32.to_bits(),
        1,
        19f32.to_bits(),
        20f32.to_bits(),
    ]);
    let at = 5 * BODY_SIZE;
    let row = world.bodies_words();
    assert_eq!(row[at..][..BODY_SIZE], words);
    assert!(
        row[..at]
            .iter()
            .chain(&row[at + BODY_SIZE..])
            .all(|&w| w == 0)
    );
    world.clear_body(5).unwrap();
    assert!(world.bodies_words().iter().all(|&w| w == 0));
}

fn proposed_point(from: u32) -> ProposedPoint {
    ProposedPoint {
        anchor1: floats(from),
        anchor2: floats(from + 3),
        point: floats(from + 6),
        penetration: (from + 9) as f32,
        feature_id1: PackedFeatureId(from),
        feature_id2: PackedFeatureId(from + 1),
    }
}

fn proposed_words(from: u32) -> Vec<u32> {
    let mut words = bits(floats::<10>(from));
    words.extend([from, from + 1]);
    words
}

#[test]
fn a_proposal() {
    let mut world = World::new(2).unwrap();
    let manifolds = [
        ProposedManifold {
            normal: floats(1),
            points: vec![proposed_point(10), proposed_point(30)],
        },
        ProposedManifold {
            normal: floats(4),
            points: vec![proposed_point(50)],
        },
    ];
    world.propose(ContactId(1), true, &manifolds).unwrap();
    let mut words = vec![0; world.proposals_words().len()];
    let at = PROPOSAL_SIZE;
    words[at..at + 3].copy_from_slice(&[1, 2, 2]);
    words[at + 3..at + 6].copy_from_slice(&bits(floats::<3>(1)));
    words[at + 6..at + 18].copy_from_slice(&proposed_words(10));
    words[at + 18..at + 30].copy_from_slice(&proposed_words(30));
    let second = at + PROPOSAL_MANIFOLDS + PROPOSED_MANIFOLD_SIZE;
    words[second] = 1;
    words[second + 1..second + 4].copy_from_slice(&bits(floats::<3>(4)));
    words[second + 4..second + 16].copy_from_slice(&proposed_words(50));
    assert_eq!(world.proposals_words(), words);
}

/// A graph of capacity 2 whose list is contact 1 alone, with that record.
fn graph_of(record: &[u32; CONTACT_SIZE]) -> ContactGraph {
    let mut words = vec![2, 2, 1, 1, 1, 0, 0, 0];
    words.extend([0; CONTACT_SIZE]);
    words.extend(record);
    ContactGraph::from_words(words).unwrap()
}

/// A record whose word k is the number k, but for the numbers of manifolds and of their points: 6 and 4.
fn counting_record() -> [u32; CONTACT_SIZE] {
    let mut record = std::array::from_fn(|k| k as u32);
    record[CONTACT_MANIFOLDS] = 6;
    for m in 0..6 {
        record[37 + 81 * m] = 4;
    }
    record
}

/// The floats whose bits are the numbers from one on.
fn counted<const N: usize>(from: usize) -> [f32; N] {
    std::array::from_fn(|k| f32::from_bits((from + k) as u32))
}

#[test]
fn a_pair_is_read_at_its_places() {
    let mut record = counting_record();
    (record[2], record[4], record[20]) = (1, 1, 1);
    record[CONTACT_COUNT_CHANGE] = u32::MAX - 2;
    let graph = graph_of(&record);
    let pair = graph.pairs().next().unwrap();
    assert_eq!(
        (pair.id(), pair.collider1(), pair.collider2()),
        (ContactId(1), 0, 1)
    );
    assert_eq!(
        (pair.body1(), pair.body2(), pair.pair_index()),
        (Some(3), Some(5), 6)
    );
    assert_eq!(pair.manifold_count_change(), -3);
    assert_eq!([pair.speculative_distance()], counted(19));
    let cache = ContactRecyclingCache {
        rotation1: counted(21),
        rotation2: counted(25),
        relative_translation: counted(29),
        relative_rotation: counted(32),
    };
    assert_eq!(pair.recycling_cache(), Some(cache));
    assert_eq!(pair.words(), &record);
    (record[2], record[4], record[20]) = (0, 0, 0);
    let graph = graph_of(&record);
    let pair = graph.pairs().next().unwrap();
    assert_eq!(
        (pair.body1(), pair.body2(), pair.recycling_cache()),
        (None, None, None)
    );
}

#[test]
fn manifolds_and_points_are_read_at_their_places() {
    let graph = graph_of(&counting_record());
    let pair = graph.pairs().next().unwrap();
    assert_eq!(pair.manifolds().len(), 6);
    for (m, manifold) in pair.manifolds().enumerate() {
        let at = 37 + 81 * m;
        assert_eq!(manifold.normal(), counted(at + 1));
        assert_eq!(
            [manifold.friction(), manifold.restitution()],
            counted(at + 4)
        );
        assert_eq!(manifold.tangent_velocity(), counted(at + 6));
        assert_eq!(manifold.points().len(), 4);
        for (p, point) in manifold.points().enumerate() {
            assert_eq!(point, point_at(at + 9 + 18 * p));
        }
    }
}

fn point_at(at: usize) -> Point {
    let [penetration, base_penetration, normal_impulse, normal_speed] = counted(at + 9);
    let [warm_start_normal_impulse] = counted(at + 13);
    Point {
        anchor1: counted(at),
        anchor2: counted(at + 3),
        point: counted(at + 6),
        penetration,
        base_penetration,
        normal_impulse,
        normal_speed,
        warm_start_normal_impulse,
        warm_start_tangent_impulse: counted(at + 14),
        feature_id1: PackedFeatureId(at as u32 + 16),
        feature_id2: PackedFeatureId(at as u32 + 17),
    }
}

/// The edge's marks, then the pair's, in the document's order.
fn marks(pair: Pair<'_>) -> [bool; 11] {
    [
        pair.edge_touching(),
        pair.contact_events(),
        pair.touching(),
        pair.disjoint_aabb(),
        pair.started_touching(),
        pair.stopped_touching(),
        pair.generate_constraints(),
        pair.started_generating_constraints(),
        pair.static1(),
        pair.static2(),
        pair.modify_contacts(),
    ]
}

#[test]
fn marks_are_read_at_their_places() {
    for k in 0..11 {
        let mut record = [0; CONTACT_SIZE];
        record[7 + k] = 1;
        let graph = graph_of(&record);
        let expected = std::array::from_fn(|mark| mark == k);
        assert_eq!(marks(graph.pairs().next().unwrap()), expected);
    }
}

#[test]
fn a_graph_is_read_at_its_places() {
    let words = vec![2, 2, 1, 1, 1, 0, 0, 7]
        .into_iter()
        .chain([0; 2 * CONTACT_SIZE])
        .collect();
    let graph = ContactGraph::from_words(words).unwrap();
    assert_eq!(
        (graph.capacity(), graph.ids_given(), graph.len()),
        (2, 2, 1)
    );
    assert!(graph.contacts().eq([ContactId(1)]));
    assert!(graph.free_ids().eq([ContactId(0)]));
    assert!(graph.pair(ContactId(1)).is_some());
    assert!(graph.pair(ContactId(0)).is_none());
}
