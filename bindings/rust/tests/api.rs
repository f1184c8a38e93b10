//! The calls through the safe API. Expected figures are worked by hand from the rules; lengths are sums of powers of two, so that
//! nothing is rounded.

mod support;

use sardinerod::layout::*;
use sardinerod::{
    Addition, Body, Change, Coefficient, CoefficientCombine, Collider, ContactEdge, ContactGraph,
    ContactId, ContactRecyclingCache, Event, Matching, PackedFeatureId, Point, ProposedManifold,
    ProposedPoint, PrunePoint, Refusal, Settings, Shares, World, prune,
};
use support::*;

fn ids(contacts: impl Iterator<Item = ContactId>) -> Vec<u32> {
    contacts.map(|contact| contact.0).collect()
}

/// From now on no pair is recycled.
fn stop_recycling(world: &mut World) {
    world.settings_words_mut()[SETTINGS_RECYCLE_DISTANCE] = 0f32.to_bits();
}

#[test]
fn a_new_graph_is_empty() {
    for capacity in [1, 64, 256] {
        let graph = ContactGraph::new(capacity).unwrap();
        assert_eq!(graph.capacity(), capacity);
        assert!(graph.is_empty());
        assert_eq!((graph.len(), graph.ids_given()), (0, 0));
        assert_eq!(graph.free_ids().len(), 0);
        assert_eq!(graph.pairs().count(), 0);
        assert_eq!(graph.distances().len(), capacity as usize);
        let words = graph.words().to_vec();
        assert_eq!(ContactGraph::from_words(words), Ok(graph));
    }
}

#[test]
fn an_added_pair_can_be_looked_up() {
    let mut graph = ContactGraph::new(CAPACITY).unwrap();
    graph.add(&pair(0, 1)).unwrap();
    let addition = Addition {
        collider1: 255,
        collider2: 7,
        body1: None,
        body2: Some(127),
        contact_events: false,
        modify_contacts: true,
        speculative_distance: 0.25,
    };
    let contact = graph.add(&addition).unwrap();
    assert_eq!(contact, ContactId(1));
    let edge = ContactEdge {
        id: contact,
        collider1: 255,
        collider2: 7,
        body1: None,
        body2: Some(127),
        pair_index: 1,
        touching: false,
        contact_events: false,
    };
    assert_eq!(graph.look_up(contact), Ok(edge));
    let pair = graph.pair(contact).unwrap();
    assert_eq!((pair.collider1(), pair.collider2()), (255, 7));
    assert_eq!((pair.body1(), pair.body2()), (None, Some(127)));
    assert_eq!((pair.pair_index(), pair.contact_events()), (1, false));
    assert!(pair.modify_contacts());
    assert_eq!(pair.speculative_distance(), 0.25);
    assert_eq!(pair.recycling_cache(), None);
    assert_eq!(pair.manifolds().len(), 0);
    assert!(graph.look_up(ContactId(0)).unwrap().contact_events);
}

/// A removal swaps the last pair into the gap, and a new id is the one freed last, else the lowest never given.
#[test]
fn removal_swaps_and_ids_come_back() {
    let mut graph = ContactGraph::new(CAPACITY).unwrap();
    for n in 0..4 {
        assert_eq!(graph.add(&pair(n, n + 1)), Ok(ContactId(n)));
    }
    graph.remove(ContactId(1)).unwrap();
    assert_eq!(ids(graph.contacts()), [0, 3, 2]);
    graph.remove(ContactId(0)).unwrap();
    assert_eq!(ids(graph.contacts()), [2, 3]);
    assert_eq!(ids(graph.free_ids()), [1, 0]);
    assert_eq!((graph.len(), graph.ids_given()), (2, 4));
    assert_eq!(graph.look_up(ContactId(3)).unwrap().pair_index, 1);
    assert_eq!(graph.pair(ContactId(1)), None);
    assert_eq!(graph.add(&pair(9, 8)), Ok(ContactId(0)));
    assert_eq!(graph.add(&pair(8, 7)), Ok(ContactId(1)));
    assert_eq!(ids(graph.pairs().map(|pair| pair.id())), [2, 3, 0, 1]);
    assert_eq!(graph.free_ids().len(), 0);
}

/// Collider 0 at the origin on body 0; collider 1 at (1/2, 1, 0) on body 1 at (0, 1, 0).
fn uneven_world() -> World {
    let mut world = World::new(CAPACITY).unwrap();
    let coefficient = |value, combine_rule| {
        Some(Coefficient {
            value,
            combine_rule,
        })
    };
    world.set_settings(&Settings {
        step_time: 1.0 / 64.0,
        length_unit: 2.0,
        contact_tolerance: 1.0 / 16.0,
        recycle_distance: 1.0 / 16.0,
        default_restitution: Coefficient {
            value: 0.25,
            combine_rule: CoefficientCombine::Average,
        },
        ..Settings::default()
    });
    let first = Collider {
        body: Some(0),
        lower: [-1.0; 3],
        upper: [1.0; 3],
        friction: coefficient(0.5, CoefficientCombine::Multiply),
        margin: Some(0.125),
        ..Collider::default()
    };
    let second = Collider {
        body: Some(1),
        position: [0.5, 1.0, 0.0],
        restitution: coefficient(0.75, CoefficientCombine::Max),
        friction: None,
        margin: None,
        ..first
    };
    let floor = Body {
        is_static: true,
        ..Body::default()
    };
    world.set_collider(0, &first).unwrap();
    world.set_collider(1, &second).unwrap();
    world.set_body(0, &floor).unwrap();
    world.set_body(1, &moving(1.0)).unwrap();
    world
}

/// Body 1 at a height: its centre of mass is 1/4 above it, and it falls and turns.
fn moving(y: f32) -> Body {
    Body {
        position: [0.0, y, 0.0],
        center_of_mass: [0.0, 0.25, 0.0],
        linear_velocity: [0.0, -8.0, 0.0],
        angular_velocity: [0.0, 0.0, 2.0],
        friction: Some(Coefficient {
            value: 0.25,
            combine_rule: CoefficientCombine::Average,
        }),
        margin: Some(0.25),
        ..Body::default()
    }
}

/// The point (1, 1/2, 0), half a unit between the surfaces.
fn uneven_point() -> ProposedPoint {
    ProposedPoint {
        anchor1: [1.0, 0.5, 0.0],
        anchor2: [0.5, -0.5, 0.0],
        point: [1.0, 0.5, 0.0],
        penetration: -0.5,
        feature_id1: PackedFeatureId(5),
        feature_id2: PackedFeatureId(6),
    }
}

fn uneven_step() -> (ContactGraph, World, ContactId) {
    let mut graph = ContactGraph::new(CAPACITY).unwrap();
    let contact = graph.add(&pair(0, 1)).unwrap();
    let mut world = uneven_world();
    let proposed = ProposedManifold {
        normal: [0.0, 1.0, 0.0],
        points: vec![uneven_point()],
    };
    world.propose(contact, true, &[proposed]).unwrap();
    let report = step(&mut graph, &world);
    assert_eq!((report.events, report.changes, report.recycled), (1, 1, 0));
    (graph, world, contact)
}

/// Anchor 2 moves by (1/2, 0, 0) - (0, 1/4, 0). The margins, collider 0's and body 1's, are 3/8 together: penetration -1/2 + 3/8.
/// Angular velocity (0, 0, 2) cross (1, -3/4, 0) is (3/2, 2, 0), so that the normal speed is -8 + 2. The distance is the tolerance,
/// 1/16 of unit 2; 1/8 is not below it, but 1/8 - 6/64 is, so that the point stays. Reported: 3/8 + 1/8.
/// Friction 1/2 and 1/4 by the larger rule, the product; restitution 1/4 (the default) and 3/4 by the larger rule, the maximum.
#[test]
fn a_full_update_by_hand() {
    let (graph, _, contact) = uneven_step();
    let pair = graph.pair(contact).unwrap();
    let manifold = pair.manifolds().next().unwrap();
    let point = Point {
        anchor1: [1.0, 0.5, 0.0],
        anchor2: [1.0, -0.75, 0.0],
        point: [1.0, 0.5, 0.0],
        penetration: -0.125,
        base_penetration: -0.125,
        normal_impulse: 0.0,
        normal_speed: -6.0,
        warm_start_normal_impulse: 0.0,
        warm_start_tangent_impulse: [0.0; 2],
        feature_id1: PackedFeatureId(5),
        feature_id2: PackedFeatureId(6),
    };
    assert_eq!(pair.manifolds().len(), 1);
    assert_eq!(manifold.points().collect::<Vec<_>>(), [point]);
    assert_eq!(manifold.normal(), [0.0, 1.0, 0.0]);
    assert_eq!(manifold.friction(), 0.125);
    assert_eq!(manifold.restitution(), 0.75);
    assert_eq!(manifold.tangent_velocity(), [0.0; 3]);
    assert_eq!(graph.distance(contact), Some(0.5));
    assert_eq!(graph.distances().collect::<Vec<_>>(), [0.5, 0.0, 0.0, 0.0]);
    assert_eq!(graph.distance(ContactId(CAPACITY)), None);
}

#[test]
fn a_start_is_reported_and_marked() {
    let (graph, _, contact) = uneven_step();
    let started = Event::Started {
        contact,
        collider1: 0,
        collider2: 1,
        body1: Some(0),
        body2: Some(1),
    };
    assert_eq!(graph.events().collect::<Vec<_>>(), [started]);
    assert_eq!(
        graph.changes().collect::<Vec<_>>(),
        [Change::Start { contact }]
    );
    assert!(graph.look_up(contact).unwrap().touching);
    let pair = graph.pair(contact).unwrap();
    assert!(pair.edge_touching() && pair.contact_events());
    assert!(pair.touching() && pair.generate_constraints() && pair.static1());
    assert!(!pair.static2() && !pair.disjoint_aabb() && !pair.modify_contacts());
    assert!(!pair.started_touching() && !pair.stopped_touching());
    assert!(!pair.started_generating_constraints());
    // A start leaves the count change of its update.
    assert_eq!(pair.manifold_count_change(), 1);
    let cache = ContactRecyclingCache {
        rotation1: [0.0, 0.0, 0.0, 1.0],
        rotation2: [0.0, 0.0, 0.0, 1.0],
        relative_translation: [0.0, 1.0, 0.0],
        relative_rotation: [0.0, 0.0, 0.0, 1.0],
    };
    assert_eq!(pair.recycling_cache(), Some(cache));
    // Worker 0's part has the bit of contact 0.
    assert_eq!(graph.bits(), [1, 0, 0, 0, 0, 0, 0, 0]);
}

/// Body 1 comes down by 1/64, less than the recycle distance, 1/16 of unit 2: (0, 1/4, 0) + (0, 63/64, 0) + (0, -5/4, 0) is
/// (0, -1/64, 0), which is taken from the base penetration. Nothing is reported.
#[test]
fn a_recycled_contact_by_hand() {
    let (mut graph, mut world, contact) = uneven_step();
    let mut point = graph.point_mut(contact, 0, 0).unwrap();
    point.set_normal_impulse(3.0);
    world.set_body(1, &moving(63.0 / 64.0)).unwrap();
    let report = step(&mut graph, &world);
    assert_eq!((report.events, report.changes, report.recycled), (0, 0, 1));
    assert_eq!(graph.report(), report);
    let pair = graph.pair(contact).unwrap();
    let point = pair.manifolds().next().unwrap().points().next().unwrap();
    assert_eq!(point.penetration, -0.125 + 1.0 / 64.0);
    assert_eq!(
        (point.base_penetration, point.normal_impulse),
        (-0.125, 3.0)
    );
    assert_eq!(graph.distance(contact), Some(0.0));
    assert_eq!(graph.bits(), [0; 8]);
    assert_eq!((graph.events().len(), graph.changes().len()), (0, 0));
}

/// Without recycling the point is made anew: it has no impulse, and the old point's warm start, since the features are equal.
#[test]
fn impulses_are_carried_over_by_features() {
    let (mut graph, mut world, contact) = uneven_step();
    graph.for_each_point_mut(|_, _, _, mut point| {
        point.set_normal_impulse(3.0);
        point.set_warm_start_normal_impulse(4.0);
        point.set_warm_start_tangent_impulse([5.0, 6.0]);
    });
    stop_recycling(&mut world);
    assert_eq!(step(&mut graph, &world).recycled, 0);
    let pair = graph.pair(contact).unwrap();
    let point = pair.manifolds().next().unwrap().points().next().unwrap();
    assert_eq!(
        (point.normal_impulse, point.warm_start_normal_impulse),
        (0.0, 4.0)
    );
    assert_eq!(point.warm_start_tangent_impulse, [5.0, 6.0]);
}

/// A point with these features, its anchors on the x axis.
fn point_on_x(features: [u32; 2], anchors: [f32; 2]) -> ProposedPoint {
    let [feature_id1, feature_id2] = features.map(PackedFeatureId);
    let [anchor1, anchor2] = anchors.map(|x| [x, 0.0, 0.0]);
    ProposedPoint {
        anchor1,
        anchor2,
        feature_id1,
        feature_id2,
        ..ProposedPoint::default()
    }
}

/// A pair that touches at the old points, and a world that proposes the new ones and recycles nothing. Old point k has k + 1 and its
/// tenfold and hundredfold as warm start impulses.
fn matching_scene(old: &[ProposedPoint], new: &[ProposedPoint]) -> (ContactGraph, World) {
    let (mut graph, mut world, contact) = touching();
    stop_recycling(&mut world);
    let propose = |points: &[ProposedPoint], world: &mut World| {
        let proposed = ProposedManifold {
            normal: [0.0, 1.0, 0.0],
            points: points.to_vec(),
        };
        world.propose(contact, true, &[proposed]).unwrap();
    };
    propose(old, &mut world);
    step(&mut graph, &world);
    graph.for_each_point_mut(|_, _, p, mut point| {
        let impulse = (p + 1) as f32;
        point.set_warm_start_normal_impulse(impulse);
        point.set_warm_start_tangent_impulse([10.0 * impulse, 100.0 * impulse]);
    });
    propose(new, &mut world);
    (graph, world)
}

/// Writes the words of the matching: its mark, its value.
fn name_matching(world: &mut World, words: [u32; 2]) {
    world.settings_words_mut()[SETTINGS_MATCHING..].copy_from_slice(&words);
}

/// The graph after a step, and which old point's impulses each new point takes: its number from 1 on, 0 for none.
fn matched(graph: &ContactGraph, world: &World) -> (ContactGraph, Vec<u32>) {
    let mut graph = graph.clone();
    assert_eq!(step(&mut graph, world).recycled, 0);
    let pair = graph.pairs().next().unwrap();
    let points = pair.manifolds().next().unwrap().points();
    let taken = points.map(|point| {
        let impulse = point.warm_start_normal_impulse;
        let tangent = [10.0 * impulse, 100.0 * impulse];
        assert_eq!(point.warm_start_tangent_impulse, tangent);
        assert_eq!(point.normal_impulse, 0.0);
        impulse as u32
    });
    let taken = taken.collect();
    (graph, taken)
}

const NOT_NAMED: [u32; 2] = [0, 0];
const BY_NUMBER: [u32; 2] = [1, Matching::ByNumber as u32];
const BY_PLACE: [u32; 2] = [1, Matching::ByPlace as u32];

/// Points without features, old at 1, 2 and 3, new 1/16 from 3, at 1, and 1/8 from 2: the last is further than the threshold, 0.1.
fn unnamed_scene() -> (ContactGraph, World) {
    let unnamed = |x: f32| point_on_x([0, 0], [x, x]);
    let old = [1.0, 2.0, 3.0].map(unnamed);
    let new = [3.0625, 1.0, 2.125].map(unnamed);
    matching_scene(&old, &new)
}

/// By number each takes the first old point's impulses, by place those of the old point near it. Not named is by place.
#[test]
fn points_without_features_match_by_number_or_by_place() {
    let (graph, mut world) = unnamed_scene();
    name_matching(&mut world, BY_NUMBER);
    assert_eq!(matched(&graph, &world).1, [1, 1, 1]);
    name_matching(&mut world, BY_PLACE);
    let by_place = matched(&graph, &world);
    assert_eq!(by_place.1, [3, 1, 0]);
    for word in [0, 1, 2, u32::MAX] {
        name_matching(&mut world, [0, word]);
        assert_eq!(matched(&graph, &world), by_place);
    }
}

/// The same through the settings.
#[test]
fn settings_name_the_matching() {
    let (graph, mut world) = unnamed_scene();
    for (matching, taken) in [
        (None, [3, 1, 0]),
        (Some(Matching::ByNumber), [1, 1, 1]),
        (Some(Matching::ByPlace), [3, 1, 0]),
    ] {
        let mut settings = Settings {
            recycle_distance: 0.0,
            matching,
            ..Settings::default()
        };
        world.set_settings(&settings);
        assert_eq!(matched(&graph, &world).1, taken);
        // Without matching nothing is taken, whatever is named.
        settings.match_contacts = false;
        world.set_settings(&settings);
        assert_eq!(matched(&graph, &world).1, [0, 0, 0]);
    }
}

/// Whether the one new point takes the impulses of the one old point, whose anchors are 1 and 2: by number, and by place.
#[test]
fn features_and_anchors_match() {
    let (straight, crossed, far) = ([1.0, 2.0], [2.0, 1.0], [5.0, 6.0]);
    for (old, new, anchors, by_number, by_place) in [
        // Two features that are unknown.
        ([0, 0], [0, 0], far, 1, 0),
        ([0, 0], [0, 0], straight, 1, 1),
        ([0, 0], [0, 0], crossed, 1, 1),
        ([5, 6], [0, 0], far, 0, 0),
        ([5, 6], [0, 0], straight, 1, 1),
        // One of them.
        ([0, 6], [0, 6], far, 1, 0),
        ([0, 6], [0, 6], straight, 1, 1),
        ([6, 0], [0, 6], far, 1, 0),
        ([6, 0], [6, 0], far, 1, 0),
        ([0, 6], [6, 0], far, 1, 0),
        ([5, 6], [0, 6], far, 0, 0),
        ([5, 6], [0, 6], straight, 1, 1),
        ([5, 6], [5, 0], straight, 1, 1),
        // None of them: by number and by place are alike.
        ([5, 6], [5, 6], far, 1, 1),
        ([6, 5], [5, 6], far, 1, 1),
        ([5, 7], [5, 6], far, 0, 0),
        ([0, 0], [5, 6], far, 0, 0),
        ([0, 0], [5, 6], straight, 0, 0),
        ([0, 0], [5, 6], crossed, 1, 1),
    ] {
        let old = point_on_x(old, straight);
        let new = point_on_x(new, anchors);
        let (graph, mut world) = matching_scene(&[old], &[new]);
        let mut taken = |words| {
            name_matching(&mut world, words);
            matched(&graph, &world).1
        };
        let case = format!("{old:?} and {new:?}");
        assert_eq!(taken(BY_NUMBER), [by_number], "{case}");
        assert_eq!(taken(BY_PLACE), [by_place], "{case}");
        assert_eq!(taken(NOT_NAMED), [by_place], "{case}");
    }
}

#[test]
fn only_impulses_are_written() {
    let (mut graph, _, contact) = uneven_step();
    let before = graph.words().to_vec();
    let mut point = graph.point_mut(contact, 0, 0).unwrap();
    point.set_normal_impulse(1.5);
    point.set_warm_start_normal_impulse(2.5);
    point.set_warm_start_tangent_impulse([3.5, 4.5]);
    assert_eq!(point.get().warm_start_tangent_impulse, [3.5, 4.5]);
    let at = GRAPH_LIST + 2 * CAPACITY as usize + CONTACT_MANIFOLDS + 1 + MANIFOLD_POINTS;
    let mut expected = before;
    expected[at + 11] = 1.5f32.to_bits();
    expected[at + 13] = 2.5f32.to_bits();
    expected[at + 14] = 3.5f32.to_bits();
    expected[at + 15] = 4.5f32.to_bits();
    assert_eq!(graph.words(), expected);
    for (manifold, point) in [(0, 1), (1, 0), (6, 0), (usize::MAX, usize::MAX)] {
        assert!(graph.point_mut(contact, manifold, point).is_none());
    }
    assert!(graph.point_mut(ContactId(1), 0, 0).is_none());
}

#[test]
fn points_are_visited_in_order() {
    let mut graph = ContactGraph::new(CAPACITY).unwrap();
    graph.add(&pair(0, 1)).unwrap();
    graph.add(&pair(1, 2)).unwrap();
    graph.add(&pair(0, 2)).unwrap();
    graph.remove(ContactId(0)).unwrap();
    let mut world = boxes(&[0.0, 0.0, 0.0]);
    let two = [manifold(1), manifold(2)];
    world.propose(ContactId(1), true, &two).unwrap();
    world.propose(ContactId(2), true, &[manifold(1)]).unwrap();
    step(&mut graph, &world);
    let mut visited = Vec::new();
    graph.for_each_point_mut(|contact, m, p, _| visited.push((contact.0, m, p)));
    assert_eq!(visited, [(2, 0, 0), (1, 0, 0), (1, 1, 0), (1, 1, 1)]);
}

#[test]
fn manifold_counts_change() {
    let (mut graph, mut world, contact) = touching();
    stop_recycling(&mut world);
    let mut delta = |manifolds: &[ProposedManifold]| {
        world.propose(contact, true, manifolds).unwrap();
        step(&mut graph, &world);
        graph.changes().collect::<Vec<_>>()
    };
    let count = |delta| Change::Count {
        contact,
        body1: 0,
        body2: 1,
        delta,
    };
    assert_eq!(delta(&[manifold(1), manifold(2), manifold(3)]), [count(2)]);
    assert_eq!(delta(&[manifold(4)]), [count(-2)]);
    assert_eq!(delta(&[manifold(4)]), []);
    // Manifolds without points go, and with them the contact's touch.
    let stop = Change::Stop {
        contact,
        body1: 0,
        body2: 1,
    };
    assert_eq!(delta(&[manifold(0)]), [stop]);
    assert!(!graph.look_up(contact).unwrap().touching);
}

/// Of C1's five points four stay, in the order 0, 3, 1, 2.
#[test]
fn more_than_four_points_are_pruned() {
    let (mut graph, mut world, contact) = touching();
    stop_recycling(&mut world);
    let points = c1().map(|p| ProposedPoint {
        anchor1: p.anchor1,
        penetration: p.penetration,
        point: p.anchor1,
        ..ProposedPoint::default()
    });
    let proposed = ProposedManifold {
        normal: [0.0, 0.0, 1.0],
        points: points.to_vec(),
    };
    world.propose(contact, true, &[proposed]).unwrap();
    step(&mut graph, &world);
    let manifold = graph.pair(contact).unwrap().manifolds().next().unwrap();
    let positions: Vec<_> = manifold.points().map(|p| p.point).collect();
    assert_eq!(positions, [0, 3, 1, 2].map(|k| points[k].anchor1));
}

#[test]
fn boxes_apart_end_the_contact() {
    let (mut graph, mut world, contact) = touching();
    graph.add(&pair(7, 8)).unwrap();
    let (collider, _) = unit_box(1, 3.0);
    world.set_collider(1, &collider).unwrap();
    let report = step(&mut graph, &world);
    assert_eq!((report.events, report.changes, report.recycled), (1, 1, 0));
    let ended = Event::Ended {
        contact,
        collider1: 0,
        collider2: 1,
        body1: Some(0),
        body2: Some(1),
    };
    assert_eq!(graph.events().collect::<Vec<_>>(), [ended]);
    let stop = Change::Stop {
        contact,
        body1: 0,
        body2: 1,
    };
    assert_eq!(graph.changes().collect::<Vec<_>>(), [stop]);
    assert_eq!(ids(graph.contacts()), [1]);
    assert_eq!(ids(graph.free_ids()), [0]);
}

/// The boxes are 1/2 apart; box 2 alone is grown by 1/2, once.
#[test]
fn the_speculative_distance_lasts_one_step() {
    let mut graph = ContactGraph::new(CAPACITY).unwrap();
    let addition = Addition {
        speculative_distance: 0.5,
        ..pair(0, 1)
    };
    let contact = graph.add(&addition).unwrap();
    let world = boxes(&[0.0, 1.5]);
    step(&mut graph, &world);
    assert_eq!(graph.pair(contact).unwrap().speculative_distance(), 0.0);
    step(&mut graph, &world);
    assert!(graph.is_empty());
    // Not touching: no event. Generating since the first step: a stop.
    assert_eq!((graph.events().len(), graph.changes().len()), (0, 1));
}

#[test]
fn hooks_are_heeded_by_modified_pairs_alone() {
    for modify_contacts in [false, true] {
        let mut graph = ContactGraph::new(CAPACITY).unwrap();
        let addition = Addition {
            modify_contacts,
            ..pair(0, 1)
        };
        let contact = graph.add(&addition).unwrap();
        let mut world = boxes(&[0.0, 1.0]);
        stop_recycling(&mut world);
        world.propose(contact, false, &[manifold(1)]).unwrap();
        step(&mut graph, &world);
        assert_eq!(graph.look_up(contact).unwrap().touching, !modify_contacts);
        world.propose(contact, true, &[manifold(1)]).unwrap();
        step(&mut graph, &world);
        assert!(graph.look_up(contact).unwrap().touching);
        world.clear_proposals();
        step(&mut graph, &world);
        assert!(!graph.look_up(contact).unwrap().touching);
    }
}

#[test]
fn sensors_touch_without_constraints() {
    let mut graph = ContactGraph::new(CAPACITY).unwrap();
    let contact = graph.add(&pair(0, 1)).unwrap();
    let mut world = boxes(&[0.0, 1.0]);
    let (collider, _) = unit_box(1, 1.0);
    let sensor = Collider {
        sensor: true,
        ..collider
    };
    world.set_collider(1, &sensor).unwrap();
    world.propose(contact, true, &[manifold(1)]).unwrap();
    let report = step(&mut graph, &world);
    assert_eq!((report.events, report.changes), (1, 0));
    assert!(!graph.pair(contact).unwrap().generate_constraints());
}

/// Layers that do not meet count as boxes apart.
#[test]
fn layers_part_colliders() {
    let (mut graph, mut world, _) = touching();
    let (collider, _) = unit_box(1, 1.0);
    let filters = Collider {
        filters: 2,
        ..collider
    };
    world.set_collider(1, &filters).unwrap();
    step(&mut graph, &world);
    assert!(graph.is_empty());
}

#[test]
fn absent_colliders_and_bodies() {
    let (graph, mut world, contact) = touching();
    stop_recycling(&mut world);
    world.clear_body(1).unwrap();
    let mut disabled = graph.clone();
    step(&mut disabled, &world);
    assert!(!disabled.pair(contact).unwrap().generate_constraints());
    // A pair whose collider is absent is skipped.
    world.clear_collider(0).unwrap();
    let mut skipped = graph.clone();
    step(&mut skipped, &world);
    assert_eq!(skipped.words(), graph.words());
}

/// Every NaN pattern is a NaN: overlap fails on it, and the pair goes.
#[test]
fn nan_patterns_are_nan() {
    for bits in [0x7fc0_0000, 0x7f80_0001, 0xffff_ffff] {
        let (mut graph, mut world, _) = touching();
        world.colliders_words_mut()[COLLIDER_LOWER] = bits;
        step(&mut graph, &world);
        assert!(graph.is_empty());
    }
}

#[test]
fn shares_deal_in_turn() {
    let mut graph = ContactGraph::new(CAPACITY).unwrap();
    for n in 0..4 {
        graph.add(&pair(n, n + 1)).unwrap();
    }
    graph.remove(ContactId(0)).unwrap();
    // The list is 3, 1, 2.
    let workers = |n| Shares::dealt(&graph, n).words().to_vec();
    assert_eq!(Shares::single(&graph).words(), workers(1));
    assert_eq!(workers(1), [1, 3, 0, 0, 0, 0, 0, 0, 0, 3, 1, 2, 0]);
    assert_eq!(workers(2), [2, 2, 1, 0, 0, 0, 0, 0, 0, 3, 2, 1, 0]);
    assert_eq!(workers(8), [8, 1, 1, 1, 0, 0, 0, 0, 0, 3, 1, 2, 0]);
    let given = [vec![ContactId(3), ContactId(2)], vec![ContactId(1)]];
    let shares = Shares::from_workers(CAPACITY, &given).unwrap();
    assert_eq!(shares, Shares::dealt(&graph, 2));
    assert_eq!(Shares::from_words(workers(2)), shares);
}

/// The outcome is the same, and each worker's part has the bits of its own contacts: the k-th pair's is worker k's, modulo 3.
#[test]
fn shares_do_not_matter() {
    let mut graph = ContactGraph::new(CAPACITY).unwrap();
    let mut world = boxes(&[0.0; 5]);
    for n in 0..4 {
        let contact = graph.add(&pair(n, n + 1)).unwrap();
        world.propose(contact, true, &[manifold(2)]).unwrap();
    }
    let stepped = |workers| {
        let mut graph = graph.clone();
        let shares = Shares::dealt(&graph, workers);
        graph.step(&world, &shares).unwrap();
        graph
    };
    let single = stepped(1);
    assert_eq!(single.bits(), [0b1111, 0, 0, 0, 0, 0, 0, 0]);
    for workers in 2..=MOST_WORKERS {
        let shared = stepped(workers);
        assert_eq!(shared.words(), single.words());
        assert!(shared.events().eq(single.events()));
        assert!(shared.changes().eq(single.changes()));
        assert_eq!(shared.report(), single.report());
    }
    assert_eq!(stepped(3).bits(), [0b1001, 0b0010, 0b0100, 0, 0, 0, 0, 0]);
}

/// The five points of the case C1: two far on x, two near on y, one between.
fn c1() -> [PrunePoint; 5] {
    let point = |x, y| PrunePoint {
        anchor1: [x, y, 0.0],
        penetration: 1.0,
    };
    [
        point(2.0, 0.0),
        point(-2.0, 0.0),
        point(0.0, 1.0),
        point(0.0, -1.0),
        point(1.0, 0.0),
    ]
}

/// The specification's cases C1 to C4.
#[test]
fn pruning_keeps_the_specified_points() {
    let normal = [0.0, 0.0, 1.0];
    assert_eq!(*prune(normal, &c1()).unwrap(), [0, 3, 1, 2]);
    assert_eq!(*prune(normal, &[c1()[0]; 5]).unwrap(), [0, 1]);
    // C1 with the fourth point made equal to the third: none is left below the line from 0 to 1.
    let [a, b, c, _, e] = c1();
    assert_eq!(*prune(normal, &[a, b, c, c, e]).unwrap(), [0, 1, 2]);
    let nan = PrunePoint {
        anchor1: [f32::NAN; 3],
        penetration: f32::NAN,
    };
    assert_eq!(*prune([f32::NAN; 3], &[nan; 5]).unwrap(), [0, 1]);
    assert_eq!(prune(normal, &[c1()[0]; PROPOSED_POINTS]).unwrap().len(), 2);
}

#[test]
fn pruning_refuses_counts() {
    let normal = [0.0, 0.0, 1.0];
    for n in 0..5 {
        assert_eq!(prune(normal, &c1()[..n]), Err(Refusal::TooFewPoints));
    }
    for n in [PROPOSED_POINTS + 1, 33, 1000] {
        let points = vec![c1()[0]; n];
        assert_eq!(prune(normal, &points), Err(Refusal::ProposalTooLarge));
    }
}
