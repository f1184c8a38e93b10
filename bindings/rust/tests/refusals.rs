//! Every refusal is reached, and changes nothing. The graph has been stepped before, so that there is something to change, and
//! each call that is refused here is one that was accepted before a number was spoilt.

mod support;

use sardinerod::layout::*;
use sardinerod::{
    Addition, Collider, ContactGraph, ContactId, PrunePoint, Refusal, Shares, World, prune, raw,
};
use support::*;

/// The call is refused so, and the graph and its rows are as before.
fn refused<T: std::fmt::Debug + PartialEq>(
    graph: &mut ContactGraph,
    call: impl FnOnce(&mut ContactGraph) -> Result<T, Refusal>,
    refusal: Refusal,
) {
    let before = graph.clone();
    assert_eq!(call(graph), Err(refusal));
    assert_eq!(*graph, before);
}

/// A step of `touching`'s graph is refused after that.
fn step_refused(spoil: impl FnOnce(&mut World, &mut Shares), refusal: Refusal) {
    let (mut graph, mut world, _) = touching();
    let mut shares = Shares::single(&graph);
    assert!(graph.clone().step(&world, &shares).is_ok());
    spoil(&mut world, &mut shares);
    refused(&mut graph, |graph| graph.step(&world, &shares), refusal);
    assert_eq!((graph.events().len(), graph.changes().len()), (1, 1));
}

#[test]
fn refusal_1_no_capacity() {
    for capacity in [0, 257, u32::MAX] {
        assert_eq!(ContactGraph::new(capacity), Err(Refusal::WrongLength));
        assert_eq!(World::new(capacity), Err(Refusal::WrongLength));
        let shares = Shares::from_workers(capacity, &[[]]);
        assert_eq!(shares, Err(Refusal::WrongLength));
    }
}

#[test]
fn refusal_1_words_of_no_graph() {
    let words = ContactGraph::new(CAPACITY).unwrap().into_words();
    let mut longer = words.clone();
    longer.push(0);
    let mut other = words.clone();
    other[GRAPH_CAPACITY] = CAPACITY + 1;
    for words in [vec![], vec![0], vec![1], words[1..].to_vec(), longer, other] {
        assert_eq!(ContactGraph::from_words(words), Err(Refusal::WrongLength));
    }
}

#[test]
fn refusal_1_rows_for_another_capacity() {
    step_refused(
        |world, _| *world = World::new(5).unwrap(),
        Refusal::WrongLength,
    );
    let shares = Shares::from_workers(5, &[[ContactId(0)]]).unwrap();
    step_refused(|_, given| *given = shares, Refusal::WrongLength);
    step_refused(
        |_, given| *given = Shares::from_words(vec![]),
        Refusal::WrongLength,
    );
}

#[test]
fn refusal_2_additions() {
    let (mut graph, ..) = touching();
    let fits = pair(2, 3);
    let wrong = [
        Addition {
            collider1: 256,
            ..fits
        },
        Addition {
            collider2: u32::MAX,
            ..fits
        },
        Addition {
            body1: Some(128),
            ..fits
        },
        Addition {
            body2: Some(128),
            ..fits
        },
    ];
    for addition in &wrong {
        refused(&mut graph, |graph| graph.add(addition), Refusal::OutOfRange);
    }
    assert!(graph.add(&fits).is_ok());
}

#[test]
fn refusal_2_marks_of_a_request() {
    let fits = [2, 3, 1, 2, 1, 3, 1, 0, 0];
    let graph = touching().0.into_words();
    for mark in [2, 4, 6, 7] {
        let mut request = fits;
        request[mark] = 2;
        let (mut lent, mut answer) = (graph.clone(), [7]);
        assert_eq!(raw::add(&mut lent, &request, &mut answer), 2);
        assert_eq!((lent, answer), (graph.clone(), [7]));
    }
    let (mut lent, mut answer) = (graph.clone(), [7]);
    assert_eq!(raw::add(&mut lent, &fits, &mut answer), 0);
    assert_eq!(answer, [1]);
}

#[test]
fn refusal_2_settings_colliders_and_bodies() {
    let spoil: [fn(&mut World); 8] = [
        |world| world.settings_words_mut()[SETTINGS_MATCH_CONTACTS] = 2,
        |world| world.settings_words_mut()[SETTINGS_FRICTION + 1] = 0,
        |world| world.settings_words_mut()[SETTINGS_RESTITUTION + 1] = 6,
        |world| world.colliders_words_mut()[0] = 2,
        |world| world.colliders_words_mut()[COLLIDER_SENSOR] = 2,
        |world| world.bodies_words_mut()[BODY_STATIC] = u32::MAX,
        |world| world.bodies_words_mut()[BODY_MARGIN] = 2,
        |world| world.proposals_words_mut()[PROPOSAL_HOOK] = 2,
    ];
    for spoil in spoil {
        step_refused(|world, _| spoil(world), Refusal::OutOfRange);
    }
    let stray = Collider {
        body: Some(128),
        ..Collider::default()
    };
    step_refused(
        |world, _| world.set_collider(200, &stray).unwrap(),
        Refusal::OutOfRange,
    );
}

/// The mark is tested, and behind a 1 the matching; behind a 0 it is not.
#[test]
fn refusal_2_matching() {
    let name = |world: &mut World, words: [u32; 2]| {
        world.settings_words_mut()[SETTINGS_MATCHING..].copy_from_slice(&words);
    };
    for words in [[2, 0], [2, 1], [u32::MAX, 0], [1, 2], [1, u32::MAX]] {
        step_refused(|world, _| name(world, words), Refusal::OutOfRange);
    }
    for words in [[0, 0], [0, 1], [0, 2], [0, u32::MAX], [1, 0], [1, 1]] {
        let (mut graph, mut world, _) = touching();
        name(&mut world, words);
        step(&mut graph, &world);
    }
}

#[test]
fn refusal_2_setters() {
    let mut world = World::new(CAPACITY).unwrap();
    let before = world.clone();
    let (collider, body) = unit_box(0, 0.0);
    assert_eq!(world.set_collider(256, &collider), Err(Refusal::OutOfRange));
    assert_eq!(world.clear_collider(u32::MAX), Err(Refusal::OutOfRange));
    assert_eq!(world.set_body(128, &body), Err(Refusal::OutOfRange));
    assert_eq!(world.clear_body(128), Err(Refusal::OutOfRange));
    assert_eq!(
        world.propose(ContactId(CAPACITY), true, &[]),
        Err(Refusal::NoContact)
    );
    assert_eq!(world, before);
    assert_eq!(world.set_collider(255, &collider), Ok(()));
    assert_eq!(world.set_body(127, &body), Ok(()));
    assert_eq!(world.propose(ContactId(CAPACITY - 1), true, &[]), Ok(()));
    assert_ne!(world, before);
}

/// A mark of 2 in the contact's record: every call refuses the graph.
#[test]
fn refusal_2_damaged_graph() {
    let (graph, world, contact) = touching();
    let mut words = graph.into_words();
    words[GRAPH_LIST + 2 * CAPACITY as usize + CONTACT_FLAGS] = 2;
    let mut graph = ContactGraph::from_words(words).unwrap();
    let shares = Shares::single(&graph);
    let refusal = Refusal::OutOfRange;
    refused(&mut graph, |graph| graph.add(&pair(2, 3)), refusal);
    refused(&mut graph, |graph| graph.look_up(contact), refusal);
    refused(&mut graph, |graph| graph.remove(contact), refusal);
    refused(&mut graph, |graph| graph.step(&world, &shares), refusal);
}

#[test]
fn refusal_3_one_collider() {
    let (mut graph, ..) = touching();
    refused(
        &mut graph,
        |graph| graph.add(&pair(2, 2)),
        Refusal::SameCollider,
    );
}

#[test]
fn refusal_4_standing_pair() {
    let (mut graph, ..) = touching();
    refused(
        &mut graph,
        |graph| graph.add(&pair(0, 1)),
        Refusal::PairExists,
    );
    refused(
        &mut graph,
        |graph| graph.add(&pair(1, 0)),
        Refusal::PairExists,
    );
}

/// A pair that stands is refusal 4 in a full graph too.
#[test]
fn refusal_5_full_graph() {
    for capacity in [1, 4, 256] {
        let mut graph = ContactGraph::new(capacity).unwrap();
        for n in 0..capacity {
            let addition = Addition {
                collider1: n % 255 + 1,
                collider2: n / 255 * 9,
                ..Addition::default()
            };
            assert_eq!(graph.add(&addition), Ok(ContactId(n)));
        }
        refused(
            &mut graph,
            |graph| graph.add(&pair(5, 6)),
            Refusal::GraphFull,
        );
        refused(
            &mut graph,
            |graph| graph.add(&pair(0, 1)),
            Refusal::PairExists,
        );
    }
}

#[test]
fn refusal_6_proposals() {
    let contact = ContactId(0);
    for manifolds in [
        vec![manifold(1); MANIFOLDS + 1],
        vec![manifold(1), manifold(PROPOSED_POINTS + 1)],
        vec![manifold(33)],
        vec![manifold(1); 500],
    ] {
        step_refused(
            |world, _| world.propose(contact, true, &manifolds).unwrap(),
            Refusal::ProposalTooLarge,
        );
    }
    let most = vec![manifold(PROPOSED_POINTS); MANIFOLDS];
    let (mut graph, mut world, _) = touching();
    world.propose(contact, true, &most).unwrap();
    step(&mut graph, &world);
}

/// An overfull proposal for an id that is not active is not read.
#[test]
fn proposals_of_other_ids_are_not_read() {
    let (mut graph, mut world, _) = touching();
    world
        .propose(
            ContactId(1),
            true,
            &vec![manifold(PROPOSED_POINTS + 1); MANIFOLDS + 1],
        )
        .unwrap();
    step(&mut graph, &world);
}

#[test]
fn refusal_7_shares() {
    let (one, other) = (ContactId(0), ContactId(1));
    let wrong: [&[&[ContactId]]; 7] = [
        &[],
        &[&[]],
        &[&[one, one]],
        &[&[one], &[one]],
        &[&[one, other]],
        &[&[other]],
        &[&[one], &[], &[], &[], &[], &[], &[], &[], &[]],
    ];
    for workers in wrong {
        let shares = Shares::from_workers(CAPACITY, workers).unwrap();
        step_refused(|_, given| *given = shares, Refusal::InvalidShares);
    }
    let (graph, ..) = touching();
    for workers in [0, 9, 1000, usize::MAX] {
        let shares = Shares::dealt(&graph, workers);
        step_refused(|_, given| *given = shares, Refusal::InvalidShares);
    }
    step_refused(
        |_, given| given.words_mut()[SHARES_COUNTS] = u32::MAX,
        Refusal::InvalidShares,
    );
    let many = vec![one; 1000];
    let shares = Shares::from_workers(CAPACITY, &[many]).unwrap();
    step_refused(|_, given| *given = shares, Refusal::InvalidShares);
}

#[test]
fn refusals_8_and_6_of_prune() {
    let points = [PrunePoint::default(); PROPOSED_POINTS + 1];
    assert_eq!(prune([0.0; 3], &points[..4]), Err(Refusal::TooFewPoints));
    assert_eq!(prune([0.0; 3], &points), Err(Refusal::ProposalTooLarge));
    assert!(prune([0.0; 3], &points[..PROPOSED_POINTS]).is_ok());
    let most = PROPOSED_POINTS as u32;
    for (count, number) in [(0, 8), (4, 8), (most + 1, 6), (33, 6), (u32::MAX, 6)] {
        let mut answer = [7; PRUNE_ANSWER_LENGTH];
        let words = [0; PRUNE_POINTS_LENGTH];
        assert_eq!(
            raw::prune(&[0; PRUNE_NORMAL_LENGTH], &words, count, &mut answer),
            number
        );
        assert_eq!(answer, [7; PRUNE_ANSWER_LENGTH]);
    }
}

#[test]
fn refusal_9_no_contact() {
    let (mut graph, _, contact) = touching();
    for id in [1, CAPACITY, 256, u32::MAX] {
        let id = ContactId(id);
        refused(&mut graph, |graph| graph.look_up(id), Refusal::NoContact);
        refused(&mut graph, |graph| graph.remove(id), Refusal::NoContact);
        assert_eq!(graph.pair(id), None);
    }
    assert_eq!(graph.remove(contact), Ok(()));
    refused(
        &mut graph,
        |graph| graph.look_up(contact),
        Refusal::NoContact,
    );
    refused(
        &mut graph,
        |graph| graph.remove(contact),
        Refusal::NoContact,
    );
}

/// 1 before 2, 2 before 6, 6 before 7; 2 before 3, 4 and 5 of an addition, 3 before 4, 4 before 5.
#[test]
fn the_first_refusal_is_answered() {
    let contact = ContactId(0);
    let overfull = |world: &mut World| world.propose(contact, true, &vec![manifold(1); 7]).unwrap();
    let stray = |world: &mut World| world.settings_words_mut()[SETTINGS_MATCH_CONTACTS] = 2;
    let misdealt = |shares: &mut Shares| shares.words_mut()[0] = 0;
    step_refused(
        |world, shares| {
            overfull(world);
            misdealt(shares);
        },
        Refusal::ProposalTooLarge,
    );
    step_refused(
        |world, shares| {
            overfull(world);
            stray(world);
            misdealt(shares);
        },
        Refusal::OutOfRange,
    );
    step_refused(
        |world, shares| {
            stray(world);
            *shares = Shares::from_words(vec![]);
        },
        Refusal::WrongLength,
    );
    let mut full = ContactGraph::new(1).unwrap();
    full.add(&pair(0, 1)).unwrap();
    refused(
        &mut full,
        |graph| graph.add(&pair(300, 300)),
        Refusal::OutOfRange,
    );
    refused(
        &mut full,
        |graph| graph.add(&pair(0, 0)),
        Refusal::SameCollider,
    );
}
