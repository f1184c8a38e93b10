//! Views over any words: nothing panics, and what the calls refuse they leave as it was.

mod support;

use sardinerod::layout::*;
use sardinerod::{ContactGraph, ContactId, Shares};
use support::*;

/// Marsaglia's xorshift of 64 bits.
struct Random(u64);

impl Random {
    fn word(&mut self) -> u32 {
        self.0 ^= self.0 << 13;
        self.0 ^= self.0 >> 7;
        self.0 ^= self.0 << 17;
        (self.0 >> 32) as u32
    }

    fn below(&mut self, limit: u32) -> u32 {
        self.word() % limit
    }
}

/// Looks at everything, and gives how many points there are.
fn look_at(graph: &mut ContactGraph) -> usize {
    let mut points = 0;
    for pair in graph.pairs() {
        let _ = format!("{:?}", (pair.id(), pair.collider1(), pair.collider2()));
        let _ = (pair.body1(), pair.body2(), pair.recycling_cache());
        let _ = (pair.manifold_count_change(), pair.speculative_distance());
        assert!(pair.manifolds().len() <= MANIFOLDS);
        for manifold in pair.manifolds() {
            let _ = (manifold.normal(), manifold.tangent_velocity());
            assert!(manifold.points().len() <= STORED_POINTS);
            points += manifold.points().len();
        }
    }
    assert!(graph.len() <= graph.capacity() as usize);
    assert!(graph.free_ids().len() <= graph.capacity() as usize);
    for id in 0..graph.capacity() + 2 {
        let _ = (graph.pair(ContactId(id)), graph.distance(ContactId(id)));
        let _ = graph.point_mut(ContactId(id), id as usize, id as usize);
    }
    points
}

/// The points that `for_each_point_mut` visits.
fn visited(graph: &mut ContactGraph) -> usize {
    let mut points = 0;
    graph.for_each_point_mut(|_, _, _, point| {
        let _ = point.get();
        points += 1;
    });
    points
}

/// Makes every call; a refused one leaves the graph as it was. How many are refused.
fn call(graph: &mut ContactGraph) -> usize {
    let world = boxes(&[0.0, 1.0]);
    let mut refused = 0;
    let mut settle = |graph: &ContactGraph, before: &ContactGraph, is_refused: bool| {
        if is_refused {
            assert_eq!(graph, before);
            refused += 1;
        }
    };
    let before = graph.clone();
    let outcome = graph.look_up(ContactId(0)).is_err();
    settle(graph, &before, outcome);
    let outcome = graph.add(&pair(100, 101)).is_err();
    settle(graph, &before, outcome);
    let before = graph.clone();
    let shares = Shares::dealt(graph, 2);
    let outcome = graph.step(&world, &shares).is_err();
    settle(graph, &before, outcome);
    let before = graph.clone();
    let outcome = graph.remove(ContactId(0)).is_err();
    settle(graph, &before, outcome);
    refused
}

fn try_words(words: Vec<u32>) -> usize {
    let mut graph = ContactGraph::from_words(words).expect("the length is right");
    assert_eq!(look_at(&mut graph), visited(&mut graph));
    call(&mut graph)
}

/// A graph of capacity 4 with that word at each place but the first.
fn filled(mut word: impl FnMut() -> u32) -> Vec<u32> {
    let mut words = ContactGraph::new(CAPACITY).unwrap().into_words();
    words[GRAPH_CAPACITY + 1..].fill_with(&mut word);
    words
}

#[test]
fn any_words() {
    let mut random = Random(0x9e37_79b9_7f4a_7c15);
    for _ in 0..300 {
        assert_eq!(try_words(filled(|| random.word())), 4);
    }
}

#[test]
fn one_word_everywhere() {
    for word in [1, 2, 3, 4, 5, 6, 7, 255, 256, u32::MAX - 1, u32::MAX] {
        assert_eq!(try_words(filled(|| word)), 4);
    }
}

#[test]
fn small_words() {
    let mut random = Random(0x2545_f491_4f6c_dd1d);
    for limit in 1..=8 {
        for _ in 0..100 {
            try_words(filled(|| random.below(limit)));
        }
    }
}

/// A graph that was stepped, with a few words changed: some still pass, some are refused.
#[test]
fn a_few_words_changed() {
    let (graph, ..) = touching();
    let mut random = Random(0x1234_5678_9abc_def1);
    let (mut passed, mut refused) = (0, 0);
    for _ in 0..2000 {
        let mut words = graph.words().to_vec();
        for _ in 0..=random.below(3) {
            // Mostly in the words that are read: the head, and the first contact's marks and counts.
            let places = [
                GRAPH_LIST,
                GRAPH_LIST + 2 * CAPACITY as usize + 60,
                words.len() - 1,
            ];
            let place = places[random.below(3) as usize] as u32;
            words[1 + random.below(place) as usize] = random.below(9);
        }
        match try_words(words) {
            0 => passed += 1,
            _ => refused += 1,
        }
    }
    assert!(
        passed > 100 && refused > 100,
        "{passed} passed, {refused} refused"
    );
}
