//! Lengths: those that the library answers are the document's, and every call takes exactly these. The rows hold numbers that an
//! accepted call would change, so that a refusal that changes something is seen.

use sardinerod::layout::*;
use sardinerod::{Addition, ContactGraph, Shares, World, raw};

const CAPACITIES: [u32; 6] = [1, 4, 63, 64, 65, 256];

/// The formulas of docs/BUFFERS.md.
fn documented(capacity: usize) -> [usize; LENGTHS_LENGTH] {
    [
        SETTINGS_LENGTH,
        COLLIDERS * COLLIDER_SIZE,
        BODIES * BODY_SIZE,
        PROPOSAL_SIZE * capacity,
        SHARES_ENTRIES + capacity,
        GRAPH_LIST + 2 * capacity + CONTACT_SIZE * capacity,
        MOST_WORKERS * capacity.div_ceil(64),
        EVENT_SIZE * capacity,
        CHANGE_SIZE * capacity,
        capacity,
    ]
}

#[test]
fn lengths_are_the_documented_ones() {
    for capacity in CAPACITIES {
        let mut answer = [u32::MAX; LENGTHS_LENGTH];
        assert_eq!(raw::lengths(capacity, &mut answer), 0);
        assert_eq!(answer.map(|n| n as usize), documented(capacity as usize));
    }
    // The figures that the document gives for capacities 4 and 256.
    assert_eq!(
        documented(4),
        [12, 5888, 3328, 7016, 13, 2104, 8, 32, 20, 4]
    );
    let largest = documented(256);
    assert_eq!((largest[3], largest[5]), (449_024, 134_404));
}

#[test]
fn lengths_of_no_capacity_are_refused() {
    for capacity in [0, 257, u32::MAX] {
        let mut answer = [7; LENGTHS_LENGTH];
        assert_eq!(raw::lengths(capacity, &mut answer), 1);
        assert_eq!(answer, [7; LENGTHS_LENGTH]);
    }
}

/// A step's rows: five to read, six to write, the bit words apart.
#[derive(Clone, PartialEq)]
struct Rows {
    given: [Vec<u32>; 5],
    bits: Vec<u64>,
    /// Graph, events, changes, distances, answer.
    written: [Vec<u32>; 5],
}

/// How many rows a step has.
const ROWS: usize = 11;

impl Rows {
    /// A graph with one contact, and numbers in the other rows that a step overwrites.
    fn new(capacity: u32) -> Rows {
        let mut graph = ContactGraph::new(capacity).unwrap();
        graph
            .add(&Addition {
                collider2: 1,
                ..Addition::default()
            })
            .unwrap();
        let world = World::new(capacity).unwrap();
        let shares = Shares::single(&graph);
        let [.., bits, events, changes, distances] = documented(capacity as usize);
        Rows {
            given: [
                world.settings_words().to_vec(),
                world.colliders_words().to_vec(),
                world.bodies_words().to_vec(),
                world.proposals_words().to_vec(),
                shares.words().to_vec(),
            ],
            bits: vec![7; bits],
            written: [
                graph.into_words(),
                vec![7; events],
                vec![7; changes],
                vec![7; distances],
                vec![7; STEP_ANSWER_LENGTH],
            ],
        }
    }

    fn step(&mut self) -> u32 {
        let [settings, colliders, bodies, proposals, shares] = &self.given;
        let [graph, events, changes, distances, answer] = &mut self.written;
        raw::step(
            settings,
            colliders,
            bodies,
            proposals,
            shares,
            graph,
            &mut self.bits,
            events,
            changes,
            distances,
            answer,
        )
    }

    /// Row `k` by a word longer, or shorter.
    fn stretch(&mut self, k: usize, longer: bool) {
        match k {
            0..5 => resize(&mut self.given[k], longer),
            5..10 => resize(&mut self.written[k - 5], longer),
            _ => resize(&mut self.bits, longer),
        }
    }
}

fn resize<T: Copy + From<u8>>(row: &mut Vec<T>, longer: bool) {
    if longer {
        row.push(T::from(0));
    } else {
        row.pop();
    }
}

#[test]
fn a_step_takes_the_documented_lengths() {
    for capacity in CAPACITIES {
        let mut rows = Rows::new(capacity);
        assert_eq!(rows.step(), 0);
        let [_, _, _, distances, answer] = rows.written;
        assert_eq!(rows.bits, vec![0; rows.bits.len()]);
        assert_eq!(distances, vec![0; capacity as usize]);
        assert_eq!(answer, [0, 0, 0]);
    }
}

#[test]
fn a_step_takes_no_other_length() {
    for capacity in CAPACITIES {
        for k in 0..ROWS {
            for longer in [false, true] {
                let mut rows = Rows::new(capacity);
                rows.stretch(k, longer);
                let before = rows.clone();
                assert_eq!(
                    rows.step(),
                    1,
                    "capacity {capacity}, row {k}, longer {longer}"
                );
                assert!(
                    rows == before,
                    "capacity {capacity}, row {k}, longer {longer}"
                );
            }
        }
    }
}

/// Settings that end before the matching, 10 words, have the wrong length.
#[test]
fn settings_are_made_with_the_matching() {
    assert_eq!((SETTINGS_MATCHING, SETTINGS_LENGTH), (10, 12));
    for length in [0, 10, 11, 13, 24] {
        for capacity in CAPACITIES {
            let mut rows = Rows::new(capacity);
            rows.given[0].resize(length, 0);
            let before = rows.clone();
            assert_eq!(rows.step(), 1);
            assert!(rows == before, "capacity {capacity}, {length} words");
        }
    }
}

/// Words of a proposal, and of the points to prune, made for so many points of a manifold.
fn sizes_for(points: usize) -> (usize, usize) {
    let manifold = PROPOSED_MANIFOLD_POINTS + points * PROPOSED_POINT_SIZE;
    (PROPOSAL_MANIFOLDS + MANIFOLDS * manifold, points * 4)
}

/// A row made for another number of proposed points, 32 among them, has the wrong length.
#[test]
fn rows_are_made_for_one_number_of_points() {
    assert_eq!(
        sizes_for(PROPOSED_POINTS),
        (PROPOSAL_SIZE, PRUNE_POINTS_LENGTH)
    );
    for points in [0, 4, PROPOSED_POINTS - 1, PROPOSED_POINTS + 1, 32] {
        let (proposal, to_prune) = sizes_for(points);
        for capacity in CAPACITIES {
            let mut rows = Rows::new(capacity);
            rows.given[3].resize(proposal * capacity as usize, 0);
            let before = rows.clone();
            assert_eq!(rows.step(), 1);
            assert!(rows == before, "capacity {capacity}, {points} points");
        }
        let mut answer = [7; PRUNE_ANSWER_LENGTH];
        let normal = [0; PRUNE_NORMAL_LENGTH];
        assert_eq!(raw::prune(&normal, &vec![0; to_prune], 5, &mut answer), 1);
        assert_eq!(answer, [7; PRUNE_ANSWER_LENGTH]);
    }
}

/// A row by a word shorter and by a word longer.
fn off_by_one(row: &[u32]) -> [Vec<u32>; 2] {
    let mut longer = row.to_vec();
    longer.push(7);
    [row[..row.len() - 1].to_vec(), longer]
}

#[test]
fn graphs_have_one_length() {
    for capacity in CAPACITIES {
        let laid_out = ContactGraph::new(capacity).unwrap().into_words();
        for graph in off_by_one(&laid_out) {
            let mut lent = graph.clone();
            assert_eq!(raw::lay_out(&mut lent, capacity), 1);
            assert_eq!(raw::add(&mut lent, &[0; REQUEST_LENGTH], &mut [7]), 1);
            assert_eq!(raw::look_up(&lent, 0, &mut [7; LOOK_UP_ANSWER_LENGTH]), 1);
            assert_eq!(raw::remove(&mut lent, 0), 1);
            assert_eq!(lent, graph);
        }
        for other in [0, capacity + 1, 257, u32::MAX] {
            let mut lent = vec![7; laid_out.len()];
            assert_eq!(raw::lay_out(&mut lent, other), 1);
            assert_eq!(lent, vec![7; laid_out.len()]);
        }
        let mut lent = vec![7; laid_out.len()];
        assert_eq!(raw::lay_out(&mut lent, capacity), 0);
        assert_eq!(lent, laid_out);
    }
}

#[test]
fn requests_and_answers_have_one_length() {
    let graph = ContactGraph::new(4).unwrap().into_words();
    let request = [0, 1, 0, 0, 0, 0, 0, 0, 0];
    for wrong in off_by_one(&request) {
        let (mut lent, mut answer) = (graph.clone(), [7]);
        assert_eq!(raw::add(&mut lent, &wrong, &mut answer), 1);
        assert_eq!((lent, answer), (graph.clone(), [7]));
    }
    for wrong in off_by_one(&[7; ADD_ANSWER_LENGTH]) {
        let (mut lent, mut answer) = (graph.clone(), wrong.clone());
        assert_eq!(raw::add(&mut lent, &request, &mut answer), 1);
        assert_eq!((lent, answer), (graph.clone(), wrong));
    }
    let (mut lent, mut answer) = (graph.clone(), [7]);
    assert_eq!(raw::add(&mut lent, &request, &mut answer), 0);
    assert_eq!(answer, [0]);
    for wrong in off_by_one(&[7; LOOK_UP_ANSWER_LENGTH]) {
        let mut answer = wrong.clone();
        assert_eq!(raw::look_up(&lent, 0, &mut answer), 1);
        assert_eq!(answer, wrong);
    }
    let mut answer = [7; LOOK_UP_ANSWER_LENGTH];
    assert_eq!(raw::look_up(&lent, 0, &mut answer), 0);
    assert_eq!(answer, [0, 0, 1, 0, 0, 0, 0, 0, 0, 0]);
}

#[test]
fn pruning_takes_one_length() {
    let (normal, points) = ([0; PRUNE_NORMAL_LENGTH], [0; PRUNE_POINTS_LENGTH]);
    let refused = |normal: &[u32], points: &[u32], mut answer: Vec<u32>| {
        let before = answer.clone();
        raw::prune(normal, points, 5, &mut answer) == 1 && answer == before
    };
    let answer = [7; PRUNE_ANSWER_LENGTH];
    for wrong in off_by_one(&normal) {
        assert!(refused(&wrong, &points, answer.to_vec()));
    }
    for wrong in off_by_one(&points) {
        assert!(refused(&normal, &wrong, answer.to_vec()));
    }
    for wrong in off_by_one(&answer) {
        assert!(refused(&normal, &points, wrong));
    }
    let mut answer = answer;
    assert_eq!(raw::prune(&normal, &points, 5, &mut answer), 0);
    assert_eq!(answer, [2, 0, 1, 0, 0]);
}

#[test]
fn answers_about_rows_have_one_length() {
    for wrong in off_by_one(&[7; LENGTHS_LENGTH]) {
        let mut answer = wrong.clone();
        assert_eq!(raw::lengths(4, &mut answer), 1);
        assert_eq!(answer, wrong);
    }
    for wrong in off_by_one(&[7; LAYOUT_LENGTH]) {
        let mut answer = wrong.clone();
        assert_eq!(raw::layout(&mut answer), 1);
        assert_eq!(answer, wrong);
    }
}

#[test]
fn rows_may_be_empty() {
    assert_eq!(raw::lay_out(&mut [], 1), 1);
    assert_eq!(raw::add(&mut [], &[], &mut []), 1);
    assert_eq!(raw::look_up(&[], 0, &mut []), 1);
    assert_eq!(raw::remove(&mut [], 0), 1);
    assert_eq!(raw::prune(&[], &[], 5, &mut []), 1);
    assert_eq!(raw::lengths(1, &mut []), 1);
    assert_eq!(raw::layout(&mut []), 1);
    let mut rows = Rows {
        given: Default::default(),
        bits: vec![],
        written: Default::default(),
    };
    assert_eq!(rows.step(), 1);
}
