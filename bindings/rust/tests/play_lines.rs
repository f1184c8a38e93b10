//! The raw call that plays a line: its lengths, any player, and every word and byte that it leaves as it was. The rows hold numbers
//! that an accepted step overwrites.

use sardinerod::layout::*;
use sardinerod::{ContactGraph, raw};

const CAPACITIES: [u32; 6] = [1, 4, 63, 64, 65, 256];

const ADDITION: &str = "A\t0\t1\t-\t-\t1\t0\t00000000\n";
const SETTINGS: &str =
    "T\t3C800000\t3F800000\t3BA3D70A\t00000000\t3F733333\t1\t3F000000\t1\t00000000\t1\n";
const GO: &str = "G\n";

/// An addition, settings and a go.
fn trace() -> String {
    [ADDITION, SETTINGS, GO].concat()
}

/// Where the settings and the go of `trace` stand.
const SETTINGS_AT: u64 = ADDITION.len() as u64;
const GO_AT: u64 = SETTINGS_AT + SETTINGS.len() as u64;

/// A player at a trace's beginning.
const NEW: [u64; PLAYER_LENGTH] = [0, 0, 0, 0, 1];

/// The settings with that behind their ten fields.
fn settings_and(rest: &str) -> String {
    SETTINGS.replace('\n', rest) + "\n"
}

/// Everything that a call is lent but the trace.
#[derive(Clone, Debug, PartialEq)]
struct Lent {
    player: Vec<u64>,
    graph: Vec<u32>,
    /// Settings, colliders, bodies, proposals, shares.
    given: [Vec<u32>; 5],
    bits: Vec<u64>,
    /// Events, changes, distances.
    written: [Vec<u32>; 3],
    out: Vec<u8>,
    answer: Vec<u64>,
}

/// How many rows a call has, the trace apart.
const ROWS: usize = 13;

impl Lent {
    fn new(capacity: u32, player: [u64; PLAYER_LENGTH]) -> Lent {
        let mut lengths = [0; LENGTHS_LENGTH];
        assert_eq!(raw::lengths(capacity, &mut lengths), 0);
        let [given @ .., _graph, bits, events, changes, distances] = lengths.map(|n| n as usize);
        Lent {
            player: player.to_vec(),
            graph: ContactGraph::new(capacity).unwrap().into_words(),
            given: given.map(|n| vec![7; n]),
            bits: vec![7; bits],
            written: [events, changes, distances].map(|n| vec![7; n]),
            out: vec![7; PRINTED_SIZE * capacity as usize],
            answer: vec![7; PLAY_ANSWER_LENGTH],
        }
    }

    fn play(&mut self, trace: &str) -> u32 {
        let [settings, colliders, bodies, proposals, shares] = &mut self.given;
        let [events, changes, distances] = &mut self.written;
        raw::play_line(
            trace.as_bytes(),
            &mut self.player,
            &mut self.graph,
            settings,
            colliders,
            bodies,
            proposals,
            shares,
            &mut self.bits,
            events,
            changes,
            distances,
            &mut self.out,
            &mut self.answer,
        )
    }

    /// Plays so many lines.
    fn play_lines(&mut self, trace: &str, count: usize) {
        (0..count).for_each(|_| assert_eq!(self.play(trace), 0));
    }

    /// Row `k` by one longer, or shorter.
    fn stretch(&mut self, k: usize, longer: bool) {
        match k {
            0..5 => resize(&mut self.given[k], longer),
            5..8 => resize(&mut self.written[k - 5], longer),
            8 => resize(&mut self.graph, longer),
            9 => resize(&mut self.player, longer),
            10 => resize(&mut self.bits, longer),
            11 => resize(&mut self.out, longer),
            _ => resize(&mut self.answer, longer),
        }
    }

    /// After a call that changes only the player, and prints that.
    fn printed(mut self, player: [u64; PLAYER_LENGTH], text: &str) -> Lent {
        self.player = player.to_vec();
        self.out[..text.len()].copy_from_slice(text.as_bytes());
        self.answer = vec![0, text.len() as u64];
        self
    }
}

fn resize<T: Copy + From<u8>>(row: &mut Vec<T>, longer: bool) {
    if longer {
        row.push(T::from(0));
    } else {
        row.pop();
    }
}

/// Before the go of `trace`.
const BEFORE_GO: [u64; PLAYER_LENGTH] = [GO_AT, 0, 0, 1, 1];

/// Nothing is read since the last go.
fn at(place: usize) -> [u64; PLAYER_LENGTH] {
    [place as u64, place as u64, 0, 0, 1]
}

#[test]
fn a_line_takes_the_documented_lengths() {
    for capacity in CAPACITIES {
        let mut lent = Lent::new(capacity, NEW);
        for player in [[SETTINGS_AT, 0, 0, 0, 1], BEFORE_GO] {
            assert_eq!(lent.play(&trace()), 0);
            assert_eq!(
                (&lent.player[..], &lent.answer[..]),
                (&player[..], &[0, 0][..])
            );
        }
        assert_eq!(lent.graph[GRAPH_LISTED], 1);
        assert_eq!(lent.given[0], vec![7; SETTINGS_LENGTH]);
        assert_eq!(lent.play(&trace()), 0);
        assert_eq!(lent.player, at(trace().len()));
        assert_eq!(lent.answer, [0, 0]);
        assert_eq!(lent.bits, vec![0; lent.bits.len()]);
    }
}

#[test]
fn a_go_fills_the_rows() {
    let mut lent = Lent::new(4, NEW);
    lent.play_lines(&trace(), 3);
    let [settings, colliders, bodies, proposals, shares] = &lent.given;
    assert_eq!(settings[SETTINGS_STEP_TIME], 0x3C80_0000);
    assert_eq!(settings[SETTINGS_RESTITUTION + 1], 1);
    assert_eq!(settings[SETTINGS_MATCHING..], [1, 0]);
    assert!(colliders.iter().chain(bodies).all(|word| *word == 0));
    assert_eq!(proposals.iter().sum::<u32>(), 1);
    assert_eq!(proposals[PROPOSAL_HOOK], 1);
    assert_eq!(shares[..], [1, 1, 0, 0, 0, 0, 0, 0, 0, 0, 0, 0, 0]);
    let [events, changes, distances] = &lent.written;
    assert!(events.iter().chain(changes).all(|word| *word == 7));
    assert_eq!(distances[..], [0; 4]);
    assert_eq!(lent.out, vec![7; lent.out.len()]);
}

/// The step is given a matching that is named: by number where the line has a dash for it, or ends before it.
#[test]
fn a_go_fills_the_matching() {
    for (rest, words) in [
        ("", [1, 0]),
        ("\t-", [1, 0]),
        ("\t0", [1, 0]),
        ("\t000", [1, 0]),
        ("\t1", [1, 1]),
        ("\t01", [1, 1]),
    ] {
        let mut lent = Lent::new(4, NEW);
        lent.play_lines(&[&settings_and(rest), GO].concat(), 2);
        assert_eq!(lent.answer, [0, 0], "{rest:?}");
        assert_eq!(lent.given[0][SETTINGS_MATCHING..], words, "{rest:?}");
    }
    // Of several settings the last count.
    let mut lent = Lent::new(4, NEW);
    lent.play_lines(&[&settings_and("\t1"), SETTINGS, GO].concat(), 3);
    assert_eq!(lent.given[0][SETTINGS_MATCHING..], [1, 0]);
}

#[test]
fn a_matching_out_of_range_fills_nothing() {
    for rest in ["\t2", "\t4294967295"] {
        let settings = settings_and(rest);
        let text = [&settings, GO].concat();
        let mut lent = Lent::new(4, NEW);
        let before_go = [settings.len() as u64, 0, 0, 1, 0];
        let after = lent.clone().printed(before_go, "");
        assert_eq!(lent.play(&text), 0);
        assert_eq!(lent, after);
        let after = lent.clone().printed(at(text.len()), "2\n");
        assert_eq!(lent.play(&text), 0);
        assert_eq!(lent, after);
    }
}

/// A step in which colliders 0 and 1 touch at points without features, their anchors at these places on x. Nothing is recycled.
fn touch_at(rest: &str, places: &[f32]) -> String {
    let (origin, corner) = (["00000000"; 3].join("\t"), ["3F800000"; 3].join("\t"));
    let collider = |n: u32| format!("C\t{n}\t-\t{origin}\t{corner}\t{origin}\t1\t1\t-\t-\t-\t0\n");
    let point = |x: &f32| {
        let place = format!("{:08X}\t00000000\t00000000", x.to_bits());
        format!("P\t{place}\t{place}\t{place}\t00000000\t0\t0\n")
    };
    let points: String = places.iter().map(point).collect();
    let manifold = "M\t0\t1\t00000000\t3F800000\t00000000\n";
    [
        &settings_and(rest),
        &collider(0),
        &collider(1),
        manifold,
        &points,
        GO,
    ]
    .concat()
}

/// The stored points' normal impulses for warm starting.
fn warm_starts(graph: &[u32]) -> Vec<f32> {
    let graph = ContactGraph::from_words(graph.to_vec()).unwrap();
    let manifolds = graph.pairs().flat_map(|pair| pair.manifolds());
    let points = manifolds.flat_map(|manifold| manifold.points());
    points
        .map(|point| point.warm_start_normal_impulse)
        .collect()
}

/// Points at 1 and 2 get the impulses 10 and 20. What does a point at 2 take in the next step, with such settings?
fn taken(rest: &str) -> Vec<f32> {
    let first = ADDITION.to_owned() + &touch_at(rest, &[1.0, 2.0]);
    let second = touch_at(rest, &[2.0]);
    let text = first.clone() + &second;
    let mut lent = Lent::new(4, NEW);
    lent.play_lines(&text, first.lines().count());
    let mut graph = ContactGraph::from_words(lent.graph).unwrap();
    graph.for_each_point_mut(|_, _, p, mut point| {
        point.set_warm_start_normal_impulse([10.0, 20.0][p]);
    });
    lent.graph = graph.into_words();
    lent.play_lines(&text, second.lines().count());
    warm_starts(&lent.graph)
}

/// By number the new point takes the first old point's, by place those of the one where it is.
#[test]
fn a_trace_is_played_by_number_unless_it_names_by_place() {
    for rest in ["", "\t-", "\t0"] {
        assert_eq!(taken(rest), [10.0], "{rest:?}");
    }
    assert_eq!(taken("\t1"), [20.0]);
}

#[test]
fn a_line_takes_no_other_length() {
    for capacity in CAPACITIES {
        for k in 0..ROWS {
            for longer in [false, true] {
                let mut lent = Lent::new(capacity, BEFORE_GO);
                lent.stretch(k, longer);
                let before = lent.clone();
                let row = format!("capacity {capacity}, row {k}, longer {longer}");
                assert_eq!(lent.play(&trace()), 1, "{row}");
                assert!(lent == before, "{row}");
            }
        }
    }
}

/// Proposals made for 32 points of a manifold.
#[test]
fn a_line_takes_no_proposals_for_32_points() {
    let manifold = PROPOSED_MANIFOLD_POINTS + 32 * PROPOSED_POINT_SIZE;
    for capacity in CAPACITIES {
        let mut lent = Lent::new(capacity, NEW);
        let proposal = PROPOSAL_MANIFOLDS + MANIFOLDS * manifold;
        lent.given[3].resize(proposal * capacity as usize, 7);
        let before = lent.clone();
        assert_eq!(lent.play(&trace()), 1);
        assert_eq!(lent, before);
    }
}

/// Settings that end before the matching.
#[test]
fn a_line_takes_no_settings_of_10_words() {
    for capacity in CAPACITIES {
        let mut lent = Lent::new(capacity, NEW);
        lent.given[0].truncate(SETTINGS_MATCHING);
        assert_eq!(lent.given[0].len(), 10);
        let before = lent.clone();
        assert_eq!(lent.play(&trace()), 1);
        assert_eq!(lent, before);
    }
}

#[test]
fn at_the_end_nothing_changes_but_the_answer() {
    let end = trace().len() as u64;
    for place in [end, end + 1, u64::MAX] {
        let player = [place, 3, 9, 0, u64::MAX];
        let mut lent = Lent::new(4, player);
        let mut after = lent.clone();
        after.answer = vec![1, 0];
        assert_eq!(lent.play(&trace()), 0);
        assert_eq!(lent, after);
        let mut lent = Lent::new(4, player);
        assert_eq!(lent.play(""), 0);
        assert_eq!(lent, after);
    }
}

#[test]
fn an_unreadable_line_moves_the_player_alone() {
    let text = trace();
    let inside = [1, 0, 5, 1, 1];
    let no_settings = [GO_AT, 0, 1, 0, 0];
    for player in [inside, no_settings] {
        let mut lent = Lent::new(4, player);
        let after = lent.clone().printed(at(text.len()), "10\n");
        assert_eq!(lent.play(&text), 0);
        assert_eq!(lent, after);
    }
}

#[test]
fn a_go_out_of_range_fills_nothing() {
    let text = trace();
    let mut lent = Lent::new(4, [GO_AT, 0, 0, 1, 0]);
    let after = lent.clone().printed(at(text.len()), "2\n");
    assert_eq!(lent.play(&text), 0);
    assert_eq!(lent, after);
    let mut lent = Lent::new(4, BEFORE_GO);
    lent.graph[GRAPH_GIVEN] = 5;
    let after = lent.clone().printed(at(text.len()), "2\n");
    assert_eq!(lent.play(&text), 0);
    assert_eq!(lent, after);
}

#[test]
fn an_addition_to_a_graph_out_of_range_changes_nothing() {
    let mut lent = Lent::new(4, [0, 0, 7, 7, 7]);
    lent.graph[GRAPH_FREED] = 1;
    let after = lent.clone().printed([SETTINGS_AT, 0, 0, 1, 1], "2\n");
    assert_eq!(lent.play(&trace()), 0);
    assert_eq!(lent, after);
}

/// A player that says that settings stand, where none do: those of zeros, which a step refuses.
#[test]
fn settings_that_are_missing_are_zeros() {
    let mut lent = Lent::new(4, [GO_AT, GO_AT, 0, 9, 9]);
    let mut after = lent.clone();
    after.given = lent.given.clone().map(|row| vec![0; row.len()]);
    let [.., shares] = &mut after.given;
    shares[0] = 1;
    let after = after.printed(at(trace().len()), "2\n");
    assert_eq!(lent.play(&trace()), 0);
    assert_eq!(lent, after);
}

#[test]
fn rows_may_be_empty() {
    let mut lent = Lent {
        player: vec![],
        graph: vec![],
        given: Default::default(),
        bits: vec![],
        written: Default::default(),
        out: vec![],
        answer: vec![],
    };
    assert_eq!(lent.play(""), 1);
    assert_eq!(lent.play(GO), 1);
}
