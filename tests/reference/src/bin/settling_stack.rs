//! The stack of crates/settling_stack: boxes that fall, shift and are lifted:
//! cargo run --release --offline --bin settling_stack > ../../crates/settling_stack/stdout

use reference::layout::*;
use reference::tables::calls::{Rows, Stepped, add, step};
use reference::tables::hash::{Hash, bits, graph_hash};
use reference::tables::reached::Counts;
use reference::{Addition, ContactEdgeFlags, ContactGraph, ContactPair, Entity};

const CAPACITY: usize = 64;

const FLOOR: usize = 0;

const BOXES: usize = 8;

/// Writes words from a place on.
fn put(row: &mut [u32], at: usize, words: &[u32]) {
    row[at..at + words.len()].copy_from_slice(words);
}

fn put_floats(row: &mut [u32], at: usize, floats: &[f32]) {
    let words: Vec<u32> = floats.iter().copied().map(bits).collect();
    put(row, at, &words);
}

/// Friction and restitution are a coefficient and a rule. Matching is named by number: the Rust's.
fn settings() -> Vec<u32> {
    let mut words = vec![0; SETTINGS_LENGTH];
    words[SETTINGS_STEP_TIME] = bits(1.0 / 64.0);
    words[SETTINGS_LENGTH_UNIT] = bits(1.0);
    words[SETTINGS_CONTACT_TOLERANCE] = bits(0.005);
    words[SETTINGS_RECYCLE_DISTANCE] = bits(0.05);
    words[SETTINGS_RECYCLE_COSINE] = bits(0.99);
    words[SETTINGS_MATCH_CONTACTS] = 1;
    put(&mut words, SETTINGS_FRICTION, &[bits(0.5), 1]);
    put(&mut words, SETTINGS_RESTITUTION, &[bits(0.1), 2]);
    put(&mut words, SETTINGS_MATCHING, &[1, 0]);
    words
}

// ---- Boxes: the floor is number 0. Each is a collider with a body of its number.

#[derive(Clone, Copy)]
struct Placed {
    position: [f32; 3],
    velocity: [f32; 3],
    rotation: [f32; 4],
}

type Stack = [Placed; 1 + BOXES];

const HEIGHTS: [f32; 1 + BOXES] = [-0.5, 0.53, 1.83, 2.89, 4.04, 5.04, 6.54, 7.63, 8.65];

fn stack() -> Stack {
    HEIGHTS.map(|y| Placed {
        position: [0.0, y, 0.0],
        velocity: [0.0; 3],
        rotation: [0.0, 0.0, 0.0, 1.0],
    })
}

/// Present for one in m of the numbers: mark, coefficient, rule.
fn coefficient_words(n: usize, m: usize) -> [u32; 1 + COEFFICIENT] {
    [(n % m == 1) as u32, bits(0.3), 1 + (n % RULES) as u32]
}

/// The box is larger by 0.05 on each side. Box 2 is not there in one of a hundred steps, box 6 is a sensor for fifty in 150.
fn collider_words(stack: &Stack, n: usize, step: u32) -> [u32; COLLIDER_SIZE] {
    let p = stack[n].position;
    let half = |axis: usize| {
        if n == FLOOR && axis != 1 { 5.05 } else { 0.55 }
    };
    let present = !(n == 2 && step % 100 == 95);
    let sensor = n == 6 && step / 50 % 3 == 1;
    let lower = [0, 1, 2].map(|axis| p[axis] - half(axis));
    let upper = [0, 1, 2].map(|axis| p[axis] + half(axis));
    let mut words = [0; COLLIDER_SIZE];
    words[PRESENCE] = present as u32;
    put(&mut words, COLLIDER_BODY, &[1, n as u32]);
    put_floats(&mut words, COLLIDER_LOWER, &lower);
    put_floats(&mut words, COLLIDER_UPPER, &upper);
    put_floats(&mut words, COLLIDER_POSITION, &p);
    words[COLLIDER_MEMBERSHIPS] = 1;
    words[COLLIDER_FILTERS] = u32::MAX;
    put(&mut words, COLLIDER_FRICTION, &coefficient_words(n, 2));
    put(&mut words, COLLIDER_RESTITUTION, &coefficient_words(n, 3));
    put(&mut words, COLLIDER_MARGIN, &[(n == 5) as u32, bits(0.003)]);
    words[COLLIDER_SENSOR] = sensor as u32;
    words
}

/// Box 7 has no body for four steps in a hundred.
fn body_words(stack: &Stack, n: usize, step: u32) -> [u32; BODY_SIZE] {
    let Placed {
        position,
        velocity,
        rotation,
    } = stack[n];
    let present = !(n == 7 && step % 100 / 4 == 21);
    let swept = n == 6 || n == 8;
    let mut words = [0; BODY_SIZE];
    words[PRESENCE] = present as u32;
    words[BODY_STATIC] = (n == FLOOR) as u32;
    put_floats(&mut words, BODY_POSITION, &position);
    put_floats(&mut words, BODY_ROTATION, &rotation);
    put_floats(&mut words, BODY_LINEAR_VELOCITY, &velocity);
    put(&mut words, BODY_FRICTION, &coefficient_words(n, 4));
    put(&mut words, BODY_MARGIN, &[(n == 3) as u32, bits(0.002)]);
    let maximum = [swept as u32, bits(0.1)];
    put(&mut words, BODY_SPECULATIVE_MAXIMUM, &maximum);
    words[BODY_SWEEP_RADIUS] = bits(0.9);
    words
}

// ---- How they move.

/// Every 25 steps the boxes from 5, 4 or 3 on, every 40 steps 7 and 8.
fn lifted(n: usize, step: u32) -> bool {
    let above = |below: u32| n as u32 > below;
    match (step % 25, step % 40) {
        (15, _) => above(4 - step / 25 % 3),
        (_, 30) => above(6),
        _ => false,
    }
}

fn shift(n: usize, step: u32) -> f32 {
    match (step + 3 * n as u32) % 48 {
        0 => 0.125,
        24 => -0.125,
        _ if (step + n as u32) % 2 == 0 => 0.01,
        _ => -0.01,
    }
}

fn move_along(placed: &mut Placed, axis: usize, to: f32) {
    placed.velocity[axis] = (to - placed.position[axis]) * 64.0;
    placed.position[axis] = to;
}

/// From the lowest up: each falls as far as the box below lets it, and shifts to and fro. Box 4 turns about y.
fn move_boxes(stack: &mut Stack, step: u32) {
    let turn = [0.0, 0.05, 0.1][(step / 32 % 3) as usize];
    let cosine = [1.0, 0.998_749_2, 0.994_987_4][(step / 32 % 3) as usize];
    stack[4].rotation = [0.0, turn, 0.0, cosine];
    for n in 1..=BOXES {
        let rest = stack[n - 1].position[1] + 1.0;
        let [x, y, _] = stack[n].position;
        let fallen = y - 0.03;
        let height = if lifted(n, step) {
            y + 0.3
        } else if fallen < rest {
            rest
        } else {
            fallen
        };
        move_along(&mut stack[n], 1, height);
        move_along(&mut stack[n], 0, x + shift(n, step));
    }
}

// ---- What is added and proposed.

fn top(placed: &Placed) -> f32 {
    placed.position[1] + 0.5
}

fn bottom(placed: &Placed) -> f32 {
    placed.position[1] - 0.5
}

/// All neighbours at the start, then those that are near. One that stands already is refused.
fn add_near(graph: &mut ContactGraph, stack: &Stack, step: u32) {
    for n in 1..=BOXES {
        if step > 0 && bottom(&stack[n]) - top(&stack[n - 1]) >= 0.09 {
            continue;
        }
        let below = Entity(n as u32 - 1);
        let above = Entity(n as u32);
        let answer = add(
            graph,
            CAPACITY,
            &Addition {
                collider1: below,
                collider2: above,
                body1: Some(below),
                body2: Some(above),
                contact_events: n % 3 != 0,
                modify_contacts: n % 4 == 0,
                speculative_distance: if n % 2 == 0 { 0.05 } else { 0.0 },
            },
        );
        assert!(matches!(answer, Ok(_) | Err(4)));
    }
}

/// Of a box's lower side.
const CORNERS: usize = 4;

fn corner(k: usize) -> [f32; 3] {
    let side = |upper: usize| if upper == 0 { -0.5 } else { 0.5 };
    [side(k % 2), -0.5, side(k / 2)]
}

fn point_words(stack: &Stack, below: usize, above: usize, k: usize) -> [u32; PROPOSED_POINT_SIZE] {
    let p1 = stack[below].position;
    let p2 = stack[above].position;
    let anchor2 = corner(k);
    let world = [0, 1, 2].map(|axis| p2[axis] + anchor2[axis]);
    let anchor1 = [0, 1, 2].map(|axis| world[axis] - p1[axis]);
    let penetration = top(&stack[below]) - bottom(&stack[above]);
    let mut words = [0; PROPOSED_POINT_SIZE];
    put_floats(&mut words, PROPOSED_POINT_ANCHOR1, &anchor1);
    put_floats(&mut words, PROPOSED_POINT_ANCHOR2, &anchor2);
    put_floats(&mut words, PROPOSED_POINT_POSITION, &world);
    words[PROPOSED_POINT_PENETRATION] = bits(penetration);
    let features = [below, above].map(|n| (1 + CORNERS * n + k) as u32);
    put(&mut words, PROPOSED_POINT_FEATURES, &features);
    words
}

/// The hook says no in three of fifty steps. A manifold where the boxes are at most 0.02 apart.
fn propose(proposal: &mut [u32], stack: &Stack, pair: &ContactPair, step: u32) {
    let (below, above) = (pair.collider1.0 as usize, pair.collider2.0 as usize);
    let near = top(&stack[below]) - bottom(&stack[above]) > -0.02;
    proposal[PROPOSAL_HOOK] = (step % 50 >= 3) as u32;
    proposal[PROPOSAL_COUNT] = near as u32;
    let manifold = &mut proposal[proposed_manifold(0)..];
    manifold[PROPOSED_MANIFOLD_COUNT] = CORNERS as u32;
    put_floats(manifold, PROPOSED_MANIFOLD_NORMAL, &[0.0, 1.0, 0.0]);
    for k in 0..CORNERS {
        let point = point_words(stack, below, above, k);
        put(manifold, proposed_point(k), &point);
    }
}

const WORKERS: usize = 3;

/// The listed pairs in turn.
fn share_words(graph: &ContactGraph) -> Vec<u32> {
    let ids: Vec<u32> = graph.active_pairs.iter().map(|p| p.contact_id.0).collect();
    let own = |w: usize| -> Vec<u32> { ids.iter().skip(w).step_by(WORKERS).copied().collect() };
    let mut words = vec![0; SHARES_ENTRIES + CAPACITY];
    words[SHARES_WORKERS] = WORKERS as u32;
    for w in 0..WORKERS {
        words[SHARES_COUNTS + w] = own(w).len() as u32;
    }
    let entries: Vec<u32> = (0..WORKERS).flat_map(own).collect();
    put(&mut words, SHARES_ENTRIES, &entries);
    words
}

fn fill(rows: &mut Rows, graph: &ContactGraph, stack: &Stack, step: u32) {
    for n in 0..=BOXES {
        let collider = collider_words(stack, n, step);
        put(&mut rows.colliders, COLLIDER_SIZE * n, &collider);
        let body = body_words(stack, n, step);
        put(&mut rows.bodies, BODY_SIZE * n, &body);
    }
    for pair in &graph.active_pairs {
        let at = PROPOSAL_SIZE * pair.contact_id.0 as usize;
        propose(&mut rows.proposals[at..], stack, pair, step);
    }
    rows.shares = share_words(graph);
}

// ---- Impulses, made up.

/// That at place k of a point.
fn impulse(step: u32, id: u32, point: usize, k: usize) -> f32 {
    let b = step as u64 * 7919 + id as u64 * 104729 + point as u64 * 1299709 + k as u64 * 15485863;
    f32::from_bits(0x3f000000 + (b % 4294967296 % 8388608) as u32)
}

fn write_impulses(graph: &mut ContactGraph, step: u32) {
    for pair in &mut graph.active_pairs {
        let id = pair.contact_id.0;
        for manifold in &mut pair.manifolds {
            for (q, point) in manifold.points.iter_mut().enumerate() {
                let impulse = |k: usize| impulse(step, id, q, k);
                point.normal_impulse = impulse(POINT_NORMAL_IMPULSE);
                point.warm_start_normal_impulse = impulse(POINT_WARM_START_NORMAL_IMPULSE);
                let tangent = &mut point.warm_start_tangent_impulse;
                tangent.x = impulse(POINT_WARM_START_TANGENT_IMPULSE);
                tangent.y = impulse(POINT_WARM_START_TANGENT_IMPULSE2);
            }
        }
    }
}

// ---- Lines: what was said since the last one.

struct Tally {
    events: usize,
    changes: usize,
    recycled: u32,
    event_hash: Hash,
    change_hash: Hash,
}

impl Tally {
    const NONE: Self = Self {
        events: 0,
        changes: 0,
        recycled: 0,
        event_hash: Hash::START,
        change_hash: Hash::START,
    };

    fn count(&mut self, stepped: &Stepped) {
        self.events += stepped.events.len();
        self.changes += stepped.changes.len();
        self.recycled += stepped.recycled;
        self.event_hash.words(&stepped.event_words());
        self.change_hash.words(&stepped.change_words());
    }
}

fn print_line(graph: &ContactGraph, tally: &Tally, steps: u32) {
    let touching = graph
        .active_pairs
        .iter()
        .filter(|pair| {
            let edge = graph.get_edge_by_id(pair.contact_id).unwrap();
            edge.flags.contains(ContactEdgeFlags::TOUCHING)
        })
        .count();
    println!(
        "{steps}\t{}\t{touching}\t{}\t{}\t{}\t{:08X}\t{:08X}\t{:08X}",
        graph.active_pairs.len(),
        tally.events,
        tally.changes,
        tally.recycled,
        graph_hash(graph, CAPACITY),
        tally.event_hash.0,
        tally.change_hash.0
    );
}

/// What the stack is to reach.
const BRANCHES: [&str; 27] = [
    "abandoned: angle, equal",
    "abandoned: distance, touching",
    "abandoned: distance, not touching",
    "abandoned: no cache",
    "added: an id never given",
    "added: the id freed last of several",
    "added: the one id freed",
    "boxes overlap by growing",
    "disjoint: end event",
    "disjoint: no event, not touching",
    "disjoint: no event, touching without events",
    "disjoint: not generating",
    "disjoint: stop",
    "distance by speculation",
    "hook no, marked",
    "matched by features straight",
    "recycled, touching",
    "removals in a step: 1",
    "removals in a step: several",
    "removed: the last pair itself",
    "removed: the last pair takes the gap",
    "started generating, touching",
    "started: start",
    "started: not generating",
    "stopped: event",
    "stopped: stop",
    "way: skipped",
];

fn main() {
    let mut graph = ContactGraph::default();
    let mut rows = Rows::new(CAPACITY);
    rows.settings = settings();
    let mut stack = stack();
    let mut tally = Tally::NONE;
    for step_number in 0..300 {
        move_boxes(&mut stack, step_number);
        add_near(&mut graph, &stack, step_number);
        fill(&mut rows, &graph, &stack, step_number);
        match step(&mut graph, CAPACITY, &rows) {
            Ok(stepped) => tally.count(&stepped),
            Err(number) => {
                println!("refused\t{number}");
                return;
            }
        }
        write_impulses(&mut graph, step_number);
        if step_number % 10 == 9 {
            print_line(&graph, &tally, step_number + 1);
            tally = Tally::NONE;
        }
    }
    let counts = Counts::taken();
    counts.by_number_alone();
    counts.at_least(1, BRANCHES);
}
