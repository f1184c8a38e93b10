//! The table of crates/step_table: lists of additions, steps and impulses, each list on one contact graph:
//! cargo run --release --offline --bin step_table > ../../crates/step_table/stdout

use reference::branches::Branches;
use reference::layout::*;
use reference::tables::calls::{Rows, Stepped, add, step};
use reference::tables::draws::*;
use reference::tables::hash::{bits, graph_hash};
use reference::tables::reached::{Counts, reach};
use reference::{Addition, ContactGraph, ContactId, Entity};

// ---- The lists' own draws.

/// A draw of a draw: two draws by one key lean on each other too much.
fn choice(key: u32, slot: usize) -> u32 {
    draw(draw(key, slot), 0)
}

fn list_capacity(list: u32) -> usize {
    let d = choice(list, 60);
    if d % 10 == 0 {
        64
    } else {
        1 + (d / 10 % 8) as usize
    }
}

/// Six give room for fifteen pairs.
fn list_colliders(list: u32) -> usize {
    if list_capacity(list) == 64 {
        6
    } else {
        4 + choice(list, 61) as usize % 3
    }
}

enum Kind {
    Addition,
    Step,
    Impulses,
}

/// The first two calls are additions, at capacity 64 the first ten.
fn kind(call: u32, n: u32, capacity: usize) -> Kind {
    let first = if capacity == 64 { 10 } else { 2 };
    let d = choice(call, 60) % 16;
    if n < first || d < 5 {
        Kind::Addition
    } else if d < 14 {
        Kind::Step
    } else {
        Kind::Impulses
    }
}

/// Position and rotation, word by word.
fn move_body(rows: &mut Rows, key: u32, n: usize, wild: bool) {
    let owner = draw(key, 20 + n);
    for i in BODY_POSITION..BODY_CENTER_OF_MASS {
        let w = &mut rows.bodies[BODY_SIZE * n + i];
        *w = moved_word(owner, i, wild, *w);
    }
}

/// 0.001, -0.002, 0.004, 0.01, -0.02, 0.04, 0.1, 0.5.
const MOVES: [u32; 8] = [
    0x3a83126f, 0xbb03126f, 0x3b83126f, 0x3c23d70a, 0xbca3d70a, 0x3d23d70a, 0x3dcccccd, 0x3f000000,
];

/// NaN, the infinities, f32's largest, 1e6, -0, the least above 0.
const WILD: [u32; 8] = [
    0x7fc00000, 0x7fc00000, 0x7f800000, 0xff800000, 0x7f7fffff, 0x49742400, 0x80000000, 0x00000001,
];

/// One in four words of a position is moved, and one in eight of a rotation; of a wild body these are others.
fn moved_word(owner: u32, i: usize, wild: bool, w: u32) -> u32 {
    let d = choice(owner, 80 + i);
    let n = if i < BODY_ROTATION { 4 } else { 8 };
    let k = (d / n % 8) as usize;
    if d % n != 0 {
        w
    } else if wild {
        WILD[k]
    } else {
        bits(f32::from_bits(w) + f32::from_bits(MOVES[k]))
    }
}

/// Of `colliders` colliders, at times one of the last two, which are absent; at times the same twice.
fn named_colliders(call: u32, colliders: usize) -> [Entity; 2] {
    let [d, e] = [70, 71].map(|slot| choice(call, slot) as usize);
    let first = match d % 40 {
        0 => COLLIDERS - 2,
        _ => d / 40 % colliders,
    };
    let second = match e % 40 {
        0 => COLLIDERS - 1,
        1..=3 => first,
        _ => (first + 1 + e / 40 % (colliders - 1)) % colliders,
    };
    [first, second].map(|n| Entity(n as u32))
}

/// A body in two of three.
fn named_body(call: u32, slot: usize) -> Option<Entity> {
    if choice(call, slot) % 3 == 0 {
        None
    } else {
        Some(Entity(choice(call, slot + 1) % BODIES as u32))
    }
}

fn addition(call: u32, colliders: usize) -> Addition {
    let [collider1, collider2] = named_colliders(call, colliders);
    Addition {
        collider1,
        collider2,
        body1: named_body(call, 72),
        body2: named_body(call, 74),
        contact_events: choice(call, 76) % 3 != 0,
        modify_contacts: choice(call, 77) % 3 == 0,
        speculative_distance: f32::from_bits(SPECULATIVE[(choice(call, 78) % 16) as usize]),
    }
}

/// Settings, colliders and bodies: kept, or some drawn anew, or the bodies moved a little.
fn draw_world(rows: &mut Rows, call: u32, colliders: usize) {
    if choice(call, 61) % 8 == 0 {
        rows.draw_settings(call);
    }
    let one = choice(call, 63) as usize % colliders;
    match choice(call, 62) % 16 {
        0 => {
            reach("world: all anew");
            for n in 0..colliders {
                rows.draw_collider(call, n);
                rows.draw_body(call, n);
            }
        }
        1..=3 => {
            reach("world: a collider and its body anew");
            rows.draw_collider(call, one);
            rows.draw_body(call, one);
        }
        4..=5 => {
            reach("world: a collider anew");
            rows.draw_collider(call, one);
        }
        6 => {
            reach("world: a body anew");
            rows.draw_body(call, one);
        }
        7..=12 => {
            reach("world: bodies moved");
            for n in 0..colliders {
                move_body(rows, call, n, style(call) == 2 && n == one);
            }
        }
        _ => reach("world: kept"),
    }
}

/// The id freed last, if one is free; the lowest never given; none at all.
fn inactive_id(graph: &ContactGraph, call: u32) -> u32 {
    let given = graph.edges.raw_edges().len() as u32;
    match choice(call, 69) % 3 {
        0 => graph.edges.free().last().map_or(given, |id| id.0),
        1 => given,
        _ => ContactId::PLACEHOLDER.0,
    }
}

/// One past a limit, or the largest number.
fn over(limit: usize, d: u32) -> u32 {
    if d % 2 == 0 {
        limit as u32 + 1
    } else {
        u32::MAX
    }
}

/// Those of the active pairs, at times with a count that is too large: of manifolds, of points, or of an id that is not active.
fn draw_proposals(rows: &mut Rows, graph: &ContactGraph, call: u32) {
    for pair in &graph.active_pairs {
        let id = pair.contact_id.0 as usize;
        rows.draw_proposal(choice(call, 300 + id), id);
    }
    let (d, e) = (choice(call, 64), choice(call, 65) as usize);
    let pairs = graph.active_pairs.len();
    match d % 24 {
        kind @ 0..=1 if pairs > 0 => {
            let id = graph.active_pairs[e % pairs].contact_id.0 as usize;
            let proposal = &mut rows.proposals[PROPOSAL_SIZE * id..];
            if kind == 0 {
                proposal[PROPOSAL_COUNT] = over(MANIFOLDS, d / 24);
            } else {
                let manifold = proposed_manifold(e / 64 % MANIFOLDS);
                proposal[manifold + PROPOSED_MANIFOLD_COUNT] = over(PROPOSED_POINTS, d / 24);
            }
        }
        2 => {
            let id = inactive_id(graph, call) as usize;
            if PROPOSAL_SIZE * id < rows.proposals.len() {
                rows.proposals[PROPOSAL_SIZE * id + PROPOSAL_COUNT] = over(MANIFOLDS, d / 24);
            }
        }
        _ => {}
    }
}

/// Which of the workers takes the pair at a place.
fn worker_of(call: u32, place: usize, workers: usize) -> usize {
    choice(call, 500 + place) as usize % workers
}

/// The active pairs in any order, dealt to 1 worker or more; any words where none are read; at times damaged.
fn draw_shares(rows: &mut Rows, graph: &ContactGraph, call: u32) {
    for (i, w) in rows.shares.iter_mut().enumerate() {
        *w = choice(call, 600 + i);
    }
    let (head, entries) = rows.shares.split_at_mut(SHARES_ENTRIES);
    let pairs = graph.active_pairs.len();
    for (entry, pair) in entries.iter_mut().zip(&graph.active_pairs) {
        *entry = pair.contact_id.0;
    }
    for k in (1..pairs).rev() {
        let other = choice(call, 400 + k) as usize % (k + 1);
        entries.swap(k, other);
    }
    let workers = 1 + choice(call, 67) as usize % MOST_WORKERS;
    head[SHARES_WORKERS] = workers as u32;
    let counts = &mut head[SHARES_COUNTS..];
    counts[..workers].fill(0);
    for k in 0..pairs {
        counts[worker_of(call, k, workers)] += 1;
    }
    damage_shares(&mut rows.shares, graph, call, workers);
}

fn damage_shares(row: &mut [u32], graph: &ContactGraph, call: u32, workers: usize) {
    let pairs = graph.active_pairs.len();
    let d = choice(call, 68);
    let (head, entries) = row.split_at_mut(SHARES_ENTRIES);
    let (number, counts) = head.split_at_mut(SHARES_COUNTS);
    let number = &mut number[SHARES_WORKERS];
    let (first, inactive) = (entries[0], inactive_id(graph, call));
    match (d % 48, pairs) {
        (0, _) => *number = 0,
        (1, _) => {
            *number = over(MOST_WORKERS, d / 48);
            counts[workers..].fill(0);
        }
        (2, 2..) => entries[0] = entries[pairs - 1],
        (4, 1..) => counts[worker_of(call, pairs - 1, workers)] -= 1,
        (5, 1..) => entries[0] = inactive,
        (7, _) => counts[0] = u32::MAX,
        // One more for the last worker.
        (3, 1..) | (6, _) => {
            counts[workers - 1] += 1;
            if let Some(entry) = entries.get_mut(pairs) {
                *entry = if d % 48 == 3 { first } else { inactive };
            }
        }
        _ => {}
    }
}

/// Half of the impulses of the stored points.
fn write_impulses(graph: &mut ContactGraph, call: u32) {
    for pair in graph.active_pairs.iter_mut() {
        let owner = choice(call, 300 + pair.contact_id.0 as usize);
        for (m, manifold) in pair.manifolds.iter_mut().enumerate() {
            for (q, point) in manifold.points.iter_mut().enumerate() {
                for (k, impulse) in [
                    (POINT_NORMAL_IMPULSE, &mut point.normal_impulse),
                    (
                        POINT_WARM_START_NORMAL_IMPULSE,
                        &mut point.warm_start_normal_impulse,
                    ),
                    (
                        POINT_WARM_START_TANGENT_IMPULSE,
                        &mut point.warm_start_tangent_impulse.x,
                    ),
                    (
                        POINT_WARM_START_TANGENT_IMPULSE2,
                        &mut point.warm_start_tangent_impulse.y,
                    ),
                ] {
                    let place = contact_point(m, q) + k;
                    if one_in(owner, place, 2) == 1 {
                        *impulse = f32::from_bits(float(owner, 600 + place, style(owner)));
                        reach(if impulse.is_nan() {
                            "impulse written, NaN"
                        } else {
                            "impulse written"
                        });
                    }
                }
            }
        }
    }
}

// ---- The lists.

struct List {
    capacity: usize,
    colliders: usize,
    graph: ContactGraph,
    rows: Rows,
    /// Of the last step that was not refused.
    last: Stepped,
}

impl List {
    fn new(list: u32) -> Self {
        let capacity = list_capacity(list);
        let colliders = list_colliders(list);
        reach(format!("capacity: {capacity}"));
        reach(format!("colliders: {colliders}"));
        let mut rows = Rows::new(capacity);
        rows.draw_settings(list);
        for n in 0..colliders {
            rows.draw_collider(list, n);
            rows.draw_body(list, n);
        }
        Self {
            capacity,
            colliders,
            graph: ContactGraph::default(),
            rows,
            last: Stepped::none(capacity),
        }
    }

    fn add(&mut self, call: u32) -> String {
        let addition = addition(call, self.colliders);
        match add(&mut self.graph, self.capacity, &addition) {
            Ok(id) => format!("A\t{}", id.0),
            Err(number) => format!("A\tR\t{number}"),
        }
    }

    fn step(&mut self, call: u32) -> String {
        draw_world(&mut self.rows, call, self.colliders);
        draw_proposals(&mut self.rows, &self.graph, call);
        draw_shares(&mut self.rows, &self.graph, call);
        match step(&mut self.graph, self.capacity, &self.rows) {
            Ok(stepped) => {
                let (events, changes) = (stepped.events.len(), stepped.changes.len());
                let recycled = stepped.recycled;
                self.last = stepped;
                format!("S\t{events}\t{changes}\t{recycled}")
            }
            Err(number) => format!("S\tR\t{number}"),
        }
    }

    fn write_impulses(&mut self, call: u32) -> String {
        write_impulses(&mut self.graph, call);
        "I\t-".to_string()
    }
}

/// A list's lines: its number, the call's number and kind, the answer, and the hashes of the graph, and of the events, changes and
/// distances of the last step that was not refused. Gives the number of calls.
fn run(l: u32) -> u32 {
    let key = choice(l, 2);
    let calls = 12 + choice(key, 62) % 19;
    let mut list = List::new(key);
    for n in 0..calls {
        let call = choice(key, 1000 + n as usize);
        let answer = match kind(call, n, list.capacity) {
            Kind::Addition => list.add(call),
            Kind::Step => list.step(call),
            Kind::Impulses => list.write_impulses(call),
        };
        let [events, changes, distances] = list.last.hashes();
        println!(
            "{l}\t{n}\t{answer}\t{:08X}\t{events:08X}\t{changes:08X}\t{distances:08X}",
            graph_hash(&list.graph, list.capacity)
        );
    }
    calls
}

const LISTS: u32 = 120;

/// A list's own branches beside the capacities and the numbers of workers.
const BRANCHES: [&str; 43] = [
    "a worker without contacts",
    "an order other than the list's",
    "colliders: 4",
    "colliders: 5",
    "colliders: 6",
    "impulse written",
    "impulse written, NaN",
    "length unit 0",
    "length unit NaN",
    "length unit negative",
    "length unit positive",
    "overfull: manifolds",
    "overfull: points",
    "pairs in a step: 1",
    "pairs in a step: 2 to 4",
    "pairs in a step: 5 to 8",
    "pairs in a step: none",
    "pairs in a step: over 8",
    "refused 3",
    "refused 4, in a full graph",
    "refused 4, in the other order",
    "refused 4, in the same order",
    "refused 5",
    "refused 6",
    "refused 6, bad shares too",
    "refused 7: an id missing",
    "refused 7: an id not active",
    "refused 7: an id twice",
    "refused 7: more listed than the capacity",
    "refused 7: no worker",
    "refused 7: too many workers",
    "removals in a step: 0",
    "removals in a step: 1",
    "removals in a step: several",
    "too many manifolds of an id not active",
    "too many points past the count",
    "visited after a removal",
    "world: a body anew",
    "world: a collider and its body anew",
    "world: a collider anew",
    "world: all anew",
    "world: bodies moved",
    "world: kept",
];

/// The lists do not reach these five times.
const SELDOM: [&str; 5] = [
    "abandoned: distance, equal",
    "matched by anchors crossed, a feature unknown",
    "visited: bit word 1",
    "visited: bit word 2",
    "visited: bit word 3",
];

fn main() {
    let lines: u32 = (0..LISTS).map(run).sum();
    let mut own: Vec<String> = BRANCHES.iter().map(|b| b.to_string()).collect();
    own.extend((1..=8).map(|n| format!("capacity: {n}")));
    own.extend((1..=MOST_WORKERS).map(|n| format!("workers: {n}")));
    own.push("capacity: 64".to_string());
    let often = Branches::NAMES.iter().filter(|b| !SELDOM.contains(b));
    let counts = Counts::taken();
    counts.by_number_alone();
    counts.none_but(&own);
    counts.at_least(5, own.iter().map(String::as_str));
    counts.at_least(5, often.copied());
    let steps: u32 = (1..=MOST_WORKERS)
        .map(|n| counts.of(&format!("workers: {n}")))
        .sum();
    let total = own.len() + Branches::NAMES.len() - SELDOM.len();
    eprintln!("{LISTS} lists, {lines} lines, {steps} steps not refused, {total} branches");
    assert!(lines <= 3000);
}
