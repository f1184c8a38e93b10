//! Changes of words and lengths, mostly near the limits of the table.

use crate::draws::Rng;
use reference::layout::*;

/// The small ones reach past the most manifolds, stored points and workers.
const NUMBERS: [u32; 24] = [
    0,
    1,
    2,
    3,
    4,
    5,
    6,
    7,
    8,
    9,
    PROPOSED_POINTS as u32 - 1,
    PROPOSED_POINTS as u32,
    PROPOSED_POINTS as u32 + 1,
    BODIES as u32 - 1,
    BODIES as u32,
    BODIES as u32 + 1,
    COLLIDERS as u32 - 1,
    COLLIDERS as u32,
    COLLIDERS as u32 + 1,
    0x7fff_ffff,
    0x8000_0000,
    0x7fc0_0000,
    0xffff_fffe,
    0xffff_ffff,
];

/// The last number below a limit, and the next.
const fn below(limit: usize) -> [u32; 2] {
    up_to(limit - 1)
}

/// The largest count that is allowed, and the next.
const fn up_to(most: usize) -> [u32; 2] {
    [most as u32, most as u32 + 1]
}

const MARK: &[u32] = &[1, 2];
const RULE: &[u32] = &[0, 1, RULES as u32, RULES as u32 + 1];
const COLLIDER: &[u32] = &below(COLLIDERS);
const BODY: &[u32] = &below(BODIES);
const MANIFOLD_COUNTS: &[u32] = &up_to(MANIFOLDS);
const STORED_POINT_COUNTS: &[u32] = &up_to(STORED_POINTS);
const PROPOSED_POINT_COUNTS: &[u32] = &up_to(PROPOSED_POINTS);
const WORKERS: &[u32] = &[0, 1, MOST_WORKERS as u32, MOST_WORKERS as u32 + 1];

/// A number near some limit.
pub fn number(rng: &mut Rng) -> u32 {
    rng.of(&NUMBERS)
}

/// A number near some limit, near what stood there, a bit flipped, or any word.
fn other_word(rng: &mut Rng, old: u32) -> u32 {
    match rng.below(8) {
        0..4 => number(rng),
        4 => old.wrapping_add(1),
        5 => old.wrapping_sub(1),
        6 => old ^ 1 << rng.below(32),
        _ => rng.word(),
    }
}

/// Changes a word, every second time to one beside the limits of its place.
fn word_at(rng: &mut Rng, row: &mut [u32], place: usize, limits: &[u32]) {
    if let Some(word) = row.get_mut(place) {
        *word = match rng.one_in(2) {
            true => rng.of(limits),
            false => other_word(rng, *word),
        };
    }
}

pub fn any_word(rng: &mut Rng, row: &mut [u32]) {
    if !row.is_empty() {
        let place = rng.below(row.len());
        row[place] = other_word(rng, row[place]);
    }
}

pub fn length<T: Default>(rng: &mut Rng, row: &mut Vec<T>) {
    if rng.one_in(2) {
        row.push(T::default());
    } else {
        row.pop();
    }
}

/// One entry takes another's place, or both change places.
fn entries(rng: &mut Rng, entries: &mut [u32]) {
    if entries.len() > 1 {
        let (a, b) = (rng.below(entries.len()), rng.below(entries.len()));
        match rng.one_in(2) {
            true => entries[a] = entries[b],
            false => entries.swap(a, b),
        }
    }
}

pub fn settings(rng: &mut Rng, settings: &mut [u32]) {
    let (place, limits) = rng.of(&[
        (SETTINGS_MATCH_CONTACTS, MARK),
        (SETTINGS_FRICTION_RULE, RULE),
        (SETTINGS_RESTITUTION_RULE, RULE),
        (SETTINGS_MATCHING, MARK),
        (SETTINGS_MATCHING_VALUE, MARK),
    ]);
    match rng.one_in(4) {
        true => any_word(rng, settings),
        false => word_at(rng, settings, place, limits),
    }
}

pub fn colliders(rng: &mut Rng, row: &mut [u32]) {
    let place = rng.below(COLLIDER_SIZE);
    let limits = match place {
        COLLIDER_BODY_NUMBER => BODY,
        COLLIDER_FRICTION_RULE | COLLIDER_RESTITUTION_RULE => RULE,
        _ => MARK,
    };
    present_record(rng, row, COLLIDER_SIZE, place, limits);
}

pub fn bodies(rng: &mut Rng, row: &mut [u32]) {
    let place = rng.below(BODY_SIZE);
    let limits = match place {
        BODY_FRICTION_RULE => RULE,
        _ => MARK,
    };
    present_record(rng, row, BODY_SIZE, place, limits);
}

/// A word of a record that is present, if there is one.
fn present_record(rng: &mut Rng, row: &mut [u32], size: usize, place: usize, limits: &[u32]) {
    let records = row.len() / size;
    let first = rng.below(records);
    let n = (first..records)
        .chain(0..first)
        .find(|n| row[size * n + PRESENCE] != 0)
        .unwrap_or(first);
    word_at(rng, row, size * n + place, limits);
}

/// The hook's answer, a count, or any word.
pub fn proposals(rng: &mut Rng, row: &mut [u32]) {
    let proposal = PROPOSAL_SIZE * rng.below((row.len() / PROPOSAL_SIZE).max(1));
    let (place, limits) = match rng.below(4) {
        0 => (PROPOSAL_HOOK, MARK),
        1 => (PROPOSAL_COUNT, MANIFOLD_COUNTS),
        2 => {
            let manifold = proposed_manifold(rng.below(MANIFOLDS));
            (manifold + PROPOSED_MANIFOLD_COUNT, PROPOSED_POINT_COUNTS)
        }
        _ => (rng.below(PROPOSAL_SIZE), MARK),
    };
    word_at(rng, row, proposal + place, limits);
}

/// The workers, their counts, or the entries, of which so many are read.
pub fn shares(rng: &mut Rng, row: &mut [u32], read: usize) {
    let last = (SHARES_ENTRIES + read).min(row.len());
    match rng.below(5) {
        0 => word_at(rng, row, SHARES_WORKERS, WORKERS),
        1 => {
            let worker = rng.below(MOST_WORKERS);
            word_at(rng, row, SHARES_COUNTS + worker, &[0, 1]);
        }
        2 => entries(rng, &mut row[SHARES_COUNTS..SHARES_ENTRIES]),
        3 => entries(rng, &mut row[SHARES_ENTRIES.min(last)..last]),
        _ => {
            let place = SHARES_ENTRIES + rng.below(read.min(MOST_CONTACTS) + 1);
            word_at(rng, row, place, &[0, 1, 2, u32::MAX]);
        }
    }
}

/// What the head of a graph of the right length says, for choosing places.
#[derive(Clone, Copy)]
struct Head {
    capacity: usize,
    listed: usize,
    freed: usize,
}

/// None where the graph has too few words.
fn head(graph: &[u32]) -> Option<Head> {
    let capacity = *graph.get(GRAPH_CAPACITY)? as usize;
    (graph.len() >= graph_length(capacity)).then(|| Head {
        capacity,
        listed: (graph[GRAPH_LISTED] as usize).min(capacity),
        freed: (graph[GRAPH_FREED] as usize).min(capacity),
    })
}

impl Head {
    /// Of a listed contact, its place in the list, and where its record begins.
    fn contact(self, rng: &mut Rng, graph: &[u32]) -> Option<(usize, usize)> {
        let place = rng.below(self.listed.max(1));
        let id = *graph[GRAPH_LIST..][..self.listed].get(place)? as usize;
        (id < self.capacity).then_some((place, graph_record(self.capacity, id)))
    }
}

/// The length, the head, the list, the free ids, or a contact.
pub fn graph(rng: &mut Rng, graph: &mut Vec<u32>) {
    let Some(head) = head(graph) else {
        return;
    };
    let list = GRAPH_LIST..GRAPH_LIST + head.listed;
    let first_free = graph_free(head.capacity);
    let free = first_free..first_free + head.freed;
    match rng.below(19) {
        0 => length(rng, graph),
        1 => graph.truncate(rng.below(GRAPH_LIST + 1)),
        2 => any_word(rng, &mut graph[GRAPH_CAPACITY..GRAPH_GIVEN]),
        3 | 4 => any_word(rng, &mut graph[GRAPH_GIVEN..GRAPH_LIST]),
        5 => any_word(rng, &mut graph[list]),
        6 => entries(rng, &mut graph[list]),
        7 => any_word(rng, &mut graph[free]),
        8 => entries(rng, &mut graph[free]),
        9 => any_word(rng, graph),
        10 => repeat_pair(rng, graph, head),
        11 => reorder_list(rng, graph, head),
        12 => give_one_more(graph, head),
        _ => contact(rng, graph, head),
    }
}

/// One contact names another's colliders, in either order.
fn repeat_pair(rng: &mut Rng, graph: &mut [u32], head: Head) {
    let (from, to) = (head.contact(rng, graph), head.contact(rng, graph));
    if let (Some((_, from)), Some((_, to))) = (from, to) {
        let (a, b) = (
            graph[from + CONTACT_COLLIDER1],
            graph[from + CONTACT_COLLIDER2],
        );
        let (a, b) = if rng.one_in(2) { (a, b) } else { (b, a) };
        graph[to + CONTACT_COLLIDER1] = a;
        graph[to + CONTACT_COLLIDER2] = b;
    }
}

/// Two listed contacts change places, and say so: still a graph.
fn reorder_list(rng: &mut Rng, graph: &mut [u32], head: Head) {
    let (a, b) = (head.contact(rng, graph), head.contact(rng, graph));
    if let (Some((place_a, a)), Some((place_b, b))) = (a, b) {
        graph.swap(GRAPH_LIST + place_a, GRAPH_LIST + place_b);
        graph.swap(a + CONTACT_PAIR_INDEX, b + CONTACT_PAIR_INDEX);
    }
}

/// One more id is given, and free: still a graph, unless the capacity was given already.
fn give_one_more(graph: &mut [u32], head: Head) {
    if head.freed < head.capacity {
        graph[graph_free(head.capacity) + head.freed] = graph[GRAPH_GIVEN];
        graph[GRAPH_GIVEN] = graph[GRAPH_GIVEN].wrapping_add(1);
        graph[GRAPH_FREED] = head.freed as u32 + 1;
    }
}

/// Whether a place among the manifolds of a contact's record is the number of one's points.
fn counts_points(place: usize) -> bool {
    (place - CONTACT_FIRST_MANIFOLD) % MANIFOLD_SIZE == MANIFOLD_COUNT
}

/// A word of a listed contact's record.
fn contact(rng: &mut Rng, graph: &mut [u32], head: Head) {
    let Some((_, record)) = head.contact(rng, graph) else {
        return;
    };
    let place = match rng.below(8) {
        0..4 => rng.below(CONTACT_CACHED),
        4 => CONTACT_MANIFOLDS,
        5 => contact_manifold(rng.below(MANIFOLDS)) + MANIFOLD_COUNT,
        _ => rng.below(CONTACT_SIZE),
    };
    let limits = match place {
        CONTACT_COLLIDER1 | CONTACT_COLLIDER2 => COLLIDER,
        CONTACT_BODY1_NUMBER | CONTACT_BODY2_NUMBER => BODY,
        CONTACT_MANIFOLDS => MANIFOLD_COUNTS,
        CONTACT_FIRST_MANIFOLD.. if counts_points(place) => STORED_POINT_COUNTS,
        _ => MARK,
    };
    word_at(rng, graph, record + place, limits);
}
