//! Words that a call does not read: any.

use crate::draws::Rng;
use reference::layout::*;
use sardinerod::{Shares, World};

/// The words behind each mark of 0, by the mark's place and their number.
fn fill_behind_marks(rng: &mut Rng, record: &mut [u32], marks: &[(usize, usize)]) {
    let marks = match record[PRESENCE] {
        0 => &[(PRESENCE, record.len() - 1)],
        _ => marks,
    };
    for (mark, words) in marks {
        if record[*mark] == 0 {
            record[mark + 1..][..*words].fill_with(|| rng.word());
        }
    }
}

/// The matching mark behind a presence mark of 0; at times a mark all the same.
pub fn settings(rng: &mut Rng, world: &mut World) {
    let words = [0, 1, rng.word(), rng.word()];
    let settings = world.settings_words_mut();
    if settings[SETTINGS_MATCHING] == 0 {
        settings[SETTINGS_MATCHING_VALUE] = rng.of(&words);
    }
}

pub fn collider(rng: &mut Rng, world: &mut World, n: u32) {
    let record = &mut world.colliders_words_mut()[COLLIDER_SIZE * n as usize..][..COLLIDER_SIZE];
    let marks = [
        (COLLIDER_BODY, 1),
        (COLLIDER_FRICTION, COEFFICIENT),
        (COLLIDER_RESTITUTION, COEFFICIENT),
        (COLLIDER_MARGIN, 1),
    ];
    fill_behind_marks(rng, record, &marks);
}

pub fn body(rng: &mut Rng, world: &mut World, n: u32) {
    let record = &mut world.bodies_words_mut()[BODY_SIZE * n as usize..][..BODY_SIZE];
    let marks = [
        (BODY_FRICTION, COEFFICIENT),
        (BODY_MARGIN, 1),
        (BODY_SPECULATIVE_MAXIMUM, 1),
    ];
    fill_behind_marks(rng, record, &marks);
}

/// Manifolds past the count, points past a manifold's.
pub fn proposal(rng: &mut Rng, world: &mut World, id: u32) {
    let proposal = &mut world.proposals_words_mut()[PROPOSAL_SIZE * id as usize..][..PROPOSAL_SIZE];
    let count = proposal[PROPOSAL_COUNT] as usize;
    let manifolds = proposal[PROPOSAL_MANIFOLDS..].chunks_mut(PROPOSED_MANIFOLD_SIZE);
    for (m, manifold) in manifolds.enumerate() {
        let points = manifold[PROPOSED_MANIFOLD_COUNT] as usize;
        let read = match m < count {
            true => proposed_point(points.min(PROPOSED_POINTS)),
            false => 0,
        };
        manifold[read..].fill_with(|| rng.word());
    }
}

/// Counts of workers that there are not, and entries past the last.
pub fn shares(rng: &mut Rng, shares: &mut Shares) {
    let (head, entries) = shares.words_mut().split_at_mut(SHARES_ENTRIES);
    let workers = (head[SHARES_WORKERS] as usize).min(MOST_WORKERS);
    let (counts, others) = head[SHARES_COUNTS..].split_at_mut(workers);
    let read: usize = counts.iter().map(|n| *n as usize).sum();
    others.fill_with(|| rng.word());
    let read = read.min(entries.len());
    entries[read..].fill_with(|| rng.word());
}

/// In a graph: list places past the count, free places past theirs, records of ids that do not stand.
pub fn graph(rng: &mut Rng, graph: &mut [u32]) {
    let head = [GRAPH_CAPACITY, GRAPH_LISTED, GRAPH_FREED];
    let [capacity, listed, freed] = head.map(|place| graph[place] as usize);
    let list = &mut graph[GRAPH_LIST..][..capacity];
    let standing = list[..listed].to_vec();
    list[listed..].fill_with(|| rng.word());
    graph[graph_free(capacity)..][..capacity][freed..].fill_with(|| rng.word());
    let records = graph[graph_records(capacity)..].chunks_mut(CONTACT_SIZE);
    for (id, record) in records.enumerate() {
        if !standing.contains(&(id as u32)) && rng.one_in(4) {
            record.fill_with(|| rng.word());
        }
    }
}
