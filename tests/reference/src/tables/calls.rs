//! Additions and steps on words, with the specification's refusals 3 to 7.

use super::draws::{body_word, collider_word, proposal_word, setting_word};
use super::hash::graph_hash;
use super::reached::{reach, uncounted};
use crate::layout::*;
use crate::*;

/// An addition: 3, 4 and 5.
pub fn add(graph: &mut ContactGraph, capacity: usize, a: &Addition) -> Result<ContactId, u32> {
    let full = graph.active_pairs.len() == capacity;
    if a.collider1 == a.collider2 {
        reach("refused 3");
        return Err(3);
    }
    if graph.contains(a.collider1, a.collider2) {
        let straight = graph
            .active_pairs
            .iter()
            .any(|p| p.collider1 == a.collider1 && p.collider2 == a.collider2);
        reach(match (full, straight) {
            (true, _) => "refused 4, in a full graph",
            (false, true) => "refused 4, in the same order",
            (false, false) => "refused 4, in the other order",
        });
        return Err(4);
    }
    if full {
        reach("refused 5");
        return Err(5);
    }
    Ok(add_pair(graph, a).unwrap())
}

/// Record n of a row, all records being of one size, word by word.
fn fill(row: &mut [u32], size: usize, n: usize, word: impl Fn(usize) -> u32) {
    for (i, w) in row[size * n..][..size].iter_mut().enumerate() {
        *w = word(i);
    }
}

/// What a step is lent beside the graph. Rows stay from one step to the next, but for what is drawn anew.
pub struct Rows {
    pub settings: Vec<u32>,
    pub colliders: Vec<u32>,
    pub bodies: Vec<u32>,
    pub proposals: Vec<u32>,
    pub shares: Vec<u32>,
}

impl Rows {
    pub fn new(capacity: usize) -> Self {
        Self {
            settings: vec![0; SETTINGS_LENGTH],
            colliders: vec![0; COLLIDERS * COLLIDER_SIZE],
            bodies: vec![0; BODIES * BODY_SIZE],
            proposals: vec![0; capacity * PROPOSAL_SIZE],
            shares: vec![0; SHARES_ENTRIES + capacity],
        }
    }

    pub fn draw_settings(&mut self, key: u32) {
        let word = |i| setting_word(key, i);
        fill(&mut self.settings, SETTINGS_LENGTH, 0, word);
    }

    pub fn draw_collider(&mut self, key: u32, n: usize) {
        let word = |i| collider_word(key, n, i);
        fill(&mut self.colliders, COLLIDER_SIZE, n, word);
    }

    pub fn draw_body(&mut self, key: u32, n: usize) {
        let word = |i| body_word(key, n, i);
        fill(&mut self.bodies, BODY_SIZE, n, word);
    }

    pub fn draw_proposal(&mut self, key: u32, id: usize) {
        let word = |i| proposal_word(key, i);
        fill(&mut self.proposals, PROPOSAL_SIZE, id, word);
    }

    /// What a step on that graph is given, and the step time.
    pub fn typed(&self, graph: ContactGraph) -> (NarrowPhase, Hooks, Shapes, f32) {
        reach(match f32::from_bits(self.settings[SETTINGS_LENGTH_UNIT]) {
            x if x > 0.0 => "length unit positive",
            x if x < 0.0 => "length unit negative",
            0.0 => "length unit 0",
            _ => "length unit NaN",
        });
        let rows = words::Rows {
            settings: &self.settings,
            colliders: &self.colliders,
            bodies: &self.bodies,
            proposals: &self.proposals,
        };
        words::step(rows, graph, self.shares.len() - SHARES_ENTRIES)
    }
}

/// What a step answers.
pub struct Stepped {
    pub events: Vec<CollisionEvent>,
    pub changes: Vec<ContactStatusChange>,
    /// For each id below the capacity.
    pub distances: Vec<f32>,
    pub recycled: u32,
}

impl Stepped {
    pub fn none(capacity: usize) -> Self {
        Self {
            events: vec![],
            changes: vec![],
            distances: vec![0.0; capacity],
            recycled: 0,
        }
    }
}

/// Too many manifolds, or too many points in a manifold that is counted.
fn overfull(proposal: &[u32]) -> bool {
    let count = proposal[PROPOSAL_COUNT] as usize;
    let too_many_points = |m: usize| {
        let manifold = &proposal[proposed_manifold(m)..];
        manifold[PROPOSED_MANIFOLD_COUNT] as usize > PROPOSED_POINTS
    };
    if count > MANIFOLDS {
        reach("overfull: manifolds");
        return true;
    }
    if (0..count).any(too_many_points) {
        reach("overfull: points");
        return true;
    }
    if (count..MANIFOLDS).any(too_many_points) {
        reach("too many points past the count");
    }
    false
}

/// The ids of each worker, or why they are refused.
fn shares_of(row: &[u32], graph: &ContactGraph) -> Result<Vec<Vec<u32>>, &'static str> {
    let mut rest = &row[SHARES_ENTRIES..];
    let workers = row[SHARES_WORKERS] as usize;
    if workers == 0 {
        return Err("no worker");
    }
    if workers > MOST_WORKERS {
        return Err("too many workers");
    }
    let counts = &row[SHARES_COUNTS..][..workers];
    if counts.iter().map(|n| *n as u64).sum::<u64>() > rest.len() as u64 {
        return Err("more listed than the capacity");
    }
    let mut shares = vec![];
    for n in counts {
        let (own, others) = rest.split_at(*n as usize);
        shares.push(own.to_vec());
        rest = others;
    }
    let listed: Vec<u32> = shares.concat();
    if listed
        .iter()
        .any(|id| graph.get_edge_by_id(ContactId(*id)).is_none())
    {
        return Err("an id not active");
    }
    if (0..listed.len()).any(|k| listed[..k].contains(&listed[k])) {
        return Err("an id twice");
    }
    if listed.len() < graph.active_pairs.len() {
        return Err("an id missing");
    }
    Ok(shares)
}

/// A step: 6 and 7. It is made a second time by one worker in the list's order, and must give the same.
pub fn step(graph: &mut ContactGraph, capacity: usize, rows: &Rows) -> Result<Stepped, u32> {
    let ids: Vec<u32> = graph.active_pairs.iter().map(|p| p.contact_id.0).collect();
    let shares = shares_of(&rows.shares, graph);
    let proposal = |id: &u32| &rows.proposals[PROPOSAL_SIZE * *id as usize..][..PROPOSAL_SIZE];
    if ids.iter().any(|id| overfull(proposal(id))) {
        reach(match shares {
            Ok(_) => "refused 6",
            Err(_) => "refused 6, bad shares too",
        });
        return Err(6);
    }
    let too_many = |id: &u32| proposal(id)[PROPOSAL_COUNT] as usize > MANIFOLDS;
    if (0..capacity as u32).any(|id| !ids.contains(&id) && too_many(&id)) {
        reach("too many manifolds of an id not active");
    }
    let shares = shares.map_err(|why| {
        reach(format!("refused 7: {why}"));
        7_u32
    })?;
    reach_shares(&shares, &ids);
    let before = graph.clone();
    let stepped = update(graph, rows, &words::workers(&rows.shares, &before));
    let mut other = before;
    let alone = uncounted(|| update(&mut other, rows, &[(0..ids.len()).collect()]));
    assert!(graph_hash(&other, capacity) == graph_hash(graph, capacity));
    assert!(alone.hashes() == stepped.hashes());
    assert!(alone.recycled == stepped.recycled);
    Ok(stepped)
}

fn reach_shares(shares: &[Vec<u32>], ids: &[u32]) {
    reach(format!("workers: {}", shares.len()));
    if shares.iter().any(|own| own.is_empty()) {
        reach("a worker without contacts");
    }
    if shares.concat() != ids {
        reach("an order other than the list's");
    }
    reach(match ids.len() {
        0 => "pairs in a step: none",
        1 => "pairs in a step: 1",
        2..=4 => "pairs in a step: 2 to 4",
        5..=8 => "pairs in a step: 5 to 8",
        _ => "pairs in a step: over 8",
    });
}

/// The reference's step by workers that are allowed.
fn update(graph: &mut ContactGraph, rows: &Rows, workers: &[Vec<usize>]) -> Stepped {
    let freed = graph.edges.free().len();
    let (mut narrow_phase, hooks, mut shapes, delta_secs) = rows.typed(std::mem::take(graph));
    let mut events = vec![];
    let mut diagnostics = CollisionDiagnostics::default();
    narrow_phase.update(
        &mut events,
        delta_secs,
        &hooks,
        &mut shapes,
        &mut diagnostics,
        workers,
    );
    *graph = narrow_phase.contact_graph;
    reach_removals(&graph.edges, freed, &narrow_phase.contact_status_bits);
    Stepped {
        events,
        changes: narrow_phase.contact_status_changes,
        distances: shapes.asked.iter().map(|d| d.unwrap_or(0.0)).collect(),
        recycled: diagnostics.recycled_count,
    }
}

/// `freed` ids were free before the step.
fn reach_removals(edges: &Edges, freed: usize, visited: &BitVec) {
    let removed = &edges.free()[freed..];
    reach(match removed.len() {
        0 => "removals in a step: 0",
        1 => "removals in a step: 1",
        _ => "removals in a step: several",
    });
    if let Some(first) = removed.first() {
        let later = first.0 as usize + 1..edges.raw_edges().len();
        for _ in later.filter(|id| visited.get(*id)) {
            reach("visited after a removal");
        }
    }
}
