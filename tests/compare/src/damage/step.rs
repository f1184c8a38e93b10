//! A step on damaged rows.

use super::{change, damages, unread};
use crate::differences::{self, Compared, Difference, same};
use crate::draws::Rng;
use crate::oracle::{self, StepRows};
use crate::refusals::{Call, Refusals};
use crate::sides::{Against, Sides, reached_matching, says_by_place};
use reference::layout::*;
use reference::{CollisionDiagnostics, CollisionEvent, ContactStatusChange, words};
use sardinerod::{ContactGraph, Shares, World, raw};

/// What a step writes: events and changes.
pub type Written = (Vec<CollisionEvent>, Vec<ContactStatusChange>);

/// A step's rows, of any lengths.
#[derive(Clone, Debug, PartialEq, Eq)]
pub struct Step {
    pub settings: Vec<u32>,
    pub colliders: Vec<u32>,
    pub bodies: Vec<u32>,
    pub proposals: Vec<u32>,
    pub shares: Vec<u32>,
    pub graph: Vec<u32>,
    pub bits: Vec<u64>,
    pub events: Vec<u32>,
    pub changes: Vec<u32>,
    pub distances: Vec<u32>,
    pub answer: Vec<u32>,
}

impl Step {
    /// The rows as they stand. What a step writes, or does not read, holds anything before.
    pub fn new(rng: &mut Rng, sides: &Sides, shares: &Shares) -> Self {
        let [.., bits, events, changes, distances] = oracle::lengths(sides.capacity);
        let mut any = |words: usize| -> Vec<u32> { (0..words).map(|_| rng.word()).collect() };
        let mut step = Self {
            settings: sides.world.settings_words().to_vec(),
            colliders: sides.world.colliders_words().to_vec(),
            bodies: sides.world.bodies_words().to_vec(),
            proposals: sides.world.proposals_words().to_vec(),
            shares: shares.words().to_vec(),
            graph: sides.graph.words().to_vec(),
            bits: any(bits).into_iter().map(u64::from).collect(),
            events: any(events),
            changes: any(changes),
            distances: any(distances),
            answer: any(STEP_ANSWER_LENGTH),
        };
        unread::graph(rng, &mut step.graph);
        step
    }

    pub fn rows(&self) -> StepRows<'_> {
        StepRows {
            settings: &self.settings,
            colliders: &self.colliders,
            bodies: &self.bodies,
            proposals: &self.proposals,
            shares: &self.shares,
            graph: &self.graph,
            bits: self.bits.len(),
            events: self.events.len(),
            changes: self.changes.len(),
            distances: self.distances.len(),
            answer: self.answer.len(),
        }
    }

    pub fn call(&mut self) -> u32 {
        raw::step(
            &self.settings,
            &self.colliders,
            &self.bodies,
            &self.proposals,
            &self.shares,
            &mut self.graph,
            &mut self.bits,
            &mut self.events,
            &mut self.changes,
            &mut self.distances,
            &mut self.answer,
        )
    }

    fn damage(&mut self, rng: &mut Rng) {
        match rng.below(16) {
            0 => self.change_length(rng),
            1 => change::settings(rng, &mut self.settings),
            2 | 3 => change::colliders(rng, &mut self.colliders),
            4 | 5 => change::bodies(rng, &mut self.bodies),
            6..9 => change::proposals(rng, &mut self.proposals),
            9..12 => {
                let listed = self.graph.get(GRAPH_LISTED).map_or(0, |n| *n as usize);
                change::shares(rng, &mut self.shares, listed);
            }
            _ => change::graph(rng, &mut self.graph),
        }
    }

    fn change_length(&mut self, rng: &mut Rng) {
        match rng.below(11) {
            0 => change::length(rng, &mut self.settings),
            1 => change::length(rng, &mut self.colliders),
            2 => change::length(rng, &mut self.bodies),
            3 => change::length(rng, &mut self.proposals),
            4 => change::length(rng, &mut self.shares),
            5 => change::length(rng, &mut self.graph),
            6 => change::length(rng, &mut self.bits),
            7 => change::length(rng, &mut self.events),
            8 => change::length(rng, &mut self.changes),
            9 => change::length(rng, &mut self.distances),
            _ => change::length(rng, &mut self.answer),
        }
    }
}

/// Against the Rust, rows that come to say by place are left out.
pub fn step(rng: &mut Rng, sides: &Sides, shares: &Shares, refusals: &mut Refusals) -> Compared {
    let mut step = Step::new(rng, sides, shares);
    for _ in 0..damages(rng) {
        step.damage(rng);
    }
    if sides.against == Against::Rust && says_by_place(&step.settings) {
        return Ok(());
    }
    let before = step.clone();
    let expected = oracle::step(&before.rows());
    let number = step.call();
    super::answered(refusals, Call::Step, expected, number)?;
    super::unchanged(number, &before, &step)?;
    match number {
        0 => stepped(&before, &step).map(drop),
        _ => Ok(()),
    }
}

/// An accepted step: what the reference makes of the same words, and what is left of the rows that are written in part. Gives the
/// reference's events and changes.
pub fn stepped(before: &Step, after: &Step) -> Result<Written, Difference> {
    let capacity = before.graph[GRAPH_CAPACITY] as usize;
    reached_matching(&before.settings);
    let rows = words::Rows {
        settings: &before.settings,
        colliders: &before.colliders,
        bodies: &before.bodies,
        proposals: &before.proposals,
    };
    let (mut narrow_phase, hooks, mut shapes, delta_secs) =
        words::step(rows, words::graph(&before.graph), capacity);
    let workers = words::workers(&before.shares, &narrow_phase.contact_graph);
    let (mut events, mut diagnostics) = (vec![], CollisionDiagnostics::default());
    narrow_phase.update(
        &mut events,
        delta_secs,
        &hooks,
        &mut shapes,
        &mut diagnostics,
        &workers,
    );

    let answer: [u32; STEP_ANSWER_LENGTH] = after.answer[..].try_into().unwrap();
    let [written, changed, recycled] = answer;
    same("contacts recycled", diagnostics.recycled_count, recycled)?;
    let graph = again(before)?;
    same("words by the bindings", graph.words(), &after.graph[..])?;
    same(
        "report",
        [written, changed],
        [graph.report().events, graph.report().changes],
    )?;
    let combined_by = &narrow_phase.combined_by;
    differences::graph(&narrow_phase.contact_graph, combined_by, &graph)?;
    let changes = &narrow_phase.contact_status_changes;
    differences::written(&events, changes, &shapes.asked, &graph)?;
    differences::bits(&narrow_phase, capacity, &after.bits)?;
    same_rows(before, after, &graph)?;
    Ok((events, narrow_phase.contact_status_changes))
}

/// The rows beside the graph, as the bindings have them after the same step, and what is left of them.
fn same_rows(before: &Step, after: &Step, graph: &ContactGraph) -> Compared {
    let events = EVENT_SIZE * graph.report().events as usize;
    let changes = CHANGE_SIZE * graph.report().changes as usize;
    same(
        "events",
        &graph.events_words()[..events],
        &after.events[..events],
    )?;
    same(
        "changes",
        &graph.changes_words()[..changes],
        &after.changes[..changes],
    )?;
    same("distances", graph.distances_words(), &after.distances[..])?;
    same(
        "events' rest",
        &before.events[events..],
        &after.events[events..],
    )?;
    same(
        "changes' rest",
        &before.changes[changes..],
        &after.changes[changes..],
    )
}

/// The same step through the bindings.
fn again(rows: &Step) -> Result<ContactGraph, Difference> {
    let refused = |refusal| Difference::new("bindings", "accepted", refusal);
    let mut world = World::new(rows.graph[GRAPH_CAPACITY]).map_err(refused)?;
    world.settings_words_mut().copy_from_slice(&rows.settings);
    world.colliders_words_mut().copy_from_slice(&rows.colliders);
    world.bodies_words_mut().copy_from_slice(&rows.bodies);
    world.proposals_words_mut().copy_from_slice(&rows.proposals);
    let mut graph = ContactGraph::from_words(rows.graph.clone()).map_err(refused)?;
    let shares = Shares::from_words(rows.shares.clone());
    graph.step(&world, &shares).map_err(refused)?;
    Ok(graph)
}
