//! The contact graph with its rows, and the calls on it.

use crate::ids::ContactId;
use crate::layout::*;
use crate::raw;
use crate::refusal::Refusal;
use crate::report::{Change, Event, StepReport};
use crate::rows::RowLengths;
use crate::shares::Shares;
use crate::views::{self, Pair, PointMut, Record};
use crate::world::World;

/// A pair to add.
#[derive(Clone, Copy, Debug, Default, PartialEq)]
pub struct Addition {
    /// The first collider, below 256.
    pub collider1: u32,
    /// The second collider, below 256.
    pub collider2: u32,
    /// The first collider's body, below 128.
    pub body1: Option<u32>,
    /// The second collider's body, below 128.
    pub body2: Option<u32>,
    /// Whether events are written.
    pub contact_events: bool,
    /// Whether the hook's answer is heeded.
    pub modify_contacts: bool,
    /// By how much the second box is grown in the first step.
    pub speculative_distance: f32,
}

impl Addition {
    fn request(&self) -> [u32; REQUEST_LENGTH] {
        [
            self.collider1,
            self.collider2,
            self.body1.is_some().into(),
            self.body1.unwrap_or(0),
            self.body2.is_some().into(),
            self.body2.unwrap_or(0),
            self.contact_events.into(),
            self.modify_contacts.into(),
            self.speculative_distance.to_bits(),
        ]
    }
}

/// A contact's edge, by value.
#[derive(Clone, Copy, Debug, PartialEq, Eq, Hash)]
pub struct ContactEdge {
    /// The contact's id.
    pub id: ContactId,
    /// The first collider.
    pub collider1: u32,
    /// The second collider.
    pub collider2: u32,
    /// The first collider's body.
    pub body1: Option<u32>,
    /// The second collider's body.
    pub body2: Option<u32>,
    /// The pair's place in the list.
    pub pair_index: u32,
    /// Whether the last status pass left the pair touching.
    pub touching: bool,
    /// Whether events are written.
    pub contact_events: bool,
}

impl ContactEdge {
    fn read(answer: [u32; LOOK_UP_ANSWER_LENGTH]) -> ContactEdge {
        let [
            id,
            collider1,
            collider2,
            mark1,
            number1,
            mark2,
            number2,
            pair_index,
            touching,
            events,
        ] = answer;
        ContactEdge {
            id: ContactId(id),
            collider1,
            collider2,
            body1: (mark1 == 1).then_some(number1),
            body2: (mark2 == 1).then_some(number2),
            pair_index,
            touching: touching == 1,
            contact_events: events == 1,
        }
    }
}

/// A contact graph, and the rows that a step writes.
#[derive(Clone, Debug, PartialEq, Eq)]
pub struct ContactGraph {
    words: Vec<u32>,
    bits: Vec<u64>,
    events: Vec<u32>,
    changes: Vec<u32>,
    distances: Vec<u32>,
    report: StepReport,
}

impl ContactGraph {
    /// An empty graph. Refusal 1 where the capacity is not 1 to 256.
    pub fn new(capacity: u32) -> Result<ContactGraph, Refusal> {
        let mut words = vec![0; RowLengths::of(capacity)?.graph];
        Refusal::outcome(raw::lay_out(&mut words, capacity))?;
        ContactGraph::from_words(words)
    }

    /// A graph of given words. Refusal 1 where the capacity, the first of them, is not 1 to 256, or their number is not the one for
    /// it. Nothing else is tested here: each call refuses a graph that is damaged.
    pub fn from_words(words: Vec<u32>) -> Result<ContactGraph, Refusal> {
        let capacity = words.get(GRAPH_CAPACITY).copied().unwrap_or(0);
        let lengths = RowLengths::of(capacity)?;
        if words.len() != lengths.graph {
            return Err(Refusal::WrongLength);
        }
        Ok(ContactGraph {
            words,
            bits: vec![0; lengths.bits],
            events: vec![0; lengths.events],
            changes: vec![0; lengths.changes],
            distances: vec![0; lengths.distances],
            report: StepReport::default(),
        })
    }

    /// Adds a pair under a new id: the one freed last, else the lowest never given. Refusals 2 to 5.
    pub fn add(&mut self, addition: &Addition) -> Result<ContactId, Refusal> {
        let mut answer = [0; ADD_ANSWER_LENGTH];
        let number = raw::add(&mut self.words, &addition.request(), &mut answer);
        Refusal::outcome(number)?;
        let [id] = answer;
        Ok(ContactId(id))
    }

    /// Updates every active contact, then makes the status pass: writes events, changes and distances, and removes the pairs whose
    /// boxes are apart. Refusals 1 (rows for another capacity), 2, 6 and 7, in this order.
    pub fn step(&mut self, world: &World, shares: &Shares) -> Result<StepReport, Refusal> {
        let mut answer = [0; STEP_ANSWER_LENGTH];
        let number = raw::step(
            world.settings_words(),
            world.colliders_words(),
            world.bodies_words(),
            world.proposals_words(),
            shares.words(),
            &mut self.words,
            &mut self.bits,
            &mut self.events,
            &mut self.changes,
            &mut self.distances,
            &mut answer,
        );
        Refusal::outcome(number)?;
        let [events, changes, recycled] = answer;
        self.report = StepReport {
            events,
            changes,
            recycled,
        };
        Ok(self.report)
    }

    /// Plays the line at the player's place, with the rows of `world` and `shares` to work in. Refusal 1 (rows for another
    /// capacity).
    pub(crate) fn play_line(
        &mut self,
        trace: &[u8],
        player: &mut [u64; PLAYER_LENGTH],
        world: &mut World,
        shares: &mut Shares,
        out: &mut [u8],
    ) -> Result<[u64; PLAY_ANSWER_LENGTH], Refusal> {
        let [settings, colliders, bodies, proposals] = world.rows_mut();
        let mut answer = [0; PLAY_ANSWER_LENGTH];
        let number = raw::play_line(
            trace,
            player,
            &mut self.words,
            settings,
            colliders,
            bodies,
            proposals,
            shares.words_mut(),
            &mut self.bits,
            &mut self.events,
            &mut self.changes,
            &mut self.distances,
            out,
            &mut answer,
        );
        Refusal::outcome(number)?;
        Ok(answer)
    }

    /// What a step counted that a line of a trace made.
    pub(crate) fn set_report(&mut self, report: StepReport) {
        self.report = report;
    }

    /// A contact's edge. Refusals 2 and 9, in this order.
    pub fn look_up(&self, contact: ContactId) -> Result<ContactEdge, Refusal> {
        let mut answer = [0; LOOK_UP_ANSWER_LENGTH];
        Refusal::outcome(raw::look_up(&self.words, contact.0, &mut answer))?;
        Ok(ContactEdge::read(answer))
    }

    /// Removes a contact: the last listed pair takes its place in the list. Refusals 2 and 9, in this order.
    pub fn remove(&mut self, contact: ContactId) -> Result<(), Refusal> {
        Refusal::outcome(raw::remove(&mut self.words, contact.0))
    }

    /// The counts of the last accepted step.
    pub fn report(&self) -> StepReport {
        self.report
    }

    /// The events that the last accepted step wrote, by ascending contact id.
    pub fn events(&self) -> impl ExactSizeIterator<Item = Event> + '_ {
        let (events, _) = self.events.as_chunks();
        events
            .iter()
            .take(self.report.events as usize)
            .map(Event::read)
    }

    /// The constraint changes that the last accepted step wrote, by ascending contact id.
    pub fn changes(&self) -> impl ExactSizeIterator<Item = Change> + '_ {
        let (changes, _) = self.changes.as_chunks();
        changes
            .iter()
            .take(self.report.changes as usize)
            .map(Change::read)
    }

    /// The contact distances that the last accepted step reported, one for each id from 0 to the capacity: 0 where there is none.
    pub fn distances(&self) -> impl ExactSizeIterator<Item = f32> + '_ {
        self.distances.iter().copied().map(f32::from_bits)
    }

    /// The contact distance that the last accepted step reported for an id; none where the id is not below the capacity.
    pub fn distance(&self, contact: ContactId) -> Option<f32> {
        self.distances
            .get(contact.index())
            .copied()
            .map(f32::from_bits)
    }

    /// The active pairs, in the list's order.
    pub fn pairs(&self) -> impl Iterator<Item = Pair<'_>> {
        self.contacts()
            .filter_map(|contact| Some(Pair::new(contact, self.record(contact)?)))
    }

    /// The ids of the active pairs, in the list's order.
    pub fn contacts(&self) -> impl ExactSizeIterator<Item = ContactId> + '_ {
        listed(&self.words).iter().copied().map(ContactId)
    }

    /// The pair of a contact that stands.
    pub fn pair(&self, contact: ContactId) -> Option<Pair<'_>> {
        let pair = Pair::new(contact, self.record(contact)?);
        let index = pair.pair_index() as usize;
        (listed(&self.words).get(index) == Some(&contact.0)).then_some(pair)
    }

    /// A stored point, whose impulses can be written.
    pub fn point_mut(
        &mut self,
        contact: ContactId,
        manifold: usize,
        point: usize,
    ) -> Option<PointMut<'_>> {
        self.pair(contact)?;
        let (_, records) = split(&mut self.words);
        views::point_mut(records.get_mut(contact.index())?, manifold, point)
    }

    /// Visits every stored point of every active pair, with its contact, and the numbers of its manifold and its own.
    pub fn for_each_point_mut(
        &mut self,
        mut visit: impl FnMut(ContactId, usize, usize, PointMut<'_>),
    ) {
        let (head, records) = split(&mut self.words);
        for &id in listed(head) {
            if let Some(record) = records.get_mut(id as usize) {
                views::for_each_point_mut(record, |m, p, point| visit(ContactId(id), m, p, point));
            }
        }
    }

    /// How many contacts there is room for.
    pub fn capacity(&self) -> u32 {
        self.words[GRAPH_CAPACITY]
    }

    /// How many pairs are active.
    pub fn len(&self) -> usize {
        listed(&self.words).len()
    }

    /// Whether no pair is active.
    pub fn is_empty(&self) -> bool {
        self.len() == 0
    }

    /// How many ids were given; an id that was freed and given again counts once.
    pub fn ids_given(&self) -> u32 {
        self.words[GRAPH_GIVEN]
    }

    /// The free ids, in the order freed.
    pub fn free_ids(&self) -> impl ExactSizeIterator<Item = ContactId> + '_ {
        let row = capacity_row(&self.words, 1);
        let count = self.words[GRAPH_FREED] as usize;
        row.iter().take(count).copied().map(ContactId)
    }

    /// The graph's words.
    pub fn words(&self) -> &[u32] {
        &self.words
    }

    /// The graph's words, taken out.
    pub fn into_words(self) -> Vec<u32> {
        self.words
    }

    /// The workers' status bits as the last accepted step left them: as many words for each of 8 workers.
    pub fn bits(&self) -> &[u64] {
        &self.bits
    }

    /// The words of the events' row, those past the written ones too.
    pub fn events_words(&self) -> &[u32] {
        &self.events
    }

    /// The words of the changes' row, those past the written ones too.
    pub fn changes_words(&self) -> &[u32] {
        &self.changes
    }

    /// The words of the distances' row.
    pub fn distances_words(&self) -> &[u32] {
        &self.distances
    }

    /// The record of an id, whether it stands or not.
    fn record(&self, contact: ContactId) -> Option<&Record> {
        let at = records_at(&self.words);
        self.words[at..].as_chunks().0.get(contact.index())
    }
}

/// Row `n` of the two rows with a word for each contact: the list, and the free ids.
fn capacity_row(words: &[u32], n: usize) -> &[u32] {
    let capacity = words[GRAPH_CAPACITY] as usize;
    &words[GRAPH_LIST + n * capacity..][..capacity]
}

/// Where the records begin.
fn records_at(words: &[u32]) -> usize {
    GRAPH_LIST + 2 * words[GRAPH_CAPACITY] as usize
}

/// The ids of the active pairs.
fn listed(words: &[u32]) -> &[u32] {
    let row = capacity_row(words, 0);
    let count = words[GRAPH_LISTED] as usize;
    &row[..count.min(row.len())]
}

/// The words before the records, and the records.
fn split(words: &mut [u32]) -> (&[u32], &mut [Record]) {
    let (head, records) = words.split_at_mut(records_at(words));
    (head, records.as_chunks_mut().0)
}
