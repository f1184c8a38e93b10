//! Which worker updates which contacts.

use crate::graph::ContactGraph;
use crate::ids::ContactId;
use crate::layout::{MOST_WORKERS, SHARES_COUNTS, SHARES_ENTRIES};
use crate::refusal::Refusal;
use crate::rows::RowLengths;
use crate::words::count;

/// The workers' shares of a step's updates. A step's outcome is the same under all shares that it accepts.
#[derive(Clone, Debug, PartialEq, Eq)]
pub struct Shares {
    words: Vec<u32>,
}

impl Shares {
    /// One worker with all active contacts, in the list's order.
    pub fn single(graph: &ContactGraph) -> Shares {
        Shares::dealt(graph, 1)
    }

    /// The active contacts dealt in turn to that many workers, in the list's order. With workers not 1 to 8 the step is refused.
    pub fn dealt(graph: &ContactGraph, workers: usize) -> Shares {
        let mut hands = vec![Vec::new(); workers.min(MOST_WORKERS + 1)];
        for (k, contact) in graph.contacts().enumerate() {
            if let Some(hand) = hands.get_mut(k % workers.max(1)) {
                hand.push(contact);
            }
        }
        Shares::write(graph.capacity() as usize, &hands)
    }

    /// Each worker's contacts as they are given, for graphs of that capacity. Refusal 1 where the capacity is not 1 to 256; shares
    /// that are none, too many workers or too many contacts among them, are refused by the step.
    pub fn from_workers<W: AsRef<[ContactId]>>(
        capacity: u32,
        workers: &[W],
    ) -> Result<Shares, Refusal> {
        RowLengths::of(capacity)?;
        Ok(Shares::write(capacity as usize, workers))
    }

    /// Shares of any words. A step refuses those that are none.
    pub fn from_words(words: Vec<u32>) -> Shares {
        Shares { words }
    }

    /// The words.
    pub fn words(&self) -> &[u32] {
        &self.words
    }

    /// The words, to write.
    pub fn words_mut(&mut self) -> &mut [u32] {
        &mut self.words
    }

    /// Writes what there is room for. The number of workers and their counts are true, so that the rest is refused by them.
    fn write<W: AsRef<[ContactId]>>(capacity: usize, workers: &[W]) -> Shares {
        let mut words = vec![0; SHARES_ENTRIES + capacity];
        let (counts, entries) = words.split_at_mut(SHARES_ENTRIES);
        counts[0] = count(workers.len());
        for (place, worker) in counts[SHARES_COUNTS..].iter_mut().zip(workers) {
            *place = count(worker.as_ref().len());
        }
        let ids = workers.iter().flat_map(|worker| worker.as_ref());
        for (place, id) in entries.iter_mut().zip(ids) {
            *place = id.0;
        }
        Shares { words }
    }
}
