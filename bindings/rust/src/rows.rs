//! The lengths of a step's rows.

use crate::layout::LENGTHS_LENGTH;
use crate::raw;
use crate::refusal::Refusal;

/// The words of each row for a capacity, as the library answers them.
pub(crate) struct RowLengths {
    pub colliders: usize,
    pub bodies: usize,
    pub proposals: usize,
    pub graph: usize,
    pub bits: usize,
    pub events: usize,
    pub changes: usize,
    pub distances: usize,
}

impl RowLengths {
    /// Refusal 1 where the capacity is not 1 to 256.
    pub fn of(capacity: u32) -> Result<RowLengths, Refusal> {
        let mut answer = [0; LENGTHS_LENGTH];
        Refusal::outcome(raw::lengths(capacity, &mut answer))?;
        let [
            _settings,
            colliders,
            bodies,
            proposals,
            _shares,
            graph,
            bits,
            events,
            changes,
            distances,
        ] = answer.map(|n| n as usize);
        Ok(RowLengths {
            colliders,
            bodies,
            proposals,
            graph,
            bits,
            events,
            changes,
            distances,
        })
    }
}
