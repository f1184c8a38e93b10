//! What a step writes: its counts, contact events and constraint changes.

use crate::ids::ContactId;
use crate::layout::{CHANGE_SIZE, EVENT_SIZE};

/// The counts of a step.
#[derive(Clone, Copy, Debug, Default, PartialEq, Eq, Hash)]
pub struct StepReport {
    /// Events written.
    pub events: u32,
    /// Constraint changes written.
    pub changes: u32,
    /// Contacts recycled.
    pub recycled: u32,
}

/// A contact event, of a contact that was added with events.
#[derive(Clone, Copy, Debug, PartialEq, Eq, Hash)]
pub enum Event {
    /// The colliders began to touch.
    Started {
        /// The contact.
        contact: ContactId,
        /// The first collider.
        collider1: u32,
        /// The second collider.
        collider2: u32,
        /// The first collider's body.
        body1: Option<u32>,
        /// The second collider's body.
        body2: Option<u32>,
    },
    /// The colliders ceased to touch.
    Ended {
        /// The contact.
        contact: ContactId,
        /// The first collider.
        collider1: u32,
        /// The second collider.
        collider2: u32,
        /// The first collider's body.
        body1: Option<u32>,
        /// The second collider's body.
        body2: Option<u32>,
    },
}

/// The kind of an event that started.
const STARTED: u32 = 0;

impl Event {
    pub(crate) fn read(words: &[u32; EVENT_SIZE]) -> Event {
        let [
            kind,
            id,
            collider1,
            collider2,
            mark1,
            number1,
            mark2,
            number2,
        ] = *words;
        let contact = ContactId(id);
        let body1 = (mark1 == 1).then_some(number1);
        let body2 = (mark2 == 1).then_some(number2);
        match kind {
            STARTED => Event::Started {
                contact,
                collider1,
                collider2,
                body1,
                body2,
            },
            _ => Event::Ended {
                contact,
                collider1,
                collider2,
                body1,
                body2,
            },
        }
    }

    /// The contact.
    pub fn contact(&self) -> ContactId {
        match *self {
            Event::Started { contact, .. } | Event::Ended { contact, .. } => contact,
        }
    }
}

/// A change of the constraints that a solver holds.
#[derive(Clone, Copy, Debug, PartialEq, Eq, Hash)]
pub enum Change {
    /// The contact begins to have constraints, one for each of its manifolds.
    Start {
        /// The contact.
        contact: ContactId,
    },
    /// The contact has constraints no longer.
    Stop {
        /// The contact. Its id may be free by now.
        contact: ContactId,
        /// The first body.
        body1: u32,
        /// The second body.
        body2: u32,
    },
    /// The contact's number of manifolds changed.
    Count {
        /// The contact.
        contact: ContactId,
        /// The first body.
        body1: u32,
        /// The second body.
        body2: u32,
        /// New number minus old.
        delta: i32,
    },
}

/// The kinds of a start and a stop; the third is a count change.
const START: u32 = 0;
const STOP: u32 = 1;

impl Change {
    pub(crate) fn read(words: &[u32; CHANGE_SIZE]) -> Change {
        let [kind, id, body1, body2, delta] = *words;
        let contact = ContactId(id);
        match kind {
            START => Change::Start { contact },
            STOP => Change::Stop {
                contact,
                body1,
                body2,
            },
            _ => Change::Count {
                contact,
                body1,
                body2,
                delta: delta.cast_signed(),
            },
        }
    }

    /// The contact.
    pub fn contact(&self) -> ContactId {
        match *self {
            Change::Start { contact }
            | Change::Stop { contact, .. }
            | Change::Count { contact, .. } => contact,
        }
    }
}
