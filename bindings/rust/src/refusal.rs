//! Why a call is refused.

use std::error::Error;
use std::fmt;

/// Why a call is refused. A refused call changes nothing.
#[derive(Clone, Copy, Debug, PartialEq, Eq, PartialOrd, Ord, Hash)]
#[repr(u32)]
pub enum Refusal {
    /// 1: the capacity is not 1 to 256, or the length of a row is not the one for it.
    WrongLength = 1,
    /// 2: a number, mark, rule or stored count is out of its range, or the graph contradicts itself.
    OutOfRange = 2,
    /// 3: both sides of an added pair are one collider.
    SameCollider = 3,
    /// 4: the added pair stands already, in either order.
    PairExists = 4,
    /// 5: as many contacts stand as the capacity.
    GraphFull = 5,
    /// 6: over 6 manifolds are proposed for a pair, or over 24 points for a manifold.
    ProposalTooLarge = 6,
    /// 7: workers not 1 to 8, some active pair not listed once among them, or anything else listed.
    InvalidShares = 7,
    /// 8: fewer than 5 points to prune.
    TooFewPoints = 8,
    /// 9: the id names no standing contact.
    NoContact = 9,
}

impl Refusal {
    /// Every refusal, by its number.
    pub const ALL: [Refusal; 9] = [
        Refusal::WrongLength,
        Refusal::OutOfRange,
        Refusal::SameCollider,
        Refusal::PairExists,
        Refusal::GraphFull,
        Refusal::ProposalTooLarge,
        Refusal::InvalidShares,
        Refusal::TooFewPoints,
        Refusal::NoContact,
    ];

    /// The refusal's number, 1 to 9.
    pub const fn number(self) -> u32 {
        self as u32
    }

    /// The refusal of a number; none where the number is not 1 to 9.
    pub fn from_number(number: u32) -> Option<Refusal> {
        Refusal::ALL.into_iter().find(|r| r.number() == number)
    }

    /// The outcome of a call that answered this number.
    pub(crate) fn outcome(number: u32) -> Result<(), Refusal> {
        match number {
            0 => Ok(()),
            _ => Err(Refusal::from_number(number).expect("a call answers 0 to 9")),
        }
    }
}

impl fmt::Display for Refusal {
    fn fmt(&self, f: &mut fmt::Formatter<'_>) -> fmt::Result {
        f.write_str(match self {
            Refusal::WrongLength => "wrong capacity or row length",
            Refusal::OutOfRange => "number out of range",
            Refusal::SameCollider => "both sides are one collider",
            Refusal::PairExists => "the pair stands already",
            Refusal::GraphFull => "the graph is full",
            Refusal::ProposalTooLarge => "too many manifolds or points proposed",
            Refusal::InvalidShares => "the shares do not list each active contact once",
            Refusal::TooFewPoints => "fewer than 5 points to prune",
            Refusal::NoContact => "no contact has this id",
        })
    }
}

impl Error for Refusal {}
