//! The rows of "Where a request stops", and those that 02 adds.

use crate::interface::Answer;

#[derive(Clone, Copy, Debug, PartialEq, Eq)]
pub enum Refusal {
    Request,
    Entry,
    IllFormed(Place),
    Dead(Place),
    Lock,
    Kind,
    Right,
    Bounds,
    Standing,
    Numbers,
    Nonces,
    Malformed,
    Checksum,
    Room,
    Closed,
    Lease,
    Paged,
}

/// "for 3 and 4 whether the named entry or an ancestor was the bad one"
#[derive(Clone, Copy, Debug, PartialEq, Eq)]
pub enum Place {
    Named,
    Ancestor,
}

impl Refusal {
    pub fn number(self) -> u64 {
        match self {
            Refusal::Request => 1,
            Refusal::Entry => 2,
            Refusal::IllFormed(_) => 3,
            Refusal::Dead(_) => 4,
            Refusal::Lock => 5,
            Refusal::Kind => 6,
            Refusal::Right => 7,
            Refusal::Bounds => 8,
            Refusal::Standing => 9,
            Refusal::Numbers => 10,
            Refusal::Nonces => 11,
            Refusal::Malformed => 12,
            Refusal::Checksum => 13,
            Refusal::Room => 14,
            Refusal::Closed => 15,
            Refusal::Lease => 16,
            Refusal::Paged => 17,
        }
    }

    pub fn place(self) -> u64 {
        match self {
            Refusal::IllFormed(place) | Refusal::Dead(place) => match place {
                Place::Named => 1,
                Place::Ancestor => 2,
            },
            _ => 0,
        }
    }

    /// "A refusal returns its number and zero for each token."
    pub fn answer(self) -> Answer {
        Answer { refusal: self.number(), place: self.place(), ..Answer::GRANTED }
    }
}

/// A refusal unless the condition holds.
#[inline]
pub fn need(condition: bool, refusal: Refusal) -> Result<(), Refusal> {
    if condition {
        Ok(())
    } else {
        Err(refusal)
    }
}
