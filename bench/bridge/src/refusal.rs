//! Refusals: one row each, from which the bench takes a refusal's number, its words and its places.

use std::error::Error;
use std::fmt;

/// Which entry was the bad one.
#[derive(Clone, Copy, Debug, PartialEq, Eq)]
#[repr(u64)]
pub enum Place {
    Named = 1,
    Ancestor = 2,
}

/// Why a request was refused.
#[derive(Clone, Copy, PartialEq, Eq)]
pub enum Refusal {
    Request,
    Entry,
    IllFormed(Place),
    Dead(Place),
    Lock,
    Kind,
    Right,
    Bounds,
    Standing,
    Numbers,
    Nonces,
    Malformed,
    Checksum,
    Room,
    Closed,
    Lease,
    Paged,
}

/// The checks of 01's table "Where a request stops" and of the papers of 02, by the numbers of their
/// refusals.
#[derive(Clone, Copy, Debug, PartialEq, Eq)]
#[repr(u64)]
pub enum Check {
    Request = 1,
    Entry = 2,
    IllFormed = 3,
    Dead = 4,
    Lock = 5,
    Kind = 6,
    Right = 7,
    Bounds = 8,
    Standing = 9,
    Numbers = 10,
    Nonces = 11,
    /// A record of HEX text, or its ending.
    Malformed = 12,
    /// A record's checksum.
    Checksum = 13,
    /// The output buffer, or the most that is written.
    Room = 14,
    /// The token's leases, at the minute.
    Closed = 15,
    /// The minutes of each lease that is lent.
    Lease = 16,
    /// An entry that is paged out.
    Paged = 17,
}

/// A refusal alone, or one that tells a place.
enum Form {
    Plain(Refusal),
    Placed(fn(Place) -> Refusal),
}

use Form::{Placed, Plain};

/// Each check with what its refusal means and what it is, typed.
const ROWS: &[(Check, &str, Form)] = &[
    (Check::Request, "bad request", Plain(Refusal::Request)),
    (Check::Entry, "no such entry", Plain(Refusal::Entry)),
    (Check::IllFormed, "ill-formed", Placed(Refusal::IllFormed)),
    (Check::Dead, "dead line", Placed(Refusal::Dead)),
    (Check::Lock, "locked for another task", Plain(Refusal::Lock)),
    (Check::Kind, "wrong kind of entry", Plain(Refusal::Kind)),
    (Check::Right, "right lacking", Plain(Refusal::Right)),
    (Check::Bounds, "out of bounds", Plain(Refusal::Bounds)),
    (Check::Standing, "standing forbids it", Plain(Refusal::Standing)),
    (Check::Numbers, "no free number", Plain(Refusal::Numbers)),
    (Check::Nonces, "too few nonces", Plain(Refusal::Nonces)),
    (Check::Malformed, "malformed record or ending", Plain(Refusal::Malformed)),
    (Check::Checksum, "wrong checksum", Plain(Refusal::Checksum)),
    (Check::Room, "no room for the output", Plain(Refusal::Room)),
    (Check::Closed, "closed", Plain(Refusal::Closed)),
    (Check::Lease, "bad lease", Plain(Refusal::Lease)),
    (Check::Paged, "paged out", Plain(Refusal::Paged)),
];

/// The rows stand by rising numbers; some may not be given yet.
const _: () = {
    let mut at = 1;
    while at < ROWS.len() {
        assert!((ROWS[at - 1].0 as u64) < ROWS[at].0 as u64);
        at += 1;
    }
};

impl Check {
    /// The last one's number.
    pub const LAST: u64 = ROWS[ROWS.len() - 1].0 as u64;

    /// Every check, by rising numbers.
    pub fn all() -> impl Iterator<Item = Check> {
        ROWS.iter().map(|(check, ..)| *check)
    }

    /// The check of a refusal's number.
    pub fn of(refusal: u64) -> Option<Check> {
        Check::all().find(|check| *check as u64 == refusal)
    }

    fn row(self) -> &'static (Check, &'static str, Form) {
        ROWS.iter().find(|(check, ..)| *check == self).expect("a row for each check")
    }

    /// The numbers of the places that its refusal tells; 0 alone if it tells none.
    pub fn places(self) -> &'static [u64] {
        match self.row().2 {
            Plain(_) => &[0],
            Placed(_) => &[Place::Named as u64, Place::Ancestor as u64],
        }
    }

    /// Its refusal, if it is one with such a place, or with none.
    pub fn refusal(self, place: Option<Place>) -> Option<Refusal> {
        match (&self.row().2, place) {
            (Plain(refusal), None) => Some(*refusal),
            (Placed(refusal), Some(place)) => Some(refusal(place)),
            _ => None,
        }
    }
}

impl Form {
    /// Whether the refusal is of this form, with any place.
    fn is_of(&self, refusal: Refusal) -> bool {
        match self {
            Plain(plain) => *plain == refusal,
            Placed(placed) => Place::ALL.into_iter().any(|place| placed(place) == refusal),
        }
    }
}

impl Refusal {
    /// The check that gives it.
    pub fn check(self) -> Check {
        let row = ROWS.iter().find(|(.., form)| form.is_of(self));
        row.expect("a row for each refusal").0
    }

    /// Its number at the interface.
    pub fn number(self) -> u64 {
        self.check() as u64
    }

    /// Which entry was the bad one, if it tells.
    pub fn place(self) -> Option<Place> {
        match self {
            Refusal::IllFormed(place) | Refusal::Dead(place) => Some(place),
            _ => None,
        }
    }
}

impl fmt::Display for Refusal {
    fn fmt(&self, f: &mut fmt::Formatter<'_>) -> fmt::Result {
        write!(f, "refusal {}, {}", self.number(), refusal_words(self.number()))?;
        self.place().map_or(Ok(()), |place| write!(f, ": {}", place.words()))
    }
}

/// The same, since this is what a `main` that returns it says.
impl fmt::Debug for Refusal {
    fn fmt(&self, f: &mut fmt::Formatter<'_>) -> fmt::Result {
        fmt::Display::fmt(self, f)
    }
}

impl Error for Refusal {}

/// What a refusal's number means; 0 is granted.
pub fn refusal_words(refusal: u64) -> &'static str {
    match (refusal, Check::of(refusal)) {
        (0, _) => "granted",
        (_, Some(check)) => check.row().1,
        (_, None) => "no refusal of the interface",
    }
}

impl Place {
    pub const ALL: [Place; 2] = [Place::Named, Place::Ancestor];

    /// The place of a number; none for 0.
    pub fn of(number: u64) -> Option<Place> {
        Place::ALL.into_iter().find(|place| *place as u64 == number)
    }

    pub fn words(self) -> &'static str {
        match self {
            Place::Named => "the named entry",
            Place::Ancestor => "an ancestor",
        }
    }
}
