//! Answers, as the six words of the interface, and typed.

use crate::refusal::{Check, Place, Refusal};
use crate::token::Token;

/// An answer as the interface gives it.
#[derive(Clone, Copy, Debug, Default, PartialEq, Eq)]
pub struct Reply {
    /// 0 granted, else the number of a check.
    pub refusal: u64,
    /// A place's number if the refusal tells one, else 0.
    pub place: u64,
    pub first: u64,
    pub second: u64,
    /// Drop's number.
    pub dropped: u64,
    /// The length in bytes of a dump's text.
    pub length: u64,
}

/// What a granted request gives. The word 0 stands where it gives none, and is also the root's token.
#[derive(Clone, Copy, Debug, Default, PartialEq, Eq)]
pub struct Granted {
    /// A create's part, a merge's whole, a child, a revoked segment's new token, and that of an entry
    /// that was paged out or in.
    pub first: Token,
    /// A create's rest, if there is one; the segment's that a page-out leaves behind.
    pub second: Token,
    /// Drop's number: 1 if the count fell to 0, else 0.
    pub dropped: u64,
    /// The length in bytes of a dump's text, which is at the buffer's front.
    pub length: u64,
}

impl Reply {
    pub const WORDS: usize = 6;

    pub fn in_order(&self) -> [u64; Reply::WORDS] {
        [self.refusal, self.place, self.first, self.second, self.dropped, self.length]
    }

    pub fn from_order(words: [u64; Reply::WORDS]) -> Reply {
        let [refusal, place, first, second, dropped, length] = words;
        Reply { refusal, place, first, second, dropped, length }
    }

    /// The answer, typed; none if the words are no answer of the interface.
    pub fn typed(&self) -> Option<Result<Granted, Refusal>> {
        let Reply { refusal, place, first, second, dropped, length } = *self;
        let (first, second) = (Token(first), Token(second));
        match (refusal, Place::of(place)) {
            (0, None) => Some(Ok(Granted { first, second, dropped, length })),
            (refusal, place) => Check::of(refusal)?.refusal(place).map(Err),
        }
    }
}
