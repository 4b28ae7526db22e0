//! What is handed over and what is handed back: words, as the interface has them.

/// Words that a request does not use are not looked at.
#[derive(Clone, Copy, Debug, Default, PartialEq, Eq)]
pub struct Request {
    pub operation: u64,
    /// The token; for a reset the first key word.
    pub token: u64,
    /// A merge's second token, a derive's offset, the minute of an access (a load
    /// or a dump too), a page-out's page-file number, a page-in's donor; for a
    /// reset the second key word.
    pub second: u64,
    /// The task; for a reset the first nonce.
    pub task: u64,
    /// A create's or a derive's length.
    pub length: u64,
    /// A create's user.
    pub user: u64,
    pub permissions: u64,
    pub encoding: u64,
}

/// The key, the last number given, the next nonce and the kept total.
#[derive(Clone, Copy, Debug, Default, PartialEq, Eq)]
pub struct State {
    pub key0: u64,
    pub key1: u64,
    pub last: u64,
    pub next: u64,
    /// 02, paper 3: "a kept total of free numbers without number 0".
    pub total: u64,
}

#[derive(Clone, Copy, Debug, Default, PartialEq, Eq)]
pub struct Answer {
    /// 0 granted, else the number of a refusal.
    pub refusal: u64,
    /// 0 none, 1 the named entry, 2 an ancestor.
    pub place: u64,
    pub first: u64,
    pub second: u64,
    /// Drop's number.
    pub dropped: u64,
    /// 02, paper 2: "an answer that may be shorter than its buffer also tells
    /// its length in bytes". The length of a granted dump's text, else 0.
    pub length: u64,
}

impl Answer {
    pub(crate) const GRANTED: Answer =
        Answer { refusal: 0, place: 0, first: 0, second: 0, dropped: 0, length: 0 };
}
