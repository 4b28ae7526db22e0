//! The state, as the interface's words.

use std::fmt;

/// The key, the last number given, the next nonce and the kept total of free numbers.
///
/// A further word is a field here, with its place in the three orders and its text below, and a row
/// of `STATE` in session's text/state.rs, by which sessions write it. Beside that, session's
/// server.rs hands it to the model, and compare's worlds.rs says what a state handed over holds.
#[derive(Clone, Copy, Debug, Default, PartialEq, Eq)]
pub struct State {
    pub key: [u64; 2],
    pub last_number: u64,
    pub next_nonce: u64,
    /// How many numbers are free, number 0 left out.
    pub total: u64,
}

impl State {
    pub const WORDS: usize = 5;

    /// The words, as they stand in the interface's bytes.
    pub fn in_order(&self) -> [u64; State::WORDS] {
        let State { key: [key0, key1], last_number, next_nonce, total } = *self;
        [key0, key1, last_number, next_nonce, total]
    }

    pub fn from_order(words: [u64; State::WORDS]) -> State {
        let [key0, key1, last_number, next_nonce, total] = words;
        State { key: [key0, key1], last_number, next_nonce, total }
    }

    /// The word at a place.
    pub fn at(&mut self, place: usize) -> &mut u64 {
        let State { key: [key0, key1], last_number, next_nonce, total } = self;
        let words: [&mut u64; State::WORDS] = [key0, key1, last_number, next_nonce, total];
        words.into_iter().nth(place).expect("a place of a state's word")
    }
}

impl fmt::Display for State {
    fn fmt(&self, f: &mut fmt::Formatter<'_>) -> fmt::Result {
        let State { key: [key0, key1], last_number, next_nonce, total } = self;
        write!(f, "key {key0:x} {key1:x} last number {last_number} next nonce {next_nonce} ")?;
        write!(f, "free total {total}")
    }
}
