//! The state as sessions write it: one row for each part of it.

use bridge::State;

/// A part of the state.
pub struct Part {
    /// The word that it stands behind.
    pub word: &'static str,
    /// Its first place among the state's words.
    place: usize,
    /// What is expected of each of its words.
    pub expected: &'static [&'static str],
}

const KEY: Part =
    Part { word: "key", place: 0, expected: &["the first key word", "the second key word"] };
const LAST: Part = Part { word: "last", place: 2, expected: &["the last number given"] };
const NONCE: Part = Part { word: "nonce", place: 3, expected: &["the next nonce"] };
const TOTAL: Part = Part { word: "total", place: 4, expected: &["the total of free numbers"] };

/// Every part, in the order in which they are written.
pub const STATE: &[Part] = &[KEY, LAST, NONCE, TOTAL];

/// The parts of a state that are stated.
#[derive(Clone, Copy, Debug, Default, PartialEq, Eq)]
pub struct StatedState([Option<u64>; State::WORDS]);

impl StatedState {
    pub fn all(state: &State) -> StatedState {
        StatedState(state.in_order().map(Some))
    }

    /// What differs from an earlier state.
    pub fn since(before: &State, now: &State) -> StatedState {
        let (all, before) = (StatedState::all(now), StatedState::all(before));
        let mut stated = StatedState::default();
        for part in STATE.iter().filter(|part| all.words(part) != before.words(part)) {
            stated.words_mut(part).copy_from_slice(all.words(part));
        }
        stated
    }

    pub fn put(&self, state: &mut State) {
        for (place, word) in self.0.iter().enumerate() {
            *state.at(place) = word.unwrap_or(*state.at(place));
        }
    }

    /// The words of a part, if it is stated.
    pub fn get(&self, part: &Part) -> Option<Vec<u64>> {
        self.words(part).iter().copied().collect()
    }

    pub fn set(&mut self, part: &Part, words: Vec<u64>) {
        let stated = self.words_mut(part).iter_mut();
        stated.zip(words).for_each(|(place, word)| *place = Some(word));
    }

    fn words(&self, part: &Part) -> &[Option<u64>] {
        &self.0[part.place..][..part.expected.len()]
    }

    fn words_mut(&mut self, part: &Part) -> &mut [Option<u64>] {
        &mut self.0[part.place..][..part.expected.len()]
    }
}

#[cfg(test)]
mod tests {
    use super::*;

    /// Each word of the state belongs to one part, so that the parts tell a state.
    #[test]
    fn the_parts_cover_the_state_once() {
        let places = STATE.iter().flat_map(|part| part.place..part.place + part.expected.len());
        assert!(places.eq(0..State::WORDS));
    }
}
