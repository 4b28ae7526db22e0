//! Fewer requests: runs of them left out, and then two or three that need each other.

use bridge::Operation;

use super::shrinker::Shrinker;
use crate::draft::{Draft, Part, Source};

/// Of at most so many requests every two are tried together, and every three.
const PAIRS: usize = 48;
const THREES: usize = 14;

impl Shrinker<'_> {
    /// Leaves out runs of requests, long ones first.
    pub fn leave_out_requests(&mut self) {
        let mut run = self.draft.parts.len().next_power_of_two();
        while run > 0 {
            self.leave_out_runs(run);
            run /= 2;
        }
    }

    fn leave_out_runs(&mut self, run: usize) {
        let mut end = self.draft.parts.len();
        while end > 0 {
            let start = end.saturating_sub(run);
            let mut draft = self.draft.clone();
            draft.parts.drain(start..end);
            self.take(draft);
            end = start.min(self.draft.parts.len());
        }
    }

    /// Leaves out requests whose tokens others use, such as a derive in the middle of a line.
    pub fn leave_out_links(&mut self) {
        let mut at = self.draft.parts.len();
        while at > 0 {
            at = (at - 1).min(self.draft.parts.len());
            if at < self.draft.parts.len() {
                self.take(self.draft.without(at));
            }
        }
    }

    /// Leaves out a request that gave tokens, or a reset: those that went through them go through what
    /// was given last before each of them. If that is not enough, so do those that went through theirs.
    pub fn leave_out_givers(&mut self) {
        for at in (1..self.draft.parts.len()).rev() {
            if self.draft.parts.get(at).is_some_and(gives) {
                let _ = self.take(chained_without(&self.draft, at, false))
                    || self.take(chained_without(&self.draft, at, true));
            }
        }
    }

    /// Leaves out two requests that stand apart, or three: such as a lock and its unlock, of which
    /// neither can be left out alone.
    pub fn leave_out_several(&mut self) {
        while self.leave_out_one_of(&pairs(self.draft.parts.len())) {}
        while self.leave_out_one_of(&threes(self.draft.parts.len())) {}
    }

    /// Whether one of these sets of requests could be left out.
    fn leave_out_one_of(&mut self, sets: &[Vec<usize>]) -> bool {
        sets.iter().any(|set| {
            let mut draft = self.draft.clone();
            set.iter().rev().for_each(|at| drop(draft.parts.remove(*at)));
            self.take(draft)
        })
    }
}

/// Whether a request gives tokens, the root's among them.
fn gives(part: &Part) -> bool {
    part.is_reset() || Operation::of(part.request.operation).is_some_and(Operation::issues)
}

/// A draft without a giver; behind it each token of its is the first one that was given last. With
/// `all`, so is each token of those behind it whose own token was its. Behind a reset a token from before
/// it is the same by chance, and counts as its.
fn chained_without(draft: &Draft, at: usize, all: bool) -> Draft {
    let mut draft = draft.clone();
    let gone = draft.parts.remove(at);
    let mut its_names = vec![gone.name];
    let mut last = draft.parts[..at].iter().rfind(|part| gives(part)).map(|part| part.name);
    if gone.is_reset() {
        its_names.extend(draft.parts[..at].iter().map(|part| part.name));
    }
    for part in &mut draft.parts[at..] {
        let its = match part.token {
            Source::Given { part: giver, .. } => its_names.contains(&giver),
            Source::Word => part.request.token == 0 && gone.is_reset(),
        };
        if let Some(giver) = last.filter(|_| its) {
            let (encoding, offset) = (0, 0);
            part.token = Source::Given { part: giver, second: false, encoding, offset, flip: 0 };
            its_names.extend(Some(part.name).filter(|_| all));
        }
        last = if gives(part) { Some(part.name) } else { last };
    }
    draft
}

fn pairs(length: usize) -> Vec<Vec<usize>> {
    let length = if length > PAIRS { 0 } else { length };
    (0..length).flat_map(|one| (one + 1..length).map(move |two| vec![one, two])).collect()
}

fn threes(length: usize) -> Vec<Vec<usize>> {
    let length = if length > THREES { 0 } else { length };
    let third =
        |pair: Vec<usize>| (pair[1] + 1..length).map(move |three| [&pair[..], &[three]].concat());
    pairs(length).into_iter().flat_map(third).collect()
}

#[cfg(test)]
mod tests {
    use super::*;

    #[test]
    fn every_two_and_every_three() {
        assert_eq!(pairs(3), [[0, 1], [0, 2], [1, 2]]);
        assert_eq!(threes(4), [[0, 1, 2], [0, 1, 3], [0, 2, 3], [1, 2, 3]]);
        assert_eq!((pairs(PAIRS + 1).len(), threes(THREES + 1).len()), (0, 0));
    }
}
