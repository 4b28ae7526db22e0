//! Simpler leases: fewer of them, for the token at hand, and minutes near the week's start.

use super::shrinker::Shrinker;
use crate::draft::{Draft, Held, Of, Part};

impl Shrinker<'_> {
    pub fn simpler_leases(&mut self) {
        let mut at = 0;
        while at < self.draft.parts.len() {
            self.fewer_leases(at);
            self.own_leases(at);
            self.earlier_minutes(at);
            at += 1;
        }
    }

    /// None of them, no rest, runs of them left out, long ones first.
    fn fewer_leases(&mut self, at: usize) {
        self.change(with(&self.draft, at, |part| {
            part.leases.clear();
            part.rest.clear();
        }));
        self.change(with(&self.draft, at, |part| part.rest.clear()));
        let mut run = self.leases(at).next_power_of_two();
        while run > 0 {
            let mut end = self.leases(at);
            while end > 0 {
                let start = end.saturating_sub(run);
                self.change(with(&self.draft, at, |part| drop(part.leases.drain(start..end))));
                end = start.min(self.leases(at));
            }
            run /= 2;
        }
    }

    /// How many leases a request is lent, if there still is such a request.
    fn leases(&self, at: usize) -> usize {
        self.draft.parts.get(at).map_or(0, |part| part.leases.len())
    }

    /// Each lease for the token that its request names, or with one bit of its tag changed, or for the
    /// root's.
    fn own_leases(&mut self, at: usize) {
        let own = |tag| Of::Request { number: 0, tag };
        let root = Of::Token(crate::draft::Source::Word);
        for which in 0..self.leases(at) {
            let _ = [own(0), own(1), root].into_iter().any(|of| {
                self.change(with(&self.draft, at, |part| {
                    if let Some(held) = part.leases.get_mut(which) {
                        *held = Held { of, token: 0, ..held.clone() };
                    }
                }))
            });
        }
    }

    /// All minutes earlier by as much, as far as that goes, and then each by itself.
    fn earlier_minutes(&mut self, at: usize) {
        let first = self.draft.parts.get(at).and_then(|part| minutes(part).into_iter().min());
        let Some(first) = first.filter(|_| self.leases(at) > 0) else {
            return;
        };
        self.change(with(&self.draft, at, |part| {
            part.request.second -= first;
            part.leases.iter_mut().flat_map(|held| &mut held.minutes).for_each(|one| *one -= first);
        }));
        for which in 0..self.leases(at) {
            for end in 0..2 {
                if which < self.leases(at) {
                    self.lower(|draft| &mut draft.parts[at].leases[which].minutes[end]);
                }
            }
        }
    }
}

/// The minutes of a request and of its leases.
fn minutes(part: &Part) -> Vec<u64> {
    let leases = part.leases.iter().flat_map(|held| held.minutes);
    leases.chain([part.request.second]).collect()
}

/// A draft with one of its requests changed.
fn with(draft: &Draft, at: usize, change: impl FnOnce(&mut Part)) -> Draft {
    let mut draft = draft.clone();
    if let Some(part) = draft.parts.get_mut(at) {
        change(part);
    }
    draft
}
