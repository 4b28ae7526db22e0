//! A draft that becomes smaller, as long as it still differs.

use session::server::Trouble;

use super::simpler::simpler;
use crate::difference::Difference;
use crate::draft::Draft;
use crate::pair::Pair;
use crate::player::Found;
use crate::progress::Progress;

/// How much is played at most: each draft counts one, and one more for each 64 KiB of its world.
const LIMIT: usize = 40_000;

/// What a draft counts at which the other machine keeps silent: each costs the whole wait.
const SILENCE: usize = LIMIT / 2;

pub struct Shrinker<'a> {
    pair: &'a mut Pair,
    progress: &'a mut Progress,
    pub draft: Draft,
    pub found: Found,
    played: usize,
}

impl<'a> Shrinker<'a> {
    /// A shrinker of a session that differs when it is played again, alone; else none.
    pub fn new(
        pair: &'a mut Pair,
        found: &Found,
        progress: &'a mut Progress,
    ) -> Option<Shrinker<'a>> {
        pair.other.renew();
        let draft = Draft::of(&found.session);
        let again = draft.play(pair).filter(|again| is_of_its_kind(again, found))?;
        let mut shrinker = Shrinker { pair, progress, draft, found: again, played: 0 };
        shrinker.cut();
        shrinker.count_silence();
        Some(shrinker)
    }

    /// Takes a draft if it still differs, cut off behind the difference. It must do so on a machine
    /// that remembers no draft before it.
    pub fn take(&mut self, draft: Draft) -> bool {
        if self.played >= LIMIT {
            return false;
        }
        self.played += 1 + (draft.world.table.len() + draft.world.memory.len()) / 65_536;
        self.progress.tried(self.played, self.draft.parts.len());
        let Some(found) = self.play_alone(&draft) else {
            return false;
        };
        (self.draft, self.found) = (draft, found);
        self.cut();
        self.count_silence();
        true
    }

    fn play_alone(&mut self, draft: &Draft) -> Option<Found> {
        let mut found = draft.play(self.pair)?;
        if self.pair.other.remembers() {
            self.pair.other.renew();
            found = draft.play(self.pair)?;
        }
        Some(found).filter(|found| is_of_its_kind(found, &self.found))
    }

    /// Leaves out what stands behind the difference.
    fn cut(&mut self) {
        self.draft.parts.truncate(self.found.session.steps.len());
    }

    fn count_silence(&mut self) {
        if matches!(self.found.difference, Difference::Trouble(Trouble::Silent(_))) {
            self.played += SILENCE;
        }
    }

    /// Takes a draft that is not the one at hand.
    pub fn change(&mut self, draft: Draft) -> bool {
        draft != self.draft && self.take(draft)
    }

    /// Brings a word to 0, or to 1, or nearer to 0.
    pub fn lower(&mut self, place: impl Fn(&mut Draft) -> &mut u64) {
        let word = *place(&mut self.draft);
        for simpler in simpler(word) {
            let mut draft = self.draft.clone();
            *place(&mut draft) = simpler;
            if self.take(draft) {
                return;
            }
        }
    }
}

/// A machine that cannot take over a world at all says nothing about a request.
fn is_of_its_kind(found: &Found, first: &Found) -> bool {
    found.session.steps.is_empty() == first.session.steps.is_empty()
}
