//! Shrinking: to a shortest session that still differs. Each step proposes a smaller draft and takes
//! it if it still shows a difference; the order is fixed, so that the same session always shrinks to
//! the same one. What is taken was shown by a machine that remembers no session before it.

mod leases;
mod pages;
mod requests;
mod shrinker;
mod simpler;
mod words;
mod world;

use crate::pair::Pair;
use crate::player::Found;
use crate::progress::Progress;
use shrinker::Shrinker;

/// Rounds over all the steps, as long as they still shrink something.
const ROUNDS: usize = 12;

/// The shortest session found that still differs, with the difference that it shows; none if the
/// session does not differ when it is played again alone.
pub fn shrink(pair: &mut Pair, found: &Found, progress: &mut Progress) -> Option<Found> {
    let mut shrinker = Shrinker::new(pair, found, progress)?;
    for _ in 0..ROUNDS {
        let before = shrinker.draft.clone();
        shrinker.round();
        if shrinker.draft == before {
            break;
        }
    }
    Some(shrinker.found)
}

impl Shrinker<'_> {
    fn round(&mut self) {
        self.smaller_memory();
        self.leave_out_requests();
        self.begin_with_reset();
        self.smaller_table();
        self.smaller_memory();
        self.zero_state();
        self.shorter_lines();
        self.zero_table();
        self.zero_memory();
        self.leave_out_requests();
        self.simpler_leases();
        self.simpler_words();
        self.shorter_pages();
        self.smaller_buffers();
        self.leave_out_links();
        self.leave_out_givers();
        self.leave_out_several();
        self.simpler_entries();
        self.simpler_free_entries();
    }
}
