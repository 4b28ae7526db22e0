//! Where a refused request stopped: an entry is told exactly for the refusals that are about one.

use bridge::{Check, Lent, Place, Reply, State, Words};
use compare::{compare, Machine, Options, Pair, Proved, Trouble};
use nb_tool::stop::{named, stop};
use session::World;

/// The proved code; each of its refusals is compared with the entry that is found.
struct Judged(Proved);

impl Judged {
    fn holds(request: &Words, table: &[u8], memory: usize, reply: &Reply) {
        let found = stop(request, table, memory, reply.refusal);
        let of_entry = (Check::Entry as u64..=Check::Standing as u64).contains(&reply.refusal)
            || reply.refusal == Check::Paged as u64;
        assert_eq!(found.is_some(), of_entry, "{request:?}: {reply:?} {found:?}");
        let Some(found) = found else { return };
        assert!(named(request).contains(&found.named), "{request:?}: {reply:?} {found:?}");
        if let Some(place) = Place::of(reply.place) {
            let is_named = found.number == found.named;
            assert_eq!(is_named, place == Place::Named, "{request:?}: {reply:?} {found:?}");
        }
    }
}

impl Machine for Judged {
    fn name(&self) -> &str {
        "judged proved code"
    }

    fn begin(&mut self, world: &World) -> Result<(), Trouble> {
        self.0.begin(world)
    }

    fn serve(&mut self, request: &Words, lent: Lent) -> Result<Reply, Trouble> {
        let reply = self.0.serve(request, lent)?;
        // A refused request changed nothing.
        if reply.refusal != 0 {
            Judged::holds(request, self.table(), self.memory().len(), &reply);
        }
        Ok(reply)
    }

    fn state(&self) -> State {
        self.0.state()
    }

    fn table(&self) -> &[u8] {
        self.0.table()
    }

    fn memory(&self) -> &[u8] {
        self.0.memory()
    }
}

#[test]
fn an_entry_is_found_if_and_only_if_the_refusal_is_about_one() {
    let pair = Pair::new(Box::new(Judged(Proved::new())), Box::new(Proved::new()));
    let options = Options { requests: 300_000, ..Options::default() };
    assert!(compare(&options, pair).expect("a run").found.is_none());
}
