//! A difference is shrunk to the shortest session, the same one each time.

use bridge::{Check, Lent, Operation, Reply, State, Words};
use compare::{compare, Machine, Options, Outcome, Pair, Proved, Trouble};
use session::entry::{self, Entry};
use session::token::Token;
use session::{Session, World};

/// The proved code with a fault: a request of an operation, such as a revoke, answers another token once
/// so many were granted.
struct Faulty {
    proved: Proved,
    operation: Operation,
    granted: usize,
    limit: usize,
}

impl Machine for Faulty {
    fn name(&self) -> &str {
        "faulty machine"
    }

    fn begin(&mut self, world: &World) -> Result<(), Trouble> {
        self.granted = 0;
        self.proved.begin(world)
    }

    fn serve(&mut self, request: &Words, lent: Lent) -> Result<Reply, Trouble> {
        let mut reply = self.proved.serve(request, lent)?;
        if request.operation == self.operation as u64 && reply.refusal == 0 {
            self.granted += 1;
            reply.first ^= u64::from(self.granted >= self.limit);
        }
        Ok(reply)
    }

    fn state(&self) -> State {
        self.proved.state()
    }

    fn table(&self) -> &[u8] {
        self.proved.table()
    }

    fn memory(&self) -> &[u8] {
        self.proved.memory()
    }
}

fn found(limit: usize, seed: u64) -> Outcome {
    found_at(Operation::Revoke, limit, seed)
}

fn found_at(operation: Operation, limit: usize, seed: u64) -> Outcome {
    let faulty = Faulty { proved: Proved::new(), operation, granted: 0, limit };
    let pair = Pair::new(Box::new(Proved::new()), Box::new(faulty));
    compare(&Options { seed, ..Options::default() }, pair).expect("a run")
}

/// Buffer, segment and donor are of one length, and become shorter together.
#[test]
fn pages_are_shrunk_to_a_few_bytes() {
    for operation in [Operation::PageOut, Operation::PageIn] {
        for seed in 1..4 {
            let session = found_at(operation, 1, seed).found.expect("a difference").session;
            let lengths = session.steps.iter().map(|step| step.buffer.len());
            assert!(lengths.max() <= Some(2), "{}", session::text::print(&session));
        }
    }
}

#[test]
fn shrunk_to_a_reset_and_what_is_needed() {
    for limit in [1, 2, 3] {
        for seed in 1..4 {
            let outcome = found(limit, seed);
            assert_eq!(outcome.status(), 1);
            let session = outcome.found.expect("a difference").session;
            let operations: Vec<u64> =
                session.steps.iter().map(|step| step.request.operation).collect();
            let mut wanted = vec![Operation::Revoke as u64; limit + 1];
            wanted[0] = Operation::Reset as u64;
            assert_eq!(operations, wanted);
            assert_eq!((session.world.table.len(), session.world.memory.len()), (64, 1));
        }
    }
}

/// The proved code with a wrong rule: a read by the holder of a lock, through a derived token, is
/// answered as if another held it.
struct Stranger(Proved);

impl Stranger {
    fn named(&self, token: u64) -> Entry {
        Entry::of(self.0.table(), Token::unpack(token).number as usize)
    }

    /// Whether a token whose line holds is a derived one under a lock.
    fn is_derived_under_lock(&self, token: u64) -> bool {
        let mut entry = self.named(token);
        let derived = entry.kind() == entry::INDIRECT;
        while entry.kind() == entry::INDIRECT {
            entry = self.named(entry.get(entry::PARENT));
        }
        derived && entry.get(entry::LOCKED) == 1
    }
}

impl Machine for Stranger {
    fn name(&self) -> &str {
        "stranger"
    }

    fn begin(&mut self, world: &World) -> Result<(), Trouble> {
        self.0.begin(world)
    }

    fn serve(&mut self, request: &Words, lent: Lent) -> Result<Reply, Trouble> {
        let reply = self.0.serve(request, lent)?;
        let read = request.operation == Operation::Read as u64 && reply.refusal == 0;
        let wrong = read && self.is_derived_under_lock(request.token);
        Ok(if wrong { Reply { refusal: Check::Lock as u64, ..reply } } else { reply })
    }

    fn state(&self) -> State {
        self.0.state()
    }

    fn table(&self) -> &[u8] {
        self.0.table()
    }

    fn memory(&self) -> &[u8] {
        self.0.memory()
    }
}

/// Four requests show it from a reset on; fewer do, over a table that is handed over.
#[test]
fn shrunk_to_the_few_requests_that_a_wrong_rule_needs() {
    for seed in 1..9 {
        let pair = Pair::new(Box::new(Proved::new()), Box::new(Stranger(Proved::new())));
        let outcome = compare(&Options { seed, ..Options::default() }, pair).expect("a run");
        let first = outcome.first.as_ref().expect("a difference").found.session.steps.len();
        let steps = outcome.found.as_ref().expect("a difference").session.steps.len();
        assert!(steps <= 4 && steps <= first, "seed {seed}: {outcome}");
    }
}

/// What is handed over is simplified too: fields that do not matter are zero, tags can be read.
#[test]
fn a_handed_over_world_is_simplified() {
    let kind = Some("tables".to_string());
    for seed in 1..5 {
        let pair = Pair::new(Box::new(Proved::new()), Box::new(Stranger(Proved::new())));
        let options = Options { seed, kind: kind.clone(), ..Options::default() };
        let Session { world, steps } = compare(&options, pair).unwrap().found.unwrap().session;
        assert!(world.memory.iter().all(|byte| *byte == 0));
        assert!(steps.iter().all(|step| step.buffer.iter().all(|byte| *byte == 0)));
        for number in 0..world.table.len() / entry::SIZE {
            let entry = Entry::of(&world.table, number);
            assert!(
                entry.get(entry::TAG) <= number as u64 && entry.get(entry::USER) == 0
                    || entry.kind() == entry::INDIRECT,
                "seed {seed}, entry {number}"
            );
        }
    }
}

/// A line as deep as a table is handed over: what is left of it is short.
#[test]
fn a_deep_line_is_shortened() {
    let kind = Some("deep".to_string());
    let pair = Pair::new(Box::new(Proved::new()), Box::new(Stranger(Proved::new())));
    let options = Options { kind, ..Options::default() };
    let Session { world, .. } = compare(&options, pair).unwrap().found.unwrap().session;
    let entries = 0..world.table.len() / entry::SIZE;
    let used = entries.filter(|number| !Entry::of(&world.table, *number).is_free()).count();
    assert!(used <= 3, "{used} entries");
}

#[test]
fn the_same_session_each_time() {
    let texts = [found(3, 7), found(3, 7)].map(|outcome| outcome.found.unwrap().to_string());
    assert_eq!(texts[0], texts[1]);
}

#[test]
fn what_is_printed_can_be_replayed() {
    let outcome = found(2, 1);
    let script = session::text::parse(&outcome.to_string()).expect("the replay format");
    let wanted = outcome.found.expect("a difference").session;
    assert_eq!(script.asks.len(), wanted.steps.len());
}
