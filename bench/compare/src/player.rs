//! A player of sessions: it asks both machines, writes down what it asked, and stops at the first
//! difference. A kind of session is a function over a player; it sees what stands now, so that it
//! can choose the next request by it.

use std::fmt;

use bridge::{Check, Operation, Reply, State, Words};
use session::entry::{self, Entry};
use session::{replace, Session, Step, World};

use crate::coverage::{Coverage, Under};
use crate::dice::Dice;
use crate::difference::Difference;
use crate::events::Before;
use crate::free;
use crate::leases;
use crate::machine::Machine;
use crate::pair::Pair;
use crate::progress::Progress;

/// A session, cut off after the request that shows the difference.
#[derive(Clone, Debug, PartialEq, Eq)]
pub struct Found {
    pub session: Session,
    pub difference: Difference,
}

pub struct Player<'a> {
    pub dice: Dice,
    /// Words that a request does not use are set to rubbish.
    pub rubbish: bool,
    /// The tokens that this session's requests gave, the last one at the end.
    pub given: Vec<u64>,
    /// How many of them were given before the last reset.
    since: usize,
    /// The table before the last request, and before the last reset.
    before: Vec<u8>,
    cleared: Vec<u8>,
    pair: &'a mut Pair,
    coverage: &'a mut Coverage,
    progress: &'a mut Progress,
    log: Session,
    asked: u64,
    most: u64,
    found: Option<Found>,
}

/// What a player answers once it has stopped.
const STOPPED: Reply =
    Reply { refusal: Check::Request as u64, place: 0, first: 0, second: 0, dropped: 0, length: 0 };

impl<'a> Player<'a> {
    /// A player that goes on from so many requests asked, to so many at most.
    pub fn new(
        dice: Dice,
        pair: &'a mut Pair,
        coverage: &'a mut Coverage,
        progress: &'a mut Progress,
        [asked, most]: [u64; 2],
    ) -> Self {
        let log = Session { world: World::zeros(0, 0), steps: Vec::new() };
        Player {
            dice,
            rubbish: false,
            given: Vec::new(),
            since: 0,
            before: Vec::new(),
            cleared: Vec::new(),
            pair,
            coverage,
            progress,
            log,
            asked,
            most,
            found: None,
        }
    }

    /// How many requests were asked, and the difference, if there was one.
    pub fn end(self) -> (u64, Option<Found>) {
        (self.asked, self.found)
    }

    /// True when nothing more is asked.
    pub fn over(&self) -> bool {
        self.asked >= self.most || self.found.is_some()
    }

    /// Begins a session over a world.
    pub fn begin(&mut self, world: World) {
        if self.over() {
            return;
        }
        self.log.world = world;
        self.log.steps.clear();
        self.given.clear();
        self.cleared.clear();
        self.since = 0;
        if let Err(difference) = self.pair.begin(&self.log.world) {
            self.stop(difference);
        }
    }

    fn stop(&mut self, difference: Difference) {
        let empty = Session { world: World::zeros(0, 0), steps: Vec::new() };
        let session = std::mem::replace(&mut self.log, empty);
        self.found = Some(Found { session, difference });
    }

    /// Asks a request with a buffer. No leases are lent, unless all that is not used is rubbish.
    pub fn ask_with(&mut self, request: Words, buffer: Vec<u8>) -> Reply {
        let leased = Operation::of(request.operation).is_some_and(Operation::is_leased);
        let leases = match self.rubbish && !leased {
            true => leases::rubbish(&mut self.dice),
            false => Vec::new(),
        };
        self.ask_lent(Step { request, buffer, leases })
    }

    /// Asks a request with all that is lent with it.
    pub fn ask_lent(&mut self, mut step: Step) -> Reply {
        if self.over() {
            return STOPPED;
        }
        if self.rubbish {
            step.request = self.with_rubbish(step.request);
        }
        self.asked += 1;
        self.progress.asked(self.asked);
        let before = self.state();
        replace(&mut self.before, self.pair.reference.table());
        let answer = self.pair.ask(&step);
        self.log.steps.push(step);
        match answer {
            Ok(reply) => {
                self.count(&reply, before);
                reply
            }
            Err(difference) => {
                self.stop(difference);
                STOPPED
            }
        }
    }

    /// Counts what the last request reached, and keeps the tokens that it gave.
    fn count(&mut self, reply: &Reply, state: State) {
        let Some(step) = self.log.steps.last() else { return };
        let (machine, operation) = (self.pair.reference.as_ref(), step.request.operation);
        self.coverage.count(operation, reply);
        let given = self.given.get(self.since..).unwrap_or(&[]);
        let before = Before { state, table: &self.before, given, cleared: &self.cleared };
        self.coverage.events.count(step, reply, before, machine);
        for (under, step) in step_without(step, reply, machine) {
            let mut world = world_of(machine);
            if under == Under::BadTotal {
                world.state.total = 0;
            }
            self.coverage.count_under(under, operation, &step.serve(&mut world));
        }
        self.keep(operation, reply);
    }

    pub fn ask(&mut self, request: Words) -> Reply {
        self.ask_with(request, Vec::new())
    }

    fn keep(&mut self, operation: u64, reply: &Reply) {
        if operation == Operation::Reset as u64 && reply.refusal == 0 {
            self.since = self.given.len();
            replace(&mut self.cleared, &self.before);
        }
        let issues = Operation::of(operation).is_some_and(Operation::issues);
        if !issues || reply.refusal != 0 {
            return;
        }
        self.given.push(reply.first);
        if reply.second != 0 {
            self.given.push(reply.second);
        }
    }

    fn with_rubbish(&mut self, request: Words) -> Words {
        let mut words = request;
        let Some(operation) = Operation::of(request.operation) else {
            return request;
        };
        for place in (1..Words::COUNT).filter(|place| !operation.uses(*place)) {
            *words.at(place) = self.dice.word();
        }
        words
    }

    // What stands now.

    pub fn state(&self) -> State {
        self.pair.reference.state()
    }

    pub fn table(&self) -> &[u8] {
        self.pair.reference.table()
    }

    pub fn memory(&self) -> &[u8] {
        self.pair.reference.memory()
    }

    pub fn entries(&self) -> usize {
        self.table().len() / entry::SIZE
    }

    pub fn entry(&self, number: usize) -> Entry {
        Entry::of(self.table(), number)
    }

    /// The present token of a number, in encoding 0.
    pub fn token(&self, number: usize) -> u64 {
        self.entry(number).token(number, 0)
    }

    /// The world as it stands now.
    pub fn world(&self) -> World {
        world_of(self.pair.reference.as_ref())
    }

    // Requests, by their operation.

    pub fn reset(&mut self, key: [u64; 2], first_nonce: u64) -> Reply {
        let operation = Operation::Reset as u64;
        let [token, second] = key;
        self.ask(Words { operation, token, second, task: first_nonce, ..Words::default() })
    }

    pub fn read(&mut self, token: u64, length: usize, task: u64) -> Reply {
        let operation = Operation::Read as u64;
        self.ask_with(Words { operation, token, task, ..Words::default() }, vec![0xB5; length])
    }

    pub fn fetch(&mut self, token: u64, length: usize, task: u64) -> Reply {
        let operation = Operation::Fetch as u64;
        self.ask_with(Words { operation, token, task, ..Words::default() }, vec![0x5B; length])
    }

    /// Writes bytes of its own.
    pub fn write(&mut self, token: u64, length: usize, task: u64) -> Reply {
        let operation = Operation::Write as u64;
        let buffer = self.dice.bytes(length);
        self.ask_with(Words { operation, token, task, ..Words::default() }, buffer)
    }

    pub fn create(&mut self, token: u64, length: u64, permissions: u64) -> Reply {
        let operation = Operation::Create as u64;
        let encoding = self.dice.below(4);
        self.ask(Words { operation, token, length, permissions, encoding, ..Words::default() })
    }

    pub fn merge(&mut self, token: u64, second: u64) -> Reply {
        let operation = Operation::Merge as u64;
        let encoding = self.dice.below(4);
        self.ask(Words { operation, token, second, encoding, ..Words::default() })
    }

    pub fn derive(&mut self, token: u64, offset: u64, length: u64, permissions: u64) -> Reply {
        let operation = Operation::Derive as u64;
        let (second, encoding) = (offset, self.dice.below(4));
        let words = Words { operation, token, second, length, permissions, ..Words::default() };
        self.ask(Words { encoding, ..words })
    }

    /// Pages a segment out, to a buffer of so many bytes.
    pub fn page_out(&mut self, token: u64, length: usize) -> Reply {
        let operation = Operation::PageOut as u64;
        let (second, encoding) = (self.dice.word(), self.dice.below(4));
        let request = Words { operation, token, second, encoding, ..Words::default() };
        self.ask_with(request, vec![0xB5; length])
    }

    /// Pages a segment in, to a donor's place, from so many bytes of its own.
    pub fn page_in(&mut self, token: u64, donor: u64, length: usize) -> Reply {
        let (operation, second) = (Operation::PageIn as u64, donor);
        let (encoding, buffer) = (self.dice.below(4), self.dice.bytes(length));
        self.ask_with(Words { operation, token, second, encoding, ..Words::default() }, buffer)
    }

    /// Execute-only, clone, drop or revoke.
    pub fn simple(&mut self, operation: Operation, token: u64) -> Reply {
        let encoding = self.dice.below(4);
        self.ask(Words { operation: operation as u64, token, encoding, ..Words::default() })
    }

    /// Lock or unlock.
    pub fn hold(&mut self, operation: Operation, token: u64, task: u64) -> Reply {
        self.ask(Words { operation: operation as u64, token, task, ..Words::default() })
    }
}

/// The world of a machine.
fn world_of(machine: &dyn Machine) -> World {
    let (table, memory) = (machine.table().to_vec(), machine.memory().to_vec());
    World { state: machine.state(), table, memory }
}

/// Of a request that was refused: what it was under for which it had to be, and the same without that.
fn step_without(step: &Step, reply: &Reply, machine: &dyn Machine) -> Vec<(Under, Step)> {
    let mut found = Vec::new();
    let above = machine.state().total > free::top(machine.table());
    let judged = step.request.operation != Operation::Reset as u64;
    if above && judged && reply.refusal == Check::Request as u64 {
        found.push((Under::BadTotal, step.clone()));
    }
    if reply.refusal == Check::Request as u64 && leases::is_beyond(&step.request) {
        let request = Words { second: 0, ..step.request };
        found.push((Under::BadMinute, Step { request, ..step.clone() }));
    }
    if reply.refusal == Check::Request as u64 && !leases::fit(&step.leases) {
        found.push((Under::BadSize, Step { leases: Vec::new(), ..step.clone() }));
    }
    let leases = leases::judge(&step.request, &step.leases);
    if reply.refusal != 0 && leases.bad {
        found.push((Under::BadLease, Step { leases: leases::sound(&step.leases), ..step.clone() }));
    } else if reply.refusal != 0 && leases.closed {
        found.push((Under::Closed, Step { leases: Vec::new(), ..step.clone() }));
    }
    found
}

impl fmt::Display for Found {
    /// The difference as comments, then the session in the replay format with what the proved code
    /// answers.
    fn fmt(&self, f: &mut fmt::Formatter<'_>) -> fmt::Result {
        let requests = self.session.steps.len();
        let text = format!("After request {requests} {}", self.difference);
        for line in text.lines() {
            writeln!(f, "# {line}")?;
        }
        writeln!(f)?;
        let mut world = self.session.world.clone();
        let steps = self.session.steps.iter();
        let replies: Vec<Reply> = steps.map(|step| step.serve(&mut world)).collect();
        f.write_str(&session::text::print_with(&self.session, &replies))
    }
}
