//! Batches: a case is asked many times between two looks at the clock.
//!
//! A request that changes the table is asked once of each of several equal copies of state and
//! table; the copies are restored between batches, outside the time taken. An access changes neither
//! and is asked many times of one copy, and so are a load and a dump. Memory is not restored: a write,
//! a load and a page-in store the same bytes again, and a revoke and a page-out zero what is zero, at
//! the same cost.

use std::hint::black_box;
use std::time::Instant;

use bridge::{ANSWER_BYTES, REQUEST_BYTES, STATE_BYTES};

use crate::case::Case;
use crate::limit::{self, Limit};
use crate::paged::Paged;
use crate::served::{self, Call, Leased, Plain};

/// The copies together have about this many bytes, so that they stay in the nearest cache.
const COPIED_BYTES: usize = 12_288;
const MOST_COPIES: usize = 32;
/// How often an access is asked in a batch, and how many bytes of a longer buffer about.
const ACCESSES: usize = 32;
const LENT_BYTES: usize = 131_072;

/// Who is measured.
#[derive(Clone, Copy, Debug, PartialEq, Eq)]
pub enum Subject {
    Proved,
    Model,
    /// The model called as a Rust function, with typed request and state.
    Direct,
    Limit,
}

impl Subject {
    pub const ALL: [Subject; 4] =
        [Subject::Proved, Subject::Model, Subject::Direct, Subject::Limit];
}

/// State, table and answer of one copy; the state also as the model has it.
#[derive(Clone, PartialEq, Eq)]
struct Lent {
    state: [u8; STATE_BYTES],
    typed: model::State,
    table: Vec<u8>,
    answer: [u8; ANSWER_BYTES],
}

/// A case that is ready to be asked.
pub struct Batch {
    pub case: Case,
    request: [u8; REQUEST_BYTES],
    start: Lent,
    copies: Vec<Lent>,
    memory: Paged,
    buffer: Paged,
    /// What a text is copied to, or from.
    copied: Paged,
    leases: Paged,
    passes: usize,
}

impl Batch {
    pub fn new(case: Case) -> Batch {
        let request = served::request_bytes(&case.request);
        let state = served::state_bytes(&case.world.state);
        let typed = served::state_of(&state);
        let start =
            Lent { state, typed, table: case.world.table.clone(), answer: [0xff; ANSWER_BYTES] };
        let memory = Paged::new(&case.world.memory);
        let (buffer, copied) = (Paged::new(&case.buffer), Paged::new(&case.buffer));
        let leases = Paged::new(case.leases.as_deref().unwrap_or(&[]));
        let (copies, passes) = if case.repeats() {
            (1, (LENT_BYTES / case.buffer.len().max(1)).clamp(1, ACCESSES))
        } else {
            ((COPIED_BYTES / start.table.len()).clamp(1, MOST_COPIES), 1)
        };
        let copies = vec![start.clone(); copies];
        Batch { case, request, start, copies, memory, buffer, copied, leases, passes }
    }

    /// The nanoseconds of one call: the batch runs untimed to warm the caches, then timed.
    pub fn time(&mut self, subject: Subject, clock: f64) -> f64 {
        self.restore();
        self.run(subject);
        self.restore();
        let start = Instant::now();
        self.run(subject);
        let taken = start.elapsed().as_nanos() as f64;
        (taken - clock).max(0.0) / (self.passes * self.copies.len()) as f64
    }

    /// Proved code and model grant the request and leave the same bytes.
    pub fn agree(&mut self) -> bool {
        let [proved, model] = self.calls().map(|call| self.left_by(call));
        proved == model && proved.0[0].answer[0] == 0
    }

    fn left_by(&mut self, call: Call) -> (Vec<Lent>, Vec<u8>, Vec<u8>) {
        self.restore();
        self.memory.copy_from_slice(&self.case.world.memory);
        self.buffer.copy_from_slice(&self.case.buffer);
        self.ask(call);
        (self.copies.clone(), self.memory.to_vec(), self.buffer.to_vec())
    }

    fn restore(&mut self) {
        for copy in &mut self.copies {
            copy.state = self.start.state;
            copy.typed = self.start.typed;
            copy.answer = self.start.answer;
            copy.table.copy_from_slice(&self.start.table);
        }
    }

    fn run(&mut self, subject: Subject) {
        match subject {
            Subject::Proved => self.ask(self.calls()[0]),
            Subject::Model => self.ask(self.calls()[1]),
            Subject::Direct => self.ask_directly(),
            Subject::Limit => self.limit(),
        }
    }

    /// The function of the proved code that the case is for, and the model's.
    fn calls(&self) -> [Call; 2] {
        match self.case.leases {
            None => [Call::Plain(served::proved), Call::Plain(served::model)],
            Some(_) => [Call::Leased(served::proved_leased), Call::Leased(served::model_leased)],
        }
    }

    fn ask(&mut self, call: Call) {
        let Batch { request, copies, memory, buffer, leases, .. } = self;
        match black_box(call) {
            Call::Plain(call) => {
                (0..self.passes).for_each(|_| pass(call, request, copies, memory, buffer));
            }
            Call::Leased(call) => (0..self.passes)
                .for_each(|_| leased_pass(call, request, copies, memory, buffer, leases)),
        }
    }

    fn ask_directly(&mut self) {
        let Batch { copies, memory, buffer, leases, .. } = self;
        let request = served::request_of(&self.request);
        for _ in 0..self.passes {
            direct_pass(request, copies, memory, buffer, leases);
        }
    }

    fn limit(&mut self) {
        for _ in 0..self.passes {
            self.limit_pass();
        }
    }

    fn limit_pass(&mut self) {
        let mut message = [0; 40];
        message[..32].copy_from_slice(&self.start.table[..32]);
        let key = self.case.world.state.key;
        for copy in &mut self.copies {
            match &self.case.limit {
                Limit::Load(range) => limit::copy(&mut self.buffer, &self.memory[range.clone()]),
                Limit::Store(range) => limit::copy(&mut self.memory[range.clone()], &self.buffer),
                Limit::Text(_) => limit::copy(&mut self.copied, &self.buffer),
                Limit::Leases(range) => {
                    black_box(limit::pass(black_box(&self.leases)));
                    limit::copy(&mut self.buffer, &self.memory[range.clone()]);
                }
                Limit::Out(range) => {
                    limit::copy(&mut self.buffer, &self.memory[range.clone()]);
                    limit::clear(&mut self.memory[range.clone()]);
                    limit::issue(key, &message, 2);
                }
                Limit::In(range) => {
                    limit::copy(&mut self.memory[range.clone()], &self.buffer);
                    limit::issue(key, &message, 1);
                }
                Limit::ClearTable => limit::clear(&mut copy.table),
                Limit::Renew(range) => {
                    limit::clear(&mut self.memory[range.clone()]);
                    limit::issue(key, &message, 1);
                }
                Limit::Issue(times) => limit::issue(key, &message, *times),
                Limit::Call => {
                    let Lent { state, table, answer, .. } = copy;
                    let (memory, buffer) = (&mut self.memory, &mut self.buffer);
                    served::nothing(&self.request, state, table, memory, buffer, answer);
                }
            }
        }
    }
}

fn pass(call: Plain, request: &[u8], copies: &mut [Lent], memory: &mut [u8], buffer: &mut [u8]) {
    for copy in copies {
        let Lent { state, table, answer, .. } = copy;
        black_box(call(request, state, table, memory, buffer, answer));
    }
}

fn leased_pass(
    call: Leased,
    request: &[u8],
    copies: &mut [Lent],
    memory: &mut [u8],
    buffer: &mut [u8],
    leases: &[u8],
) {
    for copy in copies {
        let Lent { state, table, answer, .. } = copy;
        black_box(call(request, state, table, memory, buffer, answer, leases));
    }
}

fn direct_pass(
    request: model::Request,
    copies: &mut [Lent],
    memory: &mut [u8],
    buffer: &mut [u8],
    leases: &[u8],
) {
    for copy in copies {
        let (request, Lent { typed, table, .. }) = (black_box(request), copy);
        black_box(model::serve(request, typed, table, memory, buffer, leases));
    }
}
