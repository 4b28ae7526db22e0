//! How much stack a call of the proved code needs.

use std::ffi::c_void;
use std::fmt;
use std::hint::black_box;
use std::io;
use std::ptr;

use bridge::{Lease, Operation, Request, Task, Token, Words};
use bridge::{ANSWER_BYTES, LEASES_BYTES, LEASE_BYTES, REQUEST_BYTES, STATE_BYTES};
use session::World;

use crate::built::Built;
use crate::served::{self, Call};
use crate::thread::Stack;
use crate::{images, paging};

/// The deepest line: a table has 1,024 entries, and one of them is the owner.
pub const DEEPEST: usize = 1_023;

/// No call may need more stack than this, however long the line is: a drop that climbs nests a few
/// calls of itself at most.
pub const BOUND: usize = 2_048;

/// How many bytes are loaded and dumped.
const IMAGE: usize = 23_000;

/// How many bytes are paged out and in.
const PAGED: usize = 65_536;

/// As many leases as can be lent.
const LEASES: usize = LEASES_BYTES / LEASE_BYTES;

/// The stack to measure on, well above the bound.
const SIZE: usize = 4 << 20;

/// What the calls need, in bytes below the frame of their caller: arguments and return address too.
#[derive(Clone, Copy, Debug, PartialEq, Eq)]
pub struct Figures {
    /// A thread that calls a function that does nothing. What needs less cannot be told from it.
    pub floor: usize,
    /// A request that is refused before the table is looked at.
    pub shallowest: usize,
    /// A read through a line of 1,023 links.
    pub walk: usize,
    /// A drop that climbs 1,023 links and frees each entry below the owner.
    pub drop: usize,
    /// A load and a dump of nearly the longest text.
    pub load: usize,
    pub dump: usize,
    /// A segment paged out and in.
    pub page_out: usize,
    pub page_in: usize,
    /// The same read, under as many leases as can be lent.
    pub leased: usize,
}

impl fmt::Display for Figures {
    fn fmt(&self, out: &mut fmt::Formatter<'_>) -> fmt::Result {
        writeln!(out, "Stack of a call of the proved code, in bytes below its caller's frame:")?;
        writeln!(out, "  {:>7}  shallowest call, refused at once", self.shallowest)?;
        writeln!(out, "  {:>7}  deepest walk, a read through {DEEPEST} links", self.walk)?;
        writeln!(out, "  {:>7}  deepest drop, a climb of {DEEPEST} links", self.drop)?;
        writeln!(out, "  {:>7}  a load of {IMAGE} bytes", self.load)?;
        writeln!(out, "  {:>7}  a dump of {IMAGE} bytes", self.dump)?;
        writeln!(out, "  {:>7}  a page-out of {PAGED} bytes", self.page_out)?;
        writeln!(out, "  {:>7}  a page-in of {PAGED} bytes", self.page_in)?;
        writeln!(out, "  {:>7}  the deepest walk under {LEASES} leases", self.leased)?;
        writeln!(out, "  {BOUND:>7}  the bound that a test holds them to")?;
        write!(out, "A call that does nothing shows {}; less cannot be told apart.", self.floor)
    }
}

/// Measures the stack of the proved code.
pub fn stack() -> io::Result<Figures> {
    let mut stack = Stack::new(SIZE)?;
    let unknown = Words { operation: 99, ..Words::default() };
    let start = Built::new(4, 4_096).world;
    let (deep, token) = deepest();
    let read = Words::access(Operation::Read, token, Task::NONE);
    let (bare, bare_token) = deepest_bare();
    let drop = Request::Drop { token: bare_token }.words();
    let (load, dump) = (images::load(IMAGE), images::dump(IMAGE));
    let (out, back) = (paging::out(PAGED), paging::back(PAGED));
    let (byte, proved) = (&[0], Call::Plain(served::proved));
    let lease = Lease::of(token, 0, 1).expect("a number of the table").to_bytes();
    let leases = lease.repeat(LEASES);
    let mut used = |call, world: &World, request, buffer: &[u8], refusal| {
        used(&mut stack, Job::new(call, world, &request, buffer, &leases), refusal)
    };
    Ok(Figures {
        floor: used(Call::Plain(served::nothing), &start, unknown, byte, 0)?,
        shallowest: used(proved, &start, unknown, byte, 1)?,
        walk: used(proved, &deep, read, byte, 0)?,
        drop: used(proved, &bare, drop, byte, 0)?,
        load: used(proved, &load.world, load.request, &load.buffer, 0)?,
        dump: used(proved, &dump.world, dump.request, &dump.buffer, 0)?,
        page_out: used(proved, &out.world, out.request, &out.buffer, 0)?,
        page_in: used(proved, &back.world, back.request, &back.buffer, 0)?,
        leased: used(Call::Leased(served::proved_leased), &deep, read, byte, 0)?,
    })
}

fn deepest() -> (World, Token) {
    let mut built = Built::new(DEEPEST + 1, 65_536);
    let token = built.line(DEEPEST)[DEEPEST];
    (built.world, token)
}

fn deepest_bare() -> (World, Token) {
    let mut built = Built::new(DEEPEST + 1, 65_536);
    let token = built.bare_line(DEEPEST);
    (built.world, token)
}

/// A call, and what it tells.
struct Job {
    call: Call,
    request: [u8; REQUEST_BYTES],
    state: [u8; STATE_BYTES],
    world: World,
    buffer: Vec<u8>,
    answer: [u8; ANSWER_BYTES],
    leases: Vec<u8>,
    /// An address in the caller's frame.
    frame: usize,
}

impl Job {
    fn new(call: Call, world: &World, request: &Words, buffer: &[u8], leases: &[u8]) -> Job {
        Job {
            call,
            request: served::request_bytes(request),
            state: served::state_bytes(&world.state),
            world: world.clone(),
            buffer: buffer.to_vec(),
            answer: [0; ANSWER_BYTES],
            leases: leases.to_vec(),
            frame: 0,
        }
    }
}

/// The bytes of stack below the caller's frame that one call uses. Its refusal must be the given one.
fn used(stack: &mut Stack, mut job: Job, refusal: u8) -> io::Result<usize> {
    let lowest = match job.call {
        Call::Plain(_) => stack.run(plain_routine, &mut job)?,
        Call::Leased(_) => stack.run(leased_routine, &mut job)?,
    };
    if job.answer[0] != refusal {
        return Err(io::Error::other(format!("refusal {}, not {refusal}", job.answer[0])));
    }
    Ok(job.frame - lowest)
}

/// Each function has a routine of its own, so that none makes room for the arguments of the other.
extern "C" fn plain_routine(job: *mut c_void) -> *mut c_void {
    let job = begun(job);
    let mark = 0u8;
    job.frame = ptr::from_ref(black_box(&mark)) as usize;
    let Job { call, request, state, world, buffer, answer, .. } = job;
    let World { table, memory, .. } = world;
    if let Call::Plain(call) = call {
        call(request, state, table, memory, buffer, answer);
    }
    ptr::null_mut()
}

extern "C" fn leased_routine(job: *mut c_void) -> *mut c_void {
    let job = begun(job);
    let mark = 0u8;
    job.frame = ptr::from_ref(black_box(&mark)) as usize;
    let Job { call, request, state, world, buffer, answer, leases, .. } = job;
    let World { table, memory, .. } = world;
    if let Call::Leased(call) = call {
        call(request, state, table, memory, buffer, answer, leases);
    }
    ptr::null_mut()
}

/// The job of a thread.
#[inline(always)]
fn begun<'a>(job: *mut c_void) -> &'a mut Job {
    // The thread's starter lends a job to it alone, and waits for its end.
    unsafe { &mut *job.cast::<Job>() }
}
