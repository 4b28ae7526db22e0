//! Requests as words, served over state, table, memory and what else is lent.

use std::sync::OnceLock;

use crate::answer::Reply;
use crate::bytes::{put_words, words_of};
use crate::call::{call, call_leased, call_with, Buffer};
use crate::operation::Operation;
use crate::request::Request;
use crate::state::State;
use crate::words::Words;

/// The interface's version, which include/northbridge.h has too.
pub const VERSION: u64 = 7;

/// How many bytes the interface's request, state and answer have.
pub const REQUEST_BYTES: usize = 8 * Words::COUNT;
pub const STATE_BYTES: usize = 8 * State::WORDS;
pub const ANSWER_BYTES: usize = 8 * Reply::WORDS;

/// What is lent with a request, beside state, table and memory. A further part is a field here.
#[derive(Debug)]
pub struct Lent<'a> {
    pub buffer: &'a mut [u8],
    /// Leases, one behind the other; of any length.
    pub leases: &'a [u8],
}

impl<'a> Lent<'a> {
    /// A buffer, and no leases.
    pub fn of(buffer: &'a mut [u8]) -> Lent<'a> {
        Lent { buffer, leases: &[] }
    }
}

/// Whether `northbridge_serve` serves a request alike: no leases are lent, and no minute but 0.
#[inline(always)]
pub fn is_plain(request: &Words, leases: &[u8]) -> bool {
    let leased = || Operation::of(request.operation).is_some_and(Operation::is_leased);
    leases.is_empty() && (request.second == 0 || !leased())
}

/// Serves one request, given as words: any words have a defined answer. No leases are lent, and an
/// access's minute is not looked at.
pub fn serve(
    request: &Words,
    state: &mut State,
    table: &mut [u8],
    memory: &mut [u8],
    buffer: &mut [u8],
) -> Reply {
    serve_with(request, state, |request, state, answer| {
        call(request, state, table, memory, buffer, answer)
    })
}

/// The same with leases, and an access's minute in its second word.
pub fn serve_leased(
    request: &Words,
    state: &mut State,
    table: &mut [u8],
    memory: &mut [u8],
    buffer: &mut [u8],
    leases: &[u8],
) -> Reply {
    serve_with(request, state, |request, state, answer| {
        call_leased(request, state, table, memory, buffer, answer, leases)
    })
}

/// The same with all that can be lent, by the function that needs no more than that.
pub fn serve_lent(
    request: &Words,
    state: &mut State,
    table: &mut [u8],
    memory: &mut [u8],
    lent: Lent,
) -> Reply {
    let Lent { buffer, leases } = lent;
    match is_plain(request, leases) {
        true => serve(request, state, table, memory, buffer),
        false => serve_leased(request, state, table, memory, buffer, leases),
    }
}

/// Serves a request that only reads its buffer.
///
/// # Safety
/// It is a write, a load or a page-in; the buffer is a slice that overlaps none of the others, and
/// nothing writes it meanwhile.
#[inline(always)]
pub unsafe fn serve_brought(
    request: &Words,
    state: &mut State,
    table: &mut [u8],
    memory: &mut [u8],
    buffer: Buffer,
    leases: Option<&[u8]>,
) -> Reply {
    serve_with(request, state, |request, state, answer| {
        // What is asked of the caller is asked there.
        unsafe { call_with(request, state, table, memory, buffer, answer, leases) }
    })
}

/// Request and state become bytes for a call, and what it leaves is taken from them.
#[inline(always)]
fn serve_with(
    request: &Words,
    state: &mut State,
    call: impl FnOnce(&[u8], &mut [u8], &mut [u8]) -> u64,
) -> Reply {
    let (mut asked, mut lent) = ([0; REQUEST_BYTES], [0; STATE_BYTES]);
    put_words(&mut asked, &request.in_order());
    put_words(&mut lent, &state.in_order());
    let mut answer = [0; ANSWER_BYTES];
    let returned = call(&asked, &mut lent, &mut answer);
    *state = State::from_order(words_of(&lent));
    let reply = Reply::from_order(words_of(&answer));
    // A library of another version leaves an answer of another length as it was, or refuses all.
    let of_version = reply.refusal == returned && (returned != 1 || grants_a_reset());
    assert!(of_version, "expected a library of the interface's version {VERSION}");
    reply
}

/// Whether the library takes slices of these lengths, found out once.
#[cold]
fn grants_a_reset() -> bool {
    static GRANTS: OnceLock<bool> = OnceLock::new();
    *GRANTS.get_or_init(|| {
        let mut request = [0; REQUEST_BYTES];
        let reset = Request::Reset { key: [0, 0], first_nonce: 1 };
        put_words(&mut request, &reset.words().in_order());
        let (mut state, mut answer) = ([0; STATE_BYTES], [0; ANSWER_BYTES]);
        call(&request, &mut state, &mut [0; 2 * 32], &mut [0], &mut [], &mut answer) == 0
    })
}
