//! What a copy of the model has besides: its function for C, by which the test asks it.

use std::panic::{catch_unwind, AssertUnwindSafe};
use std::slice::{from_raw_parts, from_raw_parts_mut};

use crate::{serve, Answer, Request, State};

/// Bytes that are lent.
#[repr(C)]
pub struct Lent {
    start: *mut u8,
    length: usize,
}

/// Serves a request, its words, the state's and the answer's in the order of the interface, over
/// table, memory, buffer and leases; false if it came to no answer.
///
/// # Safety
///
/// The four parts are lent for the call, and none overlaps another; the leases are only read.
#[no_mangle]
pub unsafe extern "C" fn serve_loaded(
    words: &[u64; 8],
    state: &mut [u64; 5],
    parts: &[Lent; 4],
    answer: &mut [u64; 6],
) -> bool {
    let [table, memory, buffer] =
        [0, 1, 2].map(|at: usize| from_raw_parts_mut(parts[at].start, parts[at].length));
    let leases = from_raw_parts(parts[3].start, parts[3].length);
    let mut kept = state_of(*state);
    let served =
        || serve(request_of(*words), &mut kept, &mut *table, &mut *memory, &mut *buffer, leases);
    let Ok(told) = catch_unwind(AssertUnwindSafe(served)) else {
        return false;
    };
    (*state, *answer) = (state_words(kept), answer_words(told));
    true
}

fn request_of(words: [u64; 8]) -> Request {
    let [operation, token, second, task, length, user, permissions, encoding] = words;
    Request { operation, token, second, task, length, user, permissions, encoding }
}

fn state_of([key0, key1, last, next, total]: [u64; 5]) -> State {
    State { key0, key1, last, next, total }
}

fn state_words(State { key0, key1, last, next, total }: State) -> [u64; 5] {
    [key0, key1, last, next, total]
}

fn answer_words(answer: Answer) -> [u64; 6] {
    let Answer { refusal, place, first, second, dropped, length } = answer;
    [refusal, place, first, second, dropped, length]
}
