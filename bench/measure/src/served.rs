//! Who serves a request, each behind the same kind of call: a function over byte slices that is never
//! inlined and is called through a pointer. So neither the proved code nor the model gains by being
//! compiled together with its caller.

use std::hint::black_box;

use bridge::{put_words, words_of, Check, State, Words};
use bridge::{ANSWER_BYTES, REQUEST_BYTES, STATE_BYTES};
use session::server::{model_request, model_state, reply_of_model, state_of_model};

/// `northbridge_serve`: request, state, table, memory, buffer, answer. It returns the refusal.
pub type Plain = fn(&[u8], &mut [u8], &mut [u8], &mut [u8], &mut [u8], &mut [u8]) -> u64;

/// `northbridge_serve_leased`: the same, and leases.
pub type Leased = fn(&[u8], &mut [u8], &mut [u8], &mut [u8], &mut [u8], &mut [u8], &[u8]) -> u64;

/// One of the interface's functions.
#[derive(Clone, Copy)]
pub enum Call {
    Plain(Plain),
    Leased(Leased),
}

/// The proved code.
#[inline(never)]
pub fn proved(
    request: &[u8],
    state: &mut [u8],
    table: &mut [u8],
    memory: &mut [u8],
    buffer: &mut [u8],
    answer: &mut [u8],
) -> u64 {
    bridge::call(request, state, table, memory, buffer, answer)
}

/// The proved code with leases.
#[inline(never)]
pub fn proved_leased(
    request: &[u8],
    state: &mut [u8],
    table: &mut [u8],
    memory: &mut [u8],
    buffer: &mut [u8],
    answer: &mut [u8],
    leases: &[u8],
) -> u64 {
    bridge::call_leased(request, state, table, memory, buffer, answer, leases)
}

/// The model, over the same bytes.
#[inline(never)]
pub fn model(
    request: &[u8],
    state: &mut [u8],
    table: &mut [u8],
    memory: &mut [u8],
    buffer: &mut [u8],
    answer: &mut [u8],
) -> u64 {
    decoded(request, state, table, memory, buffer, answer, &[])
}

/// The model with leases.
#[inline(never)]
pub fn model_leased(
    request: &[u8],
    state: &mut [u8],
    table: &mut [u8],
    memory: &mut [u8],
    buffer: &mut [u8],
    answer: &mut [u8],
    leases: &[u8],
) -> u64 {
    decoded(request, state, table, memory, buffer, answer, leases)
}

/// The request and the state are decoded for the model, and state and answer are written.
#[inline(always)]
fn decoded(
    request: &[u8],
    state: &mut [u8],
    table: &mut [u8],
    memory: &mut [u8],
    buffer: &mut [u8],
    answer: &mut [u8],
    leases: &[u8],
) -> u64 {
    let (Ok(request), Ok(state), Ok(answer)) = (
        <&[u8; REQUEST_BYTES]>::try_from(request),
        <&mut [u8; STATE_BYTES]>::try_from(state),
        <&mut [u8; ANSWER_BYTES]>::try_from(answer),
    ) else {
        return Check::Request as u64;
    };
    let mut typed = state_of(state);
    let given = model::serve(request_of(request), &mut typed, table, memory, buffer, leases);
    put_words(state, &state_of_model(&typed).in_order());
    put_words(answer, &reply_of_model(&given).in_order());
    given.refusal
}

/// The floor: a call that does nothing with the six slices.
#[inline(never)]
pub fn nothing(
    request: &[u8],
    state: &mut [u8],
    table: &mut [u8],
    memory: &mut [u8],
    buffer: &mut [u8],
    answer: &mut [u8],
) -> u64 {
    black_box((request, state, table, memory, buffer, answer));
    0
}

/// The bytes of a request.
pub fn request_bytes(request: &Words) -> [u8; REQUEST_BYTES] {
    let mut bytes = [0; REQUEST_BYTES];
    put_words(&mut bytes, &request.in_order());
    bytes
}

/// The bytes of a state.
pub fn state_bytes(state: &State) -> [u8; STATE_BYTES] {
    let mut bytes = [0; STATE_BYTES];
    put_words(&mut bytes, &state.in_order());
    bytes
}

/// The request that bytes hold, as the model has it.
#[inline]
pub fn request_of(bytes: &[u8; REQUEST_BYTES]) -> model::Request {
    model_request(&Words::from_order(words_of(bytes)))
}

/// The state that bytes hold, as the model has it.
#[inline]
pub fn state_of(bytes: &[u8; STATE_BYTES]) -> model::State {
    model_state(&State::from_order(words_of(bytes)))
}
