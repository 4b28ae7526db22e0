//! Place 1: the request itself. Each request is judged by the words that it
//! uses, and by no others.

use crate::hex::TEXT_LIMIT;
use crate::interface::{Request, State};
use crate::lease::WEEK;
use crate::operation;
use crate::refusal::{need, Refusal};
use crate::token::Token;

/// The next nonce once all are used: "the last means spent".
pub const SPENT: u64 = 1 << 32;

/// "1 to 16,777,216 bytes" and "2 to 1,024 entries of 32 bytes".
#[inline]
pub fn sizes(entries: usize, odd_bytes: usize, memory: usize) -> Result<(), Refusal> {
    let table = (2..=1024).contains(&entries) && odd_bytes == 0;
    need(table && (1..=1 << 24).contains(&memory), Refusal::Request)
}

/// "the last number given (inside the table), and the next nonce (1 to
/// 4,294,967,296)"; 02, paper 3: "the total may not exceed entries minus one".
/// Reset takes no state, so it judges none.
#[inline]
pub fn state(state: &State, entries: usize) -> Result<(), Refusal> {
    let last = state.last < entries as u64;
    let total = state.total < entries as u64;
    need(last && (1..=SPENT).contains(&state.next) && total, Refusal::Request)
}

/// "a first nonce (1 to 4,294,967,295)"
#[inline]
pub fn first_nonce(nonce: u64) -> Result<(), Refusal> {
    need((1..SPENT).contains(&nonce), Refusal::Request)
}

/// The words of any request but a reset.
#[inline]
pub fn words(request: &Request, buffer: usize) -> Result<(), Refusal> {
    // "An offset in the token of any request but an access."
    let plain = |word| Token::unpack(word).offset == 0;
    let task = request.task < 1 << 55;
    let encoding = request.encoding <= 3;
    let permissions = request.permissions <= 7;
    // 02, paper 4: "an access minute beyond the week is 1".
    let minute = request.second < WEEK;
    let sound = match request.operation {
        // "1 to 4,096 bytes"
        operation::READ | operation::WRITE | operation::FETCH => {
            task && minute && (1..=4096).contains(&buffer)
        }
        operation::CREATE => {
            plain(request.token) && task && request.length != 0 && permissions && encoding
        }
        operation::MERGE => plain(request.token) && plain(request.second) && task && encoding,
        operation::DERIVE => plain(request.token) && request.length != 0 && permissions && encoding,
        operation::EXECUTE_ONLY | operation::REVOKE => plain(request.token) && encoding,
        operation::CLONE | operation::DROP => plain(request.token),
        // "lock or unlock with task 0 (task 0 means none)"
        operation::LOCK | operation::UNLOCK => plain(request.token) && task && request.task != 0,
        // 02, paper 2: "at most 65,536 bytes of text, else 1"; paper 4: "Loads
        // and dumps count as accesses."
        operation::LOAD => plain(request.token) && task && minute && buffer <= TEXT_LIMIT,
        operation::DUMP => plain(request.token) && task && minute,
        // 02, paper 6: "two tokens go as a merge's". The buffer is for place 8.
        operation::PAGE_OUT => plain(request.token) && task && encoding,
        operation::PAGE_IN => plain(request.token) && plain(request.second) && task && encoding,
        _ => false,
    };
    need(sound, Refusal::Request)
}
