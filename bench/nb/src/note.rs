//! Why a request was refused, beside what is bad in its words: a note of the tool, read off its text, its
//! leases and what stood before, the nonces left among that.

use crate::{hex, shift};
use bridge::{text_length, Argument, Buffer, Check, Operation, Words, TEXT_BYTES};
use session::entry::{self, Entry};
use session::play::Played;
use session::token::Token;

/// The next nonce once all are used.
const SPENT: u64 = 1 << 32;

/// The note on a refused load, dump or paging, on leases or nonces; none where there is nothing to tell.
pub fn note(played: &Played) -> Option<String> {
    let check = Check::of(played.reply.refusal)?;
    let Words { token, second: minute, .. } = played.request;
    match check {
        Check::Lease => return shift::bad_lease(&played.leases),
        Check::Closed => return shift::closed(&played.leases, token, minute),
        Check::Nonces => return Some(of_nonces(played)),
        _ => {}
    }
    match (Operation::of(played.request.operation)?.buffer(), check) {
        (Buffer::Text, Check::Malformed | Check::Checksum) => of_line(check, &played.buffer),
        (Buffer::Text, Check::Bounds) => of_reach(played),
        (Buffer::Front, Check::Room) => of_room(played),
        (Buffer::Out | Buffer::In, Check::Bounds) => of_whole(played),
        (Buffer::Out | Buffer::In, Check::Kind) => of_kind(played),
        _ => None,
    }
}

/// The nonces left, and how many are needed; those that would give the number its last tag again are
/// passed over.
fn of_nonces(played: &Played) -> String {
    let left = SPENT.saturating_sub(played.before.state.next_nonce);
    let two = match Operation::of(played.request.operation) {
        Some(Operation::Create) => length(played) != Some(played.request.length),
        operation => operation == Some(Operation::PageOut),
    };
    match (left, if two { 2 } else { 1 }) {
        (0, _) => "none is left".to_string(),
        (left, needed) if left < needed => format!("{left} left, and {needed} are needed"),
        (left, _) => {
            format!("{left} left, and those that would give the last tag again do not count")
        }
    }
}

/// The line of the text that is bad.
fn of_line(check: Check, text: &[u8]) -> Option<String> {
    let fault = hex::read(text).err().filter(|fault| fault.check == check)?;
    Some(format!("line {}: {}", fault.line, fault.why))
}

fn of_reach(played: &Played) -> Option<String> {
    let end = hex::read(&played.buffer).ok()?.reach?.end;
    let length = length(played)?;
    (end > length).then(|| format!("the data ends behind byte {}, of {length}", end - 1))
}

fn of_room(played: &Played) -> Option<String> {
    let (text, lent) = (text_length(length(played)?), played.buffer.len() as u64);
    let most = TEXT_BYTES as u64;
    if text > most {
        return Some(format!("the text would have {text} bytes, of at most {most}"));
    }
    (text > lent).then(|| format!("the text has {text} bytes, and the buffer {lent}"))
}

/// The lengths that paging wants to be equal.
fn of_whole(played: &Played) -> Option<String> {
    let (entry, lent) = (length(played)?, played.buffer.len());
    match second(played).map(|donor| donor.length()) {
        None => Some(format!("the segment has {entry} bytes, and the buffer {lent}")),
        Some(donor) => {
            Some(format!("the entry has {entry} bytes, the donor {donor}, and the buffer {lent}"))
        }
    }
}

/// Which entry of a page-in is of the wrong kind.
fn of_kind(played: &Played) -> Option<String> {
    let donor = second(played)?;
    Some(match (entry(played)?.kind(), donor.kind()) {
        (entry::PAGED, entry::PAGED) => "the donor is paged out".to_string(),
        (entry::PAGED, _) => "the donor is no segment".to_string(),
        _ => "the entry is not paged out".to_string(),
    })
}

/// How many bytes the named entry has.
fn length(played: &Played) -> Option<u64> {
    entry(played).map(|entry| entry.length())
}

/// The named entry.
fn entry(played: &Played) -> Option<Entry> {
    at(played, played.request.token)
}

/// The entry of the second token, if there is one.
fn second(played: &Played) -> Option<Entry> {
    let operation = Operation::of(played.request.operation)?;
    operation.takes(Argument::SecondToken).then(|| at(played, played.request.second))?
}

fn at(played: &Played, token: u64) -> Option<Entry> {
    Entry::at(&played.before.table, usize::try_from(Token::unpack(token).number).ok()?)
}
