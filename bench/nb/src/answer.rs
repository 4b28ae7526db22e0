//! An answer in words, on one line.

use crate::cause::{causes, Lent};
use crate::note::note;
use bridge::{refusal_words, Check, Operation, Place, Reply};
use session::play::Played;
use session::text::{buffer_text as bytes_text, token_text, Ask};
use session::World;

/// A buffer is shown up to this length.
const SHORT: usize = 32;

/// Such as `3 ill-formed, an ancestor` or `0 granted, child=@1:0x1234`.
pub fn answer_text(ask: &Ask, played: &Played) -> String {
    let reply = &played.reply;
    let mut parts = vec![format!("{} {}", reply.refusal, refusal_text(played))];
    parts.extend(place_text(reply.place));
    let names = ask.expected.as_ref().map_or([None, None], |expected| {
        [expected.names[0].as_deref(), expected.names[1].as_deref()]
    });
    parts.extend(token_part("first", names[0], reply.first));
    parts.extend(token_part("second", names[1], reply.second));
    parts.extend(number_text(played.request.operation, reply));
    parts.extend(length_text(played.request.operation, reply));
    parts.extend(buffer_text(ask, played));
    parts.join(", ")
}

/// What the refusal's number means; of a bad request, bad text or leases, also why, as far as the tool
/// sees it.
fn refusal_text(played: &Played) -> String {
    let words = refusal_words(played.reply.refusal);
    if played.reply.refusal != Check::Request as u64 {
        return note(played).map_or(words.to_string(), |note| format!("{words}: {note}"));
    }
    let World { state, table, memory } = &played.before;
    let (state, table, memory) = (*state, table.len(), memory.len());
    let (buffer, leases) = (played.buffer.len(), played.leases.len());
    let lent = Lent { state, table, memory, buffer, leases };
    match causes(&played.request, &lent).join("; ").as_str() {
        "" => format!("{words}, though nothing in it is bad"),
        causes => format!("{words}: {causes}"),
    }
}

fn place_text(place: u64) -> Option<String> {
    match (place, Place::of(place)) {
        (0, _) => None,
        (_, Some(place)) => Some(place.words().to_string()),
        (other, None) => Some(format!("place {other}")),
    }
}

fn token_part(place: &str, name: Option<&str>, token: u64) -> Option<String> {
    match (name, token) {
        (None, 0) => None,
        (None, token) => Some(format!("{place} {}", token_text(token, 0))),
        (Some(name), token) => Some(format!("{name}={}", token_text(token, 0))),
    }
}

/// The number that the operation answers, or one that should not be there.
fn number_text(operation: u64, reply: &Reply) -> Option<String> {
    let answers = Operation::of(operation).is_some_and(Operation::answers_number);
    (answers && reply.refusal == 0 || reply.dropped != 0)
        .then(|| format!("number {}", reply.dropped))
}

/// The length of a text that was written, or one that should not be there.
fn length_text(operation: u64, reply: &Reply) -> Option<String> {
    let answers = Operation::of(operation).is_some_and(Operation::answers_length);
    (answers && reply.refusal == 0 || reply.length != 0).then(|| format!("length {}", reply.length))
}

/// What the buffer was filled with, if it is short.
fn buffer_text(ask: &Ask, played: &Played) -> Option<String> {
    let operation = Operation::of(played.request.operation);
    let filled = operation.is_some_and(|operation| operation.buffer().is_written());
    let given = filled && played.reply.refusal == 0 || played.buffer != ask.buffer;
    let text = match played.buffer.len() {
        0..=SHORT => format!("buffer {}", bytes_text(played.request.operation, &played.buffer)),
        length => format!("buffer of {length} bytes"),
    };
    given.then_some(text)
}
