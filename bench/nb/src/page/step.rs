//! What the page shows of a step: the request with its answer, and the map of what stands then.

use std::ops::Range;

use super::json::Json;
use crate::answer::answer_text;
use crate::hex;
use crate::map::{Map, Row};
use crate::report::{difference_text, request_text};
use crate::stop::{named, stop, Stop};
use bridge::{Buffer, Operation};
use session::entry::{Entry, Field};
use session::play::{NoAnswer, Played};
use session::text::Ask;
use session::token::Token;

/// How wide a request is shown; a longer one is cut.
const WIDE: usize = 200;

/// A request and what came of it.
pub fn request_fields(ask: &Ask, played: &Result<Played, NoAnswer>) -> Vec<(&'static str, Json)> {
    let checks = Operation::of(ask.words.operation).map_or(&[][..], Operation::checks);
    let mut fields = vec![
        ("line", Json::Number(ask.line as u64)),
        ("request", Json::text(request_text(ask, WIDE))),
        ("checks", Json::list(checks, |check| Json::Number(*check as u64))),
    ];
    match played {
        Ok(played) => fields.extend(answer_fields(ask, played)),
        Err(no_answer) => fields.push(("answer", Json::text(no_answer.to_string()))),
    }
    fields
}

fn answer_fields(ask: &Ask, played: &Played) -> Vec<(&'static str, Json)> {
    let Played { request, before, reply, differences, .. } = played;
    let stop = stop(request, &before.table, before.memory.len(), reply.refusal);
    vec![
        ("answer", Json::text(answer_text(ask, played))),
        ("refusal", Json::Number(reply.refusal)),
        ("stop", Json::some(stop, stop_json)),
        ("named", Json::list(named(request), Json::Number)),
        ("touched", Json::some(touched(played), |bytes| range_json(&bytes))),
        ("differences", Json::list(differences, |one| Json::text(difference_text(one, "")))),
    ]
}

fn stop_json(stop: Stop) -> Json {
    let Stop { number, why, .. } = stop;
    Json::Fields(vec![("number", Json::Number(number)), ("why", Json::some(why, Json::Text))])
}

/// The bytes that a request reads or writes, if its number is one of the table: those of an access, of
/// a load's data, or all for a dump and a page-out; of a page-in all that the donor has.
fn touched(played: &Played) -> Option<Range<u64>> {
    let Played { request, before, buffer, .. } = played;
    let token = Token::unpack(request.token);
    let entry = Entry::at(&before.table, usize::try_from(token.number).ok()?)?;
    let entry = match Operation::of(request.operation)? {
        Operation::PageIn => donor(played)?,
        _ => entry,
    };
    entry.place(Field::Base)?;
    let reach = match Operation::of(request.operation)?.buffer() {
        Buffer::Unused => return None,
        Buffer::Filled | Buffer::Brought => token.offset..token.offset + buffer.len() as u64,
        Buffer::Text => hex::read(buffer).ok()?.reach?,
        Buffer::Front | Buffer::Out | Buffer::In => 0..entry.length(),
    };
    let base = entry.field(Field::Base);
    Some(base + reach.start..base + reach.end)
}

/// The entry whose segment a page-in fills.
fn donor(played: &Played) -> Option<Entry> {
    let number = Token::unpack(played.request.second).number;
    Entry::at(&played.before.table, usize::try_from(number).ok()?)
}

/// The map; of its rows only those that differ from the ones before, and how many stay at the front
/// and at the back.
pub fn map_fields(before: &[Row], map: &Map) -> Vec<(&'static str, Json)> {
    let front = common(before.iter(), map.rows.iter());
    let back = common(before[front..].iter().rev(), map.rows[front..].iter().rev());
    let changed = &map.rows[front..map.rows.len() - back];
    vec![
        ("head", Json::list(&map.head, |(what, words)| Json::text(format!("{what} {words}")))),
        ("front", Json::Number(front as u64)),
        ("rows", Json::list(changed, row_json)),
        ("back", Json::Number(back as u64)),
    ]
}

/// How many are the same, from the first on.
fn common<'a>(one: impl Iterator<Item = &'a Row>, other: impl Iterator<Item = &'a Row>) -> usize {
    one.zip(other).take_while(|(one, other)| one == other).count()
}

fn row_json(row: &Row) -> Json {
    let Row { kind, number, lead, title, reach, words, wrong, lock } = row;
    let text = |text: &String| Json::text(text.as_str());
    Json::Fields(vec![
        ("kind", Json::text(kind.words())),
        ("number", Json::some(*number, |number| Json::Number(number as u64))),
        ("lead", text(lead)),
        ("title", text(title)),
        ("reach", range_json(reach)),
        ("words", text(words)),
        ("wrong", Json::some(wrong.as_ref(), text)),
        ("lock", Json::some(lock.as_ref(), text)),
    ])
}

fn range_json(range: &Range<u64>) -> Json {
    Json::list([range.start, range.end], Json::Number)
}
