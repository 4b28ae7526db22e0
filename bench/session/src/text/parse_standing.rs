//! Lines on what stands: the state, entries, bytes of the table and of memory.

use super::bytes;
use super::cursor::Cursor;
use super::error::Error;
use super::named::Word;
use super::script::{EntryLine, Sizes, Standing};
use super::state::{Part, StatedState, STATE};
use super::words;
use crate::entry::{self, Bits, Entry, Field, Type};
use crate::token::PARENT_ENCODING;

/// `state`, `entry`, `table` or `at`, with what it states.
pub fn standing(cursor: &mut Cursor, sizes: Sizes) -> Result<Standing, Error> {
    let expected = "'state', 'entry', 'table' or 'at'";
    match cursor.next(expected)? {
        "state" => state(cursor),
        "entry" => entry_line(cursor, sizes),
        "table" => {
            let (at, bytes) = placed(cursor, sizes.table, "the table")?;
            Ok(Standing::Table { at, bytes })
        }
        "at" => {
            let (at, bytes) = placed(cursor, sizes.memory, "memory")?;
            Ok(Standing::Memory { at, bytes })
        }
        _ => Err(cursor.error_before(expected)),
    }
}

/// A place and the bytes that stand there, inside a slice of that length.
fn placed(cursor: &mut Cursor, length: usize, what: &str) -> Result<(usize, Vec<u8>), Error> {
    let at = cursor.up_to(length as u64, &format!("a place in {what}"))? as usize;
    let place = cursor.error(&format!("bytes that end inside {what}, which has {length}"));
    let bytes = bytes::read(cursor)?;
    if bytes.len() > length - at {
        return Err(place);
    }
    Ok((at, bytes))
}

/// `state` with any of its parts, such as `last NUMBER`.
fn state(cursor: &mut Cursor) -> Result<Standing, Error> {
    let mut state = StatedState::default();
    while let Some(word) = cursor.peek() {
        cursor.next("")?;
        let new = |part: &&Part| part.word == word && state.get(part).is_none();
        let Some(part) = STATE.iter().find(new) else {
            return Err(cursor.error_before(&format!("{}, each once", parts_text())));
        };
        let words = part.expected.iter().map(|expected| cursor.number(expected));
        let words = words.collect::<Result<Vec<u64>, Error>>()?;
        state.set(part, words);
    }
    Ok(Standing::State(state))
}

/// The words of the state's parts, each in quotes.
fn parts_text() -> String {
    let words: Vec<String> = STATE.iter().map(|part| format!("'{}'", part.word)).collect();
    match words.split_last() {
        Some((last, words)) => format!("{} or {last}", words.join(", ")),
        None => String::new(),
    }
}

/// `entry NUMBER` with `free`, `free tag TAG`, `bytes BYTES`, `direct FIELDS`, `indirect FIELDS`,
/// `paged FIELDS` or fields alone.
fn entry_line(cursor: &mut Cursor, sizes: Sizes) -> Result<Standing, Error> {
    let entries = sizes.table / entry::SIZE;
    let Some(last) = entries.checked_sub(1) else {
        return Err(cursor.error("no entry, as the table has none"));
    };
    let number = cursor.up_to(last as u64, "an entry's number")? as usize;
    let line = match cursor.peek() {
        Some("free") => whole_free(cursor)?,
        Some("bytes") => whole_bytes(cursor)?,
        Some(word) => match Type::named(word) {
            Some(own) => whole_fields(cursor, own)?,
            None => some_fields(cursor)?,
        },
        None => {
            let expected = format!("{}, 'bytes' or fields to state", whole_words());
            return Err(cursor.error(&expected));
        }
    };
    Ok(Standing::Entry { number, line })
}

/// The words that tell a type, each in quotes.
pub fn whole_words() -> String {
    let types = entry::TYPES.iter().map(|own| format!(", '{}'", own.name));
    "'free'".to_string() + &types.collect::<String>()
}

/// Zeros, but for the tag that the entry keeps.
fn whole_free(cursor: &mut Cursor) -> Result<EntryLine, Error> {
    cursor.next("'free'")?;
    let kept = fields(cursor, |field| (field == Field::Tag).then_some(entry::TAG))?;
    let tag = kept.first().map_or(0, |(_, tag)| *tag);
    Ok(EntryLine::Whole(Entry::free(tag)))
}

fn whole_bytes(cursor: &mut Cursor) -> Result<EntryLine, Error> {
    cursor.next("'bytes'")?;
    let place = cursor.error("32 bytes");
    let bytes = bytes::read(cursor)?;
    bytes.try_into().map(|bytes| EntryLine::Whole(Entry(bytes))).map_err(|_| place)
}

/// Fields that are not given are zero.
fn whole_fields(cursor: &mut Cursor, own: &Type) -> Result<EntryLine, Error> {
    cursor.next("the type")?;
    let fields = fields(cursor, |field| own.place(field))?;
    let zeros = Entry::of_kind(own.kind);
    let set = |entry: Entry, (field, value)| entry.with_field(field, value);
    Ok(EntryLine::Whole(fields.into_iter().fold(zeros, set)))
}

/// Fields of an entry whose type is not stated: any type may have them.
fn some_fields(cursor: &mut Cursor) -> Result<EntryLine, Error> {
    let place = |field| entry::TYPES.iter().find_map(|own| own.place(field));
    fields(cursor, place).map(EntryLine::Fields)
}

/// All fields up to the line's end, each once, as wide as the places that are handed over.
fn fields(
    cursor: &mut Cursor,
    place: impl Fn(Field) -> Option<Bits>,
) -> Result<Vec<(Field, u64)>, Error> {
    let mut fields: Vec<(Field, u64)> = Vec::new();
    while cursor.peek().is_some() {
        let known =
            |word: &str| words::field_of(word).and_then(|field| Some((field, place(field)?)));
        let new = |(field, _): &(Field, Bits)| fields.iter().all(|(other, _)| other != field);
        let expected = "a field of the entry's type, each once";
        let (field, bits) = cursor.value(expected, |word| known(word).filter(new))?;
        fields.push((field, field_value(cursor, field, bits.width())?));
    }
    Ok(fields)
}

fn field_value(cursor: &mut Cursor, field: Field, width: usize) -> Result<u64, Error> {
    let limit = u64::MAX >> (64 - width);
    match field {
        Field::Permissions => cursor.value("permissions: letters of RWX, '-' or 0 to 7", |word| {
            words::permissions(word).filter(|permissions| *permissions <= limit)
        }),
        Field::Parent => parent(cursor),
        // A flag that stands alone is set.
        Field::Locked | Field::Lockable | Field::Cow => {
            let stated = cursor.peek().and_then(words::number).is_some();
            if stated {
                cursor.up_to(limit, "a flag")
            } else {
                Ok(1)
            }
        }
        _ => cursor.up_to(limit, "the field's value"),
    }
}

/// A parent is a token in encoding 1 if none is written.
fn parent(cursor: &mut Cursor) -> Result<u64, Error> {
    let expected = "the parent's token: 'root', '@NUMBER:TAG' or a number";
    cursor.value(expected, |word| match words::token(word, PARENT_ENCODING) {
        Some(Word::Number(number)) => Some(number),
        _ => None,
    })
}
