//! A request's line.

use std::collections::HashSet;
use std::sync::LazyLock;

use super::arguments;
use super::bytes::{self, FILL, LIMIT};
use super::cursor::Cursor;
use super::error::Error;
use super::leases::Leases;
use super::lines::Line;
use super::named::Word;
use super::parse_expected::expected;
use super::script::Ask;
use super::words;
use crate::world::Step;
use bridge::{Argument, Operation, Words};

/// What is expected where a request begins.
static REQUEST: LazyLock<String> = LazyLock::new(|| {
    let names: String =
        Operation::ALL.iter().map(|operation| format!("'{}', ", operation.name())).collect();
    let names = names.trim_end_matches(", ");
    format!("a request: {names} or 'operation', or '=' with what must stand after one")
});

/// A request with what is expected of it.
pub fn request(
    cursor: &mut Cursor,
    line: &Line,
    exact: bool,
    names: &mut HashSet<String>,
) -> Result<Ask, Error> {
    let number = line.words.first().map_or(0, |word| word.line);
    let mut ask = operation(cursor, names)?;
    let lengthless = transfer(cursor, &mut ask)?;
    ask.line = number;
    ask.comments = line.comments();
    let given = named_arguments(cursor, names, &mut ask)?;
    if let Some(error) = lengthless.filter(|_| !given.contains("buffer")) {
        return Err(error);
    }
    if cursor.take("->") {
        let operation = Operation::of(ask.words.operation);
        ask.expected = Some(expected(cursor, operation, exact, names)?);
    } else if exact {
        return Err(cursor.error("'->' and the answer, as the session is exact"));
    }
    Ok(ask)
}

/// The operation and what stands behind it without a word of its own.
fn operation(cursor: &mut Cursor, names: &HashSet<String>) -> Result<Ask, Error> {
    let word = cursor.next(&REQUEST)?;
    let named = Operation::named(word);
    let number = match (named, word) {
        (Some(operation), _) => operation as u64,
        (None, "operation") => cursor.number("the operation's number")?,
        _ => return Err(cursor.error_before(&REQUEST)),
    };
    let words = Words { operation: number, ..Words::default() };
    let mut ask = Ask::of(&Step { request: words, buffer: Vec::new(), leases: Vec::new() });
    let Some(operation) = named else {
        return Ok(ask);
    };
    if operation.names_entry() {
        ask.token = token(cursor, names)?;
    }
    if operation.takes(Argument::SecondToken) {
        ask.second = token(cursor, names)?;
    }
    Ok(ask)
}

/// What an operation transfers: the bytes that it is brought, the length of what it fills. Where no
/// length stands, the error is handed back, for the case that no buffer is given either.
fn transfer(cursor: &mut Cursor, ask: &mut Ask) -> Result<Option<Error>, Error> {
    match Operation::of(ask.words.operation).map(Operation::buffer) {
        Some(buffer) if buffer.is_brought() => ask.buffer = bytes::read(cursor)?,
        Some(buffer) if buffer.is_written() => {
            let is_number = |word| words::number(word).is_some() || words::is_too_wide(word);
            if !cursor.peek().is_some_and(is_number) {
                return Ok(Some(cursor.error("the number of bytes, or 'buffer' and the bytes")));
            }
            let length = cursor.up_to(LIMIT as u64, "the number of bytes")?;
            ask.buffer = vec![FILL; length as usize];
        }
        _ => {}
    }
    Ok(None)
}

fn token(cursor: &mut Cursor, names: &HashSet<String>) -> Result<Word, Error> {
    cursor.value(arguments::TOKEN, |word| {
        words::token(word, 0).filter(|token| match token {
            Word::Name { name, .. } => names.contains(name),
            Word::Number(_) => true,
        })
    })
}

/// The words that are given by name, each once. Which they are is handed back.
fn named_arguments<'a>(
    cursor: &mut Cursor<'a>,
    names: &HashSet<String>,
    ask: &mut Ask,
) -> Result<HashSet<&'a str>, Error> {
    let mut given = HashSet::new();
    while let Some(word) = cursor.peek().filter(|word| *word != "->") {
        if !given.insert(word) {
            return Err(cursor.error(&format!("'{word}' once only")));
        }
        cursor.next("")?;
        argument(cursor, word, names, ask)?;
    }
    Ok(given)
}

fn argument(
    cursor: &mut Cursor,
    word: &str,
    names: &HashSet<String>,
    ask: &mut Ask,
) -> Result<(), Error> {
    let operation = Operation::of(ask.words.operation);
    match arguments::find(operation, word) {
        Some(argument) => value(cursor, argument, names, ask),
        None if word == "buffer" => {
            ask.buffer = bytes::read(cursor)?;
            Ok(())
        }
        None if word == "leases" => {
            ask.leases = Leases::read(cursor, |name| names.contains(name))?;
            Ok(())
        }
        None => {
            let words = arguments::words(operation);
            Err(cursor.error_before(&format!("{words}'buffer', 'leases' or '->'")))
        }
    }
}

/// What stands behind an argument's word.
fn value(
    cursor: &mut Cursor,
    argument: Argument,
    names: &HashSet<String>,
    ask: &mut Ask,
) -> Result<(), Error> {
    match argument {
        Argument::Address | Argument::Token => ask.token = token(cursor, names)?,
        Argument::SecondToken => ask.second = token(cursor, names)?,
        _ => {
            let places = argument.places().iter().zip(arguments::expected(argument));
            for (place, expected) in places {
                ask.put(*place, number(cursor, argument, expected)?);
            }
        }
    }
    Ok(())
}

fn number(cursor: &mut Cursor, argument: Argument, expected: &str) -> Result<u64, Error> {
    match argument {
        Argument::Permissions => cursor.value(expected, words::permissions),
        _ => cursor.number(expected),
    }
}
