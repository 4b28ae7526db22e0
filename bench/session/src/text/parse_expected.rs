//! The answer that is expected, behind `->`.

use std::collections::HashSet;

use super::bytes;
use super::cursor::Cursor;
use super::error::Error;
use super::named::Word;
use super::script::Expected;
use super::words;
use bridge::Operation;

const TWICE: &str = "each token once, by 'first', 'second' or 'as'";

/// What stands behind `->`.
pub fn expected(
    cursor: &mut Cursor,
    operation: Option<Operation>,
    exact: bool,
    names: &mut HashSet<String>,
) -> Result<Expected, Error> {
    let tokens = operation.map_or(0, |operation| operation.tokens().len());
    let mut expected = Expected { refusal: refusal(cursor)?, ..Expected::default() };
    expected.place = place(cursor);
    let mut given = HashSet::new();
    while let Some(word) = cursor.peek() {
        if !given.insert(word) {
            return Err(cursor.error(&format!("'{word}' once only")));
        }
        cursor.next("")?;
        if word == "as" {
            named(cursor, tokens, exact, names, &mut expected)?;
        } else {
            result(cursor, word, &mut expected)?;
        }
    }
    Ok(expected)
}

fn refusal(cursor: &mut Cursor) -> Result<u64, Error> {
    if cursor.take("granted") {
        return Ok(0);
    }
    cursor.number("a refusal's number, or 'granted'")
}

fn place(cursor: &mut Cursor) -> Option<u64> {
    let place = words::place_of(cursor.peek()?)?;
    cursor.next("").ok().map(|_| place as u64)
}

/// The names behind `as`, for as many tokens as the request gives.
fn named(
    cursor: &mut Cursor,
    tokens: usize,
    exact: bool,
    names: &mut HashSet<String>,
    expected: &mut Expected,
) -> Result<(), Error> {
    if expected.refusal != 0 {
        return Err(cursor.error_before("no name, as a refusal gives no token"));
    }
    if tokens == 0 {
        return Err(cursor.error_before("no name, as this request gives no token"));
    }
    expected.names[0] = new_name(cursor, exact, names, &mut expected.first)?;
    if cursor.peek().is_none_or(is_result) {
        return Ok(());
    }
    if tokens < 2 {
        return Err(cursor.error("one name, as this request gives one token"));
    }
    expected.names[1] = new_name(cursor, exact, names, &mut expected.second)?;
    Ok(())
}

fn result(cursor: &mut Cursor, word: &str, expected: &mut Expected) -> Result<(), Error> {
    match word {
        "first" if expected.first.is_none() => expected.first = Some(literal(cursor)?),
        "second" if expected.second.is_none() => expected.second = Some(literal(cursor)?),
        "first" | "second" => return Err(cursor.error_before(TWICE)),
        "number" => expected.number = Some(cursor.number("drop's number")?),
        "length" => expected.length = Some(cursor.number("the length of a dump's text")?),
        "buffer" => expected.buffer = Some(bytes::read(cursor)?),
        _ => {
            let places =
                "'as', 'first', 'second', 'number', 'length' or 'buffer', or at the front \
                 'named' or 'ancestor'";
            return Err(cursor.error_before(places));
        }
    }
    Ok(())
}

fn is_result(word: &str) -> bool {
    matches!(word, "first" | "second" | "number" | "length" | "buffer" | "as")
}

/// A token that is no name.
fn literal(cursor: &mut Cursor) -> Result<u64, Error> {
    let expected = "a token: 'root', '@NUMBER:TAG' or a number";
    cursor.value(expected, |word| match words::token(word, 0) {
        Some(Word::Number(number)) => Some(number),
        _ => None,
    })
}

/// `NAME` or `NAME=TOKEN`, which states the token too; `-` names nothing.
fn new_name(
    cursor: &mut Cursor,
    exact: bool,
    names: &mut HashSet<String>,
    stated: &mut Option<u64>,
) -> Result<Option<String>, Error> {
    if cursor.take("-") {
        return Ok(None);
    }
    let expected = match exact {
        true => "a new name, no word of a request, with '=' and its token, as all is exact here",
        false => "a new name, no word of a request, with '=' and its token behind if it is fixed",
    };
    let (name, token) = cursor.value(expected, |word| named_token(word, exact))?;
    if token.is_some() && stated.is_some() {
        return Err(cursor.error_before(TWICE));
    }
    if !names.insert(name.clone()) {
        return Err(cursor.error_before("a name that was not given before"));
    }
    *stated = token.or(*stated);
    Ok(Some(name))
}

fn named_token(word: &str, exact: bool) -> Option<(String, Option<u64>)> {
    let (name, token) = match word.split_once('=') {
        Some((name, token)) => match words::token(token, 0)? {
            Word::Number(token) => (name, Some(token)),
            Word::Name { .. } => return None,
        },
        None => (word, None),
    };
    let stated = token.is_some() || !exact;
    (words::is_name(name) && stated).then(|| (name.to_string(), token))
}
