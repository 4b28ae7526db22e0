//! Text to script.

use std::collections::HashSet;

use super::bytes::LIMIT;
use super::cursor::Cursor;
use super::error::Error;
use super::lines::{self, Line};
use super::parse_request::request;
use super::parse_standing::{standing, whole_words};
use super::script::{EntryLine, Script, Sizes, Standing, Start};
use crate::entry;

/// How many bytes the lines of a session stand for at most: a short text can stand for many.
const TOGETHER: usize = 4 * LIMIT;

const HEAD: &str = "the first line: 'memory BYTES entries NUMBER'";

/// What some editors put before a text.
const BYTE_ORDER_MARK: char = '\u{feff}';

/// Reads a session's text.
pub fn parse(text: &str) -> Result<Script, Error> {
    if text.starts_with(BYTE_ORDER_MARK) {
        let found = "a byte order mark, which the editor must be told to leave out".to_string();
        return Err(Error { line: 1, column: 1, expected: HEAD.to_string(), found });
    }
    let lines = lines::lines(text)?;
    let (last, lines) = lines.split_last().expect("there is always a last line");
    let mut reader = Reader::default();
    for line in lines {
        reader.line(line)?;
    }
    let end = Cursor::new(last);
    if !last.words.is_empty() {
        return Err(end.error_at_end("a further line, as the last one ends in '\\'"));
    }
    let mut script = reader.script.ok_or_else(|| end.error(HEAD))?;
    script.below = last.comments().above;
    Ok(script)
}

#[derive(Default)]
struct Reader {
    script: Option<Script>,
    names: HashSet<String>,
    /// How many bytes the lines so far stand for.
    bytes: usize,
}

impl Reader {
    /// One line: the sizes first, then what stands at the start, then requests, each with lines
    /// that say what must stand after it.
    fn line(&mut self, line: &Line) -> Result<(), Error> {
        let mut cursor = Cursor::new(line);
        let Some(script) = &mut self.script else {
            self.script = Some(head(&mut cursor, line)?);
            return Ok(());
        };
        let sizes = script.sizes;
        let bytes = match script.asks.last_mut() {
            Some(ask) if cursor.take("=") => {
                let standing = standing(&mut cursor, sizes)?;
                let bytes = standing.bytes();
                ask.standing.push(standing);
                bytes
            }
            None if is_start(&cursor) => start(&mut cursor, line, script)?,
            _ => {
                let ask = request(&mut cursor, line, script.exact, &mut self.names)?;
                let bytes = ask.bytes();
                script.asks.push(ask);
                bytes
            }
        };
        self.bytes += bytes;
        if self.bytes > TOGETHER {
            let expected = format!("at most {TOGETHER} bytes in all lines together");
            return Err(cursor.error_at(0, &expected));
        }
        cursor.end("the line's end")
    }
}

/// `memory BYTES entries NUMBER`, or `memory BYTES table BYTES`.
fn head(cursor: &mut Cursor, line: &Line) -> Result<Script, Error> {
    if !cursor.take("memory") {
        return Err(cursor.error(HEAD));
    }
    let limit = LIMIT as u64;
    let memory = cursor.up_to(limit, "the memory's length in bytes")?;
    let table = match cursor.next("'entries' or 'table'")? {
        "entries" => entry::SIZE as u64 * cursor.up_to(limit / 32, "the number of entries")?,
        "table" => cursor.up_to(limit, "the table's length in bytes")?,
        _ => return Err(cursor.error_before("'entries' or 'table'")),
    };
    cursor.end("the line's end")?;
    Ok(Script {
        head: line.comments(),
        sizes: Sizes { table: table as usize, memory: memory as usize },
        start: Vec::new(),
        exact: false,
        asks: Vec::new(),
        below: Vec::new(),
    })
}

fn is_start(cursor: &Cursor) -> bool {
    matches!(cursor.peek(), Some("exact" | "state" | "entry" | "table" | "at"))
}

/// A line of the start; how many bytes it stands for.
fn start(cursor: &mut Cursor, line: &Line, script: &mut Script) -> Result<usize, Error> {
    if cursor.take("exact") {
        script.exact = true;
        return Ok(0);
    }
    let place = Cursor::new(line).error_at(2, &format!("{} or 'bytes'", whole_words()));
    let standing = standing(cursor, script.sizes)?;
    if let Standing::Entry { line: EntryLine::Fields(_), .. } = standing {
        return Err(place);
    }
    let bytes = standing.bytes();
    script.start.push(Start { comments: line.comments(), standing });
    Ok(bytes)
}
