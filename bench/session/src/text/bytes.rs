//! Bytes as text: items of hex, or of HEX text as it is; `*COUNT` behind an item repeats it.

use super::cursor::Cursor;
use super::error::Error;

/// More than any slice of a session has.
pub const LIMIT: usize = 1 << 26;

/// The byte that fills a read's buffer where the text gives its length only.
pub const FILL: u8 = 0xA5;

/// Runs of one byte from this length on are written as a repeat.
const REPEAT: usize = 5;
/// So many bytes at most are one item.
const ITEM: usize = 16;
/// After so many characters a line ends.
const LINE: usize = 72;

/// One item: its bytes and how often they stand. More times than a number can tell are as many as it
/// can.
fn item(word: &str) -> Option<(Vec<u8>, usize)> {
    let (body, times) = split_repeat(word)?;
    unit(body).map(|bytes| (bytes, times))
}

/// What stands before `*COUNT`, and the count; 1 where there is none.
pub fn split_repeat(word: &str) -> Option<(&str, usize)> {
    match word.split_once('*') {
        Some((body, times)) => Some((body, repeats(times)?)),
        None => Some((word, 1)),
    }
}

/// The bytes of an item that is not repeated; at least one.
pub fn unit(body: &str) -> Option<Vec<u8>> {
    let bytes = hex_line(body).or_else(|| quoted(body)).or_else(|| pairs(body))?;
    (!bytes.is_empty()).then_some(bytes)
}

/// `:TEXT` is a line of HEX text: its letters and a line feed.
fn hex_line(body: &str) -> Option<Vec<u8>> {
    let line = body.starts_with(':') && body.bytes().all(is_letter);
    line.then(|| [body.as_bytes(), b"\n"].concat())
}

/// `"TEXT"` is its letters alone.
fn quoted(body: &str) -> Option<Vec<u8>> {
    let letters = body.strip_prefix('"')?.strip_suffix('"')?;
    letters.bytes().all(is_letter).then(|| letters.as_bytes().to_vec())
}

/// What a word of letters may have: what is seen, but for quotes and the marks of comments, repeats and
/// lines that go on.
fn is_letter(byte: u8) -> bool {
    byte.is_ascii_graphic() && !b"\"#*\\".contains(&byte)
}

fn pairs(hex: &str) -> Option<Vec<u8>> {
    hex.as_bytes().chunks(2).map(pair).collect()
}

fn repeats(times: &str) -> Option<usize> {
    let digits = !times.is_empty() && times.bytes().all(|letter| letter.is_ascii_digit());
    digits.then(|| times.parse().unwrap_or(usize::MAX))
}

fn pair(pair: &[u8]) -> Option<u8> {
    let digit = |at: usize| (*pair.get(at)? as char).to_digit(16);
    Some((digit(0)? * 16 + digit(1)?) as u8)
}

/// All items up to the first word that is none; at least one.
pub fn read(cursor: &mut Cursor) -> Result<Vec<u8>, Error> {
    let mut bytes = Vec::new();
    let mut found = false;
    while let Some((part, times)) = cursor.peek().and_then(item) {
        let length = part.len().checked_mul(times).and_then(|all| all.checked_add(bytes.len()));
        if length.is_none_or(|length| length > LIMIT) {
            return Err(cursor.error(&format!("at most {LIMIT} bytes in one place")));
        }
        bytes.extend(part.repeat(times));
        cursor.next("")?;
        found = true;
    }
    if found {
        Ok(bytes)
    } else {
        Err(cursor.error(
            "bytes: pairs of hex digits, ':RECORD' or '\"TEXT\"', '*COUNT' behind them to repeat them",
        ))
    }
}

/// How many bytes at the front are the same.
fn run(bytes: &[u8]) -> usize {
    let first = bytes.first();
    bytes.iter().take_while(|byte| Some(*byte) == first).count()
}

/// How many bytes at the front stand before the next long run, one item at most.
fn plain(bytes: &[u8]) -> usize {
    let end = bytes.len().min(ITEM);
    (1..end).find(|at| run(&bytes[*at..bytes.len().min(at + REPEAT)]) == REPEAT).unwrap_or(end)
}

/// An item and how many bytes it stands for.
pub type Item = (String, usize);

/// The items of some bytes, one after the other. No bytes have one item too.
fn items(bytes: &[u8], first: impl Fn(&[u8]) -> Item) -> Vec<Item> {
    if bytes.is_empty() {
        return vec![("00*0".to_string(), 0)];
    }
    let mut items = Vec::new();
    let mut rest = bytes;
    while !rest.is_empty() {
        let (text, length) = first(rest);
        items.push((text, length));
        rest = &rest[length..];
    }
    items
}

/// The items of some bytes as hex digits.
pub fn hex_items(bytes: &[u8]) -> Vec<Item> {
    items(bytes, hex_item)
}

/// Hex digits: a long run of one byte, or what stands before the next.
fn hex_item(bytes: &[u8]) -> Item {
    let same = run(bytes);
    if same >= REPEAT {
        return (format!("{:02x}*{same}", bytes[0]), same);
    }
    let length = plain(bytes);
    (bytes[..length].iter().map(|byte| format!("{byte:02x}")).collect(), length)
}

/// The longest record has so many letters, and so many letters are one quoted item at most.
const RECORD: usize = 11 + 2 * 255;
const QUOTED: usize = 64;
/// Fewer letters than this stand as hex digits, and so do more of the same.
const LETTERS: usize = 4;
const SAME: usize = 32;

/// A line of HEX text, letters, or hex digits up to the next of these.
fn text_item(bytes: &[u8]) -> Item {
    if run(bytes) >= SAME {
        return hex_item(bytes);
    }
    if let Some(item) = letters_item(bytes) {
        return item;
    }
    let (text, length) = hex_item(bytes);
    let next = (1..length).find(|at| letters_item(&bytes[*at..]).is_some());
    next.map_or((text, length), |next| hex_item(&bytes[..next]))
}

/// The letters at the front, as a line of HEX text if they are one, else up to the next colon.
fn letters_item(bytes: &[u8]) -> Option<Item> {
    let letters = bytes.iter().take(RECORD).take_while(|byte| is_letter(**byte)).count();
    let text = |length: usize| String::from_utf8_lossy(&bytes[..length]).into_owned();
    if bytes.starts_with(b":") && bytes.get(letters) == Some(&b'\n') {
        let line = letters + 1;
        let times = bytes.chunks(line).take_while(|other| *other == &bytes[..line]).count();
        let repeat = if times > 1 { format!("*{times}") } else { String::new() };
        return Some((text(letters) + &repeat, times * line));
    }
    let colon = bytes[..letters].iter().skip(1).position(|byte| *byte == b':');
    let length = colon.map_or(letters, |before| before + 1).min(QUOTED);
    (length >= LETTERS).then(|| (format!("\"{}\"", text(length)), length))
}

/// Items as lines, each with how many bytes stand before it.
fn joined(items: Vec<Item>) -> Vec<(usize, String)> {
    let mut lines: Vec<(usize, String)> = Vec::new();
    let mut at = 0;
    for (text, length) in items {
        match lines.last_mut() {
            Some((_, line)) if line.len() + text.len() < LINE => {
                line.push(' ');
                line.push_str(&text);
            }
            _ => lines.push((at, text)),
        }
        at += length;
    }
    lines
}

/// Items as one argument.
pub fn joined_text(items: Vec<Item>) -> String {
    argument(joined(items))
}

/// Lines as one argument; long ones go on in further lines.
fn argument(lines: Vec<(usize, String)>) -> String {
    let lines: Vec<String> = lines.into_iter().map(|(_, line)| line).collect();
    lines.join(" \\\n    ")
}

/// Bytes as lines of items, each with how many bytes stand before it.
pub fn lines(bytes: &[u8]) -> Vec<(usize, String)> {
    joined(hex_items(bytes))
}

/// Bytes as one argument.
pub fn text(bytes: &[u8]) -> String {
    argument(lines(bytes))
}

/// Bytes as one argument, letters as they are: for a buffer that holds HEX text.
pub fn hex_text(bytes: &[u8]) -> String {
    joined_text(items(bytes, text_item))
}
