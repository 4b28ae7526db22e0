//! The model behind the line protocol: an example of how a simulator is attached to the bench.
//!
//! It shares no code with the bench, so that it can be read and copied on its own. Lines come on
//! the standard input, and each is answered by one line on the standard output:
//!
//! ```text
//! northbridge 5                                   northbridge 5
//! world TABLE MEMORY KEY0 KEY1 LAST NEXT TOTAL    ok
//! table AT BYTES                                  ok
//! memory AT BYTES                                 ok
//! serve WORD0 .. WORD7 BUFFER LEASES              answer REFUSAL PLACE FIRST SECOND DROPPED LENGTH
//!                                                        KEY0 KEY1 LAST NEXT TOTAL BUFFER
//! show-table AT LENGTH                            bytes BYTES
//! show-memory AT LENGTH                           bytes BYTES
//! anything else                                   error WHAT WAS EXPECTED
//! ```
//!
//! Numbers are hexadecimal without a prefix, bytes two digits each, and `-` stands for no bytes.

#![forbid(unsafe_code)]

use std::fmt::Write as _;
use std::io::{self, BufRead, Read, Write};

use model::{serve, Request, State};

/// What the requests work on.
#[derive(Default)]
struct World {
    state: State,
    table: Vec<u8>,
    memory: Vec<u8>,
}

/// No line of the bench has more characters: 70,656 bytes, two digits each, and words before them.
const LINE: u64 = 141_568;

/// No table or memory of the bench has more bytes.
const WORLD: u64 = 1 << 28;

fn main() -> io::Result<()> {
    let mut world = World::default();
    let (mut input, mut output) = (io::stdin().lock(), io::stdout().lock());
    let mut line = String::new();
    // What is longer is read in parts, and each of them answered by an error.
    while input.by_ref().take(LINE + 1).read_line(&mut line)? > 0 {
        let answer = answer(&mut world, &line).unwrap_or_else(|why| format!("error {why}"));
        writeln!(output, "{answer}")?;
        // The bench waits for each answer.
        output.flush()?;
        line.clear();
    }
    Ok(())
}

fn answer(world: &mut World, line: &str) -> Result<String, String> {
    let words: Vec<&str> = line.split_whitespace().collect();
    match words[..] {
        ["northbridge", "5"] => Ok("northbridge 5".to_string()),
        ["northbridge", ..] => Err("expected version 5".to_string()),
        ["world", ref rest @ ..] => begin(world, rest),
        ["table", at, text] => put(&mut world.table, at, text),
        ["memory", at, text] => put(&mut world.memory, at, text),
        ["serve", ref rest @ .., buffer, leases] => ask(world, rest, buffer, leases),
        ["show-table", at, length] => show(&world.table, at, length),
        ["show-memory", at, length] => show(&world.memory, at, length),
        _ => Err("expected northbridge 5, world, table, memory, serve or show".to_string()),
    }
}

/// A table and a memory of zeros, and a state.
fn begin(world: &mut World, words: &[&str]) -> Result<String, String> {
    let [table, memory, key0, key1, last, next, total] = numbers(words)?;
    if table.max(memory) > WORLD {
        return Err(format!("expected a table and a memory of at most {WORLD:x} bytes"));
    }
    let state = State { key0, key1, last, next, total };
    *world = World { state, table: vec![0; table as usize], memory: vec![0; memory as usize] };
    Ok("ok".to_string())
}

fn put(place: &mut [u8], at: &str, text: &str) -> Result<String, String> {
    let (at, new) = (number(at)? as usize, bytes(text)?);
    let end = at.checked_add(new.len());
    let part = end.and_then(|end| place.get_mut(at..end)).ok_or("expected a place inside")?;
    part.copy_from_slice(&new);
    Ok("ok".to_string())
}

fn ask(world: &mut World, words: &[&str], buffer: &str, leases: &str) -> Result<String, String> {
    let [operation, token, second, task, length, user, permissions, encoding] = numbers(words)?;
    let request = Request { operation, token, second, task, length, user, permissions, encoding };
    let (mut buffer, leases) = (bytes(buffer)?, bytes(leases)?);
    let World { state, table, memory } = world;
    let answer = serve(request, state, table, memory, &mut buffer, &leases);
    let model::Answer { refusal, place, first, second, dropped, length } = answer;
    let State { key0, key1, last, next, total } = *state;
    let mut line = "answer".to_string();
    for word in [refusal, place, first, second, dropped, length, key0, key1, last, next, total] {
        let _ = write!(line, " {word:x}");
    }
    Ok(format!("{line} {}", text(&buffer)))
}

fn show(place: &[u8], at: &str, length: &str) -> Result<String, String> {
    let (at, length) = (number(at)? as usize, number(length)? as usize);
    let part = at.checked_add(length).and_then(|end| place.get(at..end));
    Ok(format!("bytes {}", text(part.ok_or("expected a place inside")?)))
}

fn number(word: &str) -> Result<u64, String> {
    u64::from_str_radix(word, 16).map_err(|_| format!("expected a hexadecimal number, not {word}"))
}

/// Exactly as many numbers as are wanted.
fn numbers<const N: usize>(words: &[&str]) -> Result<[u64; N], String> {
    let numbers: Result<Vec<u64>, String> = words.iter().map(|word| number(word)).collect();
    numbers?.try_into().map_err(|_| format!("expected {N} numbers"))
}

fn bytes(text: &str) -> Result<Vec<u8>, String> {
    if text == "-" {
        return Ok(Vec::new());
    }
    let pairs = text.as_bytes().chunks(2);
    let read = |pair: &[u8]| match *pair {
        [high, low] => Some(digit(high)? << 4 | digit(low)?),
        _ => None,
    };
    let all: Option<Vec<u8>> = pairs.map(read).collect();
    all.ok_or("expected bytes of two hexadecimal digits each".to_string())
}

fn digit(letter: u8) -> Option<u8> {
    (letter as char).to_digit(16).map(|digit| digit as u8)
}

fn text(bytes: &[u8]) -> String {
    const DIGITS: &[u8; 16] = b"0123456789abcdef";
    if bytes.is_empty() {
        return "-".to_string();
    }
    let digits = bytes.iter().flat_map(|byte| [byte >> 4, byte & 15]);
    digits.map(|digit| DIGITS[usize::from(digit)] as char).collect()
}
