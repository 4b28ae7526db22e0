//! Session files, read up to a bound.

use std::fs::File;
use std::io::{self, Read};

use crate::outcome::Failure;
use session::text::{parse, Script};

/// A session file has at most so many bytes.
pub const LONGEST: u64 = 1 << 26;

/// Reads a session file; an error tells the line, the column and what was expected. `-` is the
/// standard input.
pub fn read(file: &str) -> Result<Script, Failure> {
    let bytes = bytes_of(file, "a session file")?;
    let text = text(bytes).map_err(|why| Failure::Input(format!("{file}: {why}")))?;
    parse(&text).map_err(|error| Failure::Input(format!("{file}: {error}")))
}

/// The bytes of a file of some kind, or one more than it may have. `-` is the standard input.
pub fn bytes_of(file: &str, kind: &str) -> Result<Vec<u8>, Failure> {
    let bytes = match file {
        "-" => bytes(io::stdin().lock()),
        _ => File::open(file).and_then(bytes),
    };
    bytes.map_err(|error| Failure::Input(format!("expected {kind}, cannot read {file}: {error}")))
}

/// All bytes, or one more than a file may have.
fn bytes(from: impl Read) -> io::Result<Vec<u8>> {
    let mut bytes = Vec::new();
    from.take(LONGEST + 1).read_to_end(&mut bytes)?;
    Ok(bytes)
}

fn text(bytes: Vec<u8>) -> Result<String, String> {
    if bytes.len() as u64 > LONGEST {
        return Err(format!("expected a session file of at most {LONGEST} bytes, found more"));
    }
    if bytes.starts_with(&[0xFF, 0xFE]) || bytes.starts_with(&[0xFE, 0xFF]) {
        return Err("expected text in UTF-8, found a byte order mark of UTF-16".to_string());
    }
    String::from_utf8(bytes).map_err(|error| {
        let at = error.utf8_error().valid_up_to();
        format!("expected text in UTF-8, found other bytes behind the first {at}")
    })
}
