//! HEX text, read by the tool: which line is bad and why, and where the data lies. These are notes of
//! the tool; the answer stays a number.

use std::ops::Range;

use bridge::Check;

/// The types of records that are taken.
const DATA: u8 = 0;
const END: u8 = 1;
const PAGE: u8 = 4;

/// How many bytes a page has.
const PAGE_BYTES: u64 = 1 << 16;

/// What a text holds.
#[derive(Clone, Debug, Default, PartialEq, Eq)]
pub struct Image {
    pub records: usize,
    /// How many bytes of data, those that lie on each other counted twice.
    pub bytes: usize,
    /// From the first byte of data to behind the last, if there is any.
    pub reach: Option<Range<u64>>,
}

/// The first line of a text that is bad, from 1 on, and the check that refuses it.
#[derive(Clone, Debug, PartialEq, Eq)]
pub struct Fault {
    pub check: Check,
    pub line: usize,
    pub why: String,
}

/// A record, read.
struct Record {
    kind: u8,
    at: u64,
    data: Vec<u8>,
}

/// What a text holds, or the first bad line in it.
pub fn read(text: &[u8]) -> Result<Image, Fault> {
    let (mut image, mut rest, mut page) = (Image::default(), text, 0);
    loop {
        let line = image.records + 1;
        let (record, behind) = first(rest).map_err(|(check, why)| Fault { check, line, why })?;
        image.records += 1;
        match record.kind {
            PAGE => page = record.data.iter().fold(0, |page, byte| page << 8 | u64::from(*byte)),
            DATA => image.add(page * PAGE_BYTES + record.at, record.data.len()),
            _ if behind.is_empty() => return Ok(image),
            _ => {
                let why = "text stands behind the end record".to_string();
                return Err(Fault { check: Check::Malformed, line: line + 1, why });
            }
        }
        rest = behind;
    }
}

impl Image {
    fn add(&mut self, start: u64, bytes: usize) {
        if bytes == 0 {
            return;
        }
        let end = start + bytes as u64;
        let reach = self.reach.clone().unwrap_or(start..end);
        self.bytes += bytes;
        self.reach = Some(reach.start.min(start)..reach.end.max(end));
    }
}

type Wrong = (Check, String);

fn malformed(why: impl Into<String>) -> Wrong {
    (Check::Malformed, why.into())
}

/// The record at a text's front, and what stands behind it.
fn first(text: &[u8]) -> Result<(Record, &[u8]), Wrong> {
    if text.is_empty() {
        return Err(malformed("the text ends without an end record, ':00000001FF'"));
    }
    let end = text.iter().position(|byte| *byte == b'\n');
    let line = &text[..end.unwrap_or(text.len())];
    if end.is_some() && line.ends_with(b"\r") {
        return Err(malformed(
            "it ends in CR LF, and must end in a line feed alone; \
             sed 's/\\r$//' or dos2unix converts the file",
        ));
    }
    let bytes = bytes(line)?;
    if end.is_none() {
        return Err(malformed("it does not end in a line feed"));
    }
    Ok((record(&bytes)?, &text[line.len() + 1..]))
}

/// The bytes that a line's digits stand for.
fn bytes(line: &[u8]) -> Result<Vec<u8>, Wrong> {
    let shown = |byte: u8| match byte.is_ascii_graphic() {
        true => format!("'{}'", char::from(byte)),
        false => format!("the byte {byte:02x}"),
    };
    let digits = match line {
        [b':', digits @ ..] => digits,
        [other, ..] => return Err(malformed(format!("it begins with {}, not ':'", shown(*other)))),
        [] => return Err(malformed("it is empty")),
    };
    if let Some(other) = digits.iter().find(|digit| !digit.is_ascii_hexdigit()) {
        return Err(malformed(format!("{} is no hex digit", shown(*other))));
    }
    if !digits.len().is_multiple_of(2) {
        return Err(malformed("it has an odd number of digits"));
    }
    let value = |digit: u8| char::from(digit).to_digit(16).unwrap_or(0) as u8;
    Ok(digits.chunks(2).map(|pair| value(pair[0]) << 4 | value(pair[1])).collect())
}

/// The record of a line's bytes: count, address, type, data and checksum.
fn record(bytes: &[u8]) -> Result<Record, Wrong> {
    let [count, high, low, kind, data @ .., checksum] = bytes else {
        return Err(malformed("it is too short for a record"));
    };
    if usize::from(*count) != data.len() {
        return Err(malformed(format!("it says {count} bytes of data, and has {}", data.len())));
    }
    let at = u64::from(*high) << 8 | u64::from(*low);
    form(*kind, at, data.len())?;
    let others = &bytes[..bytes.len() - 1];
    let right = others.iter().fold(0u8, |sum, byte| sum.wrapping_sub(*byte));
    if *checksum != right {
        let why = format!("its checksum is {checksum:02X}, and must be {right:02X}");
        return Err((Check::Checksum, why));
    }
    Ok(Record { kind: *kind, at, data: data.to_vec() })
}

/// What each type asks of address and data.
fn form(kind: u8, at: u64, bytes: usize) -> Result<(), Wrong> {
    let addressed = |what: &str| malformed(format!("{what} has the address {at:04X}, not 0000"));
    match kind {
        DATA if bytes > 0 && at + bytes as u64 > PAGE_BYTES => {
            Err(malformed(format!("its {bytes} bytes at {at:04X} run past the page's end")))
        }
        PAGE if bytes != 2 => Err(malformed(format!("a page's record has 2 bytes, not {bytes}"))),
        END if bytes != 0 => Err(malformed(format!("the end record has no data, not {bytes}"))),
        PAGE if at != 0 => Err(addressed("a page's record")),
        END if at != 0 => Err(addressed("the end record")),
        DATA | PAGE | END => Ok(()),
        other => {
            let name = match other {
                2 => " (segment address)",
                3 | 5 => " (start address)",
                _ => "",
            };
            Err(malformed(format!("type {other:02X}{name} is not taken, only 00, 01 and 04 are")))
        }
    }
}

#[cfg(test)]
mod tests {
    use super::*;

    fn why(text: &str) -> (Check, usize, String) {
        let Fault { check, line, why } = read(text.as_bytes()).expect_err(text);
        (check, line, why)
    }

    #[test]
    fn what_a_text_holds() {
        let text = ":0100020005F8\n:020000040001F9\n:0200100001FFEE\n:00FFFF0002\n:00000001FF\n";
        let image = read(text.as_bytes()).expect("right text");
        assert_eq!(image, Image { records: 5, bytes: 3, reach: Some(2..0x10012) });
        assert_eq!(read(b":00000001ff\n").expect("an end").reach, None);
    }

    #[test]
    fn what_is_wrong_is_told() {
        let holds = |text: &str, line: usize, part: &str| {
            let (check, at, why) = why(text);
            assert_eq!((check, at), (Check::Malformed, line), "{text:?}: {why}");
            assert!(why.contains(part), "{text:?}: {why}");
        };
        holds("", 1, "without an end record");
        holds(":00000001FF", 1, "does not end in a line feed");
        holds(":00000001FF\r\n", 1, "CR LF");
        holds(":00000001FF\n:00000001FF\n", 2, "behind the end record");
        holds(":0000000000\n", 2, "without an end record");
        holds(":0000000000\n\n", 2, "empty");
        holds("00000001FF\n", 1, "begins with '0'");
        holds(":0000000 1FF\n", 1, "the byte 20");
        holds(":0000000g1FF\n", 1, "'g'");
        holds(":00000001F\n", 1, "odd");
        holds(":0001\n", 1, "too short");
        holds(":01000000FF\n", 1, "says 1 bytes of data, and has 0");
        holds(":00000002FE\n", 1, "type 02 (segment address)");
        holds(":0400000500000000F7\n", 1, "type 05 (start address)");
        holds(":02FFFF00000000\n", 1, "run past");
        holds(":00000101FE\n", 1, "0001");
        holds(":0100000100FE\n", 1, "no data");
        holds(":00000004FC\n", 1, "2 bytes, not 0");
        holds(":020001040000F9\n", 1, "0001");
    }

    #[test]
    fn a_checksum_is_told_with_the_right_one() {
        let (check, line, why) = why(":0000000000\n:00000001FE\n");
        assert_eq!((check, line), (Check::Checksum, 2));
        assert_eq!(why, "its checksum is FE, and must be FF");
    }
}
