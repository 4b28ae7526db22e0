//! Intel HEX, "record types 00, 01 and 04".
//!
//! A record is a colon, pairs of digits and a line feed. The pairs are bytes:
//! the count of data bytes, the address (two, the upper first), the type, the
//! data, and a checksum that brings the sum of all of them to zero.

use crate::refusal::{need, Refusal};

/// "at most 65,536 bytes of text"
pub const TEXT_LIMIT: usize = 65_536;

/// "its 64 KiB page"
const PAGE_LENGTH: usize = 65_536;

/// "16 data bytes a record except the last"
const DATA_BYTES: usize = 16;

const DATA: u8 = 0;
const END: u8 = 1;
const PAGE: u8 = 4;

/// The two digits of a byte.
pub type Pair = [u8; 2];

enum Record<'a> {
    Data {
        address: u16,
        data: &'a [Pair],
    },
    End,
    /// The upper 16 bits of the offsets of the data that follows.
    Page(u16),
}

const CAPITALS: &[u8; 16] = b"0123456789ABCDEF";

/// The value of each digit, "of either case"; of any other character, 255.
const VALUES: [u8; 256] = {
    let mut values = [255; 256];
    let mut value = 0;
    while value < 16 {
        let digit = CAPITALS[value];
        values[digit as usize] = value as u8;
        values[digit.to_ascii_lowercase() as usize] = value as u8;
        value += 1;
    }
    values
};

#[inline]
fn values(pair: Pair) -> [u8; 2] {
    pair.map(|digit| VALUES[usize::from(digit)])
}

/// The byte of two digits.
#[inline]
fn byte(pair: Pair) -> u8 {
    let [high, low] = values(pair);
    high << 4 | low
}

#[inline]
fn word(high: Pair, low: Pair) -> u16 {
    u16::from_be_bytes([byte(high), byte(low)])
}

/// The sum of the bytes, if all characters are digits.
#[inline]
fn sum(pairs: &[Pair]) -> Option<u8> {
    let (mut sum, mut seen) = (0u8, 0);
    for &pair in pairs {
        let [high, low] = values(pair);
        seen |= high | low;
        sum = sum.wrapping_add(high << 4 | low);
    }
    (seen < 16).then_some(sum)
}

/// Colon, count, address, type, data, checksum and line feed.
#[inline]
fn record_length(data: usize) -> usize {
    12 + 2 * data
}

/// The pairs of the first record, and the text behind its line feed.
#[inline]
fn split(text: &[u8]) -> Option<(&[Pair], &[u8])> {
    let [b':', high, low, ..] = *text else {
        return None;
    };
    let count = usize::from(byte([high, low]));
    let (record, rest) = text.split_at_checked(record_length(count))?;
    let [_, digits @ .., b'\n'] = record else {
        return None;
    };
    Some((digits.as_chunks().0, rest))
}

/// The record of these pairs, if its type, count and address go together.
#[inline]
fn fields(pairs: &[Pair]) -> Option<Record<'_>> {
    let [_, high, low, kind, data @ .., _] = pairs else {
        return None;
    };
    let address = word(*high, *low);
    match (byte(*kind), data) {
        // "A data record may not run past its 64 KiB page."
        (DATA, _) if usize::from(address) + data.len() <= PAGE_LENGTH => {
            Some(Record::Data { address, data })
        }
        // "types 01 and 04 carry address 0000"
        (END, []) if address == 0 => Some(Record::End),
        (PAGE, [high, low]) if address == 0 => Some(Record::Page(word(*high, *low))),
        _ => None,
    }
}

/// The first record and the text behind it: "12 before 13 in one record".
#[inline]
fn first(text: &[u8]) -> Result<(Record<'_>, &[u8]), Refusal> {
    let (pairs, rest) = split(text).ok_or(Refusal::Malformed)?;
    let sum = sum(pairs).ok_or(Refusal::Malformed)?;
    let record = fields(pairs).ok_or(Refusal::Malformed)?;
    need(sum == 0, Refusal::Checksum)?;
    Ok((record, rest))
}

/// Reads a text, "the earlier record first", and shows the digits of each data
/// record with the offset of its first byte.
#[inline]
pub fn read(text: &[u8], mut show: impl FnMut(u64, &[Pair])) -> Result<(), Refusal> {
    // "the page starts at 0"
    let mut page = 0;
    let mut text = text;
    loop {
        let (record, rest) = first(text)?;
        match record {
            Record::Data { address, data } => show(page + u64::from(address), data),
            Record::Page(upper) => page = u64::from(upper) << 16,
            // "no end record, or text after it, counts as the next record"
            Record::End => return need(rest.is_empty(), Refusal::Malformed),
        }
        text = rest;
    }
}

/// Writes the bytes of these digits to the front of a place.
#[inline]
pub fn decode(pairs: &[Pair], place: &mut [u8]) {
    for (byte_there, &pair) in place.iter_mut().zip(pairs) {
        *byte_there = byte(pair);
    }
}

/// The length of the text for so many bytes.
pub fn text_length(bytes: usize) -> usize {
    let whole = bytes / DATA_BYTES * record_length(DATA_BYTES);
    let last = match bytes % DATA_BYTES {
        0 => 0,
        left => record_length(left),
    };
    record_length(2) + whole + last + record_length(0)
}

/// Writes the text for these bytes: "one type 04 before the first data". The
/// text has the length told above, and the bytes lie in one page.
pub fn write(bytes: &[u8], text: &mut [u8]) {
    let mut rest = put(text, PAGE, 0, &[0, 0]);
    for (at, data) in bytes.chunks(DATA_BYTES).enumerate() {
        rest = put(rest, DATA, (DATA_BYTES * at) as u16, data);
    }
    put(rest, END, 0, &[]);
}

/// Writes a record to the front of a text and hands back the rest.
#[inline]
fn put<'a>(text: &'a mut [u8], kind: u8, address: u16, data: &[u8]) -> &'a mut [u8] {
    let (record, rest) = text.split_at_mut(record_length(data.len()));
    let [high, low] = address.to_be_bytes();
    let head = [data.len() as u8, high, low, kind];
    let bytes = head.iter().chain(data).copied();
    let checksum = bytes.clone().fold(0, u8::wrapping_sub);
    if let [colon, digits @ .., line_feed] = record {
        (*colon, *line_feed) = (b':', b'\n');
        for (pair, byte) in digits.as_chunks_mut().0.iter_mut().zip(bytes.chain([checksum])) {
            *pair = encode(byte);
        }
    }
    rest
}

/// "capital digits"
#[inline]
fn encode(byte: u8) -> Pair {
    [byte >> 4, byte & 15].map(|value| CAPITALS[usize::from(value)])
}
