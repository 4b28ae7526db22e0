//! HEX text for loads: right, and with mistakes of every kind.

use crate::dice::Dice;

/// The types of records.
const DATA: u8 = 0;
const END: u8 = 1;
const PAGE: u8 = 4;

/// A record with its checksum and its line feed.
pub fn record(kind: u8, at: u16, data: &[u8]) -> Vec<u8> {
    counted(data.len() as u8, kind, at, data)
}

/// The same with another count than its own.
fn counted(count: u8, kind: u8, at: u16, data: &[u8]) -> Vec<u8> {
    let [high, low] = at.to_be_bytes();
    let mut bytes = vec![count, high, low, kind];
    bytes.extend(data);
    let sum = bytes.iter().fold(0u8, |sum, byte| sum.wrapping_add(*byte));
    bytes.push(sum.wrapping_neg());
    let digits: String = bytes.iter().map(|byte| format!("{byte:02X}")).collect();
    format!(":{digits}\n").into_bytes()
}

pub fn data(at: u16, bytes: &[u8]) -> Vec<u8> {
    record(DATA, at, bytes)
}

/// The record that begins a page.
pub fn page(number: u16) -> Vec<u8> {
    record(PAGE, 0, &number.to_be_bytes())
}

pub fn end() -> Vec<u8> {
    record(END, 0, &[])
}

/// Text for a segment of so many bytes, mostly right and inside it.
pub fn text(dice: &mut Dice, whole: u64) -> Vec<u8> {
    let mut lines = lines(dice, whole);
    if dice.once_in(4) {
        lines.iter_mut().for_each(|line| small_digits(dice, line));
    }
    let mistakes = dice.one_of(&[0, 0, 0, 0, 0, 1, 1, 2]);
    (0..mistakes).for_each(|_| mistake(dice, &mut lines));
    let mut text = lines.concat();
    if dice.once_in(32) {
        text.truncate(dice.index(text.len().max(1)));
    }
    text
}

fn lines(dice: &mut Dice, whole: u64) -> Vec<Vec<u8>> {
    let mut lines = Vec::new();
    let mut number = 0;
    for _ in 0..dice.below(5) {
        if dice.once_in(3) {
            number = some_page(dice, whole);
            lines.push(page(number));
        }
        lines.push(some_data(dice, whole, number));
    }
    lines.push(end());
    lines
}

/// A page: one that the segment has, or the one behind, or any.
fn some_page(dice: &mut Dice, whole: u64) -> u16 {
    match dice.below(12) {
        0 => dice.word() as u16,
        1 => 0xffff,
        2 => (whole >> 16) as u16 + 1,
        _ => dice.between(0, whole >> 16) as u16,
    }
}

/// A data record inside what the segment has of a page, up to its end, or past it.
fn some_data(dice: &mut Dice, whole: u64, page: u16) -> Vec<u8> {
    let room = whole.saturating_sub(u64::from(page) << 16).min(1 << 16);
    let any = dice.below(256);
    let wanted = dice.one_of(&[0, 1, 1, 2, 3, 8, 15, 16, 17, 32, 255, room, any, any]);
    let length = wanted.min(255).min(room + u64::from(dice.once_in(16)));
    let last = room.saturating_sub(length);
    let at = match dice.below(24) {
        0 => last + 1,
        1 => dice.one_of(&[0xffff, 0xfff0, 1 << 15]),
        2..=6 => last,
        _ => dice.between(0, last),
    };
    data(at.min(0xffff) as u16, &dice.bytes(length as usize))
}

fn small_digits(dice: &mut Dice, line: &mut [u8]) {
    let all = dice.once_in(2);
    for letter in line.iter_mut().filter(|_| all || dice.once_in(2)) {
        letter.make_ascii_lowercase();
    }
}

/// Where a letter of a line stands, but for its line feed.
fn some_letter(dice: &mut Dice, line: &[u8]) -> usize {
    dice.index(line.len().saturating_sub(1).max(1))
}

/// One mistake in a text, or something that only looks like one.
fn mistake(dice: &mut Dice, lines: &mut Vec<Vec<u8>>) {
    if lines.is_empty() {
        return lines.push(b"\n".to_vec());
    }
    let at = dice.index(lines.len());
    match dice.below(8) {
        0 => drop(lines.remove(at)),
        1 => lines.insert(at, lines[at].clone()),
        2 => {
            let other = dice.index(lines.len());
            lines.swap(at, other);
        }
        3 => lines.insert(at, dice.one_of(&[&b"\n"[..], b" ", b"\r\n", b":\n", b"#\n"]).to_vec()),
        4 | 5 => {
            let last = at + 1 == lines.len();
            lines[at] = if last && dice.once_in(2) { wrong_end(dice) } else { wrong_record(dice) };
            if dice.once_in(3) {
                other_checksum(dice, &mut lines[at]);
            }
        }
        _ => wrong_letters(dice, &mut lines[at]),
    }
}

/// An end record with an address or data, with its right checksum.
fn wrong_end(dice: &mut Dice) -> Vec<u8> {
    match dice.below(3) {
        0 => record(END, 0, &dice.bytes(1)),
        _ => record(END, dice.one_of(&[1, 0x100, 0xffff]), &[]),
    }
}

/// A record that is wrong in one of its fields, with its right checksum.
fn wrong_record(dice: &mut Dice) -> Vec<u8> {
    let some = dice.bytes(255);
    match dice.below(12) {
        0 | 1 => record(dice.one_of(&[2, 3, 5, 6, 0x10, 0x40, 0x81, 0xff]), 0, &some[..2]),
        2 => wrong_end(dice),
        3 => record(PAGE, dice.one_of(&[1, 0x100, 0xffff]), &[0, 0]),
        4 => record(PAGE, 0, &some[..dice.one_of(&[0, 1, 3])]),
        5 => counted(dice.one_of(&[0, 2, 255]), DATA, 0, &some[..1]),
        6 => data(0xffff, &some[..2]),
        7 => data(dice.one_of(&[0xff01, 0xff02]), &some),
        8 => data(0xfff0, &some[..dice.one_of(&[16, 17])]),
        9 => data(0xffff, &[]),
        10 => data(0xffff, &some[..1]),
        _ => data(dice.word() as u16, &[]),
    }
}

/// The last digit becomes some other.
fn other_checksum(dice: &mut Dice, line: &mut [u8]) {
    let last = line.len().saturating_sub(2);
    line[last] = dice.one_of(b"0123456789ABCDEFabcdef");
}

fn wrong_letters(dice: &mut Dice, line: &mut Vec<u8>) {
    if line.is_empty() {
        return line.push(b':');
    }
    let at = some_letter(dice, line);
    match dice.below(8) {
        0 | 1 => other_checksum(dice, line),
        2 => drop(line.pop()),
        3 => line.insert(line.len() - 1, b'\r'),
        // Letters beside the digits.
        4 => line[at] = dice.one_of(b"/:@G`g \0\x80\xb0\xff\n"),
        5 => drop(line.remove(at)),
        6 => line.insert(at, dice.one_of(b"0Ff: ")),
        _ => line[at] ^= 1 << dice.below(8),
    }
}

/// Text of so many bytes, at most as many as 65,537: data records without bytes before the end, if
/// the length lets them.
pub fn filled(dice: &mut Dice, bytes: usize) -> Vec<u8> {
    // A data record of n bytes has 12 + 2 n; so an odd length has a wrong letter at its end.
    let mut text = Vec::new();
    let extra = bytes % 12 / 2;
    if extra > 0 {
        text.extend(data(0, &dice.bytes(extra)));
    }
    while text.len() + 24 <= bytes {
        text.extend(data(dice.word() as u16, &[]));
    }
    text.extend(end());
    text.resize(bytes, b'\n');
    text
}

#[cfg(test)]
mod tests {
    use super::*;
    use bridge::TEXT_BYTES;

    #[test]
    fn records_have_their_checksums() {
        assert_eq!(end(), b":00000001FF\n");
        assert_eq!(page(0), b":020000040000FA\n");
        assert_eq!(data(0x10, &[1, 2, 0xf0]), b":030010000102F0FA\n");
    }

    #[test]
    fn texts_have_their_lengths() {
        let mut dice = Dice::new(1, 1);
        for bytes in [12, 24, 100, TEXT_BYTES - 1, TEXT_BYTES, TEXT_BYTES + 1] {
            assert_eq!(filled(&mut dice, bytes).len(), bytes);
        }
    }
}
