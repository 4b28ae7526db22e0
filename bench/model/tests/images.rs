//! 02, paper 2: loads and dumps of Intel HEX.

mod common;
use common::{record, Dice, Rig, SPENT};
use model::operation::*;
use model::Request;

const DATA: u8 = 0;
const END: u8 = 1;
const PAGE: u8 = 4;

const LIMIT: usize = 65_536;
/// The largest segment whose text is not above the limit.
const LARGEST: usize = 23_820;

/// These records with an end record behind them.
fn image(records: &[Vec<u8>]) -> Vec<u8> {
    let mut text = records.concat();
    text.extend(record(END, 0, &[]));
    text
}

/// A record whose checksum is one too high.
fn wrong(kind: u8, address: u16, data: &[u8]) -> Vec<u8> {
    let mut text = record(kind, address, data);
    let at = text.len() - 3;
    let sum = u8::from_str_radix(std::str::from_utf8(&text[at..at + 2]).unwrap(), 16).unwrap();
    text[at..at + 2].copy_from_slice(format!("{:02X}", sum.wrapping_add(1)).as_bytes());
    text
}

/// The text that a segment of these bytes is turned into.
fn written(bytes: &[u8]) -> Vec<u8> {
    let mut records = vec![record(PAGE, 0, &[0, 0])];
    for (at, data) in bytes.chunks(16).enumerate() {
        records.push(record(DATA, 16 * at as u16, data));
    }
    image(&records)
}

/// A text judged line by line: the bytes with their offsets, or the refusal.
fn judged(text: &[u8]) -> Result<Vec<(u64, u8)>, u64> {
    let mut lines: Vec<&[u8]> = text.split(|&character| character == b'\n').collect();
    let behind = lines.pop().unwrap();
    let (mut page, mut stores) = (0, Vec::new());
    for (at, line) in lines.iter().enumerate() {
        let bytes = line_bytes(line).ok_or(12u64)?;
        let (address, data) =
            (u64::from(bytes[1]) << 8 | u64::from(bytes[2]), &bytes[4..bytes.len() - 1]);
        let sound = match bytes[3] {
            DATA => address + data.len() as u64 <= 65_536,
            END => address == 0 && data.is_empty(),
            PAGE => address == 0 && data.len() == 2,
            _ => false,
        };
        if !sound {
            return Err(12);
        }
        if bytes.iter().map(|&byte| u32::from(byte)).sum::<u32>() % 256 != 0 {
            return Err(13);
        }
        match bytes[3] {
            DATA => stores.extend((page + address..).zip(data.iter().copied())),
            PAGE => page = u64::from(data[0]) << 24 | u64::from(data[1]) << 16,
            _ if at + 1 == lines.len() && behind.is_empty() => return Ok(stores),
            _ => return Err(12),
        }
    }
    Err(12)
}

/// The bytes of a line: a colon and pairs of digits, as many as the first says.
fn line_bytes(line: &[u8]) -> Option<Vec<u8>> {
    let digits = line.strip_prefix(b":")?;
    if digits.len() % 2 != 0 || !digits.iter().all(u8::is_ascii_hexdigit) {
        return None;
    }
    let digits = std::str::from_utf8(digits).ok()?;
    let byte = |at| u8::from_str_radix(&digits[at..at + 2], 16).ok();
    let bytes: Vec<u8> = (0..digits.len()).step_by(2).map(byte).collect::<Option<_>>()?;
    (bytes.len() >= 5 && bytes.len() == usize::from(bytes[0]) + 5).then_some(bytes)
}

fn some_bytes(length: usize, seed: u64) -> Vec<u8> {
    let mut dice = Dice(seed);
    (0..length).map(|_| dice.word() as u8).collect()
}

/// A segment of this length with bytes of others before and behind it.
fn between(length: usize) -> (Rig, u64) {
    let mut rig = Rig::new(length + 16, 4);
    rig.memory.fill(0xA5);
    let rest = rig.create(0, 8, 7).second;
    let token = rig.create(rest, length as u64, 7).first;
    (rig, token)
}

#[test]
fn a_text_letter_by_letter() {
    let (mut rig, token) = between(20);
    for (at, byte) in rig.memory[8..28].iter_mut().enumerate() {
        *byte = (at as u8).wrapping_add(0xF0);
    }
    let text = b":020000040000FA\n\
        :10000000F0F1F2F3F4F5F6F7F8F9FAFBFCFDFEFF78\n\
        :0400100000010203E6\n\
        :00000001FF\n";
    assert_eq!(rig.dump(token, 4_096, 0), Ok(text.to_vec()));
    rig.memory[8..28].fill(0);
    assert_eq!(rig.load(token, text, 0), 0);
    assert_eq!((rig.memory[8], rig.memory[23], rig.memory[24], rig.memory[27]), (0xF0, 0xFF, 0, 3));
}

/// "Reading written text into an equal segment restores its bytes."
#[test]
fn written_text_restores_the_bytes() {
    let lengths = (1..=67).chain([255, 256, 257, 4_095, 4_096, 4_097, 23_807, 23_808, 23_809]);
    for length in lengths.chain([LARGEST - 1, LARGEST]) {
        let (mut rig, token) = between(length);
        let bytes = some_bytes(length, length as u64);
        rig.memory[8..8 + length].copy_from_slice(&bytes);
        let before = rig.clone();
        let text = rig.dump(token, LIMIT, 0).unwrap();
        assert_eq!(text, written(&bytes));
        assert_eq!(rig, before);
        rig.memory[8..8 + length].fill(0);
        assert_eq!(rig.load(token, &text, 0), 0);
        assert_eq!(rig, before);
        // Another segment, equal in length, at another base.
        let mut other = Rig::new(length, 2);
        assert_eq!(other.load(0, &text, 0), 0);
        assert_eq!(other.memory, bytes);
        // A longer one keeps the bytes behind; in a shorter one they are out of bounds.
        let mut longer = Rig::new(length + 1, 2);
        longer.memory.fill(0x3C);
        assert_eq!(longer.load(0, &text, 0), 0);
        assert_eq!((&longer.memory[..length], longer.memory[length]), (&bytes[..], 0x3C));
        if length > 1 {
            assert_eq!(Rig::new(length - 1, 2).load(0, &text, 0), 8);
        }
    }
}

/// "14 an output buffer too small or a written text above 65,536 bytes"
#[test]
fn room_for_the_text() {
    for (length, text) in [(1, 42), (15, 70), (16, 72), (17, 86), (32, 116), (LARGEST, LIMIT)] {
        let (mut rig, token) = between(length);
        assert_eq!(rig.dump(token, text, 0).unwrap().len(), text);
        // Other bytes of a longer buffer stay: `dump` sees to it.
        for room in [text + 1, text + 100, 3 * LIMIT] {
            assert_eq!(rig.dump(token, room, 0).unwrap().len(), text);
        }
        for room in [text - 1, text - 12, 12, 1, 0] {
            assert_eq!(rig.dump(token, room, 0), Err(14));
        }
    }
    for length in [LARGEST + 1, LARGEST + 4, LARGEST + 5, 65_536, 65_537, (1 << 24) - 16] {
        let (mut rig, token) = between(length);
        for room in [0, LIMIT, LIMIT + 2, 3 * LIMIT] {
            assert_eq!(rig.dump(token, room, 0), Err(14));
        }
    }
    // A part of such a segment, through a token of its own.
    let mut rig = Rig::new(65_536, 4);
    let part = rig.derive(0, 30_000, LARGEST as u64, 4).first;
    assert_eq!(rig.dump(part, LIMIT, 0).unwrap().len(), LIMIT);
    assert_eq!(rig.dump(0, LIMIT, 0), Err(14));
}

/// "at most 65,536 bytes of text, else 1"
#[test]
fn the_longest_text() {
    let empty = record(DATA, 0, &[]);
    let filled = |wanted: usize| {
        let tail = image(&[record(DATA, 5, &[0x5A; 2])]);
        let (many, left) = ((wanted - tail.len()) / 12, (wanted - tail.len()) % 12);
        let mut text = empty.repeat(many - 1);
        text.extend(record(DATA, 9, &vec![0x77; left / 2]));
        text.extend(tail);
        text
    };
    let mut rig = Rig::new(64, 2);
    let text = filled(LIMIT);
    assert_eq!(text.len(), LIMIT);
    assert_eq!(rig.load(0, &text, 0), 0);
    assert_eq!(rig.memory[5..7], [0x5A; 2]);
    // One more is too long, whatever it holds, and so is a longer text without a fault.
    let mut text = text;
    text.push(b'\n');
    assert_eq!((text.len(), rig.load(0, &text, 0)), (LIMIT + 1, 1));
    assert_eq!(rig.load(0, &[0; LIMIT + 1], 0), 1);
    assert_eq!(rig.load(0, &[0; LIMIT], 0), 12);
    let text = filled(LIMIT + 2);
    assert_eq!((judged(&text).is_ok(), text.len(), rig.load(0, &text, 0)), (true, LIMIT + 2, 1));
    // One record of 255 bytes, the longest.
    let mut rig = Rig::new(256, 2);
    assert_eq!(rig.load(0, &image(&[record(DATA, 1, &[9; 255])]), 0), 0);
    assert_eq!((rig.memory[0], &rig.memory[1..]), (0, &[9; 255][..]));
}

#[test]
fn malformed_records() {
    let data = record(DATA, 2, &[1, 2]);
    let bad: Vec<Vec<u8>> = vec![
        // Other types.
        record(2, 0, &[0, 0]),
        record(3, 0, &[0, 0, 0, 0]),
        record(5, 0, &[0, 0, 0, 0]),
        record(6, 0, &[]),
        record(0x10, 0, &[]),
        record(0x80, 0, &[]),
        record(0xFF, 0, &[]),
        // Counts that do not go with the type.
        record(END, 0, &[0]),
        record(PAGE, 0, &[]),
        record(PAGE, 0, &[0]),
        record(PAGE, 0, &[0, 0, 0]),
        // "types 01 and 04 carry address 0000"
        record(END, 1, &[]),
        record(END, 0x100, &[]),
        record(PAGE, 1, &[0, 0]),
        record(PAGE, 0x8000, &[0, 0]),
        // "A data record may not run past its 64 KiB page."
        record(DATA, 0xFFFF, &[1, 2]),
        record(DATA, 0xFF02, &[1; 255]),
        // No colon, two colons, lines without a record.
        data[1..].to_vec(),
        [b":", &data[..]].concat(),
        b"\n".to_vec(),
        b":\n".to_vec(),
        b" \n".to_vec(),
        [b" ", &data[..]].concat(),
        // A pair too few or too many for the count, a space, half a pair.
        b":0200020001FB\n".to_vec(),
        b":020002000102030405\n".to_vec(),
        b":0200020001 02F9\n".to_vec(),
        b":0200020001020F9\n".to_vec(),
        b":00000\n".to_vec(),
        b":0000000\n".to_vec(),
        // No digits.
        b":0G00020001\n".to_vec(),
        b":02000200010/F9\n".to_vec(),
        b":02000200010:F9\n".to_vec(),
        b":02000200010@F9\n".to_vec(),
        b":02000200010GF9\n".to_vec(),
        b":02000200010`F9\n".to_vec(),
        b":02000200010gF9\n".to_vec(),
        b":020002000102F\xB9\n".to_vec(),
        b":020002000102F9\0".to_vec(),
    ];
    for record in bad {
        let shown = String::from_utf8_lossy(&record).into_owned();
        let mut rig = Rig::new(65_600, 2);
        assert_eq!(rig.load(0, &image(std::slice::from_ref(&record)), 0), 12, "{shown}");
        assert_eq!(rig.load(0, &image(&[data.clone(), record.clone()]), 0), 12, "{shown}");
        assert_eq!(rig.load(0, &image(&[wrong(DATA, 0, &[]), record]), 0), 13, "{shown}");
    }
}

/// "each record ends in a line feed"
#[test]
fn ends_of_lines() {
    let mut rig = Rig::new(64, 2);
    let text = image(&[record(DATA, 2, &[1, 2]), record(DATA, 0, &[])]);
    let with = |end: &str| String::from_utf8(text.clone()).unwrap().replace('\n', end).into_bytes();
    assert_eq!(rig.clone().load(0, &with("\n"), 0), 0);
    for end in ["\r\n", "\n\r", "\r", "", "\n\n", " \n", "\0", "\x0B", "\u{85}"] {
        assert_eq!(rig.load(0, &with(end), 0), 12, "{end:?}");
    }
    // In the last record alone.
    let whole = &text[..text.len() - 1];
    for end in ["\r\n", "\r", "", "\n\n", " \n"] {
        assert_eq!(rig.load(0, &[whole, end.as_bytes()].concat(), 0), 12, "{end:?}");
    }
    assert_eq!(rig.load(0, &text, 0), 0);
}

#[test]
fn a_text_cut_at_any_byte() {
    let records = [record(PAGE, 0, &[0, 0]), record(DATA, 2, &[1, 2, 3]), record(DATA, 9, &[])];
    let text = image(&records);
    let mut rig = Rig::new(64, 2);
    for cut in 0..text.len() {
        assert_eq!(rig.load(0, &text[..cut], 0), 12, "{cut}");
        // Nor does a text begin at any byte but a record's first.
        let from = &text[cut..];
        let begins = judged(from).is_ok();
        assert_eq!(rig.clone().load(0, from, 0), if begins { 0 } else { 12 }, "{cut}");
    }
    assert_eq!(rig.load(0, &text, 0), 0);
    // With a wrong checksum in its first record: that record is the earlier one.
    let mut text = text;
    text[14] = b'B';
    let first = records[0].len();
    for cut in 0..=text.len() {
        assert_eq!(rig.load(0, &text[..cut], 0), if cut < first { 12 } else { 13 }, "{cut}");
    }
    // With a wrong checksum in its end record.
    let mut text = records.concat();
    text.extend(wrong(END, 0, &[]));
    for cut in 0..text.len() {
        assert_eq!(rig.load(0, &text[..cut], 0), 12, "{cut}");
    }
    assert_eq!(rig.load(0, &text, 0), 13);
}

/// "no end record, or text after it, counts as the next record"
#[test]
fn the_ending() {
    let (data, end) = (record(DATA, 2, &[1, 2]), record(END, 0, &[]));
    let mut rig = Rig::new(64, 2);
    let mut load = |parts: &[&[u8]]| rig.load(0, &parts.concat(), 0);
    assert_eq!(load(&[&end]), 0);
    assert_eq!(load(&[&data, &end]), 0);
    assert_eq!(load(&[]), 12);
    assert_eq!(load(&[&data]), 12);
    let data_wrong = wrong(DATA, 2, &[1, 2]);
    let end_wrong = wrong(END, 0, &[]);
    for after in [&end, &data, &data_wrong, &end_wrong, &b"\n"[..], b"\0", b":", b" ", b"\x1A"] {
        assert_eq!(load(&[&end, after]), 12);
        assert_eq!(load(&[&data, &end, after]), 12);
        assert_eq!(load(&[&end_wrong, after]), 13);
        assert_eq!(load(&[&data_wrong, &end, after]), 13);
    }
    assert_eq!(load(&[&data_wrong]), 13);
    assert_eq!(load(&[&end_wrong]), 13);
}

/// "the earlier record first and 12 before 13 in one record"
#[test]
fn the_earlier_record_first() {
    let good = record(DATA, 2, &[1, 2]);
    let malformed = record(7, 0, &[]);
    let checksum = wrong(DATA, 2, &[1, 2]);
    let mut rig = Rig::new(65_600, 2);
    let mut load = |records: &[&Vec<u8>]| {
        let records: Vec<Vec<u8>> = records.iter().map(|&record| record.clone()).collect();
        rig.load(0, &image(&records), 0)
    };
    assert_eq!(load(&[&good, &malformed, &checksum]), 12);
    assert_eq!(load(&[&good, &checksum, &malformed]), 13);
    assert_eq!(load(&[&checksum, &good, &good, &malformed]), 13);
    // Both in one record: another type, an address, a count, a page's end, a digit.
    assert_eq!(load(&[&wrong(7, 0, &[])]), 12);
    assert_eq!(load(&[&wrong(PAGE, 1, &[0, 0])]), 12);
    assert_eq!(load(&[&wrong(END, 0, &[0])]), 12);
    assert_eq!(load(&[&wrong(DATA, 0xFFFF, &[0, 0])]), 12);
    assert_eq!(load(&[&b":02000200010GFF\n".to_vec()]), 12);
    // A wrong checksum in each type, each alone.
    assert_eq!(load(&[&wrong(PAGE, 0, &[0, 0])]), 13);
    assert_eq!(load(&[&wrong(DATA, 0, &[])]), 13);
    assert_eq!(load(&[&wrong(DATA, 0xFFFF, &[0])]), 13);
}

#[test]
fn every_checksum_but_one_is_wrong() {
    let text = image(&[record(DATA, 2, &[0x81, 0xFF, 3])]);
    let at = record(DATA, 0, &[0; 3]).len() - 3;
    let granted = (0..=255u8).filter(|checksum| {
        let mut text = text.clone();
        text[at..at + 2].copy_from_slice(format!("{checksum:02x}").as_bytes());
        let refusal = Rig::new(64, 2).load(0, &text, 0);
        assert!(refusal == 0 || refusal == 13);
        refusal == 0
    });
    assert_eq!(granted.count(), 1);
}

/// "A data record may not run past its 64 KiB page (else 12); the page starts
/// at 0."
#[test]
fn pages() {
    let page = |upper: u16| record(PAGE, 0, &upper.to_be_bytes());
    let mut rig = Rig::new(3 * 65_536, 2);
    // To the page's end and not beyond it, though the segment goes on.
    assert_eq!(rig.load(0, &image(&[record(DATA, 0xFFFE, &[1, 2])]), 0), 0);
    assert_eq!((&rig.memory[65_534..65_537], rig.memory[0]), (&[1, 2, 0][..], 0));
    assert_eq!(rig.load(0, &image(&[record(DATA, 0xFFFE, &[1, 2, 3])]), 0), 12);
    assert_eq!(rig.load(0, &image(&[record(DATA, 0xFF01, &[1; 255])]), 0), 0);
    assert_eq!(rig.load(0, &image(&[record(DATA, 0xFF02, &[1; 255])]), 0), 12);
    assert_eq!(rig.load(0, &image(&[page(1), record(DATA, 0xFFFF, &[3, 4])]), 0), 12);
    // A page holds until the next one is told; pages may come back.
    let text = image(&[
        record(DATA, 7, &[1]),
        page(2),
        record(DATA, 7, &[2]),
        record(DATA, 0xFFFF, &[3]),
        page(1),
        page(1),
        record(DATA, 7, &[4]),
        page(0),
        record(DATA, 8, &[5]),
        page(0xFFFF),
    ]);
    assert_eq!(rig.load(0, &text, 0), 0);
    let at = |offset: usize| rig.memory[offset];
    assert_eq!([7, 131_079, 196_607, 65_543, 8].map(at), [1, 2, 3, 4, 5]);
    // Each request starts at page 0.
    assert_eq!(rig.load(0, &image(&[record(DATA, 7, &[6])]), 0), 0);
    assert_eq!(rig.memory[7], 6);
    // Beyond the segment, up to the last page there is.
    for upper in [3, 4, 0x0100, 0x7FFF, 0xFFFF] {
        assert_eq!(rig.load(0, &image(&[page(upper), record(DATA, 0, &[1])]), 0), 8);
        assert_eq!(rig.load(0, &image(&[page(upper), record(DATA, 0xFFFF, &[1])]), 0), 8);
    }
    // The largest memory, its last byte.
    let mut rig = Rig::new(1 << 24, 2);
    assert_eq!(rig.load(0, &image(&[page(0xFF), record(DATA, 0xFFFF, &[1])]), 0), 0);
    assert_eq!(rig.memory[(1 << 24) - 1], 1);
    assert_eq!(rig.load(0, &image(&[page(0x100), record(DATA, 0, &[1])]), 0), 8);
}

/// "a data record without bytes writes nothing and can't be out of bounds"
#[test]
fn a_data_record_without_bytes_anywhere() {
    let mut rig = Rig::new(1, 2);
    rig.memory[0] = 0x4E;
    let before = rig.clone();
    for upper in [0u16, 1, 0xFF, 0xFFFF] {
        for address in [0, 1, 2, 0x8000, 0xFFFF] {
            let empty = record(DATA, address, &[]);
            let page = record(PAGE, 0, &upper.to_be_bytes());
            assert_eq!(rig.load(0, &image(&[page.clone(), empty.clone()]), 0), 0);
            assert_eq!(rig.load(0, &image(&[page, empty.clone(), empty.clone()]), 0), 0);
            assert_eq!(rig.load(0, &image(&[empty]), 0), 0);
            assert_eq!(rig, before);
            // Its checksum is judged.
            assert_eq!(rig.load(0, &image(&[wrong(DATA, address, &[])]), 0), 13);
        }
    }
    // With others around it.
    let empty = record(DATA, 0xFFFF, &[]);
    let text = image(&[empty.clone(), record(DATA, 0, &[7]), empty]);
    assert_eq!((rig.load(0, &text, 0), rig.memory[0]), (0, 7));
}

/// "where records overlap, the later one wins"
#[test]
fn overlapping_records() {
    let mut rig = Rig::new(16, 2);
    let text = image(&[
        record(DATA, 2, &[1; 8]),
        record(DATA, 4, &[2; 8]),
        record(DATA, 0, &[3; 3]),
        record(DATA, 6, &[4; 2]),
        record(DATA, 7, &[]),
    ]);
    assert_eq!(rig.load(0, &text, 0), 0);
    assert_eq!(rig.memory, [3, 3, 3, 1, 2, 2, 4, 4, 2, 2, 2, 2, 0, 0, 0, 0]);
    // Across a page told again.
    let page = record(PAGE, 0, &[0, 0]);
    let text = image(&[record(DATA, 1, &[5; 2]), page, record(DATA, 1, &[6])]);
    assert_eq!((rig.load(0, &text, 0), &rig.memory[..3]), (0, &[3, 6, 5][..]));
}

/// "Digits may be of either case."
#[test]
fn digits_of_either_case() {
    let data: Vec<u8> = (0..=255).step_by(17).chain([0xAB, 0xCD, 0xEF, 0xFA, 0xDE]).collect();
    let text = image(&[record(DATA, 0xABC, &data), record(PAGE, 0, &[0xAF, 0xFA])]);
    let mut mixed = text.clone();
    mixed.iter_mut().step_by(3).for_each(|letter| letter.make_ascii_lowercase());
    for text in [text.clone(), text.to_ascii_lowercase(), mixed] {
        let mut rig = Rig::new(4_096, 2);
        assert_eq!(rig.load(0, &text, 0), 0);
        assert_eq!(rig.memory[0xABC..0xABC + data.len()], data);
    }
    // Every byte in both cases.
    for byte in 0..=255u8 {
        let text = image(&[record(DATA, 0, &[byte])]);
        for text in [text.clone(), text.to_ascii_lowercase()] {
            let mut rig = Rig::new(1, 2);
            assert_eq!((rig.load(0, &text, 0), rig.memory[0]), (0, byte));
        }
    }
}

/// "The reader checks ... every record's bounds, then writes."
#[test]
fn bounds_of_the_segment() {
    let (mut rig, token) = between(40);
    let ends_at = |end: u16| record(DATA, end - 4, &[1, 2, 3, 4]);
    assert_eq!(rig.load(token, &image(&[ends_at(40)]), 0), 0);
    assert_eq!((rig.memory[47], rig.memory[48]), (4, 0xA5));
    for bad in [ends_at(41), ends_at(44), ends_at(45), record(DATA, 0xFFFF, &[1])] {
        assert_eq!(rig.load(token, &image(std::slice::from_ref(&bad)), 0), 8);
        assert_eq!(rig.load(token, &image(&[bad.clone(), ends_at(4)]), 0), 8);
        assert_eq!(rig.load(token, &image(&[ends_at(4), bad]), 0), 8);
    }
    // An indirect entry's own segment, though its owner's goes on.
    let child = rig.derive(token, 10, 20, 6).first;
    assert_eq!(rig.load(child, &image(&[ends_at(20)]), 0), 0);
    assert_eq!(rig.memory[34..38], [1, 2, 3, 4]);
    assert_eq!(rig.load(child, &image(&[ends_at(21)]), 0), 8);
    assert_eq!(rig.dump(child, LIMIT, 0), Ok(written(&rig.memory[18..38])));
}

#[test]
fn rights() {
    let mut rig = Rig::new(64, 4);
    let (text, nothing) = (image(&[record(DATA, 0, &[1])]), image(&[]));
    for permissions in 0..8 {
        let token = rig.derive(0, 8, 8, permissions).first;
        let loads = if permissions & 2 != 0 { 0 } else { 7 };
        assert_eq!(rig.load(token, &text, 0), loads);
        // Also for a text that writes nothing.
        assert_eq!(rig.load(token, &nothing, 0), loads);
        assert_eq!(rig.dump(token, LIMIT, 0).is_ok(), permissions & 4 != 0);
        assert_eq!(rig.dump(token, LIMIT, 0).err().unwrap_or(7), 7);
        rig.simple(DROP, token);
    }
}

#[test]
fn locks() {
    let mut rig = Rig::new(64, 4);
    let child = rig.derive(0, 8, 8, 7).first;
    let text = image(&[record(DATA, 0, &[1])]);
    rig.lock(child, 7);
    for token in [0, child] {
        assert_eq!((rig.load(token, &text, 7), rig.dump(token, LIMIT, 7).is_ok()), (0, true));
        for task in [0, 6, 8, 7 << 8, (1 << 55) - 1] {
            assert_eq!(rig.load(token, &text, task), 5);
            assert_eq!(rig.dump(token, LIMIT, task), Err(5));
        }
        for task in [1 << 55, (1 << 55) + 7, u64::MAX] {
            assert_eq!(rig.load(token, &text, task), 1);
            assert_eq!(rig.dump(token, LIMIT, task), Err(1));
        }
    }
    rig.unlock(child, 7);
    for task in [0, 7, 8, (1 << 55) - 1] {
        assert_eq!((rig.load(child, &text, task), rig.dump(child, LIMIT, task).is_ok()), (0, true));
    }
}

/// While another task holds the segment neither request tells its bytes.
#[test]
fn a_locked_segment_tells_nothing() {
    let mut rig = Rig::new(64, 4);
    rig.lock(0, 7);
    let mut other = rig.clone();
    other.memory.fill(0x99);
    for text in [image(&[]), image(&[record(DATA, 60, &[1; 5])]), b"x".to_vec(), Vec::new()] {
        assert_eq!(rig.load(0, &text, 8), other.load(0, &text, 8));
    }
    for room in [0, 100, 1_000] {
        assert_eq!(rig.dump(0, room, 8), other.dump(0, room, 8));
    }
    assert_eq!((&rig.memory[..], &other.memory[..]), (&[0; 64][..], &[0x99; 64][..]));
}

#[test]
fn words_of_the_requests() {
    let text = image(&[record(DATA, 0, &[1])]);
    let ask = |operation: u64, change: &dyn Fn(&mut Request, &mut Rig)| {
        let mut rig = Rig::new(64, 4);
        let mut request = Request { operation, ..Request::default() };
        change(&mut request, &mut rig);
        let mut buffer = text.clone();
        buffer.resize(if operation == LOAD { text.len() } else { 1_000 }, 0);
        rig.ask_with(request, &mut buffer).refusal
    };
    let both = |change: &dyn Fn(&mut Request, &mut Rig)| (ask(LOAD, change), ask(DUMP, change));
    assert_eq!(both(&|_, _| ()), (0, 0));
    // Words that they do not use.
    assert_eq!(both(&|request, _| request.length = u64::MAX), (0, 0));
    assert_eq!(both(&|request, _| request.user = u64::MAX), (0, 0));
    assert_eq!(both(&|request, _| request.permissions = u64::MAX), (0, 0));
    assert_eq!(both(&|request, _| request.encoding = u64::MAX), (0, 0));
    // An offset in the token, in each encoding that has one.
    for (encoding, width) in [(0, 32), (2, 16), (3, 24)] {
        assert_eq!(both(&|request, _| request.token = encoding << 62), (0, 0));
        for offset in [1, 1 << (width - 1), (1 << width) - 1] {
            assert_eq!(both(&|request, _| request.token = encoding << 62 | offset), (1, 1));
        }
    }
    assert_eq!(both(&|request, _| request.token = 1 << 62), (0, 0));
    assert_eq!(both(&|request, _| request.token = 1 << 62 | 1), (2, 2));
    // 02, paper 4: the minute.
    assert_eq!(both(&|request, _| request.second = 10_079), (0, 0));
    assert_eq!(both(&|request, _| request.second = 10_080), (1, 1));
    // State and sizes.
    assert_eq!(both(&|_, rig| rig.state.next = SPENT), (0, 0));
    assert_eq!(both(&|_, rig| rig.state.next = SPENT + 1), (1, 1));
    assert_eq!(both(&|_, rig| rig.state.next = 0), (1, 1));
    assert_eq!(both(&|_, rig| rig.state.last = 4), (1, 1));
    assert_eq!(both(&|_, rig| rig.state.total = 4), (1, 1));
    assert_eq!(both(&|_, rig| rig.table.push(0)), (1, 1));
    assert_eq!(both(&|_, rig| rig.table.truncate(32)), (1, 1));
    assert_eq!(both(&|_, rig| rig.memory.clear()), (1, 1));
}

/// What stands against a request, mended one by one in the order of the checks.
#[test]
fn the_order_of_checks() {
    let prepared = || {
        let mut rig = Rig::new(30_000, 8);
        let cut = rig.create(0, 64, 7);
        let token = rig.derive(cut.first, 0, 32, 1).first;
        rig.lock(token, 7);
        (rig, token)
    };
    let (rig, token) = prepared();
    let outside = record(DATA, 32, &[1]);
    let texts = [
        image(&[record(9, 0, &[]), outside.clone()]),
        image(&[wrong(DATA, 0, &[]), outside.clone()]),
        image(std::slice::from_ref(&outside)),
    ];
    let [malformed, checksum, sound] = &texts;
    let ask = |rig: &Rig, token, text: &[u8], task| {
        let mut rig = rig.clone();
        (rig.load(token, text, task), rig.dump(token, 0, task).unwrap_err())
    };
    let mut bad = rig.clone();
    bad.set(1, 207, 1, 1);
    bad.set(2, 207, 1, 1);
    let other_tag = token ^ 1 << 46;
    // 1, then 12, 13, 2, 3, 4, 5, 7, 8; a dump has no text to judge, and 14 at its end.
    assert_eq!(ask(&bad, other_tag | 1, malformed, 8), (1, 1));
    assert_eq!(ask(&bad, other_tag, malformed, 1 << 55), (1, 1));
    assert_eq!(ask(&bad, other_tag, malformed, 8), (12, 2));
    assert_eq!(ask(&bad, other_tag, checksum, 8), (13, 2));
    assert_eq!(ask(&bad, other_tag, sound, 8), (2, 2));
    assert_eq!(ask(&bad, token, malformed, 8), (12, 3));
    assert_eq!(ask(&bad, token, checksum, 8), (13, 3));
    assert_eq!(ask(&bad, token, sound, 8), (3, 3));
    bad.set(2, 207, 1, 0);
    assert_eq!(ask(&bad, token, sound, 8), (3, 3));
    bad.set(1, 208, 16, rig.tag(1) ^ 1);
    assert_eq!(ask(&bad, token, checksum, 8), (13, 4));
    assert_eq!(ask(&bad, token, sound, 8), (4, 4));
    assert_eq!(ask(&rig, token, checksum, 8), (13, 5));
    assert_eq!(ask(&rig, token, sound, 8), (5, 5));
    assert_eq!(ask(&rig, token, checksum, 7), (13, 7));
    assert_eq!(ask(&rig, token, sound, 7), (7, 7));
    let mut open = rig.clone();
    open.set(2, 202, 3, 6);
    assert_eq!(ask(&open, token, checksum, 7), (13, 14));
    assert_eq!(ask(&open, token, sound, 7), (8, 14));
    // A text above the limit is 14 too, with the room for it, after all else.
    open.unlock(token, 7);
    let rest = open.token(0);
    assert_eq!(open.dump(rest, 3 * LIMIT, 0), Err(14));
    open.set(0, 202, 3, 3);
    assert_eq!(open.dump(rest, 3 * LIMIT, 0), Err(7));
    // The place of 3 and 4.
    let place = |rig: &Rig, operation| {
        let (mut rig, mut buffer) = (rig.clone(), sound.clone());
        let answer =
            rig.ask_with(Request { operation, token, ..Request::default() }, &mut buffer[..]);
        (answer.refusal, answer.place)
    };
    let mut bad = rig.clone();
    bad.set(1, 207, 1, 1);
    assert_eq!((place(&bad, LOAD), place(&bad, DUMP)), ((3, 2), (3, 2)));
    bad.set(1, 208, 16, rig.tag(1) ^ 1);
    assert_eq!((place(&bad, LOAD), place(&bad, DUMP)), ((4, 1), (4, 1)));
    bad.set(2, 207, 1, 1);
    assert_eq!((place(&bad, LOAD), place(&bad, DUMP)), ((3, 1), (3, 1)));
}

/// Neither request touches state or table, and a load only the segment.
#[test]
fn what_stays() {
    let (mut rig, token) = between(40);
    let child = rig.derive(token, 10, 20, 6).first;
    let before = rig.clone();
    assert!(rig.dump(child, 1_000, 0).is_ok());
    assert_eq!(rig, before);
    assert_eq!(rig.load(child, &image(&[record(DATA, 0, &[3; 20])]), 0), 0);
    assert_eq!((&rig.state, &rig.table), (&before.state, &before.table));
    assert_eq!(rig.memory[18..38], [3; 20]);
    rig.memory[18..38].fill(0xA5);
    assert_eq!(rig, before);
}

/// Served as judged line by line.
fn as_judged(text: &[u8]) -> u64 {
    let mut rig = Rig::new(48, 2);
    let mut wanted = rig.memory.clone();
    let refusal = match judged(text) {
        Err(refusal) => refusal,
        Ok(stores) if stores.iter().any(|&(offset, _)| offset >= 48) => 8,
        Ok(stores) => {
            stores.iter().for_each(|&(offset, byte)| wanted[offset as usize] = byte);
            0
        }
    };
    assert_eq!(rig.load(0, text, 0), refusal, "{:?}", String::from_utf8_lossy(text));
    assert_eq!(rig.memory, wanted);
    refusal
}

#[test]
fn every_character_changed_to_every_other() {
    let text = image(&[record(DATA, 0x10, &[0xAB, 7]), record(PAGE, 0, &[0, 0])]);
    for at in 0..text.len() {
        for character in 0..=255 {
            let mut text = text.clone();
            text[at] = character;
            as_judged(&text);
        }
    }
}

#[test]
fn any_texts() {
    let mut dice = Dice(21);
    let mut seen = [0; 15];
    for _ in 0..20_000 {
        let mut records = Vec::new();
        for _ in 0..dice.below(6) {
            let kind = dice.one_of(&[0, 0, 0, 0, 0, 0, 0, 4, 4, dice.0 >> 61]) as u8;
            let address = match (kind, dice.below(12)) {
                (0, 0) => 0xFFF0 + dice.below(16),
                (0, _) => dice.below(40),
                (_, 0) => 1,
                _ => 0,
            };
            let length = if kind == PAGE { 2 } else { dice.below(18) };
            let mut data = some_bytes(length as usize, dice.word());
            if kind == PAGE {
                data = vec![0, u8::from(dice.below(8) == 0)];
            }
            let wrong_one = dice.below(12) == 0;
            let made = if wrong_one { wrong } else { record };
            records.push(made(kind, address as u16, &data));
        }
        let mut text = image(&records);
        match dice.below(10) {
            0 => text.truncate(dice.below(text.len() as u64) as usize),
            1 => text.extend(records.concat()),
            2 => {
                let at = dice.below(text.len() as u64) as usize;
                text.insert(at, dice.one_of(b"09AFaf:\n\r".map(u64::from).as_slice()) as u8);
            }
            3 => {
                let at = dice.below(text.len() as u64) as usize;
                text[at] = dice.one_of(b"09AFaf:\n\r".map(u64::from).as_slice()) as u8;
            }
            4 => text.make_ascii_lowercase(),
            _ => {}
        }
        seen[as_judged(&text) as usize] += 1;
    }
    for refusal in [0, 8, 12, 13] {
        assert!(seen[refusal] > 500, "{seen:?}");
    }
}
