//! The types that a caller has: tokens, tasks, permissions, requests and refusals.

use bridge::{text_length, Task, Token, TooFar, Words, TEXT_BYTES};
use bridge::{
    Buffer, Check, Encoding, Northbridge, Operation, PageIn, PageOut, Permissions, Place, Refusal,
    Request, State,
};

/// A constant: it lies where nothing can be written.
static RECORD: [u8; 4_097] = [0x5a; 4_097];

#[test]
fn a_write_only_reads_its_bytes() {
    let (mut table, mut memory) = ([0; 4 * 32], [0; 8_192]);
    let mut bridge = Northbridge::reset([0, 0], 1, &mut table, &mut memory).unwrap();
    for length in 0..RECORD.len() + 1 {
        let fits = (1..=4_096).contains(&length);
        let expected = if fits { Ok(()) } else { Err(Refusal::Request) };
        assert_eq!(bridge.write(Token::ROOT, Task::NONE, &RECORD[..length]), expected);
        let beyond = Token::ROOT.at(8_193 - length as u64).unwrap();
        let expected = if fits { Err(Refusal::Bounds) } else { Err(Refusal::Request) };
        assert_eq!(bridge.write(beyond, Task::NONE, &RECORD[..length]), expected);
    }
    assert_eq!(bridge.memory[..4_096], RECORD[..4_096]);
    assert!(bridge.memory[4_096..].iter().all(|byte| *byte == 0));
}

/// HEX text for two bytes, filled up by data records without bytes, and a byte more than text may
/// have. It lies where nothing can be written.
static IMAGE: [u8; TEXT_BYTES + 1] = image();

const fn image() -> [u8; TEXT_BYTES + 1] {
    const PARTS: [&[u8]; 3] = [b":020001000102FA\n", b":0000000000\n", b":00000001FF\n"];
    let [front, empty, end] = PARTS;
    let mut text = [b'\n'; TEXT_BYTES + 1];
    let mut at = 0;
    while at < TEXT_BYTES {
        text[at] = match at {
            _ if at < front.len() => front[at],
            _ if at < TEXT_BYTES - end.len() => empty[(at - front.len()) % empty.len()],
            _ => end[at + end.len() - TEXT_BYTES],
        };
        at += 1;
    }
    text
}

#[test]
fn a_load_only_reads_its_text() {
    let (mut table, mut memory) = ([0; 4 * 32], [0; 4]);
    let mut bridge = Northbridge::reset([0, 0], 1, &mut table, &mut memory).unwrap();
    let mut load = |text: &[u8]| bridge.load(Token::ROOT, Task::NONE, text);
    assert_eq!(load(&IMAGE[..TEXT_BYTES]), Ok(()));
    assert_eq!(load(&IMAGE), Err(Refusal::Request));
    for length in (0..100).chain([TEXT_BYTES - 1]) {
        assert_eq!(load(&IMAGE[..length]), Err(Refusal::Malformed), "{length}");
    }
    assert_eq!(load(b":00000001FE\n"), Err(Refusal::Checksum));
    assert_eq!(load(b":010004005AA1\n:00000001FF\n"), Err(Refusal::Bounds));
    assert_eq!(bridge.memory, [0, 1, 2, 0]);
}

#[test]
fn a_dump_tells_its_length() {
    let (mut table, mut memory) = ([0; 4 * 32], [0xc0, 0xff, 0xee]);
    let mut bridge = Northbridge::reset([0, 0], 1, &mut table, &mut memory).unwrap();
    let text = b":020000040000FA\n:03000000C0FFEE50\n:00000001FF\n";
    let mut buffer = [0x5a; 64];
    let length = bridge.dump(Token::ROOT, Task::NONE, &mut buffer).unwrap();
    assert_eq!(&buffer[..length], text);
    assert!(buffer[length..].iter().all(|byte| *byte == 0x5a));
    let mut exact = vec![0; length];
    assert_eq!(bridge.dump(Token::ROOT, Task::NONE, &mut exact), Ok(length));
    let mut short = vec![7; length - 1];
    assert_eq!(bridge.dump(Token::ROOT, Task::NONE, &mut short), Err(Refusal::Room));
    assert!(short.iter().all(|byte| *byte == 7));
    let granted = bridge.ask(&Request::Clone { token: Token::ROOT }).unwrap();
    assert_eq!(granted.length, 0);
}

/// Every byte goes out, to a buffer that is as long, and comes in again from bytes that are only read.
#[test]
fn paging_moves_whole_segments() {
    let (task, encoding) = (Task::NONE, Encoding::E0);
    for length in [1, 4_096, 4_097, RECORD.len(), 1 << 24] {
        let (mut table, mut memory) = ([0; 4 * 32], vec![0x5a; length]);
        let mut bridge = Northbridge::reset([0, 0], 1, &mut table, &mut memory).unwrap();
        let mut disk = vec![0; length + 1];
        let out = PageOut { token: Token::ROOT, page_file: u64::MAX, task, encoding };
        for wrong in [0, length - 1, length + 1] {
            assert_eq!(bridge.page_out(&out, &mut disk[..wrong]), Err(Refusal::Bounds));
        }
        let out = bridge.page_out(&out, &mut disk[..length]).unwrap();
        assert!(bridge.memory.iter().all(|byte| *byte == 0) && disk[length] == 0);
        assert!(disk[..length].iter().all(|byte| *byte == 0x5a));
        assert_eq!(bridge.read(out.paged, task, &mut [0]), Err(Refusal::Paged));
        assert_eq!((out.paged.number(), out.segment.number(), bridge.free_total()), (0, 1, 2));
        let back = PageIn { paged: out.paged, donor: out.segment, task, encoding };
        let swapped = PageIn { paged: out.segment, donor: out.paged, ..back };
        assert_eq!(bridge.page_in(&swapped, &disk[..length]), Err(Refusal::Kind));
        for wrong in [0, length - 1, length + 1] {
            assert_eq!(bridge.page_in(&back, &disk[..wrong]), Err(Refusal::Bounds));
        }
        let bytes = if length <= RECORD.len() { &RECORD[..length] } else { &disk[..length] };
        let back = bridge.page_in(&back, bytes).unwrap();
        assert!(bridge.memory.iter().all(|byte| *byte == 0x5a));
        assert_eq!((back.number(), bridge.free_total()), (0, 3));
        bridge.read(back, task, &mut [0]).unwrap();
    }
}

/// A locked segment does not go out, not even for its holder.
#[test]
fn a_locked_segment_stays() {
    let (mut table, mut memory) = ([0; 4 * 32], [7; 4]);
    let mut bridge = Northbridge::reset([0, 0], 1, &mut table, &mut memory).unwrap();
    let token = Token::ROOT;
    bridge.ask(&Request::Lock { token, task: Task(7) }).unwrap();
    for (task, refusal) in [(Task::NONE, Refusal::Lock), (Task(7), Refusal::Standing)] {
        let out = PageOut { token, page_file: 0, task, encoding: Encoding::E0 };
        assert_eq!(bridge.page_out(&out, &mut [0; 4]), Err(refusal));
    }
}

#[test]
fn texts_have_their_lengths() {
    assert_eq!([0, 1, 15, 16, 17].map(text_length), [28, 42, 70, 72, 86]);
    assert_eq!([23_820, 23_821].map(text_length), [65_536, 65_538]);
}

/// Each operation with a buffer has its call, and no other.
#[test]
fn buffers_are_read_or_written() {
    for operation in Operation::ALL {
        let buffer = operation.buffer();
        assert!(!(buffer.is_brought() && buffer.is_written()), "{operation:?}");
        assert_eq!(buffer == Buffer::Unused, !buffer.is_brought() && !buffer.is_written());
        let paging = [Operation::PageOut, Operation::PageIn].contains(&operation);
        assert_eq!(buffer.is_whole(), paging);
        assert_eq!(operation.answers_length(), operation == Operation::Dump);
    }
}

#[test]
fn a_read_and_a_fetch_fill_the_buffer() {
    let (mut table, mut memory) = ([0; 4 * 32], [7; 64]);
    let mut bridge = Northbridge::reset([0, 0], 1, &mut table, &mut memory).unwrap();
    let mut buffer = [0; 4];
    bridge.read(Token::ROOT, Task::NONE, &mut buffer).unwrap();
    assert_eq!(buffer, [7; 4]);
    let mut code = [0; 4];
    bridge.fetch(Token::ROOT, Task::NONE, &mut code).unwrap();
    assert_eq!(code, [7; 4]);
}

#[test]
fn the_free_total_is_told_without_a_request() {
    let (mut table, mut memory) = ([0; 4 * 32], [0; 64]);
    let mut bridge = Northbridge::reset([0, 0], 1, &mut table, &mut memory).unwrap();
    assert_eq!(bridge.free_total(), 3);
    let child = Request::ExecuteOnly { token: Token::ROOT, encoding: Encoding::E0 };
    let mut given = Token::ROOT;
    for left in [2, 1, 0] {
        given = bridge.ask(&child).unwrap().first;
        assert_eq!(bridge.free_total(), left);
    }
    assert_eq!(bridge.ask(&child), Err(Refusal::Numbers));
    bridge.ask(&Request::Drop { token: given }).unwrap();
    assert_eq!(bridge.free_total(), 1);
    bridge.state.total = 4;
    assert_eq!(bridge.ask(&child), Err(Refusal::Request));
    assert_eq!(bridge.free_total(), 4);
    bridge.ask(&Request::Reset { key: [0, 0], first_nonce: 1 }).unwrap();
    assert_eq!(bridge.free_total(), 3);
}

#[test]
fn the_state_has_its_words_in_order() {
    let words = [1, 2, 3, 4, 5];
    let mut state = State::from_order(words);
    let State { key, last_number, next_nonce, total } = state;
    assert_eq!((key, last_number, next_nonce, total), ([1, 2], 3, 4, 5));
    assert_eq!((state.in_order(), words.len()), (words, State::WORDS));
    assert_eq!(words.map(|word| *state.at(word as usize - 1)), words);
    let text = "key 1 2 last number 3 next nonce 4 free total 5";
    assert_eq!(state.to_string(), text);
}

#[test]
fn the_fields_of_a_token() {
    let packed = [
        (Encoding::E0, 0x048D_0005_0000_000C, 12),
        (Encoding::E1, 0x448D_0000_0000_0005, 0),
        (Encoding::E2, 0x848D_0000_0005_000C, 12),
        (Encoding::E3, 0xC48D_0000_0500_000C, 12),
    ];
    for (encoding, word, offset) in packed {
        let token = Token(word);
        assert_eq!(token.encoding(), encoding);
        assert_eq!((token.tag(), token.number(), token.offset()), (0x1234, 5, offset));
        assert_eq!(token.to_string(), format!("{word:016x}"));
        assert_eq!(format!("{token:?}"), format!("Token(0x{token})"));
    }
}

#[test]
fn an_address_is_a_token_with_an_offset_if_there_is_room() {
    let rooms = [(0, 32), (1 << 62, 0), (2 << 62, 16), (3 << 62, 24)];
    for (word, width) in rooms {
        let (token, most) = (Token(word), (1 << width) - 1);
        assert_eq!(token.at(most), Ok(Token(word + most)));
        assert_eq!(token.at(most).unwrap().at(0), token.at(most));
        for offset in [most + 1, u64::MAX] {
            assert_eq!(token.at(offset), Err(TooFar { token, offset }));
        }
        let full = token.at(most).unwrap();
        assert_eq!(full.at(1), Err(TooFar { token: full, offset: 1 }));
    }
    let error = Token(1 << 62).at(1).unwrap_err().to_string();
    assert_eq!(error, "the token 4000000000000000 has no room for the offset 1");
}

#[test]
fn permissions_add_up() {
    let names = ["---", "--X", "-W-", "-WX", "R--", "R-X", "RW-", "RWX"];
    let one = |held: bool, one| if held { one } else { Permissions::NONE };
    for (number, name) in names.into_iter().enumerate() {
        let (r, w) = (one(number & 4 != 0, Permissions::R), one(number & 2 != 0, Permissions::W));
        let all = r | w | one(number & 1 != 0, Permissions::X);
        assert_eq!((all.number(), all.to_string().as_str()), (number as u64, name));
    }
    assert_eq!(Permissions::ALL, Permissions::R.with(Permissions::W).with(Permissions::X));
}

#[test]
fn a_refusal_has_its_number_its_place_and_a_text() {
    for check in Check::all() {
        for place in [None, Some(Place::Named), Some(Place::Ancestor)] {
            let Some(refusal) = check.refusal(place) else { continue };
            assert_eq!((refusal.check(), refusal.number()), (check, check as u64));
            assert_eq!(refusal.place(), place);
        }
    }
    let text = |refusal: Refusal| refusal.to_string();
    assert_eq!(text(Refusal::Bounds), "refusal 8, out of bounds");
    assert_eq!(text(Refusal::Dead(Place::Ancestor)), "refusal 4, dead line: an ancestor");
    let error: Box<dyn std::error::Error> = Refusal::Lock.into();
    assert_eq!(error.to_string(), "refusal 5, locked for another task");
    assert_eq!(format!("{error:?}"), "refusal 5, locked for another task");
}

/// Every argument has a value of its own, and stands in its word; words that an operation does not
/// use are zero.
#[test]
fn each_request_has_its_words() {
    let (token, task, permissions, encoding) =
        (Token(1), Task(3), Permissions::R | Permissions::W, Encoding::E3);
    let (second, offset, length, user) = (Token(2), 2, 4, 5);
    let access = |way| Words { second: 2, ..Words::access(way, token, task) };
    let all = [
        Request::Reset { key: [1, 2], first_nonce: 3 }.words(),
        access(Operation::Read),
        access(Operation::Write),
        access(Operation::Fetch),
        Request::Create { token, task, length, user, permissions, encoding }.words(),
        Request::Merge { first: token, second, task, encoding }.words(),
        Request::Derive { token, offset, length, permissions, encoding }.words(),
        Request::ExecuteOnly { token, encoding }.words(),
        Request::Clone { token }.words(),
        Request::Drop { token }.words(),
        Request::Lock { token, task }.words(),
        Request::Unlock { token, task }.words(),
        Request::Revoke { token, encoding }.words(),
        access(Operation::Load),
        access(Operation::Dump),
        PageOut { token, page_file: 2, task, encoding }.words(),
        PageIn { paged: token, donor: second, task, encoding }.words(),
    ];
    assert_eq!(all.len(), Operation::COUNT);
    for (operation, words) in Operation::ALL.into_iter().zip(all) {
        let values = [operation as u64, 1, 2, 3, 4, 5, 6, 3];
        let used = |place| place == 0 || operation.uses(place);
        let expected = std::array::from_fn(|place| if used(place) { values[place] } else { 0 });
        assert_eq!(words.in_order(), expected, "{operation:?}");
    }
}
