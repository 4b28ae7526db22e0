//! Leases and minutes: through the types, and through both functions of the library.

use bridge::{
    call, call_leased, is_plain, put_words, serve, serve_leased, Operation, State, Words,
};
use bridge::{minute_of, Lease, Northbridge, Refusal, Request, Shift, Task, Token};
use bridge::{ANSWER_BYTES, LEASES_BYTES, LEASE_BYTES, REQUEST_BYTES, STATE_BYTES, WEEK};

/// Monday from 06:00 to 14:00, for the root: a constant, which lies where nothing can be written.
static EARLY: [[u8; LEASE_BYTES]; 1] = [[0, 0, 0, 0, 0x68, 0x01, 0x48, 0x03]];

const LEASED: [Operation; 5] =
    [Operation::Read, Operation::Write, Operation::Fetch, Operation::Load, Operation::Dump];

const END: &[u8] = b":00000001FF\n";

/// A root over eight bytes.
fn begun<'a>(table: &'a mut [u8], memory: &'a mut [u8]) -> Northbridge<'a> {
    Northbridge::reset([0, 0], 1, table, memory).expect("a reset")
}

/// One of the five requests during a shift, through the root's token.
fn during(bridge: &mut Northbridge, shift: Shift, operation: Operation) -> Result<(), Refusal> {
    let (root, task, mut buffer) = (Token::ROOT, Task::NONE, [0; 64]);
    let mut during = bridge.during(shift);
    match operation {
        Operation::Read => during.read(root, task, &mut buffer[..1]),
        Operation::Write => during.write(root, task, &buffer[..1]),
        Operation::Fetch => during.fetch(root, task, &mut buffer[..1]),
        Operation::Load => during.load(root, task, END),
        _ => during.dump(root, task, &mut buffer).map(|_| ()),
    }
}

#[test]
fn a_lease_is_four_numbers_of_16_bits() {
    let lease = Lease { number: 0x0102, tag: 0x0304, opening: 0x0506, closing: 0x0708 };
    assert_eq!(lease.to_bytes(), [2, 1, 4, 3, 6, 5, 8, 7]);
    assert_eq!(Lease::from_bytes(lease.to_bytes()), lease);
    let early = Lease { opening: 360, closing: 840, ..Lease::default() };
    assert_eq!((early.to_bytes(), Lease::of(Token::ROOT, 360, 840)), (EARLY[0], Some(early)));
}

#[test]
fn a_lease_is_of_a_number_and_a_tag_in_any_encoding() {
    let tokens = [
        0x048D_0005_0000_000C,
        0x448D_0000_0000_0005,
        0x848D_0000_0005_000C,
        0xC48D_0000_0500_000C,
    ];
    for token in tokens.map(Token) {
        let lease = Lease::of(token, 1, 2).expect("number 5");
        assert_eq!((lease.number, lease.tag), (5, 0x1234));
        assert!(tokens.into_iter().all(|other| lease.is_of(Token(other))));
        let strange = Lease { tag: 0x1235, ..lease };
        assert!(!strange.is_of(token) && !Lease { number: 6, ..lease }.is_of(token));
    }
    let last = Token(1 << 62 | 0xffff);
    assert_eq!(Lease::of(last, 1, 2).map(|lease| lease.number), Some(0xffff));
    assert_eq!(Lease::of(Token(last.0 + 1), 1, 2), None);
    assert!(!Lease::of(Token(1 << 62), 1, 2).expect("number 0").is_of(Token(last.0 + 1)));
}

#[test]
fn a_minute_of_a_day() {
    assert_eq!(minute_of(0, 0, 0), 0);
    assert_eq!((minute_of(4, 22, 30), minute_of(6, 23, 59)), (7_110, WEEK - 1));
}

/// Opening is included, closing is not; the leases are only read.
#[test]
fn each_access_is_under_its_shift() {
    let (mut table, mut memory) = ([0; 4 * 32], [7; 8]);
    let mut bridge = begun(&mut table, &mut memory);
    for operation in LEASED {
        let mut at = |minute| during(&mut bridge, Shift { minute, leases: &EARLY }, operation);
        assert_eq!([359, 840, 9_999].map(&mut at), [Err(Refusal::Closed); 3], "{operation:?}");
        assert_eq!([360, 361, 839].map(&mut at), [Ok(()); 3], "{operation:?}");
        assert_eq!([WEEK, u64::MAX].map(&mut at), [Err(Refusal::Request); 2], "{operation:?}");
    }
}

#[test]
fn bad_leases_are_refused_whoever_they_are_for() {
    let (mut table, mut memory) = ([0; 4 * 32], [7; 8]);
    let mut bridge = begun(&mut table, &mut memory);
    let strange = Lease { number: 9, tag: 9, opening: 5, closing: 6 };
    for bad in [
        Lease { closing: 5, ..strange },
        Lease { closing: 10_080, ..strange },
        Lease { opening: 10_080, ..strange },
    ] {
        let leases = [strange.to_bytes(), bad.to_bytes()];
        for operation in LEASED {
            let refused = during(&mut bridge, Shift { minute: 5, leases: &leases }, operation);
            assert_eq!(refused, Err(Refusal::Lease), "{operation:?} {bad:?}");
            let fine = during(&mut bridge, Shift { minute: 5, leases: &leases[..1] }, operation);
            assert_eq!(fine, Ok(()), "{operation:?}");
        }
    }
}

#[test]
fn at_most_64_leases_are_lent() {
    let (mut table, mut memory) = ([0; 4 * 32], [7; 8]);
    let mut bridge = begun(&mut table, &mut memory);
    let closed = Lease { number: 9, tag: 9, opening: 5, closing: 6 }.to_bytes();
    let most = LEASES_BYTES / LEASE_BYTES;
    for (count, expected) in [(0, Ok(())), (most, Ok(())), (most + 1, Err(Refusal::Request))] {
        let leases = vec![closed; count];
        let read = during(&mut bridge, Shift { minute: 0, leases: &leases }, Operation::Read);
        assert_eq!(read, expected, "{count} leases");
    }
}

/// Without a shift there is none.
#[test]
fn calls_without_a_shift_are_as_before() {
    let (mut table, mut memory) = ([0; 4 * 32], [7; 8]);
    let mut bridge = begun(&mut table, &mut memory);
    let closed = Shift { minute: 0, leases: &EARLY };
    assert_eq!(bridge.during(closed).write(Token::ROOT, Task::NONE, &[1]), Err(Refusal::Closed));
    assert_eq!(bridge.write(Token::ROOT, Task::NONE, &[1]), Ok(()));
    let child = Request::Derive {
        token: Token::ROOT,
        offset: 0,
        length: 8,
        permissions: bridge::Permissions::ALL,
        encoding: bridge::Encoding::E0,
    };
    let child = bridge.ask(&child).expect("a child").first;
    assert_eq!(bridge.during(closed).write(child, Task::NONE, &[1]), Ok(()), "what is derived");
}

/// A world after a reset, for calls with words.
fn world() -> (State, [u8; 128], [u8; 8]) {
    let (mut state, mut table, mut memory) = (State::default(), [0; 128], [7; 8]);
    let reset = Request::Reset { key: [0, 0], first_nonce: 1 }.words();
    assert_eq!(serve(&reset, &mut state, &mut table, &mut memory, &mut []).refusal, 0);
    (state, table, memory)
}

fn buffer_of(operation: Operation) -> Vec<u8> {
    match operation {
        Operation::Load => END.to_vec(),
        Operation::Dump => vec![0; 64],
        _ => vec![0; 1],
    }
}

/// `northbridge_serve` does not look at the word of a minute; `northbridge_serve_leased` does.
#[test]
fn without_leases_no_minute_is_looked_at() {
    let (mut state, mut table, mut memory) = world();
    for operation in LEASED {
        let plain = Words::access(operation, Token::ROOT, Task::NONE);
        for minute in [0, 1, WEEK - 1, WEEK, u64::MAX] {
            let request = Words { second: minute, ..plain };
            let mut buffer = buffer_of(operation);
            let reply = serve(&request, &mut state, &mut table, &mut memory, &mut buffer);
            assert_eq!(reply.refusal, 0, "{operation:?} {minute}");
            let (table, memory) = (&mut table, &mut memory);
            let leased = serve_leased(&request, &mut state, table, memory, &mut buffer, &[]);
            assert_eq!(leased.refusal, u64::from(minute >= WEEK), "{operation:?} {minute}");
            assert_eq!(is_plain(&request, &[]), minute == 0);
        }
        assert!(!is_plain(&plain, &[0]));
    }
    let merge = Words { operation: Operation::Merge as u64, second: 5, ..Words::default() };
    assert!(is_plain(&merge, &[]) && !is_plain(&merge, &[0]));
}

/// Leases of any bytes are nothing to requests that are no access.
#[test]
fn other_requests_do_not_look_at_leases() {
    let broken: [&[u8]; 4] = [&[0; 8], &[0xff; 8], &[1; 24], &[0; LEASES_BYTES]];
    for operation in Operation::ALL.into_iter().filter(|operation| !operation.is_leased()) {
        let words = Words { operation: operation as u64, task: 1, length: 1, ..Words::default() };
        for leases in broken {
            let (mut state, mut table, mut memory) = world();
            let (mut other, mut others, mut bytes) = (state, table, memory);
            let reply = serve(&words, &mut state, &mut table, &mut memory, &mut []);
            let leased = serve_leased(&words, &mut other, &mut others, &mut bytes, &mut [], leases);
            assert_eq!((reply, state), (leased, other), "{operation:?}");
            assert!(table == others && memory == bytes, "{operation:?}");
        }
    }
}

/// A table of no whole number of leases, or of too many, is a bad request, whatever is asked.
#[test]
fn leases_of_a_wrong_size_are_refused_with_any_request() {
    let wrong: [&[u8]; 4] = [&[0; 1], &[1; 7], &[0; LEASES_BYTES + 1], &[0; LEASES_BYTES + 8]];
    for operation in Operation::ALL {
        let words = Words { operation: operation as u64, task: 1, length: 1, ..Words::default() };
        for leases in wrong {
            let (mut state, mut table, mut memory) = world();
            let (before, mut buffer) = ((state, table, memory), buffer_of(operation));
            let (part, rest) = (&mut table, &mut memory);
            let reply = serve_leased(&words, &mut state, part, rest, &mut buffer, leases);
            assert_eq!(reply.refusal, 1, "{operation:?}");
            assert_eq!(((state, table, memory), buffer), (before, buffer_of(operation)));
        }
    }
}

/// Slices of other lengths are refused by both, and leave an answer of another length as it was.
#[test]
fn other_lengths_are_refused_by_both() {
    let request = Words::access(Operation::Read, Token::ROOT, Task::NONE);
    let mut asked = [0; REQUEST_BYTES];
    put_words(&mut asked, &request.in_order());
    let (mut table, mut memory, mut buffer) = ([0; 128], [0; 8], [0; 1]);
    for (request, state, answer) in [
        (REQUEST_BYTES - 1, STATE_BYTES, ANSWER_BYTES),
        (REQUEST_BYTES, STATE_BYTES - 1, ANSWER_BYTES),
        (REQUEST_BYTES, STATE_BYTES, ANSWER_BYTES - 1),
    ] {
        let (mut state, mut told) = (vec![0; state], vec![9; answer]);
        let lent = (&mut table, &mut memory, &mut buffer);
        let asked = &asked[..request];
        assert_eq!(call(asked, &mut state, lent.0, lent.1, lent.2, &mut told), 1);
        let (mut again, before) = (vec![9; answer], told.clone());
        let leased = call_leased(asked, &mut state, lent.0, lent.1, lent.2, &mut again, &EARLY[0]);
        assert_eq!((leased, again), (1, before));
    }
}
