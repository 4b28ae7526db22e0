//! 02, paper 4: shift windows.

mod common;
use common::{is_access, lease, record, Dice, Rig};
use model::operation::*;
use model::Request;

const WEEK: u64 = 10_080;
const ACCESSES: [u64; 5] = [READ, WRITE, FETCH, LOAD, DUMP];

/// A text that writes one byte.
fn text() -> Vec<u8> {
    [record(0, 0, &[0x5A]), record(1, 0, &[])].concat()
}

/// A buffer with which a request of this operation is granted.
fn buffer(operation: u64) -> Vec<u8> {
    match operation {
        LOAD => text(),
        DUMP => vec![0; 1_000],
        _ => vec![0x77; 4],
    }
}

/// What each access through a token gets at a minute: read, write, fetch, load, dump.
fn all(rig: &Rig, token: u64, minute: u64) -> [u64; 5] {
    ACCESSES.map(|operation| {
        let request = Request { operation, token, second: minute, ..Request::default() };
        rig.clone().ask_with(request, &mut buffer(operation)).refusal
    })
}

/// The one refusal that all five accesses get.
fn at(rig: &Rig, token: u64, minute: u64) -> u64 {
    let [first, rest @ ..] = all(rig, token, minute);
    assert_eq!(rest, [first; 4]);
    first
}

/// A machine with these leases, given as token, opening and closing.
fn leased(rig: &Rig, leases: &[(u64, u16, u16)]) -> Rig {
    let bytes = leases.iter().flat_map(|&(token, opening, closing)| lease(token, opening, closing));
    Rig { leases: bytes.collect(), ..rig.clone() }
}

/// A part, a child of it and a child of that: numbers 1 to 3.
fn line() -> (Rig, [u64; 3]) {
    let mut rig = Rig::new(256, 8);
    let part = rig.create(0, 64, 7).first;
    let child = rig.derive(part, 0, 32, 7).first;
    let below = rig.derive(child, 0, 16, 7).first;
    (rig, [part, child, below])
}

/// "Opening is included, closing is not."
#[test]
fn a_window_inside_the_week() {
    let rig = Rig::new(64, 2);
    for (opening, closing) in [(360, 840), (0, 1), (0, 10_079), (10_078, 10_079), (255, 256)] {
        let rig = leased(&rig, &[(0, opening, closing)]);
        for minute in 0..WEEK {
            let open = (u64::from(opening)..u64::from(closing)).contains(&minute);
            let ask = Request { operation: READ, second: minute, ..Request::default() };
            let refusal = rig.clone().ask_with(ask, &mut [0]).refusal;
            assert_eq!(refusal, if open { 0 } else { 15 }, "{minute}");
        }
    }
    let rig = leased(&rig, &[(0, 360, 840)]);
    assert_eq!([359, 360, 839, 840].map(|minute| at(&rig, 0, minute)), [15, 0, 0, 15]);
    assert_eq!((at(&rig, 0, 0), at(&rig, 0, WEEK - 1)), (15, 15));
}

/// "an opening later than its closing runs over the week's end"
#[test]
fn a_window_over_the_weeks_end() {
    let rig = Rig::new(64, 2);
    for (opening, closing) in [(9_600, 240), (10_079, 0), (10_079, 1), (1, 0), (10_079, 10_078)] {
        let rig = leased(&rig, &[(0, opening, closing)]);
        for minute in 0..WEEK {
            let closed = (u64::from(closing)..u64::from(opening)).contains(&minute);
            let ask = Request { operation: READ, second: minute, ..Request::default() };
            let refusal = rig.clone().ask_with(ask, &mut [0]).refusal;
            assert_eq!(refusal, if closed { 15 } else { 0 }, "{minute}");
        }
    }
    let rig = leased(&rig, &[(0, 9_600, 240)]);
    let minutes = [9_599, 9_600, WEEK - 1, 0, 239, 240];
    assert_eq!(minutes.map(|minute| at(&rig, 0, minute)), [15, 0, 0, 0, 0, 15]);
    // A shift that ends with the week closes at minute 0.
    let rig = leased(&rig, &[(0, 9_600, 0)]);
    let minutes = [9_599, 9_600, WEEK - 1, 0];
    assert_eq!(minutes.map(|minute| at(&rig, 0, minute)), [15, 0, 0, 15]);
}

/// "a number, a tag, an opening and a closing minute of the week, 16 bits
/// each, low byte first"
#[test]
fn a_lease_byte_by_byte() {
    let mut rig = Rig::new(64, 1_024);
    rig.state.last = 0x101;
    rig.derive(0, 0, 32, 7);
    rig.set(0x102, 208, 16, 0x1234);
    let token = rig.token(0x102);
    assert_eq!(at(&rig, token, 0), 0);
    rig.leases = vec![0x02, 0x01, 0x34, 0x12, 0x05, 0x04, 0x07, 0x06];
    let minutes = [0x404, 0x405, 0x606, 0x607];
    assert_eq!(minutes.map(|minute| at(&rig, token, minute)), [15, 0, 0, 15]);
    // Another number or another tag, in either byte: no lease of this token.
    for (byte, bit) in (0..4).flat_map(|byte| (0..8).map(move |bit| (byte, bit))) {
        let mut other = rig.clone();
        other.leases[byte] ^= 1 << bit;
        assert_eq!(at(&other, token, 0x404), 0, "{byte} {bit}");
    }
}

/// "A token without a lease is always open."
#[test]
fn no_leases() {
    let (mut rig, tokens) = line();
    // An empty table of leases is one of whole leases.
    for token in tokens {
        for minute in [0, 1, 5_000, WEEK - 1] {
            assert_eq!(at(&rig, token, minute), 0);
        }
    }
    // Leases on numbers that are free, beyond the table or have another tag.
    let [part, ..] = tokens;
    let others = [part ^ 1 << 46, part ^ 1 << 61, part & !(0x3FFF << 32), 7 << 32, 8 << 32];
    rig = leased(&rig, &others.map(|token| (token, 10, 20)));
    rig.leases.extend([1, 0x80, (part >> 46) as u8, (part >> 54) as u8, 10, 0, 20, 0]);
    assert_eq!((at(&rig, part, 9), at(&rig, part, 15), at(&rig, part, 20)), (0, 0, 0));
}

/// "with several, any open one suffices"
#[test]
fn several_leases() {
    let (rig, [part, child, _]) = line();
    let mut windows =
        [(part, 100, 200), (child, 0, 10_079), (part, 300, 400), (part, 9_000, 50), (0, 5, 6)];
    let minutes = [49, 50, 99, 100, 199, 200, 299, 300, 399, 400, 8_999, 9_000, 0];
    let wanted = [0, 15, 15, 0, 0, 15, 15, 0, 0, 15, 15, 0, 0];
    for _ in 0..windows.len() {
        windows.rotate_left(1);
        let rig = leased(&rig, &windows);
        assert_eq!(minutes.map(|minute| at(&rig, part, minute)), wanted);
        assert_eq!((at(&rig, child, 8_999), at(&rig, child, 10_079)), (0, 15));
    }
    // One inside another, neighbours, the same one twice.
    let rig = leased(&rig, &[(part, 10, 90), (part, 40, 50), (part, 90, 95), (part, 90, 95)]);
    let minutes = [9, 10, 45, 50, 89, 90, 94, 95];
    assert_eq!(minutes.map(|minute| at(&rig, part, minute)), [15, 0, 0, 0, 0, 0, 0, 15]);
    // Two that leave no minute out.
    let rig = leased(&rig, &[(part, 0, 5_000), (part, 5_000, 0)]);
    for minute in [0, 4_999, 5_000, WEEK - 1] {
        assert_eq!(at(&rig, part, minute), 0);
    }
}

/// "Up to 64 leases": the last of them counts as the first does.
#[test]
fn sixty_four_leases() {
    let (rig, [part, child, _]) = line();
    let mut windows: Vec<_> =
        (0..64).map(|at| (child, 100 * at as u16, 100 * at as u16 + 1)).collect();
    let each = leased(&rig, &windows);
    for minute in 0..6_500 {
        let refusal = Rig { minute, ..each.clone() }.access(READ, child, 1, 0);
        assert_eq!(refusal, if minute % 100 == 0 && minute < 6_400 { 0 } else { 15 });
    }
    for last in [0, 63] {
        windows.fill((child, 7, 8));
        windows[last] = (part, 7, 8);
        assert_eq!((at(&leased(&rig, &windows), part, 6), at(&rig, part, 6)), (15, 0));
        windows.fill((part, 7, 8));
        windows[last] = (part, 6, 7);
        let rig = leased(&rig, &windows);
        assert_eq!([5, 6, 7, 8].map(|minute| at(&rig, part, minute)), [15, 0, 0, 15]);
    }
}

/// "A token without a lease is always open", a derived one too, and the one
/// that it was derived from.
#[test]
fn a_lease_binds_its_own_token() {
    let (rig, tokens) = line();
    for (named, token) in tokens.into_iter().enumerate() {
        let rig = leased(&rig, &[(token, 10, 20)]);
        for (other, token) in tokens.into_iter().enumerate() {
            let closed = if other == named { 15 } else { 0 };
            assert_eq!((at(&rig, token, 9), at(&rig, token, 10)), (closed, 0));
        }
    }
    // A token issued anew is another token, though its number is the same.
    let [part, ..] = tokens;
    let mut rig = leased(&rig, &[(part, 10, 20)]);
    let new = rig.simple(REVOKE, part).first;
    assert_eq!((at(&rig, new, 9), at(&rig, part, 9), at(&rig, part, 10)), (0, 2, 2));
    // A clone counts one more holder of the same token.
    let mut rig = leased(&rig, &[(new, 10, 20)]);
    assert_eq!(rig.simple(CLONE, new).refusal, 0);
    assert_eq!((at(&rig, new, 9), at(&rig, new, 10)), (15, 0));
}

/// 01: "Any encoding with the right number and tag names the entry; \"the same
/// token\" means these two."
#[test]
fn any_encoding_and_any_offset() {
    let (rig, [part, ..]) = line();
    let rig = leased(&rig, &[(part, 10, 20)]);
    let tag = part & 0xFFFF << 46;
    for token in [part, 1 << 62 | tag | 1, 2 << 62 | tag | 1 << 16, 3 << 62 | tag | 1 << 24] {
        assert_eq!([9, 10, 19, 20].map(|minute| at(&rig, token, minute)), [15, 0, 0, 15]);
        if token >> 62 != 1 {
            let ask = |minute| Rig { minute, ..rig.clone() }.access(READ, token + 60, 4, 0);
            assert_eq!([9, 10, 19, 20].map(ask), [15, 0, 0, 15]);
        }
    }
    // A larger number whose low 16 bits are the lease's is beyond the table.
    for high in [1 << 16, 1 << 32, 1 << 45] {
        assert_eq!(at(&rig, 1 << 62 | tag | 1 | high, 9), 2);
    }
}

/// A granted request of each operation, to be changed.
fn ask(operation: u64, change: &dyn Fn(&mut Request, &mut Rig)) -> u64 {
    let mut rig = Rig::new(64, 8);
    let mut request = Request { operation, length: 1, task: 1, ..Request::default() };
    if operation == MERGE {
        let made = rig.create(0, 8, 7);
        (request.token, request.second) = (made.first, made.second);
    }
    if operation == DROP {
        rig.simple(CLONE, 0);
    }
    if operation == UNLOCK {
        rig.lock(0, 1);
    }
    change(&mut request, &mut rig);
    rig.ask_with(request, &mut buffer(operation)).refusal
}

/// "15 ...; 16 ...; both accesses only"
#[test]
fn other_requests_pass_outside_shifts() {
    for operation in RESET..=DUMP {
        let refusal = |number| if is_access(operation) { number } else { 0 };
        let closed = |request: &mut Request, rig: &mut Rig| {
            let named = [request.token, request.second].map(|token| lease(token, 10, 20));
            rig.leases = named.concat();
            if is_access(operation) {
                rig.leases = lease(request.token, 10, 20);
            }
        };
        assert_eq!(ask(operation, &|_, _| ()), 0, "{operation}");
        assert_eq!(ask(operation, &closed), refusal(15), "{operation}");
        let unsound = |_: &mut Request, rig: &mut Rig| rig.leases = lease(0, 5, 5);
        assert_eq!(ask(operation, &unsound), refusal(16), "{operation}");
        let beyond = |_: &mut Request, rig: &mut Rig| rig.leases = lease(9 << 32, 10_080, 0);
        assert_eq!(ask(operation, &beyond), refusal(16), "{operation}");
    }
}

/// "a lent table of whole leases, at most 512 bytes, else 1"
#[test]
fn the_size_of_the_lent_table() {
    for operation in RESET..=DUMP {
        let sized = |size: usize, filled: u8| {
            ask(operation, &|_, rig| {
                rig.leases = lease(9 << 32, 10, 20).repeat(99);
                rig.leases[504..].fill(filled);
                rig.leases.truncate(size);
            })
        };
        for size in [0, 8, 16, 248, 256, 496, 504] {
            assert_eq!(sized(size, 0), 0, "{operation} {size}");
        }
        for size in [1, 2, 4, 7, 9, 15, 255, 257, 503, 505, 511, 513, 516, 519, 520, 528, 768] {
            assert_eq!((sized(size, 0), sized(size, 0xFF)), (1, 1), "{operation} {size}");
        }
        let whole = |_: &mut Request, rig: &mut Rig| {
            rig.leases = lease(9 << 32, 10, 20).repeat(64);
            assert_eq!(rig.leases.len(), 512);
        };
        assert_eq!(ask(operation, &whole), 0, "{operation}");
        let one_more =
            |_: &mut Request, rig: &mut Rig| rig.leases = lease(9 << 32, 10, 20).repeat(65);
        assert_eq!(ask(operation, &one_more), 1, "{operation}");
    }
}

/// "an access minute beyond the week is 1"
#[test]
fn the_minute_of_an_access() {
    let (rig, [part, child, _]) = line();
    let with = leased(&rig, &[(part, 10, 20)]);
    for rig in [&rig, &with] {
        assert_eq!((at(rig, child, 0), at(rig, child, WEEK - 1)), (0, 0));
        // Also where low bits would be a minute.
        for minute in [WEEK, WEEK + 10, 65_535, 1 << 16 | 15, 1 << 32 | 15, 1 << 63, u64::MAX] {
            assert_eq!((at(rig, part, minute), at(rig, child, minute)), (1, 1));
        }
    }
    // Other requests bring no minute: the word is another one, or none.
    for operation in [RESET, CREATE, EXECUTE_ONLY, CLONE, DROP, LOCK, UNLOCK, REVOKE] {
        for word in [WEEK, u64::MAX] {
            assert_eq!(ask(operation, &|request, _| request.second = word), 0, "{operation}");
        }
    }
    let mut rig = Rig::new(20_000, 8);
    assert_eq!(rig.derive(0, 15_000, 5_000, 7).refusal, 0);
}

/// "16 a lease whose minutes are equal or either is beyond the week"
#[test]
fn unsound_leases() {
    let (rig, [part, child, _]) = line();
    let refusal = |opening, closing| {
        // Whether the lease is the token's, another's or nobody's.
        let asked = [part, child, 9 << 32, part ^ 1 << 46].map(|token| {
            let rig = leased(&rig, &[(token, opening, closing)]);
            [0, 10_078, 10_079].map(|minute| at(&rig, part, minute))
        });
        let unsound = asked.as_flattened().iter().filter(|&&refusal| refusal == 16).count();
        assert!(unsound == 0 || unsound == 12);
        unsound != 0
    };
    for minute in [0, 1, 5_000, 10_078, 10_079] {
        assert!(refusal(minute, minute));
        for beyond in [10_080, 10_081, 16_384, 32_768, 65_535] {
            assert!(refusal(minute, beyond) && refusal(beyond, minute));
            assert!(refusal(beyond, beyond) && refusal(beyond, beyond - 1));
        }
    }
    for (opening, closing) in [(0, 1), (1, 0), (0, 10_079), (10_079, 0), (10_079, 10_078)] {
        assert!(!refusal(opening, closing));
    }
    // A lease of zeros is one on the root whose minutes are equal.
    assert!(Rig { leases: vec![0; 8], ..rig.clone() }.access(READ, part, 1, 0) == 16);
    // At any place among others, though one of the token's own is open.
    for place in 0..64 {
        let mut windows = vec![(part, 10, 20); 64];
        assert_eq!(at(&leased(&rig, &windows), part, 15), 0);
        for bad in [(part, 9, 9), (child, 9, 9), (9 << 32, 10_080, 9), (0, 9, 10_080)] {
            windows[place] = bad;
            assert_eq!(at(&leased(&rig, &windows), part, 15), 16);
        }
    }
}

/// What stands against an access, mended one by one: 1, 12, 13, 16, 2, 3, 4,
/// 5, 15, 7, 8, 14.
#[test]
fn the_order_of_checks() {
    let mut rig = Rig::new(256, 8);
    let part = rig.create(0, 64, 7).first;
    let token = rig.derive(part, 0, 32, 0).first;
    rig.lock(token, 7);
    let outside = record(0, 32, &[1]);
    let malformed = [outside.clone(), record(9, 0, &[]), record(1, 0, &[])].concat();
    let mut checksum = [outside.clone(), record(1, 0, &[])].concat();
    checksum[outside.len() - 2] ^= 1;
    let sound = [outside, record(1, 0, &[])].concat();
    // The first is closed, the second is unsound, the third lacks a byte.
    let shut = lease(token, 10, 20);
    let unsound = [shut.clone(), lease(0, 3, 3)].concat();
    let broken = unsound[..15].to_vec();
    let ask = |rig: &Rig, token: u64, leases: &Vec<u8>, minute, text: &[u8], task| {
        let rig = Rig { leases: leases.clone(), minute, ..rig.clone() };
        let reads = [READ, WRITE, FETCH]
            .map(|operation| rig.clone().access(operation, token | 31, 2, task));
        assert_eq!(reads, [reads[0]; 3]);
        let load = rig.clone().load(token, text, task);
        (reads[0], load, rig.clone().dump(token, 0, task).unwrap_err())
    };
    let other_tag = token ^ 1 << 46;
    let mut bad = rig.clone();
    bad.set(2, 207, 1, 1);
    // 1, of the table's size and of the minute, before 16 and all else.
    assert_eq!(ask(&bad, other_tag, &broken, 9, &malformed, 8), (1, 1, 1));
    assert_eq!(ask(&bad, other_tag, &unsound, WEEK, &malformed, 8), (1, 1, 1));
    assert_eq!(ask(&bad, other_tag, &unsound, 9, &malformed, 1 << 55), (1, 1, 1));
    // 12 and 13 before 16: "after the same place ... by rising number" (01).
    assert_eq!(ask(&bad, other_tag, &unsound, 9, &malformed, 8), (16, 12, 16));
    assert_eq!(ask(&bad, other_tag, &unsound, 9, &checksum, 8), (16, 13, 16));
    assert_eq!(ask(&bad, other_tag, &unsound, 9, &sound, 8), (16, 16, 16));
    // 16 before 2 to 5.
    assert_eq!(ask(&bad, other_tag, &shut, 9, &sound, 8), (2, 2, 2));
    assert_eq!(ask(&bad, token, &unsound, 9, &sound, 8), (16, 16, 16));
    assert_eq!(ask(&bad, token, &shut, 9, &sound, 8), (3, 3, 3));
    let mut dead = rig.clone();
    dead.set(1, 208, 16, rig.tag(1) ^ 1);
    assert_eq!(ask(&dead, token, &unsound, 9, &sound, 8), (16, 16, 16));
    assert_eq!(ask(&dead, token, &shut, 9, &sound, 8), (4, 4, 4));
    assert_eq!(ask(&rig, token, &unsound, 9, &sound, 8), (16, 16, 16));
    assert_eq!(ask(&rig, token, &shut, 9, &sound, 8), (5, 5, 5));
    // 15 after the lock, whose holder is bound as well, and before 7, 8 and 14.
    assert_eq!(ask(&rig, token, &shut, 9, &malformed, 7), (15, 12, 15));
    assert_eq!(ask(&rig, token, &shut, 9, &checksum, 7), (15, 13, 15));
    assert_eq!(ask(&rig, token, &shut, 9, &sound, 7), (15, 15, 15));
    assert_eq!(ask(&rig, token, &shut, 10, &sound, 7), (7, 7, 7));
    rig.set(2, 202, 3, 7);
    assert_eq!(ask(&rig, token, &unsound, 9, &sound, 7), (16, 16, 16));
    assert_eq!(ask(&rig, token, &shut, 9, &sound, 7), (15, 15, 15));
    assert_eq!(ask(&rig, token, &shut, 20, &sound, 7), (15, 15, 15));
    assert_eq!(ask(&rig, token, &shut, 19, &sound, 7), (8, 8, 14));
    assert_eq!(ask(&rig, token, &shut, 19, &sound, 8), (5, 5, 5));
}

/// A load that writes nothing is an access all the same.
#[test]
fn a_load_without_bytes() {
    let rig = leased(&Rig::new(64, 2), &[(0, 10, 20)]);
    let load = |minute| Rig { minute, ..rig.clone() }.load(0, &record(1, 0, &[]), 0);
    assert_eq!([9, 10, 19, 20].map(load), [15, 0, 0, 15]);
}

/// "no minute is remembered, so a clock set back is harmless"
#[test]
fn a_clock_set_back() {
    let mut rig = leased(&Rig::new(64, 2), &[(0, 10, 20)]);
    let state = rig.state;
    for minute in [15, 25, 15, 9, 19, WEEK - 1, 10, 0, 12, 11, 10] {
        rig.minute = minute;
        let open = (10..20).contains(&minute);
        assert_eq!(rig.access(WRITE, 0, 1, 0), if open { 0 } else { 15 });
        assert_eq!(rig.state, state);
    }
}

/// "The secrecy of a locked buffer holds for two copies given the same leases
/// and minutes."
#[test]
fn a_locked_segment_tells_nothing() {
    let mut rig = Rig::new(64, 4);
    rig.lock(0, 7);
    for leases in [vec![], lease(0, 10, 20), lease(0, 5, 5), vec![0; 3]] {
        rig.leases = leases;
        let other = Rig { memory: vec![0x99; 64], ..rig.clone() };
        for minute in [9, 10, 19, 20, WEEK] {
            assert_eq!(all(&rig, 0, minute), all(&other, 0, minute));
        }
    }
}

/// Whether a clock that runs on from the opening meets the minute before the
/// closing.
fn meets(opening: u16, closing: u16, minute: u64) -> bool {
    let mut clock = u64::from(opening);
    while clock != u64::from(closing) {
        if clock == minute {
            return true;
        }
        clock = (clock + 1) % WEEK;
    }
    false
}

#[test]
fn any_leases() {
    let (rig, tokens) = line();
    let mut dice = Dice(41);
    let mut seen = [0; 17];
    for _ in 0..2_000 {
        let near = |dice: &mut Dice| match dice.below(40) {
            0 => WEEK as u16,
            low if low < 20 => low as u16,
            high => (WEEK - (high - 19)) as u16,
        };
        let windows: Vec<_> = (0..dice.below(7))
            .map(|_| (dice.one_of(&tokens), near(&mut dice), near(&mut dice)))
            .collect();
        let (token, minute) = (dice.one_of(&tokens), u64::from(near(&mut dice)));
        let sound = windows.iter().all(|&(_, opening, closing)| {
            let inside = |minute| u64::from(minute) < WEEK;
            inside(opening) && inside(closing) && opening != closing
        });
        let mut own = windows.iter().filter(|&&(named, ..)| named == token).peekable();
        let refusal = if minute >= WEEK {
            1
        } else if !sound {
            16
        } else if own.peek().is_none() || own.any(|&(_, from, to)| meets(from, to, minute)) {
            0
        } else {
            15
        };
        assert_eq!(at(&leased(&rig, &windows), token, minute), refusal, "{windows:?} {minute}");
        seen[refusal as usize] += 1;
    }
    assert!([0, 1, 15, 16].iter().all(|&refusal| seen[refusal] > 20), "{seen:?}");
}
