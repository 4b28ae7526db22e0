//! 02, paper 6: paging out idle buffers.

mod common;
use common::{freed, lease, record, tag_under, Rig, SPENT};
use model::operation::*;
use model::{Answer, Request};

const PAGE_FILE: u64 = 0x8123_4567_89AB_CDEF;
const USER: u64 = 0xFEDC_BA98_7654_3211;

fn granted(answer: Answer) -> Answer {
    assert_eq!(answer.refusal, 0);
    answer
}

fn stop(answer: Answer) -> (u64, u64) {
    (answer.refusal, answer.place)
}

fn out(token: u64) -> Request {
    Request { operation: PAGE_OUT, token, second: PAGE_FILE, ..Request::default() }
}

fn back(token: u64, donor: u64) -> Request {
    Request { operation: PAGE_IN, token, second: donor, ..Request::default() }
}

/// What a request with a buffer of so many bytes gets from a copy of the machine.
fn ask(rig: &Rig, request: Request, bytes: usize) -> (u64, u64) {
    stop(rig.clone().ask_with(request, &mut vec![0x77; bytes]))
}

/// Two parts of 16 bytes, number 1 with a user and R alone and number 2, before
/// the rest of 64; no two bytes of memory are equal.
fn parts() -> (Rig, [u64; 2]) {
    let mut rig = Rig::new(64, 6);
    rig.memory = (1..=64).collect();
    let request =
        Request { operation: CREATE, length: 16, user: USER, permissions: 4, ..Request::default() };
    let one = granted(rig.ask(request));
    let two = granted(rig.create(one.second, 16, 7));
    (rig, [one.first, two.first])
}

/// Number 1 is out; its segment is that of number 3, the donor is number 2.
fn paged() -> (Rig, [u64; 2]) {
    let (mut rig, [one, two]) = parts();
    let paged = granted(rig.page_out(one, PAGE_FILE, 16).0).first;
    (rig, [paged, two])
}

/// "the bytes go to a caller's buffer, the entry becomes type 3 and is issued
/// anew; the zeroed segment becomes a new direct entry with R, W, X, Lockable and
/// user 0, issued second; both tokens are answered in that order"
#[test]
fn out_leaves_two_entries() {
    for (encoding, lockable) in [(0, 1), (1, 0), (2, 1), (3, 0)] {
        let (mut rig, [one, two]) = parts();
        rig.set(1, 206, 1, lockable);
        let before = rig.clone();
        let mut buffer = vec![0xB5; 16];
        let answer = granted(rig.ask_with(Request { encoding, ..out(one) }, &mut buffer));
        assert_eq!(buffer, before.memory[..16]);
        assert_eq!((&rig.memory[..16], &rig.memory[16..]), (&[0; 16][..], &before.memory[16..]));
        // Type, page-file number, length, 39 zeros, user, R W X, Locked, Lockable, CoW.
        let at = [(0, 3), (3, 64), (67, 32), (99, 39), (138, 64), (202, 3), (205, 1)];
        let fields = at.map(|(from, width)| rig.bits(1, from, width));
        assert_eq!(fields, [3, PAGE_FILE, 16, 0, USER, 4, 0]);
        assert_eq!((rig.lockable(1), rig.bits(1, 207, 1)), (lockable, 0));
        // The new one, over the same bytes.
        assert_eq!((rig.kind(3), rig.base(3), rig.length(3), rig.count(3)), (1, 0, 16, 0));
        assert_eq!((rig.holder(3), rig.user(3), rig.permissions(3)), (0, 0, 7));
        assert_eq!((rig.locked(3), rig.lockable(3), rig.bits(3, 207, 1)), (0, 1, 0));
        // Their nonces in turn, their tokens in the encoding asked for.
        let next = before.state.next;
        assert_eq!((rig.nonce(1), rig.nonce(3), rig.state.next), (next, next + 1, next + 2));
        assert_eq!(rig.tag(1), tag_under(&rig, 1, next));
        assert_eq!(rig.tag(3), tag_under(&rig, 3, next + 1));
        let widths = [32, 0, 16, 24];
        let word = |number: usize| {
            let low = (number as u64) << widths[encoding as usize];
            encoding << 62 | rig.tag(number) << 46 | low
        };
        assert_eq!((answer.first, answer.second), (word(1), word(3)));
        assert_eq!((rig.state.last, rig.state.total), (3, before.state.total - 1));
        // The old token names nothing, the new ones what the papers say.
        assert_eq!((rig.access(READ, one, 1, 0), rig.access(READ, answer.first, 1, 0)), (2, 17));
        assert_eq!(rig.read(rig.token(3), 16, 0), Ok(vec![0; 16]));
        assert_eq!((rig.entry(0), rig.entry(2)), (before.entry(0), before.entry(2)));
        assert_eq!(rig.access(READ, two, 16, 0), 0);
    }
}

/// "the buffer's bytes land in the donor's segment, the paged entry becomes direct
/// there, is issued anew, its token answered, and the donor is freed"
#[test]
fn in_makes_it_direct_at_the_donors_place() {
    for lockable in [0, 1] {
        let (mut rig, [paged, two]) = paged();
        rig.set(1, 206, 1, lockable);
        let before = rig.clone();
        let bytes: Vec<u8> = (101..117).collect();
        let answer = granted(rig.page_in(paged, two, &bytes));
        assert_eq!((rig.kind(1), rig.base(1), rig.length(1), rig.count(1)), (1, 16, 16, 0));
        assert_eq!((rig.holder(1), rig.user(1), rig.permissions(1)), (0, USER, 4));
        assert_eq!((rig.locked(1), rig.lockable(1), rig.bits(1, 207, 1)), (0, lockable, 0));
        assert_eq!((rig.nonce(1), rig.state.next), (before.state.next, before.state.next + 1));
        assert_eq!(rig.tag(1), tag_under(&rig, 1, before.state.next));
        assert_eq!((answer.first, answer.second), (rig.token(1), 0));
        assert_eq!(rig.entry(2), freed(two));
        let free = before.state.total + 1;
        assert_eq!((rig.state.last, rig.state.total), (before.state.last, free));
        assert_eq!(rig.memory[16..32], bytes);
        assert_eq!((&rig.memory[..16], &rig.memory[32..]), (&[0; 16][..], &before.memory[32..]));
        for gone in [paged, two] {
            assert_eq!(rig.access(READ, gone, 1, 0), 2);
        }
        assert_eq!(rig.read(answer.first, 16, 0), Ok(bytes));
    }
}

/// Out, then in with the bytes that came out: into another segment of equal
/// length, and into the one that they came from.
#[test]
fn a_round_trip() {
    for donor in [2, 3] {
        let (mut rig, [one, _]) = parts();
        let before = rig.memory[..16].to_vec();
        let (answer, bytes) = rig.page_out(one, 7, 16);
        let donor_token = rig.token(donor);
        let token = granted(rig.page_in(answer.first, donor_token, &bytes)).first;
        assert_eq!(rig.read(token, 16, 0), Ok(before));
        assert_eq!((rig.user(1), rig.permissions(1), rig.lockable(1)), (USER, 4, 1));
        assert_eq!(rig.base(1), if donor == 2 { 16 } else { 0 });
        assert_eq!(rig.entry(donor), freed(donor_token));
        // And out once more, with another page-file number.
        let (again, bytes) = rig.page_out(token, u64::MAX, 16);
        assert_eq!((again.refusal, rig.page_file(1)), (0, u64::MAX));
        assert_eq!(bytes, (1..=16).collect::<Vec<u8>>());
    }
}

/// Nothing is said of two entries with one page-file number, and any is allowed.
#[test]
fn any_page_file_number() {
    let (mut rig, [one, two]) = parts();
    for (number, token) in [(1, one), (2, two)] {
        granted(rig.page_out(token, u64::MAX, 16).0);
        assert_eq!(rig.page_file(number), u64::MAX);
    }
    let rest = rig.token(0);
    granted(rig.page_out(rest, 0, 32).0);
    assert_eq!(rig.page_file(0), 0);
}

/// Neither R nor W is asked for, of the entry or of the donor.
#[test]
fn no_right_is_needed() {
    for permissions in 0..8 {
        let (mut rig, [one, two]) = parts();
        rig.set(1, 202, 3, permissions);
        rig.set(2, 202, 3, 7 - permissions);
        let (answer, bytes) = rig.page_out(one, 0, 16);
        granted(rig.page_in(answer.first, two, &bytes));
        assert_eq!((rig.permissions(1), rig.permissions(3)), (permissions, 7));
    }
}

/// Place 1: the words of both, the sizes and the state.
#[test]
fn the_request() {
    let (direct, [one, _]) = parts();
    let (rig, [paged, two]) = paged();
    let both = |change: &dyn Fn(&mut Request, &mut Rig)| {
        [(&direct, out(one)), (&rig, back(paged, two))].map(|(rig, mut request)| {
            let mut rig = rig.clone();
            change(&mut request, &mut rig);
            ask(&rig, request, 16).0
        })
    };
    assert_eq!(both(&|_, _| ()), [0, 0]);
    assert_eq!(both(&|request, _| request.token |= 1), [1, 1]);
    // The second word is a token in a page-in alone.
    assert_eq!(both(&|request, _| request.second |= 1), [0, 1]);
    assert_eq!(both(&|request, _| request.second ^= 1), [0, 1]);
    for task in [1 << 55, 1 << 55 | 7, u64::MAX] {
        assert_eq!(both(&|request, _| request.task = task), [1, 1]);
    }
    assert_eq!(both(&|request, _| request.task = (1 << 55) - 1), [0, 0]);
    assert_eq!(both(&|request, _| request.encoding = 4), [1, 1]);
    // Words that they do not use.
    let junk = |request: &mut Request, _: &mut Rig| {
        (request.length, request.user, request.permissions) = (0, u64::MAX, u64::MAX);
    };
    assert_eq!(both(&junk), [0, 0]);
    assert_eq!(both(&|_, rig| rig.state.last = 6), [1, 1]);
    assert_eq!(both(&|_, rig| rig.state.next = SPENT + 1), [1, 1]);
    assert_eq!(both(&|_, rig| rig.state.total = 6), [1, 1]);
    assert_eq!(both(&|_, rig| rig.table.push(0)), [1, 1]);
    assert_eq!(both(&|_, rig| rig.memory.clear()), [1, 1]);
    assert_eq!(both(&|_, rig| rig.leases = vec![0]), [1, 1]);
    // 1 is before all else.
    assert_eq!(ask(&direct, Request { task: u64::MAX, ..out(9 << 32) }, 0), (1, 0));
    assert_eq!(ask(&rig, Request { encoding: 4, ..back(9 << 32, 9 << 32) }, 0), (1, 0));
    assert_eq!(ask(&rig, back(9 << 32, two | 1), 0), (1, 0));
}

/// The buffer's length is for place 8: no transfer limit stands in the paper.
#[test]
fn buffers_of_any_length() {
    for length in [1, 2, 4_095, 4_096, 4_097, 65_537, 99_999] {
        let mut rig = Rig::new(2 * length + 1, 4);
        let one = granted(rig.create(0, length as u64, 7));
        let two = granted(rig.create(one.second, length as u64, 7)).first;
        rig.memory.iter_mut().zip(0..).for_each(|(byte, at)| *byte = at as u8 ^ (at >> 8) as u8);
        let wrong = [0, length - 1, length + 1, 2 * length, 2 * length + 1];
        for bytes in wrong {
            assert_eq!(ask(&rig, out(one.first), bytes), (8, 0));
        }
        let before = rig.memory.clone();
        let (answer, bytes) = rig.page_out(one.first, 0, length);
        assert_eq!((answer.refusal, &bytes[..]), (0, &before[..length]));
        for many in wrong {
            assert_eq!(ask(&rig, back(answer.first, two), many), (8, 0));
        }
        granted(rig.page_in(answer.first, two, &bytes));
        assert_eq!(rig.memory[length..2 * length], before[..length]);
    }
}

/// What stands against a page-out, mended one by one: 2, 17, 3, 4, 5, 6, 8, 9,
/// 10, 11.
#[test]
fn out_goes_down_the_table() {
    let mut rig = Rig::new(64, 3);
    let part = granted(rig.create(0, 16, 7)).first;
    let child = granted(rig.derive(part, 0, 8, 7)).first;
    assert_eq!(rig.lock(part, 7), 0);
    rig.state.next = SPENT;
    let by = |rig: &Rig, token: u64, task: u64, bytes: usize| {
        ask(rig, Request { task, ..out(token) }, bytes)
    };
    // The child: 2, 17, 3, 4, 5, 6.
    let mut bad = rig.clone();
    bad.set(2, 207, 1, 1);
    let mut gone = bad.clone();
    gone.set(2, 0, 3, 3);
    assert_eq!(by(&gone, child ^ 1 << 46, 8, 0), (2, 0));
    assert_eq!(by(&gone, 3 << 32, 8, 0), (2, 0));
    assert_eq!(by(&gone, child, 8, 0), (17, 0));
    assert_eq!(by(&bad, child, 8, 0), (3, 1));
    let mut bad = rig.clone();
    bad.set(1, 207, 1, 1);
    assert_eq!(by(&bad, child, 8, 0), (3, 2));
    let mut dead = rig.clone();
    dead.set(1, 208, 16, rig.tag(1) ^ 1);
    assert_eq!(by(&dead, child, 8, 0), (4, 1));
    assert_eq!(by(&rig, child, 8, 0), (5, 0));
    assert_eq!(by(&rig, child, 0, 0), (5, 0));
    assert_eq!(by(&rig, child, 7, 0), (6, 0));
    // Its owner: 5, 8, 9 when locked and by the count, 10, 11.
    assert_eq!(by(&rig, part, 8, 0), (5, 0));
    assert_eq!(by(&rig, part, 7, 15), (8, 0));
    assert_eq!(by(&rig, part, 7, 17), (8, 0));
    rig.set_count(1, 0);
    assert_eq!(by(&rig, part, 7, 16), (9, 0));
    rig.set_count(1, 1);
    assert_eq!(rig.unlock(part, 7), 0);
    assert_eq!(by(&rig, part, 0, 16), (9, 0));
    rig.set_count(1, 0);
    assert_eq!(by(&rig, part, 0, 16), (10, 0));
    rig.table.resize(128, 0);
    for (left, refusal) in [(0, 11), (1, 11), (2, 0)] {
        rig.state.next = SPENT - left;
        assert_eq!(by(&rig, part, 0, 16), (refusal, 0));
    }
    // Paper 3: a total of 0 refuses nothing, the table decides.
    rig.state.total = 0;
    assert_eq!(by(&rig, part, 0, 16), (0, 0));
}

/// "two tokens go as a merge's": 2 to 5 of the first, 2 to 5 of the second, then
/// 6, 8, 9 and 11.
#[test]
fn in_goes_as_a_merge() {
    let (mut rig, [paged, donor]) = paged();
    let child = granted(rig.derive(donor, 0, 8, 7)).first;
    assert_eq!(rig.lock(donor, 7), 0);
    rig.state.next = SPENT;
    let ask = |rig: &Rig, token: u64, donor: u64, task: u64, bytes: usize| {
        ask(rig, Request { task, ..back(token, donor) }, bytes)
    };
    let other_tag = |token: u64| token ^ 1 << 46;
    let nothing = 9 << 32;
    // The first: 2, then 3.
    assert_eq!(ask(&rig, other_tag(paged), nothing, 8, 0), (2, 0));
    let mut bad = rig.clone();
    bad.set(1, 99, 1, 1);
    assert_eq!(ask(&bad, other_tag(paged), nothing, 8, 0), (2, 0));
    assert_eq!(ask(&bad, paged, nothing, 8, 0), (3, 1));
    // A first that is not paged has its line and its lock judged before the second.
    let number = (child >> 32) as usize & 0x3FFF;
    let mut dead = rig.clone();
    dead.set(number, 35, 64, 1 << 62 | 5);
    assert_eq!(ask(&dead, child, nothing, 8, 0), (4, 1));
    let mut bad = rig.clone();
    bad.set(2, 207, 1, 1);
    assert_eq!(ask(&bad, child, nothing, 8, 0), (3, 2));
    assert_eq!(ask(&bad, donor, nothing, 8, 0), (3, 1));
    assert_eq!(ask(&rig, child, nothing, 8, 0), (5, 0));
    assert_eq!(ask(&rig, donor, nothing, 8, 0), (5, 0));
    // The second's 2 to 5 come before the first's 6.
    for first in [paged, child, donor] {
        assert_eq!(ask(&rig, first, nothing, 7, 0), (2, 0));
        assert_eq!(ask(&rig, first, other_tag(donor), 7, 0), (2, 0));
    }
    let zeroed = rig.token(3);
    for first in [paged, zeroed] {
        assert_eq!(ask(&bad, first, donor, 8, 0), (3, 1));
        assert_eq!(ask(&bad, first, child, 8, 0), (3, 2));
        assert_eq!(ask(&dead, first, child, 8, 0), (4, 1));
        assert_eq!(ask(&rig, first, child, 8, 0), (5, 0));
        assert_eq!(ask(&rig, first, donor, 8, 0), (5, 0));
    }
    // 6: "a paged donor, or a first token not paged"; an indirect one is no donor.
    assert_eq!(ask(&rig, zeroed, donor, 7, 0), (6, 0));
    assert_eq!(ask(&rig, paged, child, 7, 0), (6, 0));
    assert_eq!(ask(&rig, zeroed, paged, 7, 0), (6, 0));
    assert_eq!(ask(&rig, child, donor, 7, 0), (6, 0));
    // The same entry twice is one of the two.
    for same in [paged, zeroed, donor, child] {
        assert_eq!(ask(&rig, same, same, 7, 16), (6, 0));
    }
    let mut ill = rig.clone();
    ill.set_paged(3, 0);
    assert_eq!(ask(&ill, paged, zeroed, 7, 16), (3, 1));
    ill.set_paged(3, 16);
    assert_eq!(ask(&ill, paged, zeroed, 7, 16), (6, 0));
    // 8: all three of equal length.
    let rest = rig.token(0);
    assert_eq!(ask(&rig, paged, donor, 7, 15), (8, 0));
    assert_eq!(ask(&rig, paged, rest, 7, 16), (8, 0));
    assert_eq!(ask(&rig, paged, rest, 7, 32), (8, 0));
    // 9: the donor locked, by its holder's request too, and then its count.
    assert_eq!(ask(&rig, paged, donor, 7, 16), (9, 0));
    rig.set_count(2, 0);
    assert_eq!(ask(&rig, paged, donor, 7, 16), (9, 0));
    rig.set_count(2, 1);
    assert_eq!(rig.unlock(donor, 7), 0);
    assert_eq!(ask(&rig, paged, donor, 0, 16), (9, 0));
    rig.set_count(2, 0);
    // 11; no number is asked for.
    assert_eq!(ask(&rig, paged, donor, 0, 16), (11, 0));
    rig.state.next = SPENT - 1;
    for number in 4..6 {
        rig.set(number, 0, 3, 7);
    }
    assert_eq!((rig.free_numbers(), ask(&rig, paged, donor, 0, 16)), (0, (0, 0)));
}

/// "Type 3 is ill-formed only at length 0 or with a one where zero belongs."
#[test]
fn ill_formed_paged_entries() {
    let (rig, [paged, two]) = paged();
    let zeroed = rig.token(3);
    let spoiled = |from: usize, width: usize, value: u64| {
        let mut rig = rig.clone();
        rig.set(1, from, width, value);
        // As the first and as the donor of a page-in, as a page-out, in a read.
        let first = ask(&rig, back(paged, two), 16);
        let donor = ask(&rig, back(zeroed, paged), 16);
        assert_eq!((ask(&rig, out(paged), 16), rig.access(READ, paged, 1, 0)), ((17, 0), 17));
        (first, donor)
    };
    let ill = ((3, 1), (3, 1));
    assert_eq!(spoiled(67, 32, 0), ill);
    for zero in 99..138 {
        assert_eq!(spoiled(zero, 1, 1), ill, "{zero}");
    }
    // Locked ("unlocked") and CoW, not Lockable.
    assert_eq!((spoiled(205, 1, 1), spoiled(207, 1, 1)), (ill, ill));
    for lockable in [0, 1] {
        assert_eq!(spoiled(206, 1, lockable), ((0, 0), (6, 0)));
    }
    // Any page-file number, user and permissions; a length beyond memory is 8.
    for (from, width) in [(3, 64), (138, 64), (202, 3)] {
        for value in [0, u64::MAX] {
            assert_eq!(spoiled(from, width, value), ((0, 0), (6, 0)));
        }
    }
    for length in [1, 15, 17, 65, u64::from(u32::MAX)] {
        assert_eq!(spoiled(67, 32, length), ((8, 0), (6, 0)));
    }
    // Types above 3 are ill-formed as they were.
    for kind in 4..8 {
        let mut rig = rig.clone();
        rig.set(1, 0, 3, kind);
        assert_eq!(ask(&rig, back(paged, two), 16), (3, 1));
        assert_eq!(ask(&rig, out(paged), 16), (3, 1));
    }
}

/// "17 a paged entry in any operation but 'in', after its tag matched"
#[test]
fn a_paged_entry_in_any_other_operation() {
    let (rig, [paged, donor]) = paged();
    for operation in READ..=PAGE_OUT {
        let second = if operation == MERGE { donor } else { 0 };
        let request =
            Request { operation, token: paged, second, task: 7, length: 1, ..Request::default() };
        let mut text = record(1, 0, &[]);
        let mut ask = |rig: &Rig, request| rig.clone().ask_with(request, &mut text).refusal;
        assert_eq!(ask(&rig, request), 17, "{operation}");
        let other = Request { token: paged ^ 1 << 46, ..request };
        assert_eq!(ask(&rig, other), 2);
        // Ill-formed or not: its tag matched.
        let mut ill = rig.clone();
        ill.set(1, 67, 32, 0);
        ill.set(1, 205, 3, 7);
        assert_eq!((ask(&ill, request), ask(&ill, other)), (17, 2));
        // Place 1 is before it.
        assert_eq!(ask(&Rig { leases: vec![0], ..rig.clone() }, request), 1);
    }
    // Any encoding names it.
    let tag = rig.tag(1) << 46;
    for token in [1 << 62 | tag | 1, 2 << 62 | tag | 1 << 16, 3 << 62 | tag | 1 << 24] {
        assert_eq!(ask(&rig, Request { operation: CLONE, token, ..Request::default() }, 0).0, 17);
        assert_eq!(ask(&rig, back(token, donor), 16).0, 0);
    }
}

/// In an access 17 is after 16 and, in a load, after 12 and 13; it is before 15.
#[test]
fn a_paged_entry_in_an_access() {
    let (rig, [paged, _]) = paged();
    let closed = Rig { leases: lease(paged, 10, 20), ..rig.clone() };
    let unsound = Rig { leases: lease(paged, 10, 10), ..rig.clone() };
    for operation in [READ, WRITE, FETCH] {
        assert_eq!(closed.clone().access(operation, paged | 99, 4_096, 0), 17);
        assert_eq!(unsound.clone().access(operation, paged, 1, 0), 16);
    }
    assert_eq!(closed.clone().dump(paged, 0, 0), Err(17));
    assert_eq!(unsound.clone().dump(paged, 0, 0), Err(16));
    let mut checksum = record(1, 0, &[]);
    checksum[10] = b'E';
    let load = |rig: &Rig, text: &[u8]| rig.clone().load(paged, text, 0);
    assert_eq!([load(&unsound, b"x"), load(&unsound, &checksum)], [12, 13]);
    assert_eq!(load(&unsound, &record(1, 0, &[])), 16);
    assert_eq!(load(&closed, &record(1, 0, &[])), 17);
}

/// A merge's tokens in turn, each through its own 2, 17, 3, 4, 5.
#[test]
fn merges_with_paged_tokens() {
    let (mut rig, [paged, two]) = paged();
    let rest = rig.token(0);
    assert_eq!([rig.merge(paged, two), rig.merge(two, paged)].map(|a| a.refusal), [17, 17]);
    assert_eq!(rig.merge(paged, paged).refusal, 17);
    assert_eq!((rig.merge(paged, 9 << 32).refusal, rig.merge(9 << 32, paged).refusal), (17, 2));
    // The first's 3, 4 and 5 come before the second's 17, 6 does not.
    let child = granted(rig.derive(rest, 0, 8, 7)).first;
    assert_eq!(rig.merge(child, paged).refusal, 17);
    assert_eq!(rig.lock(rest, 7), 0);
    assert_eq!(rig.merge(child, paged).refusal, 5);
    assert_eq!(rig.merge(paged, child).refusal, 17);
    let mut dead = rig.clone();
    dead.set(0, 208, 16, rig.tag(0) ^ 1);
    assert_eq!(stop(dead.merge(child, paged)), (4, 1));
    let mut bad = rig.clone();
    bad.set(0, 207, 1, 1);
    assert_eq!(stop(bad.merge(child, paged)), (3, 2));
    // What took its place is a neighbour like another.
    let zeroed = rig.token(3);
    granted(rig.merge(zeroed, two));
}

/// "a paged parent is a missing link": with its tag and a lower nonce too, which a
/// handed-over table may have, and ill-formed or not.
#[test]
fn a_paged_parent_is_a_missing_link() {
    for length in [0, 64] {
        let mut rig = Rig::new(64, 6);
        let part = granted(rig.create(0, 64, 7)).first;
        let upper = granted(rig.derive(part, 0, 32, 7)).first;
        let lower = granted(rig.derive(upper, 0, 16, 7)).first;
        rig.lock(part, 7);
        rig.set_count(2, 1);
        rig.set_paged(1, length);
        // Named entry or ancestor: the one that holds the link.
        let read = |token| Request { operation: READ, token, task: 7, ..Request::default() };
        assert_eq!((ask(&rig, read(upper), 1), ask(&rig, read(lower), 1)), ((4, 1), (4, 2)));
        for operation in [CREATE, DERIVE, EXECUTE_ONLY, CLONE, LOCK, UNLOCK, REVOKE, PAGE_OUT] {
            let request =
                Request { operation, token: lower, length: 1, task: 7, ..Request::default() };
            assert_eq!(ask(&rig, request, 16), (4, 2), "{operation}");
        }
        let donor = |token| ask(&rig, back(token, token), 16);
        assert_eq!((donor(upper), donor(lower)), ((4, 1), (4, 2)));
        // A drop skips that, and its climb ends below the paged entry.
        let above = rig.entry(1).to_vec();
        assert_eq!(granted(rig.simple(DROP, lower)).dropped, 1);
        assert_eq!((rig.entry(3), rig.entry(2)), (&freed(lower)[..], &freed(upper)[..]));
        assert_eq!(rig.entry(1), above);
        assert_eq!(rig.state.total, rig.free_numbers());
    }
}

/// What goes out is at count 0, so all below it is dead, and dead it stays.
#[test]
fn a_line_does_not_come_back() {
    let (mut rig, [one, two]) = parts();
    let child = granted(rig.derive(one, 0, 8, 4)).first;
    assert_eq!(rig.page_out(one, 0, 16).0.refusal, 9);
    // The owner's count falls, the child stays: a second drop by the allocator.
    granted(rig.simple(DROP, one));
    let (answer, bytes) = rig.page_out(one, 0, 16);
    assert_eq!(rig.access(READ, child, 1, 0), 4);
    granted(rig.page_in(answer.first, two, &bytes));
    assert_eq!(rig.access(READ, child, 1, 0), 4);
    assert_eq!(granted(rig.simple(DROP, child)).dropped, 1);
    assert_eq!(rig.count(1), 0);
}

/// "A locked buffer never goes out", whoever asks, and none comes in over one.
#[test]
fn locked_ones() {
    let (mut rig, [one, _]) = parts();
    assert_eq!(rig.lock(one, 7), 0);
    let by = |rig: &Rig, task| ask(rig, Request { task, ..out(one) }, 16).0;
    assert_eq!((by(&rig, 0), by(&rig, 8), by(&rig, 7)), (5, 5, 9));
    assert_eq!(rig.unlock(one, 7), 0);
    assert_eq!((by(&rig, 0), by(&rig, 8), by(&rig, 7)), (0, 0, 0));
    let (mut rig, [paged, two]) = paged();
    assert_eq!(rig.lock(two, 7), 0);
    let by = |rig: &Rig, task| ask(rig, Request { task, ..back(paged, two) }, 16).0;
    assert_eq!((by(&rig, 0), by(&rig, 8), by(&rig, 7)), (5, 5, 9));
    assert_eq!(rig.unlock(two, 7), 0);
    assert_eq!((by(&rig, 0), by(&rig, 8), by(&rig, 7)), (0, 0, 0));
    // A paged one can't be locked or unlocked; in again, it can if it is Lockable.
    assert_eq!((rig.lock(paged, 7), rig.unlock(paged, 7)), (17, 17));
    let token = granted(rig.page_in(paged, two, &[0; 16])).first;
    assert_eq!((rig.lock(token, 7), rig.holder(1)), (0, 7));
}

/// Number 0 goes out and comes in as any other.
#[test]
fn number_0_goes_out() {
    let mut rig = Rig::new(64, 3);
    rig.memory = (1..=64).collect();
    let (answer, bytes) = rig.page_out(0, PAGE_FILE, 64);
    assert_eq!((answer.refusal, rig.kind(0), rig.page_file(0)), (0, 3, PAGE_FILE));
    assert_eq!((answer.first, answer.second), (rig.token(0), rig.token(1)));
    assert_ne!(rig.tag(0), 0);
    assert_eq!((rig.nonce(0), rig.nonce(1), rig.state.last, rig.state.total), (1, 2, 1, 1));
    // A plain address names tag 0.
    assert_eq!((rig.access(READ, 0, 1, 0), rig.access(READ, answer.first, 1, 0)), (2, 17));
    let token = granted(rig.page_in(answer.first, answer.second, &bytes)).first;
    assert_eq!((token, rig.kind(0), rig.base(0)), (rig.token(0), 1, 0));
    assert_eq!((rig.state.last, rig.state.total), (1, 2));
    assert_eq!(rig.read(token, 64, 0), Ok(bytes));
}

/// Number 0 as the donor is freed for ever, and is in no total.
#[test]
fn number_0_as_donor() {
    let mut rig = Rig::new(32, 3);
    let cut = granted(rig.create(0, 16, 7));
    let (answer, bytes) = rig.page_out(cut.first, 0, 16);
    assert_eq!((answer.refusal, rig.state.total), (0, 0));
    let token = granted(rig.page_in(answer.first, cut.second, &bytes)).first;
    assert_eq!((rig.entry(0), rig.base(1)), (&freed(cut.second)[..], 16));
    assert_eq!((rig.state.total, rig.free_numbers()), (0, 0));
    assert_eq!((rig.page_out(token, 0, 16).0.refusal, rig.state.last), (10, 2));
}

/// Paper 3: out gives a number and in frees one. "A wrong handed-over total stops
/// at 0 and at that top."
#[test]
fn the_kept_total() {
    let (rig, [one, _]) = parts();
    for (total, left) in [(0, 0), (1, 0), (3, 2), (5, 4)] {
        let mut rig = rig.clone();
        rig.state.total = total;
        granted(rig.page_out(one, 0, 16).0);
        assert_eq!(rig.state.total, left);
    }
    let (rig, [paged, two]) = paged();
    for (total, left) in [(0, 1), (2, 3), (4, 5), (5, 5)] {
        let mut rig = rig.clone();
        rig.state.total = total;
        granted(rig.page_in(paged, two, &[0; 16]));
        assert_eq!(rig.state.total, left);
    }
    // A number is sought after the last given, and that one stays in a page-in.
    let (mut rig, [one, _]) = parts();
    rig.state.last = 4;
    granted(rig.page_out(one, 0, 16).0);
    assert_eq!((rig.state.last, rig.kind(5), rig.kind(3)), (5, 1, 0));
    let (mut rig, [paged, two]) = crate::paged();
    rig.state.last = 5;
    granted(rig.page_in(paged, two, &[0; 16]));
    assert_eq!(rig.state.last, 5);
}

/// Paper 4: neither is an access, so neither has a minute, 15 or 16.
#[test]
fn leases_stop_neither() {
    let (direct, [one, _]) = parts();
    let (paged, [token, donor]) = paged();
    let shut = [one, token, donor].map(|token| lease(token, 10, 20)).concat();
    for leases in [shut, lease(0, 5, 5), lease(one, 10_080, 0), lease(0, 10, 20).repeat(64)] {
        let rig = Rig { leases: leases.clone(), ..direct.clone() };
        assert_eq!(ask(&rig, out(one), 16), (0, 0));
        let rig = Rig { leases, ..paged.clone() };
        assert_eq!(ask(&rig, back(token, donor), 16), (0, 0));
    }
    for size in [1, 7, 9, 520] {
        let leases = vec![0; size];
        assert_eq!(ask(&Rig { leases, ..direct.clone() }, out(one), 16), (1, 0));
    }
}

/// Paper 5: each of the three issues passes over the nonce that would give the tag
/// which its number last held.
#[test]
fn every_issue_passes_over() {
    let (direct, [one, _]) = parts();
    let (paged, [token, donor]) = paged();
    for (rig, request, number) in
        [(&direct, out(one), 1), (&direct, out(one), 3), (&paged, back(token, donor), 1)]
    {
        let mut plain = rig.clone();
        granted(plain.ask_with(request, &mut [0; 16]));
        // The tag that is given is now the one last held.
        let (mut held, mut request) = (rig.clone(), request);
        held.set(number, 208, 16, plain.tag(number));
        if number == 1 {
            request.token = held.token(number);
        }
        let before = held.clone();
        granted(held.ask_with(request, &mut [0; 16]));
        assert_ne!(held.tag(number), plain.tag(number));
        assert_eq!(held.nonce(number), plain.nonce(number) + 1);
        assert_eq!(held.state.next, plain.state.next + 1);
        // The second issue begins behind the first one's nonce.
        if number == 1 && request.operation == PAGE_OUT {
            assert_eq!(held.nonce(3), plain.nonce(3) + 1);
        } else if request.operation == PAGE_OUT {
            assert_eq!(held.entry(1), plain.entry(1));
        }
        assert_eq!(before.kind(number) == 0, number == 3);
    }
}

/// "too few left, those to be passed over not counted": as many are left as the
/// request needs, and one of them would give the tag last held.
#[test]
fn the_nonce_passed_over_is_not_counted() {
    let (direct, [one, _]) = parts();
    let (paged, [token, donor]) = paged();
    let cases =
        [(&direct, out(one), 1, 2), (&direct, out(one), 3, 2), (&paged, back(token, donor), 1, 1)];
    for (rig, mut request, number, needs) in cases {
        let mut rig = rig.clone();
        rig.state.next = SPENT - needs;
        let mut plain = rig.clone();
        granted(plain.ask_with(request, &mut [0; 16]));
        assert_eq!(plain.state.next, SPENT);
        rig.set(number, 208, 16, plain.tag(number));
        if number == 1 {
            request.token = rig.token(number);
        }
        assert_eq!(ask(&rig, request, 16), (11, 0));
    }
}

/// A refusal keeps the buffer; an answer fixes every byte of it.
#[test]
fn the_buffer_of_a_page_out() {
    let (rig, [one, _]) = parts();
    for byte in [0, 0xFF] {
        let mut buffer = vec![byte; 16];
        granted(rig.clone().ask_with(out(one), &mut buffer));
        assert_eq!(buffer, rig.memory[..16]);
        let mut buffer = vec![byte; 17];
        assert_eq!(rig.clone().ask_with(out(one), &mut buffer).refusal, 8);
        assert_eq!(buffer, [byte; 17]);
    }
}
