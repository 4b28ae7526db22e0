//! What granted requests change.
#![allow(deprecated)]

mod common;
use common::{freed, Rig, SPENT};
use model::operation::*;
use model::Request;
use std::hash::{Hasher, SipHasher};

/// The tag that an entry would be issued with, by the library's SipHash-2-4.
fn fresh_tag(rig: &Rig, number: usize) -> u64 {
    let mut part = rig.table[32 * number..32 * number + 32].to_vec();
    part[26..28].fill(0);
    let mut hasher = SipHasher::new_with_keys(rig.state.key0, rig.state.key1);
    hasher.write(&part);
    hasher.write(&(number as u64).to_le_bytes());
    hasher.finish() & 0xFFFF
}

#[test]
fn accesses_carry_bytes() {
    let mut rig = Rig::new(64, 4);
    assert_eq!(rig.write(60, &[1, 2, 3, 4], 0), 0);
    assert_eq!(rig.memory[60..], [1, 2, 3, 4]);
    let token = rig.derive(0, 58, 5, 5).first;
    assert_eq!(rig.read(token + 1, 4, 0), Ok(vec![0, 1, 2, 3]));
    let mut buffer = [9; 2];
    let fetch = Request { operation: FETCH, token: token + 3, ..Request::default() };
    assert_eq!(rig.ask_with(fetch, &mut buffer).refusal, 0);
    assert_eq!(buffer, [2, 3]);
    assert_eq!(rig.write(token, &[1], 0), 7);
}

#[test]
fn create_cuts_the_front() {
    let mut rig = Rig::bare(4_096, 4);
    rig.reset(11, 22, 100);
    rig.set(0, 138, 64, 0xABCD);
    let request = Request {
        operation: CREATE,
        length: 96,
        user: u64::MAX - 1,
        permissions: 6,
        encoding: 3,
        ..Request::default()
    };
    let answer = rig.ask(request);
    assert_eq!(answer.refusal, 0);
    assert_eq!((rig.kind(1), rig.base(1), rig.length(1), rig.count(1)), (1, 0, 96, 0));
    assert_eq!((rig.user(1), rig.permissions(1), rig.lockable(1)), (u64::MAX - 1, 6, 1));
    assert_eq!((rig.kind(0), rig.base(0), rig.length(0), rig.count(0)), (1, 96, 4_000, 0));
    assert_eq!((rig.user(0), rig.permissions(0), rig.lockable(0)), (0xABCD, 7, 1));
    assert_eq!((rig.nonce(1), rig.nonce(0)), (100, 101));
    assert_eq!((rig.tag(1), rig.tag(0)), (fresh_tag(&rig, 1), fresh_tag(&rig, 0)));
    assert_eq!((rig.state.last, rig.state.next), (1, 102));
    assert_eq!(answer.first, 3 << 62 | rig.tag(1) << 46 | 1 << 24);
    assert_eq!(answer.second, 3 << 62 | rig.tag(0) << 46);
}

#[test]
fn create_of_the_whole_frees_the_old_number() {
    let mut rig = Rig::new(64, 3);
    rig.set(0, 206, 1, 0);
    let answer = rig.create(0, 64, 7);
    assert_eq!((answer.refusal, answer.second), (0, 0));
    // The root's tag is 0.
    assert_eq!(rig.table[..32], [0; 32]);
    assert_eq!((rig.lockable(1), rig.state.last, rig.state.next), (0, 1, 2));
    // The freed number is given again, but the root's never.
    let answer = rig.create(answer.first, 64, 7);
    assert_eq!((rig.kind(0), rig.kind(1), rig.kind(2)), (0, 0, 1));
    let answer = rig.create(answer.first, 64, 7);
    assert_eq!((rig.kind(0), rig.kind(1), rig.kind(2)), (0, 1, 0));
    // The number about to be freed is no free number.
    let part = rig.create(answer.first, 8, 7);
    assert_eq!(part.refusal, 0);
    assert_eq!(rig.create(part.first, 8, 7).refusal, 10);
}

#[test]
fn numbers_go_round() {
    let mut rig = Rig::new(64, 5);
    let given: Vec<u64> = (0..4).map(|_| rig.derive(0, 0, 8, 7).first).collect();
    let number = |token: u64| token >> 32 & 0x3FFF;
    assert_eq!(given.iter().map(|&token| number(token)).collect::<Vec<_>>(), [1, 2, 3, 4]);
    assert_eq!(rig.derive(0, 0, 8, 7).refusal, 10);
    // The last given is the last tried, but it is tried.
    rig.simple(DROP, given[3]);
    let four = rig.derive(0, 0, 8, 7).first;
    assert_eq!((number(four), rig.state.last), (4, 4));
    rig.simple(DROP, given[0]);
    rig.simple(DROP, four);
    let one = rig.derive(0, 0, 8, 7).first;
    assert_eq!((number(one), rig.state.last), (1, 1));
    // An issue of an old number leaves the last number.
    rig.simple(DROP, given[1]);
    rig.simple(DROP, given[2]);
    rig.simple(DROP, one);
    let root = rig.simple(REVOKE, 0).first;
    assert_eq!(rig.state.last, 1);
    assert_eq!(number(rig.derive(root, 0, 8, 7).first), 2);
    // Number 0 freed is not a free number.
    let mut rig = Rig::new(64, 2);
    let whole = rig.create(0, 64, 7).first;
    assert_eq!(rig.derive(whole, 0, 8, 7).refusal, 10);
}

#[test]
fn merge_takes_both() {
    let mut rig = Rig::new(64, 4);
    let cut = |rig: &mut Rig, token, length, user, permissions| {
        let operation = CREATE;
        rig.ask(Request { operation, token, length, user, permissions, ..Request::default() })
    };
    let a = cut(&mut rig, 0, 16, 0xA, 6);
    let b = cut(&mut rig, a.second, 16, 0xB, 5);
    rig.set(2, 206, 1, 0);
    let last = rig.state.last;
    let merged = rig.merge(a.first, b.first);
    assert_eq!(merged.refusal, 0);
    assert_eq!((rig.base(1), rig.length(1), rig.count(1)), (0, 32, 0));
    assert_eq!((rig.user(1), rig.permissions(1), rig.lockable(1)), (0xA, 4, 1));
    assert_eq!((rig.tag(1), rig.nonce(1)), (fresh_tag(&rig, 1), 5));
    assert_eq!(rig.entry(2), freed(b.first));
    assert_eq!((merged.first, merged.second), (rig.token(1), 0));
    assert_eq!((rig.state.last, rig.state.next), (last, 6));
    // With the root as second its number is gone.
    let all = rig.merge(merged.first, b.second);
    assert_eq!((all.refusal, rig.kind(0), rig.length(1)), (0, 0, 64));
}

#[test]
fn derive_and_execute_only() {
    let mut rig = Rig::new(64, 4);
    let a = rig.derive(0, 8, 40, 5).first;
    assert_eq!((rig.kind(1), rig.base(1), rig.length(1), rig.count(1)), (2, 8, 40, 1));
    assert_eq!((rig.permissions(1), rig.parent(1), rig.count(0)), (5, 1 << 62, 1));
    assert_eq!(rig.tag(1), fresh_tag(&rig, 1));
    let b = rig.simple(EXECUTE_ONLY, a).first;
    assert_eq!((rig.base(2), rig.length(2), rig.count(2), rig.permissions(2)), (8, 40, 1, 1));
    assert_eq!(rig.parent(2), 1 << 62 | rig.tag(1) << 46 | 1);
    assert_eq!((rig.count(0), rig.count(1)), (1, 2));
    assert_eq!(rig.tag(2), fresh_tag(&rig, 2));
    assert_eq!((rig.access(FETCH, b, 4, 0), rig.access(READ, b, 4, 0)), (0, 7));
    assert_eq!(rig.tag(0), 0);
    let c = rig.derive(a, 3, 36, 0);
    assert_eq!((c.refusal, rig.base(3), rig.permissions(3)), (0, 11, 0));
}

/// 02, paper 1: "The weigher hands its complete buffer to a card."
#[test]
fn a_buffer_is_passed_on_whole() {
    let mut rig = Rig::new(64, 6);
    let buffer = rig.create(0, 16, 7).first;
    let card = rig.derive(buffer, 0, 16, 6);
    assert_eq!(card.refusal, 0);
    assert_eq!((rig.kind(2), rig.base(2), rig.length(2), rig.count(2)), (2, 0, 16, 1));
    assert_eq!((rig.permissions(2), rig.count(1)), (6, 1));
    assert_eq!(rig.parent(2), 1 << 62 | rig.tag(1) << 46 | 1);
    assert_eq!(rig.tag(2), fresh_tag(&rig, 2));
    assert_eq!(rig.write(card.first, &[5; 16], 0), 0);
    assert_eq!((&rig.memory[..16], &rig.memory[16..]), (&[5; 16][..], &[0; 48][..]));
    assert_eq!(rig.access(READ, card.first + 15, 1, 0), 0);
    assert_eq!(rig.access(READ, card.first + 15, 2, 0), 8);
    // The card passes it on whole once more, and a part of that up to its end.
    let whole = rig.derive(card.first, 0, 16, 4).first;
    assert_eq!((rig.base(3), rig.length(3), rig.count(2)), (0, 16, 2));
    let part = rig.derive(whole, 10, 6, 4).first;
    assert_eq!((rig.base(4), rig.length(4), rig.count(3)), (10, 6, 2));
    assert_eq!(rig.read(part, 6, 0), Ok(vec![5; 6]));
    assert_eq!(rig.access(READ, part + 6, 1, 0), 8);
    // An execute-only child had no sum before, and has none now.
    assert_eq!(rig.simple(EXECUTE_ONLY, buffer).refusal, 0);
    assert_eq!((rig.base(5), rig.length(5), rig.permissions(5)), (0, 16, 1));
}

/// 02, paper 1: "The printed condition also forbids any derive of a one-byte
/// segment."
#[test]
fn a_segment_of_one_byte_has_children() {
    // All of memory is one byte.
    let mut rig = Rig::new(1, 4);
    let child = rig.derive(0, 0, 1, 7).first;
    let below = rig.derive(child, 0, 1, 6).first;
    assert_eq!((rig.base(1), rig.length(1), rig.base(2), rig.length(2)), (0, 1, 0, 1));
    assert_eq!((rig.write(below, &[9], 0), rig.read(0, 1, 0)), (0, Ok(vec![9])));
    assert_eq!((rig.derive(below, 0, 2, 4).refusal, rig.derive(below, 1, 1, 4).refusal), (8, 8));
    // The last byte of a larger one.
    let mut rig = Rig::new(64, 4);
    let last = rig.derive(0, 63, 1, 7).first;
    let below = rig.derive(last, 0, 1, 7).first;
    assert_eq!((rig.base(1), rig.length(1), rig.base(2), rig.length(2)), (63, 1, 63, 1));
    assert_eq!((rig.write(below, &[9], 0), rig.read(63, 1, 0)), (0, Ok(vec![9])));
}

#[test]
fn drop_falls_and_climbs() {
    let line = || {
        let mut rig = Rig::new(64, 8);
        let a = rig.derive(0, 0, 32, 7).first;
        let b = rig.derive(a, 0, 16, 7).first;
        let c = rig.derive(b, 0, 8, 7).first;
        (rig, a, b, c)
    };
    // One by one: each parent keeps the reference of its own holder.
    let (mut rig, a, b, c) = line();
    let answers = [c, b, a].map(|token| rig.simple(DROP, token));
    assert_eq!(answers.map(|answer| (answer.refusal, answer.dropped)), [(0, 1); 3]);
    assert_eq!((rig.count(0), rig.kind(1), rig.kind(2), rig.kind(3)), (0, 0, 0, 0));
    // The climb takes all three at once.
    let (mut rig, a, b, c) = line();
    assert_eq!(rig.simple(DROP, a).dropped, 0);
    assert_eq!(rig.simple(DROP, b).dropped, 0);
    assert_eq!((rig.count(1), rig.count(2)), (1, 1));
    assert_eq!(rig.simple(DROP, c).dropped, 1);
    assert_eq!(rig.table[32..128], [a, b, c].map(freed).concat());
    assert_eq!(rig.table[128..], [0; 128]);
    assert_eq!((rig.kind(0), rig.count(0)), (1, 0));
    // A climb meets count 0.
    let (mut rig, _, _, c) = line();
    rig.set_count(2, 0);
    assert_eq!(rig.simple(DROP, c).dropped, 1);
    assert_eq!((rig.kind(3), rig.kind(2), rig.count(2), rig.count(1)), (0, 2, 0, 2));
    // A climb ends at a missing link.
    let (mut rig, a, _, c) = line();
    rig.set_count(2, 1);
    rig.set(0, 208, 16, 1);
    assert_eq!(rig.simple(DROP, c).dropped, 1);
    assert_eq!((rig.kind(3), rig.kind(2), rig.count(1)), (0, 0, 1));
    assert_eq!(rig.simple(DROP, a).dropped, 1);
    assert_eq!((rig.kind(1), rig.count(0)), (0, 1));
    // A direct one stays.
    let mut rig = Rig::new(64, 4);
    rig.simple(CLONE, 0);
    assert_eq!(rig.simple(DROP, 0).dropped, 1);
    assert_eq!((rig.kind(0), rig.count(0)), (1, 0));
}

#[test]
fn drop_under_a_lock() {
    let mut rig = Rig::new(64, 4);
    let a = rig.derive(0, 0, 32, 7).first;
    rig.simple(CLONE, a);
    rig.lock(a, 7);
    let before = rig.clone();
    assert_eq!((rig.simple(DROP, a).dropped, rig.count(1)), (0, 1));
    let now = rig.clone();
    let answer = rig.simple(DROP, a);
    assert_eq!((answer.refusal, answer.dropped), (0, 0));
    assert!(rig == now && rig != before);
    assert_eq!(rig.simple(DROP, 0).dropped, 0);
    assert!(rig == now);
    // A dead line counts as unlocked, also when what stands at its upper end
    // is locked.
    rig.set(1, 83, 16, rig.bits(1, 83, 16) ^ 1);
    assert_eq!(rig.simple(DROP, a).dropped, 1);
    assert_eq!((rig.kind(1), rig.count(0)), (0, 1));
}

#[test]
fn lock_is_the_owners() {
    let mut rig = Rig::new(64, 4);
    let a = rig.derive(0, 0, 32, 0).first;
    let tag = rig.tag(0);
    assert_eq!(rig.lock(a, 9), 0);
    assert_eq!((rig.holder(0), rig.locked(0), rig.tag(0)), (9, 1, tag));
    let before = rig.clone();
    assert_eq!(rig.lock(0, 9), 0);
    assert_eq!(rig, before);
    assert_eq!(rig.access(WRITE, 40, 8, 9), 0);
    assert_eq!(rig.access(WRITE, 40, 8, 0), 5);
    assert_eq!(rig.unlock(a, 9), 0);
    assert_eq!((rig.holder(0), rig.locked(0), rig.access(WRITE, 40, 8, 0)), (0, 0, 0));
}

#[test]
fn revoke_zeros_and_issues() {
    let mut rig = Rig::new(64, 4);
    rig.memory.fill(0x77);
    let cut = rig.create(0, 16, 4);
    let child = rig.derive(cut.first, 0, 8, 4).first;
    rig.set(1, 206, 1, 0);
    rig.set(1, 138, 64, 5);
    rig.set(1, 83, 55, 7);
    rig.set(1, 205, 1, 1);
    let answer =
        rig.ask(Request { operation: REVOKE, token: cut.first, encoding: 1, ..Request::default() });
    assert_eq!(answer.refusal, 0);
    assert_eq!(answer.first, 1 << 62 | rig.tag(1) << 46 | 1);
    assert_eq!((&rig.memory[..16], &rig.memory[16..]), (&[0; 16][..], &[0x77; 48][..]));
    assert_eq!((rig.base(1), rig.length(1), rig.count(1), rig.user(1)), (0, 16, 0, 0));
    assert_eq!((rig.permissions(1), rig.locked(1), rig.lockable(1), rig.holder(1)), (7, 0, 1, 0));
    assert_eq!((rig.tag(1), rig.nonce(1)), (fresh_tag(&rig, 1), 4));
    assert_eq!(rig.access(READ, child, 1, 0), 4);
    assert_eq!(rig.access(READ, cut.first, 1, 0), 2);
    assert_eq!(rig.access(WRITE, answer.first, 1, 0), 0);
}

#[test]
fn revoke_passes_over_the_old_tag() {
    for first in [1, SPENT - 2, SPENT - 1] {
        let mut rig = Rig::bare(64, 2);
        rig.reset(5, 6, first);
        let mut trial = rig.clone();
        trial.simple(REVOKE, 0);
        rig.set(0, 208, 16, trial.tag(0));
        let token = rig.token(0);
        let answer = rig.simple(REVOKE, token);
        if first == SPENT - 1 {
            assert_eq!(answer.refusal, 11);
        } else {
            assert_eq!(answer.refusal, 0);
            assert_eq!((rig.nonce(0), rig.state.next), (first + 1, first + 2));
            assert_ne!(rig.tag(0), trial.tag(0));
            assert_eq!(rig.tag(0), fresh_tag(&rig, 0));
        }
    }
    let mut rig = Rig::new(64, 2);
    rig.state.next = SPENT;
    assert_eq!(rig.simple(REVOKE, 0).refusal, 11);
}
