//! The session of 15 cases as 02, paper 1, changes it, and the traps.

mod common;
use common::{freed, Rig};
use model::operation::*;

#[test]
fn the_root_entry() {
    let rig = Rig::new(65_536, 4);
    let mut wanted = vec![0; 128];
    (wanted[0], wanted[6], wanted[25]) = (0x20, 0x20, 0x3A);
    assert_eq!(rig.table, wanted);
    assert_eq!((rig.state.last, rig.state.next), (0, 1));
}

#[test]
fn fifteen_cases() {
    let mut rig = Rig::new(65_536, 4);
    let mut lines = vec![rig.access(READ, 4_096, 12, 0)];
    lines.push(rig.access(READ, 65_535, 1, 0));
    lines.push(rig.access(READ, 65_536, 1, 0));
    lines.push(rig.access(READ, 65_525, 12, 0));
    let derived = rig.derive(0, 0, 65_535, 4);
    lines.push(derived.refusal);
    // 02, paper 1: "Case 6 of the session then prints 0."
    let whole = rig.derive(0, 0, 65_536, 4);
    lines.push(whole.refusal);
    assert_eq!((rig.base(2), rig.length(2), rig.count(0)), (0, 65_536, 2));
    lines.push(rig.create(0, 4_096, 7).refusal);
    lines.push(rig.lock(0, 0));
    lines.push(rig.lock(0, 7));
    lines.push(rig.access(READ, 0, 1, 8));
    let held = rig.simple(DROP, 0);
    lines.push(held.refusal);
    assert_eq!((held.dropped, rig.count(0)), (0, 1));
    lines.push(rig.simple(REVOKE, 0).refusal);
    lines.push(rig.access(READ, 0, 1, 0));
    lines.push(rig.access(READ, derived.first, 1, 0));
    let freed = rig.simple(DROP, derived.first);
    lines.push(freed.refusal);
    assert_eq!((freed.dropped, rig.kind(1)), (1, 0));
    assert_eq!(lines, [0, 0, 8, 8, 0, 0, 9, 1, 0, 5, 0, 0, 2, 4, 0]);
    // Case 6's token is as dead as case 5's was.
    assert_eq!(rig.access(READ, whole.first, 1, 0), 4);
    assert_eq!(rig.simple(DROP, whole.first).dropped, 1);
}

/// "Comparing the low 55 bits of a task: 2^55 + 7 isn't 7."
#[test]
fn a_task_of_56_bits() {
    let mut rig = Rig::new(64, 4);
    assert_eq!(rig.lock(0, 7), 0);
    assert_eq!(rig.access(READ, 0, 1, 7), 0);
    assert_eq!(rig.access(READ, 0, 1, (1 << 55) + 7), 1);
    assert_eq!(rig.unlock(0, (1 << 55) + 7), 1);
    assert_eq!(rig.unlock(0, (1 << 54) + 7), 5);
    assert_eq!(rig.unlock(0, 7), 0);
    assert_eq!(rig.lock(0, (1 << 55) - 1), 0);
    assert_eq!((rig.holder(0), rig.locked(0)), ((1 << 55) - 1, 1));
}

/// "Trusting a parent's tag without its nonce: a number given again revives a
/// dead child."
#[test]
fn a_number_given_again_with_the_same_tag() {
    let mut rig = Rig::new(64, 4);
    let middle = rig.derive(0, 0, 32, 7).first;
    let child = rig.derive(middle, 0, 8, 4).first;
    assert_eq!(rig.access(READ, child, 1, 0), 0);
    // The middle goes, though the child counts on it, and its number with the
    // same tag is written again under a later nonce.
    rig.set_count(1, 1);
    assert_eq!(rig.simple(DROP, middle).dropped, 1);
    let tag = (middle >> 46) & 0xFFFF;
    rig.state.last = 3;
    assert_eq!(rig.derive(0, 0, 32, 7).refusal, 0);
    rig.set(1, 208, 16, tag);
    assert!(rig.nonce(1) > rig.nonce(2));
    assert_eq!(rig.access(READ, rig.token(1), 1, 0), 0);
    assert_eq!(rig.access(READ, child, 1, 0), 4);
    // The same nonce is not below either; a lower one would do.
    rig.set(1, 224, 32, rig.nonce(2));
    assert_eq!(rig.access(READ, child, 1, 0), 4);
    rig.set(1, 224, 32, rig.nonce(2) - 1);
    assert_eq!(rig.access(READ, child, 1, 0), 0);
}

/// "Letting drop refuse a dead entry: its number is lost for good."
#[test]
fn a_dead_entry_is_dropped() {
    let mut rig = Rig::new(64, 2);
    let child = rig.derive(0, 0, 8, 4).first;
    let root = rig.simple(REVOKE, 0).first;
    assert_eq!(rig.derive(root, 0, 8, 4).refusal, 10);
    let answer = rig.simple(DROP, child);
    assert_eq!((answer.refusal, answer.dropped), (0, 1));
    assert_eq!(rig.entry(1), freed(child));
    assert_eq!(rig.count(0), 0);
    assert_eq!(rig.derive(root, 0, 8, 4).refusal, 0);
}

/// "Serving a plain address as physical, without comparing entry 0's present
/// tag with 0."
#[test]
fn a_plain_address_needs_tag_zero() {
    let mut rig = Rig::new(64, 4);
    assert_eq!(rig.access(READ, 5, 1, 0), 0);
    let root = rig.simple(REVOKE, 0).first;
    assert_ne!(rig.tag(0), 0);
    assert_eq!(rig.access(READ, 5, 1, 0), 2);
    assert_eq!(rig.access(READ, root + 5, 1, 0), 0);
    assert_eq!(rig.create(root, 64, 7).refusal, 0);
    assert_eq!(rig.kind(0), 0);
    assert_eq!(rig.access(READ, 5, 1, 0), 2);
}
