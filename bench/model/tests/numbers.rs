//! 02, paper 3: how many numbers are left.

mod common;
use common::{record, Dice, Rig, SPENT};
use model::operation::*;
use model::{Answer, Request};

fn granted(answer: Answer) -> Answer {
    assert_eq!(answer.refusal, 0);
    answer
}

/// The total after a request over a copy with this total.
fn left(rig: &Rig, total: u64, ask: impl Fn(&mut Rig) -> Answer) -> u64 {
    let mut copy = rig.clone();
    copy.state.total = total;
    granted(ask(&mut copy));
    copy.state.total
}

/// A line 3 -> 2 -> 1 -> 0 whose climb takes all three, and its lowest token.
fn ladder(entries: usize) -> (Rig, u64) {
    let mut rig = Rig::new(64, entries);
    let a = rig.derive(0, 0, 32, 7).first;
    let b = rig.derive(a, 0, 16, 7).first;
    let c = rig.derive(b, 0, 8, 7).first;
    rig.simple(DROP, a);
    rig.simple(DROP, b);
    (rig, c)
}

#[test]
fn reset_begins_with_all_numbers_but_0() {
    for entries in [2, 3, 1024] {
        // Whatever total and table it is handed.
        for total in [0, 1, entries as u64, u64::MAX] {
            let mut rig = Rig::bare(64, entries);
            rig.table.fill(0xEE);
            rig.state.total = total;
            // Refused, it leaves the total, a wrong one too.
            assert_eq!((rig.reset(0, 0, 0).refusal, rig.state.total), (1, total));
            granted(rig.reset(0, 0, 1));
            assert_eq!(
                (rig.state.total, rig.free_numbers()),
                (entries as u64 - 1, rig.state.total)
            );
        }
    }
}

/// "corrected by every issue of a new number": create's part, derive and
/// execute-only. An issue of an old number is none.
#[test]
fn new_numbers_lower_it() {
    let mut rig = Rig::new(64, 8);
    let cut = granted(rig.create(0, 16, 7));
    assert_eq!(rig.state.total, 6);
    let child = granted(rig.derive(cut.first, 0, 8, 7)).first;
    assert_eq!(rig.state.total, 5);
    let below = granted(rig.simple(EXECUTE_ONLY, child)).first;
    assert_eq!(rig.state.total, 4);
    // Counts, locks, bytes and issues of old numbers leave it.
    granted(rig.simple(CLONE, below));
    assert_eq!(granted(rig.simple(DROP, below)).dropped, 0);
    assert_eq!((rig.lock(child, 7), rig.unlock(child, 7)), (0, 0));
    assert_eq!((rig.access(WRITE, child, 4, 0), rig.access(FETCH, below, 4, 0)), (0, 0));
    assert_eq!((rig.load(child, &record(1, 0, &[]), 0), rig.dump(child, 99, 0).is_ok()), (0, true));
    granted(rig.simple(REVOKE, cut.second));
    granted(rig.simple(REVOKE, cut.first));
    assert_eq!((rig.state.total, rig.free_numbers()), (4, 4));
}

/// "and every freeing": create of the whole, a merge's second, drop.
#[test]
fn freed_numbers_raise_it() {
    let mut rig = Rig::new(64, 8);
    let one = granted(rig.create(0, 16, 7));
    let two = granted(rig.create(one.second, 16, 7));
    assert_eq!(rig.state.total, 5);
    let both = granted(rig.merge(one.first, two.first)).first;
    assert_eq!(rig.state.total, 6);
    // One given and one freed.
    let moved = granted(rig.create(both, 32, 7)).first;
    assert_eq!(rig.state.total, 6);
    let child = granted(rig.derive(moved, 0, 8, 7)).first;
    assert_eq!(rig.state.total, 5);
    // Under a lock nothing is freed.
    rig.lock(moved, 7);
    assert_eq!((granted(rig.simple(DROP, child)).dropped, rig.state.total), (0, 5));
    rig.unlock(moved, 7);
    assert_eq!((granted(rig.simple(DROP, child)).dropped, rig.state.total), (1, 6));
    // A direct entry dropped to 0 stays.
    granted(rig.simple(CLONE, moved));
    assert_eq!((granted(rig.simple(DROP, moved)).dropped, rig.state.total), (1, 6));
    assert_eq!(rig.free_numbers(), 6);
}

#[test]
fn a_climb_frees_several() {
    let (mut rig, token) = ladder(8);
    assert_eq!(rig.state.total, 4);
    let drop = |rig: &mut Rig| rig.simple(DROP, token);
    // A wrong total stops at the top, though more are freed.
    let after = [0, 3, 4, 5, 6, 7].map(|total| left(&rig, total, drop));
    assert_eq!(after, [3, 6, 7, 7, 7, 7]);
    assert_eq!(granted(drop(&mut rig)).dropped, 1);
    assert_eq!((rig.state.total, rig.free_numbers()), (7, 7));
    // What the climb does not reach stays in use: behind a missing link, and
    // above a count of 2 or of 0.
    for (count, tag) in [(1, 1), (2, 0), (0, 0)] {
        let (mut rig, token) = ladder(8);
        rig.set_count(2, count);
        rig.set(1, 208, 16, rig.tag(1) ^ tag);
        granted(rig.simple(DROP, token));
        let freed = if tag == 1 { 2 } else { 1 };
        assert_eq!((rig.state.total, rig.free_numbers()), (4 + freed, 4 + freed));
    }
}

/// "a kept total of free numbers without number 0"
#[test]
fn number_0_freed_is_not_counted() {
    // By a create of the whole: one number is given, and none comes back.
    let mut rig = Rig::new(64, 4);
    let whole = granted(rig.create(0, 64, 7)).first;
    assert_eq!((rig.kind(0), rig.state.total, rig.free_numbers()), (0, 2, 2));
    // The next such frees a number that can be given again.
    granted(rig.create(whole, 64, 7));
    assert_eq!((rig.state.total, rig.free_numbers()), (2, 2));
    // By a merge with the root as its second.
    let mut rig = Rig::new(64, 4);
    let cut = granted(rig.create(0, 16, 7));
    assert_eq!(rig.state.total, 2);
    granted(rig.merge(cut.first, cut.second));
    assert_eq!((rig.kind(0), rig.state.total, rig.free_numbers()), (0, 2, 2));
}

/// A handed-over table may have an indirect entry 0 in the middle of a line.
#[test]
fn number_0_freed_by_a_climb_is_not_counted() {
    let mut rig = Rig::new(64, 5);
    let whole = rig.create(0, 64, 7).first;
    let middle = rig.derive(whole, 0, 16, 7).first;
    let lowest = rig.derive(middle, 0, 8, 7).first;
    granted(rig.simple(DROP, middle));
    // The middle moves from number 2 to number 0.
    rig.table.copy_within(64..96, 0);
    rig.table[64..96].fill(0);
    rig.set(3, 35, 64, 1 << 62 | rig.tag(0) << 46);
    rig.state.total = rig.free_numbers();
    assert_eq!((rig.access(READ, lowest, 8, 0), rig.state.total), (0, 2));
    granted(rig.simple(DROP, lowest));
    assert_eq!((rig.kind(0), rig.kind(3), rig.count(1)), (0, 0, 0));
    assert_eq!((rig.state.total, rig.free_numbers()), (3, 3));
}

/// "A wrong handed-over total stops at 0 and at that top": at each correction,
/// the number given before the number freed, as create has them.
#[test]
fn a_wrong_total_stops() {
    let mut rig = Rig::new(64, 4);
    let cut = granted(rig.create(0, 16, 7));
    let child = granted(rig.derive(cut.first, 0, 8, 7)).first;
    let totals = [0, 1, 2, 3];
    let after = |ask: &dyn Fn(&mut Rig) -> Answer| totals.map(|total| left(&rig, total, ask));
    assert_eq!(after(&|rig| rig.derive(child, 0, 8, 7)), [0, 0, 1, 2]);
    assert_eq!(after(&|rig| rig.simple(EXECUTE_ONLY, child)), [0, 0, 1, 2]);
    assert_eq!(after(&|rig| rig.simple(DROP, child)), [1, 2, 3, 3]);
    assert_eq!(after(&|rig| rig.create(cut.second, 8, 7)), [0, 0, 1, 2]);
    // The whole of number 0: nothing comes back.
    assert_eq!(after(&|rig| rig.create(cut.second, 48, 7)), [0, 0, 1, 2]);
    // The whole of another: from 0 it goes up, from the top it stays.
    rig.simple(DROP, child);
    let after = |ask: &dyn Fn(&mut Rig) -> Answer| totals.map(|total| left(&rig, total, ask));
    assert_eq!(after(&|rig| rig.create(cut.first, 16, 7)), [1, 1, 2, 3]);
    // A merge that frees number 0, and one that frees another.
    assert_eq!(after(&|rig| rig.merge(cut.first, cut.second)), totals);
    let cut = granted(rig.create(cut.second, 16, 7));
    let after = |ask: &dyn Fn(&mut Rig) -> Answer| totals.map(|total| left(&rig, total, ask));
    assert_eq!(after(&|rig| rig.merge(rig.token(1), cut.first)), [1, 2, 3, 3]);
    // What neither gives nor frees leaves a wrong one as it is.
    assert_eq!(after(&|rig| rig.simple(REVOKE, cut.first)), totals);
    assert_eq!(after(&|rig| rig.simple(CLONE, cut.first)), totals);
}

#[test]
fn a_wrong_total_stays_in_range() {
    let mut dice = Dice(31);
    for _ in 0..60 {
        let mut rig = Rig::new(64, 2 + dice.below(6) as usize);
        rig.state.total = dice.below(rig.entries() as u64);
        for _ in 0..60 {
            let token = rig.token(dice.below(rig.entries() as u64) as usize);
            let length = 1 + dice.below(64);
            match dice.below(4) {
                0 => rig.create(token, length, 7),
                1 => rig.derive(token, 0, length, 7),
                2 => rig.merge(token, rig.token(dice.below(rig.entries() as u64) as usize)),
                _ => rig.simple(DROP, token),
            };
            assert!(rig.state.total < rig.entries() as u64);
        }
    }
}

/// "the total may not exceed entries minus one, else refusal 1"
#[test]
fn a_total_above_the_top_is_refused() {
    let top = 7;
    let ask = |operation, total| {
        let mut rig = Rig::new(64, top as usize + 1);
        let mut request = Request { operation, length: 1, task: 1, ..Request::default() };
        if operation == MERGE {
            let made = rig.create(0, 8, 7);
            (request.token, request.second) = (made.first, made.second);
        }
        if operation == DROP {
            rig.simple(CLONE, 0);
        }
        if operation == UNLOCK {
            rig.lock(0, 1);
        }
        rig.state.total = total;
        let mut buffer = record(1, 0, &[]);
        buffer.resize(if operation == DUMP { 1_000 } else { buffer.len() }, 0);
        rig.ask_with(request, &mut buffer).refusal
    };
    for operation in READ..=DUMP {
        for total in [0, 1, top] {
            assert_eq!(ask(operation, total), 0, "{operation}");
        }
        for total in [top + 1, 1_024, 1 << 32 | 1, u64::MAX] {
            assert_eq!(ask(operation, total), 1, "{operation}");
        }
    }
    // Reset takes no state.
    assert_eq!((ask(RESET, top + 1), ask(RESET, u64::MAX)), (0, 0));
    // The top is that of the table that comes with the request.
    let mut rig = Rig::new(64, 4);
    rig.table.truncate(96);
    assert_eq!(rig.access(READ, 0, 1, 0), 1);
    rig.table.resize(160, 0);
    assert_eq!(rig.access(READ, 0, 1, 0), 0);
    // Place 1 is before all others, a load's text too.
    rig.state.total = 5;
    assert_eq!((rig.load(0, b"x", 0), rig.derive(9 << 32, 0, 99, 7).refusal), (1, 1));
}

/// "refusal 10 still goes by the table"
#[test]
fn the_table_decides_refusal_10() {
    let mut rig = Rig::new(64, 3);
    // A total of 0 with free numbers, up to the last of them.
    rig.state.total = 0;
    let part = granted(rig.create(0, 16, 7)).first;
    granted(rig.derive(part, 0, 8, 7));
    assert_eq!((rig.free_numbers(), rig.state.total), (0, 0));
    // Any total with none.
    for total in 0..3 {
        rig.state.total = total;
        assert_eq!(rig.derive(part, 0, 8, 7).refusal, 10);
        assert_eq!(rig.simple(EXECUTE_ONLY, part).refusal, 10);
        assert_eq!(rig.create(rig.token(0), 8, 7).refusal, 10);
        assert_eq!(rig.state.total, total);
    }
    // "Type 0 is free whatever its other bytes hold."
    rig.set(2, 0, 3, 0);
    rig.state.total = rig.free_numbers();
    assert_eq!(rig.state.total, 1);
    granted(rig.derive(part, 0, 8, 7));
    assert_eq!((rig.free_numbers(), rig.state.total), (0, 0));
}

/// "A refusal returns ...; table, memory, state and the caller's buffer keep
/// their bytes": also one behind place 10.
#[test]
fn a_refused_issue_corrects_nothing() {
    let mut rig = Rig::new(64, 4);
    rig.state.next = SPENT - 1;
    assert_eq!((rig.create(0, 16, 7).refusal, rig.state.total), (11, 3));
    rig.state.next = SPENT;
    assert_eq!((rig.create(0, 64, 7).refusal, rig.state.total), (11, 3));
    assert_eq!((rig.derive(0, 0, 8, 7).refusal, rig.state.total), (11, 3));
    assert_eq!((rig.simple(EXECUTE_ONLY, 0).refusal, rig.state.total), (11, 3));
}
