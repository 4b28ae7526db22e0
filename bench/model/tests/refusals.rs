//! Each refusal, with its order against the others and its place.

mod common;
use common::{Rig, SPENT};
use model::operation::*;
use model::{Answer, Request, State};

fn stop(answer: Answer) -> (u64, u64) {
    (answer.refusal, answer.place)
}

fn read(rig: &mut Rig, token: u64) -> (u64, u64) {
    stop(rig.ask_with(Request { operation: READ, token, ..Request::default() }, &mut [0]))
}

#[test]
fn sizes_and_settings() {
    let reads = |memory: usize, table: usize| {
        let mut rig = Rig::bare(memory, 0);
        rig.table = vec![0; table];
        rig.state.next = 1;
        (rig.access(READ, 0, 1, 0), rig.reset(0, 0, 1).refusal)
    };
    assert_eq!(reads(1, 64), (2, 0));
    assert_eq!(reads(1, 32 * 1024), (2, 0));
    assert_eq!(reads(1 << 24, 64), (2, 0));
    for (memory, table) in [
        (0, 64),
        ((1 << 24) + 1, 64),
        (1, 0),
        (1, 32),
        (1, 63),
        (1, 65),
        (1, 32 * 1024 + 1),
        (1, 32 * 1025),
        (0, 0),
    ] {
        assert_eq!(reads(memory, table), (1, 1));
    }
    let mut rig = Rig::new(64, 4);
    for (last, next, total, refusal) in [
        (3, 1, 0, 0),
        (0, SPENT, 3, 0),
        (4, 1, 0, 1),
        (u64::MAX, 1, 0, 1),
        (0, 0, 0, 1),
        (0, SPENT + 1, 0, 1),
        (0, 1, 4, 1),
        (0, 1, u64::MAX, 1),
    ] {
        (rig.state.last, rig.state.next, rig.state.total) = (last, next, total);
        assert_eq!(rig.access(READ, 0, 1, 0), refusal);
        assert_eq!(rig.simple(CLONE, 0).refusal, refusal);
        assert_eq!(rig.simple(DROP, 0).refusal, refusal);
        assert_eq!(rig.lock(0, 1), refusal);
        assert_eq!(rig.unlock(0, 1), refusal);
    }
}

#[test]
fn reset_judges_what_it_takes() {
    for (nonce, refusal) in [(0, 1), (1, 0), (SPENT - 1, 0), (SPENT, 1), (u64::MAX, 1)] {
        let mut rig = Rig::bare(64, 4);
        (rig.state.last, rig.state.total) = (99, 99);
        rig.table.fill(0xEE);
        rig.memory.fill(0x55);
        assert_eq!(rig.reset(3, 4, nonce).refusal, refusal);
        if refusal == 0 {
            assert_eq!(rig.state, State { key0: 3, key1: 4, last: 0, next: nonce, total: 3 });
            assert_eq!(rig.table[32..], [0; 96]);
            assert_eq!(rig.memory, [0x55; 64]);
        }
    }
}

#[test]
fn words_of_a_request() {
    let mut rig = Rig::new(65_536, 8);
    for (length, refusal) in [(0, 1), (1, 0), (4_096, 0), (4_097, 1)] {
        for operation in [READ, WRITE, FETCH] {
            assert_eq!(rig.access(operation, 0, length, 0), refusal);
        }
    }
    let bad = u64::MAX;
    let ask = |change: &dyn Fn(&mut Request), operation: u64| {
        let mut rig = Rig::new(64, 8);
        let mut request = Request { operation, length: 1, task: 1, ..Request::default() };
        if operation == MERGE {
            let made = rig.create(0, 8, 7);
            (request.token, request.second) = (made.first, made.second);
        }
        if operation == DROP {
            rig.simple(CLONE, 0);
        }
        if operation == UNLOCK {
            rig.lock(0, 1);
        }
        change(&mut request);
        rig.ask_with(request, &mut [0]).refusal
    };
    let refusing = |change: &dyn Fn(&mut Request)| -> Vec<u64> {
        (READ..=REVOKE)
            .filter(|&operation| {
                let refusal = ask(change, operation);
                assert!(refusal <= 1);
                refusal == 1
            })
            .collect()
    };
    assert_eq!(refusing(&|_| ()), []);
    assert_eq!(
        refusing(&|request| request.token |= 1),
        [CREATE, MERGE, DERIVE, EXECUTE_ONLY, CLONE, DROP, LOCK, UNLOCK, REVOKE]
    );
    assert_eq!(refusing(&|r| r.second |= u64::from(r.operation == MERGE)), [MERGE]);
    let tasked = [READ, WRITE, FETCH, CREATE, MERGE, LOCK, UNLOCK];
    assert_eq!(refusing(&|request| request.task = 1 << 55), tasked);
    assert_eq!(refusing(&|request| request.task = bad), tasked);
    assert_eq!(refusing(&|request| request.task = 0), [LOCK, UNLOCK]);
    assert_eq!(refusing(&|request| request.length = 0), [CREATE, DERIVE]);
    assert_eq!(refusing(&|request| request.permissions = 8), [CREATE, DERIVE]);
    assert_eq!(
        refusing(&|request| request.encoding = 4),
        [CREATE, MERGE, DERIVE, EXECUTE_ONLY, REVOKE]
    );
    assert_eq!(refusing(&|request| request.user = bad), []);
    for operation in [17, 18, 1 << 32, bad] {
        assert_eq!(rig.ask_with(Request { operation, ..Request::default() }, &mut [0]).refusal, 1);
    }
}

#[test]
fn the_named_entry() {
    let mut rig = Rig::new(64, 4);
    for token in [4 << 32, 1 << 32, 1 << 46, 1 << 62 | 4, 1 << 62 | ((1 << 46) - 1)] {
        assert_eq!(read(&mut rig, token), (2, 0));
    }
    // Any encoding names the entry.
    let child = rig.derive(0, 0, 8, 7).first;
    let tag = child & 0xFFFF << 46;
    for token in
        [tag | 1 << 32, 1 << 62 | tag | 1, 2 << 62 | tag | 1 << 16, 3 << 62 | tag | 1 << 24]
    {
        assert_eq!(read(&mut rig, token), (0, 0));
    }
    // "Type 0 is free whatever its other bytes hold."
    rig.set(1, 0, 3, 0);
    assert_eq!(read(&mut rig, child), (2, 0));
    // Another tag comes before ill-formed.
    rig.set(1, 0, 3, 5);
    assert_eq!(read(&mut rig, child), (3, 1));
    assert_eq!(read(&mut rig, child ^ 1 << 46), (2, 0));
}

/// A line 3 -> 2 -> 1 -> 0.
fn ladder() -> (Rig, [u64; 4]) {
    let mut rig = Rig::new(64, 8);
    let a = rig.derive(0, 0, 32, 7).first;
    let b = rig.derive(a, 0, 16, 7).first;
    let c = rig.derive(b, 0, 8, 7).first;
    (rig, [0, a, b, c])
}

#[test]
fn the_line() {
    let cow = 207;
    for at in 0..4 {
        let (mut rig, token) = ladder();
        rig.set(at, cow, 1, 1);
        for (from, word) in token.into_iter().enumerate() {
            let wanted = if from < at { (0, 0) } else { (3, 1 + u64::from(from > at)) };
            assert_eq!(read(&mut rig, word), wanted);
        }
        // Drop does not skip place 3.
        assert_eq!(stop(rig.simple(DROP, token[3])), (3, if at == 3 { 1 } else { 2 }));
    }
    for at in 0..3 {
        type Break = fn(&mut Rig, usize);
        let breaks: [Break; 4] = [
            |rig, at| rig.table[32 * at..32 * at + 32].fill(0),
            |rig, at| rig.set(at, 208, 16, rig.tag(at) ^ 1),
            |rig, at| rig.set(at, 224, 32, rig.nonce(at + 1)),
            |rig, at| {
                let beyond = 1 << 62 | rig.tag(at) << 46 | 8;
                rig.set(at + 1, 35, 64, beyond);
            },
        ];
        for (kind, cut) in breaks.into_iter().enumerate() {
            let (mut rig, token) = ladder();
            cut(&mut rig, at);
            // "A link is judged before the entry it leads to."
            rig.set(at, cow, 1, 1);
            for (from, &word) in token.iter().enumerate().skip(at + 1) {
                let wanted = (4, 1 + u64::from(from > at + 1));
                assert_eq!(read(&mut rig, word), wanted, "{kind} {at} {from}");
                assert_eq!(stop(rig.simple(CLONE, word)), wanted);
                assert_eq!(rig.clone().simple(DROP, word).refusal, 0);
            }
        }
    }
    // The walk stops at its first: a missing link below hides an ill-formed
    // entry above, and the other way round.
    let (mut rig, token) = ladder();
    rig.set(0, cow, 1, 1);
    rig.set(1, 208, 16, rig.tag(1) ^ 1);
    assert_eq!(read(&mut rig, token[3]), (4, 2));
    let (mut rig, token) = ladder();
    rig.set(0, 208, 16, 1);
    rig.set(1, cow, 1, 1);
    assert_eq!(read(&mut rig, token[3]), (3, 2));
    // A parent in another encoding.
    let (mut rig, token) = ladder();
    rig.set(2, 35, 2, 0);
    assert_eq!(read(&mut rig, token[2]), (3, 1));
    assert_eq!(read(&mut rig, token[3]), (3, 2));
}

#[test]
fn the_lock_holds_these_requests_up() {
    let ask = |operation, task| {
        let mut rig = Rig::new(64, 8);
        let child = rig.derive(0, 0, 8, 7).first;
        rig.lock(child, 7);
        let second = if operation == MERGE { child } else { 0 };
        let request =
            Request { operation, token: child, second, length: 1, task, ..Request::default() };
        rig.ask_with(request, &mut [0]).refusal
    };
    let by = |task| (READ..=REVOKE).map(|operation| ask(operation, task)).collect::<Vec<_>>();
    //                     r  w  f  c  m  d  x  c  d  l  u  r
    assert_eq!(by(8), vec![5, 5, 5, 5, 5, 0, 0, 0, 0, 5, 5, 6]);
    assert_eq!(by(7), vec![0, 0, 0, 6, 6, 0, 0, 0, 0, 0, 0, 6]);
    assert_eq!(by(0), vec![5, 5, 5, 5, 5, 0, 0, 0, 0, 1, 1, 6]);
}

#[test]
fn merge_judges_its_first_token_through_place_5_first() {
    let mut rig = Rig::new(64, 8);
    let cut = rig.create(0, 16, 7);
    let (a, b) = (cut.first, cut.second);
    let child = rig.derive(a, 0, 4, 7).first;
    rig.lock(a, 7);
    assert_eq!(rig.merge(a, 5 << 32).refusal, 5);
    assert_eq!(rig.merge(b, 5 << 32).refusal, 2);
    assert_eq!(rig.merge(b, a).refusal, 5);
    rig.unlock(a, 7);
    // Kind before bounds before standing.
    assert_eq!(rig.merge(child, b).refusal, 6);
    assert_eq!(rig.merge(b, child).refusal, 6);
    assert_eq!(rig.merge(child, 5 << 32).refusal, 2);
    assert_eq!(rig.merge(b, a).refusal, 8);
    assert_eq!(rig.merge(a, a).refusal, 8);
    assert_eq!(rig.merge(a, b).refusal, 9);
    rig.simple(DROP, child);
    rig.state.next = SPENT;
    assert_eq!(rig.merge(a, b).refusal, 11);
    rig.state.next = SPENT - 1;
    assert_eq!(rig.merge(a, b).refusal, 0);
    assert_eq!(rig.state.next, SPENT);
}

#[test]
fn create_goes_down_the_table() {
    let mut rig = Rig::new(64, 2);
    let only_read = rig.create(0, 64, 4).first;
    rig.lock(only_read, 7);
    let create = |rig: &mut Rig, permissions, length, task| {
        let operation = CREATE;
        let token = only_read;
        rig.ask(Request { operation, token, permissions, length, task, ..Request::default() })
            .refusal
    };
    assert_eq!(create(&mut rig, 2, 65, 8), 5);
    assert_eq!(create(&mut rig, 2, 65, 7), 7);
    assert_eq!(create(&mut rig, 4, 65, 7), 8);
    assert_eq!(create(&mut rig, 4, u64::MAX, 7), 8);
    assert_eq!(create(&mut rig, 4, 64, 7), 9);
    rig.unlock(only_read, 7);
    rig.set_count(1, 1);
    assert_eq!(create(&mut rig, 0, 64, 7), 9);
    rig.set_count(1, 0);
    rig.state.next = SPENT;
    assert_eq!(create(&mut rig, 0, 64, 7), 10);
    rig.table.resize(96, 0);
    assert_eq!(create(&mut rig, 0, 64, 7), 11);
    rig.state.next = SPENT - 1;
    assert_eq!(create(&mut rig, 0, 63, 7), 11);
    assert_eq!(create(&mut rig, 0, 64, 7), 0);
    assert_eq!(rig.state.next, SPENT);
}

#[test]
fn children_go_down_the_table() {
    let mut rig = Rig::new(64, 2);
    let token = rig.create(0, 64, 4).first;
    assert_eq!(rig.simple(EXECUTE_ONLY, token).refusal, 7);
    assert_eq!(rig.derive(token, 0, 65, 6).refusal, 7);
    rig.set_count(1, 65_535);
    assert_eq!(rig.derive(token, 0, 65, 4).refusal, 8);
    assert_eq!(rig.derive(token, 64, 1, 4).refusal, 8);
    assert_eq!(rig.derive(token, u64::MAX, 1, 4).refusal, 8);
    assert_eq!(rig.derive(token, u64::MAX, u64::MAX, 4).refusal, 8);
    assert_eq!(rig.derive(token, 0, 64, 4).refusal, 9);
    assert_eq!(rig.derive(token, 63, 1, 4).refusal, 9);
    assert_eq!(rig.simple(CLONE, token).refusal, 9);
    rig.set_count(1, 65_534);
    rig.state.next = SPENT;
    assert_eq!(rig.derive(token, 63, 1, 4).refusal, 10);
    rig.table.resize(96, 0);
    assert_eq!(rig.derive(token, 63, 1, 4).refusal, 11);
    rig.state.next = SPENT - 1;
    assert_eq!(rig.derive(token, 63, 1, 4).refusal, 0);
    assert_eq!((rig.count(1), rig.state.next), (65_535, SPENT));
    rig.set(1, 202, 3, 7);
    assert_eq!(rig.simple(EXECUTE_ONLY, token).refusal, 9);
}

/// 02, paper 1: "From now on length + offset may equal the segment's length."
#[test]
fn derive_ends_at_the_segments_end_at_the_latest() {
    for length in [1, 2, 16] {
        // A direct segment and an indirect one, each with bytes of others
        // before and behind it.
        let mut rig = Rig::new(64, 5);
        let rest = rig.create(0, 8, 7).second;
        let cut = rig.create(rest, length, 7);
        let child = rig.derive(cut.second, 8, length, 7).first;
        for segment in [cut.first, child] {
            let derive = |offset, wanted| rig.clone().derive(segment, offset, wanted, 7).refusal;
            // The whole, and one more than the whole.
            assert_eq!((derive(0, length), derive(0, length + 1)), (0, 8));
            // The last byte, one byte past the end, and the whole moved by one.
            assert_eq!((derive(length - 1, 1), derive(length - 1, 2)), (0, 8));
            assert_eq!((derive(length, 1), derive(1, length)), (8, 8));
            // At the end itself nothing is left to derive.
            assert_eq!(derive(length, 0), 1);
            for offset in 0..length + 2 {
                for wanted in 1..length + 3 {
                    let inside = offset + wanted <= length;
                    assert_eq!(derive(offset, wanted), if inside { 0 } else { 8 });
                }
            }
            // Sums beyond 64 bits, whose low 64 bits would do.
            for low in [0, 1, length] {
                for part in [length + 1, 1 << 32, 1 << 63, u64::MAX] {
                    let other = low.wrapping_sub(part);
                    assert!(part.checked_add(other).is_none());
                    assert_eq!((derive(part, other), derive(other, part)), (8, 8));
                }
            }
            // Offsets and lengths whose low 32 bits would do.
            assert_eq!((derive(1 << 32, length), derive(0, 1 << 32 | length)), (8, 8));
        }
    }
}

#[test]
fn standing_of_drop_and_unlock_and_right_of_lock() {
    let mut rig = Rig::new(64, 4);
    assert_eq!(rig.simple(DROP, 0).refusal, 9);
    assert_eq!(rig.unlock(0, 7), 9);
    rig.set(0, 206, 1, 0);
    assert_eq!(rig.lock(0, 7), 7);
    // Locked without Lockable is well-formed; the holder may unlock.
    rig.set(0, 205, 1, 1);
    rig.set(0, 83, 55, 7);
    assert_eq!(rig.lock(0, 8), 5);
    assert_eq!(rig.lock(0, 7), 7);
    assert_eq!(rig.unlock(0, 8), 5);
    assert_eq!(rig.unlock(0, 7), 0);
    assert_eq!((rig.holder(0), rig.locked(0)), (0, 0));
}

#[test]
fn access_rights_and_bounds() {
    let mut rig = Rig::new(64, 8);
    for permissions in 0..8 {
        let token = rig.derive(0, 8, 8, permissions).first;
        for (operation, bit) in [(READ, 4), (WRITE, 2), (FETCH, 1)] {
            let held = permissions & bit != 0;
            assert_eq!(rig.access(operation, token + 7, 1, 0), if held { 0 } else { 7 });
            assert_eq!(rig.access(operation, token + 7, 2, 0), if held { 8 } else { 7 });
            assert_eq!(
                rig.access(operation, token + 0xFFFF_FFFF, 4_096, 0),
                if held { 8 } else { 7 }
            );
        }
        rig.simple(DROP, token);
    }
}
