//! Anything may be handed over, and an answer comes back.

mod common;
use common::{freed, is_access, lease, record, Dice, Rig, SPENT};
use model::operation::*;
use model::Request;

fn any_request(dice: &mut Dice, tokens: &[u64]) -> Request {
    let token = |dice: &mut Dice| match dice.below(8) {
        0 => dice.word(),
        1 => dice.below(200),
        _ => dice.one_of(tokens) + if dice.below(8) == 0 { dice.below(70) } else { 0 },
    };
    let number = |dice: &mut Dice, end: u64| match dice.below(16) {
        0 => dice.word(),
        1 => u64::MAX - dice.below(3),
        _ => dice.below(end),
    };
    let operation = if dice.below(50) == 0 { dice.below(20) } else { 1 + dice.below(16) };
    let (one, other) = (token(dice), token(dice));
    Request {
        operation,
        token: one,
        second: match operation {
            DERIVE => number(dice, 20),
            _ if is_access(operation) => any_minute(dice),
            _ => other,
        },
        task: if dice.below(40) == 0 { 1 << 55 | dice.below(4) } else { dice.below(3) },
        length: number(dice, 40),
        user: dice.word(),
        permissions: if dice.below(30) == 0 {
            dice.below(16)
        } else {
            7 & !dice.below(8) & !dice.below(8)
        },
        encoding: if dice.below(30) == 0 { dice.below(8) } else { dice.below(4) },
    }
}

/// A minute of the week, one in 64 times anything.
fn any_minute(dice: &mut Dice) -> u64 {
    match dice.below(64) {
        0 => dice.word(),
        1 => dice.one_of(&[0, 10_079]),
        _ => dice.below(10_080),
    }
}

/// Often none; else a few on these tokens, seldom an unsound one or a part of one.
fn any_leases(dice: &mut Dice, tokens: &[u64]) -> Vec<u8> {
    let mut leases = Vec::new();
    for _ in 0..dice.below(8).saturating_sub(4) {
        let (opening, closing) = (any_minute(dice) as u16, any_minute(dice) as u16);
        leases.extend(lease(dice.one_of(tokens), opening, closing));
    }
    match dice.below(64) {
        0 => leases.push(dice.word() as u8),
        1 => leases.extend(lease(0, 10_080, 9)),
        _ => {}
    }
    leases
}

/// The buffer that comes with a request: for a load mostly a text.
fn any_buffer(dice: &mut Dice, request: &Request, small: u64) -> Vec<u8> {
    match request.operation {
        LOAD if dice.below(8) != 0 => any_text(dice),
        DUMP => vec![dice.word() as u8; dice.below(400) as usize],
        _ => vec![dice.word() as u8; dice.below(small) as usize],
    }
}

/// A text of small records, one in three with a character changed.
fn any_text(dice: &mut Dice) -> Vec<u8> {
    let mut text = Vec::new();
    for _ in 0..dice.below(4) {
        let data = vec![dice.word() as u8; dice.below(6) as usize];
        text.extend(match dice.below(8) {
            0 => record(4, 0, &[0, dice.below(2) as u8]),
            _ => record(0, dice.below(40) as u16, &data),
        });
    }
    text.extend(record(1, 0, &[]));
    if dice.below(3) == 0 {
        let at = dice.below(text.len() as u64) as usize;
        text[at] = dice.one_of(b"0123456789ABCDEFabcdef:\n\r".map(u64::from).as_slice()) as u8;
    }
    text
}

/// From reset on: "the lengths of all direct entries add up to the memory's
/// length, and no byte has two owners".
fn owners_add_up(rig: &Rig) {
    let mut owned = vec![false; rig.memory.len()];
    for number in 0..rig.entries() {
        if rig.kind(number) == 1 {
            let from = rig.base(number) as usize;
            for byte in &mut owned[from..from + rig.length(number) as usize] {
                assert!(!*byte);
                *byte = true;
            }
        }
    }
    assert!(owned.into_iter().all(|byte| byte));
}

/// A token for the direct entry that begins where the named one ends.
fn neighbour(rig: &Rig, token: u64) -> u64 {
    let entries = rig.entries();
    let named = (token >> 32 & 0x3FFF) as usize % entries;
    let end = rig.base(named) + rig.length(named);
    let next = (0..entries).find(|&number| rig.kind(number) == 1 && rig.base(number) == end);
    rig.token(next.unwrap_or(0))
}

/// A page-out of a direct entry, or a page-in whose tokens fit, if the table has
/// such entries.
fn paging(rig: &Rig, dice: &mut Dice, request: Request) -> Request {
    let kind = if request.operation == PAGE_OUT { 1 } else { 3 };
    let first = (0..rig.entries()).filter(|&number| rig.kind(number) == kind);
    let mut pairs = Vec::new();
    for first in first {
        let fits = |&donor: &usize| {
            rig.kind(donor) == 1 && (kind == 1 || rig.length(donor) == rig.length(first))
        };
        let donors = (0..rig.entries()).filter(fits);
        pairs.extend(donors.map(|donor| (rig.token(first), rig.token(donor))));
    }
    if pairs.is_empty() {
        return request;
    }
    let (token, second) = pairs[dice.below(pairs.len() as u64) as usize];
    Request { token, second, ..request }
}

#[test]
fn lists_from_reset() {
    let mut dice = Dice(7);
    let mut seen = [0u64; 18];
    let mut granted = [0u64; 17];
    for round in 0..60 {
        let (memory, entries) = (1 + dice.below(96) as usize, 2 + dice.below(9) as usize);
        let mut rig = Rig::bare(memory, entries);
        let first = if round % 5 == 0 { SPENT - 1 - dice.below(30) } else { 1 + dice.below(9) };
        assert_eq!(rig.reset(dice.word(), dice.word(), first).refusal, 0);
        let mut given = vec![0];
        for _ in 0..400 {
            let used = (0..entries).filter(|&number| rig.kind(number) != 0);
            let mut tokens: Vec<u64> = used.map(|number| rig.token(number)).collect();
            tokens.extend(&given);
            let mut request = any_request(&mut dice, &tokens);
            // Every third list is one of an allocator.
            if round % 3 == 0 && dice.below(4) != 0 {
                request.operation = dice.one_of(&[CREATE, CREATE, MERGE, MERGE, DROP, REVOKE]);
            }
            if request.operation == MERGE && dice.below(4) != 0 {
                request.second = neighbour(&rig, request.token);
            }
            if request.operation == RESET {
                request.operation = DROP;
            }
            rig.leases = any_leases(&mut dice, &tokens);
            let mut buffer = any_buffer(&mut dice, &request, 12);
            if [PAGE_OUT, PAGE_IN].contains(&request.operation) && dice.below(8) != 0 {
                request = paging(&rig, &mut dice, request);
                let named = (request.token >> 32 & 0x3FFF) as usize % entries;
                buffer.resize(rig.length(named) as usize, dice.word() as u8);
            }
            let answer = rig.ask_with(request, &mut buffer);
            // 02, paper 3: "the kept total equals a full count".
            assert_eq!(rig.state.total, rig.free_numbers());
            seen[answer.refusal as usize] += 1;
            if answer.refusal == 0 {
                granted[request.operation as usize] += 1;
                given.extend([answer.first, answer.second]);
                given.swap_remove(dice.below(given.len() as u64) as usize);
                given.truncate(4);
                owners_add_up(&rig);
            }
        }
    }
    // Ill-formed entries are not reached from reset; all else is.
    assert_eq!(seen[3], 0);
    for refusal in (0..18).filter(|&refusal| refusal != 3) {
        assert!(seen[refusal] > 0, "{refusal}: {seen:?}");
    }
    assert!(granted[1..].iter().all(|&times| times > 0), "{granted:?}");
}

#[test]
fn tables_and_states_that_nobody_reached() {
    let mut dice = Dice(8);
    let mut seen = [0u64; 18];
    for _ in 0..30_000 {
        let entries = dice.below(6) as usize;
        let mut rig = Rig::bare(dice.below(40) as usize, entries);
        if dice.below(20) == 0 {
            rig.table.push(0);
        }
        rig.state.key0 = dice.word();
        let inside = entries.max(1) as u64;
        rig.state.last = if dice.below(30) == 0 { dice.word() } else { dice.below(inside) };
        rig.state.next = dice.one_of(&[1, 2, 9, SPENT - 1, SPENT, 4, 5, 6, 7]);
        if dice.below(30) == 0 {
            rig.state.next = dice.word();
        }
        rig.state.total = if dice.below(30) == 0 { dice.word() } else { dice.below(inside) };
        for number in 0..entries {
            let kind = dice.one_of(&[0, 1, 1, 1, 2, 2, 2, 2, 3, dice.0 >> 61]);
            rig.set(number, 0, 3, kind);
            rig.set(number, 3, 32, dice.below(10));
            let length = 1 + dice.below(20);
            let count = dice.one_of(&[0, 1, 1, 1, 2, 65_534, 65_535]);
            if kind == 1 {
                rig.set(number, 35, 32, length);
                rig.set(number, 67, 16, count);
                let locked = dice.below(3) / 2;
                rig.set(number, 83, 55, locked * (1 + dice.below(2)));
                rig.set(number, 205, 1, locked);
                rig.set(number, 206, 1, dice.below(2));
            } else if kind == 3 {
                rig.set_paged(number, length);
            } else {
                rig.set(number, 35, 64, 1 << 62 | dice.below(2) << 46 | dice.below(5));
                rig.set(number, 99, 32, length);
                rig.set(number, 131, 16, count);
            }
            rig.set(number, 202, 3, 7 & !dice.below(8) & !dice.below(8));
            rig.set(number, 208, 16, dice.below(2));
            rig.set(number, 224, 32, dice.below(10));
            if dice.below(20) == 0 {
                rig.set(number, dice.below(256) as usize, 1, 1);
            }
        }
        let tokens: Vec<u64> = (0..10).map(|n| (n & 1) << 46 | (n >> 1) << 32).collect();
        for _ in 0..4 {
            let request = any_request(&mut dice, &tokens);
            rig.leases = any_leases(&mut dice, &tokens);
            let mut buffer = any_buffer(&mut dice, &request, 6);
            let answer = rig.ask_with(request, &mut buffer);
            seen[answer.refusal as usize] += 1;
        }
    }
    assert!(seen.iter().all(|&times| times > 0), "{seen:?}");
}

#[test]
fn noise() {
    let mut dice = Dice(9);
    for _ in 0..10_000 {
        let mut rig = Rig::bare(dice.below(70) as usize, 0);
        rig.table =
            (0..dice.below(6) * 32 + dice.below(9) / 8).map(|_| dice.word() as u8).collect();
        (rig.state.last, rig.state.next) =
            (dice.below(6), dice.one_of(&[0, 1, 77, SPENT, SPENT + 1]));
        rig.state.total = dice.one_of(&[0, 1, 2, 5, u64::MAX]);
        rig.leases =
            (0..dice.below(4) * 8 + dice.below(9) / 8).map(|_| dice.word() as u8).collect();
        let word = |dice: &mut Dice| match dice.below(4) {
            0 => u64::MAX,
            1 => dice.below(8),
            2 => dice.below(8) << 32,
            _ => dice.word(),
        };
        let request = Request {
            operation: dice.below(19),
            token: word(&mut dice),
            second: word(&mut dice),
            task: word(&mut dice),
            length: word(&mut dice),
            user: word(&mut dice),
            permissions: word(&mut dice),
            encoding: word(&mut dice),
        };
        rig.ask_with(request, &mut vec![1; dice.below(5) as usize]);
    }
}

/// The longest line: 1,024 entries, each the child of the one before.
#[test]
fn the_longest_line() {
    let mut rig = Rig::new(1 << 24, 1024);
    let (mut token, mut given) = (0, Vec::new());
    for _ in 1..1024 {
        let length = rig.length((token >> 32 & 0x3FFF) as usize);
        let answer = rig.derive(token, 0, length - 1, 7);
        assert_eq!(answer.refusal, 0);
        if token != 0 {
            assert_eq!(rig.simple(DROP, token).dropped, 0);
        }
        token = answer.first;
        given.push(token);
    }
    // 02, paper 5: a number never used passes over the nonce of a tag 0.
    assert_eq!((rig.nonce(651), rig.nonce(652), rig.state.next), (651, 653, 1_025));
    assert_eq!(rig.access(READ, token, 1, 0), 0);
    assert_eq!((rig.derive(token, 0, 1, 7).refusal, rig.state.total), (10, 0));
    assert_eq!(rig.simple(DROP, token).dropped, 1);
    let kept: Vec<[u8; 32]> = given.into_iter().map(freed).collect();
    assert_eq!(rig.table[32..], kept.concat());
    assert_eq!((rig.count(0), rig.state.total), (0, 1_023));
}
