//! What is printed is read again as the same session.

mod common;
use bridge::{Check, Lease, Operation, Token, WEEK};
use common::Dice;
use session::entry::{self, Entry};
use session::text::{parse, print, print_with};
use session::{Session, World};

fn read_again(text: &str) -> Session {
    let script = parse(text).unwrap_or_else(|error| panic!("{error}\n{text}"));
    script.session().unwrap_or_else(|error| panic!("{error:?}\n{text}"))
}

#[test]
fn random_sessions() {
    let mut dice = Dice(1);
    for _ in 0..1_000 {
        let session = dice.session();
        let text = print(&session);
        assert!(read_again(&text) == session, "{text}");
    }
}

#[test]
fn random_sessions_with_random_replies() {
    let mut dice = Dice(2);
    for _ in 0..1_000 {
        let session = dice.session();
        let replies: Vec<bridge::Reply> = (0..session.steps.len())
            .map(|_| bridge::Reply {
                refusal: dice.below(2) * dice.below(Check::LAST + 1),
                place: dice.below(3),
                first: dice.some_word(),
                second: dice.some_word(),
                dropped: dice.below(2),
                length: dice.below(2) * dice.some_word(),
            })
            .collect();
        let text = print_with(&session, &replies);
        assert!(read_again(&text) == session, "{text}");
    }
}

/// Names are used where tokens come back, and stand for the same words.
#[test]
fn sessions_as_served() {
    let mut dice = Dice(3);
    let (mut named, mut leased) = (0, 0);
    for _ in 0..300 {
        let mut session = Session { world: World::zeros(8 * 32, 4096), steps: Vec::new() };
        let (mut world, mut replies, mut tokens) = (session.world.clone(), Vec::new(), vec![0]);
        for at in 0..12 {
            let mut step = dice.step();
            step.request.operation =
                if at == 0 { 0 } else { 1 + dice.below(Operation::COUNT as u64 - 1) };
            step.request.token = tokens[dice.below(tokens.len() as u64) as usize];
            step.request.second = tokens[dice.below(tokens.len() as u64) as usize];
            step.request.task = if at == 0 { 1 } else { 0 };
            (step.request.length, step.request.encoding) = (dice.below(300), dice.below(4));
            (step.request.user, step.request.permissions) = (dice.below(2), 7);
            let leased = tokens[dice.below(tokens.len() as u64) as usize];
            let lease =
                Lease::of(Token(leased), 0, WEEK as u16 - 1).expect("a number of the table");
            step.leases = lease.to_bytes().repeat(dice.below(3) as usize);
            replies.push(step.serve(&mut world));
            tokens.extend([replies[at].first, replies[at].second]);
            session.steps.push(step);
        }
        let text = print_with(&session, &replies);
        assert!(read_again(&text) == session, "{text}");
        named += text.matches("rest").count();
        leased += text.matches("=0..10079").filter(|_| text.contains("leases child")).count();
    }
    assert!(named > 100 && leased > 100, "{named} {leased}");
}

/// A free entry is written by its tag, if it has no other bytes.
#[test]
fn free_entries() {
    let mut world = World::zeros(4 * 32, 16);
    Entry::free(0x4a52).store(&mut world.table, 1);
    Entry::free(0x4a52).with(entry::NONCE, 1).store(&mut world.table, 2);
    let session = Session { world, steps: Vec::new() };
    let text = print(&session);
    assert!(read_again(&text) == session, "{text}");
    let lines: Vec<&str> = text.lines().skip(1).collect();
    assert_eq!(lines, ["entry 1 free tag 0x4a52", "entry 2 bytes 00*26 4a5200000001"]);
}

/// A paged entry is written by its fields, whatever bits they hold.
#[test]
fn paged_entries() {
    let mut world = World::zeros(4 * 32, 16);
    Entry::paged(0x1_2345_6789, 16).with(entry::USER, 5).store(&mut world.table, 1);
    let odd = Entry::paged(0, 0).with(entry::PAGED_ZEROS, 1).with(entry::LOCKED, 1);
    odd.with(entry::COPY_ON_WRITE, 1).store(&mut world.table, 2);
    let session = Session { world, steps: Vec::new() };
    let text = print(&session);
    assert!(read_again(&text) == session, "{text}");
    let lines: Vec<&str> = text.lines().skip(1).collect();
    let first = "entry 1 paged page-file 0x123456789 length 16 user 5 permissions RWX lockable \
                 tag 0x0000 nonce 0";
    let second = "entry 2 paged page-file 0 length 0 zeros 1 permissions RWX locked lockable cow \
                  tag 0x0000 nonce 0";
    assert_eq!(lines, [first, second]);
}

/// What paging is asked with, and the names of what it gives.
#[test]
fn paging() {
    let text = "memory 4 entries 4\n\
                reset key 0 0 nonce 1                       -> 0\n\
                write root 01020304                         -> 0\n\
                page-out root 4 page-file 9 task 5          -> 0 as paged zeroed buffer 01020304\n\
                page-out zeroed page-file 8 buffer 00000000 -> 0 as other third buffer 00000000\n\
                page-in paged third 01020304 encoding 1     -> 0 as back\n\
                page-in other zeroed 00*0                   -> 2\n";
    let script = parse(text).expect("a session");
    assert_eq!(session::text::print_script(&script), text);
    assert!(session::play::goes_as_expected(&script, &mut session::server::Proved));
}

#[test]
fn the_largest_memory() {
    let mut world = World::zeros(1024 * 32, (1 << 24) + 1);
    world.memory[1 << 24] = 7;
    world.memory[..100_000].copy_from_slice(&Dice(4).bytes(100_000));
    let session = Session { world, steps: Vec::new() };
    assert!(read_again(&print(&session)) == session);
}
