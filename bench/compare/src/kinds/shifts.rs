//! Accesses, loads and dumps by shifts: with leases of every kind, at minutes at their ends; under what
//! is derived and what it is derived from; and with each other refusal in force too.

use bridge::{Operation, Words, WEEK};
use session::token;
use session::Step;

use crate::leases::{self, Shift};
use crate::player::Player;
use crate::{image, standings, wild, worlds};

/// The operations that bring a minute.
fn leased() -> Vec<Operation> {
    Operation::ALL.into_iter().filter(|operation| operation.is_leased()).collect()
}

pub fn play(player: &mut Player) {
    worlds::small(player);
    wild::play(player, 6);
    for _ in 0..16 {
        let (operation, number) = (player.dice.one_of(&leased()), wild::used_number(player));
        let (words, buffer) = wild::request(player, operation, number);
        wild::ask_during(player, words, buffer);
    }
    inherited(player);
    strangers(player);
    same_again(player);
    beyond(player);
    stops(player);
}

/// A token, what is derived from it and what it is derived from: a lease binds its own token alone.
fn inherited(player: &mut Player) {
    worlds::reset(player, 4, 64, 1);
    let first = player.derive(0, 0, 32, 7).first;
    let second = player.derive(first, 0, 16, 7).first;
    let line = [0, first, second];
    for _ in 0..3 {
        let bound = player.dice.one_of(&line);
        let leases = leases::closed(bound);
        for token in line {
            let operation = player.dice.one_of(&leased());
            ask(player, operation, token, 0, leases.clone());
        }
    }
}

/// Closed leases that differ from the root's in one bit of the number or of the tag.
fn strangers(player: &mut Player) {
    worlds::reset(player, 2, 64, 1);
    for _ in 0..4 {
        let (operation, bit) = (player.dice.one_of(&leased()), player.dice.below(16));
        let [number, tag] = player.dice.one_of(&[[1, 0], [0, 1]]).map(|one: u64| one << bit);
        let leases = leases::closed(token::packed(1, tag, number, 0));
        ask(player, operation, 0, 0, leases);
    }
}

/// Each of the operations at the week's last minute, and beyond it; and bad texts beyond it, or with
/// leases of a wrong size.
fn beyond(player: &mut Player) {
    worlds::reset(player, 2, 64, 1);
    for operation in leased() {
        for minute in [WEEK - 1, WEEK] {
            ask(player, operation, 0, minute, Vec::new());
        }
    }
    for buffer in bad_texts() {
        let load = Words { operation: Operation::Load as u64, ..Words::default() };
        let beyond = Words { second: WEEK, ..load };
        player.ask_lent(Step { request: beyond, buffer: buffer.clone(), leases: Vec::new() });
        player.ask_lent(Step { request: load, buffer, leases: leases::misfitting() });
    }
}

/// A text without a record, and one with a wrong checksum.
fn bad_texts() -> [Vec<u8>; 2] {
    [Vec::new(), b":00000001FE\n".to_vec()]
}

/// The same access at minutes that go back and forth: none is remembered.
fn same_again(player: &mut Player) {
    worlds::reset(player, 2, 64, 1);
    let Shift { leases, .. } = leases::shift(&mut player.dice, 0, 0);
    for _ in 0..4 {
        let minute = player.dice.one_of(&[0, 1, 5_000, 10_079]);
        ask(player, Operation::Write, 0, minute, leases.clone());
    }
}

/// Asks a request that would be granted through a token with all rights.
fn ask(player: &mut Player, operation: Operation, token: u64, minute: u64, leases: Vec<u8>) {
    let request = Words { operation: operation as u64, token, second: minute, ..Words::default() };
    player.ask_lent(Step { request, buffer: fitting(operation), leases });
}

/// A buffer with which a request is granted.
fn fitting(operation: Operation) -> Vec<u8> {
    match operation {
        Operation::Load => image::end(),
        Operation::Dump => vec![0xB5; 200],
        _ => vec![0xB5; 1],
    }
}

/// Two of the operations at each place where they stop, and where they do not: with leases that are
/// closed, with bad ones, and with both; and at a minute beyond the week, or with leases of a wrong
/// size.
fn stops(player: &mut Player) {
    for _ in 0..2 {
        let world = standings::world(player);
        player.begin(world);
        let operation = player.dice.one_of(&leased());
        for (request, buffer) in each_stop(player, operation) {
            let (closed, bad) = (leases::closed(request.token), leases::bad());
            let both = [bad.clone(), closed.clone()].concat();
            let beyond = Words { second: WEEK, ..request };
            let fourth = match player.dice.below(4) {
                0 => (request, leases::misfitting()),
                1 => (beyond, Vec::new()),
                2 => (beyond, closed.clone()),
                _ => (beyond, bad.clone()),
            };
            for (request, leases) in [(request, closed), (request, bad), (request, both), fourth] {
                player.ask_lent(Step { request, buffer: buffer.clone(), leases });
            }
        }
    }
}

/// A request for each check of an operation that is told by neither minute nor leases, and one that
/// is granted.
fn each_stop(player: &mut Player, operation: Operation) -> Vec<(Words, Vec<u8>)> {
    let named = |token| Words { operation: operation as u64, token, ..Words::default() };
    let with = |words| (words, fitting(operation));
    let mut found = vec![with(named(0)), with(Words { task: 1 << 55, ..named(0) })];
    found.push(with(named(player.token(standings::LOCKED) ^ 1 << 50)));
    found.extend(standings::REFUSED.map(|number| with(named(player.token(number)))));
    let lacking = match operation {
        Operation::Read | Operation::Dump => standings::CHILD,
        _ => standings::READABLE,
    };
    found.push(with(named(player.token(lacking))));
    let beyond = token::packed(0, 0, 0, standings::LENGTH);
    match operation {
        Operation::Load => {
            let too_far = [image::data(standings::LENGTH as u16, &[1]), image::end()].concat();
            found.push((named(0), too_far));
            found.extend(bad_texts().map(|text| (named(0), text)));
        }
        Operation::Dump => found.push((named(0), vec![0; 3])),
        _ => found.push(with(named(beyond))),
    }
    found
}
