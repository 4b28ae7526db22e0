//! Parts cut off and joined again: neighbours in right and wrong order, an entry with itself, parts
//! with other permissions, with children, and under locks.

use bridge::{Operation, Words};
use session::entry;

use crate::player::Player;
use crate::{wild, worlds};

pub fn play(player: &mut Player) {
    let memory = player.dice.one_of(&[8, 64, 256]);
    worlds::reset(player, 8, memory, 1);
    player.rubbish = player.dice.once_in(4);
    for _ in 0..6 {
        cut(player);
    }
    for _ in 0..12 {
        join(player);
    }
    wild::play(player, 30);
}

fn cut(player: &mut Player) {
    let number = wild::used_number(player);
    let entry = player.entry(number);
    let token = entry.token(number, player.dice.below(4));
    let length = player.dice.between(1, entry.length().max(2) / 2);
    let permissions = player.dice.one_of(&[7, 7, 6, 5, 3]) & entry.get(entry::PERMISSIONS);
    let (user, encoding) = (player.dice.word(), player.dice.below(4));
    let operation = Operation::Create as u64;
    let words = Words { operation, token, length, user, permissions, ..Words::default() };
    player.ask(Words { encoding, ..words });
}

/// Two entries, mostly the one behind the other; now and then one of them is not at rest.
fn join(player: &mut Player) {
    let first = wild::used_number(player);
    let end = player.entry(first).end();
    let mut numbers = 0..player.entries();
    let behind = numbers.find(|number| player.entry(*number).get(entry::BASE) == end);
    let second = match player.dice.below(6) {
        0 => first,
        1 => wild::used_number(player),
        _ => behind.unwrap_or(first),
    };
    let (mut one, mut two) = (player.token(first), player.token(second));
    unrest(player, [one, two]);
    if player.dice.once_in(6) {
        (one, two) = (two, one);
    }
    let merged = player.merge(one, two);
    if merged.refusal == 0 && player.dice.once_in(2) {
        cut(player);
    }
}

/// A lock, a clone, a drop or nothing.
fn unrest(player: &mut Player, tokens: [u64; 2]) {
    let token = player.dice.one_of(&tokens);
    match player.dice.below(16) {
        0 => player.hold(Operation::Lock, token, 7),
        1 => player.simple(Operation::Clone, token),
        2 => player.derive(token, 0, 1, 4),
        3 => player.simple(Operation::Drop, token),
        4 | 5 => player.hold(Operation::Unlock, token, 7),
        _ => return,
    };
}
