//! Handed-over neighbours of which some are Lockable and some are not: cut, joined, locked and
//! unlocked.

use bridge::{Operation, Words};
use session::entry::{self, Entry};
use session::World;

use crate::player::Player;
use crate::{wild, worlds};

/// The bytes of each neighbour.
const LENGTH: u64 = 8;

/// Who locks.
const HOLDER: u64 = 7;

pub fn play(player: &mut Player) {
    for _ in 0..3 {
        neighbours(player);
    }
    wild::play(player, 6);
}

fn neighbours(player: &mut Player) {
    let entries = player.dice.between(3, 6) as usize;
    let world = row(player, entries);
    player.begin(world);
    for number in (0..entries - 1).step_by(2) {
        join(player, number);
    }
    for _ in 0..4 {
        let number = wild::used_number(player);
        around(player, number);
    }
}

/// Neighbours in address order, with numbers left behind them.
fn row(player: &mut Player, entries: usize) -> World {
    let memory = LENGTH * entries as u64;
    let mut world = World::zeros(entry::SIZE * (entries + 2), memory as usize);
    for number in 0..entries {
        let holder = player.dice.one_of(&[0, 0, 0, HOLDER]);
        let entry = Entry::direct(LENGTH * number as u64, LENGTH).locked_for(holder);
        let entry = entry.with(entry::LOCKABLE, player.dice.below(2));
        let entry = entry.with(entry::USER, player.dice.word());
        let entry = entry.with(entry::TAG, player.dice.below(1 << 16));
        entry.with(entry::NONCE, number as u64).store(&mut world.table, number);
    }
    world.state = worlds::handed(player, &world.table, 0, entries as u64);
    world
}

/// An unlock, a lock that ends again, then a create, a revoke, or a merge with the neighbour behind.
fn around(player: &mut Player, number: usize) {
    let token = player.token(number);
    player.hold(Operation::Unlock, token, HOLDER);
    if player.hold(Operation::Lock, token, HOLDER).refusal == 0 {
        cut(player, token, HOLDER);
        player.hold(Operation::Unlock, token, HOLDER);
    }
    match player.dice.below(8) {
        0..=2 => cut(player, token, 0),
        3 => drop(player.simple(Operation::Revoke, token)),
        _ => join(player, number),
    }
}

/// A create, by a task.
fn cut(player: &mut Player, token: u64, task: u64) {
    let (operation, user) = (Operation::Create as u64, player.dice.word());
    let (length, permissions) = (player.dice.between(1, LENGTH), 7);
    player.ask(Words { operation, token, task, length, user, permissions, encoding: 0, second: 0 });
}

fn join(player: &mut Player, number: usize) {
    let end = player.entry(number).end();
    let behind = (0..player.entries()).find(|other| {
        let next = player.entry(*other);
        next.kind() == entry::DIRECT && next.get(entry::BASE) == end
    });
    let tokens = [number, behind.unwrap_or(number)].map(|number| player.token(number));
    for token in tokens {
        player.hold(Operation::Unlock, token, HOLDER);
    }
    player.merge(tokens[0], tokens[1]);
}
