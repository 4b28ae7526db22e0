//! Lines of a few links with one bad link or entry at any height, asked through every entry.

use bridge::Operation;
use session::entry::{self, Entry, Field};
use session::token::{self, Token};
use session::World;

use crate::player::Player;
use crate::{wild, worlds};

/// Each fault once, each in a line of its own.
pub fn play(player: &mut Player) {
    for fault in 0..FAULTS {
        if player.over() {
            return;
        }
        with_fault(player, fault);
    }
}

fn with_fault(player: &mut Player, fault: u64) {
    let entries = player.dice.between(3, 9) as usize;
    let mut world = worlds::line(player, entries, 64, 1);
    // At any height, but mostly with a link or more below it.
    let below = player.dice.one_of(&[0, 1, 2, 2]);
    let number = player.dice.index(entries - below);
    let entry = Entry::of(&world.table, number);
    spoil(player, entry, fault).store(&mut world.table, number);
    lock(player, &mut world);
    player.begin(world);
    some_requests(player, entries - 1);
    for _ in 0..3 {
        let number = player.dice.index(entries);
        some_requests(player, number);
    }
    wild::play(player, 6);
}

/// Some lines with low counts, from which drops climb.
pub fn climbs(player: &mut Player) {
    for _ in 0..CLIMBS {
        if player.over() {
            return;
        }
        climb(player);
    }
    wild::play(player, 6);
}

/// How many lines such a session has.
const CLIMBS: usize = 4;

/// A line with low counts, perhaps with one fault.
fn climb(player: &mut Player) {
    let entries = player.dice.between(2, 9) as usize;
    let mut world = worlds::line(player, entries, 64, 1);
    for number in 0..entries {
        let count = player.dice.one_of(&[0, 1, 1, 1, 1, 2]);
        let entry = Entry::of(&world.table, number).with_count(count);
        entry.store(&mut world.table, number);
    }
    if player.dice.once_in(2) {
        let number = player.dice.index(entries);
        let entry = Entry::of(&world.table, number);
        let fault = player.dice.below(FAULTS);
        spoil(player, entry, fault).store(&mut world.table, number);
    }
    lock(player, &mut world);
    player.begin(world);
    for number in (0..entries).rev() {
        let token = player.token(number);
        player.simple(Operation::Drop, token);
    }
}

/// How many faults `spoil` knows.
const FAULTS: u64 = 16;

/// One fault, or a count, in one entry.
fn spoil(player: &mut Player, entry: Entry, fault: u64) -> Entry {
    let nonce = entry.get(entry::NONCE);
    match fault {
        0 => Entry([0; entry::SIZE]),
        1 => entry.with(entry::TAG, entry.get(entry::TAG) ^ 1 << player.dice.below(16)),
        2 => entry.with(entry::NONCE, nonce + player.dice.between(1, 2)),
        3 => entry.with(entry::NONCE, nonce.saturating_sub(1)),
        4 => entry.with(entry::KIND, 3),
        5 => entry.with_length(65),
        6 => entry.with(entry::COPY_ON_WRITE, 1),
        7 => entry.with_count(0),
        8 => entry.with_count(2),
        9 => entry.with(entry::PARENT, token::packed(1, 0, 1 << player.dice.below(46), 0)),
        10 => entry.with(entry::KIND, 3).with(entry::NONCE, nonce + 1),
        11 => entry.with(entry::LOCKABLE, 1 - entry.get(entry::LOCKABLE)),
        12 => entry.with(entry::LOCKED, 1 - entry.get(entry::LOCKED)),
        13 => entry.with_field(Field::Zeros, 1 << player.dice.below(55)),
        14 => in_another_encoding(player, entry),
        _ => entry,
    }
}

/// The parent's token in an encoding that a parent must not have.
fn in_another_encoding(player: &mut Player, entry: Entry) -> Entry {
    let Token { tag, number, .. } = Token::unpack(entry.field(Field::Parent));
    let encoding = player.dice.one_of(&[0, 2, 3]);
    entry.with_field(Field::Parent, token::packed(encoding, tag, number, 0))
}

/// Locks the owner now and then.
fn lock(player: &mut Player, world: &mut World) {
    let entry = Entry::of(&world.table, 0);
    if entry.kind() == entry::DIRECT && player.dice.once_in(3) {
        entry.locked_for(7).store(&mut world.table, 0);
    }
}

/// An access by holder or other, then some of the other requests, through one entry.
fn some_requests(player: &mut Player, number: usize) {
    let token = player.token(number);
    let task = player.dice.one_of(&[0, 7]);
    match player.dice.below(3) {
        0 => player.read(token, 1, task),
        1 => player.write(token, 1, task),
        _ => player.fetch(token, 1, task),
    };
    for operation in wild::others() {
        if player.dice.once_in(3) {
            wild::ask_through(player, operation, number);
        }
    }
    player.hold(Operation::Unlock, token, 8);
}
