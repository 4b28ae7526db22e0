//! Locks through any token of a line, and every request under them.

use bridge::Operation;
use session::entry;

use crate::player::Player;
use crate::{wild, worlds};

pub fn play(player: &mut Player) {
    worlds::live(player, 20);
    player.rubbish = player.dice.once_in(4);
    for _ in 0..5 {
        round(player);
    }
    unlockable(player);
    for _ in 0..5 {
        round(player);
    }
}

/// The same table with owners that are not Lockable, some of them locked all the same.
fn unlockable(player: &mut Player) {
    let mut world = player.world();
    for number in worlds::used(player) {
        let entry = player.entry(number);
        if entry.kind() == entry::DIRECT && !player.dice.once_in(4) {
            let holder = player.dice.one_of(&[0, 7, 7]);
            let entry = entry.with(entry::LOCKABLE, 0).locked_for(holder);
            entry.store(&mut world.table, number);
        }
    }
    player.begin(world);
    for number in worlds::used(player) {
        let token = player.token(number);
        player.hold(Operation::Lock, token, 7);
    }
}

/// A lock, requests by its holder and by others, and its end.
fn round(player: &mut Player) {
    let number = wild::used_number(player);
    let holder = player.dice.one_of(&[1, 7, 7, (1 << 55) - 1]);
    let token = player.token(number);
    player.hold(Operation::Lock, token, holder);
    if player.dice.once_in(4) {
        player.hold(Operation::Lock, token, holder);
    }
    for task in [holder, 0, 8] {
        player.read(token, 1, task);
        player.write(token, 1, task);
    }
    for _ in 0..4 {
        let operation = player.dice.one_of(&wild::others());
        wild::ask_through(player, operation, number);
    }
    player.simple(Operation::Drop, token);
    wild::play(player, 4);
    player.hold(Operation::Unlock, token, 8);
    player.hold(Operation::Unlock, token, holder);
    player.hold(Operation::Unlock, token, holder);
}
