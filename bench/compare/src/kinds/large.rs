//! The largest memory and table, and memories of one byte less and one more.

use bridge::Operation;

use crate::limits::{ENTRIES, MEMORY};
use crate::player::Player;
use crate::{wild, worlds};

pub fn play(player: &mut Player) {
    for memory in [MEMORY - 1, MEMORY + 1] {
        worlds::reset(player, 2, memory, 1);
        player.write(MEMORY as u64 - 4_096, 4_096, 0);
        player.read(MEMORY as u64 - 4_097, 4_096, 0);
    }
    largest(player);
}

fn largest(player: &mut Player) {
    worlds::reset(player, ENTRIES, MEMORY, 1);
    let length = player.dice.between(1, MEMORY as u64);
    player.create(0, length, 7);
    let rest = player.token(0);
    player.write(rest, 4_096, 0);
    let end = player.entry(0).length().saturating_sub(4_096);
    player.read(rest + end, 4_096, 0);
    player.read(rest + end + 1, 4_096, 0);
    player.derive(rest, 0, end, 5);
    wild::play(player, 6);
    player.simple(Operation::Revoke, rest);
    wild::play(player, 2);
}
