//! Counts at both ends. Only a handed-over table has them without 65,535 requests.

use bridge::Operation;
use session::entry;

use crate::player::Player;
use crate::{wild, worlds};

const COUNTS: [u64; 6] = [0, 1, 2, 3, 65_534, 65_535];

pub fn play(player: &mut Player) {
    worlds::live(player, 40);
    let mut world = player.world();
    for number in worlds::used(player) {
        let count = player.dice.one_of(&COUNTS);
        player.entry(number).with_count(count).store(&mut world.table, number);
    }
    player.begin(world);
    for number in worlds::used(player) {
        around(player, number);
    }
    wild::play(player, 60);
}

/// What raises and lowers the count of one entry.
fn around(player: &mut Player, number: usize) {
    let token = player.token(number);
    let permissions = player.entry(number).get(entry::PERMISSIONS);
    for _ in 0..2 {
        match player.dice.below(4) {
            0 => player.derive(token, 0, 1, permissions),
            1 => player.simple(Operation::ExecuteOnly, token),
            _ => player.simple(Operation::Clone, token),
        };
    }
    for _ in 0..player.dice.below(4) {
        player.simple(Operation::Drop, token);
    }
}
