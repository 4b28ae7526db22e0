//! Numbers going round: derived and dropped again, over free entries that hold rubbish.

use bridge::Operation;
use session::entry;

use crate::player::Player;
use crate::{wild, worlds};

pub fn play(player: &mut Player) {
    let entries = player.dice.between(2, 12) as usize;
    worlds::reset(player, entries, 64, 1);
    wild::play(player, 10);
    hand_over(player);
    for _ in 0..2 * entries {
        step(player);
    }
    wild::play(player, 20);
}

/// The last number anywhere, any total, and rubbish in the free entries: type 0 is free whatever they hold.
fn hand_over(player: &mut Player) {
    let entries = player.entries();
    let mut world = player.world();
    let free = (0..entries).filter(|number| player.entry(*number).is_free());
    for number in free.collect::<Vec<_>>() {
        let part = &mut world.table[entry::SIZE * number..entry::SIZE * (number + 1)];
        player.dice.fill(part);
        part[0] &= 0x1F;
    }
    world.state.last_number = player.dice.below(entries as u64 + 1);
    world.state.total = worlds::total(player, &world.table);
    player.begin(world);
}

/// Gives a number, and frees one now and then.
fn step(player: &mut Player) {
    let number = wild::used_number(player);
    let token = player.token(number);
    match player.dice.below(8) {
        0 => player.create(token, 1, 7),
        1 | 2 => player.simple(Operation::ExecuteOnly, token),
        3 | 4 => player.derive(token, 0, 1, 1),
        _ => player.simple(Operation::Drop, token),
    };
}
