//! Tasks around 2^55: 2^55 + 7 is not 7.

use bridge::Operation;

use crate::player::Player;
use crate::wild::{self, TASKS};
use crate::worlds;

pub fn play(player: &mut Player) {
    worlds::reset(player, 6, 64, 1);
    let child = player.derive(0, 0, 8, 7).first;
    let holders = [1, 7, 8, (1 << 55) - 1, (1 << 54) + 7, 1 << 54];
    for _ in 0..3 {
        let holder = player.dice.one_of(&holders);
        let token = player.dice.one_of(&[0, child]);
        player.hold(Operation::Lock, token, holder);
        every_task(player, child);
        player.hold(Operation::Unlock, token, holder);
    }
    wild::play(player, 10);
}

/// Each request that names a task, with each task.
fn every_task(player: &mut Player, child: u64) {
    for task in TASKS {
        player.read(child, 1, task);
        player.write(0, 1, task);
        player.fetch(child, 2, task);
        player.hold(Operation::Lock, child, task);
        let number = player.dice.index(2);
        wild::ask_through(player, Operation::Create, number);
    }
    for task in TASKS {
        player.hold(Operation::Unlock, child, task);
    }
}
