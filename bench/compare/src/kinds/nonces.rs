//! The last nonces: a create that needs two and has one, each issue with none left.

use bridge::Operation;

use crate::limits::SPENT;
use crate::player::Player;
use crate::{wild, worlds};

pub fn play(player: &mut Player) {
    last_one(player);
    let memory = player.dice.one_of(&[4, 64, 256]);
    let first_nonce = SPENT - player.dice.between(1, 14);
    let entries = player.dice.one_of(&[2, 3, 4, 8]);
    worlds::reset(player, entries, memory, first_nonce);
    wild::play(player, 20);
    each_issue(player);
    for nonces in [&[SPENT][..], &[SPENT - 2, SPENT - 1], &[0, 1, SPENT + 1, u64::MAX]] {
        let next_nonce = player.dice.one_of(nonces);
        hand_over(player, next_nonce);
        each_issue(player);
    }
    wild::play(player, 10);
}

/// One nonce left: enough for a create of the whole, and too few for one of a part.
fn last_one(player: &mut Player) {
    for length in [4, 3] {
        worlds::reset(player, 3, 4, SPENT - 1);
        player.create(0, length, 7);
    }
}

/// The same table with another next nonce.
fn hand_over(player: &mut Player, next_nonce: u64) {
    let mut world = player.world();
    world.state.next_nonce = next_nonce;
    player.begin(world);
}

/// Each request that issues, through each number in use.
fn each_issue(player: &mut Player) {
    for number in worlds::used(player) {
        for operation in Operation::ALL.into_iter().filter(|operation| operation.issues()) {
            wild::ask_through(player, operation, number);
        }
    }
}
