//! Create of a whole segment: the old number is freed, and number 0 is never given again.

use bridge::Operation;

use crate::limits::SPENT;
use crate::player::Player;
use crate::{wild, worlds};

pub fn play(player: &mut Player) {
    let entries = player.dice.between(2, 5) as usize;
    let memory = player.dice.one_of(&[1, 2, 64]);
    let first_nonce = player.dice.one_of(&[1, 1, 1, SPENT - 1, SPENT - 2, SPENT - 3]);
    worlds::reset(player, entries, memory, first_nonce);
    if player.dice.once_in(2) {
        let number = player.dice.index(entries);
        cut_whole(player, number);
    }
    cut_whole(player, 0);
    player.read(0, 1, 0);
    player.simple(Operation::Drop, 0);
    for _ in 0..entries {
        let number = wild::used_number(player);
        cut_whole(player, number);
    }
    wild::play(player, 40);
}

/// The whole, one less or one more.
fn cut_whole(player: &mut Player, number: usize) {
    let entry = player.entry(number);
    let length = entry.length();
    let length = player.dice.one_of(&[length, length, length, length + 1, length - length.min(1)]);
    player.create(entry.token(number, 1), length, 7);
}
