//! Random requests over small worlds, from a reset on.

use crate::player::Player;
use crate::{wild, worlds};

pub fn play(player: &mut Player) {
    worlds::small(player);
    let requests = player.dice.between(5, 300) as usize;
    wild::play(player, requests);
}

/// Few entries: the numbers run out and go round.
pub fn crowded(player: &mut Player) {
    let entries = player.dice.between(2, 5) as usize;
    worlds::small_with(player, entries);
    wild::play(player, 120);
}
