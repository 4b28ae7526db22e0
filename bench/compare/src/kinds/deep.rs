//! Lines as deep as the table.

use bridge::Operation;
use session::entry;

use crate::limits::ENTRIES;
use crate::player::Player;
use crate::{wild, worlds};

/// A handed-over line, whole or with one fault in it.
pub fn play(player: &mut Player) {
    let entries = match player.dice.below(3) {
        0 => player.dice.between(3, 400) as usize,
        _ => ENTRIES,
    };
    let count = player.dice.one_of(&[1, 1, 2]);
    let mut world = worlds::line(player, entries, 64, count);
    if player.dice.once_in(3) {
        let number = player.dice.index(entries);
        let bit = player.dice.index(8 * entry::SIZE);
        world.table[entry::SIZE * number + bit / 8] ^= 0x80 >> (bit % 8);
    }
    player.begin(world);
    through_the_end(player, entries - 1);
    wild::play(player, 10);
}

/// Accesses, a lock and the drop that frees the whole line, through the deepest entry.
fn through_the_end(player: &mut Player, number: usize) {
    let token = player.token(number);
    player.read(token, 1, 0);
    player.hold(Operation::Lock, token, 7);
    player.read(token, 1, 7);
    player.write(token, 1, 8);
    player.simple(Operation::Drop, token);
    player.hold(Operation::Unlock, token, 7);
    let middle = player.token(number / 2);
    player.simple(Operation::Clone, middle);
    player.simple(Operation::Drop, token);
    player.simple(Operation::Drop, token);
}

/// A line derived from a reset on until the numbers end, then dropped link by link, the deepest last.
pub fn derived(player: &mut Player) {
    let entries = player.dice.one_of(&[64, 64, 256, ENTRIES]);
    let memory = 2_048;
    worlds::reset(player, entries, memory, 1);
    let mut tokens = vec![0];
    for depth in 1..=entries as u64 {
        let parent = tokens[tokens.len() - 1];
        let reply = player.derive(parent, 0, memory as u64 - depth, 7);
        if reply.refusal != 0 {
            break;
        }
        tokens.push(reply.first);
    }
    let deepest = tokens.pop().unwrap_or(0);
    player.read(deepest, 1, 0);
    player.hold(Operation::Lock, deepest, 1);
    player.hold(Operation::Unlock, deepest, 1);
    for token in tokens.into_iter().skip(1) {
        player.simple(Operation::Drop, token);
    }
    player.simple(Operation::Drop, deepest);
    wild::play(player, 20);
}
