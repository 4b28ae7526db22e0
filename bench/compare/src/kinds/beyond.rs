//! Handed-over children that reach beyond their parents, with rights and bytes that no entry above
//! them has: an access asks the named entry alone.

use bridge::Operation;
use session::entry::{self, Entry};
use session::World;

use crate::player::Player;
use crate::{wild, worlds};

const MEMORY: u64 = 64;

pub fn play(player: &mut Player) {
    player.rubbish = player.dice.once_in(4);
    for _ in 0..2 {
        let entries = player.dice.between(4, 8) as usize;
        let world = table(player, entries);
        player.begin(world);
        (0..entries).for_each(|number| through(player, number));
    }
    wild::play(player, 8);
}

/// Two owners, and children of any numbers before their own. Every link holds.
fn table(player: &mut Player, entries: usize) -> World {
    let mut world = World::zeros(entry::SIZE * entries, MEMORY as usize);
    player.dice.fill(&mut world.memory);
    // One number is left for what is derived.
    for number in 0..entries - 1 {
        let [base, length] = part(player);
        let entry = match number {
            0 | 1 => Entry::direct(base, length),
            _ => Entry::indirect(base, length, parent(player, &world.table, number)),
        };
        let (tag, permissions) = (player.dice.below(1 << 16), player.dice.below(8));
        let entry = entry.with(entry::TAG, tag).with(entry::PERMISSIONS, permissions);
        entry.with(entry::NONCE, number as u64).store(&mut world.table, number);
    }
    world.state = worlds::handed(player, &world.table, 0, entries as u64);
    world
}

fn part(player: &mut Player) -> [u64; 2] {
    let base = player.dice.below(MEMORY);
    [base, player.dice.between(1, MEMORY - base)]
}

fn parent(player: &mut Player, table: &[u8], number: usize) -> u64 {
    let parent = player.dice.index(number);
    Entry::of(table, parent).token(parent, 1)
}

/// Accesses at both ends, and what is derived, through one entry.
fn through(player: &mut Player, number: usize) {
    let (token, entry) = (player.token(number), player.entry(number));
    let last = entry.length().saturating_sub(1);
    for offset in [0, last] {
        match player.dice.below(3) {
            0 => player.read(token + offset, 1, 0),
            1 => player.write(token + offset, 1, 0),
            _ => player.fetch(token + offset, 1, 0),
        };
    }
    let code = player.simple(Operation::ExecuteOnly, token);
    player.simple(Operation::Drop, code.first);
    let child = player.derive(token, 0, entry.length(), entry.get(entry::PERMISSIONS));
    player.simple(Operation::Drop, child.first);
}
