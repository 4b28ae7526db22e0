//! Handed-over tables whose entries are made of likely and unlikely fields: parents that are there
//! or not, nonces in any order, overlapping segments, a field now and then ill-formed.

use session::entry::{self, Entry};
use session::token;
use session::World;

use crate::player::Player;
use crate::{wild, worlds};

pub fn play(player: &mut Player) {
    let entries = player.dice.between(2, 14) as usize;
    let memory = player.dice.one_of(&[8, 64, 64, 256]);
    let world = table(player, entries, memory);
    player.begin(world);
    player.rubbish = player.dice.once_in(4);
    wild::play(player, 60);
}

fn table(player: &mut Player, entries: usize, memory: usize) -> World {
    let mut world = World::zeros(entry::SIZE * entries, memory);
    player.dice.fill(&mut world.memory);
    for number in 0..entries {
        let entry = any(player, &world.table, entries, memory as u64);
        entry.store(&mut world.table, number);
    }
    let last_number = player.dice.below(entries as u64);
    let next_nonce = player.dice.one_of(&[1, 5, 20, 20, (1 << 32) - 1, 1 << 32]);
    world.state = worlds::handed(player, &world.table, last_number, next_nonce);
    world
}

fn any(player: &mut Player, table: &[u8], entries: usize, memory: u64) -> Entry {
    let base = player.dice.below(memory);
    let length = player.dice.between(1, memory - base);
    let entry = match player.dice.below(11) {
        0 | 1 => return Entry([0; entry::SIZE]),
        2 => return paged(player, length),
        3..=6 => direct(player, base, length),
        _ => Entry::indirect(base, length, parent(player, table, entries)),
    };
    let count = player.dice.one_of(&[0, 0, 1, 1, 2, 65_535]);
    let entry = entry.with_count(count).with(entry::TAG, player.dice.below(4));
    let entry = entry.with(entry::NONCE, player.dice.below(20));
    let permissions = player.dice.one_of(&[7, 7, 7, 4, 2, 1, 0]);
    let entry = entry.with(entry::PERMISSIONS, permissions);
    if player.dice.once_in(8) {
        ill_formed(player, entry, memory)
    } else {
        entry
    }
}

fn direct(player: &mut Player, base: u64, length: u64) -> Entry {
    let holder = player.dice.one_of(&[0, 0, 0, 1, 7]);
    let entry = Entry::direct(base, length).locked_for(holder);
    entry.with(entry::USER, player.dice.word()).with(entry::LOCKABLE, player.dice.below(3).min(1))
}

/// An entry that is paged out, which has no count: now and then with a fault of form.
fn paged(player: &mut Player, length: u64) -> Entry {
    let entry = Entry::paged(player.dice.word(), length).with(entry::USER, player.dice.word());
    let entry = entry.with(entry::TAG, player.dice.below(4));
    let entry = entry.with(entry::NONCE, player.dice.below(20));
    let entry = entry.with(entry::PERMISSIONS, player.dice.one_of(&[7, 7, 4, 0]));
    match player.dice.below(20) {
        0 => entry.with_length(0),
        1 => entry.with(entry::COPY_ON_WRITE, 1),
        2 => entry.with(entry::LOCKED, 1),
        3 => entry.with(entry::PAGED_ZEROS, 1 << player.dice.below(39)),
        _ => entry,
    }
}

/// A parent's token: mostly one that is right for what stands at that number so far.
fn parent(player: &mut Player, table: &[u8], entries: usize) -> u64 {
    let number = player.dice.below(entries as u64 + 1);
    let tag = match player.dice.below(3) {
        0 => player.dice.below(4),
        _ => Entry::of(table, number as usize).get(entry::TAG),
    };
    token::packed(1, tag, number, 0)
}

/// One of the faults of form that 01 lists.
fn ill_formed(player: &mut Player, entry: Entry, memory: u64) -> Entry {
    match player.dice.below(8) {
        0 => entry.with(entry::KIND, player.dice.between(3, 7)),
        1 => entry.with_length(0),
        2 => entry.with_length(memory - entry.get(entry::BASE) + 1),
        3 => entry.with(entry::COPY_ON_WRITE, 1),
        4 => entry.with(entry::LOCKED, 1 - entry.get(entry::LOCKED)),
        5 => entry.with(entry::PARENT, player.dice.word()),
        6 => entry.with(entry::LOCKABLE, 1),
        _ => {
            let mut entry = entry;
            entry.0[player.dice.index(entry::SIZE)] ^= 1 << player.dice.below(8);
            entry
        }
    }
}
