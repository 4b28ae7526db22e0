//! Sizes one inside and one outside each limit: table, memory, buffer, and the state's. The upper
//! limit of memory is that of the kind `large`.

use bridge::{Operation, State, Words};
use session::entry::{self, Entry};
use session::World;

use crate::limits::SPENT;
use crate::player::Player;
use crate::{wild, worlds};

const TABLES: [usize; 16] =
    [0, 1, 31, 32, 33, 63, 64, 64, 65, 95, 96, 97, 32_736, 32_767, 32_768, 32_769];
const MEMORIES: [usize; 8] = [0, 1, 1, 2, 3, 4_095, 4_096, 4_097];
const BUFFERS: [usize; 8] = [0, 1, 2, 4_095, 4_096, 4_097, 5_000, 8_192];

pub fn play(player: &mut Player) {
    let table = match player.dice.below(5) {
        0 => 32_800,
        _ => player.dice.one_of(&TABLES),
    };
    let memory = player.dice.one_of(&MEMORIES);
    settings(player);
    player.begin(World::zeros(table, memory));
    every_operation(player);
    player.reset([1, 2], 1);
    every_operation(player);
    hand_over(player, table, memory);
    for length in BUFFERS {
        buffers(player, length);
    }
    every_operation(player);
}

/// A sound world, with each word of the state at and beside its limits.
fn settings(player: &mut Player) {
    let entries = 4;
    let lasts = [entries - 1, entries].map(|last| [last, 1, 0]);
    let nonces = [0, 1, SPENT, SPENT + 1].map(|nonce| [0, nonce, 0]);
    let totals = [entries - 1, entries].map(|total| [0, 1, total]);
    for [last_number, next_nonce, total] in lasts.into_iter().chain(nonces).chain(totals) {
        let mut world = World::zeros(entry::SIZE * entries as usize, 8);
        Entry::direct(0, 8).store(&mut world.table, 0);
        world.state = State { key: worlds::key(player), last_number, next_nonce, total };
        player.begin(world);
        player.read(0, 1, 0);
    }
}

fn every_operation(player: &mut Player) {
    for operation in Operation::ALL.into_iter().filter(|operation| operation.names_entry()) {
        let number = usize::from(player.dice.once_in(2));
        wild::ask_through(player, operation, number);
    }
}

/// A root over the whole memory, and a state at or beside its limits.
fn hand_over(player: &mut Player, table: usize, memory: usize) {
    let entries = (table / entry::SIZE) as u64;
    let mut world = World::zeros(table, memory);
    Entry::direct(0, memory as u64).store(&mut world.table, 0);
    world.state.key = worlds::key(player);
    let below = entries.saturating_sub(1);
    world.state.last_number = player.dice.one_of(&[0, 0, below, entries, u64::MAX]);
    let nonces = [0, 1, 1, 1, (1 << 32) - 1, 1 << 32, (1 << 32) + 1];
    world.state.next_nonce = player.dice.one_of(&nonces);
    world.state.total = player.dice.one_of(&[0, 0, below, below, entries]);
    player.begin(world);
}

/// Accesses of one length at the first byte, at the last place that has room, and one beyond.
fn buffers(player: &mut Player, length: usize) {
    let room = player.memory().len().saturating_sub(length) as u64;
    for offset in [0, room, room + 1] {
        player.read(offset, length, 0);
        player.write(offset, length, 0);
        player.fetch(offset, length, 0);
    }
    let operation = Operation::Clone as u64;
    player.ask_with(Words { operation, ..Words::default() }, vec![1; length]);
}
