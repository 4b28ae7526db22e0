//! Worlds that the kinds of sessions start from.

use bridge::State;
use session::entry::{self, Entry};
use session::World;

use crate::player::Player;
use crate::{free, wild};

pub fn key(player: &mut Player) -> [u64; 2] {
    [player.dice.word(), player.dice.word()]
}

/// A world of zeros.
pub fn zeros(entries: usize, memory: u64) -> World {
    World::zeros(entry::SIZE * entries, memory as usize)
}

/// A world before a reset: memory, and now and then table and state too, hold bytes.
pub fn dirty(player: &mut Player, entries: usize, memory: usize) -> World {
    let mut world = World::zeros(entry::SIZE * entries, memory);
    if !player.dice.once_in(4) {
        player.dice.fill(&mut world.memory);
    }
    if player.dice.once_in(4) {
        player.dice.fill(&mut world.table);
        world.state = random(player);
    }
    world
}

/// A state that is handed over with a table. What a further word of the state holds is said here.
pub fn handed(player: &mut Player, table: &[u8], last_number: u64, next_nonce: u64) -> State {
    State { key: key(player), last_number, next_nonce, total: total(player, table) }
}

/// A total inside its limits: what a count gives, or a wrong one.
pub fn total(player: &mut Player, table: &[u8]) -> u64 {
    let top = free::top(table);
    match player.dice.below(10) {
        0 => 0,
        1 => top.min(1),
        2 => top.saturating_sub(1),
        3 => top,
        4 => player.dice.between(0, top),
        _ => free::counted(table),
    }
}

/// Totals above the top: by one, by a little, right but for upper bits, and the largest word.
pub fn totals_above(table: &[u8]) -> [u64; 7] {
    let (above, right) = (free::top(table) + 1, free::counted(table));
    let [wide, wider, widest] = [16, 32, 63].map(|bit| (1 << bit) + right);
    [above, above + 1, 2_048, wide, wider, widest, u64::MAX]
}

/// A state of random words.
fn random(player: &mut Player) -> State {
    State::from_order([0; State::WORDS].map(|_: u8| player.dice.word()))
}

/// Begins a session with a granted reset.
pub fn reset(player: &mut Player, entries: usize, memory: usize, first_nonce: u64) {
    let world = dirty(player, entries, memory);
    player.begin(world);
    let key = key(player);
    player.reset(key, first_nonce);
}

/// Begins a session with a reset over a small world.
pub fn small(player: &mut Player) {
    let entries = player.dice.one_of(&[2, 3, 4, 6, 8, 8, 12, 16, 24, 32]);
    small_with(player, entries);
}

pub fn small_with(player: &mut Player, entries: usize) {
    let memory = player.dice.one_of(&[1, 2, 3, 16, 64, 64, 100, 256, 256, 1_000, 4_096]);
    let first_nonce = player.dice.one_of(&[1, 1, 2, 77, 65_535, 1 << 31]);
    player.rubbish = player.dice.once_in(4);
    reset(player, entries, memory, first_nonce);
}

/// A small world in which something has happened; the session over it has begun.
pub fn live(player: &mut Player, requests: usize) {
    let entries = player.dice.one_of(&[4, 6, 8, 12, 16]);
    let memory = player.dice.one_of(&[64, 256, 1_000]);
    reset(player, entries, memory, 1);
    wild::play(player, requests);
}

/// The numbers in use.
pub fn used(player: &Player) -> Vec<usize> {
    (0..player.entries()).filter(|number| !player.entry(*number).is_free()).collect()
}

/// A table of one line: number 0 is the owner, each other number the child of the one before it.
/// Nonces rise by one with the number; tags are random.
pub fn line(player: &mut Player, entries: usize, memory: usize, count: u64) -> World {
    let mut world = World::zeros(entry::SIZE * entries, memory);
    let length = memory as u64;
    let mut parent = 0;
    for number in 0..entries {
        let tag = if number == 0 { 0 } else { player.dice.below(1 << 16) };
        let entry = match number {
            0 => Entry::direct(0, length),
            _ => Entry::indirect(0, length, parent),
        };
        let entry = entry.with(entry::TAG, tag).with(entry::NONCE, number as u64);
        let last = number + 1 == entries;
        let entry = entry.with_count(if last { 1 } else { count });
        entry.store(&mut world.table, number);
        parent = entry.token(number, 1);
    }
    world.state = handed(player, &world.table, entries as u64 - 1, entries as u64 + 1);
    world
}
