//! Random bytes for everything, and random words for requests.

use bridge::{Operation, State, Words};
use session::entry;
use session::World;

use crate::player::Player;
use crate::{wild, worlds};

pub fn play(player: &mut Player) {
    let entries = player.dice.between(2, 8) as usize;
    let memory = player.dice.one_of(&[1, 9, 64]);
    let mut world = World::zeros(entry::SIZE * entries, memory);
    player.dice.fill(&mut world.table);
    player.dice.fill(&mut world.memory);
    world.state = state(player, entries as u64);
    player.begin(world);
    player.rubbish = true;
    wild::play(player, 20);
    for _ in 0..10 {
        words(player);
    }
}

/// A state of which each word may be outside its limits.
fn state(player: &mut Player, entries: u64) -> State {
    let key = worlds::key(player);
    let last_number = player.dice.one_of(&[0, 1, entries - 1, entries, u64::MAX]);
    let next_nonce = player.dice.one_of(&[0, 1, 1, 9, 9, 1 << 32, (1 << 32) + 1, u64::MAX]);
    let total = player.dice.one_of(&[0, 0, 1, entries - 1, entries - 1, entries, u64::MAX]);
    State { key, last_number, next_nonce, total }
}

fn words(player: &mut Player) {
    let mut words = [0; Words::COUNT].map(|_: u8| player.dice.word() >> player.dice.below(64));
    words[0] = player.dice.below(Operation::COUNT as u64 + 1);
    let length = player.dice.index(20);
    let buffer = player.dice.bytes(length);
    player.ask_with(Words::from_order(words), buffer);
}
