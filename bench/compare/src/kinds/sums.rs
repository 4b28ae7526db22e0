//! Lengths and offsets whose sums stand at a limit, or beyond 32 or 64 bits.

use bridge::{Operation, Words};
use session::entry;
use session::token;

use crate::player::Player;
use crate::{wild, worlds};

pub fn play(player: &mut Player) {
    // Of two bytes each half is a segment of one.
    let memory = player.dice.one_of(&[2, 2, 64, 4_096]);
    worlds::reset(player, 16, memory, 1);
    let half = memory as u64 / 2;
    let permissions = player.dice.below(8);
    player.create(0, half, permissions);
    for _ in 0..24 {
        let number = wild::used_number(player);
        derive(player, number);
        access(player, number);
        let number = player.dice.index(2);
        create(player, number);
    }
    wild::play(player, 20);
}

/// Sums one below, at and one above the segment's length, also where they only fit after a carry.
fn derive(player: &mut Player, number: usize) {
    let whole = player.entry(number).length();
    let sum = player.dice.one_of(&[whole.wrapping_sub(1), whole, whole + 1, 0, 1]);
    let carry = player.dice.one_of(&[0, 0, 0, 1 << 32, 1 << 63]);
    let lengths = [1, 2, whole / 2, whole, sum, 1 << 32, 1 << 63, u64::MAX];
    let length = player.dice.one_of(&lengths);
    let offset = sum.wrapping_sub(length).wrapping_add(carry);
    let token = player.token(number);
    player.derive(token, offset, length, 0);
}

/// Offsets at the segment's end and at the end of each offset's width.
fn access(player: &mut Player, number: usize) {
    let entry = player.entry(number);
    let whole = entry.length();
    let length = player.dice.one_of(&[1, 2, 12]);
    let ends = [0, whole.wrapping_sub(length), whole.wrapping_sub(length - 1), whole, u64::MAX];
    let offset = player.dice.one_of(&ends);
    let encoding = player.dice.below(4);
    let token = token::packed(encoding, entry.get(entry::TAG), number as u64, offset);
    player.read(token, length as usize, 0);
}

fn create(player: &mut Player, number: usize) {
    let whole = player.entry(number).length();
    let lengths = [whole + 1, (1 << 32) + 1, (1 << 32) + whole, 1 << 63, u64::MAX, whole, 1];
    let length = player.dice.one_of(&lengths);
    let (operation, token) = (Operation::Create as u64, player.token(number));
    let permissions = player.dice.one_of(&[0, 7]);
    player.ask(Words { operation, token, length, permissions, ..Words::default() });
}
