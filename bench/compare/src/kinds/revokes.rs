//! Segments full of bytes, revoked beside their neighbours: locked, with children, with a user.

use bridge::Operation;
use session::token::{self, Token};

use crate::player::Player;
use crate::{wild, worlds};

pub fn play(player: &mut Player) {
    let memory = player.dice.one_of(&[3, 64, 1_000, 4_096, 20_000]);
    worlds::reset(player, 8, memory, 1);
    for _ in 0..4 {
        let number = wild::used_number(player);
        wild::ask_through(player, Operation::Create, number);
    }
    for _ in 0..8 {
        round(player);
    }
}

fn round(player: &mut Player) {
    let number = wild::used_number(player);
    let token = player.token(number);
    fill(player, token, player.entry(number).length());
    let child = player.derive(token, 0, 1, 4).first;
    if player.dice.once_in(2) {
        player.hold(Operation::Lock, token, 7);
    }
    wild::ask_through(player, Operation::Clone, number);
    player.simple(Operation::Revoke, token);
    player.read(token, 1, 0);
    player.read(child, 1, 0);
    player.simple(Operation::Drop, child);
    wild::play(player, 4);
}

/// Writes over a segment, as far as one access goes, at both its ends.
fn fill(player: &mut Player, token: u64, length: u64) {
    let piece = length.clamp(1, 4_096) as usize;
    player.write(token, piece, 0);
    let Token { tag, number, .. } = Token::unpack(token);
    let end = length.saturating_sub(piece as u64);
    player.write(token::packed(0, tag, number, end), piece, 0);
}
