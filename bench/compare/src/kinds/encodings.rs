//! Each token in all four encodings, with one bit flipped, with offsets, with numbers that are the
//! same modulo a width, and stale.

use bridge::Operation;
use session::token::{self, Token};

use crate::player::Player;
use crate::{wild, worlds};

pub fn play(player: &mut Player) {
    let entries = player.dice.one_of(&[4, 8, 40]);
    worlds::reset(player, entries, 64, 1);
    player.rubbish = player.dice.once_in(4);
    wild::play(player, 20);
    let given = std::mem::take(&mut player.given);
    for token in given.into_iter().take(4) {
        variants(player, token);
    }
    let number = wild::used_number(player);
    let token = player.token(number);
    variants(player, token);
}

fn variants(player: &mut Player, token: u64) {
    let Token { tag, number, .. } = Token::unpack(token);
    for encoding in 0..4 {
        let right = token::packed(encoding, tag, number, 0);
        let wrapped = number + player.dice.one_of(&[1 << 14, 1 << 22, 1 << 30, 1 << 45]);
        let offset = player.dice.one_of(&[1, 8, 63, 64, 1 << 15, 1 << 23, 1 << 31]);
        ask(player, right);
        let bit = player.dice.below(64);
        ask(player, right ^ 1 << bit);
        ask(player, token::packed(encoding, tag, wrapped, 0));
        ask(player, token::packed(encoding, tag, number, offset));
    }
}

/// An access and one other request.
fn ask(player: &mut Player, token: u64) {
    player.read(token, 1, 0);
    let number = wild::used_number(player);
    let other = player.token(number);
    match player.dice.below(8) {
        0 => player.create(token, 1, 0),
        1 => player.merge(token, other),
        2 => player.merge(other, token),
        3 => player.derive(token, 0, 1, 0),
        4 => player.hold(Operation::Lock, token, 7),
        5 => player.hold(Operation::Unlock, token, 7),
        6 => player.simple(Operation::Revoke, token),
        _ => {
            let simple = [Operation::Clone, Operation::Drop, Operation::ExecuteOnly];
            let operation = player.dice.one_of(&simple);
            player.simple(operation, token)
        }
    };
}
