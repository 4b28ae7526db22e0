//! A root's rest with tag 0 again, after another tag: token 0 is a token that was given, and plain
//! addresses work again with the rest's base.

use bridge::Operation;
use session::entry::Entry;

use super::found;
use crate::player::Player;
use crate::tag::Issue;
use crate::{wild, worlds};

const MEMORY: u64 = 256;

pub fn play(player: &mut Player) {
    let part = player.dice.between(1, MEMORY - 2);
    let cut = player.dice.between(1, MEMORY - part - 1);
    let left = MEMORY - part - cut;
    let rest = Entry::direct(part + cut, left);
    let any = worlds::key(player);
    let rest = Issue::of(&rest, 0, 4);
    let key = found::key(any, |key| rest.tag(key) == 0);
    let world = worlds::dirty(player, 5, MEMORY as usize);
    player.begin(world);
    player.reset(key, 1);
    let between = player.create(0, part, 7).second;
    player.read(0, 1, 0);
    player.create(between, cut, 7);
    player.read(0, 1, 0);
    player.write(left - 1, 1, 0);
    player.write(left, 1, 0);
    player.derive(0, 0, 1, 4);
    player.hold(Operation::Lock, 0, 7);
    wild::play(player, 20);
}
