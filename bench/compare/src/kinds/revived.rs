//! A number that comes back with an old tag while a child still names it: the nonce decides. A tag comes
//! back after another one only.

use bridge::Operation;
use session::entry::{self, Entry};

use super::found::{self, MEMORY};
use crate::player::Player;
use crate::tag::Issue;
use crate::{wild, worlds};

pub fn play(player: &mut Player) {
    root(player);
    wild::play(player, 10);
    for grandchild in [false, true] {
        freed(player, grandchild);
        wild::play(player, 10);
    }
}

/// Everything that walks a line, through one token.
fn through(player: &mut Player, token: u64) {
    player.read(token, 1, 0);
    player.write(token, 1, 0);
    player.simple(Operation::Clone, token);
    player.hold(Operation::Lock, token, 3);
    player.simple(Operation::Drop, token);
}

/// The root is revoked twice and has tag 0 again; a child derived before that is dead.
fn root(player: &mut Player) {
    if player.over() {
        return;
    }
    let [once, twice] = [2, 3].map(|nonce| Issue::of(&Entry::direct(0, MEMORY), 0, nonce));
    let any = worlds::key(player);
    let key = found::key(any, |key| twice.tag(key) == 0 && once.tag(key) != 0);
    let world = worlds::dirty(player, 4, MEMORY as usize);
    player.begin(world);
    player.reset(key, 1);
    let child = player.derive(0, 0, 16, 7).first;
    let revoked = player.simple(Operation::Revoke, 0).first;
    player.simple(Operation::Revoke, revoked);
    player.read(4, 1, 0);
    through(player, child);
}

/// A derived entry is freed while it has a child. Its number is given with another tag, freed, and
/// given again, with a part of the root that is chosen so that the tag is the first one.
fn freed(player: &mut Player, grandchild: bool) {
    worlds::reset(player, 3 + usize::from(grandchild), MEMORY as usize, 1);
    let first = player.derive(0, 0, 1_024, 7).first;
    let child = player.derive(first, 0, 512, 7).first;
    if grandchild {
        player.derive(child, 0, 256, 7);
    }
    player.simple(Operation::Drop, first);
    let tag = player.entry(1).get(entry::TAG);
    player.simple(Operation::Drop, first);
    let between = player.derive(0, 8, 1_024, 7).first;
    through(player, child);
    player.simple(Operation::Drop, between);
    found::give(player, tag, false);
    through(player, child);
    if grandchild {
        let token = player.token(3);
        through(player, token);
    }
    player.simple(Operation::Drop, first);
}
