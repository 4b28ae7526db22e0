//! What comes about by chance only, found by search: one in 65,536 does.

use bridge::{Operation, Words};
use session::entry::{self, Entry};

use crate::player::Player;
use crate::{free, tag};

/// The memory in which a part with a tag is sought.
pub const MEMORY: u64 = 2_048;

/// A key that does, from one on.
pub fn key(from: [u64; 2], does: impl Fn([u64; 2]) -> bool) -> [u64; 2] {
    let [one, two] = from;
    let mut keys = (0..u64::MAX).map(|more| [one.wrapping_add(more), two]);
    keys.find(|key| does(*key)).unwrap_or(from)
}

/// Asks for a new number, by a derive or a create of one that is in use and has a thousand bytes or
/// more, so that the next nonce gives the tag.
pub fn give(player: &mut Player, tag: u64, create: bool) {
    if player.over() {
        return;
    }
    let parents = 0..player.entries();
    let wide = |entry: Entry| !entry.is_free() && entry.length() >= 1_000;
    let Some(parent) = parents.into_iter().find(|number| wide(player.entry(*number))) else {
        return;
    };
    let request = match create {
        true => part(player, parent, tag),
        false => child(player, parent, tag),
    };
    if let Some(request) = request {
        player.ask(request);
    }
}

/// A derive under a number, with an offset and a length such that the next nonce gives the tag.
pub fn child(player: &Player, parent: usize, tag: u64) -> Option<Words> {
    let (state, above) = (player.state(), player.entry(parent));
    let number = free::next(player.table(), state.last_number)?;
    let (base, whole, link) = (above.get(entry::BASE), above.length(), above.token(parent, 1));
    let parts = (1..whole).flat_map(|length| (0..whole - length).map(move |at| (at, length)));
    let child = Entry::indirect(base, whole, link);
    let (second, length) = parts.into_iter().find(|(offset, length)| {
        let child = child.with(entry::BASE, base + offset).with_length(*length);
        tag::issued(&child, state.key, number, state.next_nonce) == tag
    })?;
    let (operation, token) = (Operation::Derive as u64, above.token(parent, 0));
    Some(Words { operation, token, second, length, permissions: 7, ..Words::default() })
}

/// A create of a part of a number, with a user such that the next nonce gives the tag.
fn part(player: &Player, old: usize, tag: u64) -> Option<Words> {
    let (state, old_entry) = (player.state(), player.entry(old));
    let number = free::next(player.table(), state.last_number)?;
    let part = Entry::direct(old_entry.get(entry::BASE), 8);
    let part = part.with(entry::LOCKABLE, old_entry.get(entry::LOCKABLE));
    let user = (0..1 << 20).find(|user| {
        let part = part.with(entry::USER, *user);
        tag::issued(&part, state.key, number, state.next_nonce) == tag
    })?;
    let (operation, token) = (Operation::Create as u64, old_entry.token(old, 0));
    Some(Words { operation, token, length: 8, user, permissions: 7, ..Words::default() })
}
