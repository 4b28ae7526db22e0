//! A full table with an entry for each place at which a request stops, and no nonce left.

use session::entry::{self, Entry, SIZE};
use session::World;

use crate::limits::SPENT;
use crate::player::Player;
use crate::worlds;

/// How many bytes the root has, and each other entry.
pub const LENGTH: u64 = 4 * PART;
const PART: u64 = 8;

/// What stands at each number behind the root's.
pub const LOCKED: usize = 1;
/// It has R alone.
pub const READABLE: usize = 2;
const ILL_FORMED: usize = 3;
const UNDER_ILL_FORMED: usize = 4;
const DEAD: usize = 5;
const UNDER_DEAD: usize = 6;
/// A child of the root's, without R.
pub const CHILD: usize = 7;
const PAGED: usize = 8;
const ENTRIES: usize = 9;

/// Those that an access is refused for, in the order of the checks.
pub const REFUSED: [usize; 6] = [PAGED, ILL_FORMED, UNDER_ILL_FORMED, DEAD, UNDER_DEAD, LOCKED];

/// Who holds the lock.
pub const HOLDER: u64 = 7;

/// Such a table, with any state.
pub fn world(player: &mut Player) -> World {
    let mut world = World::zeros(ENTRIES * SIZE, LENGTH as usize);
    let numbered = |entry: Entry, number: usize| {
        entry.with(entry::TAG, number as u64).with(entry::NONCE, number as u64)
    };
    let below = |parent: Entry, number: usize| {
        Entry::indirect(0, PART, parent.token(number, 1)).with_count(1)
    };
    let part = |place: u64| Entry::direct(PART * place, PART);
    let root = Entry::direct(0, LENGTH);
    let ill_formed = numbered(part(3).with_length(0), ILL_FORMED);
    let dead = numbered(below(root.with(entry::TAG, 99), 0), DEAD);
    let entries = [
        root,
        numbered(part(1).locked_for(HOLDER), LOCKED),
        numbered(part(2).with(entry::PERMISSIONS, 4), READABLE),
        ill_formed,
        numbered(below(ill_formed, ILL_FORMED), UNDER_ILL_FORMED),
        dead,
        numbered(below(dead, DEAD), UNDER_DEAD),
        numbered(below(root, 0).with(entry::PERMISSIONS, 3), CHILD),
        numbered(Entry::paged(0, PART), PAGED),
    ];
    for (number, entry) in entries.iter().enumerate() {
        entry.store(&mut world.table, number);
    }
    world.state = worlds::handed(player, &world.table, 0, SPENT);
    world
}
