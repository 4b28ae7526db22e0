//! Each bit of an entry flipped, one at a time, in a live table: of a segment, or of any entry.

use bridge::Operation;
use session::entry;
use session::World;

use crate::player::Player;
use crate::{wild, worlds};

pub fn play(player: &mut Player) {
    worlds::live(player, 60);
    let (mut live, any) = (player.world(), wild::used_number(player));
    let segment = unlocked(player, &mut live).unwrap_or(any);
    for bit in 0..8 * entry::SIZE {
        if player.over() {
            return;
        }
        let number = player.dice.one_of(&[any, segment]);
        let mut world = live.clone();
        world.table[entry::SIZE * number + bit / 8] ^= 0x80 >> (bit % 8);
        player.begin(world);
        around(player, number);
    }
}

/// The number of a segment, which is unlocked in a copy of what stands.
fn unlocked(player: &mut Player, world: &mut World) -> Option<usize> {
    let mut segments = worlds::used(player);
    segments.retain(|number| player.entry(*number).kind() == entry::DIRECT);
    let number = (!segments.is_empty()).then(|| player.dice.one_of(&segments))?;
    player.entry(number).locked_for(0).store(&mut world.table, number);
    Some(number)
}

/// Requests through the entry itself and through those that may stand below it.
fn around(player: &mut Player, number: usize) {
    let token = player.token(number);
    player.read(token, 1, 7);
    let below = wild::used_number(player);
    let through: Vec<Operation> =
        Operation::ALL.into_iter().filter(|operation| operation.names_entry()).collect();
    for number in [number, below] {
        let operation = player.dice.one_of(&through);
        wild::ask_through(player, operation, number);
        wild::ask_through(player, Operation::Clone, number);
        wild::ask_through(player, Operation::Drop, number);
    }
}
