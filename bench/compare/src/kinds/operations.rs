//! Operations above the last, those that are a real one modulo a width among them.

use bridge::{Operation, Words};

use crate::player::Player;
use crate::{wild, worlds};

const COUNT: u64 = Operation::COUNT as u64;

pub fn play(player: &mut Player) {
    worlds::small(player);
    for shift in [4, 5, 7, 8, 15, 16, 31, 32, 63] {
        let operation = (1 << shift) + player.dice.below(COUNT);
        ask(player, operation);
    }
    for operation in [COUNT, COUNT + 1, COUNT + 2, u64::MAX] {
        ask(player, operation);
    }
    wild::play(player, 10);
}

fn ask(player: &mut Player, operation: u64) {
    let length = player.dice.index(3);
    let buffer = player.dice.bytes(length);
    let words = Words { operation, task: 1, length: 1, ..Words::default() };
    player.ask_with(words, buffer);
}

#[cfg(test)]
mod tests {
    use super::*;
    use crate::kinds::ALL;

    /// What the kind says that it reaches.
    #[test]
    fn it_names_the_last_operation() {
        let kind = ALL.iter().find(|kind| kind.name == "operations").expect("this kind");
        assert_eq!(kind.about, format!("operations above {}", COUNT - 1));
    }
}
