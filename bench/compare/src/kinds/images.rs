//! Loads and dumps: right and wrong text through all kinds of tokens, and the limits of both.

use bridge::{text_length, Operation, Words, ACCESS_BYTES, TEXT_BYTES};

use crate::image;
use crate::player::Player;
use crate::{wild, worlds};

/// The longest segment whose text is not too long, and the first whose text is.
const LAST: usize = 23_820;

/// Random loads and dumps among other requests, over small worlds.
pub fn play(player: &mut Player) {
    worlds::small(player);
    wild::play(player, 6);
    for _ in 0..24 {
        let operation = player.dice.one_of(&[Operation::Load, Operation::Load, Operation::Dump]);
        wild::ask(player, operation);
        if player.dice.once_in(6) {
            wild::play(player, 1);
        }
    }
}

/// Buffers at their limits: 4,096 bytes of an access, 65,536 of text, 23,820 that are dumped, pages.
pub fn limits(player: &mut Player) {
    for memory in [LAST, LAST + 1] {
        worlds::reset(player, 4, memory, 1);
        let told = text_length(memory as u64) as usize;
        for length in [told - 1, told, told + 1] {
            let buffer = player.dice.bytes(length);
            ask(player, Operation::Dump, buffer);
        }
    }
    for length in [ACCESS_BYTES, ACCESS_BYTES + 1] {
        player.read(0, length, 0);
        player.write(0, length, 0);
        player.fetch(0, length, 0);
    }
    for length in [TEXT_BYTES - 1, TEXT_BYTES, TEXT_BYTES + 1] {
        let text = image::filled(&mut player.dice, length);
        ask(player, Operation::Load, text);
    }
    pages(player);
}

/// Data on both sides of a page's end, in a segment that ends behind it.
fn pages(player: &mut Player) {
    let memory = (1 << 16) + player.dice.index(40);
    worlds::reset(player, 4, memory, 1);
    for _ in 0..6 {
        let length = player.dice.one_of(&[1, 16, memory - (1 << 16) + 1]);
        let (front, back) = (player.dice.bytes(16), player.dice.bytes(length));
        // The page holds for both records behind it.
        let text = [
            image::data(0xfff0, &front),
            image::page(1),
            image::data(0, &back),
            image::data(0, &front[..1]),
            image::end(),
        ];
        ask(player, Operation::Load, text.concat());
    }
    wild::ask(player, Operation::Load);
    wild::ask(player, Operation::Dump);
}

/// Asks through the root's token.
fn ask(player: &mut Player, operation: Operation, buffer: Vec<u8>) {
    let words = Words { operation: operation as u64, ..Words::default() };
    player.ask_with(words, buffer);
}
