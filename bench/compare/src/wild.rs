//! Random requests over what stands now: mostly near to what can be granted, with each word now and
//! then a little or far off.

use bridge::{text_length, Argument, Buffer, Operation, Words};
use session::entry::{self, Entry};
use session::token::{self, Token};
use session::Step;

use crate::image;
use crate::leases::{self, Shift};
use crate::player::Player;

/// How often each operation is asked.
const WEIGHTS: [(Operation, u64); Operation::COUNT] = [
    (Operation::Read, 16),
    (Operation::Write, 16),
    (Operation::Fetch, 8),
    (Operation::Create, 12),
    (Operation::Merge, 12),
    (Operation::Derive, 14),
    (Operation::ExecuteOnly, 6),
    (Operation::Clone, 8),
    (Operation::Drop, 16),
    (Operation::Lock, 7),
    (Operation::Unlock, 8),
    (Operation::Revoke, 5),
    (Operation::Load, 3),
    (Operation::Dump, 2),
    (Operation::PageOut, 5),
    (Operation::PageIn, 8),
    (Operation::Reset, 1),
];

/// The arguments in the order in which they are chosen: an offset goes by the length.
const ORDER: [Argument; Argument::ALL.len()] = [
    Argument::Address,
    Argument::Token,
    Argument::User,
    Argument::SecondToken,
    Argument::FirstNonce,
    Argument::Key,
    Argument::PageFile,
    Argument::Minute,
    Argument::Task,
    Argument::Holder,
    Argument::Length,
    Argument::Offset,
    Argument::Permissions,
    Argument::Encoding,
];

/// Tasks, those that differ in the bits from 55 on among them.
pub const TASKS: [u64; 12] = [
    0,
    1,
    7,
    7,
    8,
    (1 << 55) - 1,
    (1 << 54) + 7,
    1 << 55,
    (1 << 55) + 7,
    (1 << 63) + 7,
    (1 << 56) - 1,
    u64::MAX,
];

/// Longer segments are dumped to a buffer that is too short.
const LONG: u64 = 1_000;

/// Longer segments are paged with a buffer that is too short.
const LONG_PAGE: u64 = 8_192;

/// Page-file numbers, with ones on both sides of 32 bits.
const PAGE_FILES: [u64; 6] = [0, 1, 1 << 31, 1 << 32, (5 << 32) + 9, u64::MAX];

/// Asks random requests.
pub fn play(player: &mut Player, requests: usize) {
    for _ in 0..requests {
        if player.over() {
            return;
        }
        let operation = operation(player);
        ask(player, operation);
    }
}

fn operation(player: &mut Player) -> Operation {
    let mut at = player.dice.below(WEIGHTS.iter().map(|(_, weight)| weight).sum());
    for (operation, weight) in WEIGHTS {
        if at < weight {
            return operation;
        }
        at -= weight;
    }
    Operation::Read
}

/// Asks one random request of an operation, through a number that is in use if there is one.
pub fn ask(player: &mut Player, operation: Operation) {
    let number = used_number(player);
    ask_through(player, operation, number);
}

/// Asks one random request of an operation, mostly through the entry of a number.
pub fn ask_through(player: &mut Player, operation: Operation, number: usize) {
    let (words, buffer) = request(player, operation, number);
    ask_in_shift(player, words, buffer);
}

/// A random request of an operation with its buffer, mostly through the entry of a number.
pub fn request(player: &mut Player, operation: Operation, number: usize) -> (Words, Vec<u8>) {
    let number = match operation {
        Operation::PageIn => paged_number(player, number),
        _ => number,
    };
    let entry = player.entry(number);
    if operation.is_access() {
        return access(player, operation, number, &entry);
    }
    let words = words(player, operation, number, &entry);
    let buffer = match operation.buffer() {
        Buffer::Text => image::text(&mut player.dice, entry.length()),
        Buffer::Front => room(player, entry.length()),
        Buffer::Out | Buffer::In => page(player, entry.length()),
        _ if player.dice.once_in(16) => player.dice.bytes(3),
        _ => Vec::new(),
    };
    (words, buffer)
}

/// How often a request that looks at leases is lent some, and how often one that does not.
const LEASED: u64 = 6;
const LENT: u64 = 32;

/// Asks a request, now and then with leases, and then at a minute.
fn ask_in_shift(player: &mut Player, words: Words, buffer: Vec<u8>) {
    let leased = Operation::of(words.operation).is_some_and(Operation::is_leased);
    match leased {
        true if player.dice.once_in(LEASED) => ask_during(player, words, buffer),
        false if player.dice.once_in(LENT) => {
            let leases = leases::rubbish(&mut player.dice);
            player.ask_lent(Step { request: words, buffer, leases });
        }
        _ => drop(player.ask_with(words, buffer)),
    }
}

/// Asks a request that looks at leases, with some.
pub fn ask_during(player: &mut Player, words: Words, buffer: Vec<u8>) {
    let number = used_number(player);
    let other = player.token(number);
    let Shift { minute, leases } = leases::shift(&mut player.dice, words.token, other);
    let request = Words { second: minute, ..words };
    player.ask_lent(Step { request, buffer, leases });
}

/// A buffer for the text of so many bytes: as long, a little longer or shorter, or empty.
fn room(player: &mut Player, whole: u64) -> Vec<u8> {
    let told = text_length(whole.min(LONG)) as usize;
    let length = match player.dice.below(12) {
        0 => 0,
        1 | 2 => told - 1,
        3 => player.dice.index(told),
        4..=8 => told,
        _ => told + 1 + player.dice.index(20),
    };
    player.dice.bytes(length)
}

/// A buffer for a segment of so many bytes: mostly as long.
fn page(player: &mut Player, whole: u64) -> Vec<u8> {
    let whole = whole.min(LONG_PAGE) as usize;
    let length = match player.dice.below(24) {
        0 => 0,
        1 => whole.saturating_sub(1),
        2 => whole + 1,
        3 => player.dice.index(whole + 2),
        _ => whole,
    };
    player.dice.bytes(length)
}

/// A number that is paged out, sought from one on; mostly, and if there is one.
fn paged_number(player: &mut Player, number: usize) -> usize {
    let entries = player.entries().max(1);
    let mut all = (number..number + entries).map(|number| number % entries);
    let paged = all.find(|number| player.entry(*number).kind() == entry::PAGED);
    paged.filter(|_| !player.dice.once_in(12)).unwrap_or(number)
}

/// A donor's token for an entry that is paged out: mostly that of a segment as long, at rest.
fn donor(player: &mut Player, paged: &Entry) -> u64 {
    let fits = |entry: Entry| {
        let at_rest = entry.count() == 0 && entry.get(entry::LOCKED) == 0;
        entry.kind() == entry::DIRECT && at_rest && entry.length() == paged.length()
    };
    let fitting = (0..player.entries()).find(|number| fits(player.entry(*number)));
    let number = match fitting {
        Some(number) if !player.dice.once_in(8) => number,
        _ => used_number(player),
    };
    let entry = player.entry(number);
    token(player, number, &entry)
}

/// The operations that name an entry, but for accesses.
pub fn others() -> Vec<Operation> {
    let named = Operation::ALL.into_iter().filter(|operation| operation.names_entry());
    named.filter(|operation| !operation.is_access()).collect()
}

/// A number in use, sought from a random one on; any number if none is near.
pub fn used_number(player: &mut Player) -> usize {
    let entries = player.entries().max(1);
    let from = player.dice.index(entries);
    let near = (from..from + 40).map(|number| number % entries);
    near.into_iter().find(|number| !player.entry(*number).is_free()).unwrap_or(from)
}

/// A token for a number: mostly the right one, in any encoding.
pub fn token(player: &mut Player, number: usize, entry: &Entry) -> u64 {
    let encoding = player.dice.below(4);
    let right = entry.token(number, encoding);
    match player.dice.below(64) {
        0 => right ^ 1 << player.dice.below(64),
        1 => token::packed(encoding, player.dice.word(), number as u64, 0),
        2 => token::packed(encoding, entry.get(entry::TAG), number as u64, player.dice.below(9)),
        3 => beyond(player, entry),
        4 => player.dice.word(),
        5 => 0,
        6 | 7 if !player.given.is_empty() => {
            let at = player.dice.index(player.given.len());
            player.given[at]
        }
        _ => right,
    }
}

/// A token whose number is at or beyond the table's end.
fn beyond(player: &mut Player, entry: &Entry) -> u64 {
    let end = player.entries() as u64;
    let number = player.dice.one_of(&[end, end + 1, 1_023, 1_024, 16_383, 1 << 14, 1 << 22]);
    let tag = player.dice.one_of(&[0, entry.get(entry::TAG)]);
    token::packed(player.dice.below(4), tag, number, 0)
}

pub fn task(player: &mut Player) -> u64 {
    if player.dice.once_in(12) {
        return player.dice.one_of(&TASKS);
    }
    player.dice.one_of(&[0, 0, 1, 7])
}

/// Permissions: within the entry's, or any, or above 7.
fn permissions(player: &mut Player, entry: &Entry) -> u64 {
    match player.dice.below(24) {
        0 => player.dice.one_of(&[8, 9, 15, 16, 255, 256, 1 << 32, u64::MAX]),
        1 | 2 => player.dice.below(8),
        3..=10 => entry.get(entry::PERMISSIONS),
        _ => entry.get(entry::PERMISSIONS) & player.dice.below(8),
    }
}

fn encoding(player: &mut Player) -> u64 {
    match player.dice.below(48) {
        0 => player.dice.one_of(&[4, 5, 7, 8, 256, 1 << 32, 1 << 62, u64::MAX]),
        _ => player.dice.below(4),
    }
}

/// A length near a segment's: inside, at an end, or beyond.
fn length(player: &mut Player, whole: u64) -> u64 {
    match player.dice.below(24) {
        0 => 0,
        1 => whole + 1,
        2 => player.dice.one_of(&[1 << 32, (1 << 32) + whole, 1 << 63, u64::MAX]),
        3..=5 => whole,
        6 => whole.saturating_sub(1),
        7..=9 => 1,
        10..=14 => whole / 2,
        _ => player.dice.between(1, whole.max(1)),
    }
}

fn access(
    player: &mut Player,
    operation: Operation,
    number: usize,
    entry: &Entry,
) -> (Words, Vec<u8>) {
    let whole = entry.length();
    let buffer = buffer_length(player, whole);
    let named = token(player, number, entry);
    let token = with_offset(player, named, whole, buffer as u64);
    let task = task(player);
    let words = Words { operation: operation as u64, token, task, ..Words::default() };
    (words, player.dice.bytes(buffer))
}

fn buffer_length(player: &mut Player, whole: u64) -> usize {
    let length = match player.dice.below(64) {
        0 => player.dice.one_of(&[0, 0, 4_095, 4_096, 4_097, 8_192]),
        1 | 2 => whole + player.dice.below(2),
        3..=20 => 1,
        _ => player.dice.between(1, whole.clamp(1, 16)),
    };
    length.min(8_192) as usize
}

/// Moves a token's offset, if its encoding has one, to a place where the access may stand.
fn with_offset(player: &mut Player, token: u64, whole: u64, buffer: u64) -> u64 {
    let Token { encoding, tag, number, offset } = Token::unpack(token);
    let last = whole.saturating_sub(buffer);
    let offset = match player.dice.below(16) {
        0 => last + 1,
        1 => player.dice.one_of(&[whole, whole.wrapping_sub(1), u64::MAX, (1 << 16) - 1]),
        2..=4 => last,
        5..=8 => offset,
        _ => player.dice.between(0, last),
    };
    token::packed(encoding, tag, number, offset)
}

fn words(player: &mut Player, operation: Operation, number: usize, entry: &Entry) -> Words {
    let token = token(player, number, entry);
    let mut words = Words { operation: operation as u64, token, ..Words::default() };
    for argument in ORDER.into_iter().filter(|argument| operation.takes(*argument)) {
        choose(player, argument, entry, &mut words);
    }
    words
}

/// Chooses an argument of a request through an entry; its token is chosen.
fn choose(player: &mut Player, argument: Argument, entry: &Entry, words: &mut Words) {
    let whole = entry.length();
    match argument {
        // A minute is chosen with the leases.
        Argument::Address | Argument::Token | Argument::Minute => {}
        Argument::SecondToken if words.operation == Operation::PageIn as u64 => {
            words.second = donor(player, entry);
        }
        Argument::SecondToken => words.second = neighbour(player, entry),
        Argument::PageFile => words.second = page_file(player),
        Argument::Key => [words.token, words.second] = [player.dice.word(), player.dice.word()],
        Argument::Offset => words.second = offset(player, whole, words.length),
        Argument::Task | Argument::Holder => words.task = task(player),
        Argument::FirstNonce => words.task = first_nonce(player),
        Argument::Length => words.length = length(player, whole),
        Argument::User => words.user = player.dice.word(),
        Argument::Permissions => words.permissions = permissions(player, entry),
        Argument::Encoding => words.encoding = encoding(player),
    }
}

/// A first nonce: low, anywhere, near the end, or none.
pub fn first_nonce(player: &mut Player) -> u64 {
    match player.dice.below(12) {
        0 => player.dice.one_of(&[0, 1 << 32, (1 << 32) + 1, 1 << 33, u64::MAX]),
        1 => (1 << 32) - player.dice.between(1, 12),
        2 | 3 => player.dice.between(1, (1 << 32) - 1),
        _ => player.dice.between(1, 300),
    }
}

/// Any page-file number, those at the ends of their bits too.
fn page_file(player: &mut Player) -> u64 {
    match player.dice.once_in(2) {
        true => player.dice.one_of(&PAGE_FILES),
        false => player.dice.word(),
    }
}

/// A second token: mostly that of the neighbour behind.
fn neighbour(player: &mut Player, entry: &Entry) -> u64 {
    let numbers = 0..player.entries();
    let behind = numbers.into_iter().find(|number| {
        let next = player.entry(*number);
        next.kind() == entry::DIRECT && next.get(entry::BASE) == entry.end()
    });
    let number = match behind {
        Some(number) if !player.dice.once_in(6) => number,
        _ => used_number(player),
    };
    let second = player.entry(number);
    token(player, number, &second)
}

/// An offset for a part of a length: inside, up to the end, one beyond, or with a sum that wraps.
fn offset(player: &mut Player, whole: u64, length: u64) -> u64 {
    let room = whole.saturating_sub(length);
    match player.dice.below(16) {
        0 => room + 1,
        1 => player.dice.one_of(&[whole, 1 << 32, u64::MAX]),
        2 => 0u64.wrapping_sub(length),
        3 => 1u64.wrapping_sub(length),
        4 | 5 => room,
        6..=8 => 0,
        _ => player.dice.between(0, room),
    }
}
