//! Totals that were handed over, right and wrong: what gives a number or frees one, at the total's ends
//! and beside them; and totals above the top, with every other refusal in force too.

use bridge::{Operation, Reply, Words};
use session::entry::{self, Entry, SIZE};
use session::{Step, World};

use crate::player::Player;
use crate::{free, leases, standings, wild, worlds};

/// The bytes of each segment.
const LENGTH: u64 = 8;

/// How many segments stand in a row, and how many entries with the line below the last of them.
const SEGMENTS: usize = 4;
const USED: usize = 7;

pub fn play(player: &mut Player) {
    for _ in 0..3 {
        let (world, first) = row(player);
        player.begin(world);
        (0..6).for_each(|_| step(player, number_at(first, USED - 1)));
    }
    for below_top in [None, Some(0), Some(1)] {
        whole(player, below_top);
    }
    above(player);
    wild::play(player, 4);
}

/// Segments in a row, a line below the last of them, and up to three numbers that are free. Any of
/// the used ones may be number 0. Then the number of the first segment.
fn row(player: &mut Player) -> (World, usize) {
    let (first, entries) = (player.dice.index(USED), USED + player.dice.index(4));
    let mut world = World::zeros(SIZE * entries, LENGTH as usize * SEGMENTS);
    let mut parent = 0;
    for place in 0..USED {
        let number = number_at(first, place);
        let entry = if place < SEGMENTS {
            Entry::direct(LENGTH * place as u64, LENGTH)
        } else {
            Entry::indirect(LENGTH * (SEGMENTS - 1) as u64, LENGTH, parent)
        };
        let entry = entry.with_count(u64::from(place + 1 >= SEGMENTS));
        let entry = entry.with(entry::TAG, player.dice.below(1 << 16));
        let entry = entry.with(entry::NONCE, place as u64);
        entry.store(&mut world.table, number);
        parent = entry.token(number, 1);
    }
    let last = player.dice.index(entries) as u64;
    world.state = worlds::handed(player, &world.table, last, USED as u64);
    (world, first)
}

/// The number of a place in such a row, the segments first, then what stands below the last of them.
fn number_at(first: usize, place: usize) -> usize {
    (first + place) % USED
}

/// A create of a whole segment, with a total of 0 or at its top or one below.
fn whole(player: &mut Player, below_top: Option<u64>) {
    let (mut world, first) = row(player);
    world.state.total = below_top.map_or(0, |below| free::top(&world.table) - below);
    player.begin(world);
    let number = number_at(first, player.dice.index(SEGMENTS - 1));
    player.create(player.token(number), LENGTH, 7);
}

/// Gives a number, frees some, or both.
fn step(player: &mut Player, deepest: usize) {
    let number = wild::used_number(player);
    let (token, entry) = (player.token(number), player.entry(number));
    match player.dice.below(8) {
        0 => player.create(token, entry.length(), 7),
        1 => player.create(token, 1, 7),
        2 | 3 => join(player, number),
        4 => player.derive(token, 0, 1, 1),
        5 => player.simple(Operation::ExecuteOnly, token),
        _ => {
            let token = player.token(deepest);
            player.simple(Operation::Drop, token)
        }
    };
}

/// A merge with the neighbour behind.
fn join(player: &mut Player, number: usize) -> Reply {
    let end = player.entry(number).end();
    let behind = (0..player.entries()).find(|other| {
        let next = player.entry(*other);
        next.kind() == entry::DIRECT && next.get(entry::BASE) == end
    });
    let [one, two] = [number, behind.unwrap_or(number)].map(|number| player.token(number));
    player.merge(one, two)
}

/// One request for each place at which one stops, with a total above its top and with one inside; and
/// a reset, which judges none.
fn above(player: &mut Player) {
    let mut world = standings::world(player);
    let totals = worlds::totals_above(&world.table);
    for total in totals {
        world.state.total = total;
        player.begin(world.clone());
        player.read(0, 1, 0);
    }
    world.state.total = player.dice.one_of(&totals);
    player.begin(world.clone());
    each_stop(player);
    player.reset([1, 2], 1);
    world.state.total = worlds::total(player, &world.table);
    player.begin(world);
    each_stop(player);
}

/// The refusals in their order, over such a table; nothing changes.
fn each_stop(player: &mut Player) {
    player.read(0, 1, 0);
    player.simple(Operation::Clone, 1);
    let stale = player.token(standings::LOCKED) ^ 1 << 50;
    player.read(stale, 1, 0);
    for number in standings::REFUSED {
        let token = player.token(number);
        player.read(token, 1, 0);
    }
    let child = player.token(standings::CHILD);
    player.create(child, 1, 0);
    let readable = player.token(standings::READABLE);
    player.write(readable, 1, 0);
    player.read(standings::LENGTH, 1, 0);
    player.simple(Operation::Drop, 0);
    player.derive(0, 0, 1, 0);
    player.simple(Operation::Revoke, 0);
    for (operation, buffer) in
        [(Operation::Load, &b""[..]), (Operation::Load, b":00000001FE\n"), (Operation::Dump, b"")]
    {
        let words = Words { operation: operation as u64, ..Words::default() };
        player.ask_with(words, buffer.to_vec());
    }
    for leases in [leases::closed(0), leases::bad()] {
        let request = Words { operation: Operation::Read as u64, ..Words::default() };
        player.ask_lent(Step { request, buffer: vec![0], leases });
    }
}
