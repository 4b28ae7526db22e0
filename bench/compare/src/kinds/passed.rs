//! Issues that pass over nonces: those whose tag would be the one that the number last had. Such a tag
//! is planted where the number stands, in use or free; or it comes about after a reset, with a key or
//! a part found by search. Plenty of nonces are left, or just enough, or too few.

use bridge::{Argument, Operation, Words};
use session::entry::{self, Entry, SIZE};
use session::token::{self, Token};
use session::{Step, World};

use super::found;
use crate::limits::SPENT;
use crate::player::Player;
use crate::tag::Issue;
use crate::{free, wild, worlds};

const MEMORY: u64 = 64;
const ENTRIES: usize = 4;

/// How many bytes the two segments have.
const LONG: u64 = 16;
const SHORT: u64 = 8;

/// The next nonce where plenty are left, behind those of handed-over entries.
const PLENTY: u64 = 5;

/// What issues.
#[derive(Clone, Copy, Debug, PartialEq, Eq)]
enum Way {
    Derive,
    ExecuteOnly,
    Part,
    Rest,
    Whole,
    Merge,
    Revoke,
    /// A page-out's paged entry, and the segment that it leaves.
    Out,
    Left,
    In,
}

const WAYS: [Way; 10] = [
    Way::Derive,
    Way::ExecuteOnly,
    Way::Part,
    Way::Rest,
    Way::Whole,
    Way::Merge,
    Way::Revoke,
    Way::Out,
    Way::Left,
    Way::In,
];

impl Way {
    /// How many nonces its request needs.
    fn needs(self) -> u64 {
        1 + u64::from(matches!(self, Way::Part | Way::Rest | Way::Out | Way::Left))
    }

    /// Which of the request's issues it is.
    fn place(self) -> usize {
        usize::from(matches!(self, Way::Rest | Way::Left))
    }

    /// How many bytes its request's buffer has.
    fn buffer(self) -> u64 {
        match self {
            Way::Out | Way::Left => LONG,
            Way::In => SHORT,
            _ => 0,
        }
    }
}

pub fn play(player: &mut Player) {
    for way in WAYS {
        for spare in [None, Some(1), Some(0)] {
            planted(player, way, spare);
        }
        elsewhere(player, way);
    }
    for way in [Way::Part, Way::Out] {
        for spare in [None, Some(2), Some(1)] {
            both(player, way, spare);
        }
    }
    let way = player.dice.one_of(&WAYS);
    for spare in [None, Some(2), Some(1)] {
        twice(player, way, spare);
    }
    twice(player, Way::Part, Some(0));
    twice(player, Way::Out, Some(0));
    never_used(player, &[Way::Derive, Way::ExecuteOnly, Way::Part, Way::Whole, Way::Left]);
    never_used(player, &[Way::Rest, Way::Revoke, Way::Out]);
    alike(player);
    after_reset(player);
    freed_and_given(player);
    wild::play(player, 10);
}

/// A request over a table that was handed over.
struct Scene {
    world: World,
    request: Words,
    buffer: Vec<u8>,
    /// The two segments, one behind the other.
    segments: [usize; 2],
}

/// Two segments under any numbers; the free entries hold zeros, a tag, or any bytes.
fn scene(player: &mut Player, way: Way, next_nonce: u64) -> Scene {
    let mut world = World::zeros(ENTRIES * SIZE, MEMORY as usize);
    let filled = player.dice.below(3);
    for number in 0..ENTRIES {
        let any = Entry(player.dice.bytes(SIZE).try_into().unwrap_or_default());
        let kept = Entry::free(any.get(entry::TAG));
        let free = [Entry::default(), kept, any.with(entry::KIND, entry::FREE)];
        free[filled as usize].store(&mut world.table, number);
    }
    let one = player.dice.index(ENTRIES);
    let two = (one + 1 + player.dice.index(ENTRIES - 1)) % ENTRIES;
    let segments = [Entry::direct(8, LONG), Entry::direct(8 + LONG, SHORT)];
    let paged = [Entry::paged(player.dice.word(), SHORT), segments[1]];
    let entries = if way == Way::In { paged } else { segments };
    for (number, entry) in [one, two].into_iter().zip(entries) {
        let entry = entry.with(entry::USER, player.dice.word());
        let entry = entry.with(entry::TAG, player.dice.below(1 << 16)).with(entry::NONCE, 1);
        entry.with(entry::LOCKABLE, player.dice.below(2)).store(&mut world.table, number);
    }
    let last = player.dice.index(ENTRIES) as u64;
    world.state = worlds::handed(player, &world.table, last, next_nonce);
    let request = request(player, way, &world, [one, two]);
    let buffer = player.dice.bytes(way.buffer() as usize);
    Scene { world, request, buffer, segments: [one, two] }
}

/// A request by which a way issues, if nothing speaks against it.
fn request(player: &mut Player, way: Way, world: &World, [one, two]: [usize; 2]) -> Words {
    let named =
        |number: usize, encoding: u64| Entry::of(&world.table, number).token(number, encoding);
    let token = named(one, player.dice.below(4));
    let words = Words { token, encoding: player.dice.below(4), ..Words::default() };
    let of = |operation: Operation| Words { operation: operation as u64, ..words };
    let whole = Entry::of(&world.table, one).length();
    match way {
        Way::Derive => {
            let (second, length) = (player.dice.below(8), player.dice.between(1, 8));
            Words { second, length, permissions: player.dice.below(8), ..of(Operation::Derive) }
        }
        Way::ExecuteOnly => of(Operation::ExecuteOnly),
        Way::Part | Way::Rest | Way::Whole => {
            let part = player.dice.between(1, whole - 1);
            let length = if way == Way::Whole { whole } else { part };
            let (user, permissions) = (player.dice.word(), player.dice.below(8));
            Words { length, user, permissions, ..of(Operation::Create) }
        }
        Way::Merge => Words { second: named(two, 1), ..of(Operation::Merge) },
        Way::Revoke => of(Operation::Revoke),
        Way::Out | Way::Left => Words { second: player.dice.word(), ..of(Operation::PageOut) },
        Way::In => Words { second: named(two, 1), ..of(Operation::PageIn) },
    }
}

impl Scene {
    /// The numbers that the request issues, in their order, with the entries that they get.
    fn issued(&self) -> Vec<(usize, Entry)> {
        let (mut world, from) = (self.world.clone(), self.world.state.next_nonce);
        let (request, buffer) = (self.request, self.buffer.clone());
        Step { request, buffer, leases: Vec::new() }.serve(&mut world);
        let entries = (0..ENTRIES).map(|number| (number, Entry::of(&world.table, number)));
        let new = |entry: &Entry| !entry.is_free() && entry.get(entry::NONCE) >= from;
        let mut issued: Vec<(usize, Entry)> = entries.filter(|(_, entry)| new(entry)).collect();
        issued.sort_by_key(|(_, entry)| entry.get(entry::NONCE));
        issued
    }

    /// Gives a number a tag, whether it is in use or free; the request's tokens go along.
    fn retag(&mut self, number: usize, tag: u64) {
        let entry = Entry::of(&self.world.table, number).with(entry::TAG, tag);
        entry.store(&mut self.world.table, number);
        let named = |word: u64| match Token::unpack(word) {
            Token { number: named, encoding, .. } if named == number as u64 => {
                token::packed(encoding, tag, named, 0)
            }
            _ => word,
        };
        self.request.token = named(self.request.token);
        let of_two = Operation::of(self.request.operation)
            .is_some_and(|operation| operation.takes(Argument::SecondToken));
        if of_two {
            self.request.second = named(self.request.second);
        }
    }

    /// Plants the tag that an issue of the request would give, where that issue's number stands.
    fn plant(&mut self, place: usize) {
        if let Some((number, entry)) = self.issued().get(place) {
            self.retag(*number, entry.get(entry::TAG));
        }
    }

    fn ask(self, player: &mut Player) {
        player.begin(self.world);
        player.ask_with(self.request, self.buffer.clone());
        player.ask_with(self.request, self.buffer);
    }
}

/// The next nonce if so many are left beyond those needed.
fn next_nonce(way: Way, spare: Option<u64>) -> u64 {
    spare.map_or(PLENTY, |spare| SPENT - way.needs() - spare)
}

/// The issue's next nonce would give the tag that its number has or keeps.
fn planted(player: &mut Player, way: Way, spare: Option<u64>) {
    let mut scene = scene(player, way, next_nonce(way, spare));
    scene.plant(way.place());
    scene.ask(player);
}

/// The issue's next nonce gives the tag of another entry, which is no reason to pass over it.
fn elsewhere(player: &mut Player, way: Way) {
    let mut scene = scene(player, way, next_nonce(way, Some(0)));
    let issued = scene.issued();
    let Some((number, entry)) = issued.get(way.place()) else { return };
    let tag = entry.get(entry::TAG);
    let [one, two] = scene.segments;
    let other = match way {
        Way::Part | Way::Whole => one,
        Way::Rest | Way::Left => issued[0].0,
        Way::Out => issued.get(1).map_or(two, |(number, _)| *number),
        Way::Merge | Way::In => two,
        // A child's tag hashes its parent's.
        _ => (0..ENTRIES).find(|other| other != number && *other != one).unwrap_or(two),
    };
    scene.retag(other, tag);
    scene.ask(player);
}

/// A create whose part and rest each pass over a nonce; or a page-out whose two issues do.
fn both(player: &mut Player, way: Way, spare: Option<u64>) {
    let mut scene = scene(player, way, next_nonce(way, spare));
    scene.plant(0);
    scene.plant(1);
    scene.ask(player);
}

/// Two nonces in a row that give the tag that the number has or keeps.
fn twice(player: &mut Player, way: Way, spare: Option<u64>) {
    if player.over() {
        return;
    }
    let mut scene = scene(player, way, next_nonce(way, spare));
    if let Some((number, entry)) = scene.issued().get(way.place()) {
        let nonce = entry.get(entry::NONCE);
        let [one, two] = [nonce, nonce + 1].map(|nonce| Issue::of(entry, *number, nonce));
        let key = scene.world.state.key;
        scene.world.state.key = found::key(key, |key| one.tag(key) == two.tag(key));
        scene.plant(way.place());
    }
    scene.ask(player);
}

/// A number that was never used counts as having had tag 0, and so does the root of a reset.
fn never_used(player: &mut Player, ways: &[Way]) {
    let way = player.dice.one_of(ways);
    for spare in [None, Some(1), Some(0)] {
        if player.over() {
            return;
        }
        let mut world = World::zeros(2 * SIZE, MEMORY as usize);
        Entry::direct(0, MEMORY).store(&mut world.table, 0);
        world.state = worlds::handed(player, &world.table, 0, next_nonce(way, spare));
        let request = request(player, way, &world, [0, 0]);
        let whole = if way.buffer() == 0 { 0 } else { MEMORY as usize };
        let buffer = player.dice.bytes(whole);
        let scene = Scene { world, request, buffer, segments: [0, 0] };
        let issued = scene.issued();
        let Some((number, entry)) = issued.get(way.place()) else { return };
        let issue = Issue::of(entry, *number, entry.get(entry::NONCE));
        let key = found::key(scene.world.state.key, |key| issue.tag(key) == 0);
        player.begin(worlds::zeros(2, MEMORY));
        player.reset(key, scene.world.state.next_nonce);
        player.ask_with(request, scene.buffer.clone());
        player.ask_with(request, scene.buffer);
    }
}

/// A rest that gets its part's tag: the part is another number.
fn alike(player: &mut Player) {
    if player.over() {
        return;
    }
    let mut scene = scene(player, Way::Part, next_nonce(Way::Part, Some(0)));
    if let [part, rest] = scene.issued()[..] {
        let issue =
            |(number, entry): (usize, Entry)| Issue::of(&entry, number, entry.get(entry::NONCE));
        let [part, rest] = [part, rest].map(issue);
        let key = scene.world.state.key;
        scene.world.state.key = found::key(key, |key| part.tag(key) == rest.tag(key));
    }
    scene.ask(player);
}

/// A key under which an entry gets the same tag twice, from a reset on: a rest that is cut again, a part
/// that is merged, and one that is revoked.
fn after_reset(player: &mut Player) {
    let (front, back) = (Entry::direct(0, 16), Entry::direct(16, MEMORY - 16));
    let (cut, whole) = (Entry::direct(32, MEMORY - 32), Entry::direct(0, MEMORY));
    let way = player.dice.one_of(&[Way::Rest, Way::Merge, Way::Revoke]);
    let (number, [early, late]) = match way {
        Way::Rest => (0, [(back, 1), (cut, 3)]),
        Way::Merge => (1, [(front, 0), (whole, 2)]),
        _ => (1, [(front, 0), (front, 2)]),
    };
    for spare in [None, Some(1), Some(0)] {
        if player.over() {
            return;
        }
        // The first create uses two.
        let first = spare.map_or(1, |_| next_nonce(way, spare) - 2);
        let issue = |(entry, behind): (Entry, u64)| Issue::of(&entry, number, first + behind);
        let [early, late] = [early, late].map(issue);
        let any = worlds::key(player);
        let key = found::key(any, |key| early.tag(key) == late.tag(key));
        player.begin(worlds::zeros(3, MEMORY));
        player.reset(key, first);
        let made = player.create(0, 16, 7);
        match way {
            Way::Rest => player.create(made.second, 16, 7),
            Way::Merge => player.merge(made.first, made.second),
            _ => player.simple(Operation::Revoke, made.first),
        };
    }
}

/// How a number is freed.
#[derive(Clone, Copy, Debug, PartialEq, Eq)]
enum Freed {
    Drop,
    Climb,
    Merge,
    Whole,
}

impl Freed {
    /// How many nonces it takes from a reset on.
    fn used(self) -> u64 {
        match self {
            Freed::Drop => 1,
            Freed::Climb | Freed::Whole => 2,
            Freed::Merge => 5,
        }
    }

    /// So many entries let the numbers go round to the one that was freed.
    fn entries(self) -> usize {
        if self == Freed::Drop {
            2
        } else {
            3
        }
    }

    /// From a reset on: frees the number that is given next.
    fn play(self, player: &mut Player) {
        match self {
            Freed::Drop => {
                let child = player.derive(0, 0, 8, 7).first;
                player.simple(Operation::Drop, child);
            }
            Freed::Climb => {
                let upper = player.derive(0, 0, 16, 7).first;
                let lower = player.derive(upper, 0, 8, 7).first;
                player.simple(Operation::Drop, upper);
                player.simple(Operation::Drop, lower);
            }
            Freed::Merge => {
                let one = player.create(0, 16, 7);
                let two = player.create(one.second, 16, 7);
                player.merge(one.first, two.first);
            }
            Freed::Whole => {
                let one = player.create(0, found::MEMORY, 7).first;
                player.create(one, found::MEMORY, 7);
            }
        }
    }
}

/// A number that was freed is given again by a derive or a create, which are chosen so that the next
/// nonce would give the tag that it kept; and after a reset, which clears the tag, that tag is given.
fn freed_and_given(player: &mut Player) {
    let how = player.dice.one_of(&[Freed::Drop, Freed::Climb, Freed::Merge, Freed::Whole]);
    let create = player.dice.once_in(2);
    let needs = 1 + u64::from(create);
    for spare in [None, Some(1), Some(0)] {
        let first = spare.map_or(1, |spare| SPENT - how.used() - needs - spare);
        let (_, kept) = freed(player, how, first);
        found::give(player, kept, create);
    }
    let (number, kept) = freed(player, how, 1);
    let key = player.state().key;
    player.reset(key, 0);
    player.reset(key, 9);
    if number != 1 {
        player.derive(0, 0, 1, 1);
    }
    found::give(player, kept, create && number == 1);
}

/// Frees a number, from a reset on: that number, and the tag that it kept.
fn freed(player: &mut Player, how: Freed, first_nonce: u64) -> (usize, u64) {
    worlds::reset(player, how.entries(), found::MEMORY as usize, first_nonce);
    how.play(player);
    let number = free::next(player.table(), player.state().last_number).unwrap_or(0);
    (number, player.entry(number).get(entry::TAG))
}
