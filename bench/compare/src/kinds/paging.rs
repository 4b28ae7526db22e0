//! Segments that are paged out and in: each check with the later ones in force too, round trips of every
//! length, numbers 0, and entries that are paged out in each operation and as parents.

use bridge::{Operation, Words};
use session::entry::{self, Entry, Field, SIZE};
use session::token;
use session::{Step, World};

use crate::dice::Dice;
use crate::limits::SPENT;
use crate::player::Player;
use crate::protocol::BUFFER;
use crate::{free, image, leases, wild, worlds};

/// What can be wrong with a page-out or a page-in.
#[derive(Clone, Copy, Debug, PartialEq, Eq)]
enum Wrong {
    Request,
    Entry,
    Paged,
    IllFormed,
    Dead,
    IllAncestor,
    DeadAncestor,
    Lock,
    DonorEntry,
    DonorIllFormed,
    DonorDead,
    DonorIllAncestor,
    DonorDeadAncestor,
    DonorLock,
    Kind,
    DonorKind,
    Bounds,
    Standing,
    Numbers,
    Nonces,
}

/// What can be wrong with a page-out, in the order in which it is judged.
const OUT: &[Wrong] = &[
    Wrong::Request,
    Wrong::Entry,
    Wrong::Paged,
    Wrong::IllFormed,
    Wrong::Dead,
    Wrong::IllAncestor,
    Wrong::DeadAncestor,
    Wrong::Lock,
    Wrong::Kind,
    Wrong::Bounds,
    Wrong::Standing,
    Wrong::Numbers,
    Wrong::Nonces,
];

/// What can be wrong with a page-in, in the order in which it is judged.
const IN: &[Wrong] = &[
    Wrong::Request,
    Wrong::Entry,
    Wrong::IllFormed,
    Wrong::Dead,
    Wrong::IllAncestor,
    Wrong::DeadAncestor,
    Wrong::Lock,
    Wrong::DonorEntry,
    Wrong::DonorIllFormed,
    Wrong::DonorDead,
    Wrong::DonorIllAncestor,
    Wrong::DonorDeadAncestor,
    Wrong::DonorLock,
    Wrong::Kind,
    Wrong::DonorKind,
    Wrong::Bounds,
    Wrong::Standing,
    Wrong::Nonces,
];

/// What is wrong with the entry of a token, and with its line.
#[derive(Clone, Copy, Debug)]
struct Faults {
    gone: bool,
    ill_formed: bool,
    dead: bool,
    ill_ancestor: bool,
    dead_ancestor: bool,
    locked: bool,
    of_kind: bool,
}

impl Faults {
    fn of_first(is: impl Fn(Wrong) -> bool) -> Faults {
        Faults {
            gone: is(Wrong::Entry),
            ill_formed: is(Wrong::IllFormed),
            dead: is(Wrong::Dead),
            ill_ancestor: is(Wrong::IllAncestor),
            dead_ancestor: is(Wrong::DeadAncestor),
            locked: is(Wrong::Lock),
            of_kind: is(Wrong::Kind),
        }
    }

    fn of_donor(is: impl Fn(Wrong) -> bool) -> Faults {
        Faults {
            gone: is(Wrong::DonorEntry),
            ill_formed: is(Wrong::DonorIllFormed),
            dead: is(Wrong::DonorDead),
            ill_ancestor: is(Wrong::DonorIllAncestor),
            dead_ancestor: is(Wrong::DonorDeadAncestor),
            locked: is(Wrong::DonorLock),
            of_kind: is(Wrong::DonorKind),
        }
    }

    /// The kind of the entry, where one is wanted; what has a line is derived.
    fn kind(&self, dice: &mut Dice, wanted: u64, out: bool) -> u64 {
        if self.dead || self.ill_ancestor || self.dead_ancestor {
            return entry::INDIRECT;
        }
        let derived = entry::INDIRECT;
        match (wanted, self.of_kind, self.locked) {
            (entry::PAGED, true, _) if !out => dice.one_of(&[entry::DIRECT, derived]),
            (entry::PAGED, _, true) => dice.one_of(&[entry::DIRECT, derived]),
            (entry::DIRECT, true, false) if !out => dice.one_of(&[entry::PAGED, derived]),
            (entry::DIRECT, true, _) => derived,
            _ => wanted,
        }
    }
}

/// How many entries a scene has: two lines of three, and some that are free.
const ENTRIES: usize = 9;
const LENGTH: u64 = 8;
const MEMORY: usize = 64;

/// Who holds a lock that is another's, and who asks.
const HOLDER: u64 = 7;
const ASKER: u64 = 9;

pub fn play(player: &mut Player) {
    for operation in [Operation::PageOut, Operation::PageIn] {
        for wrong in of(operation) {
            let scene = scene(&mut player.dice, operation, &[*wrong]);
            ask(player, scene);
        }
        for _ in 0..8 {
            let wrong = some_of(&mut player.dice, operation);
            let scene = scene(&mut player.dice, operation, &wrong);
            ask(player, scene);
        }
        misfits(player, operation);
        for locked in [false, true] {
            let scene = unrest(&mut player.dice, operation, locked);
            ask(player, scene);
        }
    }
    round_trip(player);
    roots(player);
    crowded(player);
    if player.dice.once_in(4) {
        long(player);
    }
}

/// Asks what a scene asks, and reads through the token that it gives.
fn ask(player: &mut Player, (world, step): (World, Step)) {
    player.begin(world);
    let reply = player.ask_lent(step);
    if reply.refusal == 0 {
        player.read(reply.first, 1, 0);
    }
}

fn of(operation: Operation) -> &'static [Wrong] {
    match operation {
        Operation::PageOut => OUT,
        _ => IN,
    }
}

/// Up to four things that are wrong at once.
fn some_of(dice: &mut Dice, operation: Operation) -> Vec<Wrong> {
    loop {
        let count = dice.one_of(&[0, 1, 1, 2, 2, 2, 2, 3, 4]);
        let wrong: Vec<Wrong> = (0..count).map(|_| dice.one_of(of(operation))).collect();
        if possible(&wrong) {
            return wrong;
        }
    }
}

/// Whether these can be wrong at once: an entry that is paged out has no line, lock or count.
fn possible(wrong: &[Wrong]) -> bool {
    use Wrong::*;
    let not_paged = [Dead, IllAncestor, DeadAncestor, Lock, Kind, Standing];
    !wrong.contains(&Paged) || !wrong.iter().any(|one| not_paged.contains(one))
}

/// A world and a request over it, with these things wrong and no other.
fn scene(dice: &mut Dice, operation: Operation, wrong: &[Wrong]) -> (World, Step) {
    let is = |one: Wrong| wrong.contains(&one);
    let mut world = World::zeros(SIZE * ENTRIES, MEMORY);
    dice.fill(&mut world.memory);
    let turn = dice.index(ENTRIES);
    let number = |role: usize| (role + turn) % ENTRIES;
    let (out, asker) = (operation == Operation::PageOut, dice.one_of(&[0, ASKER]));
    let kind = if out && !is(Wrong::Paged) { entry::DIRECT } else { entry::PAGED };
    let faults = Faults::of_first(is);
    let kind = faults.kind(dice, kind, out);
    let first = line(dice, &mut world, [0, 1, 2].map(number), kind, faults);
    let faults = Faults::of_donor(is);
    let kind = faults.kind(dice, entry::DIRECT, false);
    let donor = line(dice, &mut world, [3, 4, 5].map(number), kind, faults);
    if is(Wrong::Standing) {
        let locked = asker != 0 && dice.once_in(2);
        disturb(dice, &mut world, number(if out { 0 } else { 3 }), locked.then_some(asker));
    }
    if is(Wrong::Numbers) {
        (6..ENTRIES).for_each(|role| Entry::direct(0, 1).store(&mut world.table, number(role)));
    }
    let few = if out { dice.one_of(&[SPENT - 1, SPENT]) } else { SPENT };
    world.state.key = [dice.word(), dice.word()];
    world.state.last_number = dice.below(ENTRIES as u64);
    world.state.next_nonce = if is(Wrong::Nonces) { few } else { 40 };
    world.state.total = free::counted(&world.table);
    let second = if out { dice.word() } else { donor };
    let (token, encoding) = (first, dice.below(4));
    let request = Words { operation: operation as u64, token, second, ..Words::default() };
    let request = Words { task: asker, encoding, ..request };
    let mut step = Step { request, buffer: dice.bytes(LENGTH as usize), leases: Vec::new() };
    if is(Wrong::Bounds) {
        let misfit = dice.one_of(misfits_of(operation));
        misfit.make(&mut world, &mut step);
    }
    if is(Wrong::Request) {
        spoil(dice, &mut world, &mut step.request);
    }
    (world, step)
}

/// An entry of a kind with the two that may stand above it, with these things wrong; its token.
fn line(
    dice: &mut Dice,
    world: &mut World,
    [own, parent, above]: [usize; 3],
    kind: u64,
    faults: Faults,
) -> u64 {
    let holder = if faults.locked { HOLDER } else { 0 };
    let top = issued(dice, Entry::direct(0, MEMORY as u64), 1);
    top.store(&mut world.table, above);
    let upper = match faults.dead_ancestor {
        true => Entry::indirect(LENGTH, LENGTH, top.token(above, 1) ^ 1),
        false => segment(dice).with_count(1).locked_for(holder),
    };
    let upper = issued(dice, upper, 2).with(entry::COPY_ON_WRITE, faults.ill_ancestor.into());
    upper.store(&mut world.table, parent);
    let link = upper.token(parent, 1) ^ u64::from(faults.dead) << 46;
    let entry = match kind {
        entry::PAGED => Entry::paged(dice.word(), LENGTH).with(entry::LOCKABLE, dice.below(2)),
        entry::DIRECT => segment(dice).locked_for(holder),
        _ => Entry::indirect(LENGTH, LENGTH, link),
    };
    let entry = issued(dice, entry, 3);
    let entry = if faults.ill_formed { ill_formed(dice, entry) } else { entry };
    entry.store(&mut world.table, own);
    match faults.gone {
        true => gone(dice, world, own, entry),
        false => entry.token(own, dice.below(4)),
    }
}

/// An entry becomes ill-formed.
fn ill_formed(dice: &mut Dice, entry: Entry) -> Entry {
    match entry.kind() {
        entry::PAGED => with_fault(entry, dice.one_of(&FAULTS)),
        _ => entry.with(entry::COPY_ON_WRITE, 1),
    }
}

/// What is wrong with the form of a paged entry: its length, or a one where zero belongs.
#[derive(Clone, Copy, Debug)]
enum Fault {
    Length,
    Locked,
    Cow,
    Zero(u64),
}

const FAULTS: [Fault; 7] = [
    Fault::Length,
    Fault::Locked,
    Fault::Cow,
    Fault::Zero(0),
    Fault::Zero(9),
    Fault::Zero(10),
    Fault::Zero(38),
];

fn with_fault(entry: Entry, fault: Fault) -> Entry {
    match fault {
        Fault::Length => entry.with_length(0),
        Fault::Locked => entry.with(entry::LOCKED, 1),
        Fault::Cow => entry.with(entry::COPY_ON_WRITE, 1),
        Fault::Zero(bit) => entry.with(entry::PAGED_ZEROS, 1 << bit),
    }
}

fn segment(dice: &mut Dice) -> Entry {
    Entry::direct(LENGTH * (1 + dice.below(6)), LENGTH).with(entry::LOCKABLE, dice.below(2))
}

/// An entry with any tag and rights, and any user if it has one.
fn issued(dice: &mut Dice, entry: Entry, nonce: u64) -> Entry {
    let entry = entry.with(entry::TAG, dice.below(1 << 16)).with(entry::NONCE, nonce);
    let entry = entry.with(entry::PERMISSIONS, dice.below(8));
    entry.with_field(Field::User, dice.word())
}

/// The token of an entry that is not there: its number is free, or beyond the table, or its tag another.
fn gone(dice: &mut Dice, world: &mut World, own: usize, entry: Entry) -> u64 {
    match dice.below(3) {
        0 => entry.with(entry::KIND, entry::FREE).store(&mut world.table, own),
        1 => entry.with(entry::TAG, !entry.get(entry::TAG)).store(&mut world.table, own),
        _ => return token::packed(1, entry.get(entry::TAG), ENTRIES as u64, 0),
    }
    entry.token(own, dice.below(4))
}

/// A segment gets a reference, or a lock that the asker holds.
fn disturb(dice: &mut Dice, world: &mut World, number: usize, asker: Option<u64>) {
    let entry = Entry::of(&world.table, number);
    if entry.kind() != entry::DIRECT {
        return;
    }
    let entry = match asker.filter(|_| entry.get(entry::LOCKED) == 0) {
        Some(asker) => entry.locked_for(asker),
        None => entry.with_count(dice.one_of(&[1, 2, 65_535])),
    };
    entry.store(&mut world.table, number);
}

/// A scene in which the segment, or the donor, is not at rest: it is locked by who asks, or counted.
fn unrest(dice: &mut Dice, operation: Operation, locked: bool) -> (World, Step) {
    let (mut world, mut step) = scene(dice, operation, &[]);
    let Words { token, second, .. } = step.request;
    let named = if operation == Operation::PageOut { token } else { second };
    let number = token::Token::unpack(named).number as usize;
    disturb(dice, &mut world, number, locked.then_some(ASKER));
    step.request.task = ASKER;
    (world, step)
}

/// What has another length.
#[derive(Clone, Copy, Debug)]
enum Misfit {
    Buffer(u64),
    Donor(u64),
    /// The donor, and the buffer as it.
    Both(u64),
}

const MISFITS: [Misfit; 9] = [
    Misfit::Buffer(0),
    Misfit::Buffer(LENGTH - 1),
    Misfit::Buffer(LENGTH + 1),
    Misfit::Buffer(2 * LENGTH),
    Misfit::Buffer(5_000),
    Misfit::Donor(LENGTH - 1),
    Misfit::Donor(LENGTH + 1),
    Misfit::Both(LENGTH - 1),
    Misfit::Both(LENGTH + 1),
];

/// Those of an operation: a page-out has no donor.
fn misfits_of(operation: Operation) -> &'static [Misfit] {
    match operation {
        Operation::PageOut => &MISFITS[..5],
        _ => &MISFITS,
    }
}

impl Misfit {
    fn make(self, world: &mut World, step: &mut Step) {
        let number = token::Token::unpack(step.request.second).number as usize;
        let donor = Entry::of(&world.table, number);
        let (of_donor, of_buffer) = match self {
            // A donor that is none has no length.
            Misfit::Donor(length) | Misfit::Both(length) if donor.kind() != entry::DIRECT => {
                (None, Some(length))
            }
            Misfit::Buffer(length) => (None, Some(length)),
            Misfit::Donor(length) => (Some(length), None),
            Misfit::Both(length) => (Some(length), Some(length)),
        };
        if let Some(length) = of_donor {
            donor.with_length(length).store(&mut world.table, number);
        }
        if let Some(length) = of_buffer {
            step.buffer.resize(length as usize, 0xB5);
        }
    }
}

/// Each misfit alone.
fn misfits(player: &mut Player, operation: Operation) {
    for misfit in misfits_of(operation) {
        let (mut world, mut step) = scene(&mut player.dice, operation, &[]);
        misfit.make(&mut world, &mut step);
        ask(player, (world, step));
    }
}

/// A request becomes a bad one.
fn spoil(dice: &mut Dice, world: &mut World, request: &mut Words) {
    let with_offset = |word: u64| {
        let token::Token { tag, number, .. } = token::Token::unpack(word);
        token::packed(0, tag, number, 1)
    };
    let of_donor = request.operation == Operation::PageIn as u64;
    match dice.below(6) {
        0 => request.task |= 1 << 55,
        1 => request.encoding = dice.one_of(&[4, 1 << 32, u64::MAX]),
        2 => world.state.total = ENTRIES as u64,
        3 => world.state.last_number = ENTRIES as u64,
        4 if of_donor => request.second = with_offset(request.second),
        _ => request.token = with_offset(request.token),
    }
}

/// A part with any rights, out and in again: to the place that it left, or to another as long.
fn round_trip(player: &mut Player) {
    let memory = player.dice.one_of(&[2, 16, 64, 5_000, 10_000]);
    worlds::reset(player, 8, memory, 1);
    player.rubbish = player.dice.once_in(4);
    let length = player.dice.one_of(&[1, memory / 2, (memory / 2).min(4_097)]);
    let rights = player.dice.below(8);
    let one = player.create(0, length as u64, rights);
    let two = player.create(one.second, length as u64, rights ^ 7);
    player.write(one.first, length.min(4_096), 0);
    let out = player.page_out(one.first, length);
    player.read(one.first, 1, 0);
    player.read(out.first, 1, 0);
    player.page_out(out.first, length);
    player.page_in(out.second, out.first, length);
    player.page_in(out.first, out.first, length);
    let donor = player.dice.one_of(&[out.second, out.second, two.first]);
    let back = player.page_in(out.first, donor, length);
    player.read(back.first, length.min(4_096), 0);
    player.page_in(out.first, donor, length);
    wild::play(player, 12);
}

/// Number 0 goes out and comes back, and is a donor; and both with totals that were handed over.
fn roots(player: &mut Player) {
    worlds::reset(player, 3, 16, 1);
    let out = player.page_out(0, 16);
    player.page_in(out.first, out.second, 16);
    let total = player.dice.one_of(&[None, Some(0), Some(2)]);
    worlds::reset(player, 3, 16, 1);
    let cut = player.create(0, 8, 7);
    player.write(cut.second, 8, 0);
    let out = player.page_out(cut.first, 8);
    hand_over(player, total);
    let donor = player.dice.one_of(&[out.second, cut.second]);
    player.page_in(out.first, donor, 8);
    player.page_out(player.token(0), 8);
}

/// The same world, with another total.
fn hand_over(player: &mut Player, total: Option<u64>) {
    let mut world = player.world();
    world.state.total = total.unwrap_or(world.state.total);
    player.begin(world);
}

/// No number left for what a page-out leaves, and the last one given; also with totals of 0.
fn crowded(player: &mut Player) {
    worlds::reset(player, 2, 8, 1);
    let total = player.dice.one_of(&[None, Some(0), Some(1)]);
    hand_over(player, total);
    let out = player.page_out(0, 8);
    player.page_out(out.second, 8);
    let total = player.dice.one_of(&[None, Some(1)]);
    hand_over(player, total);
    let back = player.page_in(out.first, out.second, 8);
    player.page_out(back.first, 8);
}

/// Segments above what an access moves, up to the longest buffer.
fn long(player: &mut Player) {
    for length in [4_096, 4_097, BUFFER] {
        worlds::reset(player, 2, length, 1);
        let out = player.page_out(0, length);
        player.page_in(out.first, out.second, length);
    }
}

/// Entries that are paged out, in each operation and as parents, well-formed or not.
pub fn entries(player: &mut Player) {
    for _ in 0..2 {
        let world = table(player);
        player.begin(world);
        for operation in Operation::ALL.into_iter().filter(|one| one.names_entry()) {
            through(player, operation);
        }
        for number in [CHILD, GRANDCHILD, COUSIN] {
            let token = player.token(number);
            player.read(token, 1, 0);
            player.page_in(token, player.token(DONOR_AT), LENGTH as usize);
        }
        joined(player);
        for number in [GRANDCHILD, CHILD, COUSIN] {
            let token = player.token(number);
            player.simple(Operation::Drop, token);
        }
    }
    forms(player);
    wild::play(player, 10);
}

/// What stands where in such a table. Paged entries stand at the first two.
const PAGED: usize = 0;
const CHILD: usize = 2;
const GRANDCHILD: usize = 3;
/// A child of the second one that is paged out.
const COUSIN: usize = 4;
const DONOR_AT: usize = 5;
const LOCKED: usize = 6;
const FREE_AT: usize = 7;

/// Two paged entries with children, whose links hold but for that; a donor; and free numbers, or none.
fn table(player: &mut Player) -> World {
    let mut world = World::zeros(SIZE * (FREE_AT + 2), MEMORY);
    player.dice.fill(&mut world.memory);
    let dice = &mut player.dice;
    let with =
        |entry: Entry, tag: u64, nonce: u64| entry.with(entry::TAG, tag).with(entry::NONCE, nonce);
    let paged = [0, 1].map(|at| {
        let tag = dice.below(1 << 16);
        let entry = Entry::paged(dice.word(), LENGTH).with(entry::PERMISSIONS, dice.below(8));
        with(any_form(dice, entry), tag, 1 + at)
    });
    let below = |number: usize, entry: &Entry| Entry::indirect(0, LENGTH, entry.token(number, 1));
    let child = with(below(PAGED, &paged[0]), dice.below(1 << 16), 5);
    let grandchild = with(below(CHILD, &child), dice.below(1 << 16), 6);
    let cousin = with(below(PAGED + 1, &paged[1]), dice.below(1 << 16), 7);
    let donor = with(Entry::direct(LENGTH, LENGTH), dice.below(1 << 16), 8);
    let locked = with(Entry::direct(2 * LENGTH, LENGTH).locked_for(HOLDER), 9, 9);
    let standing = [paged[0], paged[1], child, grandchild, cousin, donor, locked];
    for (number, entry) in standing.iter().enumerate() {
        entry.store(&mut world.table, number);
    }
    if dice.once_in(3) {
        (FREE_AT..FREE_AT + 2).for_each(|n| Entry::direct(0, 1).store(&mut world.table, n));
    }
    let next = dice.one_of(&[20, 20, SPENT - 1, SPENT]);
    let last = dice.below(FREE_AT as u64);
    world.state = worlds::handed(player, &world.table, last, next);
    world
}

/// The entry, or with one fault of form.
fn any_form(dice: &mut Dice, entry: Entry) -> Entry {
    match dice.once_in(2) {
        true => ill_formed(dice, entry),
        false => entry,
    }
}

/// A page-in of an entry with each fault of form, which would be granted but for that.
fn forms(player: &mut Player) {
    let any = Fault::Zero(player.dice.below(39));
    for fault in FAULTS.into_iter().chain([any]) {
        let (mut world, mut step) = scene(&mut player.dice, Operation::PageIn, &[]);
        let number = token::Token::unpack(step.request.token).number as usize;
        let entry = with_fault(Entry::of(&world.table, number), fault);
        entry.store(&mut world.table, number);
        if entry.length() == 0 && player.dice.once_in(2) {
            step.buffer.clear();
        }
        player.begin(world);
        player.ask_lent(step);
    }
}

/// A request of an operation through an entry that is paged out: as it would be granted through another,
/// with another tag, and with leases that are closed or bad.
fn through(player: &mut Player, operation: Operation) {
    let token = player.token(PAGED);
    let request = Words {
        operation: operation as u64,
        token,
        second: second(player, operation),
        task: 1,
        length: player.dice.one_of(&[1, LENGTH, LENGTH + 1]),
        permissions: player.dice.below(8),
        encoding: player.dice.below(4),
        ..Words::default()
    };
    let buffer = fitting(player, operation);
    let (step, none) = (Step { request, buffer, leases: Vec::new() }, Vec::new());
    let other = Words { token: token ^ 1 << (46 + player.dice.below(16)), ..request };
    let beyond = Words { token: token + player.dice.one_of(&[1, LENGTH]), ..request };
    let (request, leases) = match player.dice.below(6) {
        0 => (other, none),
        1 => (beyond, none),
        2 => (request, leases::closed(token)),
        3 => (request, leases::bad()),
        _ => (request, none),
    };
    player.ask_lent(Step { request, leases, ..step.clone() });
    player.ask_lent(step);
}

/// The second word with which a request would be granted.
fn second(player: &mut Player, operation: Operation) -> u64 {
    match operation {
        Operation::Merge | Operation::PageIn => player.token(DONOR_AT),
        Operation::PageOut => player.dice.word(),
        _ => 0,
    }
}

/// A buffer with which a request would be granted, or now and then another.
fn fitting(player: &mut Player, operation: Operation) -> Vec<u8> {
    let length = LENGTH as usize;
    match operation {
        Operation::Load if player.dice.once_in(4) => Vec::new(),
        Operation::Load => image::end(),
        Operation::Dump => vec![0xB5; 200],
        Operation::PageOut | Operation::PageIn if player.dice.once_in(4) => vec![0xB5; length - 1],
        Operation::PageOut | Operation::PageIn => vec![0xB5; length],
        _ => vec![0xB5; 1],
    }
}

/// Merges with an entry that is paged out in each place, beside others that are refused.
fn joined(player: &mut Player) {
    let paged = player.token(PAGED);
    let (donor, child) = (player.token(DONOR_AT), player.token(CHILD));
    let (locked, gone) = (player.token(LOCKED), donor ^ 1 << 50);
    let other = player.token(PAGED + 1);
    for [one, two] in [
        [paged, donor],
        [donor, paged],
        [paged, gone],
        [gone, paged],
        [child, paged],
        [locked, paged],
        [paged, locked],
        [paged, other],
        [paged, paged],
    ] {
        player.merge(one, two);
    }
    for [one, two] in
        [[paged, paged], [paged, other], [donor, paged], [paged, child], [paged, gone]]
    {
        player.page_in(one, two, LENGTH as usize);
    }
    let mut held = player.world();
    held.state.next_nonce = 20;
    player.begin(held);
    let words = Words { operation: Operation::PageIn as u64, token: paged, ..Words::default() };
    let buffer = vec![1; LENGTH as usize];
    for task in [HOLDER, HOLDER + 1] {
        player.ask_with(Words { second: locked, task, ..words }, buffer.clone());
    }
}

#[cfg(test)]
mod tests {
    use super::*;
    use bridge::{Check, Place};

    impl Wrong {
        /// The refusal that tells it, and its place.
        fn case(self) -> (Check, Option<Place>) {
            match self {
                Wrong::Request => (Check::Request, None),
                Wrong::Entry | Wrong::DonorEntry => (Check::Entry, None),
                Wrong::Paged => (Check::Paged, None),
                Wrong::IllFormed | Wrong::DonorIllFormed => (Check::IllFormed, Some(Place::Named)),
                Wrong::Dead | Wrong::DonorDead => (Check::Dead, Some(Place::Named)),
                Wrong::IllAncestor | Wrong::DonorIllAncestor => {
                    (Check::IllFormed, Some(Place::Ancestor))
                }
                Wrong::DeadAncestor | Wrong::DonorDeadAncestor => {
                    (Check::Dead, Some(Place::Ancestor))
                }
                Wrong::Lock | Wrong::DonorLock => (Check::Lock, None),
                Wrong::Kind | Wrong::DonorKind => (Check::Kind, None),
                Wrong::Bounds => (Check::Bounds, None),
                Wrong::Standing => (Check::Standing, None),
                Wrong::Numbers => (Check::Numbers, None),
                Wrong::Nonces => (Check::Nonces, None),
            }
        }
    }

    /// All lists of up to three things that are wrong with an operation.
    fn lists(operation: Operation) -> Vec<Vec<Wrong>> {
        let all = of(operation);
        let mut lists = vec![Vec::new()];
        for (at, one) in all.iter().enumerate() {
            lists.push(vec![*one]);
            for (behind, two) in all.iter().enumerate().skip(at + 1) {
                lists.push(vec![*one, *two]);
                lists.extend(all.iter().skip(behind + 1).map(|three| vec![*one, *two, *three]));
            }
        }
        lists.retain(|wrong| possible(wrong));
        lists
    }

    /// A request with several things wrong is refused for the one that is judged first, and nothing
    /// changes; with nothing wrong it is granted.
    #[test]
    fn the_first_wrong_thing_is_told() {
        let mut dice = Dice::new(6, 6);
        for operation in [Operation::PageOut, Operation::PageIn] {
            for wrong in lists(operation) {
                for _ in 0..4 {
                    let (mut world, step) = scene(&mut dice, operation, &wrong);
                    let before = world.clone();
                    let reply = step.serve(&mut world);
                    let case = wrong.first().map(|one| one.case());
                    let place = case.and_then(|(_, place)| place).map_or(0, |place| place as u64);
                    let refusal = case.map_or(0, |(check, _)| check as u64);
                    let told = (reply.refusal, reply.place);
                    assert_eq!(told, (refusal, place), "{operation:?} {wrong:?}");
                    assert!((refusal == 0) != (world == before), "{operation:?} {wrong:?}");
                }
            }
        }
    }
}
