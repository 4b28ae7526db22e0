//! The kinds of sessions, each with what it reaches that plain random requests do not.

mod beyond;
mod bits;
mod counts;
mod deep;
mod encodings;
mod found;
mod images;
mod large;
mod lines;
mod lockable;
mod locks;
mod merges;
mod nonces;
mod operations;
mod paging;
mod passed;
mod plain;
mod rest;
mod revived;
mod revokes;
mod round;
mod rubbish;
mod shifts;
mod sizes;
mod sums;
mod tables;
mod tasks;
mod totals;
mod whole;

use crate::dice::Dice;
use crate::player::Player;

/// A kind of session.
pub struct Kind {
    pub name: &'static str,
    /// What it reaches.
    pub about: &'static str,
    /// How often it is played, against the others.
    weight: u64,
    pub play: fn(&mut Player),
}

const fn kind(name: &'static str, weight: u64, play: fn(&mut Player), about: &'static str) -> Kind {
    Kind { name, about, weight, play }
}

pub const ALL: &[Kind] = &[
    kind("plain", 600, plain::play, "random requests from a reset on, over small worlds"),
    kind("crowded", 150, plain::crowded, "tables of 2 to 5 entries, so that numbers run out"),
    kind("locks", 120, locks::play, "locks, and every request under them, by holder and others"),
    kind("merges", 120, merges::play, "parts joined in right and wrong order, also with itself"),
    kind("round", 80, round::play, "numbers going round over free entries that hold rubbish"),
    kind("tables", 150, tables::play, "handed-over tables: ill-formed, dead, overlapping"),
    kind("beyond", 100, beyond::play, "handed-over children with rights and bytes of no ancestor"),
    kind("lockable", 60, lockable::play, "neighbours cut, joined and locked, Lockable or not"),
    kind("lines", 100, lines::play, "lines with one bad link or entry at any height, and climbs"),
    kind("climbs", 100, lines::climbs, "drops that climb, with counts of 0, 1 and 2 on their way"),
    kind("counts", 100, counts::play, "counts at 0, 1, 2, 65,534 and 65,535"),
    kind("nonces", 60, nonces::play, "the last nonces, and those outside the limits"),
    kind("passed", 3, passed::play, "issues that pass over one nonce or two, also the last ones"),
    kind("revived", 3, revived::play, "a freed number with an older tag again, under a live child"),
    kind("rest", 3, rest::play, "a root's rest with tag 0 again, so that token 0 works again"),
    kind("tasks", 30, tasks::play, "tasks around 2^55, as holder and as asker"),
    kind("totals", 120, totals::play, "free totals at their ends, wrong ones, and those above"),
    kind(
        "shifts",
        120,
        shifts::play,
        "leases at their ends, others' and bad ones, and each refusal",
    ),
    kind("paging", 120, paging::play, "segments paged out and in, each check with each later one"),
    kind(
        "paged",
        60,
        paging::entries,
        "paged entries in each operation, as parents, and ill-formed",
    ),
    kind("whole", 60, whole::play, "create of a whole segment, of the root's, and what is after"),
    kind("sums", 60, sums::play, "lengths and offsets whose sums lie at or beyond a limit"),
    kind("encodings", 60, encodings::play, "each token in all encodings, one bit off, with offset"),
    kind("operations", 10, operations::play, "operations above 16"),
    kind("images", 80, images::play, "loads of right and wrong HEX text, and dumps"),
    kind(
        "limits",
        3,
        images::limits,
        "accesses, loads and dumps of the most bytes and more; pages",
    ),
    kind("revokes", 60, revokes::play, "segments full of bytes, revoked beside their neighbours"),
    kind("rubbish", 80, rubbish::play, "tables, states and requests of random bytes"),
    kind("bits", 12, bits::play, "each bit of an entry flipped, one at a time, in a live table"),
    kind("sizes", 20, sizes::play, "sizes one inside and one outside each limit"),
    kind("deep", 12, deep::play, "handed-over lines as deep as the table, up to 1,023 links"),
    kind("derived", 1, deep::derived, "a line derived link by link over the whole table"),
    kind("large", 1, large::play, "16 MiB of memory, 1,024 entries, and memories one byte off"),
];

/// How many kinds at the end of the list are large.
const LARGE: usize = 2;

/// How often each of the other kinds is played at the start of a run.
const ROUNDS: usize = 3;

/// The kind of a session: each kind in turn at the start, the large ones last, then by weight.
pub fn choose(session: u64, dice: &mut Dice) -> &'static Kind {
    let (small, large) = ALL.split_at(ALL.len() - LARGE);
    let session = usize::try_from(session).unwrap_or(usize::MAX);
    let turns = ROUNDS * small.len();
    if session < turns {
        return &small[session % small.len()];
    }
    large.get(session - turns).unwrap_or_else(|| by_weight(dice))
}

fn by_weight(dice: &mut Dice) -> &'static Kind {
    let mut at = dice.below(ALL.iter().map(|kind| kind.weight).sum());
    for kind in ALL {
        if at < kind.weight {
            return kind;
        }
        at -= kind.weight;
    }
    &ALL[0]
}
