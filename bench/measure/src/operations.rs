//! The operations that are no access, each where it is granted.

use bridge::{Encoding, Lent, Permissions, Request, Task, Token};
use session::World;

use crate::accesses::DEPTHS;
use crate::built::{self, Built, KEY};
use crate::case::Case;
use crate::limit::Limit;

const MEMORY: usize = 65_536;
/// The length of a part that is created, and of a segment that is revoked.
const PART: u64 = 4_096;
const TASK: Task = Task(7);

/// Those that name a direct entry, or none.
pub fn of_segments() -> Vec<Case> {
    vec![reset(64), create(PART), create(MEMORY as u64), merge(), revoke(PART as usize)]
}

/// Those that name any entry, through lines of several depths.
pub fn of_lines() -> Vec<Case> {
    let makers = [derive, execute_only, clone, drop, climb, lock, unlock];
    makers.iter().flat_map(|make| DEPTHS.map(make)).collect()
}

pub fn reset(entries: usize) -> Case {
    let world = Built::new(entries, MEMORY).world;
    let request = Request::Reset { key: KEY, first_nonce: 1 };
    let of = format!("{entries} entries");
    case("reset", of, entries, world, request, Limit::ClearTable)
}

fn create(length: u64) -> Case {
    let built = Built::new(4, MEMORY);
    let whole = length == MEMORY as u64;
    let (of, issues) = if whole { ("the whole", 1) } else { ("a part", 2) };
    case("create", of.into(), 0, built.world, a_create(length), Limit::Issue(issues))
}

fn a_create(length: u64) -> Request {
    built::create(Token::ROOT, length, Permissions::ALL)
}

fn a_derive(token: Token) -> Request {
    built::derive(token, 16, Permissions::ALL)
}

fn merge() -> Case {
    let mut built = Built::new(4, MEMORY);
    let reply = built.world.serve(&a_create(PART).words(), Lent::of(&mut []));
    let (first, second) = (Token(reply.first), Token(reply.second));
    let request = Request::Merge { first, second, task: Task::NONE, encoding: Encoding::E0 };
    case("merge", "two parts".into(), 0, built.world, request, Limit::Issue(1))
}

/// A revoke of a segment of so many bytes, the whole of memory.
pub fn revoke(bytes: usize) -> Case {
    let world = Built::new(4, bytes).world;
    let request = Request::Revoke { token: Token::ROOT, encoding: Encoding::E0 };
    case("revoke", format!("{bytes} bytes"), bytes, world, request, Limit::Renew(0..bytes))
}

fn derive(depth: usize) -> Case {
    let (built, token) = line(depth);
    case("derive", at(depth), depth, built.world, a_derive(token), Limit::Issue(1))
}

fn execute_only(depth: usize) -> Case {
    let (built, token) = line(depth);
    let request = Request::ExecuteOnly { token, encoding: Encoding::E0 };
    case("execute-only", at(depth), depth, built.world, request, Limit::Issue(1))
}

/// A clone of the entry at the lower end of a line.
pub fn clone(depth: usize) -> Case {
    let (built, token) = line(depth);
    case("clone", at(depth), depth, built.world, Request::Clone { token }, Limit::Call)
}

/// A drop that climbs one link at most: the parent has other holders.
fn drop(depth: usize) -> Case {
    let (mut built, token) = line(depth);
    if depth == 0 {
        built.ask(&Request::Clone { token });
    }
    case("drop", at(depth), depth, built.world, Request::Drop { token }, Limit::Call)
}

/// A drop that climbs to the root: no entry between has another holder.
pub fn climb(depth: usize) -> Case {
    let mut built = Built::new(depth + 3, MEMORY);
    let token = match depth {
        0 => built.ask(&Request::Clone { token: Token::ROOT }),
        _ => built.bare_line(depth),
    };
    case("drop, to the root", at(depth), depth, built.world, Request::Drop { token }, Limit::Call)
}

fn lock(depth: usize) -> Case {
    let (built, token) = line(depth);
    case("lock", at(depth), depth, built.world, Request::Lock { token, task: TASK }, Limit::Call)
}

fn unlock(depth: usize) -> Case {
    let (mut built, token) = line(depth);
    built.ask(&Request::Lock { token, task: TASK });
    case(
        "unlock",
        at(depth),
        depth,
        built.world,
        Request::Unlock { token, task: TASK },
        Limit::Call,
    )
}

/// A derive that finds its number as the last of the table.
pub fn search(entries: usize) -> Case {
    let world = Built::full_but_one(entries, MEMORY).world;
    let of = format!("{entries} entries");
    case("derive", of, entries, world, a_derive(Token::ROOT), Limit::Issue(1))
}

/// A line of the depth with room for two entries more, and the token of its lower end.
fn line(depth: usize) -> (Built, Token) {
    let mut built = Built::new(depth + 3, MEMORY);
    let token = built.line(depth)[depth];
    (built, token)
}

fn at(depth: usize) -> String {
    format!("depth {depth}")
}

fn case(
    name: &'static str,
    of: String,
    size: usize,
    world: World,
    request: Request,
    limit: Limit,
) -> Case {
    let (request, buffer) = (request.words(), Vec::new());
    Case { name, of, size, world, request, buffer, leases: None, limit }
}
