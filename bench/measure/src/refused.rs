//! Refused requests to a locked segment, for counting instructions on two copies that differ only in
//! the segment's bytes. What the tables stand at and what is asked are tried one with the other, and
//! what the model refuses is kept.

use bridge::{Encoding, Lease, Lent, Operation, PageIn, PageOut};
use bridge::{Permissions, Request, Task, Token, Words};
use bridge::{ANSWER_BYTES, LEASES_BYTES, LEASE_BYTES, TEXT_BYTES, WEEK};
use session::entry::{self, Entry};
use session::server::{Model, Server};
use session::World;

use crate::built::{self, Built};
use crate::served::{self, Leased, Plain};

const MEMORY: usize = 16_384;
/// The locked segment has number 1 and lies at memory's start; its child has 2, and the child's 3.
const SEGMENT: usize = 1;
const CHILD: usize = 2;
const LENGTH: usize = 4_096;
const HOLDER: Task = Task(7);
const OTHER: Task = Task(8);
const TOO_LARGE: Task = Task(1 << 55);

/// A request that is refused, with what it is asked of.
#[derive(Clone, Debug)]
pub struct Refused {
    /// What the table or the state stands at.
    pub standing: &'static str,
    pub request: Words,
    pub buffer: Vec<u8>,
    /// The leases that are lent; none where the function without them is called.
    pub leases: Option<Vec<u8>>,
    pub refusal: u64,
    world: World,
}

/// A world with its locked segment, and the tokens to ask with.
struct Locked {
    world: World,
    /// The tokens of the segment, of its child and of the child's.
    line: Vec<Token>,
    /// Tokens that name nothing.
    strange: Vec<Token>,
    /// The token of the segment behind, which is not locked.
    rest: Token,
}

/// All refused requests: of the segment as it was locked, with any token and task, and under leases
/// with the tokens of its line; and of other standings, with these tokens, for the holder and another
/// task.
pub fn refused() -> Vec<Refused> {
    let Locked { world, line, strange, rest } = locked();
    let any = [line.as_slice(), &strange].concat();
    let tasks = [Task::NONE, HOLDER, OTHER, TOO_LARGE];
    let mut all = refused_in("as locked", &world, &asked(&any, &tasks, rest));
    let pairs = line.iter().flat_map(|token| tasks.map(|task| (*token, task)));
    let under: Vec<Asked> = pairs.flat_map(|(token, task)| leased(token, task)).collect();
    all.extend(refused_in("under leases", &world, &under));
    let asked = asked(&line, &[HOLDER, OTHER], rest);
    let others = standings(&world);
    all.extend(others.iter().flat_map(|(name, world)| refused_in(name, world, &asked)));
    all
}

impl Refused {
    /// Asks the proved code through one of two calls, that without leases or that with them, on the copy
    /// whose locked segment holds the bytes that the function gives. It returns the refusal.
    pub fn ask(&self, plain: Plain, leased: Leased, byte: impl Fn(usize) -> u8) -> u64 {
        let mut world = self.world.clone();
        for (at, place) in world.memory[..LENGTH].iter_mut().enumerate() {
            *place = byte(at);
        }
        let request = served::request_bytes(&self.request);
        let (mut state, mut answer) = (served::state_bytes(&world.state), [0; ANSWER_BYTES]);
        let mut buffer = self.buffer.clone();
        let World { table, memory, .. } = &mut world;
        let (state, buffer, answer) = (&mut state, &mut buffer, &mut answer);
        match &self.leases {
            None => plain(&request, state, table, memory, buffer, answer),
            Some(leases) => leased(&request, state, table, memory, buffer, answer, leases),
        }
    }

    pub fn operation(&self) -> &'static str {
        Operation::of(self.request.operation).map_or("unknown", Operation::name)
    }
}

fn locked() -> Locked {
    let mut built = Built::new(8, MEMORY);
    let create = built::create(Token::ROOT, LENGTH as u64, Permissions::ALL);
    let reply = built.world.serve(&create.words(), Lent::of(&mut []));
    let (segment, rest) = (Token(reply.first), Token(reply.second));
    let child = built.ask(&built::derive(segment, 2_048, Permissions::R));
    let grandchild = built.ask(&built::derive(child, 1_024, Permissions::R));
    built.ask(&Request::Lock { token: segment, task: HOLDER });
    let another_tag = Token(segment.0 ^ 1 << 46);
    let free_number = Token(7 << 32);
    let beyond_the_table = Token(100 << 32);
    let strange = vec![another_tag, free_number, beyond_the_table];
    Locked { world: built.world, line: vec![segment, child, grandchild], strange, rest }
}

/// Other tables and states that the requests are asked of.
fn standings(world: &World) -> Vec<(&'static str, World)> {
    let changed = |change: &dyn Fn(&mut World)| {
        let mut world = world.clone();
        change(&mut world);
        world
    };
    let entry = |number: usize, change: fn(Entry) -> Entry| {
        changed(&move |world: &mut World| put(world, number, change))
    };
    vec![
        ("no free number", changed(&|world| (4..8).for_each(|number| put(world, number, fill)))),
        ("no nonce", changed(&|world| world.state.next_nonce = 1 << 32)),
        ("a broken state", changed(&|world| world.state.last_number = 8)),
        ("owner ill-formed", entry(SEGMENT, |owner| owner.with(entry::COPY_ON_WRITE, 1))),
        ("child ill-formed", entry(CHILD, |child| child.with(entry::COPY_ON_WRITE, 1))),
        ("owner not lockable", entry(SEGMENT, |owner| owner.with(entry::LOCKABLE, 0))),
        ("child's link missing", entry(CHILD, |child| child.with(entry::NONCE, 0))),
        ("owner's count full", entry(SEGMENT, |owner| owner.with_count(0xffff))),
        ("owner's count 0", entry(SEGMENT, |owner| owner.with_count(0))),
        ("child's count full", entry(CHILD, |child| child.with_count(0xffff))),
        ("a paged entry", changed(&|world| put(world, FREE, page))),
    ]
}

/// A number that is free as the segment was locked, and the token of what may stand there.
const FREE: usize = 7;
const PAGED: Token = Token(7 << 32);

/// The entry becomes one that is paged out, as long as the segment.
fn page(_: Entry) -> Entry {
    Entry::paged(1, LENGTH as u64)
}

fn put(world: &mut World, number: usize, change: fn(Entry) -> Entry) {
    change(Entry::of(&world.table, number)).store(&mut world.table, number);
}

/// The entry becomes one in use, though ill-formed.
fn fill(entry: Entry) -> Entry {
    entry.with(entry::KIND, 7)
}

/// A request, what stands in its buffer, and its leases.
type Asked = (Words, Vec<u8>, Option<Vec<u8>>);

/// What is asked, with all that is lent.
fn asked(tokens: &[Token], tasks: &[Task], rest: Token) -> Vec<Asked> {
    let pairs = tokens.iter().flat_map(|token| tasks.iter().map(|task| (*token, *task)));
    let mut asked: Vec<Asked> =
        pairs.flat_map(|(token, task)| asked_through(token, task, rest)).collect();
    asked.sort_by_key(|(request, buffer, _)| (request.in_order(), buffer.len(), buffer.clone()));
    asked.dedup();
    asked
}

fn asked_through(token: Token, task: Task, rest: Token) -> Vec<Asked> {
    let mut asked =
        [accesses(token, task), images(token, task), paging(token, task, rest)].concat();
    let others = [changes(token, task, rest), strange_changes(token, task)].concat();
    asked.extend(others.into_iter().map(|words| (words, Vec::new(), None)));
    asked
}

fn accesses(token: Token, task: Task) -> Vec<Asked> {
    let access =
        |way, address, length| (Words::access(way, address, task), vec![0xa5; length], None);
    let behind = Token(token.0 + LENGTH as u64);
    vec![
        access(Operation::Read, token, 64),
        access(Operation::Read, token, 0),
        access(Operation::Read, token, 4_097),
        access(Operation::Read, behind, 1),
        access(Operation::Write, token, 64),
        access(Operation::Fetch, token, 64),
    ]
}

/// Loads of right and wrong text, and dumps to a short and to a long buffer.
fn images(token: Token, task: Task) -> Vec<Asked> {
    let load = |text: &[u8]| (Words::access(Operation::Load, token, task), text.to_vec(), None);
    let dump = |length| (Words::access(Operation::Dump, token, task), vec![0xa5; length], None);
    vec![
        load(b":0100000005FA\n:00000001FF\n"),
        load(b":02FFFE000506F6\n:00000001FF\n"),
        load(b":0100000005FA\n"),
        load(b":0100000005FB\n:00000001FF\n"),
        load(&[b'\n'; TEXT_BYTES + 1]),
        dump(64),
        dump(12_000),
    ]
}

/// A segment paged out, to a buffer as long and to another; and in, with it as the paged entry and as the
/// donor.
fn paging(token: Token, task: Task, rest: Token) -> Vec<Asked> {
    let encoding = Encoding::E0;
    let out = |token| PageOut { token, page_file: 1, task, encoding }.words();
    let back = |paged, donor| PageIn { paged, donor, task, encoding }.words();
    let lent = |words, length| (words, vec![0xa5; length], None);
    vec![
        lent(out(token), LENGTH),
        lent(out(token), LENGTH - 1),
        lent(out(Token(token.0 + 1)), LENGTH),
        lent(back(token, rest), LENGTH),
        lent(back(rest, token), LENGTH),
        lent(back(PAGED, token), LENGTH),
        lent(back(PAGED, token), 1),
        lent(out(PAGED), LENGTH),
    ]
}

/// Requests of all five kinds under leases: open, closed, bad, of others, and of wrong sizes; and one
/// beyond the week.
fn leased(token: Token, task: Task) -> Vec<Asked> {
    let lease = |opening, closing| {
        Lease::of(token, opening, closing).expect("a number of the table").to_bytes().to_vec()
    };
    let others = Lease::of(Token::ROOT, 1, 2).expect("number 0").to_bytes();
    let most = LEASES_BYTES / LEASE_BYTES;
    let tables = [
        Vec::new(),
        lease(0, 1),
        lease(1, 2),
        lease(1, 1),
        others.repeat(most),
        others.repeat(most + 1),
        vec![0; LEASE_BYTES - 1],
    ];
    let end = b":00000001FF\n".to_vec();
    let kinds = [
        (Operation::Read, vec![0xa5; 64]),
        (Operation::Write, vec![0xa5; 64]),
        (Operation::Fetch, vec![0xa5; 64]),
        (Operation::Load, end),
        (Operation::Dump, vec![0xa5; 12_000]),
    ];
    let mut asked = Vec::new();
    for (way, buffer) in kinds {
        let words = Words::access(way, token, task);
        asked.extend(tables.iter().map(|leases| (words, buffer.clone(), Some(leases.clone()))));
        asked.push((Words { second: WEEK, ..words }, buffer, Some(lease(0, 1))));
    }
    asked
}

fn changes(token: Token, task: Task, rest: Token) -> Vec<Words> {
    let encoding = Encoding::E0;
    let requests = [
        Request::Merge { first: token, second: rest, task, encoding },
        Request::Merge { first: rest, second: token, task, encoding },
        built::derive(token, 16, Permissions::R),
        built::derive(token, 16, Permissions::ALL),
        Request::ExecuteOnly { token, encoding },
        Request::Clone { token },
        Request::Clone { token: Token(token.0 + 1) },
        Request::Drop { token },
        Request::Lock { token, task },
        Request::Unlock { token, task },
        Request::Revoke { token, encoding },
    ];
    requests.map(|request| request.words()).into()
}

/// Creates, and words that no typed request has.
fn strange_changes(token: Token, task: Task) -> Vec<Words> {
    let create = built::create(token, 16, Permissions::R).words();
    let create = Words { task: task.0, ..create };
    let derive = built::derive(token, 16, Permissions::R).words();
    let revoke = Request::Revoke { token, encoding: Encoding::E0 }.words();
    vec![
        create,
        Words { permissions: 8, ..create },
        Words { encoding: 4, ..create },
        Words { length: 0, ..create },
        Words { length: 1 << 40, ..create },
        Words { second: u64::MAX, ..derive },
        Words { encoding: 4, ..revoke },
        Words { operation: 99, token: token.0, ..Words::default() },
    ]
}

/// Those of the requests that are refused there.
fn refused_in(standing: &'static str, world: &World, asked: &[Asked]) -> Vec<Refused> {
    let kept = |asked: &Asked| {
        let refusal = refusal_of_model(world, asked);
        let ((request, buffer, leases), world) = (asked.clone(), world.clone());
        (refusal != 0).then_some(Refused { standing, request, buffer, leases, refusal, world })
    };
    asked.iter().filter_map(kept).collect()
}

fn refusal_of_model(world: &World, (request, buffer, leases): &Asked) -> u64 {
    let (mut buffer, leases) = (buffer.clone(), leases.as_deref().unwrap_or(&[]));
    let lent = Lent { buffer: &mut buffer, leases };
    let reply = Model.serve(request, &mut world.clone(), lent);
    reply.expect("the model always answers").refusal
}

#[cfg(test)]
mod tests {
    use super::*;
    use bridge::Check;

    #[test]
    fn each_refusal_and_each_operation_but_reset_is_met() {
        let refused = refused();
        for check in Check::all() {
            assert!(refused.iter().any(|one| one.refusal == check as u64), "{check:?}");
        }
        for operation in Operation::ALL.into_iter().filter(|one| *one != Operation::Reset) {
            let number = operation as u64;
            assert!(refused.iter().any(|one| one.request.operation == number), "{operation:?}");
        }
    }

    #[test]
    fn the_proved_code_refuses_the_same_on_both_copies() {
        for one in refused() {
            for copy in [|_| 0, |at| at as u8] {
                let refusal = one.ask(served::proved, served::proved_leased, copy);
                assert_eq!(refusal, one.refusal, "{one:?}");
            }
        }
    }
}
