//! The recorded sessions of crates/recorded/specs/Recordings.antt are this model's: each request is
//! served again, and answers, states, tables, buffers and memory are held to what stands there.

mod definitions;

use definitions::{read, Term};
use model::operation::*;
use model::{serve, Answer, Request, State};
use std::collections::BTreeMap;

type Definitions = BTreeMap<String, Term>;

fn recordings() -> Definitions {
    let specs = concat!(env!("CARGO_MANIFEST_DIR"), "/../../crates/recorded/specs");
    read(&std::fs::read_to_string(format!("{specs}/Recordings.antt")).expect("the recordings"))
}

fn bytes(term: &Term) -> Vec<u8> {
    match term.call() {
        ("zeros", [many]) => vec![0; many.number() as usize],
        _ => term.list().iter().map(|byte| byte.number() as u8).collect(),
    }
}

/// The table of these entries, each a number of 32 bytes, the top byte first.
fn table(term: &Term, definitions: &Definitions) -> Vec<u8> {
    let entries = named(term, definitions).list();
    entries.iter().flat_map(|entry| entry.wide()).collect()
}

fn state(term: &Term) -> State {
    let ("known", [key0, key1, last, next, total]) = term.call() else {
        panic!("no state: {term:?}")
    };
    let [key0, key1, last, next, total] = [key0, key1, last, next, total].map(Term::number);
    State { key0, key1, last, next, total }
}

/// What a word names, or the term itself.
fn named<'a>(term: &'a Term, definitions: &'a Definitions) -> &'a Term {
    definitions.get(term.word()).unwrap_or(term)
}

/// A request with the buffer and the leases that it brings.
fn call(term: &Term, definitions: &Definitions) -> (Request, Vec<u8>, Vec<u8>) {
    let (buffer, asked) = match term.call() {
        ("plain", [asked]) => (Vec::new(), asked),
        ("over", [buffer, asked]) => (bytes(named(buffer, definitions)), asked),
        _ => panic!("no call: {term:?}"),
    };
    let (minute, leases) = shift(asked, definitions);
    (request(asked, minute), buffer, leases)
}

/// The minute and the leases of an access, which stand last; 0 and none for another request.
fn shift(term: &Term, definitions: &Definitions) -> (u64, Vec<u8>) {
    let (name, words) = term.call();
    if !["access", "load", "dump"].contains(&name) {
        return (0, Vec::new());
    }
    let last = words.last().expect("an access has words");
    match last.call() {
        ("no_shift", []) => (0, Vec::new()),
        ("during", [minute, leases]) => (minute.number(), bytes(named(leases, definitions))),
        _ => panic!("no shift: {term:?}"),
    }
}

fn request(term: &Term, minute: u64) -> Request {
    let (name, words) = term.call();
    let way = match (name, words) {
        ("access", [way, ..]) => way.word(),
        _ => "",
    };
    let accesses = ["access", "load", "dump"].contains(&name);
    let numbers = usize::from(name == "access")..words.len() - usize::from(accesses);
    let n: Vec<u64> = words[numbers].iter().map(Term::number).collect();
    let empty = Request { token: n[0], ..Request::default() };
    match name {
        "reset" => Request { operation: RESET, second: n[1], task: n[2], ..empty },
        "access" => Request { operation: way_of(way), second: minute, task: n[1], ..empty },
        "create" => Request {
            operation: CREATE,
            task: n[1],
            length: n[2],
            user: n[3],
            permissions: n[4],
            encoding: n[5],
            ..empty
        },
        "merge" => Request { operation: MERGE, second: n[1], task: n[2], encoding: n[3], ..empty },
        "derive" => Request {
            operation: DERIVE,
            second: n[1],
            length: n[2],
            permissions: n[3],
            encoding: n[4],
            ..empty
        },
        "execute_only" => Request { operation: EXECUTE_ONLY, encoding: n[1], ..empty },
        "clone" => Request { operation: CLONE, ..empty },
        "release" => Request { operation: DROP, ..empty },
        "lock" => Request { operation: LOCK, task: n[1], ..empty },
        "unlock" => Request { operation: UNLOCK, task: n[1], ..empty },
        "revoke" => Request { operation: REVOKE, encoding: n[1], ..empty },
        "load" => Request { operation: LOAD, second: minute, task: n[1], ..empty },
        "dump" => Request { operation: DUMP, second: minute, task: n[1], ..empty },
        "page_out" => {
            Request { operation: PAGE_OUT, task: n[1], second: n[2], encoding: n[3], ..empty }
        }
        "page_in" => {
            Request { operation: PAGE_IN, second: n[1], task: n[2], encoding: n[3], ..empty }
        }
        _ => panic!("no request: {term:?}"),
    }
}

fn way_of(word: &str) -> u64 {
    match word {
        "reading" => READ,
        "writing" => WRITE,
        "fetching" => FETCH,
        _ => panic!("no way of access: {word}"),
    }
}

/// What a row says of a request: the answer, the counters that it leaves, and the effect.
struct Told<'a> {
    call: &'a Term,
    answer: Answer,
    /// The last number, the next nonce and the total.
    counters: [u64; 3],
    effect: (&'a str, &'a [Term]),
}

fn counters(words: [&Term; 3]) -> [u64; 3] {
    words.map(Term::number)
}

fn told(row: &Term) -> Told<'_> {
    let mut answer = Answer::default();
    match row.call() {
        ("grants", [call, tokens, dropped, last, next, total, effect]) => {
            let tokens = tokens.list();
            answer.first = tokens.first().map_or(0, Term::number);
            answer.second = tokens.get(1).map_or(0, Term::number);
            answer.dropped = dropped.number();
            Told { call, answer, counters: counters([last, next, total]), effect: effect.call() }
        }
        ("dumps", [call, length, last, next, total, effect]) => {
            answer.length = length.number();
            Told { call, answer, counters: counters([last, next, total]), effect: effect.call() }
        }
        ("refuses", [call, refusal, place, last, next, total]) => {
            (answer.refusal, answer.place) = (refusal.number(), place.number());
            Told { call, answer, counters: counters([last, next, total]), effect: ("nothing", &[]) }
        }
        _ => panic!("no row: {row:?}"),
    }
}

/// Memory and buffer as an effect leaves them.
fn carried(effect: (&str, &[Term]), memory: &mut [u8], buffer: &mut [u8]) {
    match effect {
        ("nothing", []) => {}
        ("fetch", [start, length]) => {
            let start = start.number() as usize;
            buffer.copy_from_slice(&memory[start..start + length.number() as usize]);
        }
        ("store", [start, stored]) => {
            let (start, stored) = (start.number() as usize, bytes(stored));
            memory[start..start + stored.len()].copy_from_slice(&stored);
        }
        ("takes", [start, length]) => {
            let start = start.number() as usize;
            let taken = &mut memory[start..start + length.number() as usize];
            buffer.copy_from_slice(taken);
            taken.fill(0);
        }
        ("text", [start, length]) => {
            let start = start.number() as usize;
            let text = text(&memory[start..start + length.number() as usize]);
            buffer[..text.len()].copy_from_slice(&text);
        }
        _ => panic!("no effect: {effect:?}"),
    }
}

/// The text of a few bytes, of which each record has at most 16.
fn text(bytes: &[u8]) -> Vec<u8> {
    let mut text = b":020000040000FA\n".to_vec();
    for (at, part) in (0..).step_by(16).zip(bytes.chunks(16)) {
        let fields = [&[part.len() as u8, 0, at, 0][..], part].concat();
        let sum = fields.iter().fold(0, |sum: u8, byte| sum.wrapping_sub(*byte));
        let digits: Vec<String> =
            fields.iter().chain([&sum]).map(|byte| format!("{byte:02X}")).collect();
        text.extend(format!(":{}\n", digits.concat()).bytes());
    }
    text.extend(b":00000001FF\n");
    text
}

/// Serves a session and counts its rows. Each row finds bytes in memory that differ from each other.
fn replay(session: &Term, definitions: &Definitions) -> usize {
    let long = session.field("memory").number() as u8;
    let (mut at, mut entries) =
        (state(session.field("state")), table(session.field("table"), definitions));
    let rows = session.field("rows").list();
    for row in rows {
        let expected = told(row);
        let (asked, mut buffer, leases) = call(expected.call, definitions);
        let mut memory: Vec<u8> = (1..=long).collect();
        let (mut left, mut back) = (memory.clone(), buffer.clone());
        carried(expected.effect, &mut left, &mut back);
        let answer = serve(asked, &mut at, &mut entries, &mut memory, &mut buffer, &leases);
        let said = (answer, [at.last, at.next, at.total], &memory, &buffer);
        assert_eq!(said, (expected.answer, expected.counters, &left, &back), "{row:?}");
    }
    assert_eq!(entries, table(session.field("left"), definitions));
    rows.len()
}

#[test]
fn sessions_are_served_as_recorded() {
    let definitions = recordings();
    let lists =
        ["sessions", "sessions_above", "sessions_kept"].map(|name| definitions[name].list());
    let sessions: Vec<&Term> = lists.into_iter().flatten().collect();
    let rows: usize =
        sessions.iter().map(|name| replay(&definitions[name.word()], &definitions)).sum();
    assert_eq!((sessions.len(), rows), (12, 365));
}

#[test]
fn limits_are_those_recorded() {
    let definitions = recordings();
    let lists = ["limits", "limits_above"].map(|name| definitions[name].list());
    let rows: Vec<&Term> = lists.into_iter().flatten().collect();
    for row in &rows {
        let ("limit", [memory, entries, last, next, total, asked, refusal]) = row.call() else {
            panic!("no limit: {row:?}")
        };
        let [last, next, total] = counters([last, next, total]);
        let mut at = State { last, next, total, ..State::default() };
        let (mut memory, mut entries) =
            (vec![0; memory.number() as usize], vec![0; entries.number() as usize]);
        let (asked, mut buffer, leases) = call(asked, &definitions);
        let answer = serve(asked, &mut at, &mut entries, &mut memory, &mut buffer, &leases);
        assert_eq!(answer.refusal, refusal.number(), "{row:?}");
    }
    assert_eq!(rows.len(), 48);
}

#[test]
fn bytes_move_as_recorded() {
    let definitions = recordings();
    let rows = definitions["bytes_moved"].list();
    for row in rows {
        let ("moves", [from, entries, memory, calls, buffers, left]) = row.call() else {
            panic!("no moves: {row:?}")
        };
        let (mut at, mut entries) = (state(from), table(entries, &definitions));
        let (mut memory, mut back) = (bytes(memory), Vec::new());
        for (asked, mut buffer, leases) in calls.list().iter().map(|term| call(term, &definitions))
        {
            serve(asked, &mut at, &mut entries, &mut memory, &mut buffer, &leases);
            back.extend(buffer);
        }
        assert_eq!((back, memory), (bytes(buffers), bytes(left)), "{row:?}");
    }
    assert_eq!(rows.len(), 3);
}
