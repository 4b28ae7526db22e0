//! 02, paper 5: the last token must not return.
//!
//! A tag has 16 bits, so a nonce comes to a wanted one about once in 65,536
//! times. The keys below are the first that do: the first key word counted up
//! from 0, the second 0. `the_keys_are_the_first_that_do` finds them again.

mod common;
use common::{freed, record, tag_under, Dice, Rig, SPENT};
use model::operation::*;
use model::{Answer, Request};

fn granted(answer: Answer) -> Answer {
    assert_eq!(answer.refusal, 0);
    answer
}

/// A machine over 64 bytes after a reset with this key.
fn after_reset(entries: usize, key: u64, first: u64) -> Rig {
    let mut rig = Rig::bare(64, entries);
    granted(rig.reset(key, 0, first));
    rig
}

fn create(token: u64, length: u64) -> Request {
    Request { operation: CREATE, token, length, permissions: 7, ..Request::default() }
}

fn derive(token: u64) -> Request {
    Request { operation: DERIVE, token, length: 8, permissions: 7, ..Request::default() }
}

fn simple(operation: u64, token: u64) -> Request {
    Request { operation, token, ..Request::default() }
}

/// A list of requests that ends with an issue in which one nonce is to be
/// passed over.
struct Session {
    name: &'static str,
    entries: usize,
    /// Serves all requests but the last, and hands back that one with the number
    /// whose last token would return.
    lead: fn(&mut Rig) -> (Request, usize),
    /// The nonces that the lead uses, and that the last request needs.
    used: u64,
    needs: u64,
    /// The nonces that the last request uses before the one to be passed over.
    earlier: u64,
    /// The keys for a first nonce of 1, for one that leaves just enough nonces
    /// at the end, and for one that leaves one too few.
    keys: [u64; 3],
}

/// Derives number 1 from the root and drops it.
fn derived_and_dropped(rig: &mut Rig) {
    let child = rig.ask(derive(0)).first;
    rig.simple(DROP, child);
}

const SESSIONS: [Session; 13] = [
    Session {
        name: "derive, after a drop",
        entries: 2,
        lead: |rig| {
            derived_and_dropped(rig);
            (derive(0), 1)
        },
        used: 1,
        needs: 1,
        earlier: 0,
        keys: [12_882, 76_280, 11_440],
    },
    Session {
        name: "execute-only, after a drop",
        entries: 2,
        lead: |rig| {
            derived_and_dropped(rig);
            (simple(EXECUTE_ONLY, 0), 1)
        },
        used: 1,
        needs: 1,
        earlier: 0,
        keys: [23_777, 2_212, 51_030],
    },
    Session {
        name: "create's part, after a drop",
        entries: 2,
        lead: |rig| {
            derived_and_dropped(rig);
            (create(0, 16), 1)
        },
        used: 1,
        needs: 2,
        earlier: 0,
        keys: [117_146, 10_090, 34_141],
    },
    Session {
        name: "create of the whole, after a drop",
        entries: 2,
        lead: |rig| {
            derived_and_dropped(rig);
            (create(0, 64), 1)
        },
        used: 1,
        needs: 1,
        earlier: 0,
        keys: [186_299, 169_160, 42_701],
    },
    Session {
        name: "create's rest, after a create",
        entries: 3,
        lead: |rig| {
            let rest = rig.ask(create(0, 16)).second;
            (create(rest, 16), 0)
        },
        used: 2,
        needs: 2,
        earlier: 1,
        keys: [57_767, 164_713, 360_412],
    },
    Session {
        name: "merge, after a create",
        entries: 2,
        lead: |rig| {
            let cut = rig.ask(create(0, 16));
            (Request { second: cut.second, ..simple(MERGE, cut.first) }, 1)
        },
        used: 2,
        needs: 1,
        earlier: 0,
        keys: [40_932, 26_751, 17_745],
    },
    Session {
        name: "revoke, after a create",
        entries: 2,
        lead: |rig| {
            let part = rig.ask(create(0, 16)).first;
            (simple(REVOKE, part), 1)
        },
        used: 2,
        needs: 1,
        earlier: 0,
        keys: [101_573, 18_567, 134_161],
    },
    Session {
        name: "derive, after a climb",
        entries: 3,
        lead: |rig| {
            let upper = rig.ask(derive(0)).first;
            let lower = rig.ask(derive(upper)).first;
            rig.simple(DROP, upper);
            rig.simple(DROP, lower);
            (derive(0), 1)
        },
        used: 2,
        needs: 1,
        earlier: 0,
        keys: [126_301, 73_060, 28_050],
    },
    Session {
        name: "derive, after a merge freed its second",
        entries: 3,
        lead: |rig| {
            let one = rig.ask(create(0, 16));
            let two = rig.ask(create(one.second, 16));
            let both = rig.merge(one.first, two.first).first;
            (derive(both), 2)
        },
        used: 5,
        needs: 1,
        earlier: 0,
        keys: [129_345, 77_037, 86_268],
    },
    Session {
        name: "derive, after a create of the whole",
        entries: 3,
        lead: |rig| {
            let one = rig.ask(create(0, 64)).first;
            let two = rig.ask(create(one, 64)).first;
            (derive(two), 1)
        },
        used: 2,
        needs: 1,
        earlier: 0,
        keys: [88_070, 52_765, 77_738],
    },
    Session {
        name: "derive, of a number never used",
        entries: 2,
        lead: |_| (derive(0), 1),
        used: 0,
        needs: 1,
        earlier: 0,
        keys: [36_882, 28_684, 34_071],
    },
    Session {
        name: "create's part, of a number never used",
        entries: 2,
        lead: |_| (create(0, 16), 1),
        used: 0,
        needs: 2,
        earlier: 0,
        keys: [54_272, 2_525, 119_828],
    },
    Session {
        name: "create's rest, of the root",
        entries: 2,
        lead: |_| (create(0, 16), 0),
        used: 0,
        needs: 2,
        earlier: 1,
        keys: [134_729, 175_728, 119_323],
    },
];

/// The session of this name.
fn session(name: &str) -> &'static Session {
    SESSIONS.iter().find(|session| session.name == name).expect("a session")
}

impl Session {
    /// The first nonces to which the keys belong.
    fn first_nonces(&self) -> [u64; 3] {
        let enough = SPENT - self.used - self.needs - 1;
        [1, enough, enough + 1]
    }

    /// The machine before the last request, that request and the number.
    fn led(&self, key: u64, first: u64) -> (Rig, Request, usize) {
        let mut rig = after_reset(self.entries, key, first);
        let (request, number) = (self.lead)(&mut rig);
        (rig, request, number)
    }

    /// The same, with one of the keys.
    fn found(&self, at: usize) -> (Rig, Request, usize) {
        self.led(self.keys[at], self.first_nonces()[at])
    }

    /// Whether, with this key, the last request would give the number the tag
    /// that it last had, if that tag did not count.
    fn returns(&self, key: u64, first: u64) -> bool {
        let (rig, request, number) = self.led(key, first);
        let (old, answer) = with_another_last_tag(&rig, request, number);
        let none_passed =
            rig.state.next == first + self.used && old.state.next == rig.state.next + self.needs;
        none_passed && answer.refusal == 0 && old.tag(number) == rig.tag(number)
    }
}

/// What a request does if the number's last tag is another one: the nonce that
/// gives the real one is used, as it was before paper 5 by all but revoke.
fn with_another_last_tag(rig: &Rig, request: Request, number: usize) -> (Rig, Answer) {
    let (mut rig, mut request) = (rig.clone(), request);
    if rig.kind(number) != 0 && request.token == rig.token(number) {
        request.token ^= 1 << 46;
    }
    rig.set(number, 208, 16, rig.tag(number) ^ 1);
    let answer = rig.ask(request);
    (rig, answer)
}

/// The tokens of number 1, derived three times and dropped twice.
fn derived_three_times(key: u64) -> (Rig, [u64; 3]) {
    let mut rig = after_reset(2, key, 1);
    let one = rig.ask(derive(0)).first;
    rig.simple(DROP, one);
    let two = rig.ask(derive(0)).first;
    rig.simple(DROP, two);
    let three = rig.ask(derive(0)).first;
    (rig, [one, two, three])
}

/// The tokens of a locked part that is revoked twice.
fn revoked_twice(key: u64) -> (Rig, [u64; 3]) {
    let mut rig = after_reset(2, key, 1);
    let one = rig.ask(create(0, 16)).first;
    rig.lock(one, 7);
    let two = rig.simple(REVOKE, one).first;
    let three = rig.simple(REVOKE, two).first;
    (rig, [one, two, three])
}

const DERIVED_THREE_TIMES: u64 = 126_301;
const REVOKED_TWICE: u64 = 257_389;

fn first_key(does: impl Fn(u64) -> bool) -> u64 {
    (0..).find(|&key| does(key)).expect("a key")
}

/// The search: each key is the first that does what is wanted.
#[test]
#[ignore = "takes some seconds"]
fn the_keys_are_the_first_that_do() {
    for session in &SESSIONS {
        let first_nonces = session.first_nonces();
        let keys = first_nonces.map(|first| first_key(|key| session.returns(key, first)));
        println!("{}: keys {keys:?} for first nonces {first_nonces:?}", session.name);
        assert_eq!(keys, session.keys);
    }
    let returns = |(_, [one, _, three]): (Rig, [u64; 3])| one == three;
    assert_eq!(first_key(|key| returns(derived_three_times(key))), DERIVED_THREE_TIMES);
    assert_eq!(first_key(|key| returns(revoked_twice(key))), REVOKED_TWICE);
}

/// "Every issue, also by create and merge, passes over nonces whose tag equals
/// the one its entry last held, as revoke does."
#[test]
fn the_last_token_does_not_return() {
    for session in &SESSIONS {
        for at in [0, 1] {
            let (mut rig, request, number) = session.found(at);
            let (last, tag, next) = (rig.token(number), rig.tag(number), rig.state.next);
            assert_eq!(next, session.first_nonces()[at] + session.used, "{}", session.name);
            // If its tag did not count, the token would come back.
            let (mut old, answer) = with_another_last_tag(&rig, request, number);
            assert_eq!((answer.refusal, old.token(number)), (0, last));
            assert_eq!(old.state.next, next + session.needs);
            assert_eq!(old.access(FETCH, last, 1, 0), 0);
            // Now its nonce is passed over, and used up with that.
            granted(rig.ask(request));
            let passed = next + session.earlier;
            assert_eq!(rig.nonce(number), passed + 1);
            assert_eq!(rig.state.next, next + session.needs + 1);
            assert_eq!(tag_under(&rig, number, passed), tag);
            assert_eq!(tag_under(&rig, number, passed + 1), rig.tag(number));
            assert_ne!(rig.token(number), last);
            assert_eq!(rig.access(FETCH, last, 1, 0), 2);
            // The last of all nonces may be the one used.
            assert_eq!(rig.state.next == SPENT, at == 1);
        }
    }
}

/// "too few left, those to be passed over not counted": as many are left as the
/// request needs, and one of them is to be passed over.
#[test]
fn the_nonce_passed_over_is_not_counted() {
    for session in &SESSIONS {
        let (mut rig, request, number) = session.found(2);
        assert_eq!(SPENT - rig.state.next, session.needs, "{}", session.name);
        let before = rig.clone();
        assert_eq!(rig.ask(request), Answer { refusal: 11, ..Answer::default() });
        assert_eq!(rig, before);
        // If its tag did not count, they would be enough.
        let (old, answer) = with_another_last_tag(&rig, request, number);
        assert_eq!((answer.refusal, old.token(number)), (0, rig.token(number)));
        assert_eq!(old.state.next, SPENT);
    }
}

/// "The part gets a new number and is issued first": the rest begins behind the
/// nonce that the part used, whatever was passed over before it.
#[test]
fn part_and_rest_take_their_nonces_in_turn() {
    let (mut rig, request, _) = session("create's part, after a drop").found(0);
    let answer = granted(rig.ask(request));
    assert_eq!((rig.nonce(1), rig.nonce(0), rig.state.next), (3, 4, 5));
    assert_eq!((answer.first, answer.second), (rig.token(1), rig.token(0)));
    let (mut rig, request, _) = session("create's rest, after a create").found(0);
    let answer = granted(rig.ask(request));
    assert_eq!((rig.nonce(2), rig.nonce(0), rig.state.next), (3, 5, 6));
    assert_eq!((answer.first, answer.second), (rig.token(2), rig.token(0)));
}

/// The keys of a derive after a drop give number 1 the same tag under two nonces
/// in a row. A handed-over table may have it kept from the start.
#[test]
fn several_nonces_are_passed_over() {
    let found = session("derive, after a drop");
    let tag_kept = |at: usize| {
        let mut rig = after_reset(2, found.keys[at], found.first_nonces()[at]);
        let (led, ..) = found.found(at);
        rig.set(1, 208, 16, led.tag(1));
        rig
    };
    let mut rig = tag_kept(0);
    granted(rig.ask(derive(0)));
    assert_eq!((rig.nonce(1), rig.state.next), (3, 4));
    // They are the last two.
    let mut rig = tag_kept(2);
    assert_eq!((SPENT - rig.state.next, rig.ask(derive(0)).refusal), (2, 11));
}

/// Every issue of a list passes over one nonce if the number's last tag is the
/// one that the issue would give.
#[test]
fn every_issue_passes_over() {
    let mut dice = Dice(51);
    let mut planted = [0; 13];
    for _ in 0..150 {
        let mut rig = after_reset(4, dice.word(), 1 + dice.below(9));
        for _ in 0..60 {
            let mut token = || rig.token(dice.below(4) as usize);
            let (token, second) = (token(), token());
            let request = match dice.below(6) {
                0 => create(token, 1 + dice.below(64)),
                1 => Request { second, ..simple(MERGE, token) },
                2 => derive(token),
                _ => simple(dice.one_of(&[EXECUTE_ONLY, DROP, REVOKE]), token),
            };
            let before = rig.clone();
            if rig.ask(request).refusal != 0 {
                continue;
            }
            let issued =
                |number: usize| rig.kind(number) != 0 && rig.nonce(number) >= before.state.next;
            for number in (0..4).filter(|&number| issued(number)) {
                let (mut copy, mut request) = (before.clone(), request);
                copy.set(number, 208, 16, rig.tag(number));
                if before.kind(number) != 0 {
                    request.token = copy.token(number);
                }
                granted(copy.ask(request));
                assert_eq!(copy.nonce(number), rig.nonce(number) + 1);
                assert_eq!(copy.state.next, rig.state.next + 1);
                assert_eq!(copy.tag(number), tag_under(&copy, number, copy.nonce(number)));
                planted[request.operation as usize] += 1;
            }
        }
    }
    for operation in [CREATE, MERGE, DERIVE, EXECUTE_ONLY, REVOKE] {
        assert!(planted[operation as usize] > 10, "{planted:?}");
    }
}

/// The exception "remains only where the number held another tag between the
/// token's giving and its issuing again".
#[test]
fn an_older_token_returns_after_another() {
    let (mut rig, [one, two, three]) = derived_three_times(DERIVED_THREE_TIMES);
    assert!(one == three && one != two);
    assert_eq!((rig.nonce(1), rig.state.next), (3, 4));
    assert_eq!((rig.access(READ, one, 1, 0), rig.access(READ, two, 1, 0)), (0, 2));

    let (mut rig, [one, two, three]) = revoked_twice(REVOKED_TWICE);
    assert!(one == three && one != two);
    assert_eq!((rig.nonce(1), rig.state.next), (4, 5));
    assert_eq!((rig.access(READ, one, 1, 0), rig.access(READ, two, 1, 0)), (0, 2));
}

/// "A freed entry now keeps its tag, all else zero."
#[test]
fn a_freed_entry_keeps_its_tag() {
    // A create of the whole: number 0, which has tag 0 no more, then number 1.
    let mut rig = Rig::new(64, 3);
    let root = granted(rig.simple(REVOKE, 0)).first;
    let one = granted(rig.ask(Request { user: u64::MAX, ..create(root, 64) })).first;
    assert_ne!(root, 0);
    assert_eq!(rig.entry(0), freed(root));
    granted(rig.ask(create(one, 64)));
    assert_eq!(rig.entry(1), freed(one));
    // A merge's second: number 2, then number 0.
    let mut rig = Rig::new(64, 3);
    let one = granted(rig.ask(create(0, 16)));
    let two = granted(rig.ask(Request { user: u64::MAX, ..create(one.second, 16) }));
    let both = granted(rig.merge(one.first, two.first)).first;
    assert_eq!(rig.entry(2), freed(two.first));
    granted(rig.merge(both, two.second));
    assert_eq!(rig.entry(0), freed(two.second));
    // A drop: each entry of its climb.
    let mut rig = Rig::new(64, 4);
    let a = rig.ask(derive(0)).first;
    let b = rig.ask(derive(a)).first;
    let c = rig.ask(derive(b)).first;
    rig.simple(DROP, a);
    rig.simple(DROP, b);
    assert_eq!(granted(rig.simple(DROP, c)).dropped, 1);
    assert_eq!(rig.table[32..], [a, b, c].map(freed).concat());
    // The bytes of the last one: its tag is in the bytes 26 and 27.
    let [high, low] = ((c >> 46) as u16).to_be_bytes();
    assert_eq!(rig.table[96..122], [0; 26]);
    assert_eq!(rig.table[122..], [high, low, 0, 0, 0, 0]);
    assert_eq!(u64::from(rig.table[122]) << 8 | u64::from(rig.table[123]), rig.tag(3));
    // A drop of a dead entry, whose climb ends at the missing link.
    let mut rig = Rig::new(64, 2);
    let child = rig.ask(derive(0)).first;
    granted(rig.simple(REVOKE, 0));
    let above = rig.entry(0).to_vec();
    assert_eq!(granted(rig.simple(DROP, child)).dropped, 1);
    assert_eq!((rig.entry(1), rig.entry(0)), (&freed(child)[..], &above[..]));
}

/// A handed-over table may have an indirect entry 0 in the middle of a line.
#[test]
fn number_0_freed_by_a_climb_keeps_its_tag() {
    let mut rig = Rig::new(64, 5);
    let whole = rig.ask(create(0, 64)).first;
    let middle = rig.ask(derive(whole)).first;
    let lowest = rig.ask(derive(middle)).first;
    granted(rig.simple(DROP, middle));
    // The middle moves from number 2 to number 0.
    rig.table.copy_within(64..96, 0);
    rig.table[64..96].fill(0);
    rig.set(3, 35, 64, 1 << 62 | rig.tag(0) << 46);
    assert_eq!(granted(rig.simple(DROP, lowest)).dropped, 1);
    assert_eq!((rig.entry(0), rig.entry(3)), (&freed(middle)[..], &freed(lowest)[..]));
}

/// "Reset clears the kept tags."
#[test]
fn reset_clears_the_kept_tags() {
    let mut rig = after_reset(3, 5, 1);
    let one = rig.ask(derive(0)).first;
    let two = rig.ask(derive(0)).first;
    rig.simple(DROP, one);
    rig.simple(DROP, two);
    assert_eq!(rig.table[32..], [one, two].map(freed).concat());
    // A refused one leaves them.
    assert_eq!(rig.reset(5, 0, 0).refusal, 1);
    granted(rig.reset(5, 0, 1));
    assert_eq!(rig.table[32..], [0; 64]);
    // With the key and the nonce of before, the token of before is given.
    assert_eq!(granted(rig.ask(derive(0))).first, one);
    assert_eq!((rig.nonce(1), rig.state.next), (1, 2));
    // Number 0 is the root again, whatever it kept.
    let root = granted(rig.simple(REVOKE, 0)).first;
    granted(rig.ask(create(root, 64)));
    assert_eq!(rig.entry(0), freed(root));
    granted(rig.reset(5, 0, 1));
    assert_eq!((rig.kind(0), rig.tag(0), rig.access(READ, 0, 1, 0)), (1, 0, 0));
}

/// "Type 0 is free whatever its other bytes hold": of a handed-over one, the tag
/// field alone counts, and nothing of it is left.
#[test]
fn of_a_free_entry_the_tag_field_counts() {
    let clean = after_reset(2, 5, 1);
    let requests = [derive(0), simple(EXECUTE_ONLY, 0), create(0, 16), create(0, 64)];
    for request in requests {
        let mut trial = clean.clone();
        granted(trial.ask(request));
        let (given, live) = (trial.tag(1), trial.entry(1).to_vec());
        for tag in [given, given ^ 1, 0, 0xFFFF] {
            let mut wanted = clean.clone();
            wanted.set(1, 208, 16, tag);
            granted(wanted.ask(request));
            assert_eq!(wanted.nonce(1), if tag == given { 2 } else { 1 });
            // All ones, an entry that was in use, and the tag in other places.
            let doubled = [(given >> 8) as u8, given as u8].repeat(16);
            for junk in [vec![0xFF; 32], live.clone(), doubled] {
                let mut rig = clean.clone();
                rig.table[32..].copy_from_slice(&junk);
                rig.set(1, 0, 3, 0);
                rig.set(1, 208, 16, tag);
                granted(rig.ask(request));
                assert_eq!((&rig.table, rig.state), (&wanted.table, wanted.state));
            }
        }
    }
}

/// A kept tag is no tag to be named by: the entry is free.
#[test]
fn a_kept_tag_opens_nothing() {
    let mut rig = Rig::new(64, 4);
    let upper = rig.ask(derive(0)).first;
    let lower = rig.ask(derive(upper)).first;
    // The upper goes, though the lower counts on it.
    rig.set_count(1, 1);
    granted(rig.simple(DROP, upper));
    assert_eq!((rig.token(1), rig.count(0)), (upper, 0));
    for operation in READ..=PAGE_IN {
        let request = Request {
            operation,
            token: upper,
            second: 0,
            task: 7,
            length: 1,
            ..Request::default()
        };
        let mut text = record(1, 0, &[]);
        assert_eq!(rig.ask_with(request, &mut text).refusal, 2);
    }
    // The link names the tag that is kept, and the nonce there is lower.
    let answer = rig.ask_with(simple(READ, lower), &mut [0]);
    assert_eq!((answer.refusal, answer.place), (4, 1));
    let left = rig.entry(1).to_vec();
    assert_eq!(granted(rig.simple(DROP, lower)).dropped, 1);
    assert_eq!((rig.entry(1), rig.entry(2)), (&left[..], &freed(lower)[..]));
    // Number 0 is not given again, whatever it keeps.
    let mut rig = Rig::new(64, 2);
    let root = granted(rig.simple(REVOKE, 0)).first;
    let whole = granted(rig.ask(create(root, 64))).first;
    assert_eq!(rig.entry(0), freed(root));
    assert_eq!(rig.ask(derive(whole)).refusal, 10);
}
