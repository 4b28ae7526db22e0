//! Why a request is bad: told exactly for those that are refused with 1.

use std::cell::Cell;
use std::rc::Rc;

use bridge::Lent as Slices;
use bridge::{Check, Operation, Reply, State, Words};
use compare::{compare, Machine, Options, Pair, Proved, Trouble};
use nb_tool::answer::answer_text;
use nb_tool::cause::{causes, Lent};
use nb_tool::{hex, shift};
use session::play::Player;
use session::server::Proved as Server;
use session::text::parse;
use session::World;

/// The proved code; each of its answers is compared with the causes that are found. Loads whose text
/// was looked at are counted.
struct Judged(Proved, Rc<Cell<usize>>);

/// The tool finds a bad line if and only if the text is refused, and for the same reason.
fn text_is_judged(reply: &Reply, text: &[u8]) {
    let fault = hex::read(text).err();
    let refused = [Check::Malformed, Check::Checksum].map(|check| check as u64);
    let told = Some(reply.refusal).filter(|refusal| refused.contains(refusal));
    let found = fault.as_ref().map(|fault| fault.check as u64);
    assert_eq!(found, told, "{fault:?}\n{}", String::from_utf8_lossy(text));
}

/// The tool finds a bad lease, or closed ones, if and only if the request is refused for them: of one
/// that is granted it finds neither.
fn leases_are_judged(request: &Words, reply: &Reply, leases: &[u8]) {
    let bad = shift::bad_lease(leases);
    let closed = shift::closed(leases, request.token, request.second);
    let told = (Check::of(reply.refusal), bad.is_some(), closed.is_some());
    let right = match told {
        (Some(Check::Lease), bad, _) => bad,
        (Some(Check::Closed), bad, closed) => closed && !bad,
        (None, bad, closed) => !closed && !bad,
        _ => true,
    };
    assert!(right, "{request:?}: {reply:?} {bad:?} {closed:?}");
}

impl Machine for Judged {
    fn name(&self) -> &str {
        "judged proved code"
    }

    fn begin(&mut self, world: &World) -> Result<(), Trouble> {
        self.0.begin(world)
    }

    fn serve(&mut self, request: &Words, slices: Slices) -> Result<Reply, Trouble> {
        let Slices { buffer, leases } = slices;
        let (table, memory) = (self.table().len(), self.memory().len());
        let (state, leased) = (self.state(), leases.len());
        let lent = Lent { state, table, memory, buffer: buffer.len(), leases: leased };
        let reply = self.0.serve(request, Slices { buffer, leases })?;
        let found = causes(request, &lent);
        let bad = reply.refusal == Check::Request as u64;
        assert_eq!(bad, !found.is_empty(), "{request:?} {lent:?}: {reply:?} {found:?}");
        if Operation::of(request.operation).is_some_and(Operation::is_leased) {
            leases_are_judged(request, &reply, leases);
        }
        let of_text = [Check::Lease, Check::Closed].map(|check| check as u64);
        let reached = !bad && !of_text.contains(&reply.refusal);
        if request.operation == Operation::Load as u64 && reached {
            self.1.set(self.1.get() + 1);
            text_is_judged(&reply, buffer);
        }
        Ok(reply)
    }

    fn state(&self) -> State {
        self.0.state()
    }

    fn table(&self) -> &[u8] {
        self.0.table()
    }

    fn memory(&self) -> &[u8] {
        self.0.memory()
    }
}

#[test]
fn a_request_has_a_cause_if_and_only_if_it_is_refused_with_1() {
    let loads = Rc::new(Cell::new(0));
    let judged = Judged(Proved::new(), loads.clone());
    let pair = Pair::new(Box::new(judged), Box::new(Proved::new()));
    let options = Options { requests: 300_000, ..Options::default() };
    assert!(compare(&options, pair).expect("a run").found.is_none());
    assert!(loads.get() > 5_000, "{loads:?}");
}

/// The answer to the last request of a text.
fn answer(text: &str) -> String {
    let script = parse(text).unwrap_or_else(|error| panic!("{error}"));
    let mut server = Server;
    let mut player = Player::new(&script, &mut server);
    let answers = script.asks.iter().map(|ask| answer_text(ask, &player.play(ask).expect("one")));
    answers.last().expect("a request")
}

#[test]
fn each_cause_has_its_words() {
    let holds = |line: &str, cause: &str| {
        let answer = answer(&format!("memory 64 entries 4\nreset nonce 1 -> 0\n{line}\n"));
        assert_eq!(answer, format!("1 bad request: {cause}"), "{line}");
    };
    holds("lock root task 0", "the task is 0, which means none");
    holds("read root 1 task 0x80000000000000", "the task 0x80000000000000 is not below 2^55");
    holds("read root 0", "the buffer is empty");
    holds("write root 00*4097", "the buffer has 4097 bytes, of at most 4096");
    holds("load root 00*65537", "the buffer has 65537 bytes, of at most 65536");
    holds("dump root+1 64", "the token has an offset, 1, which only an access may have");
    holds("clone root+5", "the token has an offset, 5, which only an access may have");
    let second = "the second token has an offset, 1, which only an access may have";
    holds("merge root root+1", second);
    holds("create root length 0 permissions R", "the length is 0");
    holds("derive root length 1 permissions 8", "the permissions 8 are above 7");
    holds("revoke root encoding 4", "the encoding 4 is above 3");
    holds("reset nonce 0", "the first nonce 0 is not from 1 to 4294967295");
    holds("operation 17", "there is no operation 17");
    holds("page-in root root+1 00", second);
    holds("page-out root+1 1", "the token has an offset, 1, which only an access may have");
    holds("page-out root 64 encoding 4", "the encoding 4 is above 3");
    let minute = "the minute 10080 is not one of the week, 0 to 10079";
    holds("read root 1 minute 10080", minute);
    holds("load root :00000001FF minute 10080", minute);
    holds("dump root 64 leases 00*9", "the leases end 1 bytes behind a whole one");
    holds("fetch root 1 leases root=1..2*65", "the leases have 520 bytes, of at most 512");
    let both = "the length is 0; the permissions 9 are above 7";
    holds("derive root length 0 permissions 9", both);
}

#[test]
fn sizes_and_settings_have_their_words() {
    let holds = |text: &str, cause: &str| {
        assert_eq!(answer(text), format!("1 bad request: {cause}"), "{text}");
    };
    holds("memory 0 entries 4\nreset nonce 1", "memory has no bytes");
    let memory = "memory has 16777217 bytes, of at most 16777216";
    holds("memory 16777217 entries 4\nreset nonce 1", memory);
    let table = "the table has 1 entries, and must have 2 to 1024";
    holds("memory 8 entries 1\nreset nonce 1", table);
    holds("memory 8 table 65\nreset nonce 1", "the table ends 1 bytes behind a whole entry");
    let last = "the state's last number 4 is not in the table";
    holds("memory 8 entries 4\nstate last 4 nonce 1\nclone root", last);
    let nonce = "the state's next nonce 0 is not from 1 to 4294967296";
    holds("memory 8 entries 4\nclone root", nonce);
    let total = "the state's free total 4 is above 3";
    holds("memory 8 entries 4\nstate nonce 1 total 4\nclone root", total);
    let both =
        "the state's next nonce 0 is not from 1 to 4294967296; the state's free total 9 is above 3";
    holds("memory 8 entries 4\nstate total 9\nclone root", both);
}

/// Nonces that would give a number its last tag again are left, and do not count.
#[test]
fn nonces_have_their_words() {
    let holds = |nonce: u64, line: &str, expected: &str| {
        let reset = format!("reset key 34071 0 nonce {nonce} -> 0");
        let answer = answer(&format!("memory 64 entries 4\n{reset}\n{line}\n"));
        assert_eq!(answer, format!("11 too few nonces: {expected}"), "{line}");
    };
    let last = (1 << 32) - 1;
    holds(last, "create root length 8 permissions R", "1 left, and 2 are needed");
    let passed = "1 left, and those that would give the last tag again do not count";
    holds(last, "derive root length 8 permissions RWX", passed);
    let spent = "derive root length 9 permissions R -> 0\nderive root length 8 permissions R";
    holds(last, spent, "none is left");
    holds(last, "derive root length 9 permissions R -> 0\nrevoke root", "none is left");
}

/// What paging is refused for, in words.
#[test]
fn paging_has_its_words() {
    let holds = |lines: &str, expected: &str| {
        let reset = "memory 16 entries 4\nreset nonce 1 -> 0";
        let answer = answer(&format!("{reset}\n{lines}\n"));
        assert_eq!(answer, expected, "{lines}");
    };
    let short = "8 out of bounds: the segment has 16 bytes, and the buffer 15";
    holds("page-out root 15", short);
    let out = |line: &str| format!("page-out root 16 -> 0 as paged left\n{line}");
    holds(&out("clone paged"), "17 paged out");
    let not_paged = "6 wrong kind of entry: the entry is not paged out";
    holds(&out("page-in left paged 00*16"), not_paged);
    let paged = "6 wrong kind of entry: the donor is paged out";
    holds(&out("page-in paged paged 00*16"), paged);
    let derived = "derive left length 16 permissions R -> 0 as child\npage-in paged child 00*16";
    holds(&out(derived), "6 wrong kind of entry: the donor is no segment");
    let cut = "create left length 8 permissions R -> 0 as part rest\npage-in paged part 00*9";
    let lengths = "8 out of bounds: the entry has 16 bytes, the donor 8, and the buffer 9";
    holds(&out(cut), lengths);
    let last = "memory 16 entries 4\nreset nonce 4294967295 -> 0\npage-out root 16";
    assert_eq!(answer(last), "11 too few nonces: 1 left, and 2 are needed");
}

#[test]
fn leases_have_their_words() {
    let holds = |line: &str, expected: &str| {
        let answer = answer(&format!("memory 64 entries 4\nreset nonce 1 -> 0\n{line}\n"));
        assert_eq!(answer, expected, "{line}");
    };
    let closed = "15 closed: at minute 840 (Mon 14:00), of 360..840 (Mon 06:00 to Mon 14:00)";
    holds("write root 00 minute 840 leases root=360..840", closed);
    let over = "15 closed: at minute 60 (Mon 01:00), of 10020..0 (Sun 23:00 to Mon 00:00), \
                7200..8640 (Sat 00:00 to Sun 00:00)";
    holds("read root 1 minute 60 leases root=10020..0 @1:1=0..9 root=7200..8640", over);
    let four = "15 closed: at minute 0 (Mon 00:00), of 1..2 (Mon 00:01 to Mon 00:02), \
                1..2 (Mon 00:01 to Mon 00:02), 1..2 (Mon 00:01 to Mon 00:02) and 1 more";
    holds("read root 1 leases root=1..2*4", four);
    let equal = "16 bad lease: lease 2 of 3, @5:0x1234=60..60, has equal minutes";
    holds("read root 1 leases root=1..2 @5:0x1234=60..60 root=9..9", equal);
    let opens = "16 bad lease: lease 1 of 1, root=10080..5, opens at minute 10080, beyond 10079";
    holds("read root 1 leases root=10080..5", opens);
    let closes = "16 bad lease: lease 1 of 1, root=5..10080, closes at minute 10080, beyond 10079";
    holds("read root 1 leases root=5..10080", closes);
}
