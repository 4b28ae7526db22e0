//! The operations: one row each, from which the bench takes all that it knows of an operation.

use std::ops::RangeInclusive;

use crate::refusal::Check::{self, *};
use crate::words::Argument::{self, *};

/// The numbers of the operations.
#[derive(Clone, Copy, Debug, PartialEq, Eq, PartialOrd, Ord, Hash)]
#[repr(u64)]
pub enum Operation {
    Reset = 0,
    Read = 1,
    Write = 2,
    Fetch = 3,
    Create = 4,
    Merge = 5,
    Derive = 6,
    ExecuteOnly = 7,
    Clone = 8,
    Drop = 9,
    Lock = 10,
    Unlock = 11,
    Revoke = 12,
    Load = 13,
    Dump = 14,
    PageOut = 15,
    PageIn = 16,
}

/// What the buffer is to an operation.
#[derive(Clone, Copy, Debug, PartialEq, Eq)]
pub enum Buffer {
    /// It is not looked at.
    Unused,
    /// It is written, from its first byte to its last.
    Filled,
    /// It is read.
    Brought,
    /// It holds HEX text, which is read.
    Text,
    /// HEX text is written at its front; the answer tells how long that is.
    Front,
    /// A whole segment's bytes are written to it: it is as long as the segment.
    Out,
    /// It holds a whole segment's bytes, which are read.
    In,
}

impl Buffer {
    /// Whether it is read alone.
    pub const fn is_brought(self) -> bool {
        matches!(self, Buffer::Brought | Buffer::Text | Buffer::In)
    }

    /// Whether it is written, all of it or its front.
    pub const fn is_written(self) -> bool {
        matches!(self, Buffer::Filled | Buffer::Front | Buffer::Out)
    }

    /// Whether it holds HEX text, before or afterwards.
    pub const fn is_text(self) -> bool {
        matches!(self, Buffer::Text | Buffer::Front)
    }

    /// Whether it must be as long as a segment.
    pub const fn is_whole(self) -> bool {
        matches!(self, Buffer::Out | Buffer::In)
    }

    /// The lengths that are not refused for themselves.
    pub const fn lengths(self) -> RangeInclusive<usize> {
        match self {
            Buffer::Filled | Buffer::Brought => 1..=ACCESS_BYTES,
            Buffer::Text => 0..=TEXT_BYTES,
            Buffer::Unused | Buffer::Front | Buffer::Out | Buffer::In => 0..=usize::MAX,
        }
    }
}

/// How many bytes an access moves at most.
pub const ACCESS_BYTES: usize = 4_096;

/// How many bytes HEX text has at most.
pub const TEXT_BYTES: usize = 65_536;

/// How many bytes the text has that a dump of so many bytes writes: a record for the page, one for
/// each 16 bytes and for those left over, and the end record.
pub const fn text_length(bytes: u64) -> u64 {
    let left_over = bytes % 16;
    let last = if left_over == 0 { 0 } else { 12 + 2 * left_over };
    28 + bytes / 16 * 44 + last
}

/// What is known of an operation.
struct Facts {
    operation: Operation,
    name: &'static str,
    /// What its words say; all others are not looked at.
    arguments: &'static [Argument],
    buffer: Buffer,
    /// The tokens that a granted answer carries, by what they name.
    tokens: &'static [&'static str],
    /// Whether a granted answer carries a number.
    number: bool,
    /// The checks that it can stop at, in their order: that of 01's table, of paper 2 of 02 for loads
    /// and dumps, of paper 4 for what brings a minute, and of paper 6 for paging and paged entries. Not
    /// possible are:
    /// - Dead of a drop: "dead; drop skips this";
    /// - Lock, but for "access, create, merge, lock, unlock", loads and dumps, which "use the access
    ///   checks", and paging: "lock, kind, length (8), standing, numbers and nonces are checked";
    /// - Kind, but for "create, merge, revoke of an indirect entry" and paging;
    /// - Right of merge (it takes "the permissions both have"), clone, drop, unlock, revoke, paging:
    ///   none asks for a permission, X or Lockable;
    /// - Bounds, but for accesses, loads, create, derive, merge and paging: the others name no bytes
    ///   ("without the sum"), and a dump names all that there are;
    /// - Standing, but for those that its row names, and paging;
    /// - Numbers, but for "create, derive, execute-only" and paging out;
    /// - Nonces, but for those that issue: create, merge, derive, execute-only, revoke, paging;
    /// - Paged, but for those that name an entry: "in any operation but 'in'";
    /// - Malformed and Checksum, but for loads, and Room, but for dumps;
    /// - Closed and Lease, but for accesses, loads and dumps: "both accesses only";
    /// - and a reset looks at the sizes and the first nonce alone.
    checks: &'static [Check],
}

/// An operation of which nothing more is said: no buffer, and nothing in its answer.
const fn of(operation: Operation) -> Facts {
    let (arguments, checks, tokens) = (&[], &[], &[]);
    Facts { operation, name: "", arguments, buffer: Buffer::Unused, tokens, number: false, checks }
}

/// What an access can stop at.
const ACCESS: &[Check] =
    &[Request, Lease, Entry, Paged, IllFormed, Dead, Lock, Closed, Right, Bounds];

const ROWS: &[Facts] = &[
    Facts {
        name: "reset",
        arguments: &[Key, FirstNonce],
        checks: &[Request],
        ..of(Operation::Reset)
    },
    Facts {
        name: "read",
        arguments: &[Address, Minute, Task],
        buffer: Buffer::Filled,
        checks: ACCESS,
        ..of(Operation::Read)
    },
    Facts {
        name: "write",
        arguments: &[Address, Minute, Task],
        buffer: Buffer::Brought,
        checks: ACCESS,
        ..of(Operation::Write)
    },
    Facts {
        name: "fetch",
        arguments: &[Address, Minute, Task],
        buffer: Buffer::Filled,
        checks: ACCESS,
        ..of(Operation::Fetch)
    },
    Facts {
        name: "create",
        arguments: &[Token, Task, Length, User, Permissions, Encoding],
        tokens: &["part", "rest"],
        checks: &[
            Request, Entry, Paged, IllFormed, Dead, Lock, Kind, Right, Bounds, Standing, Numbers,
            Nonces,
        ],
        ..of(Operation::Create)
    },
    Facts {
        name: "merge",
        arguments: &[Token, SecondToken, Task, Encoding],
        tokens: &["whole"],
        checks: &[Request, Entry, Paged, IllFormed, Dead, Lock, Kind, Bounds, Standing, Nonces],
        ..of(Operation::Merge)
    },
    Facts {
        name: "derive",
        arguments: &[Token, Offset, Length, Permissions, Encoding],
        tokens: &["child"],
        checks: &[Request, Entry, Paged, IllFormed, Dead, Right, Bounds, Standing, Numbers, Nonces],
        ..of(Operation::Derive)
    },
    Facts {
        name: "execute-only",
        arguments: &[Token, Encoding],
        tokens: &["code"],
        checks: &[Request, Entry, Paged, IllFormed, Dead, Right, Standing, Numbers, Nonces],
        ..of(Operation::ExecuteOnly)
    },
    Facts {
        name: "clone",
        arguments: &[Token],
        checks: &[Request, Entry, Paged, IllFormed, Dead, Standing],
        ..of(Operation::Clone)
    },
    Facts {
        name: "drop",
        arguments: &[Token],
        number: true,
        checks: &[Request, Entry, Paged, IllFormed, Standing],
        ..of(Operation::Drop)
    },
    Facts {
        name: "lock",
        arguments: &[Token, Holder],
        checks: &[Request, Entry, Paged, IllFormed, Dead, Lock, Right],
        ..of(Operation::Lock)
    },
    Facts {
        name: "unlock",
        arguments: &[Token, Holder],
        checks: &[Request, Entry, Paged, IllFormed, Dead, Lock, Standing],
        ..of(Operation::Unlock)
    },
    Facts {
        name: "revoke",
        arguments: &[Token, Encoding],
        tokens: &["fresh"],
        checks: &[Request, Entry, Paged, IllFormed, Dead, Kind, Nonces],
        ..of(Operation::Revoke)
    },
    Facts {
        name: "load",
        arguments: &[Token, Minute, Task],
        buffer: Buffer::Text,
        checks: &[
            Request, Malformed, Checksum, Lease, Entry, Paged, IllFormed, Dead, Lock, Closed,
            Right, Bounds,
        ],
        ..of(Operation::Load)
    },
    Facts {
        name: "dump",
        arguments: &[Token, Minute, Task],
        buffer: Buffer::Front,
        checks: &[Request, Lease, Entry, Paged, IllFormed, Dead, Lock, Closed, Right, Room],
        ..of(Operation::Dump)
    },
    Facts {
        name: "page-out",
        arguments: &[Token, PageFile, Task, Encoding],
        buffer: Buffer::Out,
        tokens: &["paged", "segment"],
        checks: &[
            Request, Entry, Paged, IllFormed, Dead, Lock, Kind, Bounds, Standing, Numbers, Nonces,
        ],
        ..of(Operation::PageOut)
    },
    Facts {
        name: "page-in",
        arguments: &[Token, SecondToken, Task, Encoding],
        buffer: Buffer::In,
        tokens: &["back"],
        checks: &[Request, Entry, IllFormed, Dead, Lock, Kind, Bounds, Standing, Nonces],
        ..of(Operation::PageIn)
    },
];

/// The operations of the rows, each of which stands at its number.
const fn all() -> [Operation; ROWS.len()] {
    let mut all = [Operation::Reset; ROWS.len()];
    let mut at = 0;
    while at < ROWS.len() {
        all[at] = ROWS[at].operation;
        assert!(all[at] as usize == at);
        at += 1;
    }
    all
}

impl Operation {
    pub const COUNT: usize = ROWS.len();

    /// Every operation, at the index of its number.
    pub const ALL: [Operation; Operation::COUNT] = all();

    pub fn of(number: u64) -> Option<Operation> {
        usize::try_from(number).ok().and_then(|n| Operation::ALL.get(n).copied())
    }

    /// The operation of a name.
    pub fn named(name: &str) -> Option<Operation> {
        Operation::ALL.into_iter().find(|operation| operation.name() == name)
    }

    fn facts(self) -> &'static Facts {
        &ROWS[self as usize]
    }

    pub fn name(self) -> &'static str {
        self.facts().name
    }

    pub fn arguments(self) -> &'static [Argument] {
        self.facts().arguments
    }

    pub fn takes(self, argument: Argument) -> bool {
        self.arguments().contains(&argument)
    }

    /// Whether the word at a place is looked at, beside the first.
    pub fn uses(self, place: usize) -> bool {
        self.arguments().iter().any(|argument| argument.places().contains(&place))
    }

    /// Whether it asks for bytes at an address.
    pub fn is_access(self) -> bool {
        self.takes(Address)
    }

    /// Whether it brings a minute and looks at leases: an access, a load or a dump.
    pub fn is_leased(self) -> bool {
        self.takes(Minute)
    }

    /// Whether it names an entry by a token.
    pub fn names_entry(self) -> bool {
        self.takes(Address) || self.takes(Token)
    }

    pub fn buffer(self) -> Buffer {
        self.facts().buffer
    }

    /// The tokens that a granted answer carries, by what they name.
    pub fn tokens(self) -> &'static [&'static str] {
        self.facts().tokens
    }

    /// Whether a granted answer carries a token for an entry that was issued.
    pub fn issues(self) -> bool {
        !self.tokens().is_empty()
    }

    /// Whether it gives a new number.
    pub fn gives_number(self) -> bool {
        self.stops_at(Numbers)
    }

    /// Whether a granted answer carries a number, as drop's does.
    pub fn answers_number(self) -> bool {
        self.facts().number
    }

    /// Whether a granted answer carries a length: that of what it wrote at the buffer's front.
    pub fn answers_length(self) -> bool {
        self.buffer() == Buffer::Front
    }

    /// The checks that a request of it can be refused at, in their order.
    pub fn checks(self) -> &'static [Check] {
        self.facts().checks
    }

    /// Whether a request of it can be refused at a check.
    pub fn stops_at(self, check: Check) -> bool {
        self.checks().contains(&check)
    }
}
