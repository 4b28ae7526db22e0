//! Requests, typed. Accesses, loads and dumps are not among them: each brings a buffer, and is a call
//! of its own. So is paging, whose words stand here too.

use crate::operation::Operation;
use crate::rights::{Permissions, Task};
use crate::token::{Encoding, Token};
use crate::words::Words;

/// A request that brings no buffer, with the words that it uses.
#[derive(Clone, Copy, Debug, PartialEq, Eq)]
pub enum Request {
    Reset {
        key: [u64; 2],
        first_nonce: u64,
    },
    Create {
        token: Token,
        task: Task,
        length: u64,
        user: u64,
        permissions: Permissions,
        encoding: Encoding,
    },
    Merge {
        first: Token,
        second: Token,
        task: Task,
        encoding: Encoding,
    },
    Derive {
        token: Token,
        offset: u64,
        length: u64,
        permissions: Permissions,
        encoding: Encoding,
    },
    ExecuteOnly {
        token: Token,
        encoding: Encoding,
    },
    Clone {
        token: Token,
    },
    Drop {
        token: Token,
    },
    Lock {
        token: Token,
        task: Task,
    },
    Unlock {
        token: Token,
        task: Task,
    },
    Revoke {
        token: Token,
        encoding: Encoding,
    },
}

/// A segment that is paged out: its bytes go to a buffer that is as long.
#[derive(Clone, Copy, Debug, PartialEq, Eq)]
pub struct PageOut {
    pub token: Token,
    /// Where the caller keeps the bytes: any number. The entry holds it while it is paged out.
    pub page_file: u64,
    pub task: Task,
    pub encoding: Encoding,
}

/// A paged entry that is paged in: its bytes, which the caller kept, go to the donor's segment.
#[derive(Clone, Copy, Debug, PartialEq, Eq)]
pub struct PageIn {
    pub paged: Token,
    /// A segment as long, unlocked and without references. Its number is freed.
    pub donor: Token,
    pub task: Task,
    pub encoding: Encoding,
}

impl PageOut {
    /// The words of the interface; those that the request does not use are zero.
    pub fn words(&self) -> Words {
        let PageOut { token, page_file: second, task, encoding } = *self;
        let words = Words::access(Operation::PageOut, token, task);
        Words { second, encoding: encoding as u64, ..words }
    }
}

impl PageIn {
    /// The words of the interface; those that the request does not use are zero.
    pub fn words(&self) -> Words {
        let PageIn { paged, donor, task, encoding } = *self;
        let words = Words::access(Operation::PageIn, paged, task);
        Words { second: donor.0, encoding: encoding as u64, ..words }
    }
}

impl Request {
    /// The words of the interface; those that the request does not use are zero.
    pub fn words(&self) -> Words {
        let of = |operation: Operation| Words { operation: operation as u64, ..Words::default() };
        let named = |operation, token: Token| Words { token: token.0, ..of(operation) };
        match *self {
            Request::Reset { key: [token, second], first_nonce: task } => {
                Words { token, second, task, ..of(Operation::Reset) }
            }
            Request::Create { token, task, length, user, permissions, encoding } => Words {
                task: task.0,
                length,
                user,
                permissions: permissions.number(),
                encoding: encoding as u64,
                ..named(Operation::Create, token)
            },
            Request::Merge { first, second, task, encoding } => Words {
                second: second.0,
                task: task.0,
                encoding: encoding as u64,
                ..named(Operation::Merge, first)
            },
            Request::Derive { token, offset: second, length, permissions, encoding } => Words {
                second,
                length,
                permissions: permissions.number(),
                encoding: encoding as u64,
                ..named(Operation::Derive, token)
            },
            Request::ExecuteOnly { token, encoding } => {
                Words { encoding: encoding as u64, ..named(Operation::ExecuteOnly, token) }
            }
            Request::Clone { token } => named(Operation::Clone, token),
            Request::Drop { token } => named(Operation::Drop, token),
            Request::Lock { token, task } => {
                Words { task: task.0, ..named(Operation::Lock, token) }
            }
            Request::Unlock { token, task } => {
                Words { task: task.0, ..named(Operation::Unlock, token) }
            }
            Request::Revoke { token, encoding } => {
                Words { encoding: encoding as u64, ..named(Operation::Revoke, token) }
            }
        }
    }
}

impl Words {
    /// The words of a request with a buffer: an access in one of the three ways, and where it begins;
    /// a load or a dump, whose token has no offset. Its second word, such as the minute, is 0.
    pub fn access(way: Operation, address: Token, task: Task) -> Words {
        Words { operation: way as u64, token: address.0, task: task.0, ..Words::default() }
    }
}
