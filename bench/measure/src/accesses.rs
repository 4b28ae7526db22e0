//! Accesses: reads, writes and fetches of several sizes through lines of several depths.

use bridge::{Lease, Operation, Task, Token, Words};

use crate::built::Built;
use crate::case::Case;
use crate::limit::Limit;

pub const SIZES: [usize; 5] = [1, 12, 64, 512, 4_096];
pub const DEPTHS: [usize; 4] = [0, 1, 8, 64];
pub const WAYS: [Operation; 3] = [Operation::Read, Operation::Write, Operation::Fetch];

const MEMORY: usize = 65_536;
const OFFSET: usize = 8_192;

/// The accesses of all sizes, one way, through a line of one depth.
pub fn cases(way: Operation, depth: usize) -> Vec<Case> {
    let mut built = Built::new(depth + 2, MEMORY);
    let address = built.line(depth)[depth].at(OFFSET as u64).expect("encoding 0 has room for it");
    let request = Words::access(way, address, Task::NONE);
    let case = |bytes: usize| {
        let range = OFFSET..OFFSET + bytes;
        let limit = match way {
            Operation::Write => Limit::Store(range),
            _ => Limit::Load(range),
        };
        Case {
            name: way.name(),
            of: format!("{bytes} bytes, depth {depth}"),
            size: bytes,
            world: built.world.clone(),
            request,
            buffer: vec![0xa5; bytes],
            leases: None,
            limit,
        }
    };
    SIZES.map(case).into()
}

/// How many leases are lent with a read: none, one, and as many as can be.
pub const LEASES: [usize; 3] = [0, 1, 64];

/// A read of a few bytes by the function with leases. A single lease is the token's, and open; of many
/// none is, so that all are passed over.
pub fn leased(leases: usize) -> Case {
    let mut built = Built::new(3, MEMORY);
    let token = built.line(1)[1];
    let address = token.at(OFFSET as u64).expect("encoding 0 has room for it");
    let whose = if leases == 1 { token } else { Token::ROOT };
    let lease = Lease::of(whose, 0, 5_000).expect("a number of the table");
    Case {
        name: "read, leased",
        of: format!("12 bytes, depth 1, {leases} leases"),
        size: leases,
        world: built.world,
        request: Words::access(Operation::Read, address, Task::NONE),
        buffer: vec![0xa5; 12],
        leases: Some(lease.to_bytes().repeat(leases)),
        limit: Limit::Leases(OFFSET..OFFSET + 12),
    }
}
