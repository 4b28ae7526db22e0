//! Segments of several sizes, paged out and in.

use bridge::{Encoding, Lent, PageIn, PageOut, Task, Token};

use crate::built::Built;
use crate::case::Case;
use crate::limit::Limit;

/// How many bytes the segments have.
pub const SIZES: [usize; 7] = [64, 1_024, 4_096, 16_384, 65_536, 262_144, 1_048_576];

/// A page-out of a segment of so many bytes, the whole of memory.
pub fn out(bytes: usize) -> Case {
    let world = Built::new(4, bytes).world;
    Case {
        name: "page-out",
        of: format!("{bytes} bytes"),
        size: bytes,
        world,
        request: request().words(),
        buffer: vec![0xa5; bytes],
        leases: None,
        limit: Limit::Out(0..bytes),
    }
}

/// A page-in of as many, to the place that it left.
pub fn back(bytes: usize) -> Case {
    let (mut world, mut buffer) = (Built::new(4, bytes).world, vec![0xa5; bytes]);
    let reply = world.serve(&request().words(), Lent::of(&mut buffer));
    assert_eq!(reply.refusal, 0, "a page-out of {bytes} bytes");
    let (paged, donor) = (Token(reply.first), Token(reply.second));
    let request = PageIn { paged, donor, task: Task::NONE, encoding: Encoding::E0 };
    Case {
        name: "page-in",
        of: format!("{bytes} bytes"),
        size: bytes,
        world,
        request: request.words(),
        buffer: vec![0xa5; bytes],
        leases: None,
        limit: Limit::In(0..bytes),
    }
}

fn request() -> PageOut {
    PageOut { token: Token::ROOT, page_file: 1, task: Task::NONE, encoding: Encoding::E0 }
}
