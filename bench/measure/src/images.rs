//! Loads and dumps of several sizes.

use bridge::{Lent, Operation, Task, Token, Words, TEXT_BYTES};

use crate::built::Built;
use crate::case::Case;
use crate::limit::Limit;

/// How many bytes are loaded and dumped: a record, a page of memory, and nearly the most.
pub const SIZES: [usize; 3] = [16, 4_096, 23_000];

/// A load of what a dump of so many bytes writes, into a segment of as many zeros.
pub fn load(bytes: usize) -> Case {
    let text = text(bytes);
    case(Operation::Load, bytes, Built::new(4, bytes), text)
}

/// A dump of so many bytes to a buffer that the text fills.
pub fn dump(bytes: usize) -> Case {
    let buffer = vec![0xa5; text(bytes).len()];
    case(Operation::Dump, bytes, mixed(bytes), buffer)
}

/// A segment of so many bytes, of all values.
fn mixed(bytes: usize) -> Built {
    let mut built = Built::new(4, bytes);
    let memory = built.world.memory.iter_mut().enumerate();
    memory.for_each(|(at, byte)| *byte = (at * 167 + 13) as u8 ^ (at >> 5) as u8);
    built
}

/// The text of such a segment.
fn text(bytes: usize) -> Vec<u8> {
    let mut text = vec![0; TEXT_BYTES];
    let reply = mixed(bytes).world.serve(&request(Operation::Dump), Lent::of(&mut text));
    assert_eq!(reply.refusal, 0, "a dump of {bytes} bytes");
    text.truncate(reply.length as usize);
    text
}

fn request(operation: Operation) -> Words {
    Words::access(operation, Token::ROOT, Task::NONE)
}

fn case(operation: Operation, bytes: usize, built: Built, buffer: Vec<u8>) -> Case {
    let (of, limit) = (format!("{bytes} bytes"), Limit::Text(buffer.len()));
    let (name, request) = (operation.name(), request(operation));
    Case { name, of, size: bytes, world: built.world, request, buffer, leases: None, limit }
}
