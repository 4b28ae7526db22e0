//! What two machines can differ in.

use std::fmt;

use bridge::{Reply, State};
use session::entry::SIZE;
use session::server::Trouble;

/// The first difference that a request showed. Of a pair the proved code's stands first.
#[derive(Clone, Debug, PartialEq, Eq)]
pub enum Difference {
    Reply([Reply; 2]),
    State([State; 2]),
    Byte {
        part: &'static str,
        at: usize,
        values: [u8; 2],
    },
    Length {
        part: &'static str,
        lengths: [usize; 2],
    },
    /// The proved code refused, and yet something is not as it was.
    Changed(&'static str),
    /// The other machine gave no answer.
    Trouble(Trouble),
}

impl Difference {
    /// The first byte that two parts differ in, if they do.
    pub fn of_bytes(part: &'static str, mine: &[u8], theirs: &[u8]) -> Option<Difference> {
        if mine == theirs {
            return None;
        }
        if mine.len() != theirs.len() {
            return Some(Difference::Length { part, lengths: [mine.len(), theirs.len()] });
        }
        let at = mine.iter().zip(theirs).position(|(mine, theirs)| mine != theirs)?;
        Some(Difference::Byte { part, at, values: [mine[at], theirs[at]] })
    }
}

fn reply(f: &mut fmt::Formatter<'_>, reply: &Reply) -> fmt::Result {
    let Reply { refusal, place, first, second, dropped, length } = reply;
    write!(f, "refusal {refusal} place {place} tokens {first:x} {second:x} ")?;
    write!(f, "dropped {dropped} length {length}")
}

impl fmt::Display for Difference {
    fn fmt(&self, f: &mut fmt::Formatter<'_>) -> fmt::Result {
        match self {
            Difference::Reply([mine, theirs]) => {
                write!(f, "the answers differ\n  proved code: ")?;
                reply(f, mine)?;
                write!(f, "\n  the other:   ")?;
                reply(f, theirs)
            }
            Difference::State([mine, theirs]) => {
                write!(f, "the states differ\n  proved code: {mine}\n  the other:   {theirs}")
            }
            Difference::Byte { part, at, values: [mine, theirs] } => {
                write!(f, "byte {at} of the {part} differs")?;
                if *part == "table" {
                    write!(f, " (entry {}, byte {} of it)", at / SIZE, at % SIZE)?;
                }
                write!(f, "\n  proved code: {mine:02x}\n  the other:   {theirs:02x}")
            }
            Difference::Length { part, lengths: [mine, theirs] } => {
                write!(f, "the {part} has {mine} bytes, the other's {theirs}")
            }
            Difference::Changed(part) => {
                write!(f, "the proved code refused, and the {part} is not as it was")
            }
            Difference::Trouble(trouble) => f.write_str(trouble.message()),
        }
    }
}
