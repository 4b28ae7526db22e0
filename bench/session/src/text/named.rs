//! Words that may be tokens by their names, and what the names stand for.

use std::collections::HashMap;
use std::fmt;

use crate::token::Token;

/// A word that may be a token by its name.
#[derive(Clone, Debug, PartialEq, Eq)]
pub enum Word {
    Number(u64),
    /// The token of that name, in another encoding if one is given, with an offset added.
    Name {
        name: String,
        encoding: Option<u64>,
        offset: u64,
    },
}

/// Tokens by their names.
pub type Names = HashMap<String, u64>;

/// Why a name stands for no token.
#[derive(Clone, Debug, PartialEq, Eq)]
pub enum Unresolved {
    /// No request has given it.
    NotGiven(String),
    /// Its encoding has no room for the number or the offset.
    DoesNotFit(String),
    /// A lease has no room for its number.
    NoLease(String),
}

impl fmt::Display for Unresolved {
    fn fmt(&self, to: &mut fmt::Formatter) -> fmt::Result {
        match self {
            Unresolved::NotGiven(name) => write!(to, "nobody gave '{name}'"),
            Unresolved::DoesNotFit(name) => {
                write!(to, "the encoding of '{name}' has no room for its number and offset")
            }
            Unresolved::NoLease(name) => {
                write!(to, "a lease has no room for the number of '{name}'")
            }
        }
    }
}

impl fmt::Display for Word {
    fn fmt(&self, to: &mut fmt::Formatter) -> fmt::Result {
        match self {
            Word::Number(number) => write!(to, "{number:#x}"),
            Word::Name { name, .. } => to.write_str(name),
        }
    }
}

impl Word {
    pub fn resolve(&self, names: &Names) -> Result<u64, Unresolved> {
        let (name, encoding, offset) = match self {
            Word::Number(number) => return Ok(*number),
            Word::Name { name, encoding, offset } => (name, *encoding, *offset),
        };
        let given = names.get(name).ok_or_else(|| Unresolved::NotGiven(name.clone()))?;
        let token = Token::unpack(*given);
        let offset = token.offset.checked_add(offset);
        let packed = offset.and_then(|offset| {
            Token { encoding: encoding.unwrap_or(token.encoding), offset, ..token }.pack().ok()
        });
        packed.ok_or_else(|| Unresolved::DoesNotFit(name.clone()))
    }
}
