//! Leases as text: `TOKEN=OPENING..CLOSING`, or any bytes.

use super::bytes::{self, LIMIT};
use super::cursor::Cursor;
use super::error::Error;
use super::named::{Names, Unresolved, Word};
use super::words;
use crate::token::{packed, Token};
use bridge::{Lease, LEASE_BYTES};

/// Leases that are lent with a request, as they are written.
#[derive(Clone, Debug, Default, PartialEq, Eq)]
pub struct Leases(Vec<Part>);

/// A token's lease, so many times, or bytes.
#[derive(Clone, Debug, PartialEq, Eq)]
enum Part {
    Lease { token: Word, minutes: [u16; 2], times: usize },
    Bytes(Vec<u8>),
}

const EXPECTED: &str =
    "leases: 'TOKEN=OPENING..CLOSING', the token's number and both minutes below \
     65,536, or bytes; '*COUNT' behind them to repeat them";

impl Leases {
    /// Bytes by the leases that they are; what is left over stays bytes.
    pub fn of(bytes: &[u8]) -> Leases {
        let (whole, rest) = bytes.as_chunks::<LEASE_BYTES>();
        let mut parts: Vec<Part> = Vec::new();
        for lease in whole.chunk_by(|one, other| one == other) {
            let Lease { number, tag, opening, closing } = Lease::from_bytes(lease[0]);
            let token = Word::Number(shortest(number.into(), tag.into()));
            parts.push(Part::Lease { token, minutes: [opening, closing], times: lease.len() });
        }
        if !rest.is_empty() {
            parts.push(Part::Bytes(rest.to_vec()));
        }
        Leases(parts)
    }

    pub fn is_empty(&self) -> bool {
        self.length() == 0
    }

    /// How many bytes they have.
    pub fn length(&self) -> usize {
        self.0.iter().map(Part::length).sum()
    }

    /// The bytes, with the tokens that the names stand for.
    pub fn resolve(&self, names: &Names) -> Result<Vec<u8>, Unresolved> {
        let parts: Result<Vec<Vec<u8>>, _> =
            self.0.iter().map(|part| part.resolve(names)).collect();
        parts.map(|parts| parts.concat())
    }

    /// Writes each token in another way, as a function of its word says.
    pub fn rename(&mut self, named: impl Fn(u64) -> Word) {
        for part in &mut self.0 {
            if let Part::Lease { token, .. } = part {
                if let Word::Number(word) = token {
                    *token = without_suffixes(named(*word));
                }
            }
        }
    }

    /// Leases up to the first word that is none; at least one. A name must be known.
    pub fn read(cursor: &mut Cursor, is_known: impl Fn(&str) -> bool) -> Result<Leases, Error> {
        let (mut parts, mut length, mut found) = (Vec::new(), 0, false);
        while let Some((part, times)) = cursor.peek().and_then(|word| unit(word, &is_known)) {
            length = part.length().saturating_mul(times).saturating_add(length);
            if length > LIMIT {
                return Err(cursor.error(&format!("at most {LIMIT} bytes in one place")));
            }
            parts.extend(part.repeated(times));
            cursor.next("")?;
            found = true;
        }
        match found {
            true => Ok(Leases(by_tokens(parts))),
            false => Err(cursor.error(EXPECTED)),
        }
    }

    /// As one argument; `named` writes a token.
    pub fn text(&self, named: impl Fn(&Word) -> String) -> String {
        bytes::joined_text(self.0.iter().flat_map(|part| part.items(&named)).collect())
    }
}

/// The same, with bytes by the leases that they are, where they begin as one does.
fn by_tokens(parts: Vec<Part>) -> Vec<Part> {
    let (mut written, mut length) = (Vec::new(), 0);
    let both_bytes =
        |one: &Part, two: &Part| matches!((one, two), (Part::Bytes(_), Part::Bytes(_)));
    for run in parts.chunk_by(both_bytes) {
        let aligned = length % LEASE_BYTES == 0;
        length += run.iter().map(Part::length).sum::<usize>();
        match run[0] {
            Part::Bytes(_) if aligned => written.extend(Leases::of(&all_bytes(run)).0),
            Part::Bytes(_) => written.push(Part::Bytes(all_bytes(run))),
            Part::Lease { .. } => written.extend_from_slice(run),
        }
    }
    written
}

/// The bytes of parts that are nothing else.
fn all_bytes(parts: &[Part]) -> Vec<u8> {
    let bytes = parts.iter().filter_map(|part| match part {
        Part::Bytes(bytes) => Some(&bytes[..]),
        Part::Lease { .. } => None,
    });
    bytes.collect::<Vec<&[u8]>>().concat()
}

/// What a word stands for, and how often.
fn unit(word: &str, is_known: &impl Fn(&str) -> bool) -> Option<(Part, usize)> {
    let (body, times) = bytes::split_repeat(word)?;
    let part = bytes::unit(body).map(Part::Bytes).or_else(|| lease(body, is_known))?;
    Some((part, times))
}

/// `TOKEN=OPENING..CLOSING`.
fn lease(body: &str, is_known: &impl Fn(&str) -> bool) -> Option<Part> {
    let (token, minutes) = body.split_once('=')?;
    let (opening, closing) = minutes.split_once("..")?;
    let minute = |word: &str| u16::try_from(words::number(word)?).ok();
    let token = words::token(token, 0).filter(|token| match token {
        Word::Name { name, .. } => is_known(name),
        Word::Number(word) => u16::try_from(Token::unpack(*word).number).is_ok(),
    })?;
    Some(Part::Lease { token, minutes: [minute(opening)?, minute(closing)?], times: 1 })
}

impl Part {
    /// It so many times; none for no time.
    fn repeated(self, times: usize) -> Option<Part> {
        let part = match self {
            Part::Lease { token, minutes, .. } => Part::Lease { token, minutes, times },
            Part::Bytes(bytes) => Part::Bytes(bytes.repeat(times)),
        };
        (times > 0).then_some(part)
    }

    fn length(&self) -> usize {
        match self {
            Part::Lease { times, .. } => times.saturating_mul(LEASE_BYTES),
            Part::Bytes(bytes) => bytes.len(),
        }
    }

    fn resolve(&self, names: &Names) -> Result<Vec<u8>, Unresolved> {
        let (token, [opening, closing], times) = match self {
            Part::Lease { token, minutes, times } => (token, *minutes, *times),
            Part::Bytes(bytes) => return Ok(bytes.clone()),
        };
        let word = bridge::Token(token.resolve(names)?);
        let lease = Lease::of(word, opening, closing);
        let lease = lease.ok_or_else(|| Unresolved::NoLease(token.to_string()))?;
        Ok(lease.to_bytes().repeat(times))
    }

    fn items(&self, named: &impl Fn(&Word) -> String) -> Vec<bytes::Item> {
        match self {
            Part::Lease { token, minutes: [opening, closing], times } => {
                let repeat = if *times == 1 { String::new() } else { format!("*{times}") };
                vec![(format!("{}={opening}..{closing}{repeat}", named(token)), self.length())]
            }
            Part::Bytes(bytes) => bytes::hex_items(bytes),
        }
    }
}

/// Number and tag in the first encoding that has room for them.
fn shortest(number: u64, tag: u64) -> u64 {
    let plain = packed(0, tag, number, 0);
    match Token::unpack(plain).number == number {
        true => plain,
        false => packed(1, tag, number, 0),
    }
}

/// A lease has no encoding and no offset.
fn without_suffixes(word: Word) -> Word {
    match word {
        Word::Name { name, .. } => Word::Name { name, encoding: None, offset: 0 },
        number => number,
    }
}
