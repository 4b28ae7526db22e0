//! Single words: numbers, permissions, names and tokens.

use super::arguments;
use super::named::Word;
use crate::entry::{Field, TYPES};
use crate::token::Token;
use bridge::{Argument, Operation, Place};

/// A number, decimal or hex behind 0x; `_` may part digits.
pub fn number(word: &str) -> Option<u64> {
    let (digits, radix) = match word.strip_prefix("0x") {
        Some(digits) => (digits, 16),
        None => (word, 10),
    };
    let starts = digits.starts_with(|first: char| first.is_digit(radix));
    let plain: String = digits.chars().filter(|digit| *digit != '_').collect();
    u64::from_str_radix(&plain, radix).ok().filter(|_| starts)
}

/// Whether a word is a number that has more than 64 bits.
pub fn is_too_wide(word: &str) -> bool {
    let (digits, radix) = word.strip_prefix("0x").map_or((word, 10), |digits| (digits, 16));
    let starts = digits.starts_with(|first: char| first.is_digit(radix));
    let is_number = digits.chars().all(|letter| letter.is_digit(radix) || letter == '_');
    starts && is_number && number(word).is_none()
}

/// Short numbers in decimal, long ones in hex.
pub fn number_text(number: u64) -> String {
    if number <= 1 << 32 {
        number.to_string()
    } else {
        format!("{number:#x}")
    }
}

/// Permissions as letters of RWX, as `-` for none, or as a number.
pub fn permissions(word: &str) -> Option<u64> {
    if word == "-" {
        return Some(0);
    }
    let add = |sum: u64, letter| {
        let bit = permission(letter)?;
        (sum & bit == 0).then_some(sum | bit)
    };
    number(word).or_else(|| word.chars().try_fold(0, add))
}

fn permission(letter: char) -> Option<u64> {
    match letter {
        'R' => Some(4),
        'W' => Some(2),
        'X' => Some(1),
        _ => None,
    }
}

pub fn permissions_text(permissions: u64) -> String {
    match permissions {
        0 => "-".to_string(),
        1..=7 => "RWX"
            .chars()
            .filter(|letter| permission(*letter).unwrap_or(0) & permissions != 0)
            .collect(),
        _ => number_text(permissions),
    }
}

/// Words that cannot be names, since the lines of requests use them: these, those of operations and
/// those of arguments.
const RESERVED: [&str; 10] =
    ["root", "operation", "first", "buffer", "leases", "granted", "number", "as", "exact", "entry"];

fn is_reserved(word: &str) -> bool {
    let argument = Argument::ALL.iter().any(|argument| arguments::word(*argument) == word);
    let place = place_of(word).is_some();
    RESERVED.contains(&word) || argument || place || Operation::named(word).is_some()
}

/// The words of places, behind a refusal's number.
const PLACES: [(&str, Place); 2] = [("named", Place::Named), ("ancestor", Place::Ancestor)];

pub fn place_of(word: &str) -> Option<Place> {
    PLACES.iter().find(|(name, _)| *name == word).map(|(_, place)| *place)
}

pub fn place_word(place: Place) -> &'static str {
    PLACES.iter().find(|(_, other)| *other == place).map_or("", |(name, _)| name)
}

pub fn is_name(word: &str) -> bool {
    let starts = word.starts_with(|first: char| first.is_ascii_alphabetic());
    let inside = |letter: char| letter.is_ascii_alphanumeric() || letter == '_' || letter == '-';
    starts && word.chars().all(inside) && !is_reserved(word)
}

/// A token: a number, `NAME` or `@NUMBER:TAG`, the last two with `/ENCODING` and `+OFFSET`
/// behind. `encoding` is the encoding of `@` and `root` where none is written.
pub fn token(word: &str, encoding: u64) -> Option<Word> {
    if let Some(number) = number(word) {
        return Some(Word::Number(number));
    }
    let (word, offset) = suffix(word, '+')?;
    let (word, stated) = suffix(word, '/')?;
    let offset = offset.unwrap_or(0);
    if is_name(word) {
        let known = stated.is_none_or(|encoding| encoding <= 3);
        return known.then(|| Word::Name { name: word.to_string(), encoding: stated, offset });
    }
    let (number, tag) = named_entry(word)?;
    let token = Token { encoding: stated.unwrap_or(encoding), tag, number, offset };
    token.pack().ok().map(Word::Number)
}

/// `root` is number 0 with tag 0; `@NUMBER:TAG` is any entry.
fn named_entry(word: &str) -> Option<(u64, u64)> {
    if word == "root" {
        return Some((0, 0));
    }
    let (entry, tag) = word.strip_prefix('@')?.split_once(':')?;
    Some((number(entry)?, number(tag)?))
}

/// What stands before a mark, and the number behind it if the mark is there.
fn suffix(word: &str, mark: char) -> Option<(&str, Option<u64>)> {
    match word.split_once(mark) {
        Some((before, behind)) => Some((before, Some(number(behind)?))),
        None => Some((word, None)),
    }
}

/// A word as a token. `encoding` is the one that need not be written.
pub fn token_text(word: u64, encoding: u64) -> String {
    let token = Token::unpack(word);
    let entry = match token.is_root() {
        true => "root".to_string(),
        false => format!("@{}:{:#06x}", number_text(token.number), token.tag),
    };
    entry + &suffixes(token.encoding, encoding, token.offset)
}

/// `/ENCODING` unless it is the usual one, and `+OFFSET` unless it is 0.
pub fn suffixes(encoding: u64, usual: u64, offset: u64) -> String {
    let encoding = if encoding == usual { String::new() } else { format!("/{encoding}") };
    let offset = if offset == 0 { String::new() } else { format!("+{offset}") };
    encoding + &offset
}

/// The field of a word, if some type has it.
pub fn field_of(word: &str) -> Option<Field> {
    let fields = TYPES.iter().flat_map(|own| own.fields).map(|(field, _)| *field);
    fields.into_iter().find(|field| field_name(*field) == word)
}

/// The word of a field.
pub fn field_name(field: Field) -> &'static str {
    match field {
        Field::PageFile => "page-file",
        Field::Base => "base",
        Field::Length => "length",
        Field::Parent => "parent",
        Field::Count => "count",
        Field::Holder => "holder",
        Field::User => "user",
        Field::Zeros => "zeros",
        Field::Permissions => "permissions",
        Field::Locked => "locked",
        Field::Lockable => "lockable",
        Field::Cow => "cow",
        Field::Tag => "tag",
        Field::Nonce => "nonce",
    }
}
