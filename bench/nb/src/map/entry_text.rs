//! An entry's fields in words.

use std::fmt::Write;

use session::entry::{self, Entry, Field, Type};
use session::text::{number_text, permissions_text};

/// Of a segment's own entry.
pub fn segment_text(entry: &Entry) -> String {
    let length = entry.field(Field::Length);
    format!("{length} bytes, {}{}{}", rights(entry), own(entry), issued(entry))
}

/// Of an entry that is paged out, which has no count.
fn paged_text(entry: &Entry) -> String {
    let (length, file) = (entry.field(Field::Length), entry.field(Field::PageFile));
    let (file, rights) = (number_text(file), letters(entry));
    format!("{length} bytes at page {file}, {rights}{}{}", own(entry), issued(entry))
}

/// What a derived entry has not: Lockable and a user.
fn own(entry: &Entry) -> String {
    let (lockable, user) = (entry.field(Field::Lockable) != 0, entry.field(Field::User));
    let mut text = if lockable { ", Lockable".to_string() } else { String::new() };
    if user != 0 {
        let _ = write!(text, ", user {}", number_text(user));
    }
    text
}

/// Of any other entry, with its place in memory or its page-file number. Of an unknown type only that
/// is told.
pub fn place_text(entry: &Entry) -> String {
    let (base, length) = (entry.field(Field::Base), entry.field(Field::Length));
    match Type::of(entry.kind()) {
        None => format!("type {}", entry.kind()),
        Some(_) if entry.kind() == entry::PAGED => paged_text(entry),
        Some(_) => {
            format!("{length} bytes at 0x{base:08x}, {}{}", rights(entry), issued(entry))
        }
    }
}

/// Permissions as three places, and the count.
fn rights(entry: &Entry) -> String {
    format!("{}, count {}", letters(entry), entry.field(Field::Count))
}

fn letters(entry: &Entry) -> String {
    let held = permissions_text(entry.field(Field::Permissions));
    let letter = |letter: char| if held.contains(letter) { letter } else { '-' };
    "RWX".chars().map(letter).collect()
}

fn issued(entry: &Entry) -> String {
    format!(", tag {:#06x}, nonce {}", entry.get(entry::TAG), entry.get(entry::NONCE))
}
