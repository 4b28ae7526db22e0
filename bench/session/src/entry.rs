//! Entries: the fields of Table 2 at their places in the 32 bytes. The bench writes and reads entries
//! here alone; the model, which is a second implementation, has its own.

use crate::token;

pub const SIZE: usize = 32;

/// Bits of an entry: the first, counted from the top bit of byte 0, and how many.
#[derive(Clone, Copy, Debug, PartialEq, Eq)]
pub struct Bits(usize, usize);

impl Bits {
    pub fn width(self) -> usize {
        self.1
    }
}

pub const KIND: Bits = Bits(0, 3);
/// At the same place in both types that have it.
pub const BASE: Bits = Bits(3, 32);
/// At the same places in every type.
pub const PERMISSIONS: Bits = Bits(202, 3);
pub const LOCKED: Bits = Bits(205, 1);
pub const LOCKABLE: Bits = Bits(206, 1);
pub const COPY_ON_WRITE: Bits = Bits(207, 1);
pub const TAG: Bits = Bits(208, 16);
pub const NONCE: Bits = Bits(224, 32);
/// Of a direct entry; a paged one has its user there too.
pub const HOLDER: Bits = Bits(83, 55);
pub const USER: Bits = Bits(138, 64);
const DIRECT_LENGTH: Bits = Bits(35, 32);
const DIRECT_COUNT: Bits = Bits(67, 16);
/// Of an indirect entry.
pub const PARENT: Bits = Bits(35, 64);
const INDIRECT_LENGTH: Bits = Bits(99, 32);
const INDIRECT_COUNT: Bits = Bits(131, 16);
const ZEROS: Bits = Bits(147, 55);

/// Of a paged entry. Its user, permissions, flags, tag and nonce are where a direct one has them.
pub const PAGE_FILE: Bits = Bits(3, 64);
const PAGED_LENGTH: Bits = Bits(67, 32);
pub const PAGED_ZEROS: Bits = Bits(99, 39);

pub const FREE: u64 = 0;
pub const DIRECT: u64 = 1;
pub const INDIRECT: u64 = 2;
pub const PAGED: u64 = 3;

/// The fields of an entry. `Zeros` are the 55 bits of an indirect entry, or the 39 of a paged one,
/// that should be zero.
#[derive(Clone, Copy, Debug, PartialEq, Eq, PartialOrd, Ord)]
pub enum Field {
    PageFile,
    Base,
    Length,
    Parent,
    Count,
    Holder,
    User,
    Zeros,
    Permissions,
    Locked,
    Lockable,
    Cow,
    Tag,
    Nonce,
}

/// A type of entries in use.
#[derive(Debug)]
pub struct Type {
    pub kind: u64,
    pub name: &'static str,
    /// Its fields, in the order in which they are written.
    pub fields: &'static [(Field, Bits)],
}

/// Every type that is not ill-formed by its number.
pub const TYPES: &[Type] = &[
    Type {
        kind: DIRECT,
        name: "direct",
        fields: &[
            (Field::Base, BASE),
            (Field::Length, DIRECT_LENGTH),
            (Field::Count, DIRECT_COUNT),
            (Field::Holder, HOLDER),
            (Field::User, USER),
            (Field::Permissions, PERMISSIONS),
            (Field::Locked, LOCKED),
            (Field::Lockable, LOCKABLE),
            (Field::Cow, COPY_ON_WRITE),
            (Field::Tag, TAG),
            (Field::Nonce, NONCE),
        ],
    },
    Type {
        kind: INDIRECT,
        name: "indirect",
        fields: &[
            (Field::Base, BASE),
            (Field::Length, INDIRECT_LENGTH),
            (Field::Parent, PARENT),
            (Field::Count, INDIRECT_COUNT),
            (Field::Zeros, ZEROS),
            (Field::Permissions, PERMISSIONS),
            (Field::Locked, LOCKED),
            (Field::Lockable, LOCKABLE),
            (Field::Cow, COPY_ON_WRITE),
            (Field::Tag, TAG),
            (Field::Nonce, NONCE),
        ],
    },
    Type {
        kind: PAGED,
        name: "paged",
        fields: &[
            (Field::PageFile, PAGE_FILE),
            (Field::Length, PAGED_LENGTH),
            (Field::Zeros, PAGED_ZEROS),
            (Field::User, USER),
            (Field::Permissions, PERMISSIONS),
            (Field::Locked, LOCKED),
            (Field::Lockable, LOCKABLE),
            (Field::Cow, COPY_ON_WRITE),
            (Field::Tag, TAG),
            (Field::Nonce, NONCE),
        ],
    },
];

impl Type {
    pub fn of(kind: u64) -> Option<&'static Type> {
        TYPES.iter().find(|one| one.kind == kind)
    }

    pub fn named(name: &str) -> Option<&'static Type> {
        TYPES.iter().find(|one| one.name == name)
    }

    /// Where a field is; none if the type has no such field.
    pub fn place(&self, field: Field) -> Option<Bits> {
        self.fields.iter().find(|(own, _)| *own == field).map(|(_, bits)| *bits)
    }
}

/// The 32 bytes of an entry.
#[derive(Clone, Copy, Debug, Default, PartialEq, Eq)]
pub struct Entry(pub [u8; SIZE]);

impl Entry {
    /// The entry of a number; none beyond the table's whole entries.
    pub fn at(table: &[u8], number: usize) -> Option<Entry> {
        let from = number.checked_mul(SIZE)?;
        table.get(from..from.checked_add(SIZE)?)?.try_into().ok().map(Entry)
    }

    /// The entry of a number; zeros beyond the table.
    pub fn of(table: &[u8], number: usize) -> Entry {
        Entry::at(table, number).unwrap_or_default()
    }

    /// Puts the entry into a table, if the number is inside it.
    pub fn store(&self, table: &mut [u8], number: usize) {
        if let Some(part) = table.get_mut(SIZE * number..SIZE * (number + 1)) {
            part.copy_from_slice(&self.0);
        }
    }

    /// An entry of a type, all else zero.
    pub fn of_kind(kind: u64) -> Entry {
        Entry::default().with(KIND, kind)
    }

    /// A free entry that keeps a tag.
    pub fn free(tag: u64) -> Entry {
        Entry::of_kind(FREE).with(TAG, tag)
    }

    /// The tag that a free entry keeps, if all else is zero.
    pub fn kept_tag(&self) -> Option<u64> {
        let tag = self.get(TAG);
        (*self == Entry::free(tag)).then_some(tag)
    }

    /// A direct entry, unlocked, with count 0, R W X, Lockable.
    pub fn direct(base: u64, length: u64) -> Entry {
        let entry = Entry::of_kind(DIRECT).with(BASE, base);
        entry.with_length(length).with(PERMISSIONS, 7).with(LOCKABLE, 1)
    }

    /// An indirect entry with count 1 and R W X.
    pub fn indirect(base: u64, length: u64, parent: u64) -> Entry {
        let entry = Entry::of_kind(INDIRECT).with(BASE, base).with(PARENT, parent);
        entry.with_length(length).with_count(1).with(PERMISSIONS, 7)
    }

    /// A paged entry with R W X, Lockable.
    pub fn paged(page_file: u64, length: u64) -> Entry {
        let entry = Entry::of_kind(PAGED).with(PAGE_FILE, page_file);
        entry.with_length(length).with(PERMISSIONS, 7).with(LOCKABLE, 1)
    }

    /// Two words from one on, the first above the second; zeros behind the end.
    fn words(&self, index: usize) -> u128 {
        let (words, _) = self.0.as_chunks::<8>();
        let word = |at: usize| words.get(at).map_or(0, |bytes| u64::from_be_bytes(*bytes));
        u128::from(word(index)) << 64 | u128::from(word(index + 1))
    }

    pub fn get(&self, Bits(from, width): Bits) -> u64 {
        let both = self.words(from / 64);
        ((both << (from % 64)) >> (128 - width)) as u64
    }

    /// The entry with other bits; what does not fit is cut off.
    #[must_use]
    pub fn with(mut self, Bits(from, width): Bits, value: u64) -> Entry {
        let (index, shift) = (from / 64, 128 - from % 64 - width);
        let mask = (u128::MAX >> (128 - width)) << shift;
        let both = self.words(index) & !mask | (u128::from(value) << shift) & mask;
        let words = self.0.as_chunks_mut::<8>().0.iter_mut().skip(index);
        for (word, part) in words.zip([both >> 64, both]) {
            *word = (part as u64).to_be_bytes();
        }
        self
    }

    /// 0 free; what is no type's number is ill-formed.
    pub fn kind(&self) -> u64 {
        self.get(KIND)
    }

    pub fn is_free(&self) -> bool {
        self.kind() == FREE
    }

    /// Where a field is; none if the entry's type has no such field.
    pub fn place(&self, field: Field) -> Option<Bits> {
        Type::of(self.kind()).and_then(|own| own.place(field))
    }

    /// A field's value; 0 if the entry's type has no such field.
    pub fn field(&self, field: Field) -> u64 {
        self.place(field).map_or(0, |bits| self.get(bits))
    }

    /// The entry with another value in a field; the same if its type has no such field.
    #[must_use]
    pub fn with_field(self, field: Field, value: u64) -> Entry {
        self.place(field).map_or(self, |bits| self.with(bits, value))
    }

    /// Where length and count are; where no type is told, as in a direct entry.
    fn length_bits(&self) -> Bits {
        self.place(Field::Length).unwrap_or(DIRECT_LENGTH)
    }

    fn count_bits(&self) -> Bits {
        self.place(Field::Count).unwrap_or(DIRECT_COUNT)
    }

    pub fn length(&self) -> u64 {
        self.get(self.length_bits())
    }

    pub fn count(&self) -> u64 {
        self.get(self.count_bits())
    }

    #[must_use]
    pub fn with_length(self, length: u64) -> Entry {
        self.with(self.length_bits(), length)
    }

    #[must_use]
    pub fn with_count(self, count: u64) -> Entry {
        self.with(self.count_bits(), count)
    }

    #[must_use]
    pub fn locked_for(self, holder: u64) -> Entry {
        self.with(HOLDER, holder).with(LOCKED, u64::from(holder != 0))
    }

    pub fn end(&self) -> u64 {
        self.get(BASE) + self.length()
    }

    /// The token in an encoding, by the entry's present tag.
    pub fn token(&self, number: usize, encoding: u64) -> u64 {
        token::packed(encoding, self.get(TAG), number as u64, 0)
    }
}

#[cfg(test)]
mod tests {
    use super::*;

    #[test]
    fn the_root_entry_of_01() {
        let mut root = [0; SIZE];
        (root[0], root[6], root[25]) = (0x20, 0x20, 0x3A);
        assert_eq!(Entry::direct(0, 65_536), Entry(root));
    }

    /// Every bit behind the type belongs to exactly one field, so that fields fix an entry.
    #[test]
    fn fields_cover_the_entry_once() {
        for one in TYPES {
            let mut covered = [0; 8 * SIZE];
            for (_, Bits(from, width)) in one.fields {
                covered[*from..from + width].iter_mut().for_each(|times| *times += 1);
            }
            assert_eq!(covered[..3], [0; 3]);
            assert_eq!(covered[3..], [1; 253]);
        }
    }

    #[test]
    fn fields_are_read_as_they_were_written() {
        let fields = TYPES.iter().flat_map(|one| one.fields).map(|(_, bits)| *bits);
        for bits in fields.chain([KIND]) {
            let ones = u64::MAX >> (64 - bits.width());
            assert_eq!(Entry([0; SIZE]).with(bits, ones).get(bits), ones);
            assert_eq!(Entry([0xFF; SIZE]).with(bits, 0).get(bits), 0);
            let set = Entry([0; SIZE]).with(bits, ones);
            let count: u32 = set.0.iter().map(|byte| byte.count_ones()).sum();
            assert_eq!(count as usize, bits.width());
        }
    }
}
