//! Entries: Table 2. "Byte 0 holds the top bits."
//!
//! The 32 bytes are handled as four words, the top one first:
//!
//! | word | direct | indirect |
//! |---|---|---|
//! | 0 | type 3, base 32, length's upper 29 | type 3, base 32, parent's upper 29 |
//! | 1 | length's lower 3, count 16, holder's upper 45 | parent's lower 35, length's upper 29 |
//! | 2 | holder's lower 10, user's upper 54 | length's lower 3, count 16, 45 zeros |
//! | 3 | user's lower 10, R, W, X, Locked, Lockable, CoW, tag 16, nonce 32 | 10 zeros, the same |
//!
//! 02, paper 6, adds the paged one. Its word 0 is type 3, page-file number's
//! upper 61; word 1 the number's lower 3, length 32, 29 zeros; word 2 10 zeros,
//! user's upper 54; word 3 is a direct one's.

use crate::token;

const DIRECT: u64 = 1;
const INDIRECT: u64 = 2;
const PAGED: u64 = 3;
const LOW_29: u64 = (1 << 29) - 1;
const LOW_45: u64 = (1 << 45) - 1;

// The six bits above the tag.
const LOCKED: u8 = 4;
const LOCKABLE: u8 = 2;
const COPY_ON_WRITE: u8 = 1;

/// The 32 bytes of one entry, not yet judged.
#[derive(Clone, Copy, Debug, PartialEq, Eq)]
pub struct Raw([u64; 4]);

/// A well-formed entry in use.
#[derive(Clone, Copy, Debug, PartialEq, Eq)]
pub struct Entry {
    /// A paged entry has neither base nor count: both are 0 here.
    pub base: u32,
    pub length: u32,
    pub count: u16,
    pub permissions: u8,
    pub tag: u16,
    pub nonce: u32,
    pub kind: Kind,
}

#[derive(Clone, Copy, Debug, PartialEq, Eq)]
pub enum Kind {
    Direct(Direct),
    /// The parent's token in encoding 1.
    Indirect(u64),
    Paged(Paged),
}

#[derive(Clone, Copy, Debug, PartialEq, Eq)]
pub struct Direct {
    /// Zero while unlocked, and only then.
    pub holder: u64,
    pub user: u64,
    pub lockable: bool,
}

/// 02, paper 6: "type, page-file number 64 as requested, length 32, 39 zeros,
/// user 64, the rest as direct, unlocked".
#[derive(Clone, Copy, Debug, PartialEq, Eq)]
pub struct Paged {
    pub page_file: u64,
    pub user: u64,
    pub lockable: bool,
}

impl Raw {
    #[inline]
    pub fn load(part: &[u8; 32]) -> Raw {
        let (words, _) = part.as_chunks::<8>();
        Raw([0, 1, 2, 3].map(|at: usize| u64::from_be_bytes(words[at])))
    }

    #[inline]
    pub fn store(self, part: &mut [u8; 32]) {
        let (words, _) = part.as_chunks_mut::<8>();
        for (place, word) in words.iter_mut().zip(self.0) {
            *place = word.to_be_bytes();
        }
    }

    /// A free entry with its kept tag: type 0, "all else zero".
    #[inline]
    pub fn free(tag: u16) -> Raw {
        Raw([0; 4]).with_tag(tag)
    }

    /// "Type 0 is free whatever its other bytes hold."
    #[inline]
    pub fn is_free(self) -> bool {
        self.0[0] >> 61 == 0
    }

    /// Type 3, well-formed or not.
    #[inline]
    pub fn is_paged(self) -> bool {
        self.0[0] >> 61 == PAGED
    }

    /// The six bits above the tag.
    #[inline]
    fn flags(self) -> u8 {
        (self.0[3] >> 48) as u8 & 0x3F
    }

    /// Tag and nonce are "at the same places" in every type.
    #[inline]
    pub fn tag(self) -> u16 {
        (self.0[3] >> 32) as u16
    }

    #[inline]
    pub fn nonce(self) -> u32 {
        self.0[3] as u32
    }

    #[inline]
    pub fn with_tag(self, tag: u16) -> Raw {
        let [a, b, c, d] = self.0;
        Raw([a, b, c, d & !(0xFFFF << 32) | u64::from(tag) << 32])
    }

    /// The four words as SipHash reads the 32 bytes, low byte first.
    #[inline]
    pub fn hashed(self) -> [u64; 4] {
        self.0.map(u64::swap_bytes)
    }

    /// The fields, or none if the entry is free or "Ill-formed: type above 2,
    /// length 0, an end past memory, a one where this section says zero, a
    /// parent not in encoding 1, or a holder that is zero while Locked or
    /// nonzero while not". Type 3 has a rule of its own.
    #[inline(always)]
    pub fn fields(self, memory_length: u64) -> Option<Entry> {
        let [a, b, c, d] = self.0;
        let flags = self.flags();
        let (length, count, kind) = match a >> 61 {
            DIRECT => {
                let holder = (b & LOW_45) << 10 | c >> 54;
                if (flags & LOCKED != 0) != (holder != 0) {
                    return None;
                }
                let user = c << 10 | d >> 54;
                let lockable = flags & LOCKABLE != 0;
                let kind = Kind::Direct(Direct { holder, user, lockable });
                ((a << 3 | b >> 61) as u32, (b >> 45) as u16, kind)
            }
            INDIRECT => {
                let parent = a << 35 | b >> 29;
                let zeros = c & LOW_45 | d >> 54 | u64::from(flags & (LOCKED | LOCKABLE));
                if zeros != 0 || token::encoding(parent) != token::PARENT_ENCODING {
                    return None;
                }
                ((b << 3 | c >> 61) as u32, (c >> 45) as u16, Kind::Indirect(parent))
            }
            PAGED => return self.paged_fields(),
            _ => return None,
        };
        let base = (a >> 29) as u32;
        let end = u64::from(base) + u64::from(length);
        // "CoW is always 0 here."
        if length == 0 || end > memory_length || flags & COPY_ON_WRITE != 0 {
            return None;
        }
        let (permissions, tag, nonce) = (flags >> 3, self.tag(), self.nonce());
        Some(Entry { base, length, count, permissions, tag, nonce, kind })
    }

    /// 02, paper 6: "Type 3 is ill-formed only at length 0 or with a one where
    /// zero belongs": in the 39 zeros, in Locked ("unlocked") and in CoW.
    fn paged_fields(self) -> Option<Entry> {
        let [a, b, c, d] = self.0;
        let flags = self.flags();
        let ones = b & LOW_29 | c >> 54 | u64::from(flags & (LOCKED | COPY_ON_WRITE));
        let length = (b >> 29) as u32;
        if length == 0 || ones != 0 {
            return None;
        }
        let paged = Paged {
            page_file: a << 3 | b >> 61,
            user: c << 10 | d >> 54,
            lockable: flags & LOCKABLE != 0,
        };
        Some(Entry {
            base: 0,
            length,
            count: 0,
            permissions: flags >> 3,
            tag: self.tag(),
            nonce: self.nonce(),
            kind: Kind::Paged(paged),
        })
    }
}

impl Entry {
    #[inline]
    pub fn pack(&self) -> Raw {
        let base = u64::from(self.base) << 29;
        let length = u64::from(self.length);
        let count = u64::from(self.count) << 45;
        let low = u64::from(self.tag) << 32 | u64::from(self.nonce);
        let flag = |flags: u8| u64::from(flags) << 48;
        let rights = flag((self.permissions & 7) << 3);
        let lockable = |lockable: bool| if lockable { flag(LOCKABLE) } else { 0 };
        match self.kind {
            Kind::Direct(Direct { holder, user, lockable: may }) => {
                let locked = if holder != 0 { flag(LOCKED) } else { 0 };
                let lockable = lockable(may);
                Raw([
                    DIRECT << 61 | base | length >> 3,
                    length << 61 | count | holder >> 10 & LOW_45,
                    holder << 54 | user >> 10,
                    user << 54 | rights | locked | lockable | low,
                ])
            }
            Kind::Indirect(parent) => Raw([
                INDIRECT << 61 | base | parent >> 35,
                parent << 29 | length >> 3,
                length << 61 | count,
                rights | low,
            ]),
            Kind::Paged(Paged { page_file, user, lockable: may }) => Raw([
                PAGED << 61 | page_file >> 3,
                page_file << 61 | length << 29,
                user >> 10,
                user << 54 | rights | lockable(may) | low,
            ]),
        }
    }
}

#[cfg(test)]
mod tests {
    use super::*;
    use crate::permissions::ALL;

    const MEMORY: u64 = 1 << 24;

    /// The 32 bytes from a list of (value, width), the top bits first.
    fn bytes(fields: &[(u64, usize)]) -> [u8; 32] {
        let mut part = [0; 32];
        let mut at = 0;
        for &(value, width) in fields {
            for bit in (0..width).rev() {
                part[at / 8] |= ((value >> bit & 1) as u8) << (7 - at % 8);
                at += 1;
            }
        }
        assert_eq!(at, 256);
        part
    }

    fn next(seed: &mut u64) -> u64 {
        *seed = seed.wrapping_add(0x9e37_79b9_7f4a_7c15);
        let x = (*seed ^ (*seed >> 30)).wrapping_mul(0xbf58_476d_1ce4_e5b9);
        let x = (x ^ (x >> 27)).wrapping_mul(0x94d0_49bb_1331_11eb);
        x ^ (x >> 31)
    }

    #[test]
    fn the_root_over_65_536_bytes() {
        let direct = Direct { holder: 0, user: 0, lockable: true };
        let root = Entry {
            base: 0,
            length: 65_536,
            count: 0,
            permissions: ALL,
            tag: 0,
            nonce: 0,
            kind: Kind::Direct(direct),
        };
        let mut part = [0xEE; 32];
        root.pack().store(&mut part);
        let mut wanted = [0; 32];
        (wanted[0], wanted[6], wanted[25]) = (0x20, 0x20, 0x3A);
        assert_eq!(part, wanted);
    }

    #[test]
    fn fields_stand_where_table_2_puts_them() {
        let mut seed = 1;
        for _ in 0..5_000 {
            let (base, length) = (next(&mut seed) >> 41, (next(&mut seed) >> 41) + 1);
            let (count, tag) = (next(&mut seed) >> 48, next(&mut seed) >> 48);
            let (user, nonce) = (next(&mut seed), next(&mut seed) >> 32);
            let rights = next(&mut seed) >> 61;
            let holder = if seed & 1 == 0 { next(&mut seed) >> 9 } else { 0 };
            let lockable = next(&mut seed) >> 63;
            let locked = u64::from(holder != 0);
            let page_file = next(&mut seed);
            let direct = bytes(&[
                (1, 3),
                (base, 32),
                (length, 32),
                (count, 16),
                (holder, 55),
                (user, 64),
                (rights, 3),
                (locked, 1),
                (lockable, 1),
                (0, 1),
                (tag, 16),
                (nonce, 32),
            ]);
            let paged = bytes(&[
                (3, 3),
                (page_file, 64),
                (length, 32),
                (0, 39),
                (user, 64),
                (rights, 3),
                (0, 1),
                (lockable, 1),
                (0, 1),
                (tag, 16),
                (nonce, 32),
            ]);
            let parent = 1 << 62 | user >> 2;
            let indirect = bytes(&[
                (2, 3),
                (base, 32),
                (parent, 64),
                (length, 32),
                (count, 16),
                (0, 55),
                (rights, 3),
                (0, 3),
                (tag, 16),
                (nonce, 32),
            ]);
            let lockable = lockable == 1;
            let kinds = [
                (direct, Kind::Direct(Direct { holder, user, lockable })),
                (indirect, Kind::Indirect(parent)),
                (paged, Kind::Paged(Paged { page_file, user, lockable })),
            ];
            for (part, kind) in kinds {
                let in_memory = !matches!(kind, Kind::Paged(_));
                let entry = Entry {
                    base: if in_memory { base as u32 } else { 0 },
                    length: length as u32,
                    count: if in_memory { count as u16 } else { 0 },
                    permissions: rights as u8,
                    tag: tag as u16,
                    nonce: nonce as u32,
                    kind,
                };
                assert_eq!(Raw::load(&part).fields(MEMORY), Some(entry));
                assert_eq!(entry.pack(), Raw::load(&part));
            }
        }
    }

    #[test]
    fn what_is_read_packs_again_to_the_same_bits() {
        let mut seed = 2;
        let mut well_formed = 0;
        for _ in 0..200_000 {
            let mut part = [0; 32];
            Raw([0; 4].map(|_| next(&mut seed) & next(&mut seed) & next(&mut seed)))
                .store(&mut part);
            let raw = Raw::load(&part);
            if let Some(entry) = raw.fields(u64::MAX) {
                well_formed += 1;
                assert_eq!(entry.pack(), raw);
            }
        }
        assert!(well_formed > 100);
    }

    #[test]
    fn ill_formed_entries() {
        let direct = |length, holder, locked, cow| {
            bytes(&[
                (1, 3),
                (8, 32),
                (length, 32),
                (0, 16),
                (holder, 55),
                (0, 64),
                (7, 3),
                (locked, 1),
                (0, 1),
                (cow, 1),
                (9, 16),
                (3, 32),
            ])
        };
        let indirect = |encoding: u64, zeros: u64, flags: u64| {
            bytes(&[
                (2, 3),
                (8, 32),
                (encoding << 62, 64),
                (8, 32),
                (0, 16),
                (zeros, 55),
                (7, 3),
                (flags, 3),
                (9, 16),
                (3, 32),
            ])
        };
        let paged = |length: u64, zeros: u64, locked: u64, cow: u64| {
            bytes(&[
                (3, 3),
                (u64::MAX, 64),
                (length, 32),
                (zeros, 39),
                (u64::MAX, 64),
                (7, 3),
                (locked, 1),
                (1, 1),
                (cow, 1),
                (9, 16),
                (3, 32),
            ])
        };
        let good = |part: [u8; 32]| Raw::load(&part).fields(16).is_some();
        assert!(good(direct(8, 0, 0, 0)) && good(direct(8, 1, 1, 0)) && good(indirect(1, 0, 0)));
        assert!(!good(direct(0, 0, 0, 0)));
        assert!(!good(direct(9, 0, 0, 0)));
        assert!(!good(direct(8, 0, 1, 0)));
        assert!(!good(direct(8, 1, 0, 0)));
        assert!(!good(direct(8, 0, 0, 1)));
        for encoding in [0, 2, 3] {
            assert!(!good(indirect(encoding, 0, 0)));
        }
        for bit in 0..55 {
            assert!(!good(indirect(1, 1 << bit, 0)));
        }
        for flags in [1, 2, 4] {
            assert!(!good(indirect(1, 0, flags)));
        }
        for kind in 4..8 {
            for mut part in [direct(8, 0, 0, 0), indirect(1, 0, 0), paged(8, 0, 0, 0)] {
                part[0] = part[0] & 0x1F | kind << 5;
                assert!(!good(part));
            }
        }
        // A paged entry has no end that could be past memory.
        for length in [1, 16, 17, u32::MAX.into()] {
            assert!(good(paged(length, 0, 0, 0)));
        }
        assert!(!good(paged(0, 0, 0, 0)));
        assert!(!good(paged(8, 0, 1, 0)) && !good(paged(8, 0, 0, 1)));
        for bit in 0..39 {
            assert!(!good(paged(8, 1 << bit, 0, 0)));
        }
        let end = bytes(&[
            (1, 3),
            (u32::MAX.into(), 32),
            (u32::MAX.into(), 32),
            (0, 16),
            (0, 55),
            (0, 64),
            (7, 3),
            (0, 3),
            (9, 16),
            (3, 32),
        ]);
        assert!(!good(end));
    }
}
