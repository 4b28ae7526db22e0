//! Leases: at which minutes of the week a token opens accesses.

use crate::token::Token;

/// How many bytes a lease has, and all that are lent together at most.
pub const LEASE_BYTES: usize = 8;
pub const LEASES_BYTES: usize = 512;

/// The minutes of a week. Monday 00:00 is minute 0.
pub const WEEK: u64 = 10_080;

/// A token, by its number and tag, is open from one minute of the week up to the one before another.
#[derive(Clone, Copy, Debug, Default, PartialEq, Eq, PartialOrd, Ord, Hash)]
pub struct Lease {
    pub number: u16,
    pub tag: u16,
    /// The first minute at which it is open.
    pub opening: u16,
    /// The first minute at which it is closed; one before the opening is next week's.
    pub closing: u16,
}

/// When accesses are asked, and the leases that they are under.
#[derive(Clone, Copy, Debug, PartialEq, Eq)]
pub struct Shift<'a> {
    /// The minute of the week: it is the caller's clock, and the machine remembers none.
    pub minute: u64,
    /// At most 64, as [`Lease::to_bytes`] gives each.
    pub leases: &'a [[u8; LEASE_BYTES]],
}

impl Lease {
    /// A lease of a token, in any encoding; none if its number is beyond those that a lease can name.
    pub fn of(token: Token, opening: u16, closing: u16) -> Option<Lease> {
        let (number, tag) = (u16::try_from(token.number()).ok()?, token.tag() as u16);
        Some(Lease { number, tag, opening, closing })
    }

    /// Whether it is that token's: of the same number and tag.
    pub fn is_of(self, token: Token) -> bool {
        (u64::from(self.number), u64::from(self.tag)) == (token.number(), token.tag())
    }

    /// Whether its minutes are two of a week.
    pub fn is_sound(self) -> bool {
        let inside = |minute: u16| u64::from(minute) < WEEK;
        inside(self.opening) && inside(self.closing) && self.opening != self.closing
    }

    /// Whether it is open at a minute, if it is sound.
    pub fn is_open_at(self, minute: u64) -> bool {
        let (opening, closing) = (u64::from(self.opening), u64::from(self.closing));
        match opening < closing {
            true => (opening..closing).contains(&minute),
            false => !(closing..opening).contains(&minute),
        }
    }

    /// The four numbers, the low byte of each first.
    pub fn to_bytes(self) -> [u8; LEASE_BYTES] {
        let Lease { number, tag, opening, closing } = self;
        let [[a, b], [c, d], [e, f], [g, h]] =
            [number, tag, opening, closing].map(u16::to_le_bytes);
        [a, b, c, d, e, f, g, h]
    }

    pub fn from_bytes(bytes: [u8; LEASE_BYTES]) -> Lease {
        let [a, b, c, d, e, f, g, h] = bytes;
        let [number, tag, opening, closing] =
            [[a, b], [c, d], [e, f], [g, h]].map(u16::from_le_bytes);
        Lease { number, tag, opening, closing }
    }
}

/// The minute of the week of a day, Monday being 0, and a time of day.
pub const fn minute_of(day: u64, hour: u64, minute: u64) -> u64 {
    1_440 * day + 60 * hour + minute
}
