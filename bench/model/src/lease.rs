//! 02, paper 4: shift windows. "Up to 64 leases ... stand in a lent table of
//! whole leases."

use crate::refusal::{need, Refusal};
use crate::token::Token;

/// The first minute beyond the week: its minutes are "0 to 10,079".
pub const WEEK: u64 = 10_080;

/// "Up to 64 leases", "at most 512 bytes".
const MOST: usize = 64;

/// The lent table.
#[derive(Clone, Copy)]
pub struct Leases<'a>(&'a [[u8; 8]]);

/// "each a number, a tag, an opening and a closing minute of the week, 16 bits
/// each"
struct Lease {
    number: u16,
    tag: u16,
    opening: u16,
    closing: u16,
}

impl Lease {
    /// "low byte first"
    #[inline]
    fn read(bytes: &[u8; 8]) -> Lease {
        let word = u64::from_le_bytes(*bytes);
        let [number, tag, opening, closing] = [0, 16, 32, 48].map(|at| (word >> at) as u16);
        Lease { number, tag, opening, closing }
    }

    /// "a lease whose minutes are equal or either is beyond the week" is not.
    #[inline]
    fn sound(&self) -> bool {
        let inside = |minute| u64::from(minute) < WEEK;
        self.opening != self.closing && inside(self.opening) && inside(self.closing)
    }

    /// By number and tag. 01: 'the same token' "means these two".
    #[inline]
    fn names(&self, token: Token) -> bool {
        u64::from(self.number) == token.number && self.tag == token.tag
    }

    /// "Opening is included, closing is not; an opening later than its closing
    /// runs over the week's end."
    #[inline]
    fn open(&self, minute: u64) -> bool {
        let opened = u64::from(self.opening) <= minute;
        let closed = u64::from(self.closing) <= minute;
        if self.opening < self.closing {
            opened && !closed
        } else {
            opened || !closed
        }
    }
}

impl<'a> Leases<'a> {
    /// Place 1: "a lent table of whole leases, at most 512 bytes, else 1".
    #[inline]
    pub fn new(bytes: &'a [u8]) -> Result<Leases<'a>, Refusal> {
        let (whole, odd) = bytes.as_chunks();
        need(whole.len() <= MOST && odd.is_empty(), Refusal::Request)?;
        Ok(Leases(whole))
    }

    #[inline]
    fn all(self) -> impl Iterator<Item = Lease> + 'a {
        self.0.iter().map(Lease::read)
    }

    /// 16, of any lease in the table.
    #[inline]
    pub fn need_sound(self) -> Result<(), Refusal> {
        need(self.all().all(|lease| lease.sound()), Refusal::Lease)
    }

    /// 15: "A token without a lease is always open; with several, any open one
    /// suffices."
    #[inline]
    pub fn need_open(self, token: Token, minute: u64) -> Result<(), Refusal> {
        let mut own = self.all().filter(|lease| lease.names(token)).peekable();
        let without = own.peek().is_none();
        need(without || own.any(|lease| lease.open(minute)), Refusal::Closed)
    }
}
