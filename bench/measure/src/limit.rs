//! The limits: what a request cannot do without, done by the standard library alone.

#![allow(deprecated)] // SipHasher is deprecated for hash maps; it is SipHash-2-4.

use std::hash::{Hasher, SipHasher};
use std::hint::black_box;
use std::ops::Range;

/// What the least that a request does is.
#[derive(Clone, Debug, PartialEq, Eq)]
pub enum Limit {
    /// A read or a fetch: these bytes of memory are copied to the buffer.
    Load(Range<usize>),
    /// A write: the buffer is copied to these bytes of memory.
    Store(Range<usize>),
    /// A load or a dump: so many bytes of text are copied.
    Text(usize),
    /// A read under leases: their words are added up, and these bytes of memory copied to the buffer.
    Leases(Range<usize>),
    /// A page-out: these bytes of memory are copied to the buffer and zeroed, and two entries hashed.
    Out(Range<usize>),
    /// A page-in: the buffer is copied to these bytes of memory, and one entry is hashed.
    In(Range<usize>),
    /// A reset: the table is zeroed.
    ClearTable,
    /// A revoke: these bytes of memory are zeroed, and one entry is hashed.
    Renew(Range<usize>),
    /// So many entries are hashed, 40 bytes each.
    Issue(usize),
    /// Nothing but the call.
    Call,
}

impl Limit {
    pub fn name(&self) -> String {
        match self {
            Limit::Load(_) | Limit::Store(_) => "memcpy".into(),
            Limit::Text(_) => "memcpy of the text".into(),
            Limit::Leases(_) => "sum of the leases + memcpy".into(),
            Limit::Out(_) => "memcpy + memset + 2 SipHash".into(),
            Limit::In(_) => "memcpy + SipHash".into(),
            Limit::ClearTable => "memset".into(),
            Limit::Renew(_) => "memset + SipHash".into(),
            Limit::Issue(1) => "SipHash".into(),
            Limit::Issue(times) => format!("{times} SipHash"),
            Limit::Call => "empty call".into(),
        }
    }
}

#[inline(never)]
pub fn copy(to: &mut [u8], from: &[u8]) {
    to.copy_from_slice(from);
}

#[inline(never)]
pub fn clear(part: &mut [u8]) {
    part.fill(0);
}

/// One pass over leases: the sum of their words.
#[inline(never)]
pub fn pass(leases: &[u8]) -> u64 {
    let words = leases.as_chunks::<8>().0.iter();
    words.fold(0, |sum, word| sum.wrapping_add(u64::from_le_bytes(*word)))
}

/// So many hashes of 40 bytes.
pub fn issue(key: [u64; 2], message: &[u8; 40], times: usize) {
    for _ in 0..times {
        black_box(hash(black_box(key), black_box(message)));
    }
}

#[inline(never)]
fn hash(key: [u64; 2], message: &[u8; 40]) -> u64 {
    let mut hasher = SipHasher::new_with_keys(key[0], key[1]);
    hasher.write(message);
    hasher.finish()
}
