//! The tag of an issue, for what comes about by chance only. It shares no code with the model or the
//! proved code.

use std::hash::Hasher;

use session::entry::{Entry, NONCE, SIZE, TAG};

/// What an issue hashes: the entry with its nonce and without a tag, then the number.
#[derive(Clone, Copy, Debug)]
pub struct Issue([u8; SIZE + 8]);

impl Issue {
    pub fn of(entry: &Entry, number: usize, nonce: u64) -> Issue {
        let mut hashed = [0; SIZE + 8];
        hashed[..SIZE].copy_from_slice(&entry.with(TAG, 0).with(NONCE, nonce).0);
        hashed[SIZE..].copy_from_slice(&(number as u64).to_le_bytes());
        Issue(hashed)
    }

    /// The tag that it gives under a key: of SipHash-2-4, by the standard library.
    #[allow(deprecated)]
    pub fn tag(&self, key: [u64; 2]) -> u64 {
        let mut hasher = std::hash::SipHasher::new_with_keys(key[0], key[1]);
        hasher.write(&self.0);
        hasher.finish() & 0xFFFF
    }
}

/// The tag that an issue of an entry with this nonce gives.
pub fn issued(entry: &Entry, key: [u64; 2], number: usize, nonce: u64) -> u64 {
    Issue::of(entry, number, nonce).tag(key)
}
