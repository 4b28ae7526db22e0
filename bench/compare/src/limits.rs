//! The limits of 01 that sessions are built around.

/// The next nonce once all are used.
pub const SPENT: u64 = 1 << 32;

/// The bytes of the largest memory.
pub const MEMORY: usize = 1 << 24;

/// The entries of the largest table.
pub const ENTRIES: usize = 1_024;
