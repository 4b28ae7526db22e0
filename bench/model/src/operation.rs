//! The requests' numbers.

pub const RESET: u64 = 0;
pub const READ: u64 = 1;
pub const WRITE: u64 = 2;
pub const FETCH: u64 = 3;
pub const CREATE: u64 = 4;
pub const MERGE: u64 = 5;
pub const DERIVE: u64 = 6;
pub const EXECUTE_ONLY: u64 = 7;
pub const CLONE: u64 = 8;
pub const DROP: u64 = 9;
pub const LOCK: u64 = 10;
pub const UNLOCK: u64 = 11;
pub const REVOKE: u64 = 12;
pub const LOAD: u64 = 13;
pub const DUMP: u64 = 14;
pub const PAGE_OUT: u64 = 15;
pub const PAGE_IN: u64 = 16;
