//! Who asks, and what a token permits.

use std::fmt;
use std::ops::BitOr;

/// The task that asks. The machine takes numbers below 2^55.
#[derive(Clone, Copy, Debug, Default, PartialEq, Eq, PartialOrd, Ord, Hash)]
#[repr(transparent)]
pub struct Task(pub u64);

impl Task {
    /// No task. It can hold no lock.
    pub const NONE: Task = Task(0);
}

/// Some of R, W and X.
#[derive(Clone, Copy, Debug, Default, PartialEq, Eq, Hash)]
#[repr(transparent)]
pub struct Permissions(u64);

impl Permissions {
    pub const NONE: Permissions = Permissions(0);
    pub const R: Permissions = Permissions(4);
    pub const W: Permissions = Permissions(2);
    pub const X: Permissions = Permissions(1);
    pub const ALL: Permissions = Permissions(7);

    /// R 4, W 2, X 1, added.
    pub const fn number(self) -> u64 {
        self.0
    }

    /// Both together, as `|` gives them.
    pub const fn with(self, other: Permissions) -> Permissions {
        Permissions(self.0 | other.0)
    }
}

impl BitOr for Permissions {
    type Output = Permissions;

    fn bitor(self, other: Permissions) -> Permissions {
        self.with(other)
    }
}

impl fmt::Display for Permissions {
    fn fmt(&self, f: &mut fmt::Formatter<'_>) -> fmt::Result {
        let held = |(bit, letter)| if self.0 & bit != 0 { letter } else { "-" };
        let letters = [(4, "R"), (2, "W"), (1, "X")].map(held);
        f.write_str(&letters.concat())
    }
}
