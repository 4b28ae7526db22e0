//! What a command comes to.

use std::fmt;
use std::io;

/// What a command found; the exit status tells it.
#[derive(Clone, Copy, Debug, PartialEq, Eq)]
pub enum Verdict {
    Agreement,
    Difference,
}

impl Verdict {
    pub fn agreed(agreed: bool) -> Verdict {
        if agreed {
            Verdict::Agreement
        } else {
            Verdict::Difference
        }
    }
}

/// Why a command could not do its work.
#[derive(Debug)]
pub enum Failure {
    /// What was expected, and what was found instead.
    Input(String),
    Output(io::Error),
}

impl fmt::Display for Failure {
    fn fmt(&self, to: &mut fmt::Formatter) -> fmt::Result {
        match self {
            Failure::Input(message) => write!(to, "{message}"),
            Failure::Output(error) => write!(to, "cannot write the output: {error}"),
        }
    }
}

impl From<io::Error> for Failure {
    fn from(error: io::Error) -> Failure {
        Failure::Output(error)
    }
}
