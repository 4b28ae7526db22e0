//! What is wrong with a text, and where.

use std::fmt;

/// Lines and columns count from 1.
#[derive(Clone, Debug, PartialEq, Eq)]
pub struct Error {
    pub line: usize,
    pub column: usize,
    pub expected: String,
    pub found: String,
}

impl fmt::Display for Error {
    fn fmt(&self, to: &mut fmt::Formatter) -> fmt::Result {
        let Error { line, column, expected, found } = self;
        write!(to, "line {line}, column {column}: expected {expected}, found {found}")
    }
}

impl std::error::Error for Error {}
