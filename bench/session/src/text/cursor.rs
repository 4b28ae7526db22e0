//! Reading the words of one line, with errors that say where and what was expected.

use super::error::Error;
use super::lines::{Line, Word};
use super::words;

pub struct Cursor<'a> {
    words: &'a [Word<'a>],
    at: usize,
    end: (usize, usize),
}

impl<'a> Cursor<'a> {
    pub fn new(line: &'a Line<'a>) -> Cursor<'a> {
        Cursor { words: &line.words, at: 0, end: line.end }
    }

    pub fn peek(&self) -> Option<&'a str> {
        self.words.get(self.at).map(|word| word.text)
    }

    /// The next word, or an error that names what should have stood there.
    pub fn next(&mut self, expected: &str) -> Result<&'a str, Error> {
        let word = self.peek().ok_or_else(|| self.error(expected))?;
        self.at += 1;
        Ok(word)
    }

    /// Takes the next word if it is this one.
    pub fn take(&mut self, word: &str) -> bool {
        let found = self.peek() == Some(word);
        self.at += usize::from(found);
        found
    }

    /// The next word as some value, if it is one.
    pub fn value<T>(
        &mut self,
        expected: &str,
        read: impl FnOnce(&str) -> Option<T>,
    ) -> Result<T, Error> {
        let value = self.peek().and_then(read).ok_or_else(|| self.value_error(expected))?;
        self.at += 1;
        Ok(value)
    }

    pub fn number(&mut self, expected: &str) -> Result<u64, Error> {
        self.value(expected, words::number)
    }

    /// A number up to a limit.
    pub fn up_to(&mut self, limit: u64, what: &str) -> Result<u64, Error> {
        let expected = format!("{what}, a number from 0 to {limit}");
        self.value(&expected, |word| words::number(word).filter(|number| *number <= limit))
    }

    pub fn end(&self, expected: &str) -> Result<(), Error> {
        match self.peek() {
            None => Ok(()),
            Some(_) => Err(self.error(expected)),
        }
    }

    /// An error at the next word, or at the line's end.
    pub fn error(&self, expected: &str) -> Error {
        self.error_at(self.at, expected)
    }

    /// An error at the word before.
    pub fn error_before(&self, expected: &str) -> Error {
        self.error_at(self.at.saturating_sub(1), expected)
    }

    /// An error at the next word, which is no such value; a number that is too wide is told as such.
    pub fn value_error(&self, expected: &str) -> Error {
        let mut error = self.error(expected);
        if self.peek().is_some_and(words::is_too_wide) {
            error.found.push_str(", a number of more than 64 bits");
        }
        error
    }

    pub fn error_at_end(&self, expected: &str) -> Error {
        self.error_at(self.words.len(), expected)
    }

    /// An error at a word by its index, or at the line's end.
    pub fn error_at(&self, at: usize, expected: &str) -> Error {
        let (line, column, found) = match self.words.get(at) {
            Some(word) => (word.line, word.column, format!("'{}'", shortened(word.text))),
            None => (self.end.0, self.end.1, "the line's end".to_string()),
        };
        Error { line, column, expected: expected.to_string(), found }
    }
}

/// Long words are shown by their front.
fn shortened(word: &str) -> String {
    match word.char_indices().nth(40) {
        Some((at, _)) => format!("{}...", &word[..at]),
        None => word.to_string(),
    }
}
