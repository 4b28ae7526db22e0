//! Text as lines of words. A line that ends in a backslash goes on in the next one.

use super::error::Error;

/// Comments and blank lines above a line, and a comment behind it.
#[derive(Clone, Debug, Default, PartialEq, Eq)]
pub struct Comments {
    pub above: Vec<String>,
    pub behind: Option<String>,
}

/// A word and where it stands.
#[derive(Clone, Copy, Debug)]
pub struct Word<'a> {
    pub text: &'a str,
    pub line: usize,
    pub column: usize,
}

/// The words of one line, the comment behind them, and where it ends.
#[derive(Debug, Default)]
pub struct Line<'a> {
    pub words: Vec<Word<'a>>,
    pub comment: Option<&'a str>,
    /// Blank lines and lines that are comments, which stand above it.
    pub above: Vec<&'a str>,
    pub end: (usize, usize),
}

impl Line<'_> {
    pub fn comments(&self) -> Comments {
        let above = self.above.iter().map(|line| line.to_string()).collect();
        Comments { above, behind: self.comment.map(str::to_string) }
    }
}

/// The lines that have words. The comments at the end stand above a last line without words.
pub fn lines(text: &str) -> Result<Vec<Line<'_>>, Error> {
    let mut lines = Vec::new();
    let mut line = Line { end: (1, 1), ..Line::default() };
    for (at, text) in text.lines().enumerate() {
        let (number, goes_on) = (at + 1, !line.words.is_empty());
        let (code, comment) = split_comment(text);
        let (code, continued) = split_continued(code);
        if continued && comment.is_some() {
            return Err(comment_in_the_middle(number, code));
        }
        line.words.extend(words(code, number));
        line.end = (number, code.trim_end().chars().count() + 1);
        if line.words.is_empty() && !continued {
            line.above.push(text.trim());
        } else if !continued {
            line.comment = comment;
            lines.push(std::mem::take(&mut line));
        } else if !goes_on && line.words.is_empty() {
            return Err(nothing_to_continue(number, code));
        }
    }
    lines.push(line);
    Ok(lines)
}

fn split_comment(text: &str) -> (&str, Option<&str>) {
    match text.split_once('#') {
        Some((code, comment)) => (code, Some(comment.trim())),
        None => (text, None),
    }
}

fn split_continued(code: &str) -> (&str, bool) {
    match code.trim_end().strip_suffix('\\') {
        Some(code) => (code, true),
        None => (code, false),
    }
}

/// The words of one line of text, with columns that count characters.
fn words(code: &str, line: usize) -> impl Iterator<Item = Word<'_>> {
    let start = code.as_ptr() as usize;
    code.split_whitespace().map(move |text| {
        let before = text.as_ptr() as usize - start;
        Word { text, line, column: code[..before].chars().count() + 1 }
    })
}

fn comment_in_the_middle(line: usize, code: &str) -> Error {
    let expected = "the line's end behind '\\'".to_string();
    Error { line, column: code.chars().count() + 2, expected, found: "a comment".to_string() }
}

fn nothing_to_continue(line: usize, code: &str) -> Error {
    let expected = "a word before '\\'".to_string();
    Error { line, column: code.chars().count() + 1, expected, found: "'\\'".to_string() }
}
