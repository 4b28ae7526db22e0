//! Tables of results, as plain text and as Markdown.

use std::fmt::Write;

/// So many columns hold words, and stand left; all others hold numbers, and stand right.
const WORDS: usize = 2;

pub struct Table {
    pub title: String,
    pub columns: Vec<String>,
    pub rows: Vec<Vec<String>>,
}

/// How tables are written.
#[derive(Clone, Copy, Debug, PartialEq, Eq)]
pub enum Form {
    Text,
    Markdown,
}

impl Table {
    pub fn new(title: &str, columns: &[&str]) -> Table {
        let columns = columns.iter().map(|name| name.to_string()).collect();
        Table { title: title.into(), columns, rows: Vec::new() }
    }

    pub fn show(&self, form: Form) -> String {
        match form {
            Form::Text => self.text(),
            Form::Markdown => self.markdown(),
        }
    }

    fn text(&self) -> String {
        let widths = self.widths();
        let mut text = format!("{}\n\n", self.title);
        for row in std::iter::once(&self.columns).chain(&self.rows) {
            text.push_str(&aligned(row, &widths));
        }
        text
    }

    fn markdown(&self) -> String {
        let mut text = format!("{}\n\n", self.title);
        let marks: Vec<String> = (0..self.columns.len())
            .map(|at| if at < WORDS { "---" } else { "---:" }.into())
            .collect();
        for row in [&self.columns, &marks].into_iter().chain(&self.rows) {
            writeln!(text, "| {} |", row.join(" | ")).expect("text takes text");
        }
        text
    }

    fn widths(&self) -> Vec<usize> {
        let width = |at: usize| {
            let cells = std::iter::once(&self.columns).chain(&self.rows);
            cells.map(|row| row[at].chars().count()).max().unwrap_or(0)
        };
        (0..self.columns.len()).map(width).collect()
    }
}

fn aligned(row: &[String], widths: &[usize]) -> String {
    let mut line = String::new();
    for (at, (cell, width)) in row.iter().zip(widths).enumerate() {
        match at < WORDS {
            true => write!(line, "{cell:<width$}  "),
            false => write!(line, "{cell:>width$}  "),
        }
        .expect("text takes text");
    }
    line.truncate(line.trim_end().len());
    line.push('\n');
    line
}
