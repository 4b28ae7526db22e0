//! What is told of crates and edits, a line each, and how many were refused.

use std::io::{self, Write};
use std::time::Duration;

use crate::judged::Judged;

/// What became of a crate or of an edit.
#[derive(Clone, Debug)]
pub enum Event {
    /// The unedited crate was checked, or why its edits cannot be tried.
    Crate {
        name: String,
        checked: Result<Duration, String>,
    },
    Edit {
        name: String,
        label: String,
        judged: Judged,
        took: Duration,
    },
}

#[derive(Debug, Default)]
pub struct Report {
    refused: usize,
    failed: Vec<String>,
}

impl Report {
    /// What these results are.
    pub fn begin(out: &mut dyn Write) -> io::Result<()> {
        let proved = "rt ci proves the crates, from nothing";
        writeln!(
            out,
            "edits: tests of the tests, over incremental folders, and no verdict: {proved}"
        )
    }

    pub fn tell(&mut self, event: Event, out: &mut dyn Write) -> io::Result<()> {
        match event {
            Event::Crate { name, checked: Ok(took) } => {
                writeln!(out, "edits: {name}: checked as it stands ({})", seconds(took))
            }
            Event::Crate { name, checked: Err(why) } => {
                writeln!(out, "edits: {name}: FAILED: {why}")?;
                self.failed.push(name);
                Ok(())
            }
            Event::Edit { name, label, judged, took } => {
                let one = format!("{name}/{label}");
                writeln!(out, "edits: {one}: {}", line(&judged, took))?;
                match judged {
                    Judged::Refused(_) => self.refused += 1,
                    _ => self.failed.push(one),
                }
                Ok(())
            }
        }
    }

    /// The last lines, and whether nothing failed.
    pub fn end(self, out: &mut dyn Write) -> io::Result<bool> {
        if !self.failed.is_empty() {
            writeln!(out, "edits: FAILED: {}", self.failed.join(" "))?;
        }
        writeln!(out, "edits: {} refused, {} failed", self.refused, self.failed.len())?;
        Ok(self.failed.is_empty())
    }
}

fn line(judged: &Judged, took: Duration) -> String {
    let took = seconds(took);
    match judged {
        Judged::Refused(first) => {
            let first = first.as_ref().map_or(String::new(), |place| format!("first at {place}; "));
            format!("refused over an incremental folder, as it must be ({first}{took})")
        }
        Judged::Passed => {
            format!("NOT REFUSED: the crate is still proved with this edit ({took})")
        }
        Judged::NoDefinition(place) => {
            let why = "it breaks a definition itself, and no law was asked";
            format!("SHOWS NOTHING: {why} (first at {place}; {took})")
        }
        Judged::Bad(why) => format!("BAD EDIT: {why}"),
    }
}

fn seconds(took: Duration) -> String {
    format!("{:.0} s", took.as_secs_f64())
}
