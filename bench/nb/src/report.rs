//! What a replay tells: each request with its answer, what differs, and what was counted.

use std::io::{self, Write};

use crate::answer::answer_text;
use crate::style::Style;
use bridge::{Operation, LEASES_BYTES};
use session::play::{Difference, NoAnswer, Played};
use session::text::{print_request, Ask, Script};

/// What was counted over the files.
#[derive(Default)]
pub struct Sum {
    pub files: usize,
    pub requests: usize,
    pub expected: usize,
    pub differing: usize,
    /// Requests behind one that got no answer, and those whose buffer or leases cannot be lent.
    pub unasked: usize,
}

impl Sum {
    pub fn add(&mut self, other: &Sum) {
        self.files += other.files;
        self.requests += other.requests;
        self.expected += other.expected;
        self.differing += other.differing;
        self.unasked += other.unasked;
    }

    /// Counts a request, and tells whether it went as expected.
    pub fn count(&mut self, ask: &Ask, played: &Result<Played, NoAnswer>) -> bool {
        let as_expected = match played {
            Ok(played) => played.differences.is_empty(),
            Err(NoAnswer::TooLong { .. }) if is_refused(ask) => {
                self.unasked += 1;
                return true;
            }
            Err(_) => false,
        };
        self.requests += 1;
        self.expected += usize::from(ask.expected.is_some() || !ask.standing.is_empty());
        self.differing += usize::from(!as_expected);
        as_expected
    }
}

/// A request with so many leases, or an access or a load with so long a buffer, is refused, and so
/// changes nothing for those behind it.
fn is_refused(ask: &Ask) -> bool {
    let lengths = |operation: Operation| operation.buffer().lengths();
    let long = Operation::of(ask.words.operation)
        .is_some_and(|operation| !lengths(operation).contains(&ask.buffer.len()));
    long || ask.leases.length() > LEASES_BYTES
}

pub fn verdict_text(sum: &Sum, style: Style) -> String {
    let Sum { requests, expected, differing, unasked, .. } = sum;
    let more = if *unasked == 0 { String::new() } else { format!(", {unasked} more not asked") };
    match (*expected, *differing) {
        (0, 0) => format!("{requests} requests, nothing was expected of them{more}"),
        (_, 0) => {
            format!("{requests} requests, {expected} with expected results: all as expected{more}")
        }
        _ => style.wrong(&format!("{requests} requests, {differing} NOT AS EXPECTED{more}")),
    }
}

/// What the file says that it is about, in its first comment.
pub fn about(script: &Script) -> String {
    let first = script.head.above.iter().find_map(|line| line.strip_prefix('#'));
    first.map_or(String::new(), |about| format!(": {}", about.trim()))
}

/// How wide a request is shown; a longer one is cut.
const WIDE: usize = 60;

pub fn write_played(
    ask: &Ask,
    played: &Result<Played, NoAnswer>,
    style: Style,
    out: &mut dyn Write,
) -> io::Result<()> {
    let request = request_text(ask, WIDE);
    let line = ask.line;
    match played {
        Ok(played) => {
            let mark = if played.differences.is_empty() { " " } else { "!" };
            let answer = answer_text(ask, played);
            writeln!(out, "{line:>5} {} {request:<WIDE$} {answer}", style.wrong(mark))?;
            played.differences.iter().try_for_each(|one| write_difference(one, style, out))
        }
        Err(no_answer @ NoAnswer::TooLong { .. }) if is_refused(ask) => {
            writeln!(out, "{line:>5} - {request:<WIDE$} {no_answer}")
        }
        Err(no_answer) => {
            let reason = style.wrong(&no_answer.to_string());
            writeln!(out, "{line:>5} {} {request:<WIDE$} {reason}", style.wrong("!"))
        }
    }
}

fn write_difference(one: &Difference, style: Style, out: &mut dyn Write) -> io::Result<()> {
    let text = difference_text(one, "        ! ");
    writeln!(out, "        {}", style.wrong(&format!("! {text}")))
}

/// What was expected and what was given; of what stands on two lines, the second behind a lead.
pub fn difference_text(one: &Difference, lead: &str) -> String {
    let Difference { what, expected, given } = one;
    match what.as_str() {
        "what stands" => format!("expected = {expected}\n{lead}   given = {given}"),
        _ => format!("{what}: expected {expected}, given {given}"),
    }
}

/// A request on one line of at most a certain width.
pub fn request_text(ask: &Ask, wide: usize) -> String {
    let request = print_request(ask);
    let line = request.replace("\\\n", "").split_whitespace().collect::<Vec<&str>>().join(" ");
    match line.char_indices().nth(wide - 3) {
        Some((at, _)) if line.chars().count() > wide => format!("{}...", &line[..at]),
        _ => line,
    }
}
