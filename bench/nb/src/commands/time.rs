//! `nb time`: the benchmark.

use std::io::{self, IsTerminal, Write};

use crate::arguments::Arguments;
use crate::command::Command;
use crate::outcome::{Failure, Verdict};
use measure::{time, Form, Options};

pub const COMMAND: Command = Command {
    name: "time",
    about: "measures the proved code, the model and the limit side by side",
    example: "nb time --rounds 51",
    help: HELP,
    run,
};

const HELP: &str = "\
nb time [--rounds N] [--markdown]

Measures each operation, accesses of 1 to 4,096 bytes through lines of several depths, reads under 0
to 64 leases, and loads and dumps of 16 to 23,000 bytes: the proved code, the model, and the limit
(memcpy of the same bytes for an access, of the text for a load and a dump, one pass over leases, memset
for a revoke and a reset, SipHash over 40 bytes for an issue), by turns in one run. Shown are medians in nanoseconds, and ratios within a round with their
quartiles; then how cost grows with the line's depth, the table and the segment, and how many bytes of
text go through in a second. bench/measure/README.md says how it is done.

    --rounds N     how many rounds (201, some ten seconds)
    --markdown     tables in Markdown

For example:

    nb time --rounds 51
";

fn run(mut arguments: Arguments, out: &mut dyn Write) -> Result<Verdict, Failure> {
    let usual = Options::default();
    let form = if arguments.flag("--markdown") { Form::Markdown } else { usual.form };
    let rounds = arguments.number("--rounds")?;
    if let [word, ..] = arguments.rest()?.as_slice() {
        return Err(Failure::Input(format!("time: expected options only, found {word}")));
    }
    let rounds = rounds.map_or(usual.rounds, |n| usize::try_from(n).unwrap_or(usize::MAX));
    if rounds == 0 {
        return Err(Failure::Input("time: expected at least one round".to_string()));
    }
    time(Options { rounds, form }, out, &mut progress)?;
    Ok(Verdict::Agreement)
}

/// How much is done, on a terminal alone.
fn progress(done: usize, all: usize) {
    let mut screen = io::stderr();
    if screen.is_terminal() {
        let end = if done == all { "\n" } else { "" };
        let _ = write!(screen, "\r{done} of {all} parts{end}");
    }
}
