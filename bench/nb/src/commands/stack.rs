//! `nb stack`: how much stack a call needs.

use std::io::Write;

use crate::arguments::Arguments;
use crate::command::Command;
use crate::outcome::{Failure, Verdict};

pub const COMMAND: Command = Command {
    name: "stack",
    about: "measures the stack of the shallowest call, the deepest walk and the deepest drop",
    example: "nb stack",
    help: HELP,
    run,
};

const HELP: &str = "\
nb stack

Runs the shallowest call, a read through 1,023 links, with leases and without, a drop that climbs 1,023
links, a load and a dump on a stack that was painted before, and tells how many bytes of it each
needed. A test holds them to a bound.

For example:

    nb stack
";

fn run(arguments: Arguments, out: &mut dyn Write) -> Result<Verdict, Failure> {
    if let [word, ..] = arguments.rest()?.as_slice() {
        return Err(Failure::Input(format!("stack: expected nothing, found {word}")));
    }
    writeln!(out, "{}", measure::stack()?)?;
    Ok(Verdict::Agreement)
}
