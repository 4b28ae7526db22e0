//! `nb compare`: the proved code against the model or a simulator, over random sessions.

use std::io::Write;

use crate::arguments::Arguments;
use crate::command::Command;
use crate::outcome::{Failure, Verdict};
use compare::{run as play, Guard, Options, KINDS};

pub const COMMAND: Command = Command {
    name: "compare",
    about: "compares the proved code with the model, or with a simulator, over random sessions",
    example: "nb compare --requests 100000 --seed 1",
    help: HELP,
    run,
};

const HELP: &str = "\
nb compare [--requests N] [--seed S] [--against COMMAND] [--wait SECONDS] [--kind NAME]
           [--guard before|behind] [--coverage]

Plays random sessions on the proved code and on the model together. After each request it compares
refusal with place, tokens, drop's number, the length of a dump's text, state, and every byte of table,
memory and buffer; and a refused request must leave all as it was. At a difference it tells the request that showed it, and
shrinks the session to a short one that still differs in a fresh process, printed as 'nb replay'
reads it, with what the proved code answers. If it does not come again there, it says so.

    --requests N         how many requests (1000000)
    --seed S             which sessions: one seed always gives the same (1)
    --against COMMAND    a simulator in place of the model: a command for the shell that speaks the
                         line protocol of 'nb serve' on its standard input and output
    --wait SECONDS       how long the command may take for an answer (10)
    --kind NAME          sessions of one kind only
    --guard before       each slice lent to the proved code begins behind an unmapped page;
    --guard behind       or it ends before one
    --coverage           tells how often each operation, refusal and place was reached
    --kinds              tells the kinds of sessions and what each reaches

For example:

    nb compare --requests 100000 --seed 1
    nb compare --requests 20000 --against 'nb serve'

The status is 0 if all agree, 1 at a difference, 2 if the command cannot be started.
";

fn run(mut arguments: Arguments, out: &mut dyn Write) -> Result<Verdict, Failure> {
    let kinds = arguments.flag("--kinds");
    let options = options(&mut arguments)?;
    if let [word, ..] = arguments.rest()?.as_slice() {
        return Err(Failure::Input(format!("compare: expected options only, found {word}")));
    }
    if kinds {
        return write_kinds(out);
    }
    let outcome = play(&options).map_err(|why| Failure::Input(format!("compare: {why}")))?;
    write!(out, "{outcome}")?;
    Ok(Verdict::agreed(outcome.found.is_none()))
}

fn options(arguments: &mut Arguments) -> Result<Options, Failure> {
    let usual = Options::default();
    let guard = arguments.value("--guard")?;
    let guard: Option<Result<Guard, String>> = guard.map(|text| text.parse());
    Ok(Options {
        requests: arguments.number("--requests")?.unwrap_or(usual.requests),
        seed: arguments.number("--seed")?.unwrap_or(usual.seed),
        against: arguments.value("--against")?,
        wait: arguments.wait()?,
        guard: guard.transpose().map_err(|why| Failure::Input(format!("compare: {why}")))?,
        kind: arguments.value("--kind")?,
        coverage: arguments.flag("--coverage"),
        shrink: usual.shrink,
    })
}

fn write_kinds(out: &mut dyn Write) -> Result<Verdict, Failure> {
    for kind in KINDS {
        writeln!(out, "{:<12} {}", kind.name, kind.about)?;
    }
    Ok(Verdict::Agreement)
}
