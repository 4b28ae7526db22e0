//! `nb record`: writes sessions with every result, a user's own or the stored set.

use std::fs;
use std::io::Write;
use std::path::Path;

use crate::arguments::Arguments;
use crate::command::Command;
use crate::files;
use crate::outcome::{Failure, Verdict};
use crate::stored::{self, Stored};
use session::play::{record, NotRecorded};
use session::server::Proved;
use session::text::{parse, print_script};

pub const COMMAND: Command = Command {
    name: "record",
    about: "prints a session with every result of the proved code, so that each byte is fixed",
    example: "nb record demo.session > exact.session",
    help: HELP,
    run,
};

const HELP: &str = "\
nb record FILE
nb record --stored DIR
nb record --list

Asks the requests of a session file, and prints the session with every result as the proved code
gives it: refusal and place, tokens, drop's number, the length of a dump's text, the buffer, and each
byte of state, table and memory that a request changed. Comments and names stay. What the file expects must come true. '-'
reads the standard input.

    --stored DIR     writes the set of conformance sessions to DIR, one file each; DIR is made if it
                     is not there
    --list           tells what each of them is about

For example:

    nb record demo.session > exact.session && nb replay exact.session

    echo 'memory 64 entries 4
    reset nonce 1
    derive root length 8 permissions R -> 0 as child
    read child 8' | nb record -

    nb record --stored sessions && nb replay --brief sessions/*.session

The status is 0 if all were written, 1 if the proved code does not give what a session states, 2 if a
file cannot be read.
";

fn run(mut arguments: Arguments, out: &mut dyn Write) -> Result<Verdict, Failure> {
    let (list, folder) = (arguments.flag("--list"), arguments.value("--stored")?);
    let rest = arguments.rest()?;
    match (list, folder, rest.as_slice()) {
        (true, None, []) => write_list(&stored::all(), out),
        (false, Some(folder), []) => write_all(Path::new(&folder), &stored::all(), out),
        (false, None, [file]) => write_one(file, out),
        (_, _, found) => {
            let found = found.len();
            let expected = "one file, or --stored and a folder, or --list";
            Err(Failure::Input(format!("record: expected {expected}, found {found} words")))
        }
    }
}

/// Prints a user's own session.
fn write_one(file: &str, out: &mut dyn Write) -> Result<Verdict, Failure> {
    match record(&files::read(file)?, &mut Proved) {
        Ok(script) => write!(out, "{}", print_script(&script))?,
        Err(reason) => {
            writeln!(out, "{file}: {}", not_recorded(&reason))?;
            return Ok(Verdict::Difference);
        }
    }
    Ok(Verdict::Agreement)
}

fn write_list(sessions: &[Stored], out: &mut dyn Write) -> Result<Verdict, Failure> {
    for stored in sessions {
        writeln!(out, "{:<28} {}", stored.name, stored.about())?;
    }
    Ok(Verdict::Agreement)
}

fn write_all(folder: &Path, sessions: &[Stored], out: &mut dyn Write) -> Result<Verdict, Failure> {
    fs::create_dir_all(folder).map_err(|error| cannot_write(folder, &error))?;
    let mut agreed = true;
    for stored in sessions {
        let file = folder.join(stored.file_name());
        match recorded(stored) {
            Ok(text) => fs::write(&file, text).map_err(|error| cannot_write(&file, &error))?,
            Err(message) => {
                writeln!(out, "{}: {message}", stored.name)?;
                agreed = false;
            }
        }
    }
    if agreed {
        writeln!(out, "{} sessions written to {}", sessions.len(), folder.display())?;
    }
    Ok(Verdict::agreed(agreed))
}

fn cannot_write(path: &Path, error: &dyn std::fmt::Display) -> Failure {
    let path = path.display();
    Failure::Input(format!("record: expected a folder to write to, cannot write {path}: {error}"))
}

/// A stored session with its results, as text.
pub fn recorded(stored: &Stored) -> Result<String, String> {
    let script = parse(&stored.text).map_err(|error| error.to_string())?;
    let script = record(&script, &mut Proved).map_err(|reason| not_recorded(&reason))?;
    Ok(print_script(&script))
}

fn not_recorded(reason: &NotRecorded) -> String {
    match reason {
        NotRecorded::NoAnswer { line, no_answer } => format!("line {line}: {no_answer}"),
        NotRecorded::Differs { line, differences } => {
            let told = differences
                .iter()
                .map(|one| format!("{}: expected {}, given {}", one.what, one.expected, one.given));
            format!("line {line}: {}", told.collect::<Vec<String>>().join("; "))
        }
    }
}
