//! The command line tool `nb`: its commands, and what they share.

pub mod answer;
pub mod arguments;
pub mod behind;
pub mod cause;
pub mod command;
pub mod commands;
pub mod files;
pub mod hex;
pub mod map;
pub mod note;
pub mod outcome;
pub mod page;
pub mod report;
pub mod shift;
pub mod stop;
pub mod stored;
pub mod style;

use std::io::{self, ErrorKind, Write};
use std::process::ExitCode;

use arguments::Arguments;
use command::Command;
use commands::COMMANDS;
use compare::protocol::GREETING;
use outcome::{Failure, Verdict};

/// Runs a command line. The status is 0 for agreement, 1 for a difference, 2 for bad input.
pub fn run(words: Vec<String>) -> ExitCode {
    let mut out = io::BufWriter::new(io::stdout().lock());
    let verdict = dispatch(words, &mut out);
    match verdict.and_then(|verdict| out.flush().map(|()| verdict).map_err(Failure::from)) {
        Ok(Verdict::Agreement) => ExitCode::SUCCESS,
        Ok(Verdict::Difference) => ExitCode::from(1),
        // Whoever read our output has seen enough.
        Err(Failure::Output(error)) if error.kind() == ErrorKind::BrokenPipe => ExitCode::SUCCESS,
        Err(failure) => {
            let _ = out.flush();
            eprintln!("nb: {failure}");
            ExitCode::from(2)
        }
    }
}

fn dispatch(mut words: Vec<String>, out: &mut dyn Write) -> Result<Verdict, Failure> {
    let wants_help = |word: &String| word == "--help" || word == "-h";
    let name = match words.first() {
        None => {
            write_help(out)?;
            return Err(Failure::Input("expected a command".to_string()));
        }
        Some(word) if wants_help(word) || word == "help" => {
            write_help(out)?;
            return Ok(Verdict::Agreement);
        }
        Some(word) if word == "--version" || word == "-V" => {
            writeln!(out, "nb {}, line protocol {GREETING}", env!("CARGO_PKG_VERSION"))?;
            return Ok(Verdict::Agreement);
        }
        Some(_) => words.remove(0),
    };
    let command = find(&name)?;
    if words.iter().take_while(|word| *word != "--").any(wants_help) {
        writeln!(out, "{}", command.help.trim_end())?;
        return Ok(Verdict::Agreement);
    }
    (command.run)(Arguments::new(command.name, words), out)
}

fn find(name: &str) -> Result<&'static Command, Failure> {
    let names: Vec<&str> = COMMANDS.iter().map(|command| command.name).collect();
    let known = COMMANDS.iter().copied().find(|command| command.name == name);
    let expected = || format!("expected a command ({}), found '{name}'", names.join(", "));
    known.ok_or_else(|| Failure::Input(expected()))
}

/// What each command is for, with an example.
fn write_help(out: &mut dyn Write) -> io::Result<()> {
    writeln!(out, "nb: the northbridge's bench\n")?;
    for command in COMMANDS {
        writeln!(out, "  nb {:<10}{}", command.name, command.about)?;
        writeln!(out, "  {:<13}for example: {}\n", "", command.example)?;
    }
    writeln!(out, "nb COMMAND --help tells more, nb --version the version. The status is 0 for")?;
    writeln!(out, "agreement, 1 for a difference, 2 for bad input.")
}
