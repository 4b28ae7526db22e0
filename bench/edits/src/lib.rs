//! Tries the edits that the prover must refuse, each over a copy of the incremental folder that one
//! check of the unedited crate left. They are tests of the tests, and no verdict: what is proved is
//! proved by `rt ci`, from nothing.

#![forbid(unsafe_code)]

pub mod edit;
pub mod folders;
pub mod judged;
pub mod kit;
pub mod listed;
pub mod options;
pub mod prover;
pub mod queue;
pub mod report;
pub mod run;

use std::io;
use std::process::ExitCode;

use options::{Options, HELP};

/// Runs a command line. The status is 0 where every edit is refused, 1 where one is not or a crate
/// fails, 2 for bad input.
pub fn main(words: Vec<String>) -> ExitCode {
    if words.iter().any(|word| word == "--help" || word == "-h") {
        println!("{}", HELP.trim_end());
        return ExitCode::SUCCESS;
    }
    let done = Options::of(words).and_then(|options| run::run(&options, &mut io::stdout()));
    match done {
        Ok(true) => ExitCode::SUCCESS,
        Ok(false) => ExitCode::from(1),
        Err(why) => {
            eprintln!("edits: {why}");
            ExitCode::from(2)
        }
    }
}
