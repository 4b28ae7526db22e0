//! The words behind the command.

use std::{env, thread};

pub const HELP: &str = "\
edits: tries the edits that the prover must refuse, over incremental folders

  edits [--from FOLDER] [NAME...]   for example: edits tokens paging

Run it after build-library of the same sources, as it takes crates/NAME/out/rlib. For each crate
with a folder crates/NAME/edits (or those named) it checks the crate as it stands, once, over an
empty incremental folder, and then each *.edit of that folder in a copy of the crate, over a copy
of the incremental one. --from must-fail takes the edits of rt must-fail instead.

These are tests of the tests, and no verdict: that an edit is refused here shows that the promises
notice it, and proves nothing of any crate. The crates are proved by 'rt ci', from nothing.

An edit is a comment, then a line 'file: PATH' and pairs of lines 'old: TEXT' and 'new: TEXT'; PATH
is under src/, specs/ or proofs/, and each old text stands in it exactly once. The prover must reach
it and refuse it, and the first error must not stand in specs/: there it is an error of the
definition's own, and no law was asked. Whatever else happens is a failure, and so is a crate that
is not proved as it stands, or a folder without an edit.

RT_JOBS says how many at a time (default: the processors, at most 4), TMPDIR where the copies stand
(default: target/edits); they are removed. target/edits/NAME has what the prover said of each.

The status is 0 if every edit was refused, 1 if something failed, 2 for bad input.
";

#[derive(Clone, Debug, PartialEq, Eq)]
pub struct Options {
    /// The folder of a crate that has its edits.
    pub from: String,
    /// The crates; none stands for all that have edits.
    pub names: Vec<String>,
    /// How many checks run at a time.
    pub jobs: usize,
}

impl Options {
    pub fn of(words: Vec<String>) -> Result<Options, String> {
        read(words, jobs(env::var("RT_JOBS").ok())?)
    }
}

fn read(words: Vec<String>, jobs: usize) -> Result<Options, String> {
    let mut options = Options { from: "edits".to_string(), names: Vec::new(), jobs };
    let mut words = words.into_iter();
    while let Some(word) = words.next() {
        if word == "--from" {
            options.from = words.next().ok_or("expected a folder's name behind --from")?;
        } else if word.starts_with('-') {
            return Err(format!("expected --from or a crate, found {word}; see edits --help"));
        } else {
            options.names.push(word);
        }
    }
    Ok(options)
}

/// How many at a time, as rt has it.
fn jobs(asked: Option<String>) -> Result<usize, String> {
    let processors = || thread::available_parallelism().map_or(1, usize::from).min(4);
    match asked.filter(|asked| !asked.is_empty()) {
        None => Ok(processors()),
        Some(asked) => match asked.parse() {
            Ok(0) | Err(_) => Err(format!("expected RT_JOBS to be 1 or more, found {asked}")),
            Ok(jobs) => Ok(jobs),
        },
    }
}

#[cfg(test)]
mod tests {
    use super::*;

    #[test]
    fn folder_names_and_jobs() {
        let words = |line: &str| line.split_whitespace().map(str::to_string).collect();
        let options = |from: &str, names: &str| Options {
            from: from.to_string(),
            names: words(names),
            jobs: 2,
        };
        assert_eq!(read(words(""), 2).unwrap(), options("edits", ""));
        assert_eq!(read(words("a --from must-fail b"), 2).unwrap(), options("must-fail", "a b"));
        assert!(read(words("--from"), 2).is_err());
        assert!(read(words("--form x"), 2).is_err());
        assert_eq!(jobs(Some("3".to_string())).unwrap(), 3);
        assert!(jobs(None).unwrap() <= 4);
        assert!(jobs(Some("0".to_string())).is_err());
        assert!(jobs(Some("two".to_string())).is_err());
    }
}
