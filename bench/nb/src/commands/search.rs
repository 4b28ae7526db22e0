//! `nb search`: finds a key with which a session goes as it expects.

use std::io::Write;

use crate::arguments::Arguments;
use crate::command::Command;
use crate::files;
use crate::outcome::{Failure, Verdict};
use bridge::Operation;
use session::play::search;
use session::server::Proved;
use session::text::print_script;
use session::text::Word;

pub const COMMAND: Command = Command {
    name: "search",
    about: "finds a key with which a session goes as expected, such as one where two tags agree",
    example: "nb search --keys 1000000 rare.session > found.session",
    help: HELP,
    run,
};

const HELP: &str = "\
nb search [--keys N] FILE

Tries one key after the other in the first request of a session, a reset, until everything that the
file expects comes true, and prints the session with that key. Some things come about by chance
only: that two tags agree takes about 65,536 keys.

    --keys N     tries the first key words from 0 to N - 1; 1,000,000 if nothing is said

For example, a derive that passes over a nonce, since its tag would be the one that the number last
had:

    echo 'memory 64 entries 2
    reset key 0 0 nonce 1
    derive root length 8 permissions RWX -> 0 as one
    drop one                             -> 0
    derive root length 8 permissions RWX -> 0
    = state nonce 4' | nb search -

The status is 0 if a key was found, 1 if none was.
";

fn run(mut arguments: Arguments, out: &mut dyn Write) -> Result<Verdict, Failure> {
    let keys = arguments.number("--keys")?.unwrap_or(1_000_000);
    let files = arguments.rest()?;
    let [file] = files.as_slice() else {
        let found = files.len();
        return Err(Failure::Input(format!("search: expected one file, found {found}")));
    };
    let mut script = files::read(file)?;
    let first =
        script.asks.first_mut().filter(|ask| ask.words.operation == Operation::Reset as u64);
    let Some(line) = first.map(|ask| ask.line) else {
        return Err(Failure::Input(format!("{file}: expected a reset as the first request")));
    };
    let Some(key) = search(&script, &mut Proved, keys) else {
        writeln!(out, "no key from 0 to {} will do", keys.saturating_sub(1))?;
        return Ok(Verdict::Difference);
    };
    script.asks.iter_mut().filter(|ask| ask.line == line).for_each(|ask| {
        ask.token = Word::Number(key);
    });
    write!(out, "{}", print_script(&script))?;
    Ok(Verdict::Agreement)
}
