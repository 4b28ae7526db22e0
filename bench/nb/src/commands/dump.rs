//! `nb dump`: a segment to a HEX file.

use std::fs;
use std::io::Write;

use crate::answer::answer_text;
use crate::arguments::Arguments;
use crate::behind;
use crate::command::Command;
use crate::files;
use crate::hex;
use crate::outcome::{Failure, Verdict};
use bridge::{Operation, TEXT_BYTES};

pub const COMMAND: Command = Command {
    name: "dump",
    about: "writes a segment to a HEX file",
    example: "nb dump loaded.session card again.hex",
    help: HELP,
    run,
};

const HELP: &str = "\
nb dump [--task N] SESSION TOKEN FILE

Asks the requests of a session, and then a dump through TOKEN: a name that the session gives, 'root',
or any other token as docs/SESSIONS.md writes it. The text goes to FILE, which ends in .hex: Intel HEX
with 16 bytes a record, capital digits and line feeds. At most 23820 bytes can be dumped at once. '-'
reads the session from the standard input.

    --task N     the task that asks (0, none)

For example:

    nb dump loaded.session card again.hex

    echo 'memory 256 entries 2
    reset nonce 1
    write root 48656c6c6f' | nb dump - root hello.hex

The status is 0 if the dump was granted, 1 if it was refused, 2 if a file cannot be read or written.
";

fn run(mut arguments: Arguments, out: &mut dyn Write) -> Result<Verdict, Failure> {
    let task = arguments.number("--task")?.unwrap_or(0);
    let rest = arguments.rest()?;
    let [session, token, file] = rest.as_slice() else {
        let found = rest.len();
        let expected = "a session, a token and a HEX file";
        return Err(Failure::Input(format!("dump: expected {expected}, found {found} words")));
    };
    // Its name is told from a session's, which it would overwrite.
    if !file.ends_with(".hex") {
        let expected = "a file that ends in .hex";
        return Err(Failure::Input(format!("dump: expected {expected}, found '{file}'")));
    }
    let script = files::read(session)?;
    let ask = behind::ask(Operation::Dump, token, task, vec![0; TEXT_BYTES])?;
    let played = behind::play(session, &script, &ask)?;
    if played.reply.refusal != 0 {
        writeln!(out, "{token}: {}", answer_text(&ask, &played))?;
        return Ok(Verdict::Difference);
    }
    let length = usize::try_from(played.reply.length).unwrap_or(usize::MAX).min(TEXT_BYTES);
    let text = &played.buffer[..length];
    fs::write(file, text).map_err(|error| {
        Failure::Input(format!("dump: expected a file to write to, cannot write {file}: {error}"))
    })?;
    let bytes = hex::read(text).map_or(0, |image| image.bytes);
    writeln!(out, "{file}: {bytes} bytes as {length} bytes of text")?;
    Ok(Verdict::Agreement)
}
