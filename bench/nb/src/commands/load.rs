//! `nb load`: a HEX file into a segment.

use std::fs;
use std::io::Write;

use crate::answer::answer_text;
use crate::arguments::Arguments;
use crate::behind;
use crate::command::Command;
use crate::files;
use crate::hex::{self, Image};
use crate::outcome::{Failure, Verdict};
use bridge::Operation;
use session::play::record;
use session::server::Proved;
use session::text::{print_script, Ask, Expected, Script};

pub const COMMAND: Command = Command {
    name: "load",
    about: "loads a HEX file into a segment, or says which line is wrong",
    example: "nb load --to loaded.session start.session card firmware.hex",
    help: HELP,
    run,
};

const HELP: &str = "\
nb load [--task N] [--to NEW] SESSION TOKEN FILE

Asks the requests of a session, and then a load of FILE's text through TOKEN: a name that the session
gives, 'root', or any other token as docs/SESSIONS.md writes it. It tells what the text holds and the
answer; of a text that is refused, the line and what is wrong with it. '-' reads the session from the
standard input.

FILE is Intel HEX with records of the types 00, 01 and 04, at most 65536 bytes, and each line ends in
a line feed alone. Tools that write CR LF, such as GNU objcopy, need a conversion:

    sed 's/\\r$//' from-objcopy.hex > firmware.hex

and srecord's srec_cat also leaves out start addresses, and parts records that run past a page of
64 KiB:

    srec_cat IN.hex -intel -o OUT.hex -intel -Output_Block_Alignment -disable=exec-start-address

    --task N     the task that asks (0, none)
    --to NEW     writes the session with the load behind its requests, if it was granted, for further
                 commands; NEW ends in .session

For example:

    echo 'memory 65536 entries 4
    reset nonce 1
    derive root length 4096 permissions RW -> 0 as card' > start.session
    nb load --to loaded.session start.session card firmware.hex
    nb replay --map loaded.session
    nb dump loaded.session card again.hex

The status is 0 if the load was granted, 1 if it was refused, 2 if a file cannot be read or written.
";

fn run(mut arguments: Arguments, out: &mut dyn Write) -> Result<Verdict, Failure> {
    let task = arguments.number("--task")?.unwrap_or(0);
    let new = arguments.value("--to")?;
    let rest = arguments.rest()?;
    let [session, token, file] = rest.as_slice() else {
        let found = rest.len();
        let expected = "a session, a token and a HEX file";
        return Err(Failure::Input(format!("load: expected {expected}, found {found} words")));
    };
    check_new(new.as_deref())?;
    let script = files::read(session)?;
    let text = files::bytes_of(file, "a HEX file")?;
    let ask = behind::ask(Operation::Load, token, task, text)?;
    let played = behind::play(session, &script, &ask)?;
    writeln!(out, "{file}: {}{}", held(&ask), answer_text(&ask, &played))?;
    if played.reply.refusal != 0 {
        return Ok(Verdict::Difference);
    }
    if let Some(new) = new {
        write_new(&new, script, ask)?;
        writeln!(out, "session written to {new}")?;
    }
    Ok(Verdict::Agreement)
}

/// Its name is told from that of a HEX file, which it would overwrite.
fn check_new(new: Option<&str>) -> Result<(), Failure> {
    match new {
        Some(new) if !new.ends_with(".session") => Err(Failure::Input(format!(
            "load: expected a file that ends in .session behind --to, found '{new}'"
        ))),
        _ => Ok(()),
    }
}

/// What a text holds that can be read.
fn held(ask: &Ask) -> String {
    let Ok(Image { records, bytes, reach }) = hex::read(&ask.buffer) else {
        return String::new();
    };
    match reach {
        Some(reach) => {
            let last = reach.end - 1;
            format!("{records} records, {bytes} bytes of data from {} to {last}: ", reach.start)
        }
        None => format!("{records} records without data: "),
    }
}

/// The session with the load behind it; an exact one stays exact.
fn write_new(new: &str, mut script: Script, ask: Ask) -> Result<(), Failure> {
    script.asks.push(Ask { expected: Some(Expected::default()), ..ask });
    if script.exact {
        // What the load does is not stated yet.
        script.exact = false;
        let recorded = record(&script, &mut Proved);
        script = recorded.map_err(|_| Failure::Input("load: the session went otherwise".into()))?;
    }
    fs::write(new, print_script(&script)).map_err(|error| {
        Failure::Input(format!("load: expected a file to write to, cannot write {new}: {error}"))
    })
}
