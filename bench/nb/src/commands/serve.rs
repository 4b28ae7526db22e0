//! `nb serve`: the proved code behind the line protocol.

use std::io::{stdin, Write};

use crate::arguments::Arguments;
use crate::command::Command;
use crate::outcome::{Failure, Verdict};

pub const COMMAND: Command = Command {
    name: "serve",
    about: "speaks the line protocol with the proved code",
    example: "nb compare --requests 20000 --against 'nb serve'",
    help: HELP,
    run,
};

const HELP: &str = "\
nb serve

Answers each line on the standard input by one line on the standard output, until the input ends:

    northbridge 5                                   northbridge 5
    world TABLE MEMORY KEY0 KEY1 LAST NEXT TOTAL    ok
    table AT BYTES                                  ok
    memory AT BYTES                                 ok
    serve WORD0 .. WORD7 BUFFER LEASES              answer REFUSAL PLACE FIRST SECOND DROPPED LENGTH
                                                           KEY0 KEY1 LAST NEXT TOTAL BUFFER
    show-table AT LENGTH                            bytes BYTES
    show-memory AT LENGTH                           bytes BYTES
    anything else                                   error WHAT WAS EXPECTED

Numbers are hexadecimal without a prefix, bytes two digits each, and - stands for no bytes. 'world'
gives a table and a memory of so many zero bytes, and a state; 'table' and 'memory' put bytes into
them; 'serve' gives a request's eight words, its buffer and its leases. No line holds more than 8192
bytes, but for a buffer, which has at most 69632, with leases of at most 1024 behind it; so none has
more than 141568 characters.

For example:

    nb compare --requests 20000 --against 'nb serve'
";

fn run(arguments: Arguments, out: &mut dyn Write) -> Result<Verdict, Failure> {
    if let [word, ..] = arguments.rest()?.as_slice() {
        return Err(Failure::Input(format!("serve: expected nothing, found {word}")));
    }
    compare::serve(stdin().lock(), out)?;
    Ok(Verdict::Agreement)
}
