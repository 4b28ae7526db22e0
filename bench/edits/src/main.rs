//! `edits`: tries the edits that the prover must refuse, over incremental folders.

use std::process::ExitCode;

fn main() -> ExitCode {
    edits_tool::main(std::env::args().skip(1).collect())
}
