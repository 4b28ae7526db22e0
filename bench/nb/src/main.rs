//! `nb`: replays and records sessions of a northbridge.

use std::process::ExitCode;

fn main() -> ExitCode {
    nb_tool::run(std::env::args().skip(1).collect())
}
