//! The commands, one module each.

mod compare;
mod dump;
mod load;
mod record;
mod replay;
mod search;
mod serve;
mod stack;
mod time;

pub use record::recorded;

use crate::command::Command;

/// Every command. A further one is a module above and a line here.
pub const COMMANDS: &[&Command] = &[
    &replay::COMMAND,
    &compare::COMMAND,
    &serve::COMMAND,
    &record::COMMAND,
    &search::COMMAND,
    &load::COMMAND,
    &dump::COMMAND,
    &time::COMMAND,
    &stack::COMMAND,
];
