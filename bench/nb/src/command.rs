//! A command of the tool.

use std::io::Write;

use crate::arguments::Arguments;
use crate::outcome::{Failure, Verdict};

pub struct Command {
    pub name: &'static str,
    /// One line on what it does.
    pub about: &'static str,
    /// A command line that works.
    pub example: &'static str,
    pub help: &'static str,
    pub run: fn(Arguments, &mut dyn Write) -> Result<Verdict, Failure>,
}
