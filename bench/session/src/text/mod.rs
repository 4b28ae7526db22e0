//! Sessions as text: one request a line, with comments, names for tokens, and expected results.
//!
//! docs/SESSIONS.md describes the format.

mod arguments;
mod bytes;
mod change;
mod compose;
mod cursor;
mod error;
mod leases;
mod lines;
mod named;
mod parse;
mod parse_expected;
mod parse_request;
mod parse_standing;
mod print;
mod script;
mod state;
mod words;

pub use bytes::FILL;
pub use change::changes;
pub use error::Error;
pub use leases::Leases;
pub use lines::Comments;
pub use named::{Names, Unresolved, Word};
pub use parse::parse;
pub use print::{buffer_text, print, print_request, print_script, print_standing, print_with};
pub use script::{Ask, EntryLine, Expected, Script, Sizes, Standing, Start};
pub use state::StatedState;
pub use words::{number, number_text, permissions_text, token, token_text};
