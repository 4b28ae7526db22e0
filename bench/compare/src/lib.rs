//! Compares the proved northbridge with the model, or with any program that speaks the line
//! protocol, over sessions that look where nobody looked.
//!
//! `run` plays sessions until the wanted number of requests, and shrinks what it finds; `serve`
//! speaks the line protocol with the proved code.

mod command;
mod coverage;
mod dice;
mod difference;
mod draft;
mod events;
mod fault;
mod free;
mod guard;
mod image;
mod kinds;
mod leases;
mod limits;
mod line;
mod machine;
mod pair;
mod player;
mod process;
mod progress;
pub mod protocol;
mod run;
mod server;
mod shrink;
mod standings;
mod tag;
mod text;
mod wild;
mod worlds;

pub use command::{Simulator, WAIT};
pub use coverage::{cases, possible, Case, Coverage, OPERATIONS};
pub use difference::Difference;
pub use guard::{Guard, Guarded};
pub use kinds::{Kind, ALL as KINDS};
pub use machine::{Machine, Model, Proved};
pub use pair::Pair;
pub use player::Found;
pub use run::{compare, run, First, Options, Outcome};
pub use server::serve;
pub use session::server::Trouble;
