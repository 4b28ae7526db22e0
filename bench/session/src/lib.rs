//! Sessions: what stands at the start, and the requests in their order.

pub mod entry;
pub mod play;
pub mod server;
pub mod text;
pub mod token;
mod world;

pub use world::{replace, Session, Step, World};
