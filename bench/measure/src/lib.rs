//! What the proved northbridge costs: time, stack and instructions.
//!
//! - [`time`] measures the proved code, the model and the limits side by side, and writes tables;
//! - [`stack`] measures how much stack the shallowest call, the deepest walk, with leases and without,
//!   the deepest drop, a load, a dump and paging need, which a test holds to [`BOUND`];
//! - [`refused`] gives the refused requests whose instructions `bench/instructions` counts.

mod accesses;
mod batch;
mod built;
mod case;
mod host;
mod images;
mod limit;
mod operations;
mod paged;
mod paging;
mod parts;
mod refused;
mod rounds;
mod served;
mod spread;
mod stack;
mod table;
mod thread;
mod time;

pub use refused::{refused, Refused};
pub use stack::{stack, Figures, BOUND};
pub use table::Form;
pub use time::{time, Options};
