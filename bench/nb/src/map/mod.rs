//! What stands: segments in address order, what is derived from each, locks, and whatever is dead or
//! ill-formed; as rows, and drawn as text.

mod draw;
mod entry_text;
mod judge;
mod overview;
mod rows;
mod tree;

pub use draw::draw;
pub use judge::{judge, Judged, Link};
pub use rows::{Kind, Map, Row};
