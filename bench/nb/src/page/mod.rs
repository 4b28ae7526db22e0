//! A session as a page for a browser: a slider over its requests, and the map of what stands at each.

mod json;
mod step;
mod write;

pub use write::Page;
