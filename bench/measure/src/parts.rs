//! The parts of the benchmark.

use crate::case::Case;
use crate::{accesses, images, operations, paging};

/// Sizes of tables for the search of a free number and for a reset.
const ENTRIES: [usize; 5] = [4, 16, 64, 256, 1_024];
/// Sizes of segments for revoke.
const SEGMENTS: [usize; 8] = [64, 256, 1_024, 4_096, 16_384, 65_536, 262_144, 1_048_576];
/// Lines for the walk and the climb.
const LINES: [usize; 6] = [1, 8, 64, 256, 512, 1_020];

/// Sets of cases, each set measured by turns.
pub struct Part {
    pub title: &'static str,
    pub sets: Vec<Vec<Case>>,
    /// By what the rows grow, and how much of their size that is.
    pub grows: Option<(&'static str, usize)>,
}

pub fn parts() -> Vec<Part> {
    let [read, write, fetch] = accesses::WAYS;
    vec![
        plain("Operations on a segment", vec![operations::of_segments()]),
        plain("Operations on an entry of any line", vec![operations::of_lines()]),
        plain("Reads", of_way(read)),
        plain("Writes", of_way(write)),
        plain("Fetches", of_way(fetch)),
        growing("Reads under leases", accesses::LEASES.map(accesses::leased), "lease", 1),
        growing("The walk: a clone at a line's end", LINES.map(operations::clone), "link", 1),
        growing("The climb: a drop that frees a line", LINES.map(operations::climb), "link", 1),
        growing(
            "The search: a derive, the one free number found last",
            ENTRIES.map(operations::search),
            "entry",
            1,
        ),
        growing("Resets", ENTRIES.map(operations::reset), "entry", 1),
        growing("Revokes", SEGMENTS.map(operations::revoke), "KiB", 1_024),
        growing("Loads", images::SIZES.map(images::load), "KiB", 1_024),
        growing("Dumps", images::SIZES.map(images::dump), "KiB", 1_024),
        growing("Segments paged out", paging::SIZES.map(paging::out), "KiB", 1_024),
        growing("Segments paged in", paging::SIZES.map(paging::back), "KiB", 1_024),
    ]
}

fn plain(title: &'static str, sets: Vec<Vec<Case>>) -> Part {
    Part { title, sets, grows: None }
}

fn growing<const N: usize>(
    title: &'static str,
    cases: [Case; N],
    unit: &'static str,
    size: usize,
) -> Part {
    Part { title, sets: vec![cases.into()], grows: Some((unit, size)) }
}

fn of_way(way: bridge::Operation) -> Vec<Vec<Case>> {
    accesses::DEPTHS.map(|depth| accesses::cases(way, depth)).into()
}
