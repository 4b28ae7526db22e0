//! The map as text.

use std::fmt::Write;
use std::ops::Range;

use super::overview::overview;
use super::rows::{Kind, Map, Row};
use crate::style::Style;
use session::text::Names;
use session::World;

/// How many characters show a segment's length.
const STRIP: u64 = 24;
/// How far the line above a segment goes.
const RULE: usize = 72;

/// Draws what stands, with the names that the session has for its tokens.
pub fn draw(world: &World, names: &Names, style: Style) -> String {
    let map = Map::of(world, names);
    let mut text = String::new();
    for (what, words) in &map.head {
        let _ = writeln!(text, "{what:<8} {words}");
    }
    text.push('\n');
    if let Some(strip) = overview(&map.segments(), world.memory.len() as u64) {
        let _ = writeln!(text, "{strip}\n");
    }
    let (mut segment, mut last) = (0..0, Kind::End);
    for row in &map.rows {
        if row.kind == Kind::Segment {
            segment = row.reach.clone();
        }
        if row.kind != last && Kind::APART.contains(&row.kind) {
            let _ = writeln!(text, "\n{}", row.kind.words());
        }
        push_row(&mut text, row, &segment, style);
        last = row.kind;
    }
    text
}

fn push_row(text: &mut String, row: &Row, segment: &Range<u64>, style: Style) {
    match row.kind {
        Kind::Segment | Kind::Gap | Kind::End => push_segment(text, row, style),
        Kind::Derived => push_derived(text, row, segment, style),
        Kind::Paged | Kind::Dead | Kind::UnderIllFormed | Kind::IllFormed => {
            push_apart(text, row, style);
        }
    }
}

/// A segment, a gap or the end of memory, under its rule.
fn push_segment(text: &mut String, row: &Row, style: Style) {
    let title = format!("{} {}", row.lead, row.title);
    push_rule(text, row.reach.start, title.trim_start());
    push_wrong(text, row, style);
    if row.kind == Kind::Segment {
        let length = row.reach.end - row.reach.start;
        push_line(text, &format!("{} {}", strip(0..length, length), row.words));
    }
    if let Some(lock) = &row.lock {
        push_line(text, &style.marked(lock));
    }
}

/// A derived entry with its place in the owner's segment.
fn push_derived(text: &mut String, row: &Row, segment: &Range<u64>, style: Style) {
    let Row { lead, title, words, reach, .. } = row;
    push_line(text, &format!("{} {lead}{title}: {words}", placed(reach, segment)));
    push_wrong(text, row, style);
}

/// An entry that has no place in memory, with the reason where something is wrong.
fn push_apart(text: &mut String, row: &Row, style: Style) {
    let _ = writeln!(text, "    {}: {}", row.title, row.words);
    if let Some(reason) = &row.wrong {
        let _ = writeln!(text, "        {}", style.wrong(reason));
    }
}

fn push_rule(text: &mut String, address: u64, title: &str) {
    let dashes = RULE.saturating_sub(title.chars().count());
    let _ = writeln!(text, "0x{address:08x} +-- {title} {:-<dashes$}", "");
}

fn push_line(text: &mut String, line: &str) {
    let _ = writeln!(text, "{:10} |   {line}", "");
}

fn push_wrong(text: &mut String, row: &Row, style: Style) {
    if let Some(wrong) = &row.wrong {
        push_line(text, &style.wrong(&format!("! {wrong}")));
    }
}

/// A part of a length, as a strip: every part shows at least one mark.
fn strip(part: Range<u64>, length: u64) -> String {
    let cell = |at: u64| {
        let cell = at * length / STRIP..((at + 1) * length / STRIP).max(at * length / STRIP + 1);
        let inside = part.start < cell.end && cell.start < part.end;
        if inside {
            '#'
        } else {
            '.'
        }
    };
    format!("[{}]", (0..STRIP).map(cell).collect::<String>())
}

/// A derived entry's strip in its owner's segment. In a handed-over table it may lie outside.
fn placed(reach: &Range<u64>, segment: &Range<u64>) -> String {
    if reach.start >= segment.end || reach.end <= segment.start {
        return format!("[{:^width$}]", "outside", width = STRIP as usize);
    }
    let start = reach.start.saturating_sub(segment.start);
    let end = reach.end.min(segment.end) - segment.start;
    strip(start..end, segment.end - segment.start)
}
