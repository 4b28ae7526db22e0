//! What changed between two worlds, as the lines that state it.

use super::script::{EntryLine, Standing};
use super::state::StatedState;
use crate::entry::{Entry, Field, Type, SIZE};
use crate::world::World;
use std::ops::Range;

/// Unchanged bytes that part two runs; fewer are written along.
const GAP: usize = 8;
/// Slices are first compared in parts of this length.
const PART: usize = 4096;

/// The state's words, the entries and the runs of memory that differ. Both worlds must have the
/// same sizes.
pub fn changes(before: &World, now: &World) -> Vec<Standing> {
    let state = StatedState::since(&before.state, &now.state);
    let stated = (state != StatedState::default()).then_some(Standing::State(state));
    let mut lines: Vec<Standing> = stated.into_iter().collect();
    lines.extend(entries(&before.table, &now.table));
    let whole = now.table.len() / SIZE * SIZE;
    lines.extend(runs(&before.table[whole..], &now.table[whole..]).into_iter().map(|run| {
        let (at, bytes) = (whole + run.start, now.table[whole..][run].to_vec());
        Standing::Table { at, bytes }
    }));
    lines.extend(
        runs(&before.memory, &now.memory)
            .into_iter()
            .map(|run| Standing::Memory { at: run.start, bytes: now.memory[run].to_vec() }),
    );
    lines
}

fn entries(before: &[u8], now: &[u8]) -> Vec<Standing> {
    let both = before.chunks_exact(SIZE).zip(now.chunks_exact(SIZE)).enumerate();
    let changed = both.filter(|(_, (before, now))| before != now);
    changed
        .filter_map(|(number, (before, now))| {
            let [before, now] = [before.try_into().ok()?, now.try_into().ok()?].map(Entry);
            let line = entry_change(&before, &now);
            Some(Standing::Entry { number, line })
        })
        .collect()
}

/// The fields that changed, or the whole entry if it was issued anew or its fields do not tell it.
fn entry_change(before: &Entry, now: &Entry) -> EntryLine {
    let places = Type::of(now.kind()).map_or(&[][..], |own| own.fields);
    let fields: Vec<(Field, u64)> = places
        .iter()
        .map(|(field, _)| (*field, now.field(*field)))
        .filter(|(field, value)| before.field(*field) != *value)
        .collect();
    let issued = fields.iter().any(|(field, _)| *field == Field::Nonce);
    if now.kind() != before.kind() || issued || fields.is_empty() {
        EntryLine::Whole(*now)
    } else {
        EntryLine::Fields(fields)
    }
}

/// The runs in which two slices of one length differ.
pub fn runs(before: &[u8], now: &[u8]) -> Vec<Range<usize>> {
    let mut runs: Vec<Range<usize>> = Vec::new();
    for (part, (old, new)) in before.chunks(PART).zip(now.chunks(PART)).enumerate() {
        if old != new {
            runs_of_part(part * PART, old, new, &mut runs);
        }
    }
    runs
}

fn runs_of_part(start: usize, old: &[u8], new: &[u8], runs: &mut Vec<Range<usize>>) {
    let bytes = old.iter().zip(new).enumerate();
    for at in bytes.filter(|(_, (old, new))| old != new).map(|(at, _)| start + at) {
        match runs.last_mut() {
            Some(run) if at - run.end < GAP => run.end = at + 1,
            _ => runs.push(at..at + 1),
        }
    }
}
