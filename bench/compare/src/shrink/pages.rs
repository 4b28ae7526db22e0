//! Shorter segments that are paged out and in: buffer, segment and donor are of one length, so that it is
//! lowered wherever it stands.

use bridge::Operation;
use session::entry::{Entry, SIZE};

use super::shrinker::Shrinker;
use super::simpler::smaller;
use crate::draft::{Draft, Part};

impl Shrinker<'_> {
    pub fn shorter_pages(&mut self) {
        let mut at = 0;
        while let Some(part) = self.draft.parts.get(at) {
            if is_paging(part) {
                self.shorter_page(part.buffer.len());
            }
            at += 1;
        }
    }

    fn shorter_page(&mut self, whole: usize) {
        for length in smaller(whole, 1) {
            if self.take(with_length(&self.draft, whole, length)) {
                return;
            }
        }
    }
}

fn is_paging(part: &Part) -> bool {
    let operation = Operation::of(part.request.operation);
    operation.is_some_and(|operation| operation.buffer().is_whole())
}

/// A draft with another length in the place of one: in paged buffers, in requests, in entries that are
/// handed over, and of memory.
fn with_length(draft: &Draft, whole: usize, length: usize) -> Draft {
    let mut draft = draft.clone();
    for part in &mut draft.parts {
        if is_paging(part) && part.buffer.len() == whole {
            part.buffer.truncate(length);
        }
        if part.request.length == whole as u64 {
            part.request.length = length as u64;
        }
    }
    for number in 0..draft.world.table.len() / SIZE {
        let entry = Entry::of(&draft.world.table, number);
        if !entry.is_free() && entry.length() == whole as u64 {
            entry.with_length(length as u64).store(&mut draft.world.table, number);
        }
    }
    if draft.world.memory.len() == whole {
        draft.world.memory.truncate(length);
    }
    draft
}
