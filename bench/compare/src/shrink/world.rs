//! A simpler world: a reset in place of what was handed over, less of it, zeros, simpler entries.

use bridge::{Operation, State, Words};
use session::entry::{self, Bits, Entry, Type, SIZE};
use session::token::{self, Token, PARENT_ENCODING};
use session::World;

use super::shrinker::Shrinker;
use super::simpler::{lower, smaller};
use crate::draft::{Draft, Part, Source};
use crate::free;

/// Of more entries in use the fields are left as they are.
const MANY: usize = 24;

impl Shrinker<'_> {
    /// A reset at the head, over zeros, in place of what was handed over.
    pub fn begin_with_reset(&mut self) {
        if self.draft.begins_with_reset() {
            return self.zero_world();
        }
        if self.draft.world.table.iter().all(|byte| *byte == 0) {
            return;
        }
        let State { key: [token, second], next_nonce, .. } = self.draft.world.state;
        let operation = Operation::Reset as u64;
        for task in [next_nonce, 1] {
            let request = Words { operation, token, second, task, ..Words::default() };
            let draft = after(&self.draft, request);
            if self.take(draft.clone()) || self.take(through_root(draft)) {
                return;
            }
        }
    }

    fn zero_world(&mut self) {
        let mut draft = self.draft.clone();
        draft.world = World::zeros(draft.world.table.len(), draft.world.memory.len());
        self.change(draft);
    }

    pub fn smaller_table(&mut self) {
        let length = self.draft.world.table.len();
        for length in smaller(length, SIZE) {
            let mut draft = self.draft.clone();
            let top = free::top(&draft.world.table);
            draft.world.table.truncate(length);
            // The same total, or one as far below the top.
            let total = draft.world.state.total;
            let mut lowered = draft.clone();
            lowered.world.state.total = total.saturating_sub(top - free::top(&draft.world.table));
            if self.take(draft) || self.take(lowered) {
                return;
            }
        }
    }

    pub fn smaller_memory(&mut self) {
        let length = self.draft.world.memory.len();
        for length in smaller(length, 1) {
            let mut draft = self.draft.clone();
            draft.world.memory.truncate(length);
            if self.take(draft) {
                return;
            }
        }
    }

    pub fn zero_state(&mut self) {
        for place in 0..State::WORDS {
            self.lower(|draft| draft.world.state.at(place));
        }
    }

    pub fn zero_table(&mut self) {
        self.zero_runs(SIZE, |draft| &mut draft.world.table);
    }

    pub fn zero_memory(&mut self) {
        self.zero_runs(1, |draft| &mut draft.world.memory);
    }

    /// Sets runs of bytes to zero, long ones first, down to a least length.
    fn zero_runs(&mut self, least: usize, place: impl Fn(&mut Draft) -> &mut Vec<u8>) {
        let length = place(&mut self.draft).len();
        let mut run = length.next_power_of_two().max(least);
        while run >= least {
            self.zero_runs_of(run, &place);
            run /= 2;
        }
    }

    fn zero_runs_of(&mut self, run: usize, place: &impl Fn(&mut Draft) -> &mut Vec<u8>) {
        let length = place(&mut self.draft).len();
        for start in (0..length).step_by(run) {
            let end = length.min(start + run);
            if place(&mut self.draft)[start..end].iter().all(|byte| *byte == 0) {
                continue;
            }
            let mut draft = self.draft.clone();
            place(&mut draft)[start..end].fill(0);
            self.take(draft);
        }
    }

    /// Links left out of the lines that requests name: an entry's parent is one from further above.
    pub fn shorter_lines(&mut self) {
        let tokens =
            self.draft.parts.iter().flat_map(|part| [part.request.token, part.request.second]);
        let mut named: Vec<usize> =
            tokens.map(|word| Token::unpack(word).number as usize).collect();
        named.sort_unstable();
        named.dedup();
        for number in named {
            while self.leave_out_links_above(number) {}
        }
    }

    /// Many links first.
    fn leave_out_links_above(&mut self, number: usize) -> bool {
        let above = self.above(number);
        let mut links = above.len().next_power_of_two();
        while links > 1 {
            if let Some(parent) = above.get(links - 1) {
                let mut draft = self.draft.clone();
                let link = self.entry(*parent).token(*parent, PARENT_ENCODING);
                let entry = self.entry(number).with(entry::PARENT, link);
                entry.store(&mut draft.world.table, number);
                if self.take(draft) {
                    return true;
                }
            }
            links /= 2;
        }
        false
    }

    /// The numbers above an entry, the nearest first, as far as there are children.
    fn above(&self, number: usize) -> Vec<usize> {
        let parent = |number: &usize| {
            let entry = self.entry(*number);
            let parent = Token::unpack(entry.get(entry::PARENT)).number as usize;
            Some(parent).filter(|_| entry.kind() == entry::INDIRECT)
        };
        let entries = self.draft.world.table.len() / SIZE;
        std::iter::successors(Some(number), parent).skip(1).take(entries).collect()
    }

    /// Each field of each entry that is handed over, nearer to zero, and tags that can be read, if
    /// the entries are not too many.
    pub fn simpler_entries(&mut self) {
        let entries = self.draft.world.table.len() / SIZE;
        let used = (0..entries).filter(|number| !self.entry(*number).is_free());
        let used: Vec<usize> = used.take(MANY + 1).collect();
        if used.len() > MANY {
            return;
        }
        for number in used {
            let fields = Type::of(self.entry(number).kind()).map_or(&[][..], |own| own.fields);
            for (_, bits) in fields.iter().filter(|(_, bits)| *bits != entry::TAG) {
                self.lower_field(number, *bits);
            }
            self.retag(number);
        }
    }

    /// Of free entries the bytes beside the tag that they keep: zeros, or as many as may be.
    pub fn simpler_free_entries(&mut self) {
        let entries = self.draft.world.table.len() / SIZE;
        let filled = (0..entries).filter(|number| {
            let entry = self.entry(*number);
            entry.is_free() && entry.kept_tag().is_none()
        });
        for number in filled.take(MANY).collect::<Vec<_>>() {
            let entry = self.entry(number);
            let tag = entry.get(entry::TAG);
            if self.put(number, Entry::free(tag)) {
                continue;
            }
            for place in 0..SIZE {
                let mut entry = self.entry(number);
                entry.0[place] = 0;
                if entry != self.entry(number) && entry.get(entry::TAG) == tag {
                    self.put(number, entry);
                }
            }
        }
    }

    /// Takes the draft with another entry in its world.
    fn put(&mut self, number: usize, entry: Entry) -> bool {
        let mut draft = self.draft.clone();
        entry.store(&mut draft.world.table, number);
        self.take(draft)
    }

    fn entry(&self, number: usize) -> Entry {
        Entry::of(&self.draft.world.table, number)
    }

    fn lower_field(&mut self, number: usize, bits: Bits) {
        let entry = self.entry(number);
        for value in lower(entry.get(bits)) {
            if self.put(number, entry.with(bits, value)) {
                return;
            }
        }
    }

    /// The entry's number as its tag, in all tokens that name it.
    fn retag(&mut self, number: usize) {
        let entry = self.entry(number);
        let (old, new) = (entry.get(entry::TAG), number as u64);
        if entry.is_free() || old <= new {
            return;
        }
        let rename = |word: u64| match Token::unpack(word) {
            Token { tag, number: named, encoding, offset } if (tag, named) == (old, new) => {
                token::packed(encoding, new, named, offset)
            }
            _ => word,
        };
        let mut draft = self.draft.clone();
        for other in 0..draft.world.table.len() / SIZE {
            rename_parent(&mut draft.world.table, other, rename);
        }
        entry.with(entry::TAG, new).store(&mut draft.world.table, number);
        for part in &mut draft.parts {
            part.request.token = rename(part.request.token);
            part.request.second = rename(part.request.second);
            part.leases.iter_mut().for_each(|held| held.token = rename(held.token));
        }
        self.take(draft);
    }
}

/// A draft over zeros that begins with a request.
fn after(draft: &Draft, request: Words) -> Draft {
    let mut draft = draft.clone();
    let name = draft.parts.iter().map(|part| part.name + 1).max().unwrap_or(0);
    let (token, second) = (Source::Word, Source::Word);
    let (buffer, leases, rest) = (Vec::new(), Vec::new(), Vec::new());
    draft.parts.insert(0, Part { name, request, buffer, token, second, leases, rest });
    draft.world = World::zeros(draft.world.table.len(), draft.world.memory.len());
    draft
}

/// The same, each request behind the first through the token that was given last, the root's at first.
fn through_root(mut draft: Draft) -> Draft {
    let mut last = Source::Word;
    for part in draft.parts.iter_mut().skip(1) {
        (part.token, part.request.token) = (last, 0);
        if Operation::of(part.request.operation).is_some_and(Operation::issues) {
            let (second, encoding, offset, flip) = (false, 0, 0, 0);
            last = Source::Given { part: part.name, second, encoding, offset, flip };
        }
    }
    draft
}

fn rename_parent(table: &mut [u8], number: usize, rename: impl Fn(u64) -> u64) {
    let child = Entry::of(table, number);
    if child.kind() == entry::INDIRECT {
        child.with(entry::PARENT, rename(child.get(entry::PARENT))).store(table, number);
    }
}
