//! Simpler requests: their tokens, their other words, their buffers.

use bridge::{Buffer, Operation, Words};

use super::shrinker::Shrinker;
use super::simpler::smaller;
use crate::draft::{Draft, Source};

impl Shrinker<'_> {
    pub fn simpler_words(&mut self) {
        let mut at = 0;
        while at < self.draft.parts.len() {
            self.simpler_tokens(at);
            self.simpler_numbers(at);
            at += 1;
        }
    }

    /// The root for a token, or what an earlier request gave, or the same token in encoding 0 without
    /// an offset.
    fn simpler_tokens(&mut self, at: usize) {
        let mut draft = self.draft.clone();
        let part = &mut draft.parts[at];
        (part.token, part.request.token) = (Source::Word, 0);
        self.change(draft);
        for of_second in [false, true] {
            self.earlier_token(at, of_second);
            self.plain_token(at, of_second);
        }
    }

    /// A token that was given before the one that stands there.
    fn earlier_token(&mut self, at: usize, of_second: bool) {
        let Some(Source::Given { part: giver, offset, .. }) = source(&self.draft, at, of_second)
        else {
            return;
        };
        let names = self.draft.parts.iter().map(|part| part.name);
        let before: Vec<usize> = names.take_while(|name| *name != giver).collect();
        let tokens = before.into_iter().flat_map(|part| [(part, false), (part, true)]);
        for (part, second) in tokens {
            let earlier = Source::Given { part, second, encoding: 0, offset, flip: 0 };
            if self.change(with_source(&self.draft, at, of_second, earlier)) {
                return;
            }
        }
    }

    fn plain_token(&mut self, at: usize, of_second: bool) {
        let source = source(&self.draft, at, of_second);
        let Some(Source::Given { part, second, offset, flip, .. }) = source else {
            return;
        };
        for offset in [0, offset] {
            let plain = Source::Given { part, second, encoding: 0, offset, flip };
            self.change(with_source(&self.draft, at, of_second, plain));
        }
    }

    /// Each word that is a number, nearer to 0.
    fn simpler_numbers(&mut self, at: usize) {
        for place in 0..Words::COUNT {
            let Some(part) = self.draft.parts.get(at) else {
                return;
            };
            let sources = [Source::Word, part.token, part.second];
            let number = sources.get(place).is_none_or(|source| *source == Source::Word);
            // Another operation is another request, not a simpler one.
            let known = place == 0 && Operation::of(part.request.operation).is_some();
            if number && !known {
                self.lower(|draft| draft.parts[at].request.at(place));
            }
        }
    }

    pub fn smaller_buffers(&mut self) {
        let mut at = 0;
        while at < self.draft.parts.len() {
            if is_text(&self.draft, at) {
                self.fewer_lines(at);
            }
            self.smaller_buffer(at);
            at += 1;
        }
    }

    /// Leaves out runs of a text's lines, long ones first.
    fn fewer_lines(&mut self, at: usize) {
        let mut run = lines(&self.draft, at).len().next_power_of_two();
        while run > 0 {
            let mut end = lines(&self.draft, at).len();
            while end > 0 {
                let start = end.saturating_sub(run);
                let mut left = lines(&self.draft, at);
                left.drain(start..end.min(left.len()));
                let mut draft = self.draft.clone();
                draft.parts[at].buffer = left.concat();
                self.change(draft);
                end = start.min(lines(&self.draft, at).len());
            }
            run /= 2;
        }
    }

    fn smaller_buffer(&mut self, at: usize) {
        for length in smaller(self.draft.parts[at].buffer.len(), 1) {
            let mut draft = self.draft.clone();
            draft.parts[at].buffer.truncate(length);
            if self.take(draft) {
                break;
            }
        }
        let Some(part) = self.draft.parts.get(at) else {
            return;
        };
        if part.buffer.iter().any(|byte| *byte != 0) {
            let mut draft = self.draft.clone();
            draft.parts[at].buffer.fill(0);
            self.take(draft);
        }
    }
}

/// Whether a request is lent HEX text.
fn is_text(draft: &Draft, at: usize) -> bool {
    let operation = draft.parts.get(at).and_then(|part| Operation::of(part.request.operation));
    operation.is_some_and(|operation| operation.buffer() == Buffer::Text)
}

/// The lines of a request's buffer; none if there no longer is such a request.
fn lines(draft: &Draft, at: usize) -> Vec<Vec<u8>> {
    let buffer = draft.parts.get(at).map_or(&[][..], |part| &part.buffer);
    buffer.split_inclusive(|byte| *byte == b'\n').map(<[u8]>::to_vec).collect()
}

/// Where a request's first or second token comes from, if there still is such a request.
fn source(draft: &Draft, at: usize, of_second: bool) -> Option<Source> {
    let part = draft.parts.get(at)?;
    Some(if of_second { part.second } else { part.token })
}

fn with_source(draft: &Draft, at: usize, of_second: bool, source: Source) -> Draft {
    let mut draft = draft.clone();
    if let Some(part) = draft.parts.get_mut(at) {
        *(if of_second { &mut part.second } else { &mut part.token }) = source;
    }
    draft
}
