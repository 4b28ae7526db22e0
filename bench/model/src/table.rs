//! The capability metadata table, and the line of an entry.

use crate::entry::{Direct, Entry, Kind, Raw};
use crate::refusal::{need, Place, Refusal};
use crate::token::Token;

/// "The entry of number n starts in the table's middle, at byte 32 × n."
pub struct Table<'a> {
    parts: &'a mut [[u8; 32]],
    memory_length: u64,
}

/// A well-formed entry with its number.
#[derive(Clone, Copy)]
pub struct Met {
    pub number: usize,
    pub entry: Entry,
}

/// The direct entry at the upper end of a line.
#[derive(Clone, Copy)]
pub struct Owner {
    pub number: usize,
    pub entry: Entry,
    pub direct: Direct,
}

impl Owner {
    /// "locked for another task"
    #[inline]
    pub fn locked_for_other(&self, task: u64) -> bool {
        self.direct.holder != 0 && self.direct.holder != task
    }

    #[inline]
    pub fn locked(&self) -> bool {
        self.direct.holder != 0
    }
}

impl<'a> Table<'a> {
    pub fn new(parts: &'a mut [[u8; 32]], memory: &[u8]) -> Table<'a> {
        Table { parts, memory_length: memory.len() as u64 }
    }

    /// "entries minus one": the free numbers when none but 0 is in use.
    #[inline]
    pub fn top(&self) -> u64 {
        (self.parts.len() as u64).saturating_sub(1)
    }

    /// The bytes of one number, if it is inside the table and not free.
    #[inline(always)]
    fn used(&self, number: u64) -> Option<(usize, Raw)> {
        let number = usize::try_from(number).ok()?;
        let raw = Raw::load(self.parts.get(number)?);
        (!raw.is_free()).then_some((number, raw))
    }

    #[inline]
    pub fn store(&mut self, number: usize, raw: Raw) {
        if let Some(part) = self.parts.get_mut(number) {
            raw.store(part);
        }
    }

    /// 02, paper 5: "A freed entry now keeps its tag, all else zero."
    #[inline]
    pub fn free(&mut self, number: usize) {
        self.store(number, Raw::free(self.last_held(number)));
    }

    /// The tag that a number has or, if it is free, last had. 02, paper 5: "an
    /// entry never used counts as having held tag 0", and reset leaves that.
    #[inline]
    pub fn last_held(&self, number: usize) -> u16 {
        self.parts.get(number).map_or(0, |part| Raw::load(part).tag())
    }

    pub fn clear(&mut self) {
        self.parts.as_flattened_mut().fill(0);
    }

    /// "A new number is the first free one after the last given, going round
    /// from the table's end to 1." The last given is itself tried at the end.
    pub fn free_number(&self, last: u64) -> Option<usize> {
        let end = self.parts.len();
        let after = usize::try_from(last).unwrap_or(end).saturating_add(1).min(end);
        let free = |from: usize, to: usize| {
            let parts = self.parts.get(from..to).unwrap_or(&[]);
            parts.iter().position(|part| part[0] >> 5 == 0).map(|at| from + at)
        };
        free(after, end).or_else(|| free(1, after))
    }

    /// Place 2: "number beyond the table, free, or another tag".
    #[inline(always)]
    fn tagged(&self, token: Token) -> Result<(usize, Raw), Refusal> {
        let (number, raw) = self.used(token.number).ok_or(Refusal::Entry)?;
        need(raw.tag() == token.tag, Refusal::Entry)?;
        Ok((number, raw))
    }

    /// Place 3 for the named entry.
    #[inline(always)]
    fn judged(&self, (number, raw): (usize, Raw)) -> Result<Met, Refusal> {
        let entry = raw.fields(self.memory_length);
        Ok(Met { number, entry: entry.ok_or(Refusal::IllFormed(Place::Named))? })
    }

    /// Places 2 and 3 for the named entry. 02, paper 6: "17 a paged entry in any
    /// operation but 'in', after its tag matched", so before its form is judged.
    #[inline(always)]
    pub fn named(&self, token: Token) -> Result<Met, Refusal> {
        let tagged = self.tagged(token)?;
        need(!tagged.1.is_paged(), Refusal::Paged)?;
        self.judged(tagged)
    }

    /// "A parent beyond the table, free, with another tag or too high a nonce
    /// is a missing link, ill-formed or not." 02, paper 6: "a paged parent is a
    /// missing link".
    #[inline(always)]
    fn link(&self, parent: u64, child_nonce: u32) -> Option<(usize, Raw)> {
        let token = Token::unpack(parent);
        let (number, raw) = self.used(token.number)?;
        if raw.is_paged() {
            return None;
        }
        (raw.tag() == token.tag && raw.nonce() < child_nonce).then_some((number, raw))
    }

    /// The parent of an entry whose line was walked before, if the link holds.
    #[inline]
    pub fn parent(&self, child: &Entry) -> Option<Met> {
        let Kind::Indirect(parent) = child.kind else {
            return None;
        };
        let (number, raw) = self.link(parent, child.nonce)?;
        Some(Met { number, entry: raw.fields(self.memory_length)? })
    }

    /// Places 3 and 4 above the named entry: "A walk stops at its first bad
    /// link or entry. A link is judged before the entry it leads to." The
    /// nonce falls at each link, so that no entry is met twice.
    #[inline(always)]
    pub fn owner(&self, named: Met) -> Result<Owner, Refusal> {
        let Met { mut number, mut entry } = named;
        let mut holds_the_link = Place::Named;
        loop {
            let parent = match entry.kind {
                // "A direct entry is its own owner."
                Kind::Direct(direct) => return Ok(Owner { number, entry, direct }),
                Kind::Indirect(parent) => parent,
                // Not met: a named one was turned away, a parent is no link.
                Kind::Paged(_) => return Err(Refusal::Paged),
            };
            let (above, raw) =
                self.link(parent, entry.nonce).ok_or(Refusal::Dead(holds_the_link))?;
            holds_the_link = Place::Ancestor;
            entry = raw.fields(self.memory_length).ok_or(Refusal::IllFormed(Place::Ancestor))?;
            number = above;
        }
    }

    /// Places 2 to 4.
    #[inline(always)]
    pub fn line(&self, word: u64) -> Result<(Met, Owner), Refusal> {
        let named = self.named(Token::unpack(word))?;
        Ok((named, self.owner(named)?))
    }

    /// Places 2 to 5.
    #[inline(always)]
    pub fn line_for(&self, word: u64, task: u64) -> Result<(Met, Owner), Refusal> {
        let (named, owner) = self.line(word)?;
        need(!owner.locked_for_other(task), Refusal::Lock)?;
        Ok((named, owner))
    }

    /// Places 2 to 5 for either token of a page-in, paged or not. A paged entry
    /// has neither parent nor lock.
    pub fn line_to_page_in(&self, word: u64, task: u64) -> Result<Met, Refusal> {
        let named = self.judged(self.tagged(Token::unpack(word))?)?;
        if !matches!(named.entry.kind, Kind::Paged(_)) {
            let owner = self.owner(named)?;
            need(!owner.locked_for_other(task), Refusal::Lock)?;
        }
        Ok(named)
    }
}
