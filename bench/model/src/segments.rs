//! What the owner of a segment asks for: create, merge, revoke.

use crate::entry::{Direct, Entry, Kind};
use crate::interface::{Answer, Request};
use crate::machine::Machine;
use crate::permissions::{self, lie_within};
use crate::refusal::{need, Refusal};
use crate::table::Met;

/// Place 6: "create, merge, revoke of an indirect entry"; 02, paper 6, of a paged
/// donor too.
#[inline]
pub fn need_direct(met: &Met) -> Result<Direct, Refusal> {
    match met.entry.kind {
        Kind::Direct(direct) => Ok(direct),
        Kind::Indirect(_) | Kind::Paged(_) => Err(Refusal::Kind),
    }
}

/// Place 9: "create or merge when locked or count not 0"; 02, paper 6: "Entry and
/// donor must be unlocked at count 0".
#[inline]
pub fn at_rest(entry: &Entry, direct: &Direct) -> bool {
    direct.holder == 0 && entry.count == 0
}

impl Machine<'_> {
    /// "cuts a front part of the wanted length, at most the whole"
    pub fn create(&mut self, request: &Request) -> Result<Answer, Refusal> {
        let (named, _) = self.table.line_for(request.token, request.task)?;
        let old = named.entry;
        let direct = need_direct(&named)?;
        let wanted = request.permissions as u8;
        need(lie_within(wanted, old.permissions), Refusal::Right)?;
        need(request.length <= u64::from(old.length), Refusal::Bounds)?;
        need(at_rest(&old, &direct), Refusal::Standing)?;
        // "The new number is sought before that": a number about to be freed
        // is not yet free.
        let number = self.need_number()?;
        let length = request.length as u32;

        // "The part gets a new number and is issued first: count 0, the
        // request's user, the request's permissions, Lockable as before."
        let part = Entry {
            length,
            permissions: wanted,
            kind: Kind::Direct(Direct { user: request.user, ..direct }),
            ..old
        };
        let part = self.seek_nonce(self.state.next, number, &part, self.table.last_held(number))?;

        // "The rest keeps its number, is issued anew with base and length
        // moved; at length 0 it is freed instead."
        let rest = if length == old.length {
            None
        } else {
            let rest = Entry { base: old.base + length, length: old.length - length, ..old };
            Some(self.seek_nonce(part.next, named.number, &rest, old.tag)?)
        };

        self.issue_new(part);
        match rest {
            Some(rest) => self.issue(rest),
            None => self.free(named.number),
        }
        let first = part.token(request.encoding);
        let second = rest.map_or(0, |rest| rest.token(request.encoding));
        Ok(Answer { first, second, ..Answer::GRANTED })
    }

    /// "the first is issued anew over both with the permissions both have, its
    /// own user and Lockable; the second is freed"
    pub fn merge(&mut self, request: &Request) -> Result<Answer, Refusal> {
        // "Places 2 to 5 are done for a merge's first token, then its second."
        let (first, _) = self.table.line_for(request.token, request.task)?;
        let (second, _) = self.table.line_for(request.second, request.task)?;
        let first_direct = need_direct(&first)?;
        let second_direct = need_direct(&second)?;
        // "the second begins where the first ends"
        let end = u64::from(first.entry.base) + u64::from(first.entry.length);
        need(end == u64::from(second.entry.base), Refusal::Bounds)?;
        let at_rest =
            at_rest(&first.entry, &first_direct) && at_rest(&second.entry, &second_direct);
        need(at_rest, Refusal::Standing)?;
        // Both lie inside memory, one behind the other: the sum fits.
        let both = Entry {
            length: first.entry.length + second.entry.length,
            permissions: first.entry.permissions & second.entry.permissions,
            ..first.entry
        };
        let both = self.seek_nonce(self.state.next, first.number, &both, first.entry.tag)?;

        self.issue(both);
        self.free(second.number);
        Ok(Answer { first: both.token(request.encoding), ..Answer::GRANTED })
    }

    /// "zeros the segment and issues the same number over it: count 0, R W X,
    /// Lockable, unlocked, user 0"
    pub fn revoke(&mut self, request: &Request) -> Result<Answer, Refusal> {
        let (named, _) = self.table.line(request.token)?;
        need_direct(&named)?;
        let old = named.entry;
        let new = Entry {
            count: 0,
            permissions: permissions::ALL,
            kind: Kind::Direct(Direct { holder: 0, user: 0, lockable: true }),
            ..old
        };
        // "Nonces whose tag equals the old one are passed over."
        let new = self.seek_nonce(self.state.next, named.number, &new, old.tag)?;

        let start = old.base as usize;
        if let Some(segment) = self.memory.get_mut(start..start + old.length as usize) {
            segment.fill(0);
        }
        self.issue(new);
        Ok(Answer { first: new.token(request.encoding), ..Answer::GRANTED })
    }
}
