//! What counts references: derive, execute-only, clone, drop.

use crate::entry::{Entry, Kind};
use crate::interface::{Answer, Request};
use crate::machine::Machine;
use crate::permissions::{lie_within, X};
use crate::refusal::{need, Refusal};
use crate::table::Met;
use crate::token::{naming, Token, PARENT_ENCODING};

/// Place 9: "derive, execute-only, clone at 65,535".
#[inline]
fn raised(count: u16) -> Result<u16, Refusal> {
    count.checked_add(1).ok_or(Refusal::Standing)
}

impl Machine<'_> {
    /// "length at least 1, length + offset < the segment's length (as printed),
    /// permissions within the parent's", the sum as 02 has it.
    pub fn derive(&mut self, request: &Request) -> Result<Answer, Refusal> {
        let (parent, _) = self.table.line(request.token)?;
        let wanted = request.permissions as u8;
        need(lie_within(wanted, parent.entry.permissions), Refusal::Right)?;
        // 02, paper 1: "From now on length + offset may equal the segment's
        // length." A sum beyond 64 bits is beyond every segment.
        let end = request.length.checked_add(request.second);
        let inside = end.is_some_and(|end| end <= u64::from(parent.entry.length));
        need(inside, Refusal::Bounds)?;
        let base = parent.entry.base + request.second as u32;
        self.give_child(parent, base, request.length as u32, wanted, request.encoding)
    }

    /// "the same, without the sum, over the whole segment with X alone"
    pub fn execute_only(&mut self, request: &Request) -> Result<Answer, Refusal> {
        let (parent, _) = self.table.line(request.token)?;
        need(lie_within(X, parent.entry.permissions), Refusal::Right)?;
        let Entry { base, length, .. } = parent.entry;
        self.give_child(parent, base, length, X, request.encoding)
    }

    /// Places 9 to 11, then "count 1; the parent's count rises by one".
    #[inline]
    fn give_child(
        &mut self,
        mut parent: Met,
        base: u32,
        length: u32,
        permissions: u8,
        encoding: u64,
    ) -> Result<Answer, Refusal> {
        let count = raised(parent.entry.count)?;
        let number = self.need_number()?;
        let token = naming(parent.number, parent.entry.tag, PARENT_ENCODING);
        let kind = Kind::Indirect(token);
        let child = Entry { base, length, count: 1, permissions, tag: 0, nonce: 0, kind };
        let child =
            self.seek_nonce(self.state.next, number, &child, self.table.last_held(number))?;

        self.issue_new(child);
        parent.entry.count = count;
        self.table.store(parent.number, parent.entry.pack());
        Ok(Answer { first: child.token(encoding), ..Answer::GRANTED })
    }

    /// "Clone adds one to the count."
    pub fn clone(&mut self, request: &Request) -> Result<Answer, Refusal> {
        let (mut named, _) = self.table.line(request.token)?;
        named.entry.count = raised(named.entry.count)?;
        self.table.store(named.number, named.entry.pack());
        Ok(Answer::GRANTED)
    }

    /// "A count of 2 or more falls by one, answer 0. At 1 under a locked owner
    /// nothing changes, answer 0. At 1 otherwise it falls to 0, answer 1."
    pub fn drop(&mut self, request: &Request) -> Result<Answer, Refusal> {
        let named = self.table.named(Token::unpack(request.token))?;
        let locked = match self.table.owner(named) {
            Ok(owner) => owner.locked(),
            // "dead; drop skips this", "A dead line counts as unlocked."
            Err(Refusal::Dead(_)) => false,
            Err(refusal) => return Err(refusal),
        };
        // "drop at 0"
        need(named.entry.count != 0, Refusal::Standing)?;
        let last = named.entry.count == 1;
        if last && locked {
            return Ok(Answer::GRANTED);
        }
        self.let_go(named);
        // "The answer is the named entry's."
        Ok(Answer { dropped: u64::from(last), ..Answer::GRANTED })
    }

    /// "a direct entry stays, while an indirect one is freed and the drop
    /// climbs to its parent if that link holds"
    fn let_go(&mut self, mut met: Met) {
        loop {
            let direct = matches!(met.entry.kind, Kind::Direct(_));
            // "A climb that meets count 0 ends there."
            let Some(fallen) = met.entry.count.checked_sub(1) else {
                return;
            };
            if fallen > 0 || direct {
                met.entry.count = fallen;
                self.table.store(met.number, met.entry.pack());
                return;
            }
            self.free(met.number);
            match self.table.parent(&met.entry) {
                Some(parent) => met = parent,
                None => return,
            }
        }
    }
}
