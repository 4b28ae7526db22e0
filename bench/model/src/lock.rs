//! Lock and unlock, "through any token of the line".

use crate::entry::{Direct, Entry, Kind};
use crate::interface::{Answer, Request};
use crate::machine::Machine;
use crate::refusal::{need, Refusal};
use crate::table::Owner;

impl Machine<'_> {
    /// "sets Locked and holder at the owner and needs the owner's Lockable; by
    /// the holder again it needs that too, succeeds and changes nothing"
    pub fn lock(&mut self, request: &Request) -> Result<Answer, Refusal> {
        let (_, owner) = self.table.line_for(request.token, request.task)?;
        need(owner.direct.lockable, Refusal::Right)?;
        self.hold(&owner, request.task);
        Ok(Answer::GRANTED)
    }

    /// "Unlock clears Locked and holder."
    pub fn unlock(&mut self, request: &Request) -> Result<Answer, Refusal> {
        let (_, owner) = self.table.line_for(request.token, request.task)?;
        need(owner.locked(), Refusal::Standing)?;
        self.hold(&owner, 0);
        Ok(Answer::GRANTED)
    }

    /// "Later changes of count or lock leave the tag."
    #[inline]
    fn hold(&mut self, owner: &Owner, holder: u64) {
        let kind = Kind::Direct(Direct { holder, ..owner.direct });
        self.table.store(owner.number, Entry { kind, ..owner.entry }.pack());
    }
}
