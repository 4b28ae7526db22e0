//! 02, paper 6: paging out idle buffers, and in again. "lock, kind, length (8),
//! standing, numbers and nonces are checked in 01's order": no right is asked.

use crate::entry::{Direct, Entry, Kind, Paged};
use crate::interface::{Answer, Request};
use crate::machine::Machine;
use crate::permissions;
use crate::refusal::{need, Refusal};
use crate::segments::{at_rest, need_direct};
use crate::table::Met;

/// Place 6: "a first token not paged".
fn need_paged(met: &Met) -> Result<Paged, Refusal> {
    match met.entry.kind {
        Kind::Paged(paged) => Ok(paged),
        Kind::Direct(_) | Kind::Indirect(_) => Err(Refusal::Kind),
    }
}

impl Machine<'_> {
    /// The bytes of memory of a direct entry.
    fn segment(&mut self, entry: &Entry) -> Result<&mut [u8], Refusal> {
        let start = entry.base as usize;
        self.memory.get_mut(start..start + entry.length as usize).ok_or(Refusal::Bounds)
    }

    /// "the bytes go to a caller's buffer of equal length (else 8), the entry
    /// becomes type 3 and is issued anew; the zeroed segment becomes a new
    /// direct entry, issued second"
    pub fn page_out(&mut self, request: &Request, buffer: &mut [u8]) -> Result<Answer, Refusal> {
        let (named, _) = self.table.line_for(request.token, request.task)?;
        let old = named.entry;
        let direct = need_direct(&named)?;
        need(buffer.len() as u64 == u64::from(old.length), Refusal::Bounds)?;
        // "A locked buffer never goes out": its holder passes place 5, not this.
        need(at_rest(&old, &direct), Refusal::Standing)?;
        let number = self.need_number()?;

        // "page-file number 64 as requested, user 64, the rest as direct"
        let Direct { user, lockable, .. } = direct;
        let page_file = request.second;
        let kind = Kind::Paged(Paged { page_file, user, lockable });
        let paged = Entry { base: 0, kind, ..old };
        let paged = self.seek_nonce(self.state.next, named.number, &paged, old.tag)?;

        // "a new direct entry with R, W, X, Lockable and user 0"
        let kind = Kind::Direct(Direct { holder: 0, user: 0, lockable: true });
        let zeroed = Entry { permissions: permissions::ALL, kind, ..old };
        let zeroed = self.seek_nonce(paged.next, number, &zeroed, self.table.last_held(number))?;

        let segment = self.segment(&old)?;
        buffer.copy_from_slice(segment);
        segment.fill(0);
        self.issue(paged);
        self.issue_new(zeroed);
        let (first, second) = (paged.token(request.encoding), zeroed.token(request.encoding));
        Ok(Answer { first, second, ..Answer::GRANTED })
    }

    /// "the buffer's bytes land in the donor's segment, the paged entry becomes
    /// direct there, is issued anew, its token answered, and the donor is freed"
    pub fn page_in(&mut self, request: &Request, buffer: &[u8]) -> Result<Answer, Refusal> {
        // "two tokens go as a merge's"
        let named = self.table.line_to_page_in(request.token, request.task)?;
        let donor = self.table.line_to_page_in(request.second, request.task)?;
        let Paged { user, lockable, .. } = need_paged(&named)?;
        let donor_direct = need_direct(&donor)?;
        // "a paged token, a buffer and a donor direct entry, all of equal length"
        let length = u64::from(named.entry.length);
        let equal = length == buffer.len() as u64 && length == u64::from(donor.entry.length);
        need(equal, Refusal::Bounds)?;
        need(at_rest(&donor.entry, &donor_direct), Refusal::Standing)?;

        let kind = Kind::Direct(Direct { holder: 0, user, lockable });
        let back = Entry { base: donor.entry.base, kind, ..named.entry };
        let back = self.seek_nonce(self.state.next, named.number, &back, named.entry.tag)?;

        self.segment(&donor.entry)?.copy_from_slice(buffer);
        self.issue(back);
        self.free(donor.number);
        Ok(Answer { first: back.token(request.encoding), ..Answer::GRANTED })
    }
}
