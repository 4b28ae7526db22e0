//! "Access (read, write, fetch): 1 to 4,096 bytes at the address's offset,
//! wholly inside the segment, with R, W or X."

use std::ops::Range;

use crate::entry::Entry;
use crate::interface::{Answer, Request};
use crate::machine::Machine;
use crate::permissions::lie_within;
use crate::refusal::{need, Refusal};
use crate::token::Token;

impl Machine<'_> {
    /// The named entry, through 16, places 2 to 5, 15 and place 7. 02, paper 4:
    /// "15 closed, after the lock; 16 ... after place 1".
    #[inline(always)]
    pub fn opened(&self, request: &Request, right: u8) -> Result<Entry, Refusal> {
        self.leases.need_sound()?;
        let (named, _) = self.table.line_for(request.token, request.task)?;
        self.leases.need_open(Token::unpack(request.token), request.second)?;
        need(lie_within(right, named.entry.permissions), Refusal::Right)?;
        Ok(named.entry)
    }

    /// The bytes of memory that an access reaches.
    #[inline]
    fn reach(&self, request: &Request, right: u8, length: usize) -> Result<Range<usize>, Refusal> {
        let named = self.opened(request, right)?;
        // An offset is below 2^32 and the length at most 4,096.
        let offset = Token::unpack(request.token).offset;
        let end = offset + length as u64;
        need(end <= u64::from(named.length), Refusal::Bounds)?;
        let start = (u64::from(named.base) + offset) as usize;
        Ok(start..start + length)
    }

    /// A read or a fetch.
    pub fn read(&self, request: &Request, right: u8, buffer: &mut [u8]) -> Result<Answer, Refusal> {
        let reach = self.reach(request, right, buffer.len())?;
        buffer.copy_from_slice(self.memory.get(reach).ok_or(Refusal::Bounds)?);
        Ok(Answer::GRANTED)
    }

    pub fn write(
        &mut self,
        request: &Request,
        right: u8,
        buffer: &[u8],
    ) -> Result<Answer, Refusal> {
        let reach = self.reach(request, right, buffer.len())?;
        self.memory.get_mut(reach).ok_or(Refusal::Bounds)?.copy_from_slice(buffer);
        Ok(Answer::GRANTED)
    }
}
