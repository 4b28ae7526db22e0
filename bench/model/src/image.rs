//! Load images. "Loads and dumps are requests like others", and "use the
//! access checks without the transfer limit".

use std::ops::Range;

use crate::hex;
use crate::interface::{Answer, Request};
use crate::machine::Machine;
use crate::permissions::{R, W};
use crate::refusal::{need, Refusal};

/// How far the data of a text goes. "A data record without bytes ... can't be
/// out of bounds."
fn data_end(text: &[u8]) -> Result<u64, Refusal> {
    let mut end = 0;
    hex::read(text, |offset, data| {
        if !data.is_empty() {
            end = end.max(offset + data.len() as u64);
        }
    })?;
    Ok(end)
}

impl Machine<'_> {
    /// The bytes of memory of the segment that a token opens.
    fn whole(&self, request: &Request, right: u8) -> Result<Range<usize>, Refusal> {
        let named = self.opened(request, right)?;
        let start = named.base as usize;
        Ok(start..start + named.length as usize)
    }

    /// "The reader checks the complete text and every record's bounds, then
    /// writes the data at its offsets."
    pub fn load(&mut self, request: &Request, text: &[u8]) -> Result<Answer, Refusal> {
        // 12 and 13: "both after place 1", and by rising number before 16.
        let end = data_end(text)?;
        let whole = self.whole(request, W)?;
        let segment = self.memory.get_mut(whole).ok_or(Refusal::Bounds)?;
        need(end <= segment.len() as u64, Refusal::Bounds)?;
        // "where records overlap, the later one wins"
        hex::read(text, |offset, data| {
            if let Some(place) = segment.get_mut(offset as usize..) {
                hex::decode(data, place);
            }
        })?;
        Ok(Answer::GRANTED)
    }

    /// "The writer turns a readable segment ... into such text."
    pub fn dump(&self, request: &Request, buffer: &mut [u8]) -> Result<Answer, Refusal> {
        let whole = self.whole(request, R)?;
        let segment = self.memory.get(whole).ok_or(Refusal::Bounds)?;
        // 14: "an output buffer too small or a written text above 65,536 bytes".
        let length = hex::text_length(segment.len());
        need(length <= hex::TEXT_LIMIT, Refusal::Room)?;
        hex::write(segment, buffer.get_mut(..length).ok_or(Refusal::Room)?);
        Ok(Answer { length: length as u64, ..Answer::GRANTED })
    }
}
