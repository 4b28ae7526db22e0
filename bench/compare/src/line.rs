//! Lines of the protocol, read up to their longest and no further.

use std::io::{self, BufRead};

use crate::protocol::LINE;

/// What became of a line.
#[derive(Clone, Copy, Debug, PartialEq, Eq)]
pub enum Read {
    /// It goes on behind what was at hand.
    Part,
    Whole,
    TooLong,
    /// The input ended before the line did.
    End,
}

/// Moves what is at hand into a line, up to its end; how many bytes were taken. Of a line that is too
/// long the front is left in it.
pub fn extend(line: &mut Vec<u8>, at_hand: &[u8]) -> (usize, Read) {
    let end = at_hand.iter().position(|byte| *byte == b'\n');
    let length = end.unwrap_or(at_hand.len());
    if line.len() + length > LINE {
        line.extend_from_slice(&at_hand[..LINE - line.len()]);
        return (0, Read::TooLong);
    }
    line.extend_from_slice(&at_hand[..length]);
    match end {
        Some(end) => (end + 1, Read::Whole),
        None if at_hand.is_empty() => (0, Read::End),
        None => (length, Read::Part),
    }
}

/// Reads a line, without its end.
pub fn read(input: &mut impl BufRead, line: &mut Vec<u8>) -> io::Result<Read> {
    loop {
        let (taken, read) = extend(line, input.fill_buf()?);
        input.consume(taken);
        if read != Read::Part {
            return Ok(read);
        }
    }
}

/// Passes over the rest of a line; nothing of it is kept.
pub fn skip(input: &mut impl BufRead) -> io::Result<()> {
    loop {
        let at_hand = input.fill_buf()?;
        let end = at_hand.iter().position(|byte| *byte == b'\n');
        let taken = end.map_or(at_hand.len(), |end| end + 1);
        input.consume(taken);
        if end.is_some() || taken == 0 {
            return Ok(());
        }
    }
}

#[cfg(test)]
mod tests {
    use super::*;

    #[test]
    fn lines_up_to_the_longest() {
        let mut line = Vec::new();
        let longest = [vec![b'x'; LINE], b"\nrest".to_vec()].concat();
        let mut input = &longest[..];
        assert_eq!(read(&mut input, &mut line).unwrap(), Read::Whole);
        assert_eq!((line.len(), input), (LINE, &b"rest"[..]));
        line.clear();
        assert_eq!(read(&mut input, &mut line).unwrap(), Read::End);
        assert_eq!(line, b"rest");
    }

    #[test]
    fn an_endless_line_is_left_at_the_longest() {
        let (mut line, mut input) = (Vec::new(), io::BufReader::new(io::repeat(b'x')));
        assert_eq!(read(&mut input, &mut line).unwrap(), Read::TooLong);
        assert_eq!(line, vec![b'x'; LINE]);
    }
}
