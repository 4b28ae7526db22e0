//! Bytes that begin at a page's start.
//!
//! Where two slices stand to one another modulo 4,096 decides how fast a processor copies between
//! them; so memory and buffer always begin alike, as pages lent to a device do.

use std::ops::{Deref, DerefMut};

const PAGE: usize = 4_096;

pub struct Paged {
    held: Vec<u8>,
    start: usize,
    length: usize,
}

impl Paged {
    pub fn new(bytes: &[u8]) -> Paged {
        let mut held = vec![0; bytes.len() + PAGE];
        let start = held.as_ptr().align_offset(PAGE).min(PAGE);
        held[start..start + bytes.len()].copy_from_slice(bytes);
        Paged { held, start, length: bytes.len() }
    }
}

impl Deref for Paged {
    type Target = [u8];

    fn deref(&self) -> &[u8] {
        &self.held[self.start..self.start + self.length]
    }
}

impl DerefMut for Paged {
    fn deref_mut(&mut self) -> &mut [u8] {
        &mut self.held[self.start..self.start + self.length]
    }
}

#[cfg(test)]
mod tests {
    use super::*;

    #[test]
    fn begins_at_a_page() {
        let paged = Paged::new(&[1, 2, 3]);
        assert_eq!(paged.as_ptr().align_offset(PAGE), 0);
        assert_eq!(*paged, [1, 2, 3]);
    }
}
