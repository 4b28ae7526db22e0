//! Tokens: their fields, as Table 1 packs them.

/// How many bits the offset has in each encoding. Number and offset have 46 together.
const OFFSET_WIDTHS: [u32; 4] = [32, 0, 16, 24];
const NUMBER_AND_OFFSET: u32 = 46;

/// The encoding in which an entry holds its parent.
pub const PARENT_ENCODING: u64 = 1;

/// The fields of a token. Any word is some token's: unpacking and packing again gives it back.
#[derive(Clone, Copy, Debug, Default, PartialEq, Eq)]
pub struct Token {
    /// 0 to 3.
    pub encoding: u64,
    pub tag: u64,
    pub number: u64,
    pub offset: u64,
}

/// A field that its encoding has no room for.
#[derive(Clone, Copy, Debug, PartialEq, Eq)]
pub enum TooWide {
    Encoding,
    Tag,
    Number,
    Offset,
}

impl Token {
    pub fn unpack(word: u64) -> Token {
        let encoding = word >> 62;
        let width = OFFSET_WIDTHS[encoding as usize];
        let low = word & low_bits(NUMBER_AND_OFFSET);
        Token {
            encoding,
            tag: word >> NUMBER_AND_OFFSET & low_bits(16),
            number: low >> width,
            offset: low & low_bits(width),
        }
    }

    pub fn pack(&self) -> Result<u64, TooWide> {
        let Token { encoding, tag, number, offset } = *self;
        let width = *OFFSET_WIDTHS.get(encoding as usize).ok_or(TooWide::Encoding)?;
        fits(tag, 16, TooWide::Tag)?;
        fits(number, NUMBER_AND_OFFSET - width, TooWide::Number)?;
        fits(offset, width, TooWide::Offset)?;
        Ok(encoding << 62 | tag << NUMBER_AND_OFFSET | number << width | offset)
    }

    /// Whether it names number 0 with tag 0.
    pub fn is_root(&self) -> bool {
        (self.number, self.tag) == (0, 0)
    }

    /// Whether both name the same entry: "the same token" means number and tag.
    pub fn same(&self, other: &Token) -> bool {
        (self.number, self.tag) == (other.number, other.tag)
    }
}

/// A token from its fields; what does not fit its field is cut off.
pub fn packed(encoding: u64, tag: u64, number: u64, offset: u64) -> u64 {
    let width = OFFSET_WIDTHS[encoding as usize & 3];
    let low = (number << width) & low_bits(NUMBER_AND_OFFSET) | offset & low_bits(width);
    (encoding & 3) << 62 | (tag & low_bits(16)) << NUMBER_AND_OFFSET | low
}

fn fits(value: u64, width: u32, which: TooWide) -> Result<(), TooWide> {
    if value <= low_bits(width) {
        Ok(())
    } else {
        Err(which)
    }
}

fn low_bits(width: u32) -> u64 {
    (1 << width) - 1
}

#[cfg(test)]
mod tests {
    use super::*;

    #[test]
    fn the_packed_examples_of_the_paper() {
        let token = |encoding, offset| Token { encoding, tag: 0x1234, number: 5, offset };
        assert_eq!(token(0, 12).pack(), Ok(0x048D_0005_0000_000C));
        assert_eq!(token(1, 0).pack(), Ok(0x448D_0000_0000_0005));
        assert_eq!(token(2, 12).pack(), Ok(0x848D_0000_0005_000C));
        assert_eq!(token(3, 12).pack(), Ok(0xC48D_0000_0500_000C));
    }

    #[test]
    fn every_word_packs_again_to_itself() {
        let mut word = 1u64;
        for _ in 0..10_000 {
            word = word.wrapping_mul(0x5851_f42d_4c95_7f2d).wrapping_add(0x1405_7b7e_f767_814f);
            let token = Token::unpack(word);
            assert_eq!(token.pack(), Ok(word));
            let Token { encoding, tag, number, offset } = token;
            assert_eq!(packed(encoding, tag, number, offset), word);
        }
    }

    #[test]
    fn what_does_not_fit() {
        let token = Token { encoding: 1, tag: 1, number: 2, offset: 0 };
        assert_eq!(Token { offset: 1, ..token }.pack(), Err(TooWide::Offset));
        assert_eq!(Token { encoding: 0, number: 1 << 14, ..token }.pack(), Err(TooWide::Number));
        assert_eq!(Token { tag: 1 << 16, ..token }.pack(), Err(TooWide::Tag));
        assert_eq!(Token { encoding: 4, ..token }.pack(), Err(TooWide::Encoding));
    }
}
