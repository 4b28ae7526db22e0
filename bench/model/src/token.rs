//! Tokens: Table 1.
//!
//! "From the top bit: encoding (2 bits), tag (16), number, offset."

/// "0 has 14 and 32, 1 has 46 and 0, 2 has 30 and 16, 3 has 22 and 24": the
/// number's and the offset's widths together are always 46.
const OFFSET_WIDTHS: [u32; 4] = [32, 0, 16, 24];
const LOW: u64 = (1 << 46) - 1;

/// The encoding in which an entry holds its parent.
pub const PARENT_ENCODING: u64 = 1;

#[derive(Clone, Copy, Debug, PartialEq, Eq)]
pub struct Token {
    pub tag: u16,
    pub number: u64,
    pub offset: u64,
}

#[inline]
pub fn encoding(word: u64) -> u64 {
    word >> 62
}

impl Token {
    #[inline]
    pub fn unpack(word: u64) -> Token {
        let width = OFFSET_WIDTHS[encoding(word) as usize & 3];
        let low = word & LOW;
        Token { tag: (word >> 46) as u16, number: low >> width, offset: low & ((1 << width) - 1) }
    }

    /// Fields too wide for the encoding lose their upper bits; the machine
    /// packs none (numbers stay below 1,024, offsets are zero).
    #[inline]
    pub fn pack(self, encoding: u64) -> u64 {
        let width = OFFSET_WIDTHS[encoding as usize & 3];
        let low = (self.number << width) & LOW | self.offset & ((1 << width) - 1);
        (encoding & 3) << 62 | u64::from(self.tag) << 46 | low
    }
}

/// "A request names the encoding of the token it wants back, offset zero."
#[inline]
pub fn naming(number: usize, tag: u16, encoding: u64) -> u64 {
    Token { tag, number: number as u64, offset: 0 }.pack(encoding)
}

#[cfg(test)]
mod tests {
    use super::*;

    #[test]
    fn packed_examples() {
        let token = Token { tag: 0x1234, number: 5, offset: 0xc };
        assert_eq!(token.pack(0), 0x048D_0005_0000_000C);
        assert_eq!(token.pack(2), 0x848D_0000_0005_000C);
        assert_eq!(token.pack(3), 0xC48D_0000_0500_000C);
        assert_eq!(naming(5, 0x1234, 1), 0x448D_0000_0000_0005);
        for encoding in [0, 2, 3] {
            assert_eq!(Token::unpack(token.pack(encoding)), token);
        }
    }

    #[test]
    fn every_word_packs_again_to_itself() {
        let mut word = 1u64;
        for _ in 0..10_000 {
            word = word.wrapping_mul(0x5851_f42d_4c95_7f2d).wrapping_add(0x1405_7b7e_f767_814f);
            assert_eq!(Token::unpack(word).pack(encoding(word)), word);
        }
        for word in [0, u64::MAX, 1 << 62, 2 << 62, 3 << 62, LOW, !LOW] {
            assert_eq!(Token::unpack(word).pack(encoding(word)), word);
        }
    }

    #[test]
    fn a_plain_address_names_number_zero_with_tag_zero() {
        let token = Token::unpack(0xFFFF_FFFF);
        assert_eq!(token, Token { tag: 0, number: 0, offset: 0xFFFF_FFFF });
    }
}
