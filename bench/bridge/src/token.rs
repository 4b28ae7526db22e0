//! Tokens, and the encodings that pack them.

use std::error::Error;
use std::fmt;

/// A token, as the 64-bit word that it is: any word is some token's. With an offset in it, it is an
/// address.
#[derive(Clone, Copy, Default, PartialEq, Eq, PartialOrd, Ord, Hash)]
#[repr(transparent)]
pub struct Token(pub u64);

/// How a token packs its number and its offset: by how many bits each has.
#[derive(Clone, Copy, Debug, Default, PartialEq, Eq, PartialOrd, Ord, Hash)]
#[repr(u64)]
pub enum Encoding {
    /// 14 and 32: every entry of a table and every byte of a memory.
    #[default]
    E0 = 0,
    /// 46 and none: it names an entry, and no byte but its first.
    E1 = 1,
    /// 30 and 16.
    E2 = 2,
    /// 22 and 24.
    E3 = 3,
}

/// The token's encoding has no room for the offset.
#[derive(Clone, Copy, PartialEq, Eq)]
pub struct TooFar {
    pub token: Token,
    pub offset: u64,
}

/// Number and offset have so many bits together, below the tag's 16 and the encoding's 2.
const NUMBER_AND_OFFSET: u32 = 46;

impl Encoding {
    const ALL: [Encoding; 4] = [Encoding::E0, Encoding::E1, Encoding::E2, Encoding::E3];

    fn offset_width(self) -> u32 {
        match self {
            Encoding::E0 => 32,
            Encoding::E1 => 0,
            Encoding::E2 => 16,
            Encoding::E3 => 24,
        }
    }
}

impl Token {
    /// The root's after a reset.
    pub const ROOT: Token = Token(0);

    pub fn encoding(self) -> Encoding {
        Encoding::ALL[(self.0 >> 62) as usize]
    }

    pub fn tag(self) -> u64 {
        self.0 >> NUMBER_AND_OFFSET & low_bits(16)
    }

    /// The number of the entry that it names.
    pub fn number(self) -> u64 {
        (self.0 & low_bits(NUMBER_AND_OFFSET)) >> self.encoding().offset_width()
    }

    pub fn offset(self) -> u64 {
        self.0 & low_bits(self.encoding().offset_width())
    }

    /// The address so many bytes further on. A plain sum can name another entry: encoding 1 has no
    /// offset at all.
    pub fn at(self, offset: u64) -> Result<Token, TooFar> {
        let most = low_bits(self.encoding().offset_width());
        let sum = self.offset().checked_add(offset).filter(|sum| *sum <= most);
        sum.map(|_| Token(self.0 + offset)).ok_or(TooFar { token: self, offset })
    }
}

fn low_bits(width: u32) -> u64 {
    (1 << width) - 1
}

impl fmt::Display for Token {
    fn fmt(&self, f: &mut fmt::Formatter<'_>) -> fmt::Result {
        write!(f, "{:016x}", self.0)
    }
}

impl fmt::Display for TooFar {
    fn fmt(&self, f: &mut fmt::Formatter<'_>) -> fmt::Result {
        let TooFar { token, offset } = self;
        write!(f, "the token {token} has no room for the offset {offset}")
    }
}

impl fmt::Debug for Token {
    fn fmt(&self, f: &mut fmt::Formatter<'_>) -> fmt::Result {
        write!(f, "Token({:#018x})", self.0)
    }
}

/// The same, since this is what a `main` that returns it says.
impl fmt::Debug for TooFar {
    fn fmt(&self, f: &mut fmt::Formatter<'_>) -> fmt::Result {
        fmt::Display::fmt(self, f)
    }
}

impl Error for TooFar {}
