//! SipHash-2-4, "as its authors published it".

struct Sip {
    v0: u64,
    v1: u64,
    v2: u64,
    v3: u64,
}

impl Sip {
    #[inline(always)]
    fn new(key0: u64, key1: u64) -> Sip {
        Sip {
            v0: key0 ^ 0x736f_6d65_7073_6575,
            v1: key1 ^ 0x646f_7261_6e64_6f6d,
            v2: key0 ^ 0x6c79_6765_6e65_7261,
            v3: key1 ^ 0x7465_6462_7974_6573,
        }
    }

    #[inline(always)]
    fn round(&mut self) {
        self.v0 = self.v0.wrapping_add(self.v1);
        self.v2 = self.v2.wrapping_add(self.v3);
        self.v1 = self.v1.rotate_left(13) ^ self.v0;
        self.v3 = self.v3.rotate_left(16) ^ self.v2;
        self.v0 = self.v0.rotate_left(32);
        self.v2 = self.v2.wrapping_add(self.v1);
        self.v0 = self.v0.wrapping_add(self.v3);
        self.v1 = self.v1.rotate_left(17) ^ self.v2;
        self.v3 = self.v3.rotate_left(21) ^ self.v0;
        self.v2 = self.v2.rotate_left(32);
    }

    /// Two rounds for each word of the message.
    #[inline(always)]
    fn absorb(&mut self, word: u64) {
        self.v3 ^= word;
        self.round();
        self.round();
        self.v0 ^= word;
    }

    /// The last word carries the length's low byte on top; then four rounds.
    #[inline(always)]
    fn finish(mut self, last: u64) -> u64 {
        self.absorb(last);
        self.v2 ^= 0xff;
        for _ in 0..4 {
            self.round();
        }
        self.v0 ^ self.v1 ^ self.v2 ^ self.v3
    }
}

/// The hash of any bytes.
#[cfg(test)]
pub fn of_bytes(key0: u64, key1: u64, bytes: &[u8]) -> u64 {
    let mut sip = Sip::new(key0, key1);
    let (whole, tail) = bytes.as_chunks::<8>();
    for word in whole {
        sip.absorb(u64::from_le_bytes(*word));
    }
    let mut last = (bytes.len() as u64) << 56;
    for (place, byte) in tail.iter().enumerate() {
        last |= u64::from(*byte) << (8 * place);
    }
    sip.finish(last)
}

/// The hash of 40 bytes, given as five words with the low byte first.
#[inline]
pub fn of_five_words(key0: u64, key1: u64, words: [u64; 5]) -> u64 {
    let mut sip = Sip::new(key0, key1);
    for word in words {
        sip.absorb(word);
    }
    sip.finish(40 << 56)
}

#[cfg(test)]
#[allow(deprecated)]
mod tests {
    use super::*;
    use std::hash::{Hasher, SipHasher};

    fn library(key0: u64, key1: u64, bytes: &[u8]) -> u64 {
        let mut hasher = SipHasher::new_with_keys(key0, key1);
        hasher.write(bytes);
        hasher.finish()
    }

    fn stir(x: u64) -> u64 {
        let x = (x ^ (x >> 30)).wrapping_mul(0xbf58_476d_1ce4_e5b9);
        let x = (x ^ (x >> 27)).wrapping_mul(0x94d0_49bb_1331_11eb);
        x ^ (x >> 31)
    }

    /// The authors' example: key 00..0f, message 00..0e.
    #[test]
    fn published_vector() {
        let bytes: Vec<u8> = (0..15).collect();
        let hash = of_bytes(0x0706_0504_0302_0100, 0x0f0e_0d0c_0b0a_0908, &bytes);
        assert_eq!(hash, 0xa129_ca61_49be_45e5);
    }

    #[test]
    fn agrees_with_the_library_over_lengths_and_keys() {
        for round in 0..50u64 {
            let (key0, key1) = (stir(3 * round), stir(3 * round + 1));
            for length in 0..300u64 {
                let bytes: Vec<u8> = (0..length).map(|i| stir(i ^ round << 20) as u8).collect();
                assert_eq!(of_bytes(key0, key1, &bytes), library(key0, key1, &bytes));
            }
        }
        for key in [0, 1, u64::MAX] {
            for length in [0, 7, 8, 9, 40, 255, 256, 257, 70_000] {
                let bytes = vec![0xa5; length];
                assert_eq!(of_bytes(key, !key, &bytes), library(key, !key, &bytes));
            }
        }
    }

    #[test]
    fn five_words_are_forty_bytes() {
        for round in 0..1000u64 {
            let words = [0, 1, 2, 3, 4].map(|i| stir(round * 5 + i));
            let bytes: Vec<u8> = words.iter().flat_map(|word| word.to_le_bytes()).collect();
            let (key0, key1) = (stir(!round), stir(!round >> 1));
            assert_eq!(of_five_words(key0, key1, words), library(key0, key1, &bytes));
        }
    }
}
