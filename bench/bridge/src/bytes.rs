//! Words as bytes, the low byte first.

/// Puts words into bytes, as far as both go.
#[inline(always)]
pub fn put_words(bytes: &mut [u8], words: &[u64]) {
    for (part, word) in bytes.as_chunks_mut().0.iter_mut().zip(words) {
        *part = word.to_le_bytes();
    }
}

/// The words that bytes hold; zeros behind their end.
#[inline(always)]
pub fn words_of<const N: usize>(bytes: &[u8]) -> [u64; N] {
    let mut words = [0; N];
    for (word, part) in words.iter_mut().zip(bytes.as_chunks().0) {
        *word = u64::from_le_bytes(*part);
    }
    words
}
