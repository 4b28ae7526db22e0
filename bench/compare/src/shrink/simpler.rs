//! Simpler words and smaller lengths, the simplest first.

/// Smaller lengths: powers of two times the unit, then a little less.
pub fn smaller(length: usize, unit: usize) -> Vec<usize> {
    let powers = (0..usize::BITS).map(|shift| (1usize << shift).saturating_mul(unit));
    let mut lengths = vec![0];
    lengths.extend(powers.take_while(|power| *power < length));
    lengths.push((length / unit * 3 / 4) * unit);
    lengths.push(length.saturating_sub(unit));
    lengths.retain(|smaller| *smaller < length);
    lengths
}

/// Simpler words: 0, 1, the powers of two below, single bits off, one less.
pub fn simpler(word: u64) -> Vec<u64> {
    let mut words = vec![0, 1];
    words.extend((1..64).map(|shift| 1 << shift));
    words.extend((0..64).rev().map(|shift| word & !(1 << shift)));
    words.push(word.saturating_sub(1));
    words.retain(|simpler| *simpler < word);
    words.dedup();
    words
}

/// A few simpler words, where there are many places.
pub fn lower(word: u64) -> Vec<u64> {
    let mut words = vec![0, 1, word / 2, word.saturating_sub(1)];
    words.retain(|simpler| *simpler < word);
    words.dedup();
    words
}
