//! All of memory as one strip, with a letter for each segment.

use std::ops::Range;

/// How many characters show all of memory.
const CELLS: u64 = 64;
const LETTERS: &str = "ABCDEFGHIJKLMNOPQRSTUVWXYZabcdefghijklmnopqrstuvwxyz";

/// The letter of a segment by its place in address order; those behind the letters have `#`.
pub fn letter(place: usize) -> char {
    LETTERS.chars().nth(place).unwrap_or('#')
}

/// The strip, and how many bytes a mark stands for; none if there is no memory. `.` is nobody's, `*`
/// has parts of several segments, `!` is wholly in two.
pub fn overview(segments: &[Range<u64>], memory: u64) -> Option<String> {
    let cells = CELLS.min(memory);
    let each = memory.checked_div(cells)?;
    let about = if memory.is_multiple_of(cells) { "" } else { "about " };
    let marks: String = (0..cells)
        .map(|cell| mark(segments, cell * memory / cells..(cell + 1) * memory / cells))
        .collect();
    let unit = if each == 1 { "byte" } else { "bytes" };
    Some(format!("[{marks}] a mark is {about}{each} {unit}"))
}

fn mark(segments: &[Range<u64>], cell: Range<u64>) -> char {
    let touching = |segment: &Range<u64>| segment.start < cell.end && cell.start < segment.end;
    let filling = |segment: &Range<u64>| segment.start <= cell.start && cell.end <= segment.end;
    let touched = segments.iter().enumerate().filter(|(_, segment)| touching(segment));
    let filled = segments.iter().filter(|segment| filling(segment)).count();
    match (touched.clone().count(), filled) {
        (0, _) => '.',
        (1, _) => touched.map(|(place, _)| letter(place)).next().unwrap_or('.'),
        (_, 0 | 1) => '*',
        _ => '!',
    }
}

#[cfg(test)]
mod tests {
    use super::*;

    #[test]
    fn letters_gaps_and_overlaps() {
        let strip = overview(&[0..2, 2..6, 4..8], 10).expect("a strip");
        assert_eq!(strip, "[AABB!!CC..] a mark is 1 byte");
        let strip = overview(&[0..100, 100..6400], 6400).expect("a strip");
        assert!(strip.starts_with("[ABBB") && strip.ends_with("B] a mark is 100 bytes"));
        let strip = overview(&[0..50, 50..6400], 6400).expect("a strip");
        assert!(strip.starts_with("[*BBB"));
        let strip = overview(&[0..64, 64..65], 65).expect("a strip");
        assert!(strip.ends_with("] a mark is about 1 byte"));
        assert_eq!(overview(&[], 0), None);
        assert_eq!((letter(0), letter(51), letter(52)), ('A', 'z', '#'));
    }
}
