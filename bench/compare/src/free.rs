//! The free numbers of a table, number 0 left out: what the state's total should say.

use session::entry::{Entry, SIZE};

/// How many there are, by a pass through the table.
pub fn counted(table: &[u8]) -> u64 {
    let numbers = 1..table.len() / SIZE;
    numbers.filter(|number| Entry::of(table, *number).is_free()).count() as u64
}

/// The number that is given next: the first free one after the last given, going round to 1.
pub fn next(table: &[u8], last: u64) -> Option<usize> {
    let (entries, after) = (table.len() / SIZE, usize::try_from(last).ok()?.saturating_add(1));
    let behind = after.min(entries)..entries;
    behind.chain(1..after.min(entries)).find(|number| Entry::of(table, *number).is_free())
}

/// How many there can be at most: entries minus one.
pub fn top(table: &[u8]) -> u64 {
    (table.len() / SIZE).saturating_sub(1) as u64
}

#[cfg(test)]
mod tests {
    use super::*;

    #[test]
    fn number_0_is_left_out() {
        let mut table = [0; 4 * SIZE];
        assert_eq!((counted(&table), top(&table)), (3, 3));
        Entry::direct(0, 1).store(&mut table, 0);
        assert_eq!(counted(&table), 3);
        Entry::direct(0, 1).store(&mut table, 2);
        assert_eq!(counted(&table), 2);
        assert_eq!((counted(&[]), top(&[])), (0, 0));
    }

    #[test]
    fn the_next_number_goes_round() {
        let mut table = [0; 4 * SIZE];
        Entry::direct(0, 1).store(&mut table, 3);
        let next = [0, 1, 2, 3, u64::MAX].map(|last| next(&table, last));
        assert_eq!(next, [Some(1), Some(2), Some(1), Some(1), Some(1)]);
        assert_eq!(super::next(&[], 0), None);
    }
}
