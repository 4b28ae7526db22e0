//! "A request's permissions are one number: R 4, W 2, X 1, added."

pub const R: u8 = 4;
pub const W: u8 = 2;
pub const X: u8 = 1;
pub const ALL: u8 = R | W | X;

/// "Which permissions lie within which": each one wanted is held.
#[inline]
pub fn lie_within(wanted: u8, held: u8) -> bool {
    wanted & !held == 0
}

#[cfg(test)]
mod tests {
    use super::*;

    #[test]
    fn the_table_of_8_rows_by_8_columns() {
        // Row: wanted; column: held, 0 to 7.
        let table = [
            "yyyyyyyy", "nynynyny", "nnyynnyy", "nnnynnny", "nnnnyyyy", "nnnnnyny", "nnnnnnyy",
            "nnnnnnny",
        ];
        for (wanted, row) in table.iter().enumerate() {
            for (held, cell) in row.bytes().enumerate() {
                assert_eq!(lie_within(wanted as u8, held as u8), cell == b'y');
            }
        }
    }
}
