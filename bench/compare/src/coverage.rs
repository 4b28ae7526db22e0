//! How often each operation, refusal and place was reached, and what else is rare.

use std::fmt;

use bridge::{Check, Operation, Place, Reply};

use crate::events::Events;

/// The operations, and all numbers above.
pub const OPERATIONS: usize = Operation::COUNT + 1;
/// Granted, and the refusals.
const REFUSALS: usize = Check::LAST as usize + 1;
/// None, and the places.
const PLACES: usize = Place::ALL.len() + 1;

/// A refusal and a place; refusal 0 is granted.
pub type Case = (u64, u64);

/// The columns of the table: granted, then each refusal, by its place if it tells one.
pub fn cases() -> impl Iterator<Item = Case> {
    let refused = |check: Check| check.places().iter().map(move |place| (check as u64, *place));
    std::iter::once((0, 0)).chain(Check::all().flat_map(refused))
}

#[derive(Clone, Debug, PartialEq, Eq)]
pub struct Coverage {
    answers: [Row; OPERATIONS],
    /// Of the requests that had to be refused for something: what they come to without that.
    under: [[Row; OPERATIONS]; Under::ALL.len()],
    pub events: Events,
}

/// For what a request has to be refused, whatever else is wrong with it.
#[derive(Clone, Copy, Debug, PartialEq, Eq)]
pub enum Under {
    /// A total above its top.
    BadTotal,
    /// Leases of its token, none of which is open.
    Closed,
    /// A bad lease, of whatever token.
    BadLease,
    /// An access's minute beyond the week.
    BadMinute,
    /// Leases of a wrong size.
    BadSize,
}

impl Under {
    const ALL: [Under; 5] =
        [Under::BadTotal, Under::Closed, Under::BadLease, Under::BadMinute, Under::BadSize];

    fn name(self) -> &'static str {
        match self {
            Under::BadTotal => "bad total, else",
            Under::Closed => "closed, else",
            Under::BadLease => "bad lease, else",
            Under::BadMinute => "minute, else",
            Under::BadSize => "size, else",
        }
    }

    /// Whether a request of an operation that is under it can come to a case without it.
    fn possible(self, operation: u64, case: Case) -> bool {
        let leased = Operation::of(operation).is_some_and(Operation::is_leased);
        let check = Check::of(case.0);
        let of_leases = match self {
            Under::BadTotal => return false,
            Under::Closed | Under::BadSize => {
                [Check::Closed, Check::Lease].map(Some).contains(&check)
            }
            Under::BadLease => check == Some(Check::Lease),
            Under::BadMinute => false,
        };
        leased && !of_leases && possible(operation, case)
    }
}

/// A number for each refusal and place.
type Row = [[u64; PLACES]; REFUSALS];

impl Default for Coverage {
    fn default() -> Self {
        let row = [[0; PLACES]; REFUSALS];
        let under = [[row; OPERATIONS]; Under::ALL.len()];
        Coverage { answers: [row; OPERATIONS], under, events: Events::default() }
    }
}

/// An operation's row; one row for all numbers above.
fn row(operation: u64) -> usize {
    operation.min(Operation::COUNT as u64) as usize
}

fn name(row: usize) -> String {
    let above = || format!("above {}", Operation::COUNT - 1);
    Operation::of(row as u64).map_or_else(above, |operation| operation.name().to_string())
}

impl Coverage {
    pub fn count(&mut self, operation: u64, reply: &Reply) {
        add(&mut self.answers[row(operation)], reply);
    }

    /// Counts a request that had to be refused for something, by its reply without that.
    pub fn count_under(&mut self, under: Under, operation: u64, otherwise: &Reply) {
        add(&mut self.under[under as usize][row(operation)], otherwise);
    }

    /// How many requests of all operations came to a case without something.
    fn reached_under(&self, under: Under, case: Case) -> u64 {
        self.under[under as usize].iter().map(|row| cell(row, case)).sum()
    }

    pub fn reached(&self, operation: u64, case: Case) -> u64 {
        *cell(&self.answers[row(operation)], case)
    }

    /// The cases that 01 allows and the events that were not reached, as text.
    pub fn missing(&self) -> Vec<String> {
        let pairs = (0..OPERATIONS).flat_map(|row| cases().map(move |case| (row as u64, case)));
        pairs
            .filter(|&(operation, case)| possible(operation, case))
            .filter(|&(operation, case)| self.reached(operation, case) == 0)
            .map(|(operation, case)| format!("{} {}", name(row(operation)), heading(case)))
            .chain(self.missing_totals())
            .chain(self.missing_under())
            .chain(self.events.missing())
            .collect()
    }

    /// Where no total above its top was judged before the case.
    fn missing_totals(&self) -> impl Iterator<Item = String> + '_ {
        let under = Under::BadTotal;
        let missing = cases().filter(move |case| self.reached_under(under, *case) == 0);
        missing.map(move |case| format!("{} {}", under.name(), heading(case)))
    }

    /// Where no closed or bad lease, bad minute or size came together with the case, operation by
    /// operation.
    fn missing_under(&self) -> impl Iterator<Item = String> + '_ {
        let pairs = || (0..OPERATIONS).flat_map(|row| cases().map(move |case| (row, case)));
        Under::ALL.into_iter().flat_map(move |under| {
            let possible = pairs().filter(move |(row, case)| under.possible(*row as u64, *case));
            let rows = &self.under[under as usize];
            let missing = possible.filter(|(row, case)| *cell(&rows[*row], *case) == 0);
            let text =
                move |(row, case)| format!("{} {} {}", name(row), under.name(), heading(case));
            missing.map(text)
        })
    }
}

fn add(row: &mut Row, reply: &Reply) {
    let cell = row.get_mut(reply.refusal as usize);
    if let Some(cell) = cell.and_then(|places| places.get_mut(reply.place as usize)) {
        *cell += 1;
    }
}

fn cell(row: &Row, (refusal, place): Case) -> &u64 {
    &row[refusal as usize][place as usize]
}

/// What 01 allows: whether an operation can come to a refusal. A number that is no operation's comes
/// to 1.
pub fn possible(operation: u64, (refusal, _): Case) -> bool {
    match (Operation::of(operation), Check::of(refusal)) {
        (Some(operation), Some(check)) => operation.stops_at(check),
        (Some(_), None) => refusal == 0,
        (None, check) => check == Some(Check::Request),
    }
}

fn heading((refusal, place): Case) -> String {
    match (refusal, Place::of(place)) {
        (0, _) => "granted".to_string(),
        (refusal, Some(Place::Named)) => format!("{refusal} named"),
        (refusal, Some(Place::Ancestor)) => format!("{refusal} line"),
        (refusal, None) => refusal.to_string(),
    }
}

impl fmt::Display for Coverage {
    /// The table; a dot stands for what 01 does not allow.
    fn fmt(&self, f: &mut fmt::Formatter<'_>) -> fmt::Result {
        write!(f, "{:<15}", "operation")?;
        for case in cases() {
            write!(f, " {:>8}", heading(case))?;
        }
        for row in 0..OPERATIONS {
            write!(f, "\n{:<15}", name(row))?;
            for case in cases() {
                self.cell(f, row as u64, case)?;
            }
        }
        for under in Under::ALL {
            write!(f, "\n{:<15}", under.name())?;
            cases().try_for_each(|case| write!(f, " {:>8}", self.reached_under(under, case)))?;
        }
        write!(f, "\n\n{}", self.events)
    }
}

impl Coverage {
    fn cell(&self, f: &mut fmt::Formatter<'_>, operation: u64, case: Case) -> fmt::Result {
        match self.reached(operation, case) {
            0 if !possible(operation, case) => write!(f, " {:>8}", "."),
            times => write!(f, " {times:>8}"),
        }
    }
}
