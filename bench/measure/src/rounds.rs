//! Rounds: all cases and subjects by turns, so that what disturbs the machine hits all alike.

use std::time::Instant;

use crate::batch::{Batch, Subject};
use crate::case::Case;
use crate::spread::Spread;

/// What was measured of one case: for each subject the nanoseconds of a call, round by round.
pub struct Measured {
    pub case: Case,
    rounds: Vec<[f64; Subject::ALL.len()]>,
}

impl Measured {
    /// The nanoseconds of one call.
    pub fn nanoseconds(&self, subject: Subject) -> Spread {
        self.of(|round| round[subject as usize])
    }

    /// How many times as long one takes as another, in the same round.
    pub fn ratio(&self, subject: Subject, to: Subject) -> Spread {
        self.of(|round| round[subject as usize] / round[to as usize])
    }

    /// How many times as long the proved code takes as the limit and the proved code's time for a
    /// smaller case together, in the same round.
    pub fn ratio_beside(&self, checks: &Measured) -> Spread {
        let proved = Subject::Proved as usize;
        let pairs = self.rounds.iter().zip(&checks.rounds);
        let ratios = pairs.map(|(a, b)| a[proved] / (a[Subject::Limit as usize] + b[proved]));
        Spread::of(ratios).expect("at least one round")
    }

    fn of(&self, value: impl Fn(&[f64; Subject::ALL.len()]) -> f64) -> Spread {
        Spread::of(self.rounds.iter().map(value)).expect("at least one round")
    }
}

/// Measures cases together. A case on which proved code and model differ is told as an error.
pub fn measure(cases: Vec<Case>, rounds: usize, clock: f64) -> Result<Vec<Measured>, String> {
    let mut batches: Vec<Batch> = cases.into_iter().map(Batch::new).collect();
    for batch in &mut batches {
        if !batch.agree() {
            let Case { name, of, .. } = &batch.case;
            return Err(format!("proved code and model differ at {name} ({of})"));
        }
    }
    let mut measured: Vec<Vec<_>> = vec![Vec::with_capacity(rounds); batches.len()];
    for _ in 0..rounds.max(1) {
        one_round(&mut batches, &mut measured, clock);
    }
    let pairs = batches.into_iter().zip(measured);
    Ok(pairs.map(|(batch, rounds)| Measured { case: batch.case, rounds }).collect())
}

fn one_round(batches: &mut [Batch], measured: &mut [Vec<[f64; Subject::ALL.len()]>], clock: f64) {
    for (batch, rounds) in batches.iter_mut().zip(measured) {
        rounds.push(Subject::ALL.map(|subject| batch.time(subject, clock)));
    }
}

/// The nanoseconds between two looks at the clock with nothing between them.
pub fn clock() -> f64 {
    let look = |_| Instant::now().elapsed().as_nanos() as f64;
    Spread::of((0..10_001).map(look)).expect("at least one look").median
}
