//! The benchmark: the proved code, the model and the limit side by side.

use std::io::{self, Write};

use crate::batch::Subject;
use crate::case::Case;
use crate::host;
use crate::limit::Limit;
use crate::parts::{parts, Part};
use crate::rounds::{clock, measure, Measured};
use crate::spread::Spread;
use crate::table::{Form, Table};

const COLUMNS: [&str; 9] = [
    "operation",
    "of",
    "proved ns",
    "model ns",
    "model direct ns",
    "limit ns",
    "limit",
    "proved/model",
    "proved/limit",
];
const GROWTH: [&str; 4] = ["growth", "for each", "proved ns", "model ns"];
const SPEED: [&str; 6] = ["operation", "of", "MB of", "proved /s", "model /s", "limit /s"];
const AIM: [&str; 3] = ["operation", "of", "proved/(memcpy + checks)"];

#[derive(Clone, Copy, Debug)]
pub struct Options {
    pub rounds: usize,
    pub form: Form,
}

impl Default for Options {
    fn default() -> Options {
        Options { rounds: 201, form: Form::Text }
    }
}

/// Measures everything and writes the tables. `progress` is told how many parts of all are done.
pub fn time(
    options: Options,
    out: &mut dyn Write,
    progress: &mut dyn FnMut(usize, usize),
) -> io::Result<()> {
    let clock = clock();
    writeln!(out, "{}\n", host::about(options.rounds, clock))?;
    let mut growth = Table::new("How cost grows, from each part's first row to its last", &GROWTH);
    let mut speeds = Table::new("Million bytes a second", &SPEED);
    let mut aims = Table::new("4,096 bytes against memcpy and checks (the access of 1 byte)", &AIM);
    let parts = parts();
    for (done, part) in parts.iter().enumerate() {
        progress(done, parts.len());
        let measured = measured(part, options.rounds, clock)?;
        writeln!(out, "{}", table(part.title, &measured).show(options.form))?;
        growth.rows.extend(grown(part, &measured));
        speeds.rows.extend(measured.iter().flatten().filter_map(speed));
        aims.rows.extend(measured.iter().filter_map(|set| aim(set)));
    }
    progress(parts.len(), parts.len());
    writeln!(out, "{}", growth.show(options.form))?;
    writeln!(out, "{}", speeds.show(options.form))?;
    writeln!(out, "{}", aims.show(options.form))
}

fn measured(part: &Part, rounds: usize, clock: f64) -> io::Result<Vec<Vec<Measured>>> {
    let sets = part.sets.iter().map(|set| measure(set.clone(), rounds, clock));
    sets.collect::<Result<_, _>>().map_err(io::Error::other)
}

fn table(title: &str, measured: &[Vec<Measured>]) -> Table {
    let mut table = Table::new(title, &COLUMNS);
    table.rows = measured.iter().flatten().map(row).collect();
    table
}

fn row(measured: &Measured) -> Vec<String> {
    let Case { name, of, limit, .. } = &measured.case;
    let time = |subject| nanoseconds(measured.nanoseconds(subject).median);
    // An empty call is shown for what the call itself costs; nothing is to come near it.
    let to_limit = match limit {
        Limit::Call => "-".into(),
        _ => spread(measured.ratio(Subject::Proved, Subject::Limit)),
    };
    vec![
        name.to_string(),
        of.clone(),
        time(Subject::Proved),
        time(Subject::Model),
        time(Subject::Direct),
        time(Subject::Limit),
        limit.name(),
        spread(measured.ratio(Subject::Proved, Subject::Model)),
        to_limit,
    ]
}

/// What a link, an entry or a piece more costs, by a part's first row and its last.
fn grown(part: &Part, measured: &[Vec<Measured>]) -> Option<Vec<String>> {
    let (unit, size) = part.grows?;
    let rows = measured.first()?;
    let (first, last) = (rows.first()?, rows.last()?);
    let units = (last.case.size - first.case.size) as f64 / size as f64;
    let cost = |subject| {
        let more = last.nanoseconds(subject).median - first.nanoseconds(subject).median;
        format!("{:.2}", more / units)
    };
    let (proved, model) = (cost(Subject::Proved), cost(Subject::Model));
    Some(vec![last.case.name.into(), unit.into(), proved, model])
}

/// How many bytes go through in a second: of text, of a load or a dump; of a segment that is paged.
fn speed(measured: &Measured) -> Option<Vec<String>> {
    let Case { name, of, limit, .. } = &measured.case;
    let (bytes, what) = match limit {
        Limit::Text(bytes) => (*bytes, "text"),
        Limit::Out(range) | Limit::In(range) => (range.len(), "memory"),
        _ => return None,
    };
    let speed = |subject| {
        let second = measured.nanoseconds(subject).median / 1e9;
        format!("{:.0}", bytes as f64 / second / 1e6)
    };
    let subjects = [Subject::Proved, Subject::Model, Subject::Limit].map(speed);
    let row = [name.to_string(), of.clone(), what.to_string()];
    Some(row.into_iter().chain(subjects).collect())
}

/// The aim's row of a set of accesses: the last, of 4,096 bytes, and the first, of 1 byte.
fn aim(set: &[Measured]) -> Option<Vec<String>> {
    let (one, most) = (set.first()?, set.last()?);
    let Case { name, of, .. } = &most.case;
    most.case
        .is_access()
        .then(|| vec![name.to_string(), of.clone(), spread(most.ratio_beside(one))])
}

/// With a digit behind the point where that tells anything.
fn nanoseconds(time: f64) -> String {
    match time < 1_000.0 {
        true => format!("{time:.1}"),
        false => format!("{time:.0}"),
    }
}

/// The median, with the quartiles.
fn spread(spread: Spread) -> String {
    let Spread { lower, median, upper } = spread;
    format!("{median:.2} ({lower:.2}-{upper:.2})")
}
