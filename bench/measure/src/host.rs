//! What was measured on, and how.

use std::{env, fs};

/// Before the identity of the logic in which the library was proved, in the program's own file.
const LOGIC: &[u8] = b"rattle logic=";

pub fn about(rounds: usize, clock: f64) -> String {
    format!(
        "Processor: {}. Proved code: logic {}. Model and limits: {}.\n\
         Medians of {rounds} rounds, and quartiles of ratios within a round; all subjects by turns, \
         caches warm. The clock's own {clock:.0} ns are taken off.",
        processor().unwrap_or_else(|| "unknown".into()),
        logic().unwrap_or_else(|| "unknown".into()),
        env!("RUSTC_VERSION"),
    )
}

fn processor() -> Option<String> {
    let text = fs::read_to_string("/proc/cpuinfo").ok()?;
    let line = text.lines().find(|line| line.starts_with("model name"))?;
    Some(line.split_once(':')?.1.trim().into())
}

/// The first digits of the logic's identity, which the library carries along.
fn logic() -> Option<String> {
    let bytes = fs::read(env::current_exe().ok()?).ok()?;
    let digits = |at: usize| bytes.get(at + LOGIC.len()..at + LOGIC.len() + 16);
    let starts = bytes.windows(LOGIC.len()).enumerate().filter(|(_, part)| *part == LOGIC);
    let found = starts.filter_map(|(at, _)| digits(at));
    let identity = found.into_iter().find(|part| part.iter().all(u8::is_ascii_hexdigit))?;
    String::from_utf8(identity.into()).ok()
}
