//! Numbers, times and requests as a run tells them.

use std::time::Duration;

use session::text::{print_request, Ask};
use session::Step;

/// What was done in a time.
pub fn throughput(requests: u64, sessions: u64, time: Duration) -> String {
    let seconds = time.as_secs_f64().max(1e-9);
    let rate = grouped((requests as f64 / seconds) as u64);
    let (requests, sessions) = (grouped(requests), grouped(sessions));
    format!("{requests} requests in {sessions} sessions, {seconds:.1} s, {rate} requests/s")
}

/// A number with commas between the thousands.
pub fn grouped(number: u64) -> String {
    let digits = number.to_string();
    let first = (digits.len() + 2) % 3 + 1;
    let (head, tail) = digits.split_at(first);
    let mut text = head.to_string();
    for (at, digit) in tail.chars().enumerate() {
        if at % 3 == 0 {
            text.push(',');
        }
        text.push(digit);
    }
    text
}

/// How many characters of a request or a line are shown.
const WIDE: usize = 100;

/// A request on one line, as sessions write it.
pub fn request(step: &Step) -> String {
    let text = print_request(&Ask::of(step)).replace("\\\n", "");
    shortened(&text.split_whitespace().collect::<Vec<&str>>().join(" "))
}

/// The front of a long line.
pub fn shortened(line: &str) -> String {
    match line.char_indices().nth(WIDE) {
        Some((at, _)) => format!("{}...", &line[..at]),
        None => line.to_string(),
    }
}

#[cfg(test)]
mod tests {
    use super::*;

    #[test]
    fn numbers_are_grouped_by_thousands() {
        let texts = [0, 12, 999, 1_000, 65_536, 10_000_000].map(grouped);
        assert_eq!(texts, ["0", "12", "999", "1,000", "65,536", "10,000,000"]);
    }

    #[test]
    fn long_lines_are_cut() {
        assert_eq!(shortened("read root 1"), "read root 1");
        assert_eq!(shortened(&"é".repeat(101)), format!("{}...", "é".repeat(100)));
    }
}
