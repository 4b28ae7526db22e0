//! Leases and minutes in words: which lease is bad, and when a token's leases are open. These are notes
//! of the tool; the answer stays a number.

use bridge::{Lease, Token, LEASE_BYTES, WEEK};
use session::text::token_text;
use session::token::packed;

/// So many leases of a token are told, and no more.
const SHOWN: usize = 3;

const DAYS: [&str; 7] = ["Mon", "Tue", "Wed", "Thu", "Fri", "Sat", "Sun"];

/// The first bad lease, and what is bad about it.
pub fn bad_lease(leases: &[u8]) -> Option<String> {
    let all = all(leases);
    let at = all.iter().position(|lease| !lease.is_sound())?;
    let Lease { number, tag, opening, closing } = all[at];
    let token = token_text(packed(1, tag.into(), number.into(), 0), 1);
    let last = WEEK - 1;
    let why = match (u64::from(opening) > last, u64::from(closing) > last) {
        (true, _) => format!("opens at minute {opening}, beyond {last}"),
        (false, true) => format!("closes at minute {closing}, beyond {last}"),
        (false, false) => "has equal minutes".to_string(),
    };
    Some(format!("lease {} of {}, {token}={opening}..{closing}, {why}", at + 1, all.len()))
}

/// The leases of a token of which none is open at a minute.
pub fn closed(leases: &[u8], token: u64, minute: u64) -> Option<String> {
    let own: Vec<Lease> =
        all(leases).into_iter().filter(|lease| lease.is_of(Token(token))).collect();
    if own.is_empty() || own.iter().any(|lease| lease.is_open_at(minute)) {
        return None;
    }
    let shown: Vec<String> = own.iter().take(SHOWN).map(|lease| window(*lease)).collect();
    let more = own.len().saturating_sub(SHOWN);
    let more = if more == 0 { String::new() } else { format!(" and {more} more") };
    Some(format!("at minute {minute} ({}), of {}{more}", time(minute), shown.join(", ")))
}

fn all(leases: &[u8]) -> Vec<Lease> {
    leases.as_chunks::<LEASE_BYTES>().0.iter().map(|bytes| Lease::from_bytes(*bytes)).collect()
}

fn window(lease: Lease) -> String {
    let Lease { opening, closing, .. } = lease;
    format!("{opening}..{closing} ({} to {})", time(opening.into()), time(closing.into()))
}

/// A minute as a day and a time.
fn time(minute: u64) -> String {
    let (day, hour, minute) = (minute / 1_440, minute / 60 % 24, minute % 60);
    format!("{} {hour:02}:{minute:02}", DAYS.get(day as usize).unwrap_or(&"no day"))
}
