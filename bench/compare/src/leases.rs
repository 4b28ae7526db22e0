//! Leases and minutes for requests: open and closed ones, each at its ends, others' and bad ones, and
//! tables of no whole number of leases.

use bridge::{Lease, Operation, Token, Words, LEASES_BYTES, LEASE_BYTES, WEEK};

use crate::dice::Dice;

/// What leases say of a request.
#[derive(Clone, Copy, Debug, Default, PartialEq, Eq)]
pub struct Judged {
    /// One of them is bad, whoever it is for.
    pub bad: bool,
    /// The request's token has some, and none is open.
    pub closed: bool,
}

/// Whether a request looks at leases and brings a minute.
fn is_leased(request: &Words) -> bool {
    Operation::of(request.operation).is_some_and(Operation::is_leased)
}

/// Whether a request brings a minute that the week does not have.
pub fn is_beyond(request: &Words) -> bool {
    is_leased(request) && request.second >= WEEK
}

/// Whether leases are whole ones, and as many as can be lent.
pub fn fit(leases: &[u8]) -> bool {
    leases.len().is_multiple_of(LEASE_BYTES) && leases.len() <= LEASES_BYTES
}

/// Judges the leases of a request that looks at them; nothing of one that does not, or whose minute or
/// table of leases is a bad request.
pub fn judge(request: &Words, leases: &[u8]) -> Judged {
    if !is_leased(request) || is_beyond(request) || !fit(leases) {
        return Judged::default();
    }
    let whole = leases.as_chunks::<LEASE_BYTES>().0;
    let all = || whole.iter().map(|bytes| Lease::from_bytes(*bytes));
    let own = || all().filter(|lease| lease.is_of(Token(request.token)));
    let closed = own().count() > 0 && !own().any(|lease| lease.is_open_at(request.second));
    Judged { bad: !all().all(Lease::is_sound), closed }
}

/// The same leases without the bad ones.
pub fn sound(leases: &[u8]) -> Vec<u8> {
    let whole = leases.as_chunks::<LEASE_BYTES>().0.iter();
    whole.filter(|bytes| Lease::from_bytes(**bytes).is_sound()).flatten().copied().collect()
}

/// A minute, and leases that are lent with it.
#[derive(Clone, Debug, Default, PartialEq, Eq)]
pub struct Shift {
    pub minute: u64,
    pub leases: Vec<u8>,
}

const LAST: u16 = WEEK as u16 - 1;

/// The most leases that can be lent.
const MOST: usize = LEASES_BYTES / LEASE_BYTES;

/// A shift for a request through a token, beside another token: mostly right leases, at their ends.
pub fn shift(dice: &mut Dice, token: u64, other: u64) -> Shift {
    let [token, other] = [token, other].map(Token);
    let mut leases = some(dice, token, other);
    let minute = minute(dice, &leases);
    if dice.once_in(6) {
        let at = dice.index(leases.len().max(1));
        spoil(dice, leases.get_mut(at));
    }
    let mut bytes: Vec<u8> = leases.iter().flat_map(|lease| lease.to_bytes()).collect();
    if dice.once_in(16) {
        misfit(dice, &mut bytes);
    }
    Shift { minute, leases: bytes }
}

/// Some leases of a token, of others, or of both.
fn some(dice: &mut Dice, token: Token, other: Token) -> Vec<Lease> {
    let own = dice.one_of(&[0, 1, 1, 1, 1, 2, 2, 3]);
    let strange = dice.one_of(&[0, 0, 0, 1, 1, 2]);
    let mut leases: Vec<Lease> = (0..own).map(|_| window(dice, token)).collect();
    for _ in 0..strange {
        let lease = near(dice, token, other);
        leases.insert(dice.index(leases.len() + 1), lease);
    }
    if dice.once_in(10) {
        fill(dice, &mut leases, other);
    }
    leases
}

/// A sound lease: short or long, over the week's end or not, and at the week's ends.
fn window(dice: &mut Dice, token: Token) -> Lease {
    let any = |dice: &mut Dice| dice.below(WEEK) as u16;
    let (one, two) = (any(dice), any(dice));
    let [opening, closing] = match dice.below(8) {
        0 => [0, two],
        1 => [one, 0],
        2 => [LAST, two],
        3 => [one, LAST],
        4 => [one, one.saturating_add(1) % WEEK as u16],
        5 => [one.max(two), one.min(two)],
        _ => [one.min(two), one.max(two)],
    };
    let closing = if opening == closing { (closing + 1) % WEEK as u16 } else { closing };
    of(token, opening, closing)
}

/// A lease of a token; of one whose number is beyond a lease's, by what its low bits name.
fn of(token: Token, opening: u16, closing: u16) -> Lease {
    Lease { number: token.number() as u16, tag: token.tag() as u16, opening, closing }
}

/// A sound lease of a token that is not the one at hand, though near to it.
fn near(dice: &mut Dice, token: Token, other: Token) -> Lease {
    let lease = window(dice, token);
    match dice.below(6) {
        0 => Lease { tag: lease.tag ^ 1 << dice.below(16), ..lease },
        1 => Lease { tag: dice.word() as u16, ..lease },
        2 => Lease { number: lease.number ^ 1 << dice.below(16), ..lease },
        3 => Lease { number: token.0 as u16, ..lease },
        _ => Lease { number: other.number() as u16, tag: other.tag() as u16, ..lease },
    }
}

/// As many as can be lent: others before them, behind them, or around them.
fn fill(dice: &mut Dice, leases: &mut Vec<Lease>, other: Token) {
    let more = MOST.saturating_sub(leases.len());
    let before = dice.one_of(&[0, more, more, more / 2]);
    let strange: Vec<Lease> = (0..more).map(|_| window(dice, other)).collect();
    leases.splice(0..0, strange[..before].iter().copied());
    leases.extend(&strange[before..]);
}

/// A minute: mostly at an end of one of the leases, or beside it.
fn minute(dice: &mut Dice, leases: &[Lease]) -> u64 {
    let lease = match leases.is_empty() {
        true => Lease { opening: 1, closing: 2, ..Lease::default() },
        false => dice.one_of(leases),
    };
    let [opening, closing] = [lease.opening, lease.closing].map(u64::from);
    let before = |minute: u64| minute.checked_sub(1).unwrap_or(WEEK - 1);
    match dice.below(16) {
        0..=2 => opening,
        3..=5 => before(opening),
        6..=8 => closing,
        9..=11 => before(closing),
        12 => dice.one_of(&[0, WEEK - 1]),
        13 => beyond(dice, opening),
        _ => dice.below(WEEK),
    }
}

/// A minute that the week does not have, also one that looks right if its upper bits are lost.
fn beyond(dice: &mut Dice, right: u64) -> u64 {
    let wide = dice.one_of(&[1 << 14, 1 << 16, 1 << 32, 1 << 63]);
    dice.one_of(&[WEEK, WEEK, WEEK + 1, WEEK + right, wide + right, u64::MAX])
}

/// A lease becomes bad: by equal minutes, or by one beyond the week.
fn spoil(dice: &mut Dice, lease: Option<&mut Lease>) {
    let beyond = dice.one_of(&[LAST + 1, LAST + 1, LAST + 2, 1 << 14, u16::MAX]);
    let Some(lease) = lease else { return };
    match dice.below(4) {
        0 => lease.closing = lease.opening,
        1 => lease.opening = beyond,
        2 => lease.closing = beyond,
        _ => (lease.opening, lease.closing) = (beyond, dice.one_of(&[beyond, LAST + 1, u16::MAX])),
    }
}

/// A table of no whole number of leases, or of more than can be lent.
fn misfit(dice: &mut Dice, bytes: &mut Vec<u8>) {
    match dice.below(6) {
        0 => bytes.truncate(bytes.len().saturating_sub(1)),
        1 => bytes.push(0),
        2 => bytes.extend(dice.bytes(4)),
        3 => bytes.resize(LEASES_BYTES + dice.one_of(&[1, 4, 7]), 0),
        _ => longer(dice, bytes),
    }
}

/// One lease more than can be lent; all are sound.
fn longer(dice: &mut Dice, bytes: &mut Vec<u8>) {
    let strange = Token(dice.word());
    let lease = window(dice, strange).to_bytes();
    bytes.truncate(bytes.len() / LEASE_BYTES * LEASE_BYTES);
    while bytes.len() <= LEASES_BYTES {
        bytes.extend(lease);
    }
}

/// Leases of a token that are closed at minute 0.
pub fn closed(token: u64) -> Vec<u8> {
    of(Token(token), 1, 2).to_bytes().to_vec()
}

/// Leases of a wrong size.
pub fn misfitting() -> Vec<u8> {
    vec![0; LEASE_BYTES - 1]
}

/// A bad lease of nobody.
pub fn bad() -> Vec<u8> {
    Lease { number: u16::MAX, tag: 0, opening: 5, closing: 5 }.to_bytes().to_vec()
}

/// Leases for a request that looks at their size alone: good, bad, and now and then of a wrong size.
pub fn rubbish(dice: &mut Dice) -> Vec<u8> {
    let count = dice.index(4);
    let mut bytes = dice.bytes(LEASE_BYTES * count);
    if dice.once_in(16) {
        misfit(dice, &mut bytes);
    }
    bytes
}

#[cfg(test)]
mod tests {
    use super::*;
    use bridge::Task;

    #[test]
    fn windows_are_sound() {
        let mut dice = Dice::new(1, 1);
        assert!((0..10_000).all(|_| window(&mut dice, Token::ROOT).is_sound()));
    }

    /// Leases of every kind come about, at minutes at which they are open and closed.
    #[test]
    fn shifts_are_of_every_kind() {
        let mut dice = Dice::new(1, 2);
        let (mut bad, mut closed, mut open, mut odd, mut full) = (0, 0, 0, 0, 0);
        for _ in 0..10_000 {
            let Shift { minute, leases } = shift(&mut dice, 5 << 32, 7 << 32);
            let words = Words::access(Operation::Read, Token(5 << 32), Task::NONE);
            let judged = judge(&Words { second: minute, ..words }, &leases);
            bad += usize::from(judged.bad);
            closed += usize::from(judged.closed);
            open += usize::from(!judged.bad && !judged.closed && !leases.is_empty());
            odd += usize::from(!fit(&leases));
            full += usize::from(leases.len() == LEASES_BYTES);
        }
        assert!([bad, closed, open, odd, full].iter().all(|times| *times > 200));
    }

    #[test]
    fn bad_leases_are_left_out() {
        let good = Lease { opening: 1, closing: 2, ..Lease::default() };
        let bad = Lease { opening: 2, ..good };
        let both = [bad.to_bytes(), good.to_bytes()].concat();
        assert_eq!(sound(&both), good.to_bytes());
    }
}
