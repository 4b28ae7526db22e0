//! Requests, states, answers and leases of other lengths: refusal 1, and nothing is written but an
//! answer of the right length, each slice hard against an unmapped page.

use bridge::{LEASES_BYTES, LEASE_BYTES};
use compare::{Guard, Guarded};

const REQUEST: usize = 64;
const STATE: usize = 40;
const ANSWER: usize = 48;
const LENGTHS: [usize; 18] =
    [0, 1, 7, 8, 9, 31, 32, 33, 40, 47, 48, 49, 63, 64, 65, 100, 4_096, 65_536];

/// Calls with an access that would be granted, were the lengths right.
fn call(
    guarded: &mut Guarded,
    [request, state, answer]: [usize; 3],
    leases: Option<&[u8]>,
) -> (u64, Vec<u8>) {
    let mut lent = Lent::new([request, state, answer]);
    let before = lent.clone();
    let Lent { request, state, table, memory, buffer, answer } = &mut lent;
    let refusal = guarded.call([request, state, table, memory, buffer, answer], leases);
    let answer = lent.answer.clone();
    lent.answer.clone_from(&before.answer);
    if refusal != 0 {
        assert_eq!(lent, before);
    }
    (refusal, answer)
}

#[derive(Clone, Debug, PartialEq, Eq)]
struct Lent {
    request: Vec<u8>,
    state: Vec<u8>,
    table: Vec<u8>,
    memory: Vec<u8>,
    buffer: Vec<u8>,
    answer: Vec<u8>,
}

impl Lent {
    /// A root over eight bytes, and a read of one byte through it.
    fn new([request, state, answer]: [usize; 3]) -> Lent {
        let mut lent = Lent {
            request: vec![0; request],
            state: vec![0; state],
            table: vec![0; 64],
            memory: vec![3; 8],
            buffer: vec![9],
            answer: vec![0xEE; answer],
        };
        if let Some(operation) = lent.request.first_mut() {
            *operation = 1;
        }
        if let Some(next_nonce) = lent.state.get_mut(24) {
            *next_nonce = 1;
        }
        // The root of 01 over eight bytes: base 0, length 8, R W X and Lockable.
        (lent.table[0], lent.table[7], lent.table[25]) = (0x20, 0x01, 0x3A);
        lent
    }
}

fn lengths(guard: Guard) {
    let mut guarded = Guarded::new(guard).expect("guarded pages");
    for request in LENGTHS {
        for state in LENGTHS {
            for answer in LENGTHS {
                one(&mut guarded, [request, state, answer], None);
                one(&mut guarded, [request, state, answer], Some(&OPEN));
            }
        }
    }
}

/// A lease of another token.
const OPEN: [u8; LEASE_BYTES] = [1, 0, 0, 0, 1, 0, 2, 0];

fn one(guarded: &mut Guarded, lengths: [usize; 3], leases: Option<&[u8]>) {
    let (refusal, answer) = call(guarded, lengths, leases);
    if lengths == [REQUEST, STATE, ANSWER] {
        assert_eq!((refusal, answer), (0, vec![0; ANSWER]));
        return;
    }
    assert_eq!(refusal, 1, "{lengths:?}");
    let mut wanted = vec![0xEE; lengths[2]];
    if lengths[2] == ANSWER {
        wanted = vec![0; ANSWER];
        wanted[0] = 1;
    }
    assert_eq!(answer, wanted, "{lengths:?}");
}

#[test]
fn other_lengths_with_the_page_before() {
    lengths(Guard::Before);
}

#[test]
fn other_lengths_with_the_page_behind() {
    lengths(Guard::Behind);
}

/// Whole leases are taken, and no more than can be lent.
fn leases(guard: Guard) {
    let mut guarded = Guarded::new(guard).expect("guarded pages");
    let many = OPEN.repeat(2 * LEASES_BYTES / LEASE_BYTES);
    for length in 0..=many.len() {
        let (refusal, _) = call(&mut guarded, [REQUEST, STATE, ANSWER], Some(&many[..length]));
        let taken = length % LEASE_BYTES == 0 && length <= LEASES_BYTES;
        assert_eq!(refusal, u64::from(!taken), "{length} bytes of leases");
    }
}

#[test]
fn leases_of_other_lengths_with_the_page_before() {
    leases(Guard::Before);
}

#[test]
fn leases_of_other_lengths_with_the_page_behind() {
    leases(Guard::Behind);
}
