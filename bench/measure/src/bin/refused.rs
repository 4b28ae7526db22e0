//! Asks refused requests of a locked segment, for counting the instructions of each by callgrind;
//! `bench/instructions` runs it on two copies, which differ only in the segment's bytes.

use std::env;
use std::process::ExitCode;

/// The call that is counted: by its name callgrind finds it.
#[no_mangle]
#[inline(never)]
pub fn counted_call(
    request: &[u8],
    state: &mut [u8],
    table: &mut [u8],
    memory: &mut [u8],
    buffer: &mut [u8],
    answer: &mut [u8],
) -> u64 {
    let refusal = bridge::call(request, state, table, memory, buffer, answer);
    // What comes after the call keeps it from becoming a jump, which callgrind would not see return.
    std::hint::black_box(refusal)
}

/// The same with leases.
#[no_mangle]
#[inline(never)]
pub fn counted_leased_call(
    request: &[u8],
    state: &mut [u8],
    table: &mut [u8],
    memory: &mut [u8],
    buffer: &mut [u8],
    answer: &mut [u8],
    leases: &[u8],
) -> u64 {
    let refusal = bridge::call_leased(request, state, table, memory, buffer, answer, leases);
    std::hint::black_box(refusal)
}

fn main() -> ExitCode {
    let byte: fn(usize) -> u8 = match env::args().nth(1).as_deref() {
        Some("zeros") => |_| 0,
        Some("mixed") => |at| (at * 167 + 13) as u8 ^ (at >> 5) as u8,
        _ => {
            eprintln!("expected: refused zeros, or: refused mixed (the locked segment's bytes)");
            return ExitCode::from(2);
        }
    };
    for one in measure::refused() {
        let refusal = one.ask(counted_call, counted_leased_call, byte);
        println!("{} {} {}", one.operation(), refusal, one.standing);
    }
    ExitCode::SUCCESS
}
