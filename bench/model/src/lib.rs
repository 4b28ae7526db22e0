//! A reference model of the Northcape northbridge: one function that serves a
//! request over a state, a table, a memory, a buffer and leases.
//!
//! It is total: whatever is handed over, it returns an answer. A refused
//! request leaves state, table, memory and buffer as they were, since each
//! operation checks everything before its first change.

#![forbid(unsafe_code)]

mod access;
mod check;
mod entry;
mod hex;
mod image;
mod interface;
mod lease;
mod lock;
mod machine;
pub mod operation;
mod paging;
mod permissions;
mod references;
mod refusal;
mod segments;
mod siphash;
mod table;
mod token;

pub use interface::{Answer, Request, State};

use lease::Leases;
use machine::Machine;
use permissions::{R, W, X};
use refusal::Refusal;
use table::Table;

/// Serves one request.
pub fn serve(
    request: Request,
    state: &mut State,
    table: &mut [u8],
    memory: &mut [u8],
    buffer: &mut [u8],
    leases: &[u8],
) -> Answer {
    run(&request, state, table, memory, buffer, leases).unwrap_or_else(Refusal::answer)
}

fn run(
    request: &Request,
    state: &mut State,
    table: &mut [u8],
    memory: &mut [u8],
    buffer: &mut [u8],
    leases: &[u8],
) -> Result<Answer, Refusal> {
    let (parts, odd) = table.as_chunks_mut::<32>();
    let entries = parts.len();
    check::sizes(entries, odd.len(), memory.len())?;
    let leases = Leases::new(leases)?;
    if request.operation == operation::RESET {
        check::first_nonce(request.task)?;
    } else {
        check::state(state, entries)?;
        check::words(request, buffer.len())?;
    }
    let table = Table::new(parts, memory);
    let mut machine = Machine { state, table, memory, leases };
    match request.operation {
        operation::RESET => Ok(machine.reset(request)),
        operation::READ => machine.read(request, R, buffer),
        operation::WRITE => machine.write(request, W, buffer),
        operation::FETCH => machine.read(request, X, buffer),
        operation::CREATE => machine.create(request),
        operation::MERGE => machine.merge(request),
        operation::DERIVE => machine.derive(request),
        operation::EXECUTE_ONLY => machine.execute_only(request),
        operation::CLONE => machine.clone(request),
        operation::DROP => machine.drop(request),
        operation::LOCK => machine.lock(request),
        operation::UNLOCK => machine.unlock(request),
        operation::REVOKE => machine.revoke(request),
        operation::LOAD => machine.load(request, buffer),
        operation::DUMP => machine.dump(request, buffer),
        operation::PAGE_OUT => machine.page_out(request, buffer),
        operation::PAGE_IN => machine.page_in(request, buffer),
        _ => Err(Refusal::Request),
    }
}
