//! Why a request is bad: refusal 1 is one number for many causes. A note of the tool, read off the
//! request and what was lent with it; the answer stays 1.

use bridge::{Argument, Operation, State, Words, LEASES_BYTES, LEASE_BYTES, WEEK};
use session::entry::SIZE;
use session::token::Token;

/// The limits of 01's place 1.
const MEMORY: usize = 1 << 24;
const ENTRIES: std::ops::RangeInclusive<usize> = 2..=1_024;
const SPENT: u64 = 1 << 32;
const TASKS: u64 = 1 << 55;

/// What is lent with a request, as far as place 1 looks at it: the state, and lengths in bytes.
#[derive(Clone, Copy, Debug)]
pub struct Lent {
    pub state: State,
    pub table: usize,
    pub memory: usize,
    pub buffer: usize,
    pub leases: usize,
}

/// Every cause for which a request is refused with 1; none if it is not.
pub fn causes(request: &Words, lent: &Lent) -> Vec<String> {
    let mut causes = [of_sizes(lent), of_leases(lent.leases)].concat();
    let Some(operation) = Operation::of(request.operation) else {
        causes.push(format!("there is no operation {}", request.operation));
        return causes;
    };
    if operation != Operation::Reset {
        causes.extend(of_state(lent));
    }
    causes.extend(of_buffer(operation, lent.buffer));
    let arguments = operation.arguments().iter();
    causes.extend(arguments.filter_map(|argument| of_argument(*argument, request)));
    causes
}

/// The causes that hold, of some.
fn that_hold<const N: usize>(causes: [(bool, String); N]) -> Vec<String> {
    causes.into_iter().filter(|(holds, _)| *holds).map(|(_, cause)| cause).collect()
}

fn of_sizes(lent: &Lent) -> Vec<String> {
    let Lent { table, memory, .. } = *lent;
    let (entries, odd) = (table / SIZE, table % SIZE);
    let (least, most) = (ENTRIES.start(), ENTRIES.end());
    that_hold([
        (memory == 0, "memory has no bytes".to_string()),
        (memory > MEMORY, format!("memory has {memory} bytes, of at most {MEMORY}")),
        (odd != 0, format!("the table ends {odd} bytes behind a whole entry")),
        (
            !ENTRIES.contains(&entries),
            format!("the table has {entries} entries, and must have {least} to {most}"),
        ),
    ])
}

fn of_state(lent: &Lent) -> Vec<String> {
    let State { last_number, next_nonce, total, .. } = lent.state;
    let entries = (lent.table / SIZE) as u64;
    let (nonce, most) = (next_nonce == 0 || next_nonce > SPENT, entries.saturating_sub(1));
    that_hold([
        (
            last_number >= entries,
            format!("the state's last number {last_number} is not in the table"),
        ),
        (nonce, format!("the state's next nonce {next_nonce} is not from 1 to {SPENT}")),
        (total > most, format!("the state's free total {total} is above {most}")),
    ])
}

fn of_argument(argument: Argument, request: &Words) -> Option<String> {
    let Words { token, second, task, length, permissions, encoding, .. } = *request;
    match argument {
        Argument::Token => of_offset("the token", token),
        Argument::SecondToken => of_offset("the second token", second),
        Argument::Holder if task == 0 => Some("the task is 0, which means none".to_string()),
        Argument::Task | Argument::Holder => {
            (task >= TASKS).then(|| format!("the task {task:#x} is not below 2^55"))
        }
        Argument::Minute => (second >= WEEK)
            .then(|| format!("the minute {second} is not one of the week, 0 to {}", WEEK - 1)),
        Argument::FirstNonce => (task == 0 || task >= SPENT)
            .then(|| format!("the first nonce {task} is not from 1 to {}", SPENT - 1)),
        Argument::Length => (length == 0).then(|| "the length is 0".to_string()),
        Argument::Permissions => {
            (permissions > 7).then(|| format!("the permissions {permissions} are above 7"))
        }
        Argument::Encoding => (encoding > 3).then(|| format!("the encoding {encoding} is above 3")),
        Argument::Address | Argument::Key | Argument::User => None,
        Argument::Offset | Argument::PageFile => None,
    }
}

fn of_buffer(operation: Operation, length: usize) -> Option<String> {
    let lengths = operation.buffer().lengths();
    match length {
        _ if lengths.contains(&length) => None,
        0 => Some("the buffer is empty".to_string()),
        _ => Some(format!("the buffer has {length} bytes, of at most {}", lengths.end())),
    }
}

fn of_leases(length: usize) -> Vec<String> {
    let odd = length % LEASE_BYTES;
    that_hold([
        (odd != 0, format!("the leases end {odd} bytes behind a whole one")),
        (
            length > LEASES_BYTES,
            format!("the leases have {length} bytes, of at most {LEASES_BYTES}"),
        ),
    ])
}

fn of_offset(which: &str, word: u64) -> Option<String> {
    let Token { offset, .. } = Token::unpack(word);
    (offset != 0).then(|| format!("{which} has an offset, {offset}, which only an access may have"))
}
