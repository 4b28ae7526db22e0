//! What is said when a byte outside a lent slice is touched: the system ends the access by a signal,
//! after which no more than a line can be written.

use std::sync::atomic::{AtomicU64, Ordering};

/// The signals of an access that is not allowed; the second has two numbers.
const SIGNALS: [i32; 3] = [11, 7, 10];

/// Exit status of a difference.
const DIFFERENCE: i32 = 1;

static SEED: AtomicU64 = AtomicU64::new(0);
static SESSION: AtomicU64 = AtomicU64::new(0);

extern "C" {
    fn signal(number: i32, handler: extern "C" fn(i32)) -> usize;
    fn write(fd: i32, bytes: *const u8, length: usize) -> isize;
    fn _exit(status: i32) -> !;
}

/// From now on such a signal ends the process with a line that names the session.
pub fn watch(seed: u64) {
    SEED.store(seed, Ordering::Relaxed);
    for number in SIGNALS {
        // The handler does nothing but what a handler may do.
        unsafe { signal(number, tell) };
    }
}

/// The session that is played now.
pub fn session(number: u64) {
    SESSION.store(number, Ordering::Relaxed);
}

extern "C" fn tell(_: i32) {
    say(b"The proved code touched a byte outside a slice that was lent to it: session ");
    say_number(SESSION.load(Ordering::Relaxed));
    say(b" of seed ");
    say_number(SEED.load(Ordering::Relaxed));
    say(b"\n");
    // Ends the process at once, with nothing of the program run any more.
    unsafe { _exit(DIFFERENCE) }
}

/// Writes to the standard error without allocating.
fn say(text: &[u8]) {
    // The pointer and the length are those of a slice.
    unsafe { write(2, text.as_ptr(), text.len()) };
}

fn say_number(number: u64) {
    let (mut digits, mut at, mut left) = ([0; 20], 20, number);
    while at == 20 || left > 0 {
        at -= 1;
        digits[at] = b'0' + (left % 10) as u8;
        left /= 10;
    }
    say(&digits[at..]);
}
