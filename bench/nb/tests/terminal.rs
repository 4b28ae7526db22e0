//! How far a comparison is, on a terminal and nowhere else.

use std::ffi::{c_char, CStr};
use std::fs::{File, OpenOptions};
use std::io::{ErrorKind, Read};
use std::os::fd::FromRawFd;
use std::process::{Command, Stdio};

const NB: &str = env!("CARGO_BIN_EXE_nb");

const READ_AND_WRITE: i32 = 2;

extern "C" {
    fn posix_openpt(flags: i32) -> i32;
    fn grantpt(fd: i32) -> i32;
    fn unlockpt(fd: i32) -> i32;
    fn ptsname(fd: i32) -> *const c_char;
}

/// Both ends of a terminal: what a program writes to the second is read from the first.
fn terminal() -> (File, File) {
    // Each call is handed the number that the first one gave; the name is copied at once.
    let (fd, name) = unsafe {
        let fd = posix_openpt(READ_AND_WRITE);
        assert!(fd >= 0 && grantpt(fd) == 0 && unlockpt(fd) == 0, "a terminal");
        (fd, CStr::from_ptr(ptsname(fd)).to_str().expect("a path").to_string())
    };
    let program = OpenOptions::new().read(true).write(true).open(name).expect("the terminal");
    // Nobody else has the number.
    (unsafe { File::from_raw_fd(fd) }, program)
}

/// All that was written; a terminal whose other end is closed gives an error.
fn read_all(mut from: File) -> String {
    let (mut all, mut part) = (Vec::new(), [0; 4_096]);
    loop {
        match from.read(&mut part) {
            Ok(0) => break,
            Ok(read) => all.extend_from_slice(&part[..read]),
            Err(error) if error.kind() == ErrorKind::Interrupted => {}
            Err(_) => break,
        }
    }
    String::from_utf8_lossy(&all).into_owned()
}

/// A simulator that takes its time, so that the line is seen even in the middle of a session.
fn compare(error: Stdio) -> Command {
    let mut tool = Command::new(NB);
    let slow = format!("while read -r line; do sleep 0.05; echo \"$line\"; done | '{NB}' serve");
    tool.args(["compare", "--requests", "6", "--against", &slow]);
    tool.stdin(Stdio::null()).stdout(Stdio::null()).stderr(error);
    tool
}

#[test]
fn progress_is_told_on_a_terminal() {
    let (ours, program) = terminal();
    let mut tool = compare(program.into());
    let mut child = tool.spawn().expect("the tool");
    drop(tool);
    let told = read_all(ours);
    assert!(child.wait().expect("its end").success(), "{told}");
    assert!(told.contains("in 1 sessions") && told.contains("of 6 requests"), "{told}");
    assert!(told.ends_with("\r\x1b[K"), "the line is taken away at the end: {told:?}");
}

#[test]
fn nothing_is_told_where_there_is_no_terminal() {
    let output = compare(Stdio::piped()).output().expect("the tool");
    assert_eq!((output.status.code(), output.stderr), (Some(0), Vec::new()));
}
