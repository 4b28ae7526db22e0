//! A simulator ends with `nb`, however `nb` ends.

use std::os::unix::process::CommandExt;
use std::path::{Path, PathBuf};
use std::process::{Child, Command, Stdio};
use std::thread::sleep;
use std::time::Duration;
use std::{env, fs};

const NB: &str = env!("CARGO_BIN_EXE_nb");

const INTERRUPT: i32 = 2;
const KILL: i32 = 9;
const TERMINATE: i32 = 15;

extern "C" {
    fn kill(process: i32, signal: i32) -> i32;
    #[link_name = "signal"]
    fn on_signal(number: i32, action: usize) -> usize;
}

/// What a process does by itself at a signal.
const DEFAULT: usize = 0;

/// Sends a signal to a process that this test started, or asks with 0 whether it is there.
fn signal(process: i32, number: i32) -> bool {
    // No memory is lent; the number is that of a process that this test started.
    unsafe { kill(process, number) == 0 }
}

/// Whether a process runs: one that has ended and that nobody has waited for does not.
fn runs(process: i32) -> bool {
    let stat = fs::read_to_string(format!("/proc/{process}/stat")).unwrap_or_default();
    let ended = stat.rsplit(')').next().is_some_and(|rest| rest.trim_start().starts_with('Z'));
    signal(process, 0) && !ended
}

/// A file in which a simulator writes its number.
fn file(test: &str) -> PathBuf {
    let file = env::temp_dir().join(format!("nb-ended-{test}-{}", std::process::id()));
    let _ = fs::remove_file(&file);
    file
}

/// Looks again and again until there is something, but not for ever.
fn until<T>(look: impl Fn() -> Option<T>) -> Option<T> {
    (0..2_000).find_map(|_| {
        sleep(Duration::from_millis(10));
        look()
    })
}

fn number(file: &Path) -> Option<i32> {
    fs::read_to_string(file).ok().filter(|text| text.ends_with('\n'))?.trim().parse().ok()
}

fn compare(command: &str) -> Child {
    let mut tool = Command::new(NB);
    tool.args(["compare", "--wait", "1000", "--against", command]);
    tool.stdin(Stdio::null()).stdout(Stdio::null()).stderr(Stdio::null());
    // A job in the background ignores interrupts, and so would what it starts. Nothing but the call is
    // done between fork and exec.
    unsafe {
        tool.pre_exec(|| {
            on_signal(INTERRUPT, DEFAULT);
            Ok(())
        });
    }
    tool.spawn().expect("nb")
}

/// Waits until a process has ended, but not for ever.
fn ended(child: &mut Child) -> bool {
    let ended = (0..2_000).any(|_| {
        sleep(Duration::from_millis(10));
        child.try_wait().expect("a child").is_some()
    });
    if !ended {
        child.kill().and_then(|()| child.wait()).expect("a child that is ended");
    }
    ended
}

/// Ends `nb` by a signal while a simulator neither answers nor looks at its input.
fn ends_with_nb(test: &str, ending: i32, command: impl Fn(&str) -> String) {
    let file = file(test);
    let busy = format!("echo $$ > '{}'; trap '' HUP INT TERM; exec sleep 1000", file.display());
    let mut tool = compare(&command(&busy));
    let simulator = until(|| number(&file)).expect("the simulator's number");
    assert!(runs(simulator), "it runs");
    assert!(signal(tool.id() as i32, ending), "nb runs");
    assert!(ended(&mut tool), "nb has not ended");
    let gone = until(|| (!runs(simulator)).then_some(()));
    let _ = fs::remove_file(&file);
    if gone.is_none() {
        signal(simulator, KILL);
    }
    assert!(gone.is_some(), "the simulator runs on without nb");
}

#[test]
fn by_an_interrupt() {
    ends_with_nb("interrupt", INTERRUPT, str::to_string);
}

#[test]
fn by_a_request_to_end() {
    ends_with_nb("terminate", TERMINATE, str::to_string);
}

#[test]
fn at_once() {
    ends_with_nb("kill", KILL, str::to_string);
}

#[test]
fn with_what_the_command_started() {
    ends_with_nb("line", KILL, |busy| format!("sh -c \"{}\" | cat", busy.replace('$', "\\$")));
}
