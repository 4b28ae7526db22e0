//! A program that is running: lines to it and from it, how long it may keep silent, and its end.

use std::io::{self, BufRead, BufReader, Write};
use std::os::fd::AsRawFd;
use std::os::unix::process::CommandExt;
use std::process::{Child, ChildStdin, ChildStdout, Command, ExitStatus, Stdio};
use std::thread::sleep;
use std::time::{Duration, Instant};

use crate::line::{self, Read};

/// How long a program may take to end once its input has.
const FAREWELL: Duration = Duration::from_secs(2);

pub struct Process {
    child: Child,
    watcher: Child,
    input: ChildStdin,
    output: BufReader<ChildStdout>,
}

impl Process {
    /// Starts a command by the shell, in a group of its own, so that what it starts ends with it.
    pub fn start(command: &str) -> io::Result<Process> {
        let mut shell = Command::new("sh");
        shell.args(["-c", command]).stdin(Stdio::piped()).stdout(Stdio::piped());
        let mut child = shell.process_group(0).spawn()?;
        let watcher = watch(child.id())?;
        let (input, output) = (child.stdin.take(), child.stdout.take());
        let none = || io::Error::other("no pipe");
        let output = BufReader::with_capacity(1 << 16, output.ok_or_else(none)?);
        Ok(Process { child, watcher, input: input.ok_or_else(none)?, output })
    }

    /// Sends lines, without the last one's end.
    pub fn send(&mut self, lines: &[u8]) -> io::Result<()> {
        self.input.write_all(lines)?;
        self.input.write_all(b"\n")?;
        self.input.flush()
    }

    /// Reads a line, without its end; an error of the kind `TimedOut` if it takes too long.
    pub fn read(&mut self, line: &mut Vec<u8>, wait: Duration) -> io::Result<Read> {
        let start = Instant::now();
        loop {
            if self.output.buffer().is_empty() {
                self.wait(wait.saturating_sub(start.elapsed()))?;
            }
            let (taken, read) = line::extend(line, self.output.fill_buf()?);
            self.output.consume(taken);
            if read != Read::Part {
                return Ok(read);
            }
        }
    }

    /// Waits until there is something to read, but not for ever.
    fn wait(&self, wait: Duration) -> io::Result<()> {
        let mut waited = Poll { fd: self.output.get_ref().as_raw_fd(), events: 1, revents: 0 };
        let milliseconds = i32::try_from(wait.as_millis()).unwrap_or(i32::MAX);
        // One record of the layout that poll asks for is lent, for the time of the call.
        match unsafe { poll(&mut waited, 1, milliseconds) } {
            0 => Err(io::ErrorKind::TimedOut.into()),
            -1 => match io::Error::last_os_error() {
                // Stopped and gone on, for example: the caller reads on.
                error if error.kind() == io::ErrorKind::Interrupted => self.wait(wait),
                error => Err(error),
            },
            _ => Ok(()),
        }
    }

    /// Closes the program's input, and says how it ended; none if it had to be ended.
    pub fn end(mut self) -> Option<ExitStatus> {
        self.unwatch();
        let Process { mut child, input, output, .. } = self;
        drop((input, output));
        let start = Instant::now();
        while start.elapsed() < FAREWELL {
            if let Ok(Some(status)) = child.try_wait() {
                return Some(status);
            }
            sleep(Duration::from_millis(1));
        }
        end_group(child);
        None
    }

    /// Ends the program at once, with all that it started.
    pub fn stop(mut self) {
        self.unwatch();
        end_group(self.child);
    }

    /// The watcher goes before the program does, so that it never ends another of its number.
    fn unwatch(&mut self) {
        let _ = self.watcher.kill();
        let _ = self.watcher.wait();
    }
}

/// A shell that ends a group once its own input ends. Only this process holds that open, so that the
/// group ends with this process, however that ends.
fn watch(group: u32) -> io::Result<Child> {
    let script = format!("read -r line; kill -s KILL -- -{group} 2> /dev/null");
    let mut shell = Command::new("sh");
    shell.args(["-c", &script]).stdin(Stdio::piped()).stdout(Stdio::null()).stderr(Stdio::null());
    shell.process_group(0).spawn()
}

fn end_group(mut leader: Child) {
    if let Ok(group) = i32::try_from(leader.id()) {
        // The child leads a group of its own and has not been waited for, so that its number is
        // still its own.
        unsafe { kill(-group, KILL) };
    }
    let _ = leader.wait();
}

/// The signal that ends a process at once.
const KILL: i32 = 9;

/// The record of poll(2).
#[repr(C)]
struct Poll {
    fd: i32,
    events: i16,
    revents: i16,
}

extern "C" {
    fn poll(records: *mut Poll, count: std::ffi::c_ulong, milliseconds: i32) -> i32;
    fn kill(process: i32, signal: i32) -> i32;
}
