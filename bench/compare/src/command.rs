//! A machine in a process of its own: any program that speaks the line protocol.

use std::collections::VecDeque;
use std::io;
use std::time::Duration;

use bridge::{Lent, Reply, State, Words};
use session::server::{Longest, Server, Trouble};
use session::World;

use crate::line::Read;
use crate::machine::Machine;
use crate::process::Process;
use crate::protocol::{self, BUFFER, GREETING, LEASES, LINE, PIECE};
use crate::text::shortened;

/// How long a program may take for an answer, if nothing else is said.
pub const WAIT: Duration = Duration::from_secs(10);

/// How many pieces are asked for before their answers are read: few enough that neither side can
/// wait for the other with full pipes.
const AT_ONCE: usize = 32;

/// The program, with what it showed of its world last.
pub struct Simulator {
    command: String,
    /// How long it may take for an answer.
    wait: Duration,
    process: Option<Process>,
    /// The lines that it has not answered yet, by their fronts.
    asked: VecDeque<String>,
    /// The line whose answer is read.
    answered: String,
    /// How many sessions this process was asked.
    sessions: usize,
    shown: World,
    line: Vec<u8>,
}

impl Simulator {
    /// Starts the command by the shell; an error says why it cannot be compared with.
    pub fn start(command: &str, wait: Duration) -> Result<Simulator, String> {
        let (command, process, asked) = (command.to_string(), None, VecDeque::new());
        let (answered, shown, line) = (String::new(), World::zeros(0, 0), Vec::new());
        let mut simulator =
            Simulator { command, wait, process, asked, answered, sessions: 0, shown, line };
        simulator.greet().map_err(|trouble| trouble.message().to_string())?;
        Ok(simulator)
    }

    fn greet(&mut self) -> Result<(), Trouble> {
        let command = &self.command;
        let process = Process::start(command).map_err(|error| {
            Trouble::Broken(format!("the command '{command}' cannot be run: {error}"))
        })?;
        self.process = Some(process);
        self.asked.clear();
        self.sessions = 0;
        self.send(GREETING.as_bytes())?;
        let line = self.receive()?;
        if line == GREETING {
            return Ok(());
        }
        let expected = format!("expected {GREETING}, this version of the protocol");
        Err(self.malformed(&line, &format!("{expected}; docs/SUPPLIER.md says what changed")))
    }

    fn process(&mut self) -> Result<&mut Process, Trouble> {
        let command = &self.command;
        self.process
            .as_mut()
            .ok_or_else(|| Trouble::Broken(format!("the command '{command}' has ended")))
    }

    /// Sends lines, without the last one's end.
    fn send(&mut self, lines: &[u8]) -> Result<(), Trouble> {
        let fronts = lines.split(|byte| *byte == b'\n').map(front);
        self.asked.extend(fronts);
        match self.process()?.send(lines) {
            // It no longer reads: what it said last, or how it ended, is told when its answer is read.
            Err(error) if error.kind() == io::ErrorKind::BrokenPipe => Ok(()),
            Err(error) => {
                Err(Trouble::Broken(format!("the command cannot be written to: {error}")))
            }
            Ok(()) => Ok(()),
        }
    }

    /// Reads the answer to the first line that has none yet.
    fn receive(&mut self) -> Result<String, Trouble> {
        let (mut line, wait) = (std::mem::take(&mut self.line), self.wait);
        line.clear();
        self.answered = self.asked.pop_front().unwrap_or_default();
        let read = self.process()?.read(&mut line, wait);
        let text = String::from_utf8_lossy(&line).trim_end().to_string();
        self.line = line;
        match read {
            Err(error) if error.kind() == io::ErrorKind::TimedOut => {
                Err(silent(&self.answered, wait))
            }
            Err(error) => Err(Trouble::Broken(format!("the command cannot be read: {error}"))),
            Ok(Read::Whole) => Ok(text),
            Ok(Read::TooLong) => {
                Err(self.malformed(&text, &format!("expected a line of at most {LINE} characters")))
            }
            Ok(Read::Part | Read::End) => Err(self.ended()),
        }
    }

    /// The program has closed its output, or no longer reads.
    fn ended(&mut self) -> Trouble {
        let status = self.process.take().and_then(Process::end);
        let how = status.map_or(String::new(), |status| format!(" ({status})"));
        let (command, asked) = (&self.command, &self.answered);
        Trouble::Broken(format!(
            "the command '{command}' ended without an answer to '{asked}'{how}"
        ))
    }

    /// What was answered last is not what was expected.
    fn malformed(&self, line: &str, expected: &str) -> Trouble {
        let (line, asked) = (shortened(line), &self.answered);
        Trouble::Broken(format!("the command answered '{line}' to '{asked}': {expected}"))
    }

    fn expect(&mut self, wanted: &str) -> Result<(), Trouble> {
        let line = self.receive()?;
        if line == wanted {
            return Ok(());
        }
        Err(self.malformed(&line, &format!("expected {wanted}")))
    }

    /// Puts bytes into the program's table or memory, as far as they are not zero.
    fn put(&mut self, part: &str, bytes: &[u8]) -> Result<(), Trouble> {
        for (index, piece) in bytes.chunks(PIECE).enumerate() {
            if piece.iter().all(|byte| *byte == 0) {
                continue;
            }
            let mut line = format!("{part} {:x}", index * PIECE).into_bytes();
            protocol::write_bytes(&mut line, piece);
            self.send(&line)?;
            self.expect("ok")?;
        }
        Ok(())
    }

    /// Reads what was asked for into a place.
    fn take(&mut self, place: &mut [u8]) -> Result<(), Trouble> {
        let line = self.receive()?;
        protocol::parse_bytes(&line, place).map_err(|expected| self.malformed(&line, &expected))
    }

    /// Asks for every byte of table and memory. The first of these lines go out with the request
    /// at hand, so that a small world costs one wait only.
    fn serve_and_show(&mut self, request: Vec<u8>) -> Result<String, Trouble> {
        let (table, memory) = (self.shown.table.len(), self.shown.memory.len());
        let lines: Vec<String> =
            pieces("show-table", table).chain(pieces("show-memory", memory)).collect();
        let first = lines.len().min(AT_ONCE);
        self.send_all(request, &lines[..first])?;
        let answer = self.receive()?;
        if !answer.starts_with("answer ") {
            return Err(self.malformed(&answer, protocol::ANSWER));
        }
        let mut shown = std::mem::replace(&mut self.shown, World::zeros(0, 0));
        let World { table, memory, .. } = &mut shown;
        let places = table.chunks_mut(PIECE).chain(memory.chunks_mut(PIECE));
        let read = self.take_all(places, &lines[first..]);
        self.shown = shown;
        read.map(|()| answer)
    }

    fn send_all(&mut self, mut lines: Vec<u8>, more: &[String]) -> Result<(), Trouble> {
        for line in more {
            lines.push(b'\n');
            lines.extend_from_slice(line.as_bytes());
        }
        self.send(&lines)
    }

    /// Reads each piece; for each one that is read, the next line goes out.
    fn take_all<'a>(
        &mut self,
        places: impl Iterator<Item = &'a mut [u8]>,
        lines: &[String],
    ) -> Result<(), Trouble> {
        let mut lines = lines.iter();
        for place in places {
            self.take(place)?;
            if let Some(line) = lines.next() {
                self.send(line.as_bytes())?;
            }
        }
        Ok(())
    }
}

/// The lines that ask for a part of so many bytes.
fn pieces(command: &str, length: usize) -> impl Iterator<Item = String> + '_ {
    (0..length)
        .step_by(PIECE)
        .map(move |at| format!("{command} {at:x} {:x}", PIECE.min(length - at)))
}

/// The front of a line that was sent.
fn front(line: &[u8]) -> String {
    shortened(&String::from_utf8_lossy(&line[..line.len().min(200)]))
}

fn silent(asked: &str, wait: Duration) -> Trouble {
    let seconds = wait.as_secs_f64();
    Trouble::Silent(format!(
        "the command kept silent for {seconds} s when asked '{asked}'; --wait SECONDS waits longer"
    ))
}

impl Machine for Simulator {
    fn name(&self) -> &str {
        "command"
    }

    /// A program that has ended, or lost its step, is started anew.
    fn begin(&mut self, world: &World) -> Result<(), Trouble> {
        if self.process.is_none() {
            let greeted = self.greet();
            self.stop_at_trouble(greeted)?;
        }
        self.sessions += 1;
        self.shown.replace(world);
        let lengths = [world.table.len() as u64, world.memory.len() as u64];
        let mut line = b"world".to_vec();
        protocol::write_numbers(&mut line, &lengths);
        protocol::write_numbers(&mut line, &world.state.in_order());
        let begun = self
            .send(&line)
            .and_then(|()| self.expect("ok"))
            .and_then(|()| self.put("table", &world.table))
            .and_then(|()| self.put("memory", &world.memory));
        self.stop_at_trouble(begun)
    }

    fn serve(&mut self, request: &Words, lent: Lent) -> Result<Reply, Trouble> {
        let Lent { buffer, leases } = lent;
        let mut line = b"serve".to_vec();
        protocol::write_numbers(&mut line, &request.in_order());
        protocol::write_bytes(&mut line, buffer);
        protocol::write_bytes(&mut line, leases);
        let reply = self.serve_and_show(line).and_then(|answer| self.read_answer(&answer, buffer));
        self.stop_at_trouble(reply)
    }

    fn remembers(&self) -> bool {
        self.sessions > 1
    }

    /// The next session is the first that a process is asked.
    fn renew(&mut self) {
        self.process.take().and_then(Process::end);
    }

    fn state(&self) -> State {
        self.shown.state
    }

    fn table(&self) -> &[u8] {
        &self.shown.table
    }

    fn memory(&self) -> &[u8] {
        &self.shown.memory
    }
}

impl Simulator {
    fn read_answer(&mut self, line: &str, buffer: &mut [u8]) -> Result<Reply, Trouble> {
        let read = protocol::parse_answer(line);
        let (reply, state, bytes) = read.map_err(|expected| self.malformed(line, &expected))?;
        if bytes.len() != buffer.len() {
            let expected = format!("expected a buffer of {} bytes", buffer.len());
            return Err(self.malformed(line, &expected));
        }
        buffer.copy_from_slice(&bytes);
        self.shown.state = state;
        Ok(reply)
    }

    /// After trouble the lines may be out of step, so that the program is ended; the next session
    /// starts it anew.
    fn stop_at_trouble<T>(&mut self, result: Result<T, Trouble>) -> Result<T, Trouble> {
        if result.is_err() {
            if let Some(process) = self.process.take() {
                process.stop();
            }
        }
        result
    }
}

/// In a replay it works on a world of its own, which is shown after each request.
impl Server for Simulator {
    fn begin(&mut self, world: &World) -> Result<(), Trouble> {
        Machine::begin(self, world)
    }

    fn longest(&self) -> Longest {
        Longest { buffer: BUFFER, leases: LEASES }
    }

    fn serve(&mut self, request: &Words, world: &mut World, lent: Lent) -> Result<Reply, Trouble> {
        let reply = Machine::serve(self, request, lent)?;
        world.replace(&self.shown);
        Ok(reply)
    }
}

impl Drop for Simulator {
    fn drop(&mut self) {
        if let Some(process) = self.process.take() {
            process.end();
        }
    }
}
