//! How far a run is, on the standard error if that is a terminal.

use std::io::{stderr, IsTerminal, Write};
use std::time::{Duration, Instant};

use crate::text::{grouped, throughput};

/// How often the line is written anew.
const PAUSE: Duration = Duration::from_millis(200);

pub struct Progress {
    wanted: u64,
    /// The sessions that were begun.
    pub sessions: u64,
    start: Instant,
    shown: Option<Instant>,
    terminal: bool,
}

impl Progress {
    pub fn new(wanted: u64) -> Progress {
        let terminal = stderr().is_terminal();
        Progress { wanted, sessions: 0, start: Instant::now(), shown: None, terminal }
    }

    /// So many requests of the run were asked.
    pub fn asked(&mut self, requests: u64) {
        let (sessions, wanted) = (self.sessions, self.wanted);
        let start = self.start;
        self.show(|| {
            let line = throughput(requests, sessions, start.elapsed());
            format!("{line}, of {} requests", grouped(wanted))
        });
    }

    /// A difference was found, and so many sessions were tried to shrink it.
    pub fn tried(&mut self, sessions: usize, requests: usize) {
        self.show(|| {
            let sessions = grouped(sessions as u64);
            format!("a difference: {requests} requests, {sessions} shorter sessions tried")
        });
    }

    fn show(&mut self, line: impl FnOnce() -> String) {
        if !self.terminal || self.shown.unwrap_or(self.start).elapsed() < PAUSE {
            return;
        }
        let _ = write!(stderr(), "\r\x1b[K{}", line());
        self.shown = Some(Instant::now());
    }

    /// Takes the line away.
    pub fn end(&self) {
        if self.shown.is_some() {
            let _ = write!(stderr(), "\r\x1b[K");
        }
    }
}
