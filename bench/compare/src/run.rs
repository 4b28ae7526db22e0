//! A run: sessions one after the other until the wanted number of requests.

use std::fmt;
use std::time::{Duration, Instant};

use crate::command::{Simulator, WAIT};
use crate::coverage::Coverage;
use crate::dice::Dice;
use crate::fault;
use crate::guard::{Guard, Guarded};
use crate::kinds::{self, Kind};
use crate::machine::{Machine, Model, Proved};
use crate::pair::Pair;
use crate::player::{Found, Player};
use crate::progress::Progress;
use crate::shrink::shrink;
use crate::text::{self, grouped, throughput};

/// What is compared, and how far.
#[derive(Clone, Debug, PartialEq, Eq)]
pub struct Options {
    pub requests: u64,
    pub seed: u64,
    /// A command that speaks the line protocol; without one it is the model.
    pub against: Option<String>,
    /// How long the command may take for an answer.
    pub wait: Duration,
    /// Puts each slice that is lent to the proved code against an unmapped page.
    pub guard: Option<Guard>,
    /// Only sessions of the kind of this name.
    pub kind: Option<String>,
    /// Prints how often each operation, refusal and place was reached.
    pub coverage: bool,
    /// Shrinks what it finds, after it has come again.
    pub shrink: bool,
}

impl Default for Options {
    fn default() -> Self {
        let (against, guard, kind) = (None, None, None);
        let (requests, seed, wait) = (1_000_000, 1, WAIT);
        Options { requests, seed, against, wait, guard, kind, coverage: false, shrink: true }
    }
}

/// What a run came to.
#[derive(Clone, Debug)]
pub struct Outcome {
    pub requests: u64,
    pub sessions: u64,
    pub time: Duration,
    pub coverage: Coverage,
    /// The difference as it was found, if there was one.
    pub first: Option<First>,
    /// The shrunk session.
    pub found: Option<Found>,
    other: String,
    show_coverage: bool,
}

/// A difference as it was found.
#[derive(Clone, Debug)]
pub struct First {
    pub found: Found,
    /// Which session of the run it was, from 1 on, and of which kind.
    pub session: u64,
    pub kind: &'static str,
    /// The run that comes to it again.
    pub requests: u64,
    pub seed: u64,
    /// Whether the session alone shows it again, in a fresh process if there is one; none if it was
    /// not tried.
    pub again: Option<bool>,
}

impl Outcome {
    /// The exit status: 0 agreement, 1 a difference.
    pub fn status(&self) -> u8 {
        u8::from(self.found.is_some())
    }
}

/// Compares as the options say; an error is a message for the user.
pub fn run(options: &Options) -> Result<Outcome, String> {
    let reference: Box<dyn Machine> = match options.guard {
        Some(guard) => {
            fault::watch(options.seed);
            Box::new(Guarded::new(guard).map_err(|error| error.to_string())?)
        }
        None => Box::new(Proved::new()),
    };
    let other: Box<dyn Machine> = match &options.against {
        Some(command) => Box::new(Simulator::start(command, options.wait)?),
        None => Box::new(Model::new()),
    };
    compare(options, Pair::new(reference, other))
}

/// Compares two machines.
pub fn compare(options: &Options, mut pair: Pair) -> Result<Outcome, String> {
    let only = only(options)?;
    let start = Instant::now();
    let mut progress = Progress::new(options.requests);
    let mut coverage = Coverage::default();
    let (mut asked, mut first) = (0, None);
    while asked < options.requests && first.is_none() {
        let session = progress.sessions;
        fault::session(session);
        progress.sessions += 1;
        let mut dice = Dice::new(options.seed, session);
        let kind = only.unwrap_or_else(|| kinds::choose(session, &mut dice));
        let bounds = [asked, options.requests];
        let mut player = Player::new(dice, &mut pair, &mut coverage, &mut progress, bounds);
        (kind.play)(&mut player);
        let found;
        (asked, found) = player.end();
        first = found.map(|found| (found, kind.name));
    }
    let (time, sessions) = (start.elapsed(), progress.sessions);
    let wanted = first.as_ref().filter(|_| options.shrink);
    let shrunk = wanted.map(|(found, _)| shrink(&mut pair, found, &mut progress));
    progress.end();
    let again = shrunk.as_ref().map(Option::is_some);
    let found = shrunk.flatten().or_else(|| first.as_ref().map(|(found, _)| found.clone()));
    let first = first.map(|(found, kind)| {
        let (requests, seed) = (asked, options.seed);
        First { found, session: sessions, kind, requests, seed, again }
    });
    Ok(Outcome {
        requests: asked,
        sessions,
        time,
        coverage,
        first,
        found,
        other: pair.other.name().to_string(),
        show_coverage: options.coverage,
    })
}

/// The one kind that is played, if one is named.
fn only(options: &Options) -> Result<Option<&'static Kind>, String> {
    let Some(name) = &options.kind else {
        return Ok(None);
    };
    let kind = kinds::ALL.iter().find(|kind| kind.name == name);
    let names = || kinds::ALL.iter().map(|kind| kind.name).collect::<Vec<_>>().join(", ");
    kind.map(Some)
        .ok_or_else(|| format!("no kind of session '{name}'; expected one of {}", names()))
}

impl fmt::Display for Outcome {
    /// What a run came to. At a difference all but the session is comments, so that the whole can be
    /// replayed.
    fn fmt(&self, f: &mut fmt::Formatter<'_>) -> fmt::Result {
        let other = &self.other;
        let mut notes = throughput(self.requests, self.sessions, self.time);
        if self.show_coverage {
            notes = format!("{notes}\n\n{}", self.coverage);
        }
        let (Some(first), Some(found)) = (&self.first, &self.found) else {
            return writeln!(f, "The proved code and the {other} agree.\n{notes}");
        };
        writeln!(f, "# The proved code and the {other} differ.\n#")?;
        comment(f, &first.to_string())?;
        comment(f, &first.about(found.session.steps.len()))?;
        writeln!(f, "{found}")?;
        comment(f, &notes)
    }
}

fn comment(f: &mut fmt::Formatter<'_>, text: &str) -> fmt::Result {
    text.lines().try_for_each(|line| writeln!(f, "{}", format!("# {line}").trim_end()))
}

impl First {
    /// What became of it, played again alone.
    fn about(&self, requests: usize) -> String {
        let before = self.found.session.steps.len();
        match self.again {
            Some(true) => {
                return format!("The same, shrunk from {before} requests to {requests}:\n")
            }
            Some(false) => {}
            None => return "As it was found:\n".to_string(),
        }
        let (run, seed) = (grouped(self.requests), self.seed);
        format!(
            "THIS DOES NOT COME AGAIN when the session is played alone: the answer depends on what \
             was\nasked before the session, or on chance. So the session below is not shrunk, and \
             need not differ.\nTo look for it, repeat the run: seed {seed}, {run} requests.\n"
        )
    }
}

impl fmt::Display for First {
    /// Where it was found, and what differed there.
    fn fmt(&self, f: &mut fmt::Formatter<'_>) -> fmt::Result {
        let First { found, session, kind, .. } = self;
        let (session, run) = (grouped(*session), grouped(self.requests));
        match found.session.steps.last() {
            Some(step) => {
                let (at, request) = (found.session.steps.len(), text::request(step));
                write!(f, "First at request {run} of the run, request {at} of session {session} ")?;
                writeln!(f, "(kind {kind}):\n  {request}")?;
            }
            None => {
                write!(f, "First after request {run} of the run, where session {session} ")?;
                writeln!(f, "(kind {kind}) begins and nothing is asked yet:")?;
            }
        }
        writeln!(f, "{}\n", found.difference)
    }
}
