//! All crates and their edits, some at a time.

use std::io::Write;
use std::path::{Path, PathBuf};
use std::sync::{mpsc, Arc};
use std::time::Instant;
use std::{env, fs, thread};

use crate::edit;
use crate::folders::{copy, copy_crate, edits, Room};
use crate::judged::{judge, Judged};
use crate::options::Options;
use crate::prover::{Prover, Said};
use crate::queue::{Next, Queue};
use crate::report::{Event, Report};

/// What all workers need.
struct Bench<'a> {
    prover: Prover,
    from: &'a str,
    /// Where the copies stand.
    rooms: Room,
    /// Where what the prover says is kept.
    logs: PathBuf,
    queue: Queue<String, Trial>,
}

/// An edit to try, over what the check of its crate left.
struct Trial {
    label: String,
    base: Arc<Base>,
}

/// A crate that was checked as it stands. Its room goes with its last edit.
struct Base {
    name: String,
    room: Room,
}

/// Tries the edits, tells what becomes of each, and says whether all was as it must be.
pub fn run(options: &Options, out: &mut dyn Write) -> Result<bool, String> {
    let root = root()?;
    let prover = Prover::new(&root)?;
    let crates = wanted(&prover, options)?;
    let logs = root.join("target/edits");
    let _ = fs::remove_dir_all(&logs);
    let rooms = env::var_os("TMPDIR").filter(|folder| !folder.is_empty());
    let rooms = Room::new(&rooms.map_or(logs.clone(), PathBuf::from), "rooms")?;
    let bench = Bench { prover, from: &options.from, rooms, logs, queue: Queue::new(crates) };
    let told = |error| format!("cannot write the output: {error}");
    let mut report = Report::default();
    Report::begin(out).map_err(told)?;
    thread::scope(|scope| {
        let (sender, events) = mpsc::channel();
        for _ in 0..options.jobs {
            let (bench, sender) = (&bench, sender.clone());
            scope.spawn(move || bench.work(&sender));
        }
        drop(sender);
        events.into_iter().try_for_each(|event| report.tell(event, out))
    })
    .and_then(|()| report.end(out))
    .map_err(told)
}

/// The folder of the repository: the nearest one above with a crates.txt.
fn root() -> Result<PathBuf, String> {
    let here = env::current_dir().map_err(|error| error.to_string())?;
    let root = here.ancestors().find(|folder| folder.join("crates.txt").is_file());
    root.map(Path::to_path_buf).ok_or("expected crates.txt in this folder or above it".to_string())
}

/// The crates whose edits are tried, those first that stand on most.
fn wanted(prover: &Prover, options: &Options) -> Result<Vec<String>, String> {
    let has_edits = |name: &String| prover.folder(name).join(&options.from).is_dir();
    let mut names = options.names.clone();
    if names.is_empty() {
        names = folders(&prover.folder(""))?.into_iter().filter(has_edits).collect();
    }
    if let Some(name) = names.iter().find(|name| !has_edits(name)) {
        return Err(format!("expected a folder crates/{name}/{}", options.from));
    }
    if names.is_empty() {
        return Err(format!("expected a crate with a folder {}, and none has one", options.from));
    }
    let stands_on = |name: &String| prover.all_below(name).map_or(0, |all| all.len());
    names.sort_by_key(|name| std::cmp::Reverse(stands_on(name)));
    Ok(names)
}

/// The names of what stands in a folder, in order.
fn folders(folder: &Path) -> Result<Vec<String>, String> {
    let read = fs::read_dir(folder).and_then(|all| all.collect::<Result<Vec<_>, _>>());
    let all = read.map_err(|error| format!("{}: {error}", folder.display()))?;
    let mut names: Vec<String> =
        all.iter().map(|one| one.file_name().to_string_lossy().into_owned()).collect();
    names.sort();
    Ok(names)
}

impl Bench<'_> {
    /// Takes crates and edits in hand until none is left, or nobody listens.
    fn work(&self, tell: &mpsc::Sender<Event>) {
        while let Some(next) = self.queue.next() {
            let event = match next {
                Next::Crate(name) => self.prepare(name),
                Next::Edit(trial) => self.attempt(trial),
            };
            if tell.send(event).is_err() {
                return;
            }
        }
    }

    /// Checks a crate as it stands, and puts its edits into the queue.
    fn prepare(&self, name: String) -> Event {
        let began = Instant::now();
        let trials = self.trials(&name);
        let checked = trials.as_ref().map(|_| began.elapsed()).map_err(String::clone);
        self.queue.ready(trials.unwrap_or_default());
        Event::Crate { name, checked }
    }

    fn trials(&self, name: &str) -> Result<Vec<Trial>, String> {
        let labels = edits(&self.prover.folder(name).join(self.from))?;
        if labels.is_empty() {
            return Err(format!("crates/{name}/{} has no edit", self.from));
        }
        let base = Base { name: name.to_string(), room: Room::new(self.rooms.path(), name)? };
        copy_crate(&self.prover.folder(name), &base.copy())?;
        let said = self.check(&base, &base.room, "unedited")?;
        if said.status != Some(0) {
            let log = format!("target/edits/{name}/unedited.log has what was said");
            return Err(format!("the unedited crate is not proved; {log}"));
        }
        let base = Arc::new(base);
        Ok(labels.into_iter().map(|label| Trial { label, base: base.clone() }).collect())
    }

    /// Tries an edit.
    fn attempt(&self, trial: Trial) -> Event {
        let began = Instant::now();
        let judged = self.judged(&trial).unwrap_or_else(Judged::Bad);
        let (name, label) = (trial.base.name.clone(), trial.label);
        Event::Edit { name, label, judged, took: began.elapsed() }
    }

    fn judged(&self, Trial { label, base }: &Trial) -> Result<Judged, String> {
        let name = &base.name;
        let file = self.prover.folder(name).join(self.from).join(format!("{label}.edit"));
        let text = fs::read_to_string(&file).map_err(|error| error.to_string())?;
        let replacements = edit::read(&text)?;
        let room = Room::new(self.rooms.path(), &format!("{name}-{label}"))?;
        copy_crate(&base.copy(), &copy_in(&room))?;
        edit::apply(&replacements, &copy_in(&room))?;
        copy(&saved_in(&base.room), &saved_in(&room))?;
        let said = self.check(base, &room, label)?;
        Ok(judge(said.status, &said.text))
    }

    fn check(&self, base: &Base, room: &Room, label: &str) -> Result<Said, String> {
        let logs = self.logs.join(&base.name);
        fs::create_dir_all(&logs).map_err(|error| format!("{}: {error}", logs.display()))?;
        let log = logs.join(format!("{label}.log"));
        self.prover.check(&base.name, &copy_in(room), &saved_in(room), &log)
    }
}

impl Base {
    fn copy(&self) -> PathBuf {
        copy_in(&self.room)
    }
}

/// The copy of a crate in a room.
fn copy_in(room: &Room) -> PathBuf {
    room.path().join("crate")
}

/// The incremental folder in a room.
fn saved_in(room: &Room) -> PathBuf {
    room.path().join("saved")
}
