//! Seeded faults: each edit of bench/faults is made in a copy of the model; some of these are built into
//! a library, which is loaded, and each is compared with the proved code. Each must be found soon,
//! whatever the seed, and with the first seed shrunk to fewer than six requests. The sessions are left in
//! bench/target/faults. With `--nocapture` it prints how soon each was found.

#[path = "faults/machine.rs"]
mod machine;

use std::collections::BTreeSet;
use std::path::{Path, PathBuf};
use std::process::Command;
use std::sync::{mpsc, Arc, Mutex};
use std::time::Duration;
use std::{env, fs, thread};

use compare::{compare, Options, Outcome, Pair, Proved};
use machine::Loaded;

/// How many requests a fault may stay unseen, with each of these seeds.
const REQUESTS: u64 = 20_000;
const SEEDS: std::ops::RangeInclusive<u64> = 1..=3;

/// A shrunk session has fewer requests than this.
const SHORT: usize = 6;

/// Some fault is done at least so often; if none is, one of those at hand never answers.
const PATIENCE: Duration = Duration::from_secs(120);

/// An edit: in which file, what stands there, and what takes its place.
struct Edit {
    file: String,
    old: String,
    new: String,
}

fn bench() -> PathBuf {
    Path::new(env!("CARGO_MANIFEST_DIR")).join("..")
}

fn target() -> PathBuf {
    Path::new(env!("CARGO_TARGET_TMPDIR")).join("../faults")
}

/// The names of all faults, in order.
fn names() -> Vec<String> {
    let files = fs::read_dir(bench().join("faults")).expect("the folder of faults");
    let paths = files.map(|file| file.expect("a fault's file").path());
    let edits = paths.filter(|path| path.extension().is_some_and(|end| end == "edit"));
    let mut names: Vec<String> =
        edits.map(|path| path.file_stem().unwrap().to_string_lossy().to_string()).collect();
    names.sort();
    names
}

/// Reads a fault: a line on what it is, then `file:` and pairs of `old:` and `new:`.
fn edits(name: &str) -> Vec<Edit> {
    let path = bench().join("faults").join(format!("{name}.edit"));
    let text = fs::read_to_string(&path).expect("a fault");
    let (mut file, mut old, mut edits) = (String::new(), String::new(), Vec::new());
    for line in text.lines() {
        let (key, value) = line.split_once(' ').unwrap_or((line, ""));
        match key {
            "#" => {}
            "file:" => file = value.to_string(),
            "old:" => old = value.to_string(),
            "new:" => {
                let (file, old) = (file.clone(), old.clone());
                edits.push(Edit { file, old, new: value.to_string() });
            }
            _ => panic!("{name}: expected # file: old: or new:, not {line}"),
        }
    }
    edits
}

/// Makes a file's edits at once: each old text stands in it exactly once.
fn edited(name: &str, text: &str, edits: &[&Edit]) -> String {
    let mut places: Vec<(usize, &Edit)> = Vec::new();
    for edit in edits {
        let found: Vec<(usize, &str)> = text.match_indices(&edit.old).collect();
        assert_eq!(found.len(), 1, "{name}: '{}' must stand there once", edit.old);
        places.push((found[0].0, edit));
    }
    places.sort_by_key(|(at, _)| std::cmp::Reverse(*at));
    let mut text = text.to_string();
    for (at, edit) in places {
        text.replace_range(at..at + edit.old.len(), &edit.new);
    }
    text
}

/// How many faults are built at once: the compiler's start and the linker's work are theirs together.
const TOGETHER: usize = 8;

/// The name of a fault's copy of the model, as a module.
fn module(name: &str) -> String {
    name.replace('-', "_")
}

/// Copies the model's sources with the edits made, and with the function for C, as a module.
fn copy(name: &str, folder: &Path) {
    let edits = edits(name);
    assert!(!edits.is_empty(), "{name}: no edit");
    let (module, own) = (module(name), folder.join(module(name)));
    fs::create_dir_all(&own).expect("a folder for the copy");
    let write = |file: &str, text: &str| {
        let text = text.replace("crate::", &format!("crate::{module}::"));
        fs::write(own.join(file), text).expect("a copied source");
    };
    for file in fs::read_dir(bench().join("model/src")).expect("the model's sources") {
        let path = file.expect("a source").path();
        let file = path.file_name().unwrap().to_string_lossy();
        let place = format!("src/{file}");
        let here: Vec<&Edit> = edits.iter().filter(|edit| edit.file == place).collect();
        let text = edited(name, &fs::read_to_string(&path).expect("a source"), &here);
        match &*file {
            "lib.rs" => write("mod.rs", &(text + "\nmod loaded;\n")),
            file => write(file, &text),
        }
    }
    let function = include_str!("faults/loaded.rs").replace("serve_loaded", &function(name));
    write("loaded.rs", &function);
}

/// The name of a copy's function for C.
fn function(name: &str) -> String {
    format!("serve_{}", module(name))
}

/// Builds faults into a library, in one run of the compiler. It answers few requests, and is not
/// optimised: that would take three times as long.
fn build(names: &[String]) -> PathBuf {
    let folder = target().join(&names[0]);
    names.iter().for_each(|name| copy(name, &folder));
    let modules: String = names.iter().map(|name| format!("mod {};\n", module(name))).collect();
    fs::write(folder.join("lib.rs"), modules).expect("a source");
    let compiler = env::var("RUSTC").unwrap_or("rustc".to_string());
    let mut command = Command::new(compiler);
    command.args(["--edition", "2021", "--cap-lints", "allow", "--crate-type", "cdylib"]);
    command.args(["-C", "debug-assertions=off", "-C", "codegen-units=1"]);
    command.args(["--crate-name", "faulty", "-o", LIBRARY, "lib.rs"]);
    let built = command.current_dir(&folder).output().expect("rustc");
    assert!(built.status.success(), "{}", String::from_utf8_lossy(&built.stderr));
    folder.join(LIBRARY)
}

const LIBRARY: &str = "libfaulty.so";

/// What became of a fault.
struct Seen {
    name: String,
    /// At which request of the run it was found, with each seed.
    requests: Vec<u64>,
    /// How many requests the shrunk session has.
    shrunk: usize,
}

fn find(name: &str, library: &Path) -> Seen {
    let outcomes: Vec<Outcome> = SEEDS.map(|seed| found(name, library, seed)).collect();
    let first = &outcomes[0];
    let session = target().join(format!("{name}.session"));
    fs::write(session, first.to_string()).expect("a place for the session");
    let shrunk = first.found.as_ref().map_or(0, |found| found.session.steps.len());
    let requests = outcomes.iter().map(|outcome| outcome.requests).collect();
    Seen { name: name.to_string(), requests, shrunk }
}

/// The fault found with a seed; with the first one it is shrunk.
fn found(name: &str, library: &Path, seed: u64) -> Outcome {
    let (requests, shrink) = (REQUESTS, seed == *SEEDS.start());
    let options = Options { requests, seed, shrink, ..Options::default() };
    let faulty = Loaded::new(library, &function(name));
    let pair = Pair::new(Box::new(Proved::new()), Box::new(faulty));
    let outcome = compare(&options, pair).expect("a run");
    assert!(outcome.found.is_some(), "{name} was not found with seed {seed}");
    outcome
}

/// The faults that are left, and those at hand.
struct Work {
    left: Vec<String>,
    at_hand: BTreeSet<String>,
}

/// Takes the next faults in hand.
fn take(work: &Mutex<Work>) -> Vec<String> {
    let mut work = work.lock().expect("the faults");
    let rest = work.left.len().saturating_sub(TOGETHER);
    let names = work.left.split_off(rest);
    work.at_hand.extend(names.clone());
    names
}

/// Finds the faults that are left, some at a time.
fn find_left(work: &Mutex<Work>, all: &mpsc::Sender<Seen>) {
    loop {
        let names = take(work);
        if names.is_empty() {
            return;
        }
        let library = build(&names);
        for name in names {
            let seen = find(&name, &library);
            work.lock().expect("the faults").at_hand.remove(&name);
            all.send(seen).expect("one who waits for it");
        }
    }
}

/// All faults, shared by a thread for each processor.
fn find_all(names: Vec<String>) -> Vec<Seen> {
    let count = names.len();
    let work = Arc::new(Mutex::new(Work { left: names, at_hand: BTreeSet::new() }));
    let (sender, all) = mpsc::channel();
    for _ in 0..thread::available_parallelism().map_or(1, usize::from) {
        let (work, sender) = (work.clone(), sender.clone());
        thread::spawn(move || find_left(&work, &sender));
    }
    drop(sender);
    let next = || all.recv_timeout(PATIENCE).ok();
    let seen: Vec<Seen> = std::iter::from_fn(next).take(count).collect();
    let at_hand = work.lock().map(|work| work.at_hand.clone()).unwrap_or_default();
    assert_eq!(seen.len(), count, "not found, or never done: one of {at_hand:?}");
    seen
}

/// Within how many requests half of the runs came to their fault, nine in ten, and the last.
fn soon(all: &[Seen]) -> String {
    let mut runs: Vec<u64> = all.iter().flat_map(|seen| seen.requests.clone()).collect();
    runs.sort_unstable();
    let within = |tenths: usize| runs[(runs.len() * tenths).div_ceil(10) - 1];
    let (count, half, most, last) = (runs.len(), within(5), within(9), within(10));
    format!("{count} runs: half within {half}, nine in ten within {most}, the last within {last}")
}

#[test]
fn each_fault_is_found_and_shrunk() {
    let names = names();
    assert!(names.len() >= 268);
    let mut all = find_all(names);
    all.sort_by(|one, other| one.name.cmp(&other.name));
    for Seen { name, requests, shrunk } in &all {
        println!("{name}: found at {requests:?}, shrunk to {shrunk} requests");
    }
    println!("{}", soon(&all));
    let long: Vec<&str> =
        all.iter().filter(|seen| seen.shrunk >= SHORT).map(|seen| &*seen.name).collect();
    assert!(long.is_empty(), "not shrunk enough: {long:?}");
}
