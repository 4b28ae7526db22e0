//! The stored sessions: recorded as they stand in the repository, agreed on by the proved code and
//! the model, and reaching every answer.

use std::collections::BTreeSet;
use std::fs;
use std::path::PathBuf;

use compare::{cases, possible, OPERATIONS};
use nb_tool::commands::recorded;
use nb_tool::stored::{self, Stored};
use session::play::{goes_as_expected, record, search, Player};
use session::server::{Model, Proved, Server};
use session::text::{parse, print_script, Script};

fn folder() -> PathBuf {
    PathBuf::from(env!("CARGO_MANIFEST_DIR")).join("../sessions")
}

/// The recorded sessions of the repository, with their file names.
fn kept() -> Vec<(String, String)> {
    let files = fs::read_dir(folder()).expect("the folder of sessions");
    let mut kept: Vec<(String, String)> = files
        .map(|file| {
            let path = file.expect("a file").path();
            let name = path.file_name().expect("a name").to_string_lossy().into_owned();
            (name, fs::read_to_string(path).expect("a session"))
        })
        .collect();
    kept.sort();
    kept
}

fn script(text: &str) -> Script {
    parse(text).unwrap_or_else(|error| panic!("{error}"))
}

#[test]
fn recording_gives_the_kept_bytes() {
    let mut written: Vec<(String, String)> = stored::all()
        .iter()
        .map(|stored| (stored.file_name(), recorded(stored).expect("a recorded session")))
        .collect();
    written.sort();
    for (written, kept) in written.iter().zip(kept()) {
        assert!(
            *written == kept,
            "{} is not as recorded: run 'nb record --stored sessions'",
            kept.0
        );
    }
    assert_eq!(written.len(), kept().len());
}

#[test]
fn recording_a_recorded_session_changes_nothing() {
    for (name, text) in kept() {
        let again = record(&script(&text), &mut Proved).expect("it goes as recorded");
        assert_eq!(print_script(&again), text, "{name}");
    }
}

#[test]
fn the_proved_code_and_the_model_agree_with_them() {
    for (name, text) in kept() {
        let script = script(&text);
        assert!(script.exact, "{name}");
        assert!(goes_as_expected(&script, &mut Proved), "{name}, the proved code");
        assert!(goes_as_expected(&script, &mut Model), "{name}, the model");
    }
}

/// An answer: operation, refusal, place.
type Answer = (u64, u64, u64);

fn answers<S: Server>(server: &mut S) -> BTreeSet<Answer> {
    let mut answers = BTreeSet::new();
    for (_, text) in kept() {
        let script = script(&text);
        let mut player = Player::new(&script, server);
        for ask in &script.asks {
            let played = player.play(ask).expect("every name is given");
            let reply = played.reply;
            let row = played.request.operation.min(OPERATIONS as u64 - 1);
            answers.insert((row, reply.refusal, reply.place));
        }
    }
    answers
}

/// The answers that paper 01 leaves possible.
fn all_possible() -> BTreeSet<Answer> {
    let rows = 0..OPERATIONS as u64;
    let pairs = rows.flat_map(|operation| cases().map(move |case| (operation, case)));
    let possible = pairs.filter(|(operation, case)| possible(*operation, *case));
    possible.map(|(operation, (refusal, place))| (operation, refusal, place)).collect()
}

#[test]
fn every_possible_answer_is_reached() {
    let (reached, possible) = (answers(&mut Proved), all_possible());
    let missing: Vec<&Answer> = possible.difference(&reached).collect();
    let impossible: Vec<&Answer> = reached.difference(&possible).collect();
    assert!(missing.is_empty(), "missing {missing:?}");
    assert!(impossible.is_empty(), "impossible {impossible:?}");
}

#[test]
fn each_has_a_line_on_what_it_is_about() {
    for stored in stored::all() {
        assert!(stored.text.starts_with("# ") && stored.about().len() > 20, "{}", stored.name);
    }
}

/// The keys of sessions that come about by chance are the least ones.
#[test]
fn searched_keys_are_found_again() {
    let searched = [
        "revoke-passes-over",
        "revoke-passes-over-the-last",
        "trap-number-given-again",
        "rest-with-tag-zero",
        "kept-rest",
        "kept-execute-only",
        "page-kept-freed",
    ];
    for stored in stored::all().iter().filter(|stored| searched.contains(&stored.name)) {
        let script = script(&stored.text);
        let key = script.session_key();
        assert_eq!(search(&script, &mut Proved, key + 1), Some(key), "{}", stored.name);
    }
}

/// The first key word of the first request.
trait SessionKey {
    fn session_key(&self) -> u64;
}

impl SessionKey for Script {
    fn session_key(&self) -> u64 {
        let reset = self.asks.first().expect("a reset");
        reset.resolve(&Default::default()).expect("a key").token
    }
}

#[test]
fn names_are_those_of_the_files() {
    let names: BTreeSet<String> = stored::all().iter().map(Stored::file_name).collect();
    assert_eq!(names.len(), stored::all().len());
    assert_eq!(names, kept().into_iter().map(|(name, _)| name).collect());
}
