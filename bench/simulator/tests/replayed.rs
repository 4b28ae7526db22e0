//! Stored sessions replayed on the simulator, as it is and with what it says spoilt on the way.

use std::fs;
use std::path::Path;

use compare::{Simulator, WAIT};
use session::play::{NoAnswer, Played, Player};
use session::text::{parse, Script};

const SIMULATOR: &str = env!("CARGO_BIN_EXE_simulator");

/// The stored sessions, by their file names.
fn stored() -> Vec<(String, Script)> {
    let folder = Path::new(env!("CARGO_MANIFEST_DIR")).join("../sessions");
    let files = fs::read_dir(folder).expect("the folder of sessions");
    let read = |file: fs::DirEntry| {
        let text = fs::read_to_string(file.path()).expect("a session");
        (file.file_name().to_string_lossy().into_owned(), parse(&text).expect("a session"))
    };
    files.map(|file| read(file.expect("a file"))).collect()
}

fn replayed(script: &Script, simulator: &mut Simulator) -> Vec<Result<Played, NoAnswer>> {
    let mut player = Player::new(script, simulator);
    script.asks.iter().map(|ask| player.play(ask)).collect()
}

/// What came of each request of a text.
fn played(text: &str, command: &str) -> Vec<Result<Played, NoAnswer>> {
    let mut simulator = Simulator::start(command, WAIT).expect("a simulator");
    replayed(&parse(text).expect("a session"), &mut simulator)
}

const TEXT: &str = "memory 64 entries 4\nreset nonce 1 -> 0\nclone root -> 0\n= entry 0 count 1\n\
                    create root length 8 permissions R -> 9\nwrite root 05 -> 0\n= at 0 05\n";

#[test]
fn every_stored_session_goes_as_expected() {
    let command = format!("exec '{SIMULATOR}'");
    let mut simulator = Simulator::start(&command, WAIT).expect("a simulator");
    for (name, script) in stored() {
        for (ask, played) in script.asks.iter().zip(replayed(&script, &mut simulator)) {
            match played {
                Ok(played) => assert_eq!(played.differences, [], "{name}, line {}", ask.line),
                Err(no_answer) => panic!("{name}, line {}: {no_answer}", ask.line),
            }
        }
    }
}

#[test]
fn another_answer_is_told_as_in_any_replay() {
    let command = format!("'{SIMULATOR}' | sed -u 's/^answer 9 /answer 8 /'");
    let played = played(TEXT, &command);
    let differing = |at: usize| &played[at].as_ref().expect("an answer").differences;
    assert_eq!(differing(2).len(), 1);
    assert_eq!(differing(2)[0].what, "refusal");
    assert_eq!((differing(1).len(), differing(3).len()), (0, 0));
}

#[test]
fn another_byte_is_told_as_what_stands() {
    let command = format!("'{SIMULATOR}' | sed -u 's/^bytes 05/bytes 06/'");
    let played = played(TEXT, &command);
    let differences = &played[3].as_ref().expect("an answer").differences;
    assert_eq!(differences.len(), 1, "{differences:?}");
    assert_eq!((&*differences[0].expected, &*differences[0].given), ("at 0 05", "at 0 06"));
}

#[test]
fn a_request_without_an_answer_is_told() {
    let command = format!("sed -u '/^serve 8 /Q' | '{SIMULATOR}'");
    let played = played(TEXT, &command);
    assert!(played[0].is_ok());
    let told = played[1].as_ref().expect_err("no answer").to_string();
    assert!(told.starts_with("no answer: the command") && told.contains("ended"), "{told}");
}
