//! The simulator attached to the bench, as it is and with what it says spoilt on the way.

use std::time::Duration;

use compare::{run, Difference, Options, Outcome};

const SIMULATOR: &str = env!("CARGO_BIN_EXE_simulator");

fn against(command: &str, requests: u64) -> Result<Outcome, String> {
    let against = Some(command.to_string());
    run(&Options { requests, against, ..Options::default() })
}

/// The simulator with each of its lines passed through an edit.
fn spoilt(edit: &str) -> Outcome {
    let outcome = against(&format!("'{SIMULATOR}' | sed -u '{edit}'"), 3_000).expect("a run");
    assert_eq!(outcome.status(), 1);
    outcome
}

fn trouble(outcome: &Outcome) -> String {
    match &outcome.found.as_ref().expect("a difference").difference {
        Difference::Trouble(trouble) => trouble.message().to_string(),
        other => panic!("{other}"),
    }
}

#[test]
fn agrees() {
    let outcome = against(&format!("exec '{SIMULATOR}'"), 3_000).expect("a run");
    assert!(outcome.found.is_none(), "{outcome}");
}

#[test]
fn another_refusal_is_found_and_shrunk() {
    let found = spoilt("s/^answer 9 /answer 8 /").found.expect("a difference");
    assert!(matches!(found.difference, Difference::Reply(_)), "{found}");
    assert!(found.session.steps.len() < 4, "{found}");
}

#[test]
fn another_byte_of_a_table_is_found() {
    let found = spoilt("s/^bytes 20\\(.*\\)00$/bytes 20\\101/").found.expect("a difference");
    assert!(matches!(found.difference, Difference::Byte { .. }), "{found}");
    assert!(found.session.steps.len() < 3, "{found}");
}

#[test]
fn an_answer_that_cannot_be_read_is_a_difference() {
    let outcome = spoilt("s/^answer 9 .*/nonsense/");
    let told = trouble(&outcome);
    assert!(told.contains("'nonsense' to 'serve ") && told.contains("eleven words"), "{outcome}");
    assert!(outcome.found.expect("a difference").session.steps.len() < 4);
}

#[test]
fn an_answer_with_a_word_too_few_is_a_difference() {
    let outcome = spoilt("s/^answer 9 0 /answer 9 /");
    assert!(trouble(&outcome).contains("expected 11 words"), "{outcome}");
}

#[test]
fn an_end_in_the_middle_is_a_difference() {
    // The ninth operation, a drop, ends the simulator's input.
    let command = format!("sed -u '/^serve 9 /Q' | '{SIMULATOR}'");
    let outcome = against(&command, 3_000).expect("a run");
    assert!(trouble(&outcome).contains("ended without an answer"), "{outcome}");
    assert_eq!(outcome.found.expect("a difference").session.steps.len(), 1);
}

/// Nothing of such an answer is kept: what is read has a bound.
#[test]
fn an_answer_without_an_end_is_a_difference() {
    let endless = "while read line; do case $line in serve*) yes x | tr -d '\\n';; \
                   north*) echo $line;; *) echo ok;; esac; done";
    let outcome = against(endless, 100).expect("a run");
    let told = trouble(&outcome);
    assert!(told.contains("'xxx") && told.contains("at most 141568 characters"), "{told}");
    let error = against("yes x | tr -d '\\n'", 100).unwrap_err();
    assert!(error.contains("at most 141568 characters"), "{error}");
}

/// The line that got no answer is told, and how long it was waited for.
#[test]
fn silence_is_a_difference() {
    let against = Some(format!("sed -u '/^serve 9 /d' | '{SIMULATOR}'"));
    let options = Options { requests: 3_000, against, ..Options::default() };
    let outcome = run(&Options { wait: Duration::from_millis(300), ..options }).expect("a run");
    let told = trouble(&outcome);
    assert!(told.contains("kept silent for 0.3 s when asked 'serve 9 "), "{told}");
    let first = outcome.first.as_ref().expect("a difference");
    assert_eq!(first.found.session.steps.last().expect("a request").request.operation, 9);
    assert!(first.again == Some(true) && outcome.to_string().contains("\n#   drop "), "{outcome}");
}

#[test]
fn a_command_that_says_nothing_at_all() {
    let options = Options { against: Some("sleep 1000".to_string()), ..Options::default() };
    let error = run(&Options { wait: Duration::from_millis(300), ..options }).unwrap_err();
    let told = "kept silent for 0.3 s when asked 'northbridge 5'";
    assert!(error.contains(told) && error.contains("--wait"), "{error}");
}

#[test]
fn a_command_that_is_not_there() {
    let error = against("./no-such-simulator 2> /dev/null", 10).unwrap_err();
    assert!(error.contains("no-such-simulator"), "{error}");
}

#[test]
fn a_command_that_does_not_speak_the_protocol() {
    let error = against("echo hello", 10).unwrap_err();
    assert!(error.contains("'hello' to 'northbridge 5': expected northbridge 5"), "{error}");
}
