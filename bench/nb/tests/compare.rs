//! `nb compare` and `nb serve` as they are called.

use std::process::Command;

const NB: &str = env!("CARGO_BIN_EXE_nb");

/// Status, standard output and standard error.
fn compare(words: &[&str]) -> (i32, String, String) {
    let output = Command::new(NB).arg("compare").args(words).output().expect("the tool");
    let text = |bytes: &[u8]| String::from_utf8_lossy(bytes).into_owned();
    (output.status.code().unwrap_or(-1), text(&output.stdout), text(&output.stderr))
}

#[test]
fn agreement_is_status_0() {
    let (status, text, error) = compare(&["--requests", "2000", "--seed", "3", "--coverage"]);
    assert_eq!((status, error.as_str()), (0, ""));
    assert!(text.contains("The proved code and the model agree."), "{text}");
    assert!(text.contains("2,000 requests") && text.contains("execute-only"), "{text}");
}

#[test]
fn serve_agrees_with_itself() {
    let (status, text, _) = compare(&["--requests", "2000", "--against", &format!("'{NB}' serve")]);
    assert_eq!(status, 0, "{text}");
}

#[test]
fn a_difference_is_status_1_and_can_be_replayed() {
    let command = format!("'{NB}' serve | sed -u 's/^answer 9 /answer 8 /'");
    let (status, text, _) = compare(&["--requests", "2000", "--against", &command]);
    assert_eq!(status, 1);
    assert!(text.contains("# The proved code and the command differ."), "{text}");
    let script = session::text::parse(&text).expect("a session in the replay format");
    assert!(script.asks.len() < 10, "{text}");
}

#[test]
fn bad_words_are_status_2() {
    let holds = |words: &[&str], told: &str| {
        let (status, _, error) = compare(words);
        assert_eq!(status, 2, "{words:?}");
        assert!(error.contains(told), "{words:?}: {error}");
    };
    holds(&["--guard", "beside"], "expected before or behind");
    holds(&["--kind", "nothing"], "expected one of plain");
    holds(&["--requests", "many"], "a number behind --requests");
    holds(&["more"], "expected options only");
    holds(&["--against", "echo hello"], "expected northbridge 5");
    holds(&["--against", "./no-such-simulator"], "no-such-simulator");
}

#[test]
fn the_kinds_are_told() {
    let (status, text, _) = compare(&["--kinds"]);
    assert_eq!((status, text.lines().count()), (0, compare::KINDS.len()));
}
