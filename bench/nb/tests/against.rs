//! `nb replay --against` as it is called.

use std::io::Write;
use std::path::Path;
use std::process::{Command, Stdio};

const NB: &str = env!("CARGO_BIN_EXE_nb");

const TEXT: &str = "memory 64 entries 4\nreset nonce 1 -> 0\nclone root -> 0\n\
                    create root length 8 permissions R -> 9\nread root 1 -> 0\n";

/// Status, standard output and standard error.
fn replay(words: &[&str], input: &str) -> (i32, String, String) {
    let mut tool = Command::new(NB);
    tool.arg("replay").args(words);
    let piped = tool.stdin(Stdio::piped()).stdout(Stdio::piped()).stderr(Stdio::piped());
    let mut tool = piped.spawn().expect("the tool");
    // A tool that does not read its input may close it before all is written.
    let _ = tool.stdin.take().expect("its input").write_all(input.as_bytes());
    let output = tool.wait_with_output().expect("its output");
    let text = |bytes: &[u8]| String::from_utf8_lossy(bytes).into_owned();
    (output.status.code().unwrap_or(-1), text(&output.stdout), text(&output.stderr))
}

#[test]
fn agreement_is_status_0() {
    let name = |name: &str| {
        let folder = Path::new(env!("CARGO_MANIFEST_DIR")).join("../sessions");
        folder.join(name).to_string_lossy().into_owned()
    };
    let files = [name("fifteen-cases.session"), name("revoke.session")];
    let words = ["--brief", "--against", &format!("'{NB}' serve"), &files[0], &files[1]];
    let (status, text, error) = replay(&words, "");
    assert_eq!((status, error.as_str()), (0, ""), "{text}");
    assert!(text.contains("2 files: ") && text.contains("all as expected"), "{text}");
}

#[test]
fn a_difference_is_status_1_and_marked_as_in_any_replay() {
    let command = format!("'{NB}' serve | sed -u 's/^answer 9 /answer 8 /'");
    let (status, text, _) = replay(&["--against", &command, "-"], TEXT);
    assert_eq!(status, 1);
    assert!(text.contains("    4 ! create root"), "{text}");
    assert!(text.contains("! refusal: expected 9 (standing forbids it), given 8"), "{text}");
    assert!(text.contains("4 requests, 1 NOT AS EXPECTED\n"), "{text}");
}

#[test]
fn without_an_answer_the_rest_of_the_file_is_not_asked() {
    let command = format!("sed -u '/^serve 8 /Q' | '{NB}' serve");
    let (status, text, _) = replay(&["--map", "--against", &command, "-"], TEXT);
    assert_eq!(status, 1);
    assert!(text.contains("    3 ! clone root"), "{text}");
    assert!(text.contains("no answer: the command"), "{text}");
    assert!(text.contains("2 requests, 1 NOT AS EXPECTED, 2 more not asked"), "{text}");
    assert!(text.contains("end of memory"), "the map shows what stood last: {text}");
}

#[test]
fn a_buffer_that_no_line_holds_is_not_asked() {
    let text =
        "memory 64 entries 4\nreset nonce 1 -> 0\nread root 69633 -> 1\nread root 69632 -> 1\n";
    let (status, text, _) = replay(&["--against", &format!("'{NB}' serve"), "-"], text);
    assert_eq!(status, 0, "{text}");
    assert!(text.contains("not asked: its buffer has 69633 bytes, of at most 69632"), "{text}");
    assert!(text.contains("all as expected, 1 more not asked"), "{text}");
    let other = "memory 64 entries 4\nreset nonce 1 -> 0\nclone root buffer 00*69633 -> 0\n";
    assert_eq!(replay(&["--against", &format!("'{NB}' serve"), "-"], other).0, 1);
}

#[test]
fn bad_words_are_status_2() {
    let holds = |words: &[&str], told: &str| {
        let (status, _, error) = replay(words, TEXT);
        assert_eq!(status, 2, "{words:?}");
        assert!(error.contains(told), "{words:?}: {error}");
    };
    holds(&["--against", "echo hello", "-"], "expected northbridge 5");
    holds(&["--against", "./no-such-simulator 2> /dev/null", "-"], "no-such-simulator");
    holds(&["--against", "cat", "--by", "model", "-"], "expected --by or --against");
    holds(&["--against"], "a value behind --against");
}
