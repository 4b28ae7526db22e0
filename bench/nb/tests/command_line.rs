//! The tool as it is called: what it prints, and its status.

use std::io::Write;
use std::path::{Path, PathBuf};
use std::process::{Command, Output, Stdio};
use std::{env, fs};

/// Runs the tool with some words and a text on its standard input.
fn nb(words: &[&str], input: &str) -> Output {
    let mut tool = Command::new(env!("CARGO_BIN_EXE_nb"))
        .args(words)
        .stdin(Stdio::piped())
        .stdout(Stdio::piped())
        .stderr(Stdio::piped())
        .spawn()
        .expect("the tool");
    // A tool that does not read its input may close it before all is written.
    let _ = tool.stdin.take().expect("its input").write_all(input.as_bytes());
    tool.wait_with_output().expect("its output")
}

/// Status, standard output and standard error.
fn run(words: &[&str], input: &str) -> (i32, String, String) {
    let output = nb(words, input);
    let text = |bytes: &[u8]| String::from_utf8_lossy(bytes).into_owned();
    (output.status.code().unwrap_or(-1), text(&output.stdout), text(&output.stderr))
}

fn sessions() -> PathBuf {
    Path::new(env!("CARGO_MANIFEST_DIR")).join("../sessions")
}

fn stored(name: &str) -> String {
    sessions().join(name).to_string_lossy().into_owned()
}

/// A folder of one test.
fn folder(test: &str) -> PathBuf {
    let folder = env::temp_dir().join(format!("nb-{test}-{}", std::process::id()));
    let _ = fs::remove_dir_all(&folder);
    folder
}

#[test]
fn help_shows_an_example_for_each_command() {
    let (status, text, _) = run(&["--help"], "");
    assert_eq!(status, 0);
    for command in ["replay", "compare", "record", "search", "load", "dump"] {
        assert!(text.contains(&format!("for example: nb {command}")), "{text}");
        let (status, help, _) = run(&[command, "--help"], "");
        assert_eq!(status, 0);
        assert!(
            help.starts_with(&format!("nb {command}")) && help.contains("For example"),
            "{help}"
        );
    }
}

/// The examples that the help shows can be typed as they stand.
#[test]
fn examples_of_the_help_work() {
    let replay = "memory 64 entries 2\nreset nonce 1\nlock root task 7 -> 0\nread root 1 -> 5";
    assert!(run(&["replay", "--help"], "").1.contains("lock root task 7   -> 0"));
    assert_eq!(run(&["replay", "-"], replay).0, 0);
    let search = "memory 64 entries 2\nreset key 0 0 nonce 1\nrevoke root -> 0\n= state nonce 3\n";
    let (status, found, _) = run(&["search", "-"], search);
    assert_eq!(status, 0);
    assert_eq!(run(&["replay", "-"], &found).0, 0);
}

#[test]
fn bad_command_lines_are_status_2() {
    let holds = |words: &[&str], told: &str| {
        let (status, _, error) = run(words, "");
        assert_eq!(status, 2, "{words:?}");
        assert!(error.contains("expected") && error.contains(told), "{words:?}: {error}");
    };
    holds(&[], "a command");
    holds(&["reply"], "'reply'");
    holds(&["replay"], "a file");
    holds(&["replay", "--mpa", "x"], "--mpa");
    holds(&["replay", "--by", "nobody", "x"], "'nobody'");
    holds(&["replay", "--by"], "a value behind --by");
    holds(&["replay", "there-is-no-such.session"], "there-is-no-such.session");
    holds(&["record"], "one file");
    holds(&["record", "a", "b"], "one file");
    holds(&["record", "--list", "a"], "one file");
    holds(&["record", "there-is-no-such.session"], "there-is-no-such.session");
    holds(&["search", "--keys", "many", "x"], "a number behind --keys");
    holds(&["search", "a", "b"], "one file");
    holds(&["load", "a", "b"], "a session, a token and a HEX file");
    holds(&["load", "--to", "x.hex", "a", "b", "c"], "ends in .session");
    holds(&["dump", "a", "b"], "a session, a token and a HEX file");
    holds(&["dump", "a", "b", "c.session"], "ends in .hex");
    holds(&["dump", "there-is-no-such.session", "root", "c.hex"], "there-is-no-such.session");
}

#[test]
fn bad_files_are_status_2_with_line_and_column() {
    let text = "memory 64 entries 4\nreset nonce 1\nread root 1 tsak 7\n";
    let (status, out, error) = run(&["replay", "-"], text);
    assert_eq!((status, out.as_str()), (2, ""));
    assert!(error.contains("line 3, column 13: expected 'minute', 'task'"), "{error}");
    assert!(error.contains("found 'tsak'"), "{error}");
}

/// What is read has a bound: a file without an end is told, and does not fill the machine.
#[test]
fn files_that_are_too_long_are_status_2() {
    let (status, _, error) = run(&["replay", "/dev/zero"], "");
    assert_eq!(status, 2);
    let told = "nb: /dev/zero: expected a session file of at most 67108864 bytes, found more\n";
    assert_eq!(error, told);
    let folder = folder("bytes");
    fs::create_dir_all(&folder).expect("a folder");
    let file = folder.join("latin.session");
    fs::write(&file, b"memory 64 entries 4 # \xe9\n").expect("a file");
    let (status, _, error) = run(&["replay", &file.to_string_lossy()], "");
    assert_eq!(status, 2);
    let told = "expected text in UTF-8, found other bytes behind the first 22";
    assert!(error.contains(told), "{error}");
    let _ = fs::remove_dir_all(&folder);
}

#[test]
fn agreement_is_status_0() {
    let (status, text, _) = run(&["replay", &stored("fifteen-cases.session")], "");
    assert_eq!(status, 0);
    assert!(text.contains("16 requests, 16 with expected results: all as expected"), "{text}");
    assert!(text.contains("4 dead line, the named entry"), "{text}");
    assert!(text.contains("0 granted, child=@1:0xe5a9"), "{text}");
    let nothing = "memory 64 entries 4\nreset nonce 1\n";
    let (status, text, _) = run(&["replay", "-"], nothing);
    assert_eq!(status, 0);
    assert!(text.contains("nothing was expected"), "{text}");
}

#[test]
fn differences_are_marked_and_status_1() {
    let text = "memory 64 entries 4\nreset nonce 1 -> 0\nread root 1 -> 5\nclone root -> 0\n\
                = entry 0 count 9\nrevoke root+1 -> 0 as fresh\nread fresh 1\n";
    for by in ["proved", "model"] {
        let (status, out, _) = run(&["replay", "--by", by, "-"], text);
        assert_eq!(status, 1);
        assert!(out.contains("    3 ! read root 1"), "{out}");
        assert!(out.contains("! refusal: expected 5 (locked for another task), given 0"), "{out}");
        assert!(out.contains("! expected = entry 0 count 9"), "{out}");
        assert!(out.contains("!    given = entry 0 count 1"), "{out}");
        assert!(out.contains("not asked: nobody gave 'fresh'"), "{out}");
        assert!(out.contains("5 requests, 4 NOT AS EXPECTED"), "{out}");
        assert!(!out.contains('\x1b'), "no colours where there is no terminal");
    }
}

#[test]
fn brief_has_one_line_for_each_file() {
    let files = [stored("fifteen-cases.session"), stored("revoke.session")];
    let (status, text, _) = run(&["replay", "--brief", &files[0], &files[1]], "");
    assert_eq!((status, text.lines().count()), (0, 3), "{text}");
    assert!(text.lines().last().is_some_and(|last| last.starts_with("2 files: ")), "{text}");
}

#[test]
fn record_writes_the_sessions() {
    let folder = folder("record");
    let place = folder.join("new").to_string_lossy().into_owned();
    let (status, text, _) = run(&["record", "--stored", &place], "");
    assert_eq!(status, 0, "{text}");
    let name = "fifteen-cases.session";
    let written = fs::read(folder.join("new").join(name)).expect("a recorded session");
    assert_eq!(written, fs::read(sessions().join(name)).expect("the kept session"));
    fs::write(folder.join("file"), "").expect("a file");
    let file = folder.join("file").to_string_lossy().into_owned();
    let (status, _, error) = run(&["record", "--stored", &file], "");
    assert_eq!(status, 2);
    assert!(error.contains("expected a folder"), "{error}");
    let _ = fs::remove_dir_all(&folder);
    let (status, list, _) = run(&["record", "--list"], "");
    assert_eq!(status, 0);
    assert!(list.contains("Paper 01's session of 15 cases"), "{list}");
}

/// A user's own session becomes exact: it is replayed as it is, and no byte of it can be changed.
#[test]
fn record_makes_a_session_exact() {
    let text = "# mine\nmemory 64 entries 4\nreset nonce 1\n\
                derive root length 8 permissions R -> 0 as child  # a window\n\
                write root 05\nread child 2 -> 0\n";
    let (status, exact, error) = run(&["record", "-"], text);
    assert_eq!((status, error.as_str()), (0, ""));
    for part in ["# mine\n", "\nexact\n", "-> 0 as child=@1:0x", "# a window", "= at 0 05\n"] {
        assert!(exact.contains(part), "{part} in\n{exact}");
    }
    assert!(exact.contains("-> 0 buffer 0500\n"), "{exact}");
    assert_eq!(run(&["replay", "-"], &exact).0, 0);
    assert_eq!(run(&["record", "-"], &exact).1, exact, "recorded again it is the same");
    assert_eq!(run(&["replay", "-"], &exact.replace("= at 0 05\n", "")).0, 1);
    let (status, told, _) = run(&["record", "-"], &text.replace("2 -> 0", "2 -> 5"));
    assert_eq!(status, 1);
    assert!(told.contains("line 6: refusal: expected 5"), "{told}");
}

#[test]
fn the_version_is_told() {
    let (status, text, _) = run(&["--version"], "");
    let version = env!("CARGO_PKG_VERSION");
    assert_eq!((status, text), (0, format!("nb {version}, line protocol northbridge 5\n")));
}

#[test]
fn marks_of_other_encodings_are_told() {
    let (status, _, error) = run(&["replay", "-"], "\u{feff}memory 64 entries 4\n");
    assert_eq!(status, 2);
    assert!(error.contains("line 1, column 1") && error.contains("a byte order mark"), "{error}");
    let folder = folder("marks");
    fs::create_dir_all(&folder).expect("a folder");
    let file = folder.join("wide.session");
    fs::write(&file, b"\xff\xfem\0e\0").expect("a file");
    let (status, _, error) = run(&["replay", &file.to_string_lossy()], "");
    assert_eq!(status, 2);
    assert!(error.contains("found a byte order mark of UTF-16"), "{error}");
    let _ = fs::remove_dir_all(&folder);
}

#[test]
fn search_tells_if_there_is_no_key() {
    let text = "memory 64 entries 2\nreset key 0 0 nonce 1\nrevoke root -> 5\n";
    let (status, out, _) = run(&["search", "--keys", "50", "-"], text);
    assert_eq!(status, 1);
    assert!(out.contains("no key from 0 to 49"), "{out}");
    let (status, _, error) = run(&["search", "-"], "memory 64 entries 2\nclone root\n");
    assert_eq!(status, 2);
    assert!(error.contains("expected a reset"), "{error}");
}
