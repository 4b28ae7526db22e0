//! The proved code behind the line protocol.

use std::io::{self, BufReader, Read};

use compare::serve;

/// The answers to some lines.
fn answers(lines: &str) -> Vec<String> {
    let mut output = Vec::new();
    serve(lines.as_bytes(), &mut output).expect("a served input");
    String::from_utf8(output).expect("text").lines().map(str::to_string).collect()
}

#[test]
fn a_session_by_lines() {
    let lines = "northbridge 5\n\
        world 40 8 0 0 0 0 9\n\
        memory 2 aAbB\n\
        serve 0 5 6 1 0 0 0 0 - -\n\
        serve 1 2 0 0 0 0 0 0 000000 -\n\
        serve 1 7 0 0 0 0 0 0 1234 -\n\
        serve 1 2 168 0 0 0 0 0 000000 0000000068014803\n\
        serve 1 2 348 0 0 0 0 0 123456 0000000068014803\n\
        serve 1 2 348 0 0 0 0 0 123456 0000000068016801\n\
        serve 1 2 2760 0 0 0 0 0 123456 -\n\
        serve e 0 0 0 0 0 0 0 - -\n\
        show-table 0 20\n\
        show-memory 0 8\n\
        show-memory 8 0\n";
    let root = "200000000000002000000000000000000000000000000000003a000000000000";
    let root = root.replacen("2000000000000020", "2000000000000001", 1);
    let wanted = [
        "northbridge 5".to_string(),
        "ok".to_string(),
        "ok".to_string(),
        "answer 0 0 0 0 0 0 5 6 0 1 1 -".to_string(),
        "answer 0 0 0 0 0 0 5 6 0 1 1 aabb00".to_string(),
        "answer 8 0 0 0 0 0 5 6 0 1 1 1234".to_string(),
        "answer 0 0 0 0 0 0 5 6 0 1 1 aabb00".to_string(),
        "answer f 0 0 0 0 0 5 6 0 1 1 123456".to_string(),
        "answer 10 0 0 0 0 0 5 6 0 1 1 123456".to_string(),
        "answer 1 0 0 0 0 0 5 6 0 1 1 123456".to_string(),
        "answer e 0 0 0 0 0 5 6 0 1 1 -".to_string(),
        format!("bytes {root}"),
        "bytes 0000aabb00000000".to_string(),
        "bytes -".to_string(),
    ];
    assert_eq!(answers(lines), wanted);
}

#[test]
fn lines_that_cannot_be_read() {
    let lines =
        "hello\nserve 1 2 - -\nworld 40 8 0 0 0 0 9\ntable 3f 0000\nshow-memory 0 9\nmemory 0\n";
    let wanted = [
        "error expected northbridge, world, table, memory, serve, show-table or show-memory",
        "error expected 8 words before the last two, not 2",
        "ok",
        "error expected a place inside the world's table or memory",
        "error expected a place inside the world's table or memory",
        "error expected a place and bytes",
    ];
    assert_eq!(answers(lines), wanted);
}

/// A line that is too long is answered once, nothing of it is kept, and the next one is served.
#[test]
fn a_line_that_is_too_long() {
    let lines = io::repeat(b'x').take(1 << 24).chain(&b"\nnorthbridge 5\n"[..]);
    let mut output = Vec::new();
    serve(BufReader::new(lines), &mut output).expect("a served input");
    let wanted = "error expected a line of at most 141568 characters\nnorthbridge 5\n";
    assert_eq!(String::from_utf8_lossy(&output), wanted);
}

/// Whoever speaks another version is told so.
#[test]
fn another_version() {
    let wanted = "error expected version 5; docs/SUPPLIER.md says what changed";
    assert_eq!(answers("northbridge 3\nnorthbridge\n"), [wanted, wanted]);
}

#[test]
fn no_line_and_a_line_without_an_end() {
    assert_eq!(answers(""), Vec::<String>::new());
    assert_eq!(answers("northbridge 5"), ["northbridge 5"]);
}
