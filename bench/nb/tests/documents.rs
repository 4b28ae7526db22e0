//! docs/SESSIONS.md: its examples go as they say, and its list is that of the stored sessions.

use std::fs;
use std::path::Path;

use nb_tool::stored;
use session::play::goes_as_expected;
use session::server::{Model, Proved};
use session::text::parse;

fn document() -> String {
    let path = Path::new(env!("CARGO_MANIFEST_DIR")).join("../../docs/SESSIONS.md");
    fs::read_to_string(path).expect("docs/SESSIONS.md")
}

#[test]
fn its_examples_go_as_expected() {
    let document = document();
    let blocks = document.split("```session\n").skip(1);
    let examples: Vec<&str> = blocks.filter_map(|block| block.split("```").next()).collect();
    assert!(examples.len() >= 5);
    for example in examples {
        let script = parse(example).unwrap_or_else(|error| panic!("{error}\n{example}"));
        assert!(goes_as_expected(&script, &mut Proved), "{example}");
        assert!(goes_as_expected(&script, &mut Model), "{example}");
    }
}

#[test]
fn it_lists_every_stored_session() {
    let document = document();
    let listed = document.lines().skip_while(|line| !line.starts_with("| Session |")).skip(2);
    let wanted = stored::all();
    let wanted = wanted.iter().map(|one| format!("| `{}` | {} |", one.name, one.about()));
    assert!(listed.eq(wanted), "'nb record --list' has another list than docs/SESSIONS.md");
}
