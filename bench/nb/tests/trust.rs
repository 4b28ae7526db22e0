//! docs/TRUST.md: each file that it names is there, with as many lines as it says.

use std::fs;
use std::path::{Path, PathBuf};

fn root() -> PathBuf {
    Path::new(env!("CARGO_MANIFEST_DIR")).join("../..")
}

/// The file and the lines of a row that names them.
fn row(line: &str) -> Option<(&str, usize)> {
    let (path, rest) = line.strip_prefix("| `")?.split_once("` | ")?;
    let (lines, _) = rest.split_once(" |")?;
    Some((path, lines.parse().ok()?))
}

#[test]
fn files_have_the_lines_that_it_says() {
    let document = fs::read_to_string(root().join("docs/TRUST.md")).expect("docs/TRUST.md");
    let rows: Vec<_> = document.lines().filter_map(row).collect();
    assert!(rows.len() >= 20);
    for (path, lines) in rows {
        let text = fs::read_to_string(root().join("crates").join(path)).expect(path);
        assert_eq!(text.lines().count(), lines, "{path}");
    }
}
