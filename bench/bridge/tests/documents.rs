//! README's snippet is the example, which runs; the header's texts and version are the bridge's.

use bridge::{refusal_words, Check, VERSION};

mod records {
    include!("../examples/records.rs");

    #[test]
    fn the_example_runs() {
        main().unwrap();
    }
}

/// The blocks of indented lines of a text, without their indent.
fn blocks(text: &str) -> Vec<String> {
    let mut blocks = vec![String::new()];
    for line in text.lines() {
        let last = blocks.last_mut().expect("at least one block");
        match line.strip_prefix("    ") {
            Some(code) => *last += &format!("{code}\n"),
            None if line.is_empty() && !last.is_empty() => *last += "\n",
            None => blocks.push(String::new()),
        }
    }
    blocks.iter().map(|block| block.trim_end().to_string()).collect()
}

#[test]
fn the_snippet_is_the_example() {
    let example = include_str!("../examples/records.rs");
    let readme = include_str!("../../../README.md");
    assert!(blocks(readme).iter().any(|block| block == example.trim_end()));
}

/// bench/header/run holds what the header says to this file.
#[test]
fn the_header_says_the_same() {
    let refusals = (0..=Check::LAST + 1).map(|n| format!("{n} {}\n", refusal_words(n)));
    let said: String = refusals.chain([format!("version {VERSION}\n")]).collect();
    assert_eq!(said, include_str!("../../header/calls.stdout"));
}
