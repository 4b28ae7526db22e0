//! Any text is read or refused, and what was read is printed and read again as the same.

mod common;
use common::Dice;
use session::text::{parse, print_script};
use std::fs;
use std::path::Path;

/// The stored sessions, which have words of all kinds.
fn texts() -> Vec<String> {
    let folder = Path::new(env!("CARGO_MANIFEST_DIR")).join("../sessions");
    let files = fs::read_dir(folder).expect("the folder of sessions");
    let text = |file: fs::DirEntry| fs::read_to_string(file.path()).expect("a session");
    let mut texts: Vec<String> = files.map(|file| text(file.expect("a file"))).collect();
    texts.sort();
    texts
}

/// A text with some of its words lost, doubled, changed or exchanged.
fn changed(text: &str, dice: &mut Dice) -> String {
    let mut words: Vec<&str> = text.split_inclusive([' ', '\n']).collect();
    let other =
        ["-> ", "= ", "as ", "x=@1:2 ", "\\\n", "# ", "0x ", "- ", "é ", "root+9 ", "00*3 "];
    for _ in 0..1 + dice.below(3) {
        let [from, to] = [(); 2].map(|()| dice.below(words.len() as u64) as usize);
        match dice.below(4) {
            0 => drop(words.remove(from)),
            1 => words.insert(from, words[to]),
            2 => words.swap(from, to),
            _ => words.insert(from, other[dice.below(other.len() as u64) as usize]),
        }
    }
    words.concat()
}

#[test]
fn changed_sessions() {
    let (mut dice, texts) = (Dice(5), texts());
    let (mut read, mut refused) = (0, 0);
    for round in 0..1_000 {
        let text = changed(&texts[round % texts.len()], &mut dice);
        let Ok(script) = parse(&text) else {
            refused += 1;
            continue;
        };
        read += 1;
        let printed = print_script(&script);
        let again = parse(&printed).unwrap_or_else(|error| panic!("{error}\n{text}\n{printed}"));
        assert_eq!(print_script(&again), printed);
        assert_eq!(again.world(), script.world(), "{text}");
        assert_eq!(again.session(), script.session(), "{text}");
    }
    assert!(read > 100 && refused > 100, "{read} {refused}");
}

/// Errors point into the text.
#[test]
fn errors_lie_in_the_text() {
    let (mut dice, texts) = (Dice(6), texts());
    for round in 0..1_000 {
        let text = changed(&texts[round % texts.len()], &mut dice);
        let Err(error) = parse(&text) else {
            continue;
        };
        let line = text.lines().nth(error.line - 1).unwrap_or("");
        assert!(error.column <= line.chars().count() + 1, "{error}\n{line}");
    }
}
