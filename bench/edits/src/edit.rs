//! An edit of a crate: texts that take the places of others, by rt's rules.

use std::fs;
use std::path::Path;

/// In which file of the crate, what stands there, and what takes its place.
#[derive(Clone, Debug, PartialEq, Eq)]
pub struct Replacement {
    pub file: String,
    pub old: String,
    pub new: String,
}

/// The replacements of an edit, in order. A `file:` line holds for the pairs of `old:` and `new:`
/// behind it, and any other line is a comment.
pub fn read(text: &str) -> Result<Vec<Replacement>, String> {
    let (mut file, mut old, mut replacements) = ("", "", Vec::new());
    for line in text.split('\n') {
        if let Some(named) = line.strip_prefix("file: ") {
            file = named;
        } else if let Some(standing) = line.strip_prefix("old: ") {
            old = standing;
        } else if let Some(new) = line.strip_prefix("new:") {
            replacements.push(replacement(file, old, new)?);
            old = "";
        }
    }
    match replacements.is_empty() {
        true => Err("it has no 'old:' and 'new:' pair".to_string()),
        false => Ok(replacements),
    }
}

fn replacement(file: &str, old: &str, new: &str) -> Result<Replacement, String> {
    if file.is_empty() {
        return Err("a 'new:' line has no 'file:' line before it".to_string());
    }
    if file.starts_with('/') || file.split('/').any(|part| part == "..") {
        return Err("a 'file:' line leads out of the crate".to_string());
    }
    if !["src/", "specs/", "proofs/"].iter().any(|part| file.starts_with(part)) {
        return Err("a 'file:' line names no file under src/, specs/ or proofs/".to_string());
    }
    if old.is_empty() {
        return Err("a 'new:' line has no 'old:' text before it".to_string());
    }
    let new = new.strip_prefix(' ').unwrap_or(new);
    Ok(Replacement { file: file.to_string(), old: old.to_string(), new: new.to_string() })
}

/// Makes the replacements in a copy of the crate, one after the other.
pub fn apply(replacements: &[Replacement], copy: &Path) -> Result<(), String> {
    for one in replacements {
        let path = copy.join(&one.file);
        if !path.is_file() {
            return Err(format!("a 'file:' line names no file of the crate: {}", one.file));
        }
        let told = |error| format!("{}: {error}", one.file);
        let text = fs::read_to_string(&path).map_err(told)?;
        fs::write(&path, replaced(&text, one)?).map_err(told)?;
    }
    Ok(())
}

/// A text with the replacement made: what is old stands in it exactly once.
fn replaced(text: &str, one: &Replacement) -> Result<String, String> {
    let mut places = text.match_indices(&one.old);
    match (places.next(), places.next()) {
        (Some(_), None) => Ok(text.replacen(&one.old, &one.new, 1)),
        (None, _) => Err(format!("an 'old:' text is not in {}", one.file)),
        _ => Err(format!("an 'old:' text is in {} more than once", one.file)),
    }
}

#[cfg(test)]
mod tests {
    use super::*;
    use crate::folders::Room;

    fn one(file: &str, old: &str, new: &str) -> Replacement {
        Replacement { file: file.to_string(), old: old.to_string(), new: new.to_string() }
    }

    #[test]
    fn a_file_holds_for_the_pairs_behind_it() {
        let text = "# why\nfile: src/a.rt\nold:   x\nnew:  y\nold: z\nnew:\n\nfile: specs/B.antt\n\
                    old: 1\nnew:2\nanything else";
        let wanted =
            [one("src/a.rt", "  x", " y"), one("src/a.rt", "z", ""), one("specs/B.antt", "1", "2")];
        assert_eq!(read(text).unwrap(), wanted);
    }

    #[test]
    fn what_is_wrong_with_an_edit_is_told() {
        let wrong = |text: &str, why: &str| {
            let told = read(text).unwrap_err();
            assert!(told.contains(why), "{text:?}: {told}");
        };
        wrong("", "no 'old:' and 'new:' pair");
        wrong("# a comment\nfile: src/a.rt\nold: x\n", "no 'old:' and 'new:' pair");
        wrong("old: x\nnew: y\n", "no 'file:' line");
        wrong("file: src/a.rt\nnew: y\n", "no 'old:' text");
        wrong("file: src/a.rt\nold: \nnew: y\n", "no 'old:' text");
        wrong("file: src/a.rt\nold: x\nnew: y\nnew: z\n", "no 'old:' text");
        wrong("file: src/../../b/src/a.rt\nold: x\nnew: y\n", "leads out");
        wrong("file: /src/a.rt\nold: x\nnew: y\n", "leads out");
        wrong("file: edits/a.edit\nold: x\nnew: y\n", "under src/");
        wrong("file: src\nold: x\nnew: y\n", "under src/");
    }

    #[test]
    fn each_text_is_replaced_where_it_stands_once() {
        let room = Room::new(&std::env::temp_dir(), "apply").unwrap();
        let file = room.path().join("src/a.rt");
        fs::create_dir(room.path().join("src")).unwrap();
        let tried = |text: &str, replacements: &[Replacement]| {
            fs::write(&file, text).unwrap();
            apply(replacements, room.path()).map(|()| fs::read_to_string(&file).unwrap())
        };
        let in_order = [one("src/a.rt", "x", "y"), one("src/a.rt", "yz", "")];
        assert_eq!(tried("a xz b\n", &in_order).unwrap(), "a  b\n");
        let x = [one("src/a.rt", "x", "y")];
        assert!(tried("a\n", &x).unwrap_err().contains("is not in src/a.rt"));
        assert!(tried("x x\n", &x).unwrap_err().contains("more than once"));
        let absent = [one("src/b.rt", "x", "y")];
        assert!(tried("x\n", &absent).unwrap_err().contains("no file of the crate"));
        let folder = [one("src/", "x", "y")];
        assert!(tried("x\n", &folder).unwrap_err().contains("no file of the crate"));
    }
}
