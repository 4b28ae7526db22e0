//! What a check of an edited crate came to.

/// Of these only `Refused` is as it must be.
#[derive(Clone, Debug, PartialEq, Eq)]
pub enum Judged {
    /// Refused, with the place of the first error where one is told.
    Refused(Option<String>),
    /// The crate is still proved.
    Passed,
    /// Its first error stands in a definition: it isn't well typed, and no law was asked.
    NoDefinition(String),
    /// It is no edit, or did not reach the prover.
    Bad(String),
}

/// Judges by rt's rules the exit status and what was said, in which paths begin at the crate's
/// folder.
pub fn judge(status: Option<i32>, said: &str) -> Judged {
    match status {
        Some(1) if said.lines().any(|line| line.starts_with("logic=not-proved")) => refused(said),
        Some(0) => Judged::Passed,
        _ => Judged::Bad(unreached(status, said)),
    }
}

fn refused(said: &str) -> Judged {
    match first(said) {
        Some(place) if place.starts_with("specs/") => Judged::NoDefinition(place),
        place => Judged::Refused(place),
    }
}

/// The place of the first error, or else of the first note that begins with a place.
fn first(said: &str) -> Option<String> {
    let error = |line: &str| line.split_once(": error").map(|(place, _)| place.to_string());
    let whole = |place: &String| !place.contains(' ');
    let errors = said.lines().filter_map(error).find(whole);
    errors.or_else(|| said.lines().find_map(noted))
}

/// The place in `note: FILE:LINE:COLUMN: ..`.
fn noted(line: &str) -> Option<String> {
    let place = line.strip_prefix("note: ")?.split(' ').next()?.strip_suffix(':')?;
    let mut parts = place.rsplitn(3, ':');
    let is_number = |part: &str| !part.is_empty() && part.bytes().all(|one| one.is_ascii_digit());
    let numbers = parts.next().is_some_and(is_number) && parts.next().is_some_and(is_number);
    (numbers && parts.next().is_some()).then(|| place.to_string())
}

fn unreached(status: Option<i32>, said: &str) -> String {
    let ended = status.map_or("a signal".to_string(), |status| format!("exit {status}"));
    let lines: Vec<&str> = said.lines().take(5).collect();
    format!("it did not reach the prover ({ended}); the first lines said:\n{}", lines.join("\n"))
}

#[cfg(test)]
mod tests {
    use super::*;

    const REFUSED: &str = "warning: none\nproofs/A.antt:1:2: error: no\nspecs/B.antt:3:4: error: \
                           no\nlogic=not-proved functions=1\n";

    #[test]
    fn a_refusal_tells_its_first_error() {
        let place = |place: &str| Judged::Refused(Some(place.to_string()));
        assert_eq!(judge(Some(1), REFUSED), place("proofs/A.antt:1:2"));
        let noted = "note: that is so: 1\nnote: src/a.rt:1:2: no\nlogic=not-proved\n";
        assert_eq!(judge(Some(1), noted), place("src/a.rt:1:2"));
        assert_eq!(judge(Some(1), "logic=not-proved\n"), Judged::Refused(None));
    }

    #[test]
    fn an_error_in_a_definition_is_no_refusal() {
        let said = "specs/B.antt:3:4: error: no\nproofs/A.antt:1:2: error: no\nlogic=not-proved\n";
        assert_eq!(judge(Some(1), said), Judged::NoDefinition("specs/B.antt:3:4".to_string()));
    }

    #[test]
    fn a_proved_crate_and_a_broken_one_are_no_refusals() {
        assert_eq!(judge(Some(0), "logic=proved\n"), Judged::Passed);
        let bad = |status, said| match judge(status, said) {
            Judged::Bad(why) => why,
            other => panic!("{other:?}"),
        };
        assert!(bad(Some(1), "src/a.rt:1:2: error: no type\n").contains("no type"));
        assert!(bad(Some(2), REFUSED).contains("exit 2"));
        assert!(bad(Some(3), "rattle: no verdict\n").contains("exit 3"));
        assert!(bad(None, "").contains("a signal"));
        assert!(bad(Some(1), "said: logic=not-proved\n").contains("did not reach"));
    }
}
