//! The crates of the repository, as crates.txt lists them.

/// A crate, and those that it stands on.
#[derive(Clone, Debug, PartialEq, Eq)]
pub struct Listed {
    pub name: String,
    pub below: Vec<String>,
}

/// Reads `NAME: BELOW BELOW` lines, with `staticlib` behind the name of a static library; what stands
/// behind `#` is a comment.
pub fn read(text: &str) -> Result<Vec<Listed>, String> {
    let lines = text.lines().map(|line| line.split('#').next().unwrap_or("").trim());
    lines.filter(|line| !line.is_empty()).map(listed).collect()
}

fn listed(line: &str) -> Result<Listed, String> {
    let parts = line.split_once(':');
    let (name, below) =
        parts.ok_or_else(|| format!("crates.txt: expected NAME: BELOW .., not {line}"))?;
    let below = below.split_whitespace().map(str::to_string).collect();
    let name = name.strip_suffix(" staticlib").unwrap_or(name).trim().to_string();
    Ok(Listed { name, below })
}

#[cfg(test)]
mod tests {
    use super::*;

    #[test]
    fn crates_with_and_without_others_below() {
        let crates = read("# all\nbits:\n\nhex staticlib: bits  tokens # two\n").unwrap();
        let listed = |name: &str, below: &[&str]| Listed {
            name: name.to_string(),
            below: below.iter().map(|one| one.to_string()).collect(),
        };
        assert_eq!(crates, [listed("bits", &[]), listed("hex", &["bits", "tokens"])]);
        assert!(read("bits\n").unwrap_err().contains("NAME: BELOW"));
    }
}
