//! The words behind a command: options, their values, and the rest.

use std::time::Duration;

use crate::outcome::Failure;
use compare::WAIT;
use session::text;

/// Options are taken out by their names; what is left at the end is the rest.
pub struct Arguments {
    command: &'static str,
    words: Vec<String>,
    /// What stands behind `--`, which has no options.
    behind: Vec<String>,
}

impl Arguments {
    pub fn new(command: &'static str, mut words: Vec<String>) -> Arguments {
        let behind = match words.iter().position(|word| word == "--") {
            Some(at) => words.split_off(at).split_off(1),
            None => Vec::new(),
        };
        Arguments { command, words, behind }
    }

    /// Whether an option without a value is given.
    pub fn flag(&mut self, name: &str) -> bool {
        let given = self.words.len();
        self.words.retain(|word| word != name);
        self.words.len() < given
    }

    /// The value of an option, as `--name VALUE` or `--name=VALUE`.
    pub fn value(&mut self, name: &str) -> Result<Option<String>, Failure> {
        let same = |word: &String| {
            word == name || word.strip_prefix(name).is_some_and(|rest| rest.starts_with('='))
        };
        let Some(at) = self.words.iter().position(same) else {
            return Ok(None);
        };
        let word = self.words.remove(at);
        let value = match word.split_once('=') {
            Some((_, value)) => value.to_string(),
            None if at < self.words.len() => self.words.remove(at),
            None => return Err(self.failure(&format!("a value behind {name}"), "nothing")),
        };
        match self.words.iter().any(same) {
            true => Err(self.failure(&format!("{name} once"), "it twice")),
            false => Ok(Some(value)),
        }
    }

    /// The value of an option as a number, decimal or hex behind 0x.
    pub fn number(&mut self, name: &str) -> Result<Option<u64>, Failure> {
        let Some(value) = self.value(name)? else {
            return Ok(None);
        };
        let number = text::number(&value);
        number.map(Some).ok_or_else(|| self.failure(&format!("a number behind {name}"), &value))
    }

    /// How long a simulator may take for an answer: `--wait SECONDS`, at least one.
    pub fn wait(&mut self) -> Result<Duration, Failure> {
        match self.number("--wait")? {
            None => Ok(WAIT),
            Some(0) => Err(self.failure("at least 1 second behind --wait", "0")),
            Some(seconds) => Ok(Duration::from_secs(seconds)),
        }
    }

    /// What is left. An option that nobody took is unknown.
    pub fn rest(self) -> Result<Vec<String>, Failure> {
        let unknown = self.words.iter().find(|word| word.starts_with('-') && *word != "-");
        match unknown {
            Some(word) => Err(self.failure("an option that it has", word)),
            None => Ok(self.words.into_iter().chain(self.behind).collect()),
        }
    }

    fn failure(&self, expected: &str, found: &str) -> Failure {
        let command = self.command;
        Failure::Input(format!(
            "{command}: expected {expected}, found {found}; 'nb {command} --help' tells more"
        ))
    }
}

#[cfg(test)]
mod tests {
    use super::*;

    fn arguments(line: &str) -> Arguments {
        Arguments::new("test", line.split(' ').map(str::to_string).collect())
    }

    #[test]
    fn flags_values_and_the_rest() {
        let mut given = arguments("a --map --seed 0x10 --by=model b - -- --c");
        assert!(given.flag("--map") && !given.flag("--brief"));
        assert_eq!(given.number("--seed").unwrap(), Some(16));
        assert_eq!(given.value("--by").unwrap().as_deref(), Some("model"));
        assert_eq!(given.number("--requests").unwrap(), None);
        assert_eq!(given.rest().unwrap(), ["a", "b", "-", "--c"]);
    }

    #[test]
    fn what_is_wrong_is_told() {
        assert!(arguments("--seed").number("--seed").is_err());
        assert!(arguments("--seed x").number("--seed").is_err());
        assert!(arguments("--seed 1 --seed 2").number("--seed").is_err());
        let unknown = arguments("--sed 1").rest().unwrap_err().to_string();
        assert!(unknown.contains("--sed") && unknown.contains("expected"));
    }
}
