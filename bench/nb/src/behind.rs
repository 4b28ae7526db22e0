//! One request more behind those of a session: for a load or a dump of a file.

use crate::outcome::Failure;
use bridge::{Operation, Task, Token, Words};
use session::play::{Played, Player};
use session::server::Proved;
use session::text::{self, Ask, Script};
use session::Step;

/// A load or a dump through a token as sessions write it: a name, `root`, `@NUMBER:TAG` or a number.
pub fn ask(operation: Operation, token: &str, task: u64, buffer: Vec<u8>) -> Result<Ask, Failure> {
    let request = Words::access(operation, Token::ROOT, Task(task));
    let Some(token) = text::token(token, 0) else {
        let expected = "a token: 'root', a name that the session gives, '@NUMBER:TAG' or a number";
        let name = operation.name();
        return Err(Failure::Input(format!("{name}: expected {expected}, found '{token}'")));
    };
    Ok(Ask { token, ..Ask::of(&Step { request, buffer, leases: Vec::new() }) })
}

/// Asks the requests of a session, which must go as it says, and then one more.
pub fn play(file: &str, script: &Script, more: &Ask) -> Result<Played, Failure> {
    let mut server = Proved;
    let mut player = Player::new(script, &mut server);
    for ask in &script.asks {
        let as_said = player.play(ask).is_ok_and(|played| played.differences.is_empty());
        if !as_said {
            let line = ask.line;
            return Err(Failure::Input(format!(
                "{file}: expected a session that goes as it says, and line {line} does not; \
                 'nb replay' tells more"
            )));
        }
    }
    player.play(more).map_err(|no_answer| Failure::Input(format!("{file}: {no_answer}")))
}
