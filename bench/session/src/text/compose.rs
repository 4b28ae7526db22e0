//! A session as a script, with names for the tokens that it gives.

use super::change::changes;
use super::lines::Comments;
use super::named::{Names, Word};
use super::script::{Ask, Expected, Script, Sizes, Standing, Start};
use super::state::StatedState;
use crate::token::Token;
use crate::world::{Session, World};
use bridge::{Argument, Operation, Reply, State};

impl Script {
    pub fn of(session: &Session) -> Script {
        let World { table, memory, .. } = &session.world;
        let sizes = Sizes { table: table.len(), memory: memory.len() };
        let start = start_of(&session.world).into_iter();
        Script {
            head: Comments::default(),
            sizes,
            start: start
                .map(|standing| Start { comments: Comments::default(), standing })
                .collect(),
            exact: false,
            asks: session.steps.iter().map(Ask::of).collect(),
            below: Vec::new(),
        }
    }

    /// Expects these replies, names the tokens that they give, and uses the names from there on.
    pub fn name_tokens(&mut self, replies: &[Reply]) {
        let mut given: Vec<(String, u64)> = Vec::new();
        for (at, (ask, reply)) in self.asks.iter_mut().zip(replies).enumerate() {
            ask.use_names(&given);
            let [first, second] = token_names(ask.words.operation, at + 1);
            let names = [first, second.filter(|_| reply.second != 0)];
            let expected = Expected::of(ask.words.operation, reply, names);
            given.extend(expected.named_tokens());
            ask.expected = Some(expected);
        }
    }
}

/// All that is not zero in a world. A state is stated whole.
fn start_of(world: &World) -> Vec<Standing> {
    let zeros = World::zeros(world.table.len(), world.memory.len());
    let state = (world.state != State::default()).then(|| StatedState::all(&world.state));
    let rest = changes(&World { state: world.state, ..zeros }, world);
    state.map(Standing::State).into_iter().chain(rest).collect()
}

impl Ask {
    /// Writes the tokens by the names that were given last for them.
    fn use_names(&mut self, given: &[(String, u64)]) {
        let Ok(words) = self.resolve(&Names::new()) else {
            return;
        };
        let Some(operation) = Operation::of(self.words.operation) else {
            return;
        };
        if operation.names_entry() {
            self.token = named(words.token, given);
        }
        if operation.takes(Argument::SecondToken) {
            self.second = named(words.second, given);
        }
        self.leases.rename(|word| named(word, given));
    }
}

impl Expected {
    fn named_tokens(&self) -> Vec<(String, u64)> {
        let tokens = [self.first, self.second];
        let both = self.names.iter().cloned().zip(tokens);
        both.filter_map(|(name, token)| Some((name?, token?))).collect()
    }
}

/// The names that an operation's tokens get: what they name, with the request's number.
fn token_names(operation: u64, at: usize) -> [Option<String>; 2] {
    let tokens = Operation::of(operation).map_or(&[][..], Operation::tokens);
    [0, 1].map(|which| tokens.get(which).map(|name| format!("{name}{at}")))
}

/// A token by the name that was given last for the same entry.
fn named(word: u64, given: &[(String, u64)]) -> Word {
    let token = Token::unpack(word);
    let same = |given: &&(String, u64)| {
        Token::unpack(given.1).same(&token)
            && !token.is_root()
            && Token::unpack(given.1).offset == 0
    };
    match given.iter().rev().find(same) {
        Some((name, given)) => Word::Name {
            name: name.clone(),
            encoding: Some(token.encoding).filter(|own| *own != Token::unpack(*given).encoding),
            offset: token.offset,
        },
        None => Word::Number(word),
    }
}
