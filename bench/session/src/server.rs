//! Who serves requests: the proved code and the model, in this process, or whatever else is attached.
//! Here alone the model's types stand beside the wrapper's.

use bridge::{Lent, Reply, State, Words};

use crate::world::World;

/// Why a server gave no answer.
#[derive(Clone, Debug, PartialEq, Eq)]
pub enum Trouble {
    /// It ended, or its answer cannot be read.
    Broken(String),
    /// It kept silent for too long.
    Silent(String),
}

impl Trouble {
    pub fn message(&self) -> &str {
        match self {
            Trouble::Broken(message) | Trouble::Silent(message) => message,
        }
    }
}

/// How many bytes can be lent with a request at most.
#[derive(Clone, Copy, Debug, PartialEq, Eq)]
pub struct Longest {
    pub buffer: usize,
    pub leases: usize,
}

/// Whoever serves requests: the proved code, the model, a simulator.
pub trait Server {
    /// Takes over what stands at a session's start; nothing to do for one that keeps no world.
    fn begin(&mut self, _: &World) -> Result<(), Trouble> {
        Ok(())
    }

    /// How many bytes a buffer may have at most that is lent to it, and how many leases.
    fn longest(&self) -> Longest {
        Longest { buffer: usize::MAX, leases: usize::MAX }
    }

    /// Serves one request over the world, which is as the last one left it.
    fn serve(&mut self, request: &Words, world: &mut World, lent: Lent) -> Result<Reply, Trouble>;
}

/// The proved code.
pub struct Proved;

impl Server for Proved {
    fn serve(&mut self, request: &Words, world: &mut World, lent: Lent) -> Result<Reply, Trouble> {
        Ok(world.serve(request, lent))
    }
}

/// The second implementation.
pub struct Model;

impl Server for Model {
    fn serve(&mut self, request: &Words, world: &mut World, lent: Lent) -> Result<Reply, Trouble> {
        let World { state, table, memory } = world;
        let Lent { buffer, leases } = lent;
        let mut kept = model_state(state);
        let answer = model::serve(model_request(request), &mut kept, table, memory, buffer, leases);
        *state = state_of_model(&kept);
        Ok(reply_of_model(&answer))
    }
}

/// A request as the model has it.
#[inline]
pub fn model_request(request: &Words) -> model::Request {
    let Words { operation, token, second, task, length, user, permissions, encoding } = *request;
    model::Request { operation, token, second, task, length, user, permissions, encoding }
}

/// A state as the model has it.
#[inline]
pub fn model_state(state: &State) -> model::State {
    let State { key: [key0, key1], last_number: last, next_nonce: next, total } = *state;
    model::State { key0, key1, last, next, total }
}

#[inline]
pub fn state_of_model(state: &model::State) -> State {
    let model::State { key0, key1, last, next, total } = *state;
    State { key: [key0, key1], last_number: last, next_nonce: next, total }
}

#[inline]
pub fn reply_of_model(answer: &model::Answer) -> Reply {
    let model::Answer { refusal, place, first, second, dropped, length } = *answer;
    Reply { refusal, place, first, second, dropped, length }
}
