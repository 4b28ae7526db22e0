//! Machines that can be compared.

use bridge::{Lent, Reply, State, Words};
use session::server::{self, Server, Trouble};
use session::World;

/// A machine under comparison. It keeps state, table and memory between the requests.
pub trait Machine {
    fn name(&self) -> &str;

    /// Takes over a world, whatever stood there.
    fn begin(&mut self, world: &World) -> Result<(), Trouble>;

    /// Serves one request. What is lent is lent for the call, and the buffer keeps its length.
    fn serve(&mut self, request: &Words, lent: Lent) -> Result<Reply, Trouble>;

    /// Whether it may remember sessions before the one at hand.
    fn remembers(&self) -> bool {
        false
    }

    /// Makes it forget all sessions; nothing to do for one that remembers none.
    fn renew(&mut self) {}

    fn state(&self) -> State;

    fn table(&self) -> &[u8];

    fn memory(&self) -> &[u8];
}

/// A server of requests in this process, with a world of its own.
pub struct Local<S> {
    name: &'static str,
    server: S,
    world: World,
}

/// The proved library.
pub type Proved = Local<server::Proved>;

/// The model.
pub type Model = Local<server::Model>;

impl Proved {
    pub fn new() -> Proved {
        Local { name: "proved code", server: server::Proved, world: World::zeros(0, 0) }
    }
}

impl Model {
    pub fn new() -> Model {
        Local { name: "model", server: server::Model, world: World::zeros(0, 0) }
    }
}

impl Default for Proved {
    fn default() -> Self {
        Proved::new()
    }
}

impl Default for Model {
    fn default() -> Self {
        Model::new()
    }
}

impl<S: Server> Machine for Local<S> {
    fn name(&self) -> &str {
        self.name
    }

    fn begin(&mut self, world: &World) -> Result<(), Trouble> {
        self.world.replace(world);
        Ok(())
    }

    fn serve(&mut self, request: &Words, lent: Lent) -> Result<Reply, Trouble> {
        self.server.serve(request, &mut self.world, lent)
    }

    fn state(&self) -> State {
        self.world.state
    }

    fn table(&self) -> &[u8] {
        &self.world.table
    }

    fn memory(&self) -> &[u8] {
        &self.world.memory
    }
}
