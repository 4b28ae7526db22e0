//! What a request works on, and sessions over it.

use bridge::{Lent, Reply, State, Words};

/// What a request works on: the state, the table and the memory.
#[derive(Clone, Debug, PartialEq, Eq)]
pub struct World {
    pub state: State,
    pub table: Vec<u8>,
    pub memory: Vec<u8>,
}

impl World {
    /// All zeros, as before a reset.
    pub fn zeros(table: usize, memory: usize) -> World {
        World { state: State::default(), table: vec![0; table], memory: vec![0; memory] }
    }

    /// Serves one request by the proved code.
    pub fn serve(&mut self, request: &Words, lent: Lent) -> Reply {
        bridge::serve_lent(request, &mut self.state, &mut self.table, &mut self.memory, lent)
    }

    /// Takes over another world, without giving room back.
    pub fn replace(&mut self, other: &World) {
        self.state = other.state;
        replace(&mut self.table, &other.table);
        replace(&mut self.memory, &other.memory);
    }
}

/// Puts other bytes into a vector, without giving its room back.
pub fn replace(place: &mut Vec<u8>, bytes: &[u8]) {
    place.clear();
    place.extend_from_slice(bytes);
}

/// A request and what is lent with it.
#[derive(Clone, Debug, PartialEq, Eq)]
pub struct Step {
    pub request: Words,
    pub buffer: Vec<u8>,
    pub leases: Vec<u8>,
}

impl Step {
    /// Serves it by the proved code; the buffer that it leaves is not kept.
    pub fn serve(&self, world: &mut World) -> Reply {
        let mut buffer = self.buffer.clone();
        world.serve(&self.request, Lent { buffer: &mut buffer, leases: &self.leases })
    }
}

/// A start and requests; each works on what the last one left.
#[derive(Clone, Debug, PartialEq, Eq)]
pub struct Session {
    pub world: World,
    pub steps: Vec<Step>,
}
