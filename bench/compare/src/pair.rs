//! Two machines that get the same requests, compared after each of them.

use bridge::{Lent, Reply, State};
use session::{replace, Session, Step, World};

use crate::difference::Difference;
use crate::machine::Machine;

/// The proved code and another machine.
pub struct Pair {
    pub reference: Box<dyn Machine>,
    pub other: Box<dyn Machine>,
    mine: Vec<u8>,
    theirs: Vec<u8>,
}

impl Pair {
    pub fn new(reference: Box<dyn Machine>, other: Box<dyn Machine>) -> Pair {
        Pair { reference, other, mine: Vec::new(), theirs: Vec::new() }
    }

    /// Hands the same world to both.
    pub fn begin(&mut self, world: &World) -> Result<(), Difference> {
        let begun = self.reference.begin(world).and_then(|()| self.other.begin(world));
        begun.map_err(Difference::Trouble)
    }

    /// Serves one request on both. Refusal with place, tokens, drop's number, a text's length, state
    /// and every byte of table, memory and buffer must be the same; and a refusal must leave all as
    /// it was.
    pub fn ask(&mut self, step: &Step) -> Result<Reply, Difference> {
        let Step { request, buffer, leases } = step;
        replace(&mut self.mine, buffer);
        replace(&mut self.theirs, buffer);
        let before = self.reference.state();
        let mine = self.reference.serve(request, Lent { buffer: &mut self.mine, leases });
        let mine = mine.map_err(Difference::Trouble)?;
        if mine.refusal != 0 {
            self.unchanged(&mine, before, buffer)?;
        }
        let theirs = self.other.serve(request, Lent { buffer: &mut self.theirs, leases });
        let theirs = theirs.map_err(Difference::Trouble)?;
        if mine != theirs {
            return Err(Difference::Reply([mine, theirs]));
        }
        self.same().map_or(Ok(mine), Err)
    }

    /// After a refusal by the proved code, before the other machine is asked: the other still has
    /// what both had before, so that no copy is needed.
    fn unchanged(&self, reply: &Reply, before: State, buffer: &[u8]) -> Result<(), Difference> {
        let given = [reply.first, reply.second, reply.dropped, reply.length];
        let parts = [
            (given == [0; 4], "answer's tokens, number or length"),
            (self.reference.state() == before, "state"),
            (self.reference.table() == self.other.table(), "table"),
            (self.reference.memory() == self.other.memory(), "memory"),
            (self.mine == buffer, "buffer"),
        ];
        match parts.iter().find(|(kept, _)| !kept) {
            Some((_, part)) => Err(Difference::Changed(part)),
            None => Ok(()),
        }
    }

    fn same(&self) -> Option<Difference> {
        let (mine, theirs) = (self.reference.state(), self.other.state());
        if mine != theirs {
            return Some(Difference::State([mine, theirs]));
        }
        Difference::of_bytes("table", self.reference.table(), self.other.table())
            .or_else(|| Difference::of_bytes("buffer", &self.mine, &self.theirs))
            .or_else(|| {
                Difference::of_bytes("memory", self.reference.memory(), self.other.memory())
            })
    }

    /// Plays a session; the number of the request that shows a difference, and the difference.
    pub fn play(&mut self, session: &Session) -> Option<(usize, Difference)> {
        if let Err(difference) = self.begin(&session.world) {
            return Some((0, difference));
        }
        let mut steps = session.steps.iter().enumerate();
        steps.find_map(|(at, step)| self.ask(step).err().map(|difference| (at, difference)))
    }
}
