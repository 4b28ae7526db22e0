//! 02, paper 3: "For all tables reached from reset the kept total equals a full count." And no total
//! leaves its limits, whatever was handed over.

use std::cell::Cell;
use std::rc::Rc;

use bridge::{Lent, Operation, Reply, State, Words};
use compare::{compare, Machine, Model, Options, Pair, Proved, Trouble};
use session::entry::{Entry, SIZE};
use session::World;

/// A machine whose total is compared with a count of its table, from each granted reset on. How often
/// that was done is counted.
struct Counted<M> {
    machine: M,
    from_reset: bool,
    times: Rc<Cell<usize>>,
}

fn free_numbers(table: &[u8]) -> u64 {
    (1..table.len() / SIZE).filter(|number| Entry::of(table, *number).is_free()).count() as u64
}

impl<M: Machine> Machine for Counted<M> {
    fn name(&self) -> &str {
        "counted machine"
    }

    fn begin(&mut self, world: &World) -> Result<(), Trouble> {
        self.from_reset = false;
        self.machine.begin(world)
    }

    fn serve(&mut self, request: &Words, lent: Lent) -> Result<Reply, Trouble> {
        let before = self.state();
        let reply = self.machine.serve(request, lent)?;
        let (after, entries) = (self.state(), (self.table().len() / SIZE) as u64);
        self.from_reset |= request.operation == Operation::Reset as u64 && reply.refusal == 0;
        if reply.refusal == 0 {
            assert!(after.total < entries, "{before}, {request:?}: {after}");
        }
        if self.from_reset {
            self.times.set(self.times.get() + 1);
            assert_eq!(after.total, free_numbers(self.table()), "{before}, {request:?}: {after}");
        }
        Ok(reply)
    }

    fn state(&self) -> State {
        self.machine.state()
    }

    fn table(&self) -> &[u8] {
        self.machine.table()
    }

    fn memory(&self) -> &[u8] {
        self.machine.memory()
    }
}

fn counted<M>(machine: M) -> (Counted<M>, Rc<Cell<usize>>) {
    let times = Rc::new(Cell::new(0));
    (Counted { machine, from_reset: false, times: times.clone() }, times)
}

#[test]
fn from_reset_on_the_total_is_a_full_count() {
    let ((proved, times), (model, _)) = (counted(Proved::new()), counted(Model::new()));
    let pair = Pair::new(Box::new(proved), Box::new(model));
    let options = Options { requests: 200_000, seed: 4, ..Options::default() };
    assert!(compare(&options, pair).expect("a run").found.is_none());
    assert!(times.get() > 50_000, "{times:?}");
}
