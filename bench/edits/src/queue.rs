//! Crates and their edits, shared by workers: none waits while there is something to do.

use std::collections::VecDeque;
use std::sync::{Condvar, Mutex};

/// What a worker takes in hand.
#[derive(Clone, Debug, PartialEq, Eq)]
pub enum Next<C, E> {
    Crate(C),
    Edit(E),
}

#[derive(Debug)]
pub struct Queue<C, E> {
    work: Mutex<Work<C, E>>,
    changed: Condvar,
}

#[derive(Debug)]
struct Work<C, E> {
    crates: VecDeque<C>,
    /// Those of crates that are ready.
    edits: VecDeque<E>,
    /// How many crates are at hand, whose edits are still to come.
    at_hand: usize,
}

impl<C, E> Queue<C, E> {
    pub fn new(crates: Vec<C>) -> Queue<C, E> {
        let work = Work { crates: crates.into(), edits: VecDeque::new(), at_hand: 0 };
        Queue { work: Mutex::new(work), changed: Condvar::new() }
    }

    /// An edit of a crate that is ready, or else the next crate; none once all is taken. Whoever
    /// takes a crate calls `ready` for it.
    pub fn next(&self) -> Option<Next<C, E>> {
        let mut work = self.work.lock().expect("the queue");
        loop {
            if let Some(edit) = work.edits.pop_front() {
                return Some(Next::Edit(edit));
            }
            if let Some(one) = work.crates.pop_front() {
                work.at_hand += 1;
                return Some(Next::Crate(one));
            }
            if work.at_hand == 0 {
                return None;
            }
            work = self.changed.wait(work).expect("the queue");
        }
    }

    /// A crate is ready, with these edits to try.
    pub fn ready(&self, edits: Vec<E>) {
        let mut work = self.work.lock().expect("the queue");
        work.at_hand -= 1;
        work.edits.extend(edits);
        self.changed.notify_all();
    }
}

#[cfg(test)]
mod tests {
    use super::*;
    use std::thread;

    #[test]
    fn edits_come_before_further_crates() {
        let queue = Queue::new(vec!["a", "b"]);
        assert_eq!(queue.next(), Some(Next::Crate("a")));
        queue.ready(vec![1, 2]);
        let rest = [Next::Edit(1), Next::Edit(2), Next::Crate("b")];
        assert_eq!([queue.next(), queue.next(), queue.next()], rest.map(Some));
        queue.ready(vec![]);
        assert_eq!(queue.next(), None);
    }

    #[test]
    fn whoever_finds_nothing_waits_for_a_crate_at_hand() {
        let queue = Queue::new(vec!["a"]);
        assert_eq!(queue.next(), Some(Next::Crate("a")));
        thread::scope(|scope| {
            let waiting = scope.spawn(|| queue.next());
            queue.ready(vec![1]);
            assert_eq!(waiting.join().expect("a worker"), Some(Next::Edit(1)));
        });
        assert_eq!(queue.next(), None);
    }
}
