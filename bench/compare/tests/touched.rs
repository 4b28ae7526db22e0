//! A byte outside a guarded slice ends the process with a line on it. The test runs itself anew, as
//! a process that ends so must be another one.

use std::env;
use std::process::Command;

use bridge::{Lent, Reply, State, Words};
use compare::{compare, run, Guard, Machine, Model, Options, Pair, Trouble};
use session::World;

const CHILD: &str = "TOUCH_A_GUARD_PAGE";

/// A machine that reads a byte of a page that is not mapped.
struct Reader;

impl Machine for Reader {
    fn name(&self) -> &str {
        "reader"
    }

    fn begin(&mut self, _: &World) -> Result<(), Trouble> {
        Ok(())
    }

    fn serve(&mut self, _: &Words, _: Lent) -> Result<Reply, Trouble> {
        // Page 0 is never mapped: the read ends by the signal that this test waits for.
        let byte = unsafe { std::ptr::without_provenance::<u8>(64).read_volatile() };
        Ok(Reply { refusal: byte.into(), ..Reply::default() })
    }

    fn state(&self) -> State {
        State::default()
    }

    fn table(&self) -> &[u8] {
        &[]
    }

    fn memory(&self) -> &[u8] {
        &[]
    }
}

#[test]
fn a_touched_page_is_told() {
    if env::var_os(CHILD).is_some() {
        touch();
        return;
    }
    let this = env::current_exe().expect("this test's program");
    let mut child = Command::new(this);
    child.args(["a_touched_page_is_told", "--exact", "--nocapture"]).env(CHILD, "1");
    let output = child.output().expect("this test anew");
    let said = String::from_utf8_lossy(&output.stderr);
    assert!(said.contains("outside a slice that was lent to it: session 0 of seed 9"), "{said}");
    assert_eq!(output.status.code(), Some(1));
}

fn touch() {
    let options = Options { requests: 1, seed: 9, ..Options::default() };
    run(&Options { guard: Some(Guard::Before), ..options.clone() }).expect("a guarded run");
    let _ = compare(&options, Pair::new(Box::new(Reader), Box::new(Model::new())));
}
