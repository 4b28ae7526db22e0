//! A copy of the model as a machine: a library that is loaded into this process.

use std::ffi::{c_char, c_int, c_void, CString};
use std::mem::transmute;
use std::os::unix::ffi::OsStrExt;
use std::path::Path;

use bridge::{Lent, Reply, State, Words};
use compare::{Machine, Trouble};
use session::World;

/// Bytes that are lent, as `loaded` has them.
#[repr(C)]
struct Part {
    start: *mut u8,
    length: usize,
}

/// The function of `loaded`.
type Serve = unsafe extern "C" fn(
    &[u64; Words::COUNT],
    &mut [u64; State::WORDS],
    &[Part; 4],
    &mut [u64; Reply::WORDS],
) -> bool;

/// It keeps its world, and remembers nothing else.
pub struct Loaded {
    serve: Serve,
    world: World,
}

impl Loaded {
    /// A copy by its function's name. Its library stays loaded until this process ends.
    pub fn new(path: &Path, function: &str) -> Loaded {
        let path = CString::new(path.as_os_str().as_bytes()).expect("a path");
        let name = CString::new(function).expect("a name");
        // The library is one that was just built from `loaded`, whose function has this type.
        let serve = unsafe {
            let library = dlopen(path.as_ptr(), NOW);
            assert!(!library.is_null(), "{path:?} cannot be loaded");
            let serve = dlsym(library, name.as_ptr());
            assert!(!serve.is_null(), "{path:?} has no {function}");
            transmute::<*mut c_void, Serve>(serve)
        };
        Loaded { serve, world: World::zeros(0, 0) }
    }
}

impl Machine for Loaded {
    fn name(&self) -> &str {
        "faulty model"
    }

    fn begin(&mut self, world: &World) -> Result<(), Trouble> {
        self.world.replace(world);
        Ok(())
    }

    fn serve(&mut self, request: &Words, lent: Lent) -> Result<Reply, Trouble> {
        let Lent { buffer, leases } = lent;
        let World { state, table, memory } = &mut self.world;
        let (words, mut kept, mut answer) =
            (request.in_order(), state.in_order(), [0; Reply::WORDS]);
        let leases = Part { start: leases.as_ptr().cast_mut(), length: leases.len() };
        let parts = [part(table), part(memory), part(buffer), leases];
        // Three slices of their own are lent for the call, and one that is only read.
        let answered = unsafe { (self.serve)(&words, &mut kept, &parts, &mut answer) };
        *state = State::from_order(kept);
        let panicked = || Trouble::Broken("the faulty model panicked".to_string());
        answered.then(|| Reply::from_order(answer)).ok_or_else(panicked)
    }

    fn state(&self) -> State {
        self.world.state
    }

    fn table(&self) -> &[u8] {
        &self.world.table
    }

    fn memory(&self) -> &[u8] {
        &self.world.memory
    }
}

fn part(bytes: &mut [u8]) -> Part {
    Part { start: bytes.as_mut_ptr(), length: bytes.len() }
}

/// All names of a library are looked up when it is loaded.
const NOW: c_int = 2;

extern "C" {
    fn dlopen(path: *const c_char, flags: c_int) -> *mut c_void;
    fn dlsym(library: *mut c_void, name: *const c_char) -> *mut c_void;
}
