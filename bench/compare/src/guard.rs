//! The proved code with each lent slice hard against an unmapped page, so that one byte read or
//! written outside ends the process.

use std::ffi::c_void;
use std::io;
use std::ptr::null_mut;
use std::str::FromStr;

use bridge::{is_plain, words_of, Lent, Reply, State, Words};
use session::server::Trouble;
use session::World;

use crate::machine::Machine;
use crate::protocol::{BUFFER, LEASES};

/// At which end of each slice the unmapped page is.
#[derive(Clone, Copy, Debug, PartialEq, Eq)]
pub enum Guard {
    Before,
    Behind,
}

impl FromStr for Guard {
    type Err = String;

    fn from_str(text: &str) -> Result<Guard, String> {
        match text {
            "before" => Ok(Guard::Before),
            "behind" => Ok(Guard::Behind),
            _ => Err(format!("expected before or behind, not '{text}'")),
        }
    }
}

/// No page is larger than this on the machines that the bench runs on.
const PAGE: usize = 65_536;

const NONE: i32 = 0;
const READ_AND_WRITE: i32 = 1 | 2;
const PRIVATE: i32 = 2;
#[cfg(target_os = "linux")]
const ANONYMOUS: i32 = 0x20;
#[cfg(not(target_os = "linux"))]
const ANONYMOUS: i32 = 0x1000;

extern "C" {
    fn mmap(
        at: *mut c_void,
        length: usize,
        rights: i32,
        flags: i32,
        fd: i32,
        from: i64,
    ) -> *mut c_void;
    fn mprotect(at: *mut c_void, length: usize, rights: i32) -> i32;
    fn munmap(at: *mut c_void, length: usize) -> i32;
}

/// Pages of which the first and the last are unmapped for reading and writing, and a slice between
/// them that touches one of the two.
struct Area {
    start: *mut u8,
    /// Of the pages between the two.
    room: usize,
    length: usize,
    guard: Guard,
}

impl Area {
    /// An area for slices of up to so many bytes.
    fn new(most: usize, guard: Guard) -> io::Result<Area> {
        let room = most.div_ceil(PAGE).max(1) * PAGE;
        let whole = room + 2 * PAGE;
        // New pages of this process alone, at a place that the system chooses.
        let start = unsafe { mmap(null_mut(), whole, NONE, PRIVATE | ANONYMOUS, -1, 0) };
        if start as isize == -1 {
            return Err(io::Error::last_os_error());
        }
        let area = Area { start: start.cast(), room, length: 0, guard };
        // The pages between the first and the last lie inside what was mapped above.
        let opened = unsafe { mprotect(area.first().cast(), room, READ_AND_WRITE) };
        match opened {
            0 => Ok(area),
            _ => Err(io::Error::last_os_error()),
        }
    }

    /// The first byte that may be read and written.
    fn first(&self) -> *mut u8 {
        // The area has two pages more than its room.
        unsafe { self.start.add(PAGE) }
    }

    fn pointer(&self) -> *mut u8 {
        match self.guard {
            Guard::Before => self.first(),
            // The length is at most the room.
            Guard::Behind => unsafe { self.first().add(self.room - self.length) },
        }
    }

    fn resize(&mut self, length: usize) {
        assert!(length <= self.room, "a slice of {length} bytes in an area of {}", self.room);
        self.length = length;
    }

    fn bytes(&self) -> &[u8] {
        // These bytes are mapped as long as the area lives, and are borrowed with it.
        unsafe { std::slice::from_raw_parts(self.pointer(), self.length) }
    }

    fn bytes_mut(&mut self) -> &mut [u8] {
        // As above, borrowed for one owner.
        unsafe { std::slice::from_raw_parts_mut(self.pointer(), self.length) }
    }

    fn put(&mut self, bytes: &[u8]) {
        self.resize(bytes.len());
        self.bytes_mut().copy_from_slice(bytes);
    }
}

impl Drop for Area {
    fn drop(&mut self) {
        // Nothing borrows the area any more.
        unsafe { munmap(self.start.cast(), self.room + 2 * PAGE) };
    }
}

/// The proved code over guarded slices.
pub struct Guarded {
    request: Area,
    state: Area,
    table: Area,
    memory: Area,
    buffer: Area,
    answer: Area,
    leases: Area,
}

impl Guarded {
    pub fn new(guard: Guard) -> io::Result<Guarded> {
        Ok(Guarded {
            request: Area::new(PAGE, guard)?,
            state: Area::new(PAGE, guard)?,
            table: Area::new(PAGE, guard)?,
            memory: Area::new((1 << 24) + PAGE, guard)?,
            buffer: Area::new(BUFFER, guard)?,
            answer: Area::new(PAGE, guard)?,
            leases: Area::new(LEASES, guard)?,
        })
    }

    /// One of the interface's functions over slices of any lengths, each put against its page; the
    /// one with leases, if they are lent. What was lent is left in the slices. It returns the refusal.
    pub fn call(&mut self, lent: [&mut [u8]; 6], leases: Option<&[u8]>) -> u64 {
        let [request, state, table, memory, buffer, answer] = lent;
        self.request.put(request);
        self.state.put(state);
        self.table.put(table);
        self.memory.put(memory);
        self.buffer.put(buffer);
        self.answer.put(answer);
        self.leases.put(leases.unwrap_or(&[]));
        let refusal = self.call_as_it_stands(leases.is_none());
        state.copy_from_slice(self.state.bytes());
        table.copy_from_slice(self.table.bytes());
        memory.copy_from_slice(self.memory.bytes());
        buffer.copy_from_slice(self.buffer.bytes());
        answer.copy_from_slice(self.answer.bytes());
        refusal
    }

    fn call_as_it_stands(&mut self, plain: bool) -> u64 {
        let request = self.request.bytes();
        let (state, table) = (self.state.bytes_mut(), self.table.bytes_mut());
        let (memory, buffer) = (self.memory.bytes_mut(), self.buffer.bytes_mut());
        let (answer, leases) = (self.answer.bytes_mut(), self.leases.bytes());
        match plain {
            true => bridge::call(request, state, table, memory, buffer, answer),
            false => bridge::call_leased(request, state, table, memory, buffer, answer, leases),
        }
    }
}

fn put_words(area: &mut Area, words: &[u64]) {
    area.resize(8 * words.len());
    bridge::put_words(area.bytes_mut(), words);
}

impl Machine for Guarded {
    fn name(&self) -> &str {
        "proved code between guard pages"
    }

    fn begin(&mut self, world: &World) -> Result<(), Trouble> {
        put_words(&mut self.state, &world.state.in_order());
        self.table.put(&world.table);
        self.memory.put(&world.memory);
        Ok(())
    }

    fn serve(&mut self, request: &Words, lent: Lent) -> Result<Reply, Trouble> {
        let Lent { buffer, leases } = lent;
        put_words(&mut self.request, &request.in_order());
        put_words(&mut self.answer, &[u64::MAX; Reply::WORDS]);
        self.buffer.put(buffer);
        self.leases.put(leases);
        let returned = self.call_as_it_stands(is_plain(request, leases));
        buffer.copy_from_slice(self.buffer.bytes());
        if self.leases.bytes() != leases {
            return Err(Trouble::Broken("the leases, which are only read, were changed".into()));
        }
        let reply = Reply::from_order(words_of(self.answer.bytes()));
        if reply.refusal != returned {
            let message = format!("returned {returned}, but the answer says {}", reply.refusal);
            return Err(Trouble::Broken(message));
        }
        Ok(reply)
    }

    fn state(&self) -> State {
        State::from_order(words_of(self.state.bytes()))
    }

    fn table(&self) -> &[u8] {
        self.table.bytes()
    }

    fn memory(&self) -> &[u8] {
        self.memory.bytes()
    }
}
