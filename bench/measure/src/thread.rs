//! A thread on a stack of our own, painted before, so that afterwards one sees how deep it went.

use std::ffi::c_void;
use std::io;
use std::ptr::{self, NonNull};

/// What an untouched byte of the stack holds.
const PAINT: u8 = 0xb7;
const PAGE: usize = 4_096;

const READ_WRITE: i32 = 3; // PROT_READ and PROT_WRITE
const NOTHING: i32 = 0; // PROT_NONE
const PRIVATE_ANONYMOUS: i32 = 0x22; // MAP_PRIVATE and MAP_ANONYMOUS

/// Room for pthread_attr_t, of 56 bytes in glibc.
#[repr(C, align(16))]
struct Attributes([u8; 128]);

type Routine = extern "C" fn(*mut c_void) -> *mut c_void;

extern "C" {
    fn mmap(
        at: *mut c_void,
        size: usize,
        access: i32,
        kind: i32,
        file: i32,
        from: i64,
    ) -> *mut c_void;
    fn mprotect(at: *mut c_void, size: usize, access: i32) -> i32;
    fn munmap(at: *mut c_void, size: usize) -> i32;
    fn pthread_attr_init(attributes: *mut Attributes) -> i32;
    fn pthread_attr_setstack(attributes: *mut Attributes, at: *mut c_void, size: usize) -> i32;
    fn pthread_attr_destroy(attributes: *mut Attributes) -> i32;
    fn pthread_create(
        thread: *mut usize,
        attributes: *const Attributes,
        routine: Routine,
        job: *mut c_void,
    ) -> i32;
    fn pthread_join(thread: usize, result: *mut *mut c_void) -> i32;
}

/// A painted stack, with a page below it that nobody may touch.
pub struct Stack {
    mapped: NonNull<u8>,
    size: usize,
}

impl Stack {
    /// A stack of so many bytes, a multiple of the page's size.
    pub fn new(size: usize) -> io::Result<Stack> {
        // A new mapping is asked for, at no place in particular.
        let mapped =
            unsafe { mmap(ptr::null_mut(), size + PAGE, READ_WRITE, PRIVATE_ANONYMOUS, -1, 0) };
        if mapped as isize == -1 {
            return Err(io::Error::last_os_error());
        }
        let mapped = NonNull::new(mapped.cast()).ok_or_else(io::Error::last_os_error)?;
        let stack = Stack { mapped, size };
        // The first page is the mapping's own.
        match unsafe { mprotect(mapped.as_ptr().cast(), PAGE, NOTHING) } {
            0 => Ok(stack),
            _ => Err(io::Error::last_os_error()),
        }
    }

    /// The lowest byte above the guard page.
    fn bottom(&self) -> *mut u8 {
        // The mapping has a page more than the stack.
        unsafe { self.mapped.as_ptr().add(PAGE) }
    }

    fn paint(&mut self) {
        // No thread runs on the stack while it is borrowed; the bytes are all mapped.
        unsafe { ptr::write_bytes(self.bottom(), PAINT, self.size) }
    }

    /// Runs the routine on the freshly painted stack. Gives the lowest address that it wrote to.
    pub fn run<Job>(&mut self, routine: Routine, job: &mut Job) -> io::Result<usize> {
        self.paint();
        let mut attributes = Attributes([0; 128]);
        let mut thread = 0;
        // The stack outlives the thread, which is joined here, and so does the job.
        unsafe {
            status(pthread_attr_init(&mut attributes))?;
            status(pthread_attr_setstack(&mut attributes, self.bottom().cast(), self.size))?;
            let job: *mut Job = job;
            status(pthread_create(&mut thread, &attributes, routine, job.cast()))?;
            status(pthread_join(thread, ptr::null_mut()))?;
            status(pthread_attr_destroy(&mut attributes))?;
        }
        // The thread has ended, and all bytes were painted.
        let bytes = unsafe { std::slice::from_raw_parts(self.bottom(), self.size) };
        let touched = bytes.iter().position(|byte| *byte != PAINT).unwrap_or(self.size);
        Ok(self.bottom() as usize + touched)
    }
}

impl Drop for Stack {
    fn drop(&mut self) {
        // The mapping is ours alone, and no thread runs on it any more.
        unsafe { munmap(self.mapped.as_ptr().cast(), self.size + PAGE) };
    }
}

/// The calls for threads return 0 where they succeed, else the error's number.
fn status(returned: i32) -> io::Result<()> {
    match returned {
        0 => Ok(()),
        number => Err(io::Error::from_raw_os_error(number)),
    }
}
