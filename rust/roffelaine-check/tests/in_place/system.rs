//! Pages that may be made read-only and child processes, asked of Linux by hand:
//! the standard library has neither.

use std::ffi::{c_int, c_void};
use std::ops::Range;

/// Bytes of a page of memory, and its numbers.
const PAGE_BYTES: usize = 4_096;
pub const PAGE: usize = PAGE_BYTES / size_of::<u64>();

const PROT_READ: c_int = 1;
const PROT_WRITE: c_int = 2;
const MAP_SHARED: c_int = 1;
const MAP_ANONYMOUS: c_int = 0x20;
/// The signal of a write to a page that may only be read.
pub const SIGSEGV: c_int = 11;

/// A child that gets so far ends with this, and none that is as it must be.
const PANICKED: c_int = 101;

mod c {
    use super::{c_int, c_void};

    unsafe extern "C" {
        pub fn mmap(
            at: *mut c_void,
            bytes: usize,
            protection: c_int,
            flags: c_int,
            file: c_int,
            offset: i64,
        ) -> *mut c_void;
        pub fn munmap(at: *mut c_void, bytes: usize) -> c_int;
        pub fn mprotect(at: *mut c_void, bytes: usize, protection: c_int) -> c_int;
        pub fn fork() -> c_int;
        pub fn waitpid(child: c_int, status: *mut c_int, options: c_int) -> c_int;
        pub fn _exit(status: c_int) -> !;
    }
}

/// A run of numbers that has its pages for itself. A child process shares them:
/// what it writes is seen here.
pub struct Run {
    start: *mut u64,
    length: usize,
}

impl Run {
    /// A run with these numbers.
    pub fn of(numbers: &[u64]) -> Self {
        let bytes = Run::bytes(numbers.len());
        let (protection, flags) = (PROT_READ | PROT_WRITE, MAP_SHARED | MAP_ANONYMOUS);
        // SAFETY: new memory at no named place takes none that is in use.
        let start = unsafe { c::mmap(std::ptr::null_mut(), bytes, protection, flags, -1, 0) };
        assert_ne!(start as isize, -1, "no memory of {bytes} bytes");
        let mut run = Run {
            start: start.cast(),
            length: numbers.len(),
        };
        run.numbers_mut().copy_from_slice(numbers);
        run
    }

    /// The bytes of the pages that so many numbers take, at least one page.
    fn bytes(length: usize) -> usize {
        PAGE_BYTES * length.div_ceil(PAGE).max(1)
    }

    pub fn numbers(&self) -> &[u64] {
        // SAFETY: the pages hold so many numbers, and no child is running that
        // writes to them: `child` waits for its end.
        unsafe { std::slice::from_raw_parts(self.start, self.length) }
    }

    pub fn numbers_mut(&mut self) -> &mut [u64] {
        // SAFETY: as above.
        unsafe { std::slice::from_raw_parts_mut(self.start, self.length) }
    }

    /// The pages in which no number of these parts lies.
    pub fn pages_without(&self, parts: &[Range<usize>]) -> Vec<usize> {
        let pages = 0..Run::bytes(self.length) / PAGE_BYTES;
        let is_clear = |page: &usize| {
            let (start, end) = (PAGE * page, PAGE * (page + 1));
            parts
                .iter()
                .all(|part| part.is_empty() || part.end <= start || end <= part.start)
        };
        pages.filter(is_clear).collect()
    }

    /// From here on some of the pages may only be read, by this process.
    pub fn protect(&self, pages: &[usize]) -> bool {
        pages.iter().all(|page| {
            // SAFETY: the page belongs to this run alone.
            unsafe {
                let at = self.start.add(PAGE * page).cast();
                c::mprotect(at, PAGE_BYTES, PROT_READ) == 0
            }
        })
    }
}

impl Drop for Run {
    fn drop(&mut self) {
        // SAFETY: the pages are those that were mapped, and nobody has them any
        // more.
        unsafe {
            c::munmap(self.start.cast(), Run::bytes(self.length));
        }
    }
}

/// How a child process stands that was waited for.
#[derive(Clone, Copy, Debug, PartialEq, Eq)]
pub enum State {
    /// It ended by itself, with this status.
    Exited(c_int),
    /// A signal ended it.
    Died(c_int),
    /// A signal stopped it for the process that traces it.
    Stopped(c_int),
}

/// Waits for a child's next state.
pub fn wait_for(child: c_int) -> State {
    let mut status = 0;
    // SAFETY: the status is written to a number of ours.
    let waited = unsafe { c::waitpid(child, &mut status, 0) };
    assert_eq!(waited, child, "the child is not waited for");
    match (status & 0x7f, status >> 8 & 0xff) {
        (0, code) => State::Exited(code),
        (0x7f, signal) => State::Stopped(signal),
        (signal, _) => State::Died(signal),
    }
}

/// Ends a child that unwinds, before it gets back into the copy of the test.
struct EndsHere;

impl Drop for EndsHere {
    fn drop(&mut self) {
        // SAFETY: ends this process at once.
        unsafe { c::_exit(PANICKED) }
    }
}

/// Starts a child process that does this work and ends with the status that it
/// gives. Other threads of the test are not there, so the work takes no lock: it
/// allocates nothing and prints nothing.
pub fn start(work: impl FnOnce() -> c_int) -> c_int {
    // SAFETY: the child does the work and ends, whatever comes of it.
    match unsafe { c::fork() } {
        -1 => panic!("no child process"),
        0 => {
            let _ends_here = EndsHere;
            let status = work();
            // SAFETY: ends this process at once.
            unsafe { c::_exit(status) }
        }
        child => child,
    }
}

/// How a child process ends that does this work.
pub fn child(work: impl FnOnce() -> c_int) -> State {
    wait_for(start(work))
}
