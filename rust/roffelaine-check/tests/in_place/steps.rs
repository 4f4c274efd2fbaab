//! The instructions and the stack of a piece of work, counted by single steps of
//! a child process: the same at every run, and without counters of the processor.

use super::system::{start, wait_for, State};
use std::ffi::{c_int, c_long};

const PTRACE_TRACEME: c_int = 0;
const PTRACE_PEEKUSER: c_int = 3;
const PTRACE_POKEUSER: c_int = 6;
const PTRACE_CONT: c_int = 7;
const PTRACE_SINGLESTEP: c_int = 9;
const PTRACE_SETOPTIONS: c_int = 0x4200;
/// A child ends with the process that traces it.
const PTRACE_O_EXITKILL: usize = 0x0010_0000;
/// Where the stack pointer stands for PTRACE_PEEKUSER, and the debug registers
/// for PTRACE_POKEUSER, each a word.
const STACK_POINTER: usize = 19 * WORD;
const DEBUG_REGISTERS: usize = 848;
const WORD: usize = 8;
/// What the last of them says for: stop behind a write to the eight bytes whose
/// address the first one has.
const WATCH_WRITES: usize = 1 | 1 << 16 | 2 << 18;
const SIGTRAP: c_int = 5;
const SIGSTOP: c_int = 19;
/// After so many steps the stack is looked at: what is put there, or copied, for
/// each component takes more.
const LOOKS: u64 = 64;
/// A child that may not be traced ends with this.
const NOT_TRACED: c_int = 77;

mod c {
    use super::{c_int, c_long};

    unsafe extern "C" {
        pub fn ptrace(request: c_int, ...) -> c_long;
        pub fn raise(signal: c_int) -> c_int;
    }
}

/// Asks something about a child; whether the system does it.
fn ptrace(request: c_int, child: c_int, place: usize, data: usize) -> bool {
    // SAFETY: these requests take a number as their data, and no place of this
    // process.
    unsafe { c::ptrace(request, child, place, data) == 0 }
}

/// The stack pointer of a child that stands still.
fn stack_pointer(child: c_int) -> u64 {
    // SAFETY: a number of the child's is asked for.
    unsafe { c::ptrace(PTRACE_PEEKUSER, child, STACK_POINTER, 0usize) as u64 }
}

/// What a piece of work takes.
#[derive(Clone, Copy, Debug, PartialEq, Eq)]
pub struct Count {
    pub instructions: u64,
    /// Bytes of stack below where it starts.
    pub stack: u64,
}

/// Stops this process: the mark before and behind the work.
fn mark() {
    // SAFETY: a signal to this thread.
    unsafe {
        c::raise(SIGSTOP);
    }
}

/// Starts a child that may be traced, and that stands at the mark before its
/// work; the work gives 0 where it came to what it must. None where the system
/// lets no process be traced.
fn at_the_first_mark(work: impl FnOnce() -> c_int) -> Option<c_int> {
    let child = start(|| {
        if !ptrace(PTRACE_TRACEME, 0, 0, 0) {
            return NOT_TRACED;
        }
        mark();
        let status = work();
        mark();
        status
    });
    match wait_for(child) {
        State::Stopped(SIGSTOP) => {}
        State::Exited(NOT_TRACED) => return None,
        other => panic!("the child is not at its first mark: {other:?}"),
    }
    let is_set = ptrace(PTRACE_SETOPTIONS, child, 0, PTRACE_O_EXITKILL);
    assert!(is_set, "the child would outlive the test");
    Some(child)
}

/// What a child takes for this work, with the few instructions of the marks.
pub fn count(work: impl FnOnce() -> c_int) -> Option<Count> {
    let child = at_the_first_mark(work)?;
    Some(steps_to_the_end(child))
}

/// The same from the first write to a number on: the child runs up to there
/// without steps, for which a debug register of the processor watches it. None
/// also where the system has none to watch with.
pub fn count_behind_write(number: *const u64, work: impl FnOnce() -> c_int) -> Option<Count> {
    let child = at_the_first_mark(work)?;
    let watch = |control| ptrace(PTRACE_POKEUSER, child, DEBUG_REGISTERS + 7 * WORD, control);
    let is_set = ptrace(PTRACE_POKEUSER, child, DEBUG_REGISTERS, number as usize);
    let is_watched = is_set && watch(WATCH_WRITES);
    assert!(ptrace(PTRACE_CONT, child, 0, 0), "the child does not go on");
    match wait_for(child) {
        State::Stopped(SIGTRAP) if is_watched => {}
        State::Stopped(SIGSTOP) => {
            end(child);
            return None;
        }
        other => panic!("the child is at no write: {other:?}"),
    }
    assert!(watch(0), "the number is still watched");
    Some(steps_to_the_end(child))
}

/// Lets a child go on to the mark behind its work, step by step, and then end.
fn steps_to_the_end(child: c_int) -> Count {
    let top = stack_pointer(child);
    let (mut instructions, mut lowest) = (0, top);
    loop {
        if instructions % LOOKS == 0 {
            lowest = lowest.min(stack_pointer(child));
        }
        assert!(ptrace(PTRACE_SINGLESTEP, child, 0, 0), "the child is stuck");
        match wait_for(child) {
            State::Stopped(SIGTRAP) => instructions += 1,
            State::Stopped(SIGSTOP) => break,
            other => panic!("the child is not at its second mark: {other:?}"),
        }
    }
    end(child);
    Count {
        instructions,
        stack: top - lowest,
    }
}

/// Lets a child that stands at its second mark end.
fn end(child: c_int) {
    assert!(ptrace(PTRACE_CONT, child, 0, 0), "the child does not go on");
    assert_eq!(wait_for(child), State::Exited(0), "the work went wrong");
}
