//! Stops a call after each of its instructions, as a cut would, and counts what the state buffer then is. The call
//! is that of the worked example's third record, which wakes a statement.
//!
//!     cuts

use harness::layout::{REPLY_BYTES, STATE_BYTES};
use harness::library::LIBRARY;
use std::ffi::{c_int, c_long, c_void};
use std::sync::atomic::{AtomicU8, Ordering};

const TRACE_ME: c_long = 0;
const KILL: c_long = 8;
const SINGLE_STEP: c_long = 9;
const STOP: c_int = 19;

#[repr(C)]
struct Span {
    at: *mut c_void,
    length: usize,
}

extern "C" {
    fn fork() -> c_int;
    fn raise(signal: c_int) -> c_int;
    fn ptrace(request: c_long, process: c_int, at: *mut c_void, data: *mut c_void) -> c_long;
    fn waitpid(process: c_int, status: *mut c_int, options: c_int) -> c_int;
    fn process_vm_readv(process: c_int, into: *const Span, n: usize, from: *const Span, m: usize, flags: usize)
        -> isize;
}

/// 1 while the call runs, 2 after it.
static PHASE: AtomicU8 = AtomicU8::new(0);

/// A step of the other process; whether it goes on.
fn stepped(process: c_int) -> bool {
    let (none, mut status) = (std::ptr::null_mut(), 0);
    let waited = unsafe {
        ptrace(SINGLE_STEP, process, none, none);
        waitpid(process, &mut status, 0)
    };
    waited == process && status & 0xFF == 0x7F
}

/// Reads what the other process has at these bytes' own place.
fn read(process: c_int, here: &[u8], into: &mut [u8]) {
    let span = |bytes: &[u8]| Span { at: bytes.as_ptr() as *mut c_void, length: bytes.len() };
    let count = unsafe { process_vm_readv(process, &span(into), 1, &span(here), 1, 0) };
    assert_eq!(count, here.len() as isize);
}

/// Runs the call in a process that stops after each instruction, and shows each state buffer of it.
fn each_cut(state: &mut [u8], record: &[u8], mut show: impl FnMut(&[u8])) {
    let (mut reply, none) = (vec![0; REPLY_BYTES], std::ptr::null_mut());
    let process = unsafe { fork() };
    assert!(process >= 0, "no process");
    if process == 0 {
        let traced = unsafe { ptrace(TRACE_ME, 0, none, none) } == 0;
        assert!(traced, "no leave to trace a process");
        unsafe { raise(STOP) };
        PHASE.store(1, Ordering::SeqCst);
        (LIBRARY.take)(state, record, &mut reply);
        PHASE.store(2, Ordering::SeqCst);
        loop {}
    }
    let mut status = 0;
    unsafe { waitpid(process, &mut status, 0) };
    assert_eq!(status & 0xFF, 0x7F, "the process was not stopped");
    let place = unsafe { std::slice::from_raw_parts(PHASE.as_ptr(), 1) };
    let (mut phase, mut seen) = ([0], vec![0; STATE_BYTES]);
    while phase[0] < 2 && stepped(process) {
        read(process, place, &mut phase);
        if phase[0] == 1 {
            read(process, state, &mut seen);
            show(&seen);
        }
    }
    unsafe { ptrace(KILL, process, none, none) };
    assert_eq!(phase[0], 2, "the call did not end");
}

/// The first record of a stream, which ends where its body length says, and what follows it.
fn split(stream: &[u8]) -> (&[u8], &[u8]) {
    stream.split_at(8 + usize::from(u16::from_be_bytes([stream[2], stream[3]])))
}

fn main() {
    let (mut state, mut reply) = (vec![0; STATE_BYTES], vec![0; REPLY_BYTES]);
    let (first, rest) = split(include_bytes!("../../../crates/cabinet/stdin"));
    let (second, third) = split(rest);
    (LIBRARY.fresh)(&mut state);
    for record in [first, second] {
        (LIBRARY.take)(&mut state, record, &mut reply);
    }
    let (before, mut after) = (state.clone(), state.clone());
    assert_eq!((LIBRARY.take)(&mut after, third, &mut reply), 30);
    let is_state = |bytes: &[u8]| {
        (LIBRARY.take)(&mut bytes.to_vec(), b"XX", &mut vec![0; REPLY_BYTES]) == 3
    };
    let (mut cuts, mut passing, mut strangers) = (0, 0, 0);
    each_cut(&mut state, third, |seen| {
        cuts += 1;
        if is_state(seen) {
            passing += 1;
            strangers += usize::from(seen != before && seen != after);
        }
    });
    println!("{cuts} instructions, after each of which the call was stopped");
    println!("{passing} after which the buffer passes as a state");
    println!("{strangers} ({} percent) after which it does, and is no state of the run", (strangers * 200 + cuts) / (cuts * 2));
}
