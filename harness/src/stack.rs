//! The stack that a call needs, measured by painting it: the call runs on memory of its own, above a page
//! that nobody may touch.

use crate::library::{
    replica_begin, replica_branch, replica_can_meet, replica_fresh, replica_operation, replica_take, Addition,
};
use crate::writer::Call;
use std::arch::asm;
use std::ffi::{c_int, c_void};

extern "C" {
    fn mmap(at: *mut c_void, size: usize, access: c_int, flags: c_int, file: c_int, from: i64)
        -> *mut c_void;
    fn mprotect(at: *mut c_void, length: usize, access: c_int) -> c_int;
    fn munmap(at: *mut c_void, length: usize) -> c_int;
}

const READ_WRITE: c_int = 3;
const PRIVATE_ANONYMOUS: c_int = 0x22;
const PAGE: usize = 4096;
/// Of the stack pointer at a call.
const ALIGNMENT: usize = 16;
/// Two colours that no byte has both of.
const COLOURS: [u8; 2] = [0xA5, 0x5A];

/// A stack of whole pages with a page below it that nobody may touch.
pub struct Stack {
    map: *mut u8,
    bytes: usize,
}

impl Stack {
    pub fn new(bytes: usize) -> Stack {
        assert_eq!(bytes % PAGE, 0, "a stack of whole pages");
        let length = PAGE + bytes;
        unsafe {
            let map = mmap(std::ptr::null_mut(), length, READ_WRITE, PRIVATE_ANONYMOUS, -1, 0);
            assert!(map as isize != -1, "no memory");
            assert_eq!(mprotect(map, PAGE, 0), 0);
            Stack { map: map.cast(), bytes }
        }
    }

    fn memory(&mut self) -> &mut [u8] {
        unsafe { std::slice::from_raw_parts_mut(self.map.add(PAGE), self.bytes) }
    }

    /// Calls a function of six words, and of an addition by value, with its stack here, from the top down.
    fn call(&mut self, function: usize, words: [usize; 6], addition: Option<Addition>) -> u64 {
        let mut top = unsafe { self.map.add(PAGE + self.bytes) };
        if let Some(addition) = addition {
            unsafe {
                top = top.sub(size_of::<Addition>().next_multiple_of(ALIGNMENT));
                top.cast::<Addition>().write(addition);
            }
        }
        let returned: u64;
        unsafe {
            asm!(
                "mov r12, rsp",
                "mov rsp, {top}",
                "call {function}",
                "mov rsp, r12",
                top = in(reg) top,
                function = in(reg) function,
                in("rdi") words[0],
                in("rsi") words[1],
                in("rdx") words[2],
                in("rcx") words[3],
                in("r8") words[4],
                in("r9") words[5],
                lateout("rax") returned,
                out("r12") _,
                clobber_abi("C"),
            );
        }
        returned
    }

    pub fn take(&mut self, state: &mut [u8], record: &[u8], reply: &mut [u8]) -> u64 {
        let words = [
            state.as_mut_ptr() as usize,
            state.len(),
            record.as_ptr() as usize,
            record.len(),
            reply.as_mut_ptr() as usize,
            reply.len(),
        ];
        self.call(replica_take as *const () as usize, words, None)
    }

    pub fn fresh(&mut self, state: &mut [u8]) -> u64 {
        let words = [state.as_mut_ptr() as usize, state.len(), 0, 0, 0, 0];
        self.call(replica_fresh as *const () as usize, words, None)
    }

    pub fn can_meet(&mut self, first: &[u8], second: &[u8]) -> u64 {
        let words =
            [first.as_ptr() as usize, first.len(), second.as_ptr() as usize, second.len(), 0, 0];
        self.call(replica_can_meet as *const () as usize, words, None)
    }

    pub fn write(&mut self, body: &mut [u8], fill: &mut usize, call: Call, addition: Addition) -> u64 {
        let (function, host, process) = match call {
            Call::Begin { host, process } => (replica_begin as *const (), host, process),
            Call::Operation => (replica_operation as *const (), 0, 0),
            Call::Branch => (replica_branch as *const (), 0, 0),
        };
        let fill: *mut usize = fill;
        let words = [body.as_mut_ptr() as usize, body.len(), fill as usize, host.into(), process.into(), 0];
        self.call(function as usize, words, Some(addition))
    }

    /// The bytes that a call writes to, with its return address, by painting with both colours.
    pub fn used(&mut self, mut call: impl FnMut(&mut Stack)) -> usize {
        let mut most = 0;
        for colour in COLOURS {
            self.memory().fill(colour);
            call(self);
            let clean = self.memory().iter().take_while(|byte| **byte == colour).count();
            most = most.max(self.bytes - clean);
        }
        most
    }
}

impl Drop for Stack {
    fn drop(&mut self) {
        unsafe {
            munmap(self.map.cast(), PAGE + self.bytes);
        }
    }
}

/// A number that `include/replica.h` defines.
pub fn defined(name: &str) -> usize {
    let header = include_str!("../../include/replica.h");
    let start = format!("#define {name} ");
    let line = header.lines().find_map(|line| line.strip_prefix(&start)).unwrap_or_else(|| panic!("{name}"));
    let digits: String = line.trim().chars().take_while(char::is_ascii_digit).collect();
    digits.parse().unwrap_or_else(|_| panic!("{line}"))
}
