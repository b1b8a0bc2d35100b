//! The functions of the library, as `include/replica.h` declares them.

/// A field of an addition; `highest` is of a form 6 alone.
#[repr(C)]
#[derive(Clone, Copy, Debug, Default, PartialEq, Eq)]
pub struct Field {
    pub form: u8,
    pub kind: u8,
    pub variable: u8,
    pub bits: u32,
    pub highest: u32,
}

/// A guard or an operation.
#[repr(C)]
#[derive(Clone, Copy, Debug, Default, PartialEq, Eq)]
pub struct Addition {
    pub code: u8,
    pub from: u16,
    pub to: u16,
    pub count: usize,
    pub fields: [Field; 6],
}

extern "C" {
    pub fn replica_layout() -> u64;
    pub fn replica_fresh(state: *mut u8, state_length: usize) -> u64;
    pub fn replica_take(
        state: *mut u8,
        state_length: usize,
        record: *const u8,
        record_length: usize,
        reply: *mut u8,
        reply_length: usize,
    ) -> u64;
    pub fn replica_begin(
        body: *mut u8,
        body_length: usize,
        fill: *mut usize,
        host: u8,
        process: u16,
        guard: Addition,
    ) -> u64;
    pub fn replica_operation(body: *mut u8, body_length: usize, fill: *mut usize, operation: Addition)
        -> u64;
    pub fn replica_branch(body: *mut u8, body_length: usize, fill: *mut usize, guard: Addition) -> u64;
    pub fn replica_can_meet(
        first: *const u8,
        first_length: usize,
        second: *const u8,
        second_length: usize,
    ) -> u64;
}

/// The fresh-state call and the call for a record, of the library or of a stand-in. Libraries of every layout have
/// both; `can_meet` stands apart, so that what is timed on an older one links.
#[derive(Clone, Copy)]
pub struct Calls {
    pub fresh: fn(&mut [u8]) -> u64,
    pub take: fn(&mut [u8], &[u8], &mut [u8]) -> u64,
}

pub const LIBRARY: Calls = Calls { fresh, take };
pub const REFERENCE: Calls = Calls { fresh: reference::call::fresh, take: reference::call::take };

/// Whether two templates can meet.
pub fn can_meet(first: &[u8], second: &[u8]) -> u64 {
    unsafe { replica_can_meet(first.as_ptr(), first.len(), second.as_ptr(), second.len()) }
}

pub fn fresh(state: &mut [u8]) -> u64 {
    unsafe { replica_fresh(state.as_mut_ptr(), state.len()) }
}

pub fn take(state: &mut [u8], record: &[u8], reply: &mut [u8]) -> u64 {
    unsafe {
        replica_take(
            state.as_mut_ptr(),
            state.len(),
            record.as_ptr(),
            record.len(),
            reply.as_mut_ptr(),
            reply.len(),
        )
    }
}
