//! Where the bytes of a state stand, written by hand from document 01 and requests L1 and L3 of document 02. The
//! second implementation has names of its own.

use std::ops::Range;

pub const STATE_BYTES: usize = 25_312;
/// A reply buffer has at least so many.
pub const REPLY_BYTES: usize = 3_564;

// ---- The header, whose first bytes are the mark ----

pub const MARK: Range<usize> = 0..2;
/// The last position taken.
pub const LAST: Range<usize> = 2..6;
pub const HOSTS: Range<usize> = 6..8;
pub const MONITORS_AT: usize = 8;
/// The next space number.
pub const NEXT: Range<usize> = 9..13;
pub const SPACE_COUNT_AT: usize = 13;
pub const TUPLE_COUNT: Range<usize> = 14..16;
pub const WAITING_COUNT_AT: usize = 16;
/// Masks of hosts, two bytes for each monitor number from 1 to 8.
pub const OWED: Range<usize> = 17..33;
/// From here on the header is zero.
pub const HEADER_USED: usize = 33;

// ---- The sections ----

pub const SPACES_AT: usize = 64;
/// Number (2), kind, owner (2).
pub const SPACE_BYTES: usize = 5;
pub const TUPLES_AT: usize = 224;
/// Space (2), count of values, six values of 5.
pub const TUPLE_BYTES: usize = 33;
pub const WAITING_AT: usize = 17_120;
/// Position (4), body length (2), body.
pub const WAITING_BYTES: usize = 256;

/// In an entry of a tuple: the count of its values, and where these begin.
pub const VALUE_COUNT_AT: usize = 2;
pub const VALUES_AT: usize = 3;
/// Kind, then four bytes.
pub const VALUE_BYTES: usize = 5;

const _: () = assert!(OWED.start == WAITING_COUNT_AT + 1 && OWED.end == OWED.start + 8 * 2);
const _: () = assert!(OWED.end == HEADER_USED && HEADER_USED < SPACES_AT);
const _: () = assert!(TUPLES_AT == SPACES_AT + 32 * SPACE_BYTES);
const _: () = assert!(TUPLE_BYTES == VALUES_AT + 6 * VALUE_BYTES);
const _: () = assert!(WAITING_AT == TUPLES_AT + 512 * TUPLE_BYTES);
const _: () = assert!(STATE_BYTES == WAITING_AT + 32 * WAITING_BYTES);

// ---- Reading and writing ----

/// The bytes of a space entry.
pub fn space(at: usize) -> Range<usize> {
    SPACES_AT + SPACE_BYTES * at..SPACES_AT + SPACE_BYTES * (at + 1)
}

/// The bytes of a tuple.
pub fn tuple(at: usize) -> Range<usize> {
    TUPLES_AT + TUPLE_BYTES * at..TUPLES_AT + TUPLE_BYTES * (at + 1)
}

/// The bytes of a waiting entry.
pub fn waiting(at: usize) -> Range<usize> {
    WAITING_AT + WAITING_BYTES * at..WAITING_AT + WAITING_BYTES * (at + 1)
}

/// How many tuples a state says that it has.
pub fn tuple_count(state: &[u8]) -> usize {
    state[TUPLE_COUNT].iter().fold(0, |count, byte| count << 8 | usize::from(*byte))
}

/// The masks of the hosts that are owed to the monitor numbers 1 to 8.
pub fn owed(state: &[u8]) -> [u16; 8] {
    let byte = |at: usize| u16::from(state[OWED.start + at]);
    [0, 1, 2, 3, 4, 5, 6, 7].map(|at| byte(2 * at) << 8 | byte(2 * at + 1))
}

/// Writes these masks.
pub fn set_owed(state: &mut [u8], masks: [u16; 8]) {
    state[OWED].copy_from_slice(&masks.map(u16::to_be_bytes).concat());
}

/// Writes the next space number.
pub fn set_next(state: &mut [u8], number: u32) {
    state[NEXT].copy_from_slice(&number.to_be_bytes());
}
