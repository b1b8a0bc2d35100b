//! Buffers of every length, and null pointers.

use harness::caller::Caller;
use harness::hex::record;
use harness::layout::STATE_BYTES;
use harness::library::{replica_fresh, replica_take, LIBRARY};
use harness::replica::Replica;
use harness::states;
use reference::generate::join;
use reference::generate::statements::wide;
use reference::statement;
use std::ptr::{null, null_mut};

/// The fresh-state call gives 1 for length, else 0.
#[test]
fn fresh_on_every_length() {
    let junk: Vec<u8> = (0..STATE_BYTES + 64).map(|at| (at * 31 + 1) as u8).collect();
    let mut caller = Caller::new(LIBRARY);
    for length in 0..=junk.len() {
        let expected = u64::from(length != STATE_BYTES);
        assert_eq!(caller.agree_fresh(&junk[..length]), Ok(expected), "{length} bytes");
    }
}

#[test]
fn a_state_of_every_length() {
    let mut bytes = Replica::up().state;
    bytes.resize(STATE_BYTES + 64, 0);
    let mut caller = Caller::new(LIBRARY);
    let record = record("CR", 2, "02");
    for length in 0..=bytes.len() {
        let expected = if length == STATE_BYTES { 18 } else { 1 };
        assert_eq!(caller.agree(&bytes[..length], &record, &[5; 3_564]), Ok(expected), "{length} bytes");
    }
}

/// The longest replies, 3,564 bytes, in reply buffers of every length.
#[test]
fn a_reply_buffer_of_every_length() {
    let state = states::bytes(&states::crowd(true));
    let record = join(*b"AG", 1001, &statement::write(&wide(2, 7, true)));
    let lent = vec![0xEE; 70_000];
    let mut caller = Caller::new(LIBRARY);
    for length in (0..=3_700).chain([4_096, 65_535, 65_536, 70_000]) {
        let expected = if length < 3_564 { 2 } else { 3_564 };
        assert_eq!(caller.agree(&state, &record, &lent[..length]), Ok(expected), "{length} bytes");
    }
}

/// Every length of record, with the length that its bytes say, and with another.
#[test]
fn a_record_of_every_length() {
    let state = Replica::up().state;
    let mut caller = Caller::new(LIBRARY);
    for length in 0..700 {
        for mark in [*b"RV", *b"MS", *b"AG"] {
            let record = join(mark, 2, &vec![3; length]);
            assert!(caller.agree(&state, &record, &[1; 3_564]).is_ok_and(|returned| returned >= 12));
            for other in [&record[..record.len() - 1], &[&record[..], &[3]].concat()] {
                assert_eq!(caller.agree(&state, other, &[1; 3_564]), Ok(3), "{length} bytes of body");
            }
        }
    }
}

/// A null pointer with length 0 is an empty buffer.
#[test]
fn null_with_length_0() {
    let (mut state, mut reply) = (Replica::up().state, vec![9; 3_564]);
    let record = record("CR", 2, "02");
    let (before, lent) = (state.clone(), reply.clone());
    let (s, r, a) = (state.as_mut_ptr(), record.as_ptr(), reply.as_mut_ptr());
    unsafe {
        assert_eq!(replica_fresh(null_mut(), 0), 1);
        assert_eq!(replica_take(null_mut(), 0, null(), 0, null_mut(), 0), 1);
        assert_eq!(replica_take(null_mut(), 0, r, 9, a, 3_564), 1);
        assert_eq!(replica_take(s, STATE_BYTES, r, 9, null_mut(), 0), 2);
        assert_eq!(replica_take(s, STATE_BYTES, null(), 0, null_mut(), 0), 2);
        assert_eq!(replica_take(s, STATE_BYTES, null(), 0, a, 3_564), 3);
    }
    assert!(state == before && reply == lent);
}
