//! Matching in the printed order (request L2 of document 02): what the library makes of near misses. The answer
//! itself is in no reply.

use harness::hex::hex;
use harness::layout::{tuple_count, REPLY_BYTES};
use harness::library::{Calls, LIBRARY, REFERENCE};
use harness::replica::Replica;
use reference::generate::matches::{Match, Matches};
use reference::matching::Failing;
use reference::statement::{COPY, IN, INP, MOST_FIELDS, RD, RDP};
use std::collections::BTreeSet;

// ---- by hand: the template (name 7, any whole, whole 2) of docs/MATCHING.md, and a tuple for each answer

const MATCHES: &str = "0000 03 01 00000007 00 00000029 00 00000002";
const OTHER_NUMBER: &str = "0000 02 01 00000007 00 00000029";
const OTHER_KIND: &str = "0000 03 01 00000008 02 40400000 00 00000002";
const OTHER_VALUE: &str = "0000 03 01 00000007 00 00000029 00 00000003";

const OUT_NEAR_MISSES: &str = "02 0006 01 00 03 \
    05 0000 02 00 01 00000007 00 00 00000029 \
    05 0000 03 00 01 00000008 00 02 40400000 00 00 00000002 \
    05 0000 03 00 01 00000007 00 00 00000029 00 00 00000003";
const OUT_MATCH: &str = "02 0006 01 00 01 05 0000 03 00 01 00000007 00 00 00000029 00 00 00000002";
/// (name 7, whole into variable 0, whole 2)
const BINDS: &str = "0000 03 00 01 00000007 01 00 00 00 00 00000002";
/// (name 7, any whole, whole 2)
const ASKS: &str = "03 00 01 00000007 05 00 00 00 00000002";

fn near_misses() -> Replica {
    let mut replica = Replica::up();
    replica.expect("AG", OUT_NEAR_MISSES, &["2 2 6 0 1"]);
    replica
}

#[test]
fn a_guard_passes_over_near_misses() {
    let mut replica = near_misses();
    replica.expect_unchanged("AG", &format!("02 0005 01 02 {BINDS} 00"), "3 2 5 18 0");
    replica.expect_unchanged("AG", &format!("02 0005 01 04 {BINDS} 00"), "4 2 5 18 0");
    replica.expect("AG", OUT_MATCH, &["5 2 6 0 1"]);
    replica.expect("AG", &format!("02 0005 01 04 {BINDS} 00"), &["6 2 5 0 1 0:0:00000029"]);
    replica.expect("AG", &format!("02 0005 01 01 {BINDS} 00"), &["7 2 5 0 1 0:0:00000029"]);
    replica.expect_tuples(&[OTHER_NUMBER, OTHER_KIND, OTHER_VALUE]);
}

#[test]
fn a_waiting_guard_passes_over_near_misses() {
    let mut replica = Replica::up();
    replica.expect("AG", &format!("02 0005 01 01 {BINDS} 00"), &[]);
    replica.expect("AG", OUT_NEAR_MISSES, &["3 2 6 0 1"]);
    assert_eq!(replica.waiting_count(), 1);
    replica.expect("AG", OUT_MATCH, &["4 2 6 0 1", "2 2 5 0 1 0:0:00000029"]);
    replica.expect_tuples(&[OTHER_NUMBER, OTHER_KIND, OTHER_VALUE]);
}

#[test]
fn a_body_passes_over_near_misses() {
    let mut replica = near_misses();
    replica.expect_unchanged("AG", &format!("02 0005 01 00 01 01 {BINDS}"), "3 2 5 16 1");
    replica.expect_unchanged("AG", &format!("02 0005 01 00 01 03 {BINDS}"), "4 2 5 16 1");
    replica.expect("AG", OUT_MATCH, &["5 2 6 0 1"]);
    replica.expect("AG", &format!("02 0005 01 00 01 01 {BINDS}"), &["6 2 5 0 1 0:0:00000029"]);
    replica.expect_tuples(&[OTHER_NUMBER, OTHER_KIND, OTHER_VALUE]);
}

#[test]
fn move_and_copy_pass_over_near_misses() {
    let mut replica = near_misses();
    for code in ["06", "07"] {
        let line = format!("{} 2 5 0 1", replica.position + 1);
        replica.expect("AG", &format!("02 0005 01 00 01 {code} 0000 0000 {ASKS}"), &[&line]);
        replica.expect_tuples(&[OTHER_NUMBER, OTHER_KIND, OTHER_VALUE]);
    }
    replica.expect("AG", OUT_MATCH, &["5 2 6 0 1"]);
    replica.expect("AG", &format!("02 0005 01 00 01 07 0000 0000 {ASKS}"), &["6 2 5 0 1"]);
    replica.expect_tuples(&[OTHER_NUMBER, OTHER_KIND, OTHER_VALUE, MATCHES, MATCHES]);
    // 0 fields ask for the space alone
    replica.expect("AG", "02 0005 01 00 01 07 0000 0000 00", &["7 2 5 0 1"]);
    assert_eq!(replica.tuple_count(), 10);
}

#[test]
fn form_2_has_the_kind_of_its_value() {
    // variable 0 is bound to name 7; whole 7 has the same four bytes
    let body = |second: &str| format!("02 0005 01 01 0000 01 01 01 00 01 {second} 0000 01 02 00");
    for second in ["01", "03"] {
        let mut replica = Replica::up();
        replica.expect("AG", "02 0006 01 00 02 05 0000 01 00 01 00000007 05 0000 01 00 00 00000007", &["2 2 6 0 1"]);
        replica.expect_unchanged("AG", &body(second), "3 2 5 16 1");
        replica.expect("AG", "02 0006 01 00 01 05 0000 01 00 01 00000007", &["4 2 6 0 1"]);
        replica.expect("AG", &body(second), &["5 2 5 0 1 0:1:00000007"]);
    }
}

// ---- generated matches, by whole calls

const OUTCOME_AT: usize = 9;

fn taken(calls: &Calls, one: &Match) -> (u64, Vec<u8>, Vec<u8>) {
    let (mut state, mut reply) = (one.state(), vec![0xA5; REPLY_BYTES]);
    let returned = (calls.take)(&mut state, &one.record(), &mut reply);
    (returned, reply, state)
}

/// Whether the template found the tuple, by what the call shows: the outcome; of copy one tuple more, beside those
/// taken to bind its variables. A move within one space shows nothing.
fn found(one: &Match, (returned, reply, after): &(u64, Vec<u8>, Vec<u8>)) -> Option<bool> {
    let binding = one.bound.len().div_ceil(MOST_FIELDS);
    match one.operation.code {
        IN | INP | RD | RDP => Some(*returned > 0 && reply[OUTCOME_AT] == 0),
        COPY => Some(tuple_count(after) + binding == tuple_count(&one.state()) + 1),
        _ => None,
    }
}

#[test]
fn calls_go_by_the_answer() {
    let (mut generated, mut seen) = (Matches::new(77), BTreeSet::new());
    for _ in 0..20_000 {
        let one = generated.make();
        let library = taken(&LIBRARY, &one);
        assert_eq!(library, taken(&REFERENCE, &one), "{}", hex(&one.record()));
        let matches = one.answer() == Failing::Nothing;
        assert_eq!(found(&one, &library).unwrap_or(matches), matches, "{}", hex(&one.record()));
        seen.insert((one.operation.code, one.answer().number()));
    }
    assert_eq!(seen.len(), 6 * 4, "each code with each answer");
}
