//! The cases of document 01, "Cases" and "Plausible faults", with the values that it gives.

use harness::hex::unhex;
use harness::layout::{STATE_BYTES, TUPLES_AT};
use harness::replica::Replica;

/// in(0, name 7, whole into 0) then out(0, name 7, variable 0 plus 1), by process 5.
const ADD_ONE: &str =
    "02 0005 01  01 0000 02 00 01 00000007 01 00 00  01  05 0000 02 00 01 00000007 03 00 00 00000001";
/// true then out(0, name 7, 41), by process 6.
const PUT_41: &str = "02 0006 01  00  01  05 0000 02 00 01 00000007 00 00 00000029";

#[test]
fn the_three_records() {
    assert_eq!([ADD_ONE, PUT_41].map(|body| unhex(body).len()), [35, 22]);
    let mut replica = Replica::fresh();
    replica.expect("RV", "02", &["1 2 0 0 0 0:0:00000001"]);
    replica.expect("AG", ADD_ONE, &[]);
    replica.expect("AG", PUT_41, &["3 2 6 0 1", "2 2 5 0 1 0:0:00000029"]);
    replica.expect_tuples(&["0000 02 01 00000007 00 0000002A"]);
}

#[test]
fn the_three_records_as_bytes() {
    let mut replica = Replica::fresh();
    replica.expect_bytes("RV", "02", &unhex("5250 00000001 02 0000 00 00 01 00 00 00000001"));
    replica.expect_bytes("AG", ADD_ONE, &[]);
    let replies = "5250 00000003 02 0006 00 01 00  5250 00000002 02 0005 00 01 01 00 00 00000029";
    replica.expect_bytes("AG", PUT_41, &unhex(replies));
    let mut whole = unhex("5453 00000003 0004 00 00000001 01 0001 00");
    whole.resize(STATE_BYTES, 0);
    whole[TUPLES_AT..TUPLES_AT + 13].copy_from_slice(&unhex("0000 02 01 00000007 00 0000002A"));
    assert!(replica.state == whole);
}

#[test]
fn the_fresh_state_as_bytes() {
    let mut whole = unhex("5453 00000000 0000 00 00000001 01 0000 00");
    whole.resize(STATE_BYTES, 0);
    assert!(Replica::fresh().state == whole);
}

#[test]
fn whole_minus_one_at_the_low_end() {
    let mut replica = Replica::up();
    replica.expect("AG", "02 0005 01 00 01 05 0000 01 00 00 80000001", &["2 2 5 0 1"]);
    let minus = "02 0005 01  01 0000 01 01 00 00  01  05 0000 01 04 00 00 00000001";
    replica.expect("AG", minus, &["3 2 5 0 1 0:0:80000001"]);
    replica.expect_tuples(&["0000 01 00 80000000"]);
    replica.expect_unchanged("AG", minus, "4 2 5 17 1");
}

#[test]
fn metres_plus_metres() {
    let mut replica = Replica::up();
    replica.expect("AG", "02 0005 01 00 01 05 0000 01 00 02 40400000", &["2 2 5 0 1"]);
    let half = "02 0005 01  01 0000 01 01 02 07  01  05 0000 01 03 07 02 3F000000";
    replica.expect("AG", half, &["3 2 5 0 1 7:2:40400000"]);
    replica.expect_tuples(&["0000 01 02 40600000"]);
    let largest = "02 0005 01  01 0000 01 05 02  01  05 0000 01 00 02 7F7FFFFF";
    replica.expect("AG", largest, &["4 2 5 0 1"]);
    let itself = "02 0005 01  01 0000 01 01 02 00  01  05 0000 01 03 00 02 7F7FFFFF";
    replica.expect_unchanged("AG", itself, "5 2 5 17 1");
}

#[test]
fn negative_zero_is_malformed() {
    let out = "02 0005 01 00 01 05 0000 01 00 02 80000000";
    Replica::up().expect_unchanged("AG", out, "2 255 65535 6 0");
}

#[test]
fn inp_on_empty_is_18_and_in_waits() {
    let mut replica = Replica::up();
    replica.expect_unchanged("AG", "02 0005 01 02 0000 01 05 00 00", "2 2 5 18 0");
    replica.expect("AG", "02 0005 01 01 0000 01 05 00 00", &[]);
    assert_eq!(replica.waiting_count(), 1);
    replica.expect_waiting(0, "00000003 000B 02 0005 01 01 0000 01 05 00 00");
}

#[test]
fn copy_in_one_space_leaves_four() {
    let mut replica = Replica::up();
    let two = "02 0005 01 00 02  05 0000 01 00 00 00000001  05 0000 01 00 01 00000002";
    replica.expect("AG", two, &["2 2 5 0 1"]);
    replica.expect("AG", "02 0005 01 00 01 07 0000 0000 00", &["3 2 5 0 1"]);
    let (a, b) = ("0000 01 00 00000001", "0000 01 01 00000002");
    replica.expect_tuples(&[a, b, a, b]);
}

#[test]
fn in_then_out_at_512_is_done() {
    let mut replica = Replica::full();
    let guard = "02 0001 01  01 0000 01 05 00  01  05 0000 01 00 00 00000009";
    replica.expect("AG", guard, &["4 2 1 0 1"]);
    let body = "02 0001 01  00  02  01 0000 01 05 00  05 0000 01 00 00 0000000A";
    replica.expect("AG", body, &["5 2 1 0 1"]);
    let zeros = ["0000 01 00 00000000"; 510];
    let newest = ["0000 01 00 00000009", "0000 01 00 0000000A"];
    replica.expect_tuples(&[&zeros[..], &newest[..]].concat());
}

#[test]
fn the_32nd_waits() {
    let mut replica = Replica::up();
    for process in 1..=32 {
        replica.expect("AG", &format!("02 {process:04X} 01 01 0000 01 00 01 00000007 00"), &[]);
        assert_eq!(u16::from(replica.waiting_count()), process);
    }
}

// ---- "Plausible faults" ----

#[test]
fn a_body_never_waits() {
    let mut replica = Replica::up();
    replica.expect("AG", "02 0005 01 00 01 05 0000 01 00 00 00000001", &["2 2 5 0 1"]);
    let takes_two = "02 0005 01  01 0000 01 05 00  01  01 0000 01 05 00";
    replica.expect_unchanged("AG", takes_two, "3 2 5 16 1");
    assert_eq!(replica.waiting_count(), 0);
}

#[test]
fn a_woken_statement_feeds_an_older_one() {
    let mut replica = Replica::up();
    replica.expect("AG", "02 0001 01  01 0000 01 00 01 00000001  00", &[]);
    replica.expect("AG", "02 0002 01  01 0000 01 00 01 00000002  01  05 0000 01 00 01 00000001", &[]);
    replica.expect("AG", "02 0003 01  01 0000 01 00 01 00000003  01  05 0000 01 00 01 00000002", &[]);
    let replies = ["5 2 4 0 1", "4 2 3 0 1", "3 2 2 0 1", "2 2 1 0 1"];
    replica.expect("AG", "02 0004 01 00 01 05 0000 01 00 01 00000003", &replies);
    replica.expect_tuples(&[]);
    assert_eq!(replica.waiting_count(), 0);
}

#[test]
fn the_oldest_match_is_taken() {
    let mut replica = Replica::up();
    let three = "02 0005 01 00 03  05 0000 01 00 00 00000001  05 0000 01 00 01 00000002
        05 0000 01 00 00 00000003";
    replica.expect("AG", three, &["2 2 5 0 1"]);
    replica.expect("AG", "02 0005 01 03 0000 01 01 00 0F 00", &["3 2 5 0 1 15:0:00000001"]);
    replica.expect("AG", "02 0005 01 01 0000 01 01 00 0F 00", &["4 2 5 0 1 15:0:00000001"]);
    replica.expect_tuples(&["0000 01 01 00000002", "0000 01 00 00000003"]);
}

#[test]
fn a_gap_is_not_passed() {
    let mut replica = Replica::fresh();
    replica.refuse(&harness::hex::record("RV", 2, "02"), 5);
    replica.refuse(&harness::hex::record("RV", 3, "02"), 5);
    replica.expect("RV", "02", &["1 2 0 0 0 0:0:00000001"]);
    replica.refuse(&harness::hex::record("RV", 3, "03"), 5);
}

#[test]
fn moved_tuples_go_last() {
    let mut replica = Replica::up();
    replica.expect("MS", "02 0005", &["2 2 5 0 0 0:0:00000001"]);
    let three = "02 0005 01 00 03  05 0000 01 00 00 00000001  05 0000 01 00 01 00000002
        05 0000 01 00 00 00000003";
    replica.expect("AG", three, &["3 2 5 0 1"]);
    replica.expect("AG", "02 0005 01 00 01 06 0000 0000 01 05 00", &["4 2 5 0 1"]);
    replica.expect_tuples(&["0000 01 01 00000002", "0000 01 00 00000001", "0000 01 00 00000003"]);
    replica.expect("AG", "02 0005 01 00 01 06 0000 0001 01 05 01", &["5 2 5 0 1"]);
    replica.expect_tuples(&["0000 01 00 00000001", "0000 01 00 00000003", "0001 01 01 00000002"]);
}

#[test]
fn a_crash_drops_then_notifies_then_wakes() {
    let mut replica = Replica::up();
    replica.expect("RV", "04", &["2 4 0 0 0 0:0:00000002"]);
    replica.expect("MO", "02 0005", &["3 2 5 0 0 0:0:00000001"]);
    replica.expect("MO", "02 0005", &["4 2 5 0 0 0:0:00000002"]);
    let notice = "01 01 0000 03 00 01 00000001 01 00 00 01 00 01 00";
    replica.expect("AG", &format!("04 0007 {notice}"), &[]);
    replica.expect("AG", &format!("02 0008 {notice}"), &[]);
    let replies = ["7 4 0 0 0 0:0:00000001", "6 2 8 0 1 0:0:00000001 1:0:00000004"];
    replica.expect("CR", "04", &replies);
    replica.expect_tuples(&["0000 03 01 00000001 00 00000002 00 00000004"]);
    assert_eq!(replica.waiting_count(), 0);
}

#[test]
fn a_woken_statement_that_fails_leaves_the_queue() {
    let mut replica = Replica::up();
    replica.expect("AG", "02 0001 01  01 0000 01 00 01 00000007  01  01 0000 01 05 02", &[]);
    replica.expect("AG", "02 0002 02  03 0000 01 05 02 00  02 0000 01 01 01 09 00", &[]);
    let replies = ["4 2 3 0 1", "2 2 1 16 1", "3 2 2 0 2 9:1:00000007"];
    replica.expect("AG", "02 0003 01 00 01 05 0000 01 00 01 00000007", &replies);
    replica.expect_tuples(&[]);
}
