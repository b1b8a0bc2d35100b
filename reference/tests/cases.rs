//! The cases of document 01 in the layout of L3, with expectations worked out by hand.

mod common;

use common::{record, unhex, Cabinet};
use reference::call::{fresh, take};
use std::io::Write;
use std::process::{Command, Stdio};

// ---- "Cases" ----

const EXAMPLE_2: &str = "02 0005 01 01 0000 02 00 01 00000007 01 00 00 01 05 0000 02 00 01 00000007 03 00 00 00000001";
const EXAMPLE_3: &str = "02 0006 01 00 01 05 0000 02 00 01 00000007 00 00 00000029";

#[test]
fn example() {
    assert_eq!(unhex(EXAMPLE_2).len(), 35);
    assert_eq!(unhex(EXAMPLE_3).len(), 22);
    let mut cabinet = Cabinet::fresh();
    cabinet.expect("RV", "02", "5250 00000001 02 0000 00 00 01 00 00 00000001");
    cabinet.expect("AG", EXAMPLE_2, "");
    let replies = "5250 00000003 02 0006 00 01 00  5250 00000002 02 0005 00 01 01 00 00 00000029";
    cabinet.expect("AG", EXAMPLE_3, replies);
    cabinet.expect_tuples(&["0000 02 01 00000007 00 0000002A"]);
    let mut whole = unhex("5453 00000003 0004 00 00000001 01 0001 00");
    whole.resize(25_312, 0);
    whole[224..237].copy_from_slice(&unhex("0000 02 01 00000007 00 0000002A"));
    assert!(cabinet.state == whole);
}

#[test]
fn whole_minus() {
    let mut cabinet = Cabinet::up();
    cabinet.expect("AG", "02 0005 01 00 01 05 0000 01 00 00 80000001", "5250 00000002 02 0005 00 01 00");
    let minus = "02 0005 01 01 0000 01 01 00 00 01 05 0000 01 04 00 00 00000001";
    cabinet.expect("AG", minus, "5250 00000003 02 0005 00 01 01 00 00 80000001");
    cabinet.expect_tuples(&["0000 01 00 80000000"]);
    cabinet.expect_unchanged("AG", minus, "5250 00000004 02 0005 11 01 00");
}

#[test]
fn metres_plus() {
    let mut cabinet = Cabinet::up();
    cabinet.expect("AG", "02 0005 01 00 01 05 0000 01 00 02 40400000", "5250 00000002 02 0005 00 01 00");
    let plus = "02 0005 01 01 0000 01 01 02 07 01 05 0000 01 03 07 02 3F000000";
    cabinet.expect("AG", plus, "5250 00000003 02 0005 00 01 01 07 02 40400000");
    cabinet.expect_tuples(&["0000 01 02 40600000"]);
    cabinet.expect("AG", "02 0005 01 00 01 05 0000 01 00 02 7F7FFFFF", "5250 00000004 02 0005 00 01 00");
    let given = "02 0005 01 03 0000 01 00 02 7F7FFFFF 02 03 0000 01 01 02 00 05 0000 01 03 00 02 7F7FFFFF";
    cabinet.expect("AG", given, "5250 00000005 02 0005 00 01 01 00 02 40600000");
    cabinet.expect_tuples(&["0000 01 02 40600000", "0000 01 02 7F7FFFFF", "0000 01 02 7F7FFFFF"]);
    let away = "02 0005 01 01 0000 01 00 02 40600000 00";
    cabinet.expect("AG", away, "5250 00000006 02 0005 00 01 00");
    let itself = "02 0005 01 03 0000 01 01 02 00 01 05 0000 01 03 00 02 7F7FFFFF";
    cabinet.expect_unchanged("AG", itself, "5250 00000007 02 0005 11 01 00");
}

#[test]
fn metres_negative_zero() {
    let mut cabinet = Cabinet::up();
    let out = "02 0005 01 00 01 05 0000 01 00 02 80000000";
    cabinet.expect_unchanged("AG", out, "5250 00000002 FF FFFF 06 00 00");
}

#[test]
fn inp_and_in_on_empty() {
    let mut cabinet = Cabinet::up();
    cabinet.expect_unchanged("AG", "02 0005 01 02 0000 01 05 00 00", "5250 00000002 02 0005 12 00 00");
    cabinet.expect("AG", "02 0005 01 01 0000 01 05 00 00", "");
    assert_eq!(cabinet.waiting(), 1);
    let mut entry = unhex("00000003 000B 02 0005 01 01 0000 01 05 00 00");
    entry.resize(256, 0);
    assert!(cabinet.state[17_120..17_376] == entry[..]);
    assert!(cabinet.state[17_376..].iter().all(|byte| *byte == 0));
}

#[test]
fn copy_in_one_space() {
    let mut cabinet = Cabinet::up();
    let two = "02 0005 01 00 02 05 0000 01 00 00 00000001 05 0000 01 00 01 00000002";
    cabinet.expect("AG", two, "5250 00000002 02 0005 00 01 00");
    cabinet.expect("AG", "02 0005 01 00 01 07 0000 0000 00", "5250 00000003 02 0005 00 01 00");
    let (a, b) = ("0000 01 00 00000001", "0000 01 01 00000002");
    cabinet.expect_tuples(&[a, b, a, b]);
}

#[test]
fn in_then_out_at_512() {
    let mut cabinet = Cabinet::full();
    let guard = "02 0001 01 01 0000 01 05 00 01 05 0000 01 00 00 00000009";
    cabinet.expect("AG", guard, "5250 00000004 02 0001 00 01 00");
    let body = "02 0001 01 00 02 01 0000 01 05 00 05 0000 01 00 00 0000000A";
    cabinet.expect("AG", body, "5250 00000005 02 0001 00 01 00");
    assert_eq!(cabinet.state[14..16], [2, 0]);
    let at = 224 + 33 * 510;
    assert_eq!(cabinet.state[at..at + 8], unhex("0000 01 00 00000009"));
    assert_eq!(cabinet.state[at + 33..at + 41], unhex("0000 01 00 0000000A"));
    let out_first = "02 0001 01 00 02 05 0000 01 00 00 0000000A 01 0000 01 05 00";
    cabinet.expect_unchanged("AG", out_first, "5250 00000006 02 0001 0C 01 00");
}

#[test]
fn thirty_second_waits_and_a_33rd() {
    let mut cabinet = Cabinet::up();
    for process in 1..=32 {
        cabinet.expect("AG", &format!("02 {process:04X} 01 01 0000 01 00 01 00000007 00"), "");
        assert_eq!(u16::from(cabinet.waiting()), process);
    }
    let another = "02 0021 01 01 0000 01 00 01 00000007 00";
    cabinet.expect_unchanged("AG", another, "5250 00000022 02 0021 0D 00 00");
}

// ---- "Turned back", 1 to 17 ----

#[test]
fn turned_back_1_to_5() {
    assert_eq!(fresh(&mut []), 1);
    assert_eq!(fresh(&mut vec![7; 25_311]), 1);
    assert_eq!(fresh(&mut vec![7; 25_313]), 1);
    let good = record("RV", 1, "03");
    assert_eq!(take(&mut [], &good, &mut []), 1);
    let mut cabinet = Cabinet::fresh();
    let (mut short, mut state) = (vec![1; 3_563], cabinet.state.clone());
    assert_eq!(take(&mut state, b"AG", &mut short), 2);
    assert!(state == cabinet.state && short == vec![1; 3_563]);
    cabinet.refuse(b"AG", 3);
    cabinet.refuse(b"RV\0\x02\0\0\0\x01\x03", 3);
    cabinet.refuse(b"RP\0\x01\0\0\0\x00\x03", 3);
    cabinet.refuse(&record("RV", 0, "03"), 4);
    cabinet.refuse(&record("RV", 2, "03"), 5);
    cabinet.state[63] = 1;
    cabinet.refuse(&good, 1);
}

#[test]
fn turned_back_6() {
    let mut cabinet = Cabinet::fresh();
    cabinet.expect_unchanged("RV", "10", "5250 00000001 FF FFFF 06 00 00");
    for (mark, body) in [("CR", ""), ("MO", "02 00"), ("MS", "02 0001 02"), ("DS", "02 0001 00"), ("AG", "")] {
        let reply = format!("5250 {:08X} FF FFFF 06 00 00", cabinet.position + 1);
        cabinet.expect_unchanged(mark, body, &reply);
    }
}

#[test]
fn turned_back_7_and_8() {
    let mut cabinet = Cabinet::fresh();
    cabinet.expect_unchanged("CR", "03", "5250 00000001 03 0000 07 00 00");
    cabinet.expect("RV", "03", "5250 00000002 03 0000 00 00 01 00 00 00000001");
    cabinet.expect_unchanged("RV", "03", "5250 00000003 03 0000 08 00 00");
    cabinet.expect("RV", "0F", "5250 00000004 0F 0000 00 00 01 00 00 00000002");
    assert_eq!(cabinet.state[6..8], [0x80, 0x08]);
}

#[test]
fn turned_back_9() {
    let mut cabinet = Cabinet::up();
    cabinet.expect("AG", "02 0000 01 01 0000 01 05 00 00", "");
    cabinet.expect_unchanged("MO", "02 0000", "5250 00000003 02 0000 09 00 00");
    cabinet.expect_unchanged("MS", "02 0000 01", "5250 00000004 02 0000 09 00 00");
    cabinet.expect_unchanged("DS", "02 0000 0009", "5250 00000005 02 0000 09 00 00");
    cabinet.expect_unchanged("AG", "02 0000 01 00 00", "5250 00000006 02 0000 09 00 00");
    cabinet.expect("RV", "04", "5250 00000007 04 0000 00 00 01 00 00 00000002");
    cabinet.expect("CR", "02", "5250 00000008 02 0000 00 00 01 00 00 00000001");
    assert_eq!(cabinet.waiting(), 0);
}

#[test]
fn turned_back_10_and_11() {
    let mut cabinet = Cabinet::up();
    let nine = "02 0005 01 00 01 05 0009 01 00 00 00000001";
    cabinet.expect_unchanged("AG", nine, "5250 00000002 02 0005 0A 00 00");
    cabinet.expect("MS", "02 0005 01", "5250 00000003 02 0005 00 00 01 00 00 00000001");
    let one = "02 0006 01 00 01 05 0001 01 00 00 00000001";
    cabinet.expect_unchanged("AG", one, "5250 00000004 02 0006 0B 00 00");
    let both = "02 0006 02 02 0001 01 05 00 00 00 01 07 0000 0009 00";
    cabinet.expect_unchanged("AG", both, "5250 00000005 02 0006 0A 00 00");
    let later = "02 0006 02 00 00 02 0001 01 05 00 00";
    cabinet.expect_unchanged("AG", later, "5250 00000006 02 0006 0B 00 00");
    cabinet.expect_unchanged("DS", "02 0006 0001", "5250 00000007 02 0006 0B 00 00");
    cabinet.expect_unchanged("DS", "02 0006 0009", "5250 00000008 02 0006 0A 00 00");
    cabinet.expect("AG", "02 0005 01 00 01 05 0001 01 00 00 00000001", "5250 00000009 02 0005 00 01 00");
    cabinet.expect("DS", "02 0005 0001", "5250 0000000A 02 0005 00 00 00");
    cabinet.expect_tuples(&[]);
    cabinet.expect("MS", "02 0005", "5250 0000000B 02 0005 00 00 01 00 00 00000002");
    assert_eq!(cabinet.state[64..79], unhex("0000 00 0000 0002 00 0000 0000 00 0000"));
}

#[test]
fn turned_back_12() {
    let mut cabinet = Cabinet::full();
    let out = "02 0005 01 00 01 05 0000 01 00 00 00000001";
    cabinet.expect_unchanged("AG", out, "5250 00000004 02 0005 0C 01 00");
    cabinet.expect_unchanged("AG", "02 0005 01 00 01 07 0000 0000 00", "5250 00000005 02 0005 0C 01 00");
    cabinet.expect("AG", "02 0007 01 03 0000 01 00 00 00000009 01 05 0000 01 00 00 00000001", "");
    let nine = "02 0005 01 01 0000 01 05 00 01 05 0000 01 00 00 00000009";
    cabinet.expect("AG", nine, "5250 00000007 02 0005 00 01 00  5250 00000006 02 0007 0C 01 00");
    assert_eq!(cabinet.waiting(), 0);
}

#[test]
fn turned_back_14() {
    let mut cabinet = Cabinet::up();
    for monitor in 1..=8 {
        let reply = format!("5250 {:08X} 02 0005 00 00 01 00 00 {monitor:08X}", monitor + 1);
        cabinet.expect("MO", "02 0005", &reply);
    }
    cabinet.expect_unchanged("MO", "02 0005", "5250 0000000A 02 0005 0E 00 00");
    for space in 1..=31 {
        let reply = format!("5250 {:08X} 02 0005 00 00 01 00 00 {space:08X}", space + 10);
        cabinet.expect("MS", "02 0005 00", &reply);
    }
    cabinet.expect_unchanged("MS", "02 0005 00", "5250 0000002A 02 0005 0E 00 00");
}

#[test]
fn turned_back_15() {
    let mut cabinet = Cabinet::up();
    cabinet.expect_unchanged("DS", "02 0005 0000", "5250 00000002 02 0005 0F 00 00");
    cabinet.expect("MS", "02 0005", "5250 00000003 02 0005 00 00 01 00 00 00000001");
    cabinet.expect("AG", "02 0005 01 01 0000 01 05 00 01 05 0001 01 00 00 00000001", "");
    cabinet.expect_unchanged("DS", "02 0006 0001", "5250 00000005 02 0006 0F 00 00");
}

#[test]
fn turned_back_16_and_17() {
    let mut cabinet = Cabinet::up();
    cabinet.expect_unchanged("AG", "02 0005 01 00 01 01 0000 01 05 00", "5250 00000002 02 0005 10 01 00");
    cabinet.expect("AG", "02 0005 01 00 01 05 0000 01 00 00 7FFFFFFF", "5250 00000003 02 0005 00 01 00");
    let plus = "02 0005 01 01 0000 01 01 00 00 01 05 0000 01 03 00 00 00000001";
    cabinet.expect_unchanged("AG", plus, "5250 00000004 02 0005 11 01 00");
}

// ---- Order of checks, and "Plausible faults" ----

#[test]
fn seventeen_before_twelve_in_one_out() {
    let mut cabinet = Cabinet::full();
    let both = "02 0005 01 03 0000 01 01 00 00 01 05 0000 01 04 00 00 80000000";
    cabinet.expect_unchanged("AG", both, "5250 00000004 02 0005 11 01 00");
    let twelve_first = "02 0005 01 03 0000 01 01 00 00 02 05 0000 01 02 00 05 0000 01 04 00 00 80000000";
    cabinet.expect_unchanged("AG", twelve_first, "5250 00000005 02 0005 0C 01 00");
}

#[test]
fn a_failing_body_takes_no_later_branch_and_does_not_wait() {
    let mut cabinet = Cabinet::up();
    cabinet.expect("AG", "02 0005 01 00 01 05 0000 01 00 00 00000001", "5250 00000002 02 0005 00 01 00");
    let first = "02 0005 02 01 0000 01 05 00 01 01 0000 01 05 00 00 00";
    cabinet.expect_unchanged("AG", first, "5250 00000003 02 0005 10 01 00");
}

#[test]
fn a_woken_statement_feeds_an_older_one() {
    let mut cabinet = Cabinet::up();
    cabinet.expect("AG", "02 0001 01 01 0000 01 00 01 00000001 00", "");
    cabinet.expect("AG", "02 0002 01 01 0000 01 00 01 00000002 01 05 0000 01 00 01 00000001", "");
    cabinet.expect("AG", "02 0003 01 01 0000 01 00 01 00000003 01 05 0000 01 00 01 00000002", "");
    let replies = "5250 00000005 02 0004 00 01 00 5250 00000004 02 0003 00 01 00
        5250 00000003 02 0002 00 01 00 5250 00000002 02 0001 00 01 00";
    cabinet.expect("AG", "02 0004 01 00 01 05 0000 01 00 01 00000003", replies);
    cabinet.expect_tuples(&[]);
    assert_eq!(cabinet.waiting(), 0);
}

#[test]
fn a_woken_statement_that_fails_leaves_the_queue() {
    let mut cabinet = Cabinet::up();
    cabinet.expect("AG", "02 0001 01 01 0000 01 00 01 00000007 01 01 0000 01 05 02", "");
    cabinet.expect("AG", "02 0002 02 03 0000 01 05 02 00 02 0000 01 01 01 09 00", "");
    let replies = "5250 00000004 02 0003 00 01 00 5250 00000002 02 0001 10 01 00
        5250 00000003 02 0002 00 02 01 09 01 00000007";
    cabinet.expect("AG", "02 0003 01 00 01 05 0000 01 00 01 00000007", replies);
    cabinet.expect_tuples(&[]);
}

#[test]
fn the_oldest_match_is_taken_and_moved_tuples_go_last() {
    let mut cabinet = Cabinet::up();
    let three = "02 0005 01 00 03 05 0000 01 00 00 00000001 05 0000 01 00 01 00000002 05 0000 01 00 00 00000003";
    cabinet.expect("AG", three, "5250 00000002 02 0005 00 01 00");
    cabinet.expect("AG", "02 0005 01 03 0000 01 01 00 0F 00", "5250 00000003 02 0005 00 01 01 0F 00 00000001");
    cabinet.expect("AG", "02 0005 01 00 01 06 0000 0000 01 05 00", "5250 00000004 02 0005 00 01 00");
    cabinet.expect_tuples(&["0000 01 01 00000002", "0000 01 00 00000001", "0000 01 00 00000003"]);
    cabinet.expect("AG", "02 0005 01 00 01 06 0000 0000 01 00 01 00000002", "5250 00000005 02 0005 00 01 00");
    cabinet.expect_tuples(&["0000 01 00 00000001", "0000 01 00 00000003", "0000 01 01 00000002"]);
}

#[test]
fn crash_drops_then_notifies_then_wakes() {
    let mut cabinet = Cabinet::up();
    cabinet.expect("RV", "04", "5250 00000002 04 0000 00 00 01 00 00 00000002");
    cabinet.expect("MO", "02 0005", "5250 00000003 02 0005 00 00 01 00 00 00000001");
    cabinet.expect("MO", "02 0005", "5250 00000004 02 0005 00 00 01 00 00 00000002");
    let notice = |host: u8, process: u16| format!("{host:02X} {process:04X} 01 01 0000 03 00 01 00000001 01 00 00 01 00 01 00");
    cabinet.expect("AG", &notice(4, 7), "");
    cabinet.expect("AG", &notice(2, 8), "");
    let replies = "5250 00000007 04 0000 00 00 01 00 00 00000001
        5250 00000006 02 0008 00 01 02 00 00 00000001 01 00 00000004";
    cabinet.expect("CR", "04", replies);
    cabinet.expect_tuples(&["0000 03 01 00000001 00 00000002 00 00000004"]);
    assert_eq!(cabinet.waiting(), 0);
}

#[test]
fn a_body_of_250_bytes_is_legal_and_one_of_251_is_not() {
    let mut cabinet = Cabinet::up();
    // Head and guard 6 bytes, five outs of 40, one of 34, then a move of 10 or an rd of 11.
    let given = "00 00 00000000 ";
    let outs = format!("05 0000 06 {}", given.repeat(6)).repeat(5) + "05 0000 05 " + &given.repeat(5);
    let legal = format!("02 0005 01 00 07 {outs} 06 0000 0000 02 05 00 05 00");
    assert_eq!(unhex(&legal).len(), 250);
    cabinet.expect("AG", &legal, "5250 00000002 02 0005 00 01 00");
    let longer = format!("02 0005 01 00 07 {outs} 03 0000 03 01 00 00 05 00 05 00");
    assert_eq!(unhex(&longer).len(), 251);
    cabinet.expect_unchanged("AG", &longer, "5250 00000003 FF FFFF 06 00 00");
}

// ---- The program ----

fn cabinet(input: &[u8]) -> String {
    let mut child = Command::new(env!("CARGO_BIN_EXE_cabinet"))
        .stdin(Stdio::piped())
        .stdout(Stdio::piped())
        .spawn()
        .unwrap();
    child.stdin.take().unwrap().write_all(input).unwrap();
    String::from_utf8(child.wait_with_output().unwrap().stdout).unwrap()
}

#[test]
fn program_prints_the_example() {
    let records = [record("RV", 1, "02"), record("AG", 2, EXAMPLE_2), record("AG", 3, EXAMPLE_3)];
    let printed = "1 2 0 0 0 0:0:00000001\n3 2 6 0 1\n2 2 5 0 1 0:0:00000029\n";
    assert_eq!(cabinet(&records.concat()), printed);
    assert_eq!(cabinet(b""), "");
}

#[test]
fn program_refuses() {
    let up = record("RV", 1, "02");
    let again = [up.clone(), record("CR", 1, "02"), record("CR", 3, "02"), record("CR", 2, "02")].concat();
    let printed = "1 2 0 0 0 0:0:00000001\nrefused 4\nrefused 5\n2 2 0 0 0 0:0:00000000\n";
    assert_eq!(cabinet(&again), printed);
    let cut = [&up[..], &record("CR", 2, "02")[..8]].concat();
    assert_eq!(cabinet(&cut), "1 2 0 0 0 0:0:00000001\nrefused 3\n");
    let head = [&up[..], &b"C"[..]].concat();
    assert_eq!(cabinet(&head), "1 2 0 0 0 0:0:00000001\nrefused 3\n");
    let unknown = [record("XX", 1, "02"), up].concat();
    assert_eq!(cabinet(&unknown), "refused 3\n");
    assert_eq!(cabinet(&record("CR", 1, "10")), "1 255 65535 6 0\n");
}
