//! L3, a crash notice when the table is full: its cases, with expectations worked out by hand.

mod common;

use common::{hex, record, unhex, Cabinet};
use std::io::Write;
use std::process::{Command, Stdio};

/// Position 7, space 0 alone, this many tuples (whole 0), (whole 1), .. and these owed masks.
fn with(hosts: &str, monitors: u8, tuples: u16, owed: &str) -> Cabinet {
    let header = format!("5453 00000007 {hosts} {monitors:02X} 00000001 01 {tuples:04X} 00 {owed}");
    let entries: Vec<String> = (0..tuples).map(|i| format!("0000 01 00 {i:08X}")).collect();
    Cabinet::holding(&header, "", &entries.iter().map(String::as_str).collect::<Vec<_>>())
}

/// The failure tuple as a tuple entry has it.
fn notice(monitor: u8, host: u8) -> String {
    format!("0000 03 01 00000001 00 {monitor:08X} 00 {host:08X}")
}

/// The eight masks where one is not zero.
fn one_mask(monitor: usize, mask: &str) -> String {
    format!("{} {mask} {}", "0000".repeat(monitor - 1), "0000".repeat(8 - monitor))
}

/// These masks, and zero bytes after them in the header.
fn expect_owed(cabinet: &Cabinet, masks: &str) {
    let mut expected = unhex(masks);
    expected.resize(16 + 31, 0);
    assert_eq!(hex(&cabinet.state[17..64]), hex(&expected));
}

/// So many tuples, of which these are the last; zero bytes after them.
fn expect_last(cabinet: &Cabinet, count: usize, last: &[String]) {
    assert_eq!(cabinet.state[14..16], (count as u16).to_be_bytes());
    for (i, tuple) in last.iter().enumerate() {
        let at = 224 + 33 * (count - last.len() + i);
        let mut entry = unhex(tuple);
        entry.resize(33, 0);
        assert_eq!(hex(&cabinet.state[at..at + 33]), hex(&entry), "{i} of the last");
    }
    assert!(cabinet.state[224 + 33 * count..17_120].iter().all(|byte| *byte == 0));
}

/// The reply to a record of a position that was done, without values.
fn done(position: u32, process: u16) -> String {
    format!("5250 {position:08X} 02 {process:04X} 00 01 00")
}

/// Process 5 takes the oldest whole.
const TAKE: &str = "02 0005 01 01 0000 01 05 00 00";
/// Process 5 takes two wholes and puts (name 7).
const TAKE_2_PUT_1: &str = "02 0005 01 01 0000 01 05 00 02 01 0000 01 05 00 05 0000 01 00 01 00000007";
/// Process 6 reads (name 7) and puts (name 8).
const READ_7_PUT_8: &str = "02 0006 01 03 0000 01 00 01 00000007 01 05 0000 01 00 01 00000008";
/// A template for every failure tuple, into variables 0 and 1.
const ANY_NOTICE: &str = "0000 03 00 01 00000001 01 00 00 01 00 01";

// ---- A crash ----

#[test]
fn a_crash_at_512_owes_to_all_eight() {
    let mut cabinet = with("000C", 8, 512, "");
    let mut expected = cabinet.state.clone();
    cabinet.expect("CR", "03", "5250 00000008 03 0000 00 00 01 00 00 00000001");
    let header = unhex("5453 00000008 0004 08 00000001 01 0200 00 0008 0008 0008 0008 0008 0008 0008 0008");
    assert_eq!(header.len(), 33);
    expected[..33].copy_from_slice(&header);
    assert!(cabinet.state == expected);
}

#[test]
fn a_crash_at_510_leaves_two_and_owes_six() {
    let mut cabinet = with("000C", 8, 510, "");
    cabinet.expect("CR", "03", "5250 00000008 03 0000 00 00 01 00 00 00000001");
    expect_last(&cabinet, 512, &["0000 01 00 000001FD".to_string(), notice(1, 3), notice(2, 3)]);
    expect_owed(&cabinet, "0000 0000 0008 0008 0008 0008 0008 0008");
}

/// 504 tuples leave room for all eight, 505 for seven, 511 for one.
#[test]
fn a_crash_owes_what_finds_no_room() {
    for (count, laid) in [(503, 8), (504, 8), (505, 7), (511, 1)] {
        let mut cabinet = with("8004", 8, count, "");
        cabinet.expect("CR", "0F", "5250 00000008 0F 0000 00 00 01 00 00 00000001");
        let notices: Vec<String> = (1..=laid).map(|monitor| notice(monitor, 15)).collect();
        expect_last(&cabinet, usize::from(count) + notices.len(), &notices);
        expect_owed(&cabinet, &("0000".repeat(laid.into()) + &"8000".repeat(8 - usize::from(laid))));
    }
}

#[test]
fn without_monitors_nothing_is_owed() {
    let mut cabinet = with("000C", 0, 512, "");
    cabinet.expect("CR", "03", "5250 00000008 03 0000 00 00 01 00 00 00000001");
    expect_owed(&cabinet, "");
    expect_last(&cabinet, 512, &[]);
}

#[test]
fn each_host_has_its_bit() {
    let bits = ["0001", "0002", "0004", "0008", "0010", "0020", "0040", "0080"];
    let high = ["0100", "0200", "0400", "0800", "1000", "2000", "4000", "8000"];
    for (host, bit) in bits.into_iter().chain(high).enumerate() {
        let mut cabinet = with("FFFF", 2, 512, "");
        cabinet.expect("CR", &format!("{host:02X}"), &format!("5250 00000008 {host:02X} 0000 00 00 01 00 00 0000000F"));
        expect_owed(&cabinet, &format!("{bit} {bit}"));
    }
}

/// The checks of a crash are 6 and 7; a refused one leaves the debt.
#[test]
fn a_refused_crash_owes_nothing() {
    let mut cabinet = with("0004", 2, 512, "0020 0000");
    cabinet.expect_unchanged("CR", "05", "5250 00000008 05 0000 07 00 00");
    cabinet.expect_unchanged("CR", "10", "5250 00000009 FF FFFF 06 00 00");
    cabinet.expect_unchanged("CR", "02 00", "5250 0000000A FF FFFF 06 00 00");
}

#[test]
fn a_crash_at_512_drops_its_own_statements() {
    let mut cabinet = with("000C", 1, 512, "");
    cabinet.expect("AG", &format!("03 0006 01 01 {ANY_NOTICE} 00"), "");
    cabinet.expect("AG", &format!("02 0007 01 01 {ANY_NOTICE} 00"), "");
    cabinet.expect("CR", "03", "5250 0000000A 03 0000 00 00 01 00 00 00000001");
    assert_eq!(cabinet.waiting(), 1);
    assert_eq!(cabinet.state[17_120..17_129], unhex("00000009 0015 02 0007"));
    expect_owed(&cabinet, "0008");
}

// ---- Each pair at most once ----

#[test]
fn crash_recovery_crash_at_512_owes_once() {
    let mut cabinet = with("000C", 8, 512, "");
    cabinet.expect("CR", "03", "5250 00000008 03 0000 00 00 01 00 00 00000001");
    cabinet.expect("RV", "03", "5250 00000009 03 0000 00 00 01 00 00 00000002");
    expect_owed(&cabinet, &"0008".repeat(8));
    cabinet.expect("CR", "03", "5250 0000000A 03 0000 00 00 01 00 00 00000001");
    expect_owed(&cabinet, &"0008".repeat(8));
    let mut notices = Vec::new();
    for monitor in 1..=8 {
        cabinet.expect("AG", TAKE, &done(10 + u32::from(monitor), 5));
        notices.push(notice(monitor, 3));
        expect_last(&cabinet, 512, &notices);
    }
    expect_owed(&cabinet, "");
    cabinet.expect("AG", TAKE, &done(19, 5));
    expect_last(&cabinet, 511, &notices);
}

/// One notice went out before the table was full; the next crash owes beside the equal tuple.
#[test]
fn a_pair_is_owed_beside_an_equal_tuple() {
    let mut cabinet = with("000C", 1, 511, "");
    cabinet.expect("CR", "03", "5250 00000008 03 0000 00 00 01 00 00 00000001");
    cabinet.expect("RV", "03", "5250 00000009 03 0000 00 00 01 00 00 00000002");
    cabinet.expect("CR", "03", "5250 0000000A 03 0000 00 00 01 00 00 00000001");
    expect_last(&cabinet, 512, &[notice(1, 3)]);
    expect_owed(&cabinet, "0008");
    cabinet.expect("AG", TAKE, &done(11, 5));
    expect_last(&cabinet, 512, &[notice(1, 3), notice(1, 3)]);
    expect_owed(&cabinet, "");
}

#[test]
fn with_room_each_crash_leaves_its_tuple() {
    let mut cabinet = with("000C", 2, 3, "");
    cabinet.expect("CR", "03", "5250 00000008 03 0000 00 00 01 00 00 00000001");
    cabinet.expect("RV", "03", "5250 00000009 03 0000 00 00 01 00 00 00000002");
    cabinet.expect("CR", "03", "5250 0000000A 03 0000 00 00 01 00 00 00000001");
    expect_last(&cabinet, 7, &[notice(1, 3), notice(2, 3), notice(1, 3), notice(2, 3)]);
    expect_owed(&cabinet, "");
}

/// A number given after the first crash is owed by the second alone.
#[test]
fn a_later_monitor_is_owed_later() {
    let mut cabinet = with("000C", 1, 512, "");
    cabinet.expect("CR", "03", "5250 00000008 03 0000 00 00 01 00 00 00000001");
    cabinet.expect("MO", "02 0005", "5250 00000009 02 0005 00 00 01 00 00 00000002");
    expect_owed(&cabinet, "0008 0000");
    cabinet.expect("RV", "03", "5250 0000000A 03 0000 00 00 01 00 00 00000002");
    cabinet.expect("CR", "03", "5250 0000000B 03 0000 00 00 01 00 00 00000001");
    expect_owed(&cabinet, "0008 0008");
}

// ---- Nothing cancels a debt ----

#[test]
fn recovery_cancels_nothing() {
    let mut cabinet = with("0004", 3, 512, "0000 0008");
    cabinet.expect("RV", "03", "5250 00000008 03 0000 00 00 01 00 00 00000002");
    expect_owed(&cabinet, "0000 0008");
    cabinet.expect("AG", TAKE, &done(9, 5));
    expect_last(&cabinet, 512, &["0000 01 00 000001FF".to_string(), notice(2, 3)]);
    expect_owed(&cabinet, "");
    assert_eq!(cabinet.state[6..8], [0x00, 0x0C]);
}

/// A statement puts the very tuple that is owed, another takes it away.
#[test]
fn an_equal_tuple_cancels_nothing() {
    let mut cabinet = with("0004", 1, 512, "0008");
    let put = "02 0005 01 01 0000 01 05 00 01 05 0000 03 00 01 00000001 00 00 00000001 00 00 00000003";
    cabinet.expect("AG", put, &done(8, 5));
    expect_last(&cabinet, 512, &[notice(1, 3)]);
    expect_owed(&cabinet, "0008");
    let away = format!("02 0005 01 02 {ANY_NOTICE} 00");
    cabinet.expect("AG", &away, "5250 00000009 02 0005 00 01 02 00 00 00000001 01 00 00000003");
    expect_last(&cabinet, 512, &["0000 01 00 000001FF".to_string(), notice(1, 3)]);
    expect_owed(&cabinet, "");
}

#[test]
fn other_records_leave_the_debt() {
    let mut cabinet = with("000C", 7, 512, "0000 8001");
    cabinet.expect("MO", "02 0005", "5250 00000008 02 0005 00 00 01 00 00 00000008");
    cabinet.expect("MS", "02 0005", "5250 00000009 02 0005 00 00 01 00 00 00000001");
    cabinet.expect("DS", "02 0005 0001", "5250 0000000A 02 0005 00 00 00");
    cabinet.expect("AG", "02 0006 01 03 0000 01 05 01 00", "");
    cabinet.expect_unchanged("MO", "02 0006", "5250 0000000C 02 0006 09 00 00");
    expect_owed(&cabinet, "0000 8001");
    expect_last(&cabinet, 512, &["0000 01 00 000001FF".to_string()]);
}

// ---- The order of laying ----

/// By monitor number, then by host, whatever the order of the crashes.
#[test]
fn lowest_monitor_first_then_lowest_host() {
    let mut cabinet = with("002C", 2, 512, "");
    cabinet.expect("CR", "05", "5250 00000008 05 0000 00 00 01 00 00 00000002");
    cabinet.expect("CR", "03", "5250 00000009 03 0000 00 00 01 00 00 00000001");
    expect_owed(&cabinet, "0028 0028");
    let three = "02 0005 01 00 03 01 0000 01 05 00 01 0000 01 05 00 01 0000 01 05 00";
    cabinet.expect("AG", three, &done(10, 5));
    expect_last(&cabinet, 512, &[notice(1, 3), notice(1, 5), notice(2, 3)]);
    expect_owed(&cabinet, "0000 0020");
    cabinet.expect("AG", three, &done(11, 5));
    expect_last(&cabinet, 510, &[notice(1, 3), notice(1, 5), notice(2, 3), notice(2, 5)]);
    expect_owed(&cabinet, "");
}

#[test]
fn all_128_pairs_are_laid_one_by_one() {
    let mut cabinet = with("0004", 8, 512, &"FFFF".repeat(8));
    let mut notices = Vec::new();
    for at in 0..128_u8 {
        cabinet.expect("AG", TAKE, &done(8 + u32::from(at), 5));
        let (monitor, host) = (at / 16 + 1, at % 16);
        notices.push(notice(monitor, host));
        let mut masks = [0xFFFF_u16; 8];
        masks[..usize::from(monitor) - 1].fill(0);
        masks[usize::from(monitor) - 1] = 0xFFFF << host & !(1 << host);
        expect_owed(&cabinet, &masks.map(|mask| format!("{mask:04X}")).concat());
        assert_eq!(cabinet.state[14..16], [2, 0]);
    }
    expect_last(&cabinet, 512, &notices);
    cabinet.expect("AG", TAKE, &done(136, 5));
    expect_last(&cabinet, 511, &notices);
}

/// Every fifth tuple of the first 500 lies in space 1: 100 go, 24 come, and 76 places stay free.
#[test]
fn ds_makes_room_with_an_empty_queue() {
    let place = |i: usize| usize::from(i % 5 == 0 && i < 500);
    let entries: Vec<String> = (0..512).map(|i| format!("{:04X} 01 00 {i:08X}", place(i))).collect();
    let tuples: Vec<&str> = entries.iter().map(String::as_str).collect();
    let owed = "00FF 0000 0000 F00F 0000 0000 0000 AAAA";
    let header = format!("5453 00000007 0004 08 00000002 02 0200 00 {owed}");
    let mut cabinet = Cabinet::holding(&header, "0000 00 0000 0001 00 0000", &tuples);
    cabinet.expect("DS", "02 0005 0001", "5250 00000008 02 0005 00 00 00");
    let mut left: Vec<String> = (0..512).filter(|i| place(*i) == 0).map(|i| entries[i].clone()).collect();
    assert_eq!(left.len(), 412);
    left.extend([0, 1, 2, 3, 4, 5, 6, 7].map(|host| notice(1, host)));
    left.extend([0, 1, 2, 3, 12, 13, 14, 15].map(|host| notice(4, host)));
    left.extend([1, 3, 5, 7, 9, 11, 13, 15].map(|host| notice(8, host)));
    expect_last(&cabinet, 436, &left);
    cabinet.expect_spaces("5453 00000008 0004 08 00000002 01 01B4 00", "");
}

/// Three places for four pairs, one of them awaited by its values.
#[test]
fn ds_lays_what_fits_and_wakes() {
    let entries: Vec<String> = (0..512).map(|i| format!("{:04X} 01 01 00000009", u8::from(i < 3))).collect();
    let tuples: Vec<&str> = entries.iter().map(String::as_str).collect();
    let header = "5453 00000007 0004 03 00000002 02 0200 00 0000 0003 0011";
    let mut cabinet = Cabinet::holding(header, "0000 00 0000 0001 00 0000", &tuples);
    let last = "02 0006 01 03 0000 03 00 01 00000001 00 00 00000003 00 00 00000000 00";
    cabinet.expect("AG", last, "");
    let replies = format!("5250 00000009 02 0005 00 00 00 {}", done(8, 6));
    cabinet.expect("DS", "02 0005 0001", &replies);
    expect_last(&cabinet, 512, &[notice(2, 0), notice(2, 1), notice(3, 0)]);
    expect_owed(&cabinet, "0000 0000 0010");
}

// ---- Never inside a statement ----

#[test]
fn taking_one_and_putting_one_keeps_the_debt() {
    let mut cabinet = with("0004", 1, 512, "8000");
    let guard = "02 0005 01 01 0000 01 05 00 01 05 0000 01 00 01 00000007";
    cabinet.expect("AG", guard, &done(8, 5));
    let body = "02 0005 01 00 02 01 0000 01 05 00 05 0000 01 00 01 00000008";
    cabinet.expect("AG", body, &done(9, 5));
    expect_last(&cabinet, 512, &["0000 01 01 00000007".to_string(), "0000 01 01 00000008".to_string()]);
    expect_owed(&cabinet, "8000");
    let moved = "02 0005 01 00 01 06 0000 0000 01 05 00";
    cabinet.expect("AG", moved, &done(10, 5));
    expect_owed(&cabinet, "8000");
    let two = "02 0005 01 01 0000 01 05 00 02 05 0000 01 00 01 00000007 05 0000 01 00 01 00000007";
    cabinet.expect_unchanged("AG", two, "5250 0000000B 02 0005 0C 01 00");
}

/// The room that an in makes is the statement's own until it ends: no notice is there to read.
#[test]
fn a_statement_does_not_see_what_is_laid_after_it() {
    let mut cabinet = with("0004", 1, 512, "0008");
    let reads = format!("02 0005 01 01 0000 01 05 00 01 03 {ANY_NOTICE}");
    cabinet.expect_unchanged("AG", &reads, "5250 00000008 02 0005 10 01 00");
    let eight = format!("02 0005 01 00 08 {} {}", "01 0000 01 05 00".repeat(4), "05 0000 01 00 00 00000001".repeat(4));
    cabinet.expect("AG", &eight, &done(9, 5));
    expect_owed(&cabinet, "0008");
}

#[test]
fn a_failed_statement_makes_no_room() {
    let mut cabinet = with("0004", 1, 512, "0008");
    let sixteen = "02 0005 01 01 0000 01 05 00 01 01 0000 01 05 02";
    cabinet.expect_unchanged("AG", sixteen, "5250 00000008 02 0005 10 01 00");
    let seventeen = "02 0005 01 01 0000 01 01 00 00 01 05 0000 01 04 00 00 80000000";
    cabinet.expect_unchanged("AG", seventeen, "5250 00000009 02 0005 11 01 00");
    let twelve = "02 0005 01 00 01 05 0000 01 00 01 00000007";
    cabinet.expect_unchanged("AG", twelve, "5250 0000000A 02 0005 0C 01 00");
    let eighteen = "02 0005 01 02 0000 01 05 02 00";
    cabinet.expect_unchanged("AG", eighteen, "5250 0000000B 02 0005 12 00 00");
}

/// The woken one takes (name 7) and fails: (name 7) stays, and the debt too.
#[test]
fn a_woken_statement_that_fails_makes_no_room() {
    let mut cabinet = with("0004", 1, 512, "0008");
    cabinet.expect("AG", "02 0006 01 01 0000 01 00 01 00000007 01 01 0000 01 05 02", "");
    let put = "02 0005 01 01 0000 01 05 00 01 05 0000 01 00 01 00000007";
    let replies = format!("{} 5250 00000008 02 0006 10 01 00", done(9, 5));
    cabinet.expect("AG", put, &replies);
    expect_last(&cabinet, 512, &["0000 01 01 00000007".to_string()]);
    expect_owed(&cabinet, "0008");
    assert_eq!(cabinet.waiting(), 0);
}

// ---- Before each search, and after each statement that ran ----

/// Two go and one comes; the notice takes the place that was left, so the woken out is 12.
#[test]
fn the_debt_takes_the_room_before_a_woken_statement() {
    for (owed, outcome, last) in [("0008", "0C", notice(1, 3)), ("0000", "00", "0000 01 01 00000008".to_string())] {
        let mut cabinet = with("0004", 1, 512, owed);
        cabinet.expect("AG", READ_7_PUT_8, "");
        let replies = format!("{} 5250 00000008 02 0006 {outcome} 01 00", done(9, 5));
        cabinet.expect("AG", TAKE_2_PUT_1, &replies);
        expect_last(&cabinet, 512, &["0000 01 01 00000007".to_string(), last]);
        expect_owed(&cabinet, "");
        assert_eq!(cabinet.waiting(), 0);
    }
}

/// The waiting statement reads the notice that is laid, and its out finds no room.
#[test]
fn a_laid_tuple_wakes_and_leaves_no_room() {
    let mut cabinet = with("0004", 2, 512, "0000 0008");
    cabinet.expect("AG", &format!("02 0006 01 03 {ANY_NOTICE} 01 05 0000 01 02 01"), "");
    let replies = format!("{} 5250 00000008 02 0006 0C 01 00", done(9, 5));
    cabinet.expect("AG", TAKE, &replies);
    expect_last(&cabinet, 512, &["0000 01 00 000001FF".to_string(), notice(2, 3)]);
    expect_owed(&cabinet, "");
    assert_eq!(cabinet.waiting(), 0);
}

/// With in in the place of rd it has the room of the notice that it took.
#[test]
fn a_laid_tuple_is_taken() {
    let mut cabinet = with("0004", 2, 512, "0000 0008");
    cabinet.expect("AG", &format!("02 0006 01 01 {ANY_NOTICE} 01 05 0000 01 02 01"), "");
    let woken = "5250 00000008 02 0006 00 01 02 00 00 00000002 01 00 00000003";
    cabinet.expect("AG", TAKE, &format!("{} {woken}", done(9, 5)));
    expect_last(&cabinet, 512, &["0000 01 00 000001FF".to_string(), "0000 01 00 00000003".to_string()]);
    expect_owed(&cabinet, "");
}

/// Guards of given values: the older waits for a pair that is not owed, the younger for the one laid.
#[test]
fn a_laid_tuple_wakes_by_its_values() {
    let mut cabinet = with("0004", 2, 512, "0000 0008");
    let waits = |process: &str, monitor: u8| {
        format!("02 {process} 01 03 0000 03 00 01 00000001 00 00 {monitor:08X} 00 00 00000003 00")
    };
    cabinet.expect("AG", &waits("0006", 1), "");
    cabinet.expect("AG", &waits("0007", 2), "");
    cabinet.expect("AG", TAKE, &format!("{} {}", done(10, 5), done(9, 7)));
    assert_eq!(cabinet.waiting(), 1);
}

/// The notice is there when the queue is first searched: the older statement, which waits for it, goes first.
#[test]
fn debts_are_laid_before_the_first_search() {
    let mut cabinet = with("0004", 1, 512, "0008");
    cabinet.expect("AG", &format!("02 0007 01 03 {ANY_NOTICE} 00"), "");
    cabinet.expect("AG", "02 0006 01 03 0000 01 00 01 00000007 00", "");
    let told = "5250 00000008 02 0007 00 01 02 00 00 00000001 01 00 00000003";
    cabinet.expect("AG", TAKE_2_PUT_1, &format!("{} {told} {}", done(10, 5), done(9, 6)));
}

/// Three pairs owed, two statements that take a notice each: each makes room for the next pair.
#[test]
fn debts_are_laid_after_each_woken_statement() {
    let mut cabinet = with("0004", 2, 512, "0018 0001");
    cabinet.expect("AG", &format!("02 0006 01 01 {ANY_NOTICE} 00"), "");
    cabinet.expect("AG", &format!("02 0007 01 01 {ANY_NOTICE} 00"), "");
    let first = "5250 00000008 02 0006 00 01 02 00 00 00000001 01 00 00000003";
    let second = "5250 00000009 02 0007 00 01 02 00 00 00000001 01 00 00000004";
    cabinet.expect("AG", TAKE, &format!("{} {first} {second}", done(10, 5)));
    expect_last(&cabinet, 512, &["0000 01 00 000001FF".to_string(), notice(2, 0)]);
    expect_owed(&cabinet, "");
}

/// The first woken statement takes two; both pairs are laid before the next search, and the second's out is 12.
#[test]
fn a_woken_statement_makes_room_for_debts_first() {
    let mut cabinet = with("0004", 1, 512, "0030");
    cabinet.expect("AG", "02 0007 01 03 0000 01 00 01 00000007 02 01 0000 01 05 00 01 0000 01 05 00", "");
    cabinet.expect("AG", READ_7_PUT_8, "");
    let put = "02 0005 01 01 0000 01 05 00 01 05 0000 01 00 01 00000007";
    let replies = format!("{} {} 5250 00000009 02 0006 0C 01 00", done(10, 5), done(8, 7));
    cabinet.expect("AG", put, &replies);
    expect_last(&cabinet, 512, &["0000 01 01 00000007".to_string(), notice(1, 4), notice(1, 5)]);
    expect_owed(&cabinet, "");
}

/// At 511 a crash leaves one notice and owes one; who takes the first makes room for the second.
#[test]
fn a_crash_lays_its_own_debt_once_there_is_room() {
    let mut cabinet = with("000C", 2, 511, "");
    cabinet.expect("AG", &format!("02 0006 01 01 {ANY_NOTICE} 00"), "");
    let woken = "5250 00000008 02 0006 00 01 02 00 00 00000001 01 00 00000003";
    cabinet.expect("CR", "03", &format!("5250 00000009 03 0000 00 00 01 00 00 00000001 {woken}"));
    expect_last(&cabinet, 512, &["0000 01 00 000001FE".to_string(), notice(2, 3)]);
    expect_owed(&cabinet, "");
}

/// The same pair is present and owed: taking it lets the owed one be laid, to be taken next.
#[test]
fn a_notice_taken_makes_room_for_an_equal_one() {
    let mut cabinet = with("0004", 1, 511, "");
    let put = "02 0005 01 00 01 05 0000 03 00 01 00000001 00 00 00000001 00 00 00000003";
    cabinet.expect("AG", put, &done(8, 5));
    cabinet.expect("RV", "03", "5250 00000009 03 0000 00 00 01 00 00 00000002");
    cabinet.expect("CR", "03", "5250 0000000A 03 0000 00 00 01 00 00 00000001");
    expect_owed(&cabinet, "0008");
    let take = format!("02 0005 01 01 {ANY_NOTICE} 00");
    for position in [11, 12] {
        let values = "00 00 00000001 01 00 00000003";
        cabinet.expect("AG", &take, &format!("5250 {position:08X} 02 0005 00 01 02 {values}"));
        expect_owed(&cabinet, "");
    }
    expect_last(&cabinet, 511, &["0000 01 00 000001FE".to_string()]);
}

// ---- The state buffer ----

/// With 512 tuples and all numbers given, each of the 16 bytes may be anything; with 511 only zero.
#[test]
fn a_debt_stands_beside_512_tuples() {
    for at in 17..33 {
        for byte in [0x01, 0x10, 0x80, 0xFF] {
            for (tuples, expected) in [(512, true), (511, false), (1, false), (0, false)] {
                let mut cabinet = with("0004", 8, tuples, "");
                cabinet.state[at] = byte;
                assert_eq!(cabinet.holds_a_state(), expected, "{at} {byte} {tuples}");
            }
        }
    }
    assert!(with("0004", 8, 512, &"FFFF".repeat(8)).holds_a_state());
    assert!(!with("0004", 8, 511, &"FFFF".repeat(8)).holds_a_state());
}

#[test]
fn a_number_not_given_is_owed_nothing() {
    for monitors in 0..=8 {
        for number in 1..=8 {
            for mask in ["0001", "8000", "0100", "0080"] {
                let cabinet = with("0004", monitors, 512, &one_mask(number, mask));
                assert_eq!(cabinet.holds_a_state(), number <= monitors.into(), "{monitors} {number} {mask}");
            }
        }
    }
}

#[test]
fn the_header_is_zero_after_the_masks() {
    for at in 33..64 {
        let mut cabinet = with("0004", 8, 512, &"FFFF".repeat(8));
        cabinet.state[at] = 1;
        assert!(!cabinet.holds_a_state(), "{at}");
    }
}

/// Up or down, any host may be owed.
#[test]
fn an_owed_host_may_be_up() {
    for hosts in ["0000", "FFFF", "0008", "FFF7"] {
        let mut cabinet = with(hosts, 1, 512, "0008");
        let mark = if hosts.starts_with('F') { "CR" } else { "RV" };
        assert_eq!(cabinet.call(&record(mark, 8, "0F")), 18, "{hosts}");
    }
}

// ---- The program ----

/// 512 tuples, a crash that is owed, and a reader that is told when room comes.
#[test]
fn program_tells_of_a_crash_at_512() {
    let copies = "07 0000 0000 00".repeat(7);
    let bodies = [
        ("RV", "02".to_string()),
        ("RV", "03".to_string()),
        ("MO", "02 0005".to_string()),
        ("AG", format!("02 0005 01 00 08 05 0000 01 00 00 00000000 {copies}")),
        ("AG", "02 0005 01 00 02 07 0000 0000 00 07 0000 0000 00".to_string()),
        ("AG", format!("02 0006 01 01 {ANY_NOTICE} 00")),
        ("CR", "03".to_string()),
        ("AG", "02 0005 01 00 01 05 0000 01 00 00 00000001".to_string()),
        ("AG", TAKE.to_string()),
    ];
    let records = bodies.iter().zip(1..).flat_map(|((mark, body), at)| record(mark, at, body));
    let mut child = Command::new(env!("CARGO_BIN_EXE_cabinet"))
        .stdin(Stdio::piped())
        .stdout(Stdio::piped())
        .spawn()
        .unwrap();
    child.stdin.take().unwrap().write_all(&records.collect::<Vec<u8>>()).unwrap();
    let printed = String::from_utf8(child.wait_with_output().unwrap().stdout).unwrap();
    let expected = "1 2 0 0 0 0:0:00000001\n2 3 0 0 0 0:0:00000002\n3 2 5 0 0 0:0:00000001\n\
        4 2 5 0 1\n5 2 5 0 1\n7 3 0 0 0 0:0:00000001\n8 2 5 12 1\n\
        9 2 5 0 1\n6 2 6 0 1 0:0:00000001 1:0:00000003\n";
    assert_eq!(printed, expected);
}
