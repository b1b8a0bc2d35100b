//! L1, more than 255 spaces in a season: its ends, with expectations worked out by hand.

mod common;

use common::{record, unhex, Cabinet};
use reference::call::{fresh, take};
use reference::layout::encode;
use reference::run::{Mark, Run};
use reference::value::whole;
use reference::writer::{self, Addition, Part};
use std::io::Write;
use std::process::{Command, Stdio};

/// Host 2 up, last position 7, next number 65,535, space 0 alone.
const NEXT_65535: &str = "5453 00000007 0004 00 0000FFFF 01 0000 00";

/// Host 2 up, last position 7, next number 65,536, this many spaces and tuples.
fn used_up(spaces: u8, tuples: u16) -> String {
    format!("5453 00000007 0004 00 00010000 {spaces:02X} {tuples:04X} 00")
}

// ---- The state buffer ----

#[test]
fn a_state_has_25312_bytes() {
    assert_eq!(64 + 32 * 5 + 512 * 33 + 32 * 256, 25_312);
    let mut state = vec![0xEE; 25_312];
    assert_eq!(fresh(&mut state), 0);
    assert_eq!(state[..17], unhex("5453 00000000 0000 00 00000001 01 0000 00"));
    assert!(state[17..].iter().all(|byte| *byte == 0));
}

/// The fresh state as it was, with a next number of two bytes: in its own length and in the new one.
#[test]
fn a_state_of_the_layout_before_is_refused() {
    let mut state = unhex("5453 00000000 0000 00 0001 01 0000 00");
    for length in [24_768, 25_312] {
        state.resize(length, 0);
        let kept = state.clone();
        assert_eq!(take(&mut state, &record("RV", 1, "02"), &mut vec![0; 3_564]), 1);
        assert!(state == kept);
    }
    assert_eq!(fresh(&mut vec![7; 24_768]), 1);
}

#[test]
fn next_number_is_1_to_65536() {
    let with = |next: &str| format!("5453 00000007 0004 00 {next} 01 0000 00");
    for next in ["00000001", "000000FF", "00000100", "00000101", "0000FFFF", "00010000"] {
        assert!(Cabinet::holding(&with(next), "", &[]).holds_a_state(), "{next}");
    }
    for next in ["00000000", "00010001", "00010100", "00020000", "01000000", "01000001", "FFFFFFFF"] {
        assert!(!Cabinet::holding(&with(next), "", &[]).holds_a_state(), "{next}");
    }
}

#[test]
fn spaces_are_below_the_next_number() {
    let with = |next: &str| format!("5453 00000007 0004 00 {next} 02 0000 00");
    let cases = [("FFFF", "00010000", true), ("FFFF", "0000FFFF", false), ("FFFE", "0000FFFF", true)];
    let more = [("0100", "00000101", true), ("0100", "00000100", false), ("0100", "00000002", false)];
    for (number, next, expected) in cases.into_iter().chain(more) {
        let cabinet = Cabinet::holding(&with(next), &format!("0000 00 0000 {number} 00 0000"), &[]);
        assert_eq!(cabinet.holds_a_state(), expected, "{number} {next}");
    }
}

/// 256 after 255 is in order, whatever the low bytes do.
#[test]
fn spaces_rise_by_number() {
    let across = [["00FF", "0100", "0101"], ["01FF", "0200", "0201"]];
    let apart = [["0002", "0100", "FFFF"], ["0100", "0200", "0300"]];
    for numbers in across.into_iter().chain(apart) {
        let is_state = |order: [usize; 3]| {
            let entries = order.map(|i| format!("{} 00 0000", numbers[i])).join(" ");
            Cabinet::holding(&used_up(4, 0), &format!("0000 00 0000 {entries}"), &[]).holds_a_state()
        };
        assert!(is_state([0, 1, 2]), "{numbers:?}");
        for order in [[1, 0, 2], [0, 2, 1], [2, 1, 0], [1, 2, 0], [0, 0, 1], [0, 1, 1]] {
            assert!(!is_state(order), "{numbers:?} {order:?}");
        }
    }
}

#[test]
fn space_0_stands_first_and_is_shared() {
    for first in ["0000 01 0000", "0000 00 0005", "0100 00 0000", "0001 00 0000"] {
        let spaces = format!("{first} 0200 00 0000");
        assert!(!Cabinet::holding(&used_up(2, 0), &spaces, &[]).holds_a_state(), "{first}");
    }
    assert!(Cabinet::holding(&used_up(2, 0), "0000 00 0000 0200 01 0005", &[]).holds_a_state());
    assert!(!Cabinet::holding(&used_up(2, 0), "0000 00 0000 0200 00 0005", &[]).holds_a_state());
    assert!(!Cabinet::holding(&used_up(2, 0), "0000 00 0000 0200 02 0005", &[]).holds_a_state());
}

#[test]
fn tuples_lie_in_open_spaces() {
    let spaces = "0000 00 0000 0100 00 0000 FFFF 01 0005";
    let is_state = |space: &str| {
        let tuple = format!("{space} 06 {}", "00 80000000".repeat(6));
        Cabinet::holding(&used_up(3, 2), spaces, &[&tuple, &tuple]).holds_a_state()
    };
    for space in ["0000", "0100", "FFFF"] {
        assert!(is_state(space), "{space}");
    }
    for space in ["0001", "00FF", "0101", "01FF", "0200", "FF00", "FFFE"] {
        assert!(!is_state(space), "{space}");
    }
}

/// The three counts stand behind the four bytes of the next number.
#[test]
fn counts_stand_at_13_14_and_16() {
    let mut cabinet = Cabinet::holding(&used_up(2, 0), "0000 00 0000 0100 00 0000", &[]);
    cabinet.expect("AG", "02 0005 01 01 0100 01 05 02 00", "");
    let two = "02 0006 01 00 02 05 0100 01 00 00 00000001 05 0000 01 00 00 00000002";
    cabinet.expect("AG", two, "5250 00000009 02 0006 00 01 00");
    cabinet.expect_spaces("5453 00000009 0004 00 00010000 02 0002 01", "0000 00 0000 0100 00 0000");
    cabinet.expect_tuples(&["0100 01 00 00000001", "0000 01 00 00000002"]);
    let mut entry = unhex("00000008 000B 02 0005 01 01 0100 01 05 02 00");
    entry.resize(256, 0);
    assert!(cabinet.state[17_120..17_376] == entry[..]);
}

// ---- Numbers given out ----

#[test]
fn ms_gives_65535_and_then_14() {
    let mut cabinet = Cabinet::holding(NEXT_65535, "", &[]);
    cabinet.expect("MS", "02 0005 01", "5250 00000008 02 0005 00 00 01 00 00 0000FFFF");
    cabinet.expect_spaces("5453 00000008 0004 00 00010000 02 0000 00", "0000 00 0000 FFFF 01 0005");
    cabinet.expect_unchanged("MS", "02 0005 01", "5250 00000009 02 0005 0E 00 00");
    cabinet.expect_unchanged("MS", "02 0006", "5250 0000000A 02 0006 0E 00 00");
    cabinet.expect("DS", "02 0005 FFFF", "5250 0000000B 02 0005 00 00 00");
    cabinet.expect_spaces("5453 0000000B 0004 00 00010000 01 0000 00", "");
    cabinet.expect_unchanged("MS", "02 0005 00", "5250 0000000C 02 0005 0E 00 00");
}

#[test]
fn ms_goes_on_past_255() {
    let mut cabinet = Cabinet::holding("5453 00000007 0004 00 000000FE 01 0000 00", "", &[]);
    cabinet.expect("MS", "02 0005 01", "5250 00000008 02 0005 00 00 01 00 00 000000FE");
    cabinet.expect("MS", "02 0005 00", "5250 00000009 02 0005 00 00 01 00 00 000000FF");
    cabinet.expect("MS", "02 0006 01", "5250 0000000A 02 0006 00 00 01 00 00 00000100");
    cabinet.expect("MS", "02 0005", "5250 0000000B 02 0005 00 00 01 00 00 00000101");
    let spaces = "0000 00 0000 00FE 01 0005 00FF 00 0000 0100 01 0006 0101 00 0000";
    cabinet.expect_spaces("5453 0000000B 0004 00 00000102 05 0000 00", spaces);
}

/// 31 spaces far apart beside space 0: no 33rd, though numbers are left.
#[test]
fn thirty_two_are_open_at_once() {
    let numbers = (1..=31).map(|i| format!("{:02X}{:02X} 00 0000", 8 * i, 255 - 8 * i));
    let spaces = format!("0000 00 0000 {}", numbers.collect::<Vec<_>>().join(" "));
    let mut cabinet = Cabinet::holding("5453 00000007 0004 00 0000FFFF 20 0000 00", &spaces, &[]);
    cabinet.expect_unchanged("MS", "02 0005", "5250 00000008 02 0005 0E 00 00");
    cabinet.expect("DS", "02 0005 08F7", "5250 00000009 02 0005 00 00 00");
    cabinet.expect("MS", "02 0005", "5250 0000000A 02 0005 00 00 01 00 00 0000FFFF");
    cabinet.expect_unchanged("MS", "02 0005", "5250 0000000B 02 0005 0E 00 00");
    let out = "02 0005 01 00 02 05 F807 01 00 00 00000001 05 FFFF 01 00 00 00000002";
    cabinet.expect("AG", out, "5250 0000000C 02 0005 00 01 00");
    cabinet.expect_tuples(&["F807 01 00 00000001", "FFFF 01 00 00000002"]);
    let closed = "02 0005 01 00 01 05 08F7 01 00 00 00000001";
    cabinet.expect_unchanged("AG", closed, "5250 0000000D 02 0005 0A 00 00");
}

/// From the fresh state on, on the lists alone: 1 to 65,535, each closed again.
#[test]
fn every_number_is_given_once() {
    let mut run = Run::fresh();
    run.step(1, Mark::Rv, &[2]);
    for number in 1..=65_535 {
        let replies = run.step(run.last + 1, Mark::Ms, &[2, 0, 5, 1]);
        assert_eq!((replies[0].outcome, &replies[0].values[..]), (0, &[(0, whole(number))][..]));
        let closed = [2, 0, 5, (number / 256) as u8, (number % 256) as u8];
        assert_eq!(run.step(run.last + 1, Mark::Ds, &closed)[0].outcome, 0);
    }
    assert_eq!(run.step(run.last + 1, Mark::Ms, &[2, 0, 5, 1])[0].outcome, 14);
    let mut state = unhex("5453 00020000 0004 00 00010000 01 0000 00");
    state.resize(25_312, 0);
    assert!(encode(&run) == state);
}

// ---- Records that name a space ----

#[test]
fn space_65535() {
    let mut cabinet = Cabinet::holding(NEXT_65535, "", &[]);
    let out = "02 0005 01 00 01 05 FFFF 01 00 00 00000001";
    cabinet.expect_unchanged("AG", out, "5250 00000008 02 0005 0A 00 00");
    cabinet.expect_unchanged("DS", "02 0005 FFFF", "5250 00000009 02 0005 0A 00 00");
    cabinet.expect("MS", "02 0005", "5250 0000000A 02 0005 00 00 01 00 00 0000FFFF");
    cabinet.expect("AG", out, "5250 0000000B 02 0005 00 01 00");
    cabinet.expect_tuples(&["FFFF 01 00 00000001"]);
    cabinet.expect("AG", "02 0006 01 03 FFFF 01 01 00 04 00", "5250 0000000C 02 0006 00 01 01 04 00 00000001");
    cabinet.expect("DS", "02 0006 FFFF", "5250 0000000D 02 0006 00 00 00");
    cabinet.expect_tuples(&[]);
    cabinet.expect_unchanged("AG", out, "5250 0000000E 02 0005 0A 00 00");
}

#[test]
fn ds_has_a_body_of_5_bytes() {
    let mut cabinet = Cabinet::holding(&used_up(2, 0), "0000 00 0000 0100 00 0000", &[]);
    let lengths = ["", "02", "02 00", "02 0005", "02 0005 01", "02 0005 0100 00", "02 0005 00 0100"];
    let bodies = lengths.into_iter().chain(["10 0005 0100"]);
    for (i, body) in bodies.enumerate() {
        cabinet.expect_unchanged("DS", body, &format!("5250 {:08X} FF FFFF 06 00 00", 8 + i));
    }
    cabinet.expect_unchanged("DS", "02 0005 0001", "5250 00000010 02 0005 0A 00 00");
    cabinet.expect("DS", "02 0005 0100", "5250 00000011 02 0005 00 00 00");
}

/// The high byte comes first.
#[test]
fn bytes_the_other_way_round_name_another_space() {
    let mut cabinet = Cabinet::holding(&used_up(2, 0), "0000 00 0000 0102 00 0000", &[]);
    let swapped = "02 0005 01 00 01 05 0201 01 00 00 00000001";
    cabinet.expect_unchanged("AG", swapped, "5250 00000008 02 0005 0A 00 00");
    cabinet.expect_unchanged("DS", "02 0005 0201", "5250 00000009 02 0005 0A 00 00");
    cabinet.expect("DS", "02 0005 0102", "5250 0000000A 02 0005 00 00 00");
}

// ---- A low byte of 0 is not space 0 ----

#[test]
fn spaces_256_and_512_are_not_space_0() {
    let mut cabinet = Cabinet::up();
    for (i, number) in ["0100", "0200", "FF00"].iter().enumerate() {
        let reply = |outcome: &str, at: usize| format!("5250 {:08X} 02 0005 {outcome} 00 00", 3 * i + at);
        let out = format!("02 0005 01 00 01 05 {number} 01 00 00 00000001");
        cabinet.expect_unchanged("AG", &out, &reply("0A", 2));
        let guard = format!("02 0005 01 01 {number} 01 05 00 00");
        cabinet.expect_unchanged("AG", &guard, &reply("0A", 3));
        cabinet.expect_unchanged("DS", &format!("02 0005 {number}"), &reply("0A", 4));
    }
    cabinet.expect_unchanged("DS", "02 0005 0000", "5250 0000000B 02 0005 0F 00 00");
}

#[test]
fn a_template_looks_at_both_bytes() {
    let spaces = "0000 00 0000 0100 00 0000 0101 00 0000";
    let there = ["0100 01 00 00000001", "0000 01 00 00000002"];
    let mut cabinet = Cabinet::holding(&used_up(3, 2), spaces, &there);
    // The first goes past the older tuple, which is in 256; there is none in 257.
    cabinet.expect("AG", "02 0005 01 04 0000 01 01 00 00 00", "5250 00000008 02 0005 00 01 01 00 00 00000002");
    cabinet.expect("AG", "02 0005 01 04 0100 01 01 00 00 00", "5250 00000009 02 0005 00 01 01 00 00 00000001");
    cabinet.expect_unchanged("AG", "02 0005 01 02 0101 01 05 00 00", "5250 0000000A 02 0005 12 00 00");
    cabinet.expect_unchanged("AG", "02 0005 01 02 0000 01 00 00 00000001 00", "5250 0000000B 02 0005 12 00 00");
    cabinet.expect_unchanged("AG", "02 0005 01 02 0100 01 00 00 00000002 00", "5250 0000000C 02 0005 12 00 00");
    let body = "02 0005 01 00 01 01 0101 01 05 00";
    cabinet.expect_unchanged("AG", body, "5250 0000000D 02 0005 10 01 00");
    cabinet.expect("AG", "02 0005 01 02 0000 01 05 00 00", "5250 0000000E 02 0005 00 01 00");
    cabinet.expect_tuples(&["0100 01 00 00000001"]);
    cabinet.expect_unchanged("AG", "02 0005 01 02 0000 01 05 00 00", "5250 0000000F 02 0005 12 00 00");
}

#[test]
fn a_statement_waits_for_both_bytes() {
    let mut cabinet = Cabinet::holding(&used_up(3, 0), "0000 00 0000 0100 00 0000 0200 00 0000", &[]);
    cabinet.expect("AG", "02 0005 01 01 0100 01 05 00 00", "");
    let out = |space: &str| format!("02 0006 01 00 01 05 {space} 01 00 00 00000001");
    cabinet.expect("AG", &out("0000"), "5250 00000009 02 0006 00 01 00");
    cabinet.expect("AG", &out("0200"), "5250 0000000A 02 0006 00 01 00");
    assert_eq!(cabinet.waiting(), 1);
    let woken = "5250 0000000B 02 0006 00 01 00  5250 00000008 02 0005 00 01 00";
    cabinet.expect("AG", &out("0100"), woken);
    cabinet.expect_tuples(&["0000 01 00 00000001", "0200 01 00 00000001"]);
    assert_eq!(cabinet.waiting(), 0);
}

/// A crash notice goes to space 0, and wakes nobody in 256.
#[test]
fn a_crash_notice_lies_in_space_0() {
    let header = "5453 00000007 000C 01 00010000 02 0000 00";
    let mut cabinet = Cabinet::holding(header, "0000 00 0000 0100 00 0000", &[]);
    cabinet.expect("AG", "02 0005 01 01 0100 03 05 01 05 00 05 00 00", "");
    cabinet.expect("CR", "03", "5250 00000009 03 0000 00 00 01 00 00 00000001");
    cabinet.expect_tuples(&["0000 03 01 00000001 00 00000001 00 00000003"]);
    assert_eq!(cabinet.waiting(), 1);
}

#[test]
fn a_closed_space_takes_its_own_tuples_along() {
    let spaces = "0000 00 0000 0001 00 0000 0100 00 0000 0101 00 0000 0200 00 0000";
    let (one, four) = ("0100 01 00 00000001", "0100 01 00 00000004");
    let (two, three, five) = ("0000 01 00 00000002", "0101 01 00 00000003", "0200 01 00 00000005");
    let mut cabinet = Cabinet::holding(&used_up(5, 5), spaces, &[one, two, three, four, five]);
    cabinet.expect("DS", "02 0005 0100", "5250 00000008 02 0005 00 00 00");
    cabinet.expect_tuples(&[two, three, five]);
    let left = "0000 00 0000 0001 00 0000 0101 00 0000 0200 00 0000";
    cabinet.expect_spaces("5453 00000008 0004 00 00010000 04 0003 00", left);
}

#[test]
fn ds_of_a_space_that_a_waiting_statement_names() {
    let spaces = "0000 00 0000 0001 00 0000 0100 00 0000 0101 00 0000 0202 00 0000";
    let mut cabinet = Cabinet::holding(&used_up(5, 0), spaces, &[]);
    cabinet.expect("AG", "02 0005 01 01 0000 01 05 00 01 06 0101 0202 00", "");
    cabinet.expect_unchanged("DS", "02 0006 0101", "5250 00000009 02 0006 0F 00 00");
    cabinet.expect_unchanged("DS", "02 0006 0202", "5250 0000000A 02 0006 0F 00 00");
    cabinet.expect("DS", "02 0006 0001", "5250 0000000B 02 0006 00 00 00");
    cabinet.expect("DS", "02 0006 0100", "5250 0000000C 02 0006 00 00 00");
    cabinet.expect_unchanged("DS", "02 0006 0000", "5250 0000000D 02 0006 0F 00 00");
}

/// What a waiting body names must be open, by both bytes.
#[test]
fn a_waiting_statement_names_open_spaces() {
    let is_state = |name: &str| {
        let header = "5453 00000007 0004 00 00010000 02 0000 01";
        let mut cabinet = Cabinet::holding(header, "0000 00 0000 0101 01 0005", &[]);
        let entry = unhex(&format!("00000003 000B 02 0005 01 01 {name} 01 05 00 00"));
        cabinet.state[17_120..17_120 + entry.len()].copy_from_slice(&entry);
        cabinet.holds_a_state()
    };
    assert!(is_state("0000") && is_state("0101"));
    for name in ["0001", "0100", "0102", "0201", "FF01", "01FF"] {
        assert!(!is_state(name), "{name}");
    }
}

// ---- A private space ----

#[test]
fn private_256_beside_shared_0() {
    let mut cabinet = Cabinet::holding(&used_up(2, 0), "0000 00 0000 0100 01 0005", &[]);
    let out = |process: u16, space: &str| format!("02 {process:04X} 01 00 01 05 {space} 01 00 00 {process:08X}");
    cabinet.expect_unchanged("AG", &out(6, "0100"), "5250 00000008 02 0006 0B 00 00");
    cabinet.expect("AG", &out(6, "0000"), "5250 00000009 02 0006 00 01 00");
    cabinet.expect_unchanged("DS", "02 0006 0100", "5250 0000000A 02 0006 0B 00 00");
    cabinet.expect("AG", &out(5, "0100"), "5250 0000000B 02 0005 00 01 00");
    cabinet.expect("AG", &out(5, "0000"), "5250 0000000C 02 0005 00 01 00");
    cabinet.expect_tuples(&["0000 01 00 00000006", "0100 01 00 00000005", "0000 01 00 00000005"]);
    // 10 over both ends comes before 11.
    cabinet.expect_unchanged("AG", "02 0006 01 00 01 06 0100 0200 00", "5250 0000000D 02 0006 0A 00 00");
    cabinet.expect_unchanged("AG", "02 0006 01 00 01 06 0100 0000 00", "5250 0000000E 02 0006 0B 00 00");
    cabinet.expect_unchanged("AG", "02 0006 01 00 01 07 0000 0100 00", "5250 0000000F 02 0006 0B 00 00");
    cabinet.expect("DS", "02 0005 0100", "5250 00000010 02 0005 00 00 00");
    cabinet.expect_tuples(&["0000 01 00 00000006", "0000 01 00 00000005"]);
}

// ---- Both ends of move and copy ----

#[test]
fn move_and_copy_between_spaces_of_one_byte() {
    let spaces = "0000 00 0000 0001 00 0000 0101 00 0000 FF01 00 0000";
    let there = ["0101 01 00 00000001", "0001 01 00 00000002", "0101 01 00 00000003"];
    let mut cabinet = Cabinet::holding(&used_up(4, 3), spaces, &there);
    cabinet.expect("AG", "02 0005 01 00 01 06 0101 FF01 00", "5250 00000008 02 0005 00 01 00");
    cabinet.expect_tuples(&["0001 01 00 00000002", "FF01 01 00 00000001", "FF01 01 00 00000003"]);
    cabinet.expect("AG", "02 0005 01 00 01 07 FF01 0001 01 05 00", "5250 00000009 02 0005 00 01 00");
    let (two, moved) = ("0001 01 00 00000002", ["FF01 01 00 00000001", "FF01 01 00 00000003"]);
    let copied = ["0001 01 00 00000001", "0001 01 00 00000003"];
    cabinet.expect_tuples(&[two, moved[0], moved[1], copied[0], copied[1]]);
    cabinet.expect("AG", "02 0005 01 00 01 06 0101 0001 00", "5250 0000000A 02 0005 00 01 00");
    cabinet.expect_tuples(&[two, moved[0], moved[1], copied[0], copied[1]]);
}

/// 07 00 00 01 05 00 was a copy within space 0; now it copies all of space 0 to 261.
#[test]
fn a_record_of_the_layout_before_is_not_known_by_its_bytes() {
    let copy = "02 0005 01 00 01 07 00 00 01 05 00";
    let there = ["0000 01 01 00000007", "0000 02 00 00000001 00 00000002"];
    let mut cabinet = Cabinet::holding("5453 00000007 0004 00 00000001 01 0002 00", "", &there);
    cabinet.expect_unchanged("AG", copy, "5250 00000008 02 0005 0A 00 00");
    let mut cabinet = Cabinet::holding(&used_up(2, 2), "0000 00 0000 0105 00 0000", &there);
    cabinet.expect("AG", copy, "5250 00000008 02 0005 00 01 00");
    cabinet.expect_tuples(&[there[0], there[1], "0105 01 01 00000007", "0105 02 00 00000001 00 00000002"]);
    cabinet.expect_unchanged("AG", "02 0005 01 00 01 05 00 01 00 00 00000001", "5250 00000009 FF FFFF 06 00 00");
}

// ---- Bodies at the limit ----

/// Six fields of form 0: 36 bytes.
fn six() -> String {
    format!("06 {}", "00 00 00000000 ".repeat(6))
}

/// With spaces of one byte each these had 250, 245 and 244 bytes.
#[test]
fn a_statement_that_grew_past_250_bytes_is_6() {
    let outs = format!("05 0000 {}", six()).repeat(6);
    let mut cabinet = Cabinet::up();
    let bodies = [
        (format!("02 0005 01 00 08 {outs} 06 0000 0000 00 06 0000 0000 01 05 00"), 260, 6 + 6 * 39 + 4 + 6),
        (format!("02 0005 01 00 07 {outs} 03 0000 01 05 00"), 252, 6 + 6 * 39 + 5),
        (format!("02 0005 01 00 07 {outs} 06 0000 0000 00"), 252, 6 + 6 * 39 + 4),
    ];
    for (i, (body, length, before)) in bodies.iter().enumerate() {
        assert_eq!(unhex(body).len(), *length);
        assert!(*before <= 250 && *length > 250);
        cabinet.expect_unchanged("AG", body, &format!("5250 {:08X} FF FFFF 06 00 00", 2 + i));
    }
}

/// A waiting entry that is used to its last byte.
#[test]
fn a_statement_of_250_bytes_waits() {
    // Head 4, guard 10, count 1, five outs of 40, rd of 11, and an out of 24.
    let outs = format!("05 0100 {}", six()).repeat(5);
    let head = "02 0005 01 01 0100 01 00 01 00000007 07";
    let rd = "03 0100 03 01 00 00 05 00 05 00";
    let out = "05 0100 04 00 00 00000000 00 00 00000000 02 00 00 00 00000001";
    let body = format!("{head} {outs} {rd} {out}");
    let long = unhex(&body);
    assert_eq!(long.len(), 250);
    let mut cabinet = Cabinet::holding(&used_up(2, 0), "0000 00 0000 0100 00 0000", &[]);
    cabinet.expect("AG", &body, "");
    assert_eq!(cabinet.waiting(), 1);
    assert_eq!(cabinet.state[17_120..17_126], unhex("00000008 00FA"));
    assert!(cabinet.state[17_126..17_376] == long[..]);
    assert_eq!(cabinet.state[17_375], 1);
    assert!(cabinet.state[17_376..].iter().all(|byte| *byte == 0));
    let longer = body.replace("02 0005", "02 0006").replace(rd, "03 0100 03 01 00 00 01 00 01 05 00");
    assert_eq!(unhex(&longer).len(), 251);
    cabinet.expect_unchanged("AG", &longer, "5250 00000009 FF FFFF 06 00 00");
}

/// The writer counts two bytes for each space.
#[test]
fn the_writer_stops_at_250_bytes() {
    let given = Part { form: 0, ..Part::default() };
    let out = |count: usize| Addition { code: 5, spaces: vec![65_535], fields: vec![given.clone(); count] };
    let mut buffer = vec![0xCD; 300];
    let (_, mut fill) = writer::begin(&mut buffer, 0, 0, &Addition::default());
    for _ in 0..5 {
        fill = writer::add_operation(&mut buffer, fill, &out(6)).1;
    }
    assert_eq!(fill, 206);
    assert_eq!(writer::add_operation(&mut buffer, fill, &out(5)), (0, 240));
    let any = Part { form: 5, ..Part::default() };
    let transfer = |count| Addition { code: 6, spaces: vec![65_535, 256], fields: vec![any.clone(); count] };
    assert_eq!(writer::add_operation(&mut buffer, 240, &transfer(3)), (6, 240));
    assert_eq!(writer::add_operation(&mut buffer, 240, &transfer(2)), (0, 250));
    assert_eq!(buffer[240..251], [6, 0xFF, 0xFF, 1, 0, 2, 5, 0, 5, 0, 0xCD]);
    assert_eq!(writer::add_branch(&mut buffer, 250, &Addition::default()), (6, 250));
}

// ---- The program ----

#[test]
fn program_opens_space_256() {
    let mut stream = record("RV", 1, "02");
    for space in 1..=255 {
        stream.extend(record("MS", 2 * space, "02 0005"));
        stream.extend(record("DS", 2 * space + 1, &format!("02 0005 {space:04X}")));
    }
    stream.extend(record("MS", 512, "02 0005 01"));
    stream.extend(record("AG", 513, "02 0006 01 00 01 05 0100 01 00 00 00000001"));
    stream.extend(record("DS", 514, "02 0005 00"));
    stream.extend(record("DS", 515, "02 0005 0100"));
    let mut child = Command::new(env!("CARGO_BIN_EXE_cabinet"))
        .stdin(Stdio::piped())
        .stdout(Stdio::piped())
        .spawn()
        .unwrap();
    child.stdin.take().unwrap().write_all(&stream).unwrap();
    let printed = String::from_utf8(child.wait_with_output().unwrap().stdout).unwrap();
    let lines: Vec<&str> = printed.lines().collect();
    assert_eq!(lines.len(), 515);
    assert_eq!(lines[509..511], ["510 2 5 0 0 0:0:000000FF", "511 2 5 0 0"]);
    let last = ["512 2 5 0 0 0:0:00000100", "513 2 6 11 0", "514 255 65535 6 0", "515 2 5 0 0"];
    assert_eq!(lines[511..], last);
}
