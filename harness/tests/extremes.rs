//! The ends of every range and table, with the values that document 01 and requests L1 and L3 of document 02 give.

use harness::hex::{hex, record, unhex};
use harness::layout::{owed, set_next, space, HOSTS, LAST, NEXT, REPLY_BYTES, SPACE_COUNT_AT};
use harness::library::LIBRARY;
use harness::replica::{reply, Replica};
use harness::states;
use reference::statement;

#[test]
fn the_last_position() {
    let mut state = Replica::fresh().state;
    state[LAST].copy_from_slice(&unhex("FFFFFFFE"));
    let mut replica = Replica::of(state, 4_294_967_294);
    replica.expect("RV", "02", &["4294967295 2 0 0 0 0:0:00000001"]);
    assert_eq!(replica.state[LAST], unhex("FFFFFFFF"));
    for number in [4_294_967_295, 4_294_967_294, 1, 0] {
        replica.refuse(&record("CR", number, "02"), 4);
    }
    replica.refuse(&record("XX", 0, "02"), 3);
}

#[test]
fn a_statement_that_waits_from_the_last_position() {
    let mut state = Replica::up().state;
    state[LAST].copy_from_slice(&unhex("FFFFFFFE"));
    let mut replica = Replica::of(state, 4_294_967_294);
    replica.expect("AG", "02 0005 01 01 0000 01 05 00 00", &[]);
    replica.expect_waiting(0, "FFFFFFFF 000B 02 0005 01 01 0000 01 05 00 00");
    replica.refuse(&record("CR", 0, "02"), 4);
}

#[test]
fn thirty_two_spaces() {
    let mut replica = Replica::up();
    for space in 1..=31 {
        replica.expect("MS", "02 0005 00", &[&format!("{} 2 5 0 0 0:0:{space:08X}", space + 1)]);
    }
    assert_eq!(replica.state[SPACE_COUNT_AT], 32);
    assert_eq!(replica.state[space(31)], unhex("001F 00 0000"));
    replica.expect_unchanged("MS", "02 0005 00", "33 2 5 14 0");
    replica.expect("DS", "02 0005 0011", &["34 2 5 0 0"]);
    replica.expect("MS", "02 0005 01", &["35 2 5 0 0 0:0:00000020"]);
    assert_eq!(replica.state[space(31)], unhex("0020 01 0005"));
    assert_eq!(replica.state[space(17)], unhex("0012 00 0000"));
}

#[test]
fn eight_monitors_are_told_of_a_crash() {
    let mut replica = Replica::up();
    for monitor in 1..=8 {
        replica.expect("MO", "02 0005", &[&format!("{} 2 5 0 0 0:0:{monitor:08X}", monitor + 1)]);
    }
    replica.expect("CR", "02", &["10 2 0 0 0 0:0:00000000"]);
    let notices: Vec<String> =
        (1..=8).map(|monitor| format!("0000 03 01 00000001 00 {monitor:08X} 00 00000002")).collect();
    replica.expect_tuples(&notices.iter().map(String::as_str).collect::<Vec<&str>>());
}

#[test]
fn sixteen_hosts() {
    let mut replica = Replica::fresh();
    for host in 0..16 {
        let line = format!("{} {host} 0 0 0 0:0:{:08X}", host + 1, host + 1);
        replica.expect("RV", &format!("{host:02X}"), &[&line]);
    }
    assert_eq!(replica.state[HOSTS], [0xFF, 0xFF]);
    replica.expect("CR", "00", &["17 0 0 0 0 0:0:0000000F"]);
    assert_eq!(replica.state[HOSTS], [0xFF, 0xFE]);
}

#[test]
fn a_move_of_512_tuples() {
    let mut replica = Replica::full();
    replica.expect("MS", "02 0005", &["4 2 5 0 0 0:0:00000001"]);
    replica.expect("AG", "02 0005 01 00 01 06 0000 0001 00", &["5 2 5 0 1"]);
    replica.expect_tuples(&["0001 01 00 00000000"; 512]);
    replica.expect("DS", "02 0005 0001", &["6 2 5 0 0"]);
    replica.expect_tuples(&[]);
}

/// 32 waiting statements that bind all 16 variables are woken at once: the longest replies, 3,564 bytes.
#[test]
fn thirty_two_are_woken_at_once() {
    let mut replica = Replica::up();
    let bind = |from: u8, to: u8| (from..to).map(|v| format!("01 00 {v:02X}")).collect::<String>();
    let reads = |code: &str, from, to| format!("{code} 0000 {:02X} {}", to - from, bind(from, to));
    let waits = format!("01 {} 02 {} {}", reads("03", 0, 6), reads("03", 6, 12), reads("03", 12, 16));
    for process in 1..=32 {
        replica.expect("AG", &format!("02 {process:04X} {waits}"), &[]);
    }
    let six = "00 00 FFFFFFFF".repeat(6);
    let four = "00 00 00000001".repeat(4);
    let feeds = format!("05 0000 06 {six} 05 0000 04 {four} {}", reads("03", 0, 6));
    let wide = format!("02 0040 01 00 05 {feeds} {} {}", reads("03", 6, 12), reads("03", 12, 16));
    let values: String =
        (0..16).map(|v| format!(" {v}:0:{}", if v < 12 { "FFFFFFFF" } else { "00000001" })).collect();
    let mut replies = reply(&format!("34 2 64 0 1{values}"));
    for process in 1..=32 {
        replies.extend(reply(&format!("{} 2 {process} 0 1{values}", process + 1)));
    }
    assert_eq!(replies.len(), 3_564);
    replica.expect_bytes("AG", &wide, &replies);
    assert_eq!(replica.waiting_count(), 0);
}

#[test]
fn a_body_of_250_bytes_is_legal_and_one_of_251_is_not() {
    let mut replica = Replica::up();
    let out = |count| format!("05 0000 {count:02X} {}", "00 00 00000000 ".repeat(count));
    let outs = out(6).repeat(5);
    let legal = format!("02 0005 01 00 07 {outs} {} {}", out(5), out(1));
    assert_eq!(unhex(&legal).len(), 250);
    replica.expect("AG", &legal, &["2 2 5 0 1"]);
    let reads = "03 0000 03 01 00 00 05 00 05 02";
    let longer = format!("02 0005 01 00 07 {outs} {} {reads}", out(5));
    assert_eq!(unhex(&longer).len(), 251);
    replica.expect_unchanged("AG", &longer, "3 255 65535 6 0");
    let shorter = format!("02 0005 01 00 07 {outs} {} {reads}", out(4));
    replica.expect_unchanged("AG", &shorter, "4 2 5 16 1");
}

#[test]
fn a_body_of_65535_bytes_is_malformed() {
    let mut replica = Replica::up();
    replica.expect_unchanged("AG", &"00".repeat(65_535), "2 255 65535 6 0");
}

// ---- Calls with as much to lay down as there can be ----

/// The failure tuple as an entry has it.
fn notice((monitor, host): (u8, u8)) -> String {
    format!("0000 03 01 00000001 00 {monitor:08X} 00 {host:08X}")
}

/// These are all tuples, nothing is owed and nobody waits.
fn expect_settled(replica: &Replica, tuples: &[String]) {
    replica.expect_tuples(&tuples.iter().map(String::as_str).collect::<Vec<&str>>());
    assert_eq!((owed(&replica.state), replica.waiting_count()), ([0; 8], 0));
}

/// Nobody waits: all 128 pairs are laid down at once.
#[test]
fn ds_of_512_tuples_lays_128_pairs() {
    let mut replica = Replica::of(states::bytes(&states::owing(1, &states::pairs())), 1000);
    replica.expect("DS", "02 0007 0001", &["1001 2 7 0 0"]);
    let notices: Vec<String> = states::pairs().into_iter().map(notice).collect();
    assert_eq!((notices.len(), notices[16].as_str()), (128, "0000 03 01 00000001 00 00000002 00 00000000"));
    expect_settled(&replica, &notices);
}

/// 128 are laid down at once, and 32 statements take one each, the oldest statement the oldest notice.
#[test]
fn ds_of_512_tuples_lays_128_pairs_and_wakes_32() {
    let mut replica = Replica::of(states::bytes(&states::told()), 1000);
    let mut lines = vec!["1001 2 7 0 0".to_string()];
    for (at, (monitor, host)) in (0..32).zip(states::pairs()) {
        lines.push(format!("{} 2 {} 0 1 0:0:{monitor:08X} 1:0:{host:08X}", at + 1, at + 100));
    }
    replica.expect("DS", "02 0007 0001", &lines.iter().map(String::as_str).collect::<Vec<&str>>());
    let left: Vec<String> = states::pairs()[32..].iter().copied().map(notice).collect();
    expect_settled(&replica, &left);
}

/// Four pairs are laid down after the own statement and after each of 31 woken ones, until all 128 are. The queue is
/// searched 33 times, and each time all older statements are tried before the youngest is woken.
#[test]
fn pairs_laid_in_32_portions() {
    let mut replica = Replica::of(states::bytes(&states::owed_chain()), 1000);
    let takes = statement::write(&states::statement(2, 7, states::take_four()));
    let mut lines = vec!["1001 2 7 0 1".to_string()];
    lines.extend((0..32).rev().map(|at| format!("{} 2 {} 0 4", at + 1, at + 100)));
    replica.expect("AG", &hex(&takes), &lines.iter().map(String::as_str).collect::<Vec<&str>>());
    let head = "0000 06 01 00000007 00 00000001 01 00000002 00 00000003 00 00000004";
    let mut left: Vec<String> = (1_100..1_512).map(|number: u32| format!("{head} 00 {number:08X}")).collect();
    let untaken = states::pairs().into_iter().enumerate().filter(|(at, _)| at % 4 > 0);
    left.extend(untaken.map(|(_, pair)| notice(pair)));
    assert_eq!(left.len(), 508);
    expect_settled(&replica, &left);
}

/// All sixteen hosts are owed to all eight monitors already, and crash once more.
#[test]
fn crashes_that_owe_nothing_new() {
    let mut run = states::owing(0, &states::pairs());
    run.up = [true; 16];
    let mut replica = Replica::of(states::bytes(&run), 1000);
    for host in 0..16_u32 {
        let line = format!("{} {host} 0 0 0 0:0:{:08X}", 1001 + host, 15 - host);
        let before = replica.state.clone();
        replica.expect("CR", &format!("{host:02X}"), &[&line]);
        assert!(replica.state[HOSTS.end..] == before[HOSTS.end..]);
    }
    assert_eq!(owed(&replica.state), [0xFFFF; 8]);
}

// ---- Space numbers of two bytes ----

/// Host 2 is up, and the next space number is this one.
fn next(number: u32) -> Replica {
    let mut state = Replica::up().state;
    set_next(&mut state, number);
    Replica::of(state, 1)
}

/// As the next record, process 5 opens the space of this number, of this kind.
fn open(replica: &mut Replica, number: u32, kind: &str) {
    set_next(&mut replica.state, number);
    let line = format!("{} 2 5 0 0 0:0:{number:08X}", replica.position + 1);
    replica.expect("MS", &format!("02 0005 {kind}"), &[&line]);
}

/// Host 2 is up, and these shared spaces are open beside space 0.
fn opened(numbers: &[u32]) -> Replica {
    let mut replica = Replica::up();
    numbers.iter().for_each(|number| open(&mut replica, *number, "00"));
    replica
}

/// The body operations, by this process, have this outcome and branch as the next record's only reply.
fn run(replica: &mut Replica, process: u16, operations: &[&str], outcome: &str) {
    let body = format!("02 {process:04X} 01 00 {:02X} {}", operations.len(), operations.concat());
    let line = format!("{} 2 {process} {outcome}", replica.position + 1);
    replica.expect("AG", &body, &[&line]);
}

/// out of (name 7) to a space.
fn out(space: &str) -> String {
    format!("05 {space} 01 00 01 00000007")
}

/// Each of 1 to 65,535 is given once, in order; then MS is 14. By the library alone, which is quick.
#[test]
fn space_numbers_are_used_up_at_65536() {
    let (mut state, mut buffer, mut position) = (Replica::up().state, vec![0; REPLY_BYTES], 1);
    let mut expect = |mark, body: &str, line: String| {
        position += 1;
        let returned = (LIBRARY.take)(&mut state, &record(mark, position, body), &mut buffer);
        assert_eq!(buffer[..returned as usize], reply(&format!("{position} {line}")), "{mark} {body}");
    };
    for number in 1..=65_535 {
        expect("MS", "02 0005 01", format!("2 5 0 0 0:0:{number:08X}"));
        expect("DS", &format!("02 0005 {number:04X}"), "2 5 0 0".to_string());
    }
    expect("MS", "02 0005", "2 5 14 0".to_string());
    assert_eq!(state[NEXT.start..=SPACE_COUNT_AT], unhex("00010000 01"));
    Replica::of(state, position).expect_unchanged("MS", "02 0005 01", "131073 2 5 14 0");
}

#[test]
fn the_last_space_number() {
    let mut replica = next(65_535);
    replica.expect("MS", "02 0005", &["2 2 5 0 0 0:0:0000FFFF"]);
    assert_eq!(replica.state[NEXT.start..=SPACE_COUNT_AT], unhex("00010000 02"));
    assert_eq!(replica.state[space(1)], unhex("FFFF 00 0000"));
    replica.expect_unchanged("MS", "02 0005", "3 2 5 14 0");
    run(&mut replica, 6, &[&out("FFFF"), &out("FFFF")], "0 1");
    replica.expect_tuples(&["FFFF 01 01 00000007"; 2]);
    replica.expect("AG", "02 0006 01 01 FFFF 01 01 01 00 00", &["5 2 6 0 1 0:1:00000007"]);
    replica.expect("DS", "02 0006 FFFF", &["6 2 6 0 0"]);
    replica.expect_tuples(&[]);
    assert_eq!(replica.state[NEXT.start..=SPACE_COUNT_AT], unhex("00010000 01"));
    replica.expect_unchanged("MS", "02 0005 01", "7 2 5 14 0");
    replica.expect_unchanged("DS", "02 0006 FFFF", "8 2 6 10 0");
    run(&mut replica, 6, &[&out("FFFF")], "10 0");
}

#[test]
fn the_next_number_of_a_state() {
    for number in [1, 2, 255, 256, 257, 65_535, 65_536] {
        next(number).expect("MO", "02 0005", &["2 2 5 0 0 0:0:00000001"]);
    }
    for number in [0, 65_537, 65_792, 131_072, 16_777_217, 2_147_483_649, 4_294_967_295] {
        next(number).refuse(&record("MO", 2, "02 0005"), 1);
    }
}

/// At 65,536 all but MS goes on.
#[test]
fn records_at_the_last_next_number() {
    let mut replica = next(65_536);
    replica.expect_unchanged("MS", "02 0005", "2 2 5 14 0");
    run(&mut replica, 5, &[&out("0000")], "0 1");
    replica.expect("MO", "02 0005", &["4 2 5 0 0 0:0:00000001"]);
    replica.expect("CR", "02", &["5 2 0 0 0 0:0:00000000"]);
    replica.expect_tuples(&["0000 01 01 00000007", "0000 03 01 00000001 00 00000001 00 00000002"]);
}

/// None of these is space 0, though each has one of its bytes: naming it is 10, and DS is not 15.
#[test]
fn half_a_0_is_not_space_0() {
    let mut replica = Replica::up();
    for number in ["0100", "0200", "8000", "FF00", "0001", "00FF"] {
        run(&mut replica, 5, &[&out(number)], "10 0");
        run(&mut replica, 5, &[&format!("06 0000 {number} 00")], "10 0");
        run(&mut replica, 5, &[&format!("07 {number} 0000 00")], "10 0");
        let line = |replica: &Replica| format!("{} 2 5 10 0", replica.position + 1);
        let waits = format!("02 0005 01 01 {number} 01 05 00 00");
        replica.expect_unchanged("AG", &waits, &line(&replica));
        replica.expect_unchanged("DS", &format!("02 0005 {number}"), &line(&replica));
    }
    replica.expect_tuples(&[]);
}

/// Spaces of which some have the high byte of another, some the low byte, and two each other's bytes.
const ALIKE: [&str; 4] = ["0000", "0001", "0100", "0101"];

/// A tuple in one space meets no template of another.
#[test]
fn templates_tell_spaces_apart() {
    let mut replica = opened(&[1, 256, 257]);
    let line = |replica: &Replica, rest: &str| format!("{} 2 5 {rest}", replica.position + 1);
    let inp = |space: &str| format!("02 0005 01 02 {space} 01 01 01 00 00");
    let rdp = |space: &str| format!("02 0005 01 04 {space} 01 00 01 00000007 00");
    for space in ALIKE {
        run(&mut replica, 5, &[&out(space)], "0 1");
        for other in ALIKE.into_iter().filter(|other| *other != space) {
            replica.expect_unchanged("AG", &inp(other), &line(&replica, "18 0"));
            replica.expect_unchanged("AG", &rdp(other), &line(&replica, "18 0"));
            run(&mut replica, 5, &[&format!("01 {other} 01 05 01")], "16 1");
        }
        replica.expect_unchanged("AG", &rdp(space), &line(&replica, "0 1"));
        let taken = line(&replica, "0 1 0:1:00000007");
        replica.expect("AG", &inp(space), &[&taken]);
        replica.expect_tuples(&[]);
    }
}

#[test]
fn a_private_space_256_beside_shared_0() {
    let mut replica = Replica::up();
    open(&mut replica, 256, "01");
    assert_eq!(replica.state[space(1)], unhex("0100 01 0005"));
    run(&mut replica, 6, &[&out("0100")], "11 0");
    run(&mut replica, 6, &[&out("0000")], "0 1");
    run(&mut replica, 6, &["06 0000 0100 00"], "11 0");
    run(&mut replica, 6, &["07 0100 0000 00"], "11 0");
    replica.expect_unchanged("DS", "02 0006 0100", "7 2 6 11 0");
    run(&mut replica, 5, &[&out("0100")], "0 1");
    replica.expect_tuples(&["0000 01 01 00000007", "0100 01 01 00000007"]);
    replica.expect("DS", "02 0005 0100", &["9 2 5 0 0"]);
    replica.expect_tuples(&["0000 01 01 00000007"]);
}

#[test]
fn move_and_copy_between_0_and_256() {
    let mut replica = opened(&[256]);
    let high = ["0100 01 00 00000002", "0100 01 00 00000001"];
    let low = ["0000 01 00 00000002", "0000 01 00 00000001"];
    run(&mut replica, 5, &["05 0000 01 00 00 00000001", "05 0100 01 00 00 00000002"], "0 1");
    run(&mut replica, 5, &["06 0000 0100 00"], "0 1");
    replica.expect_tuples(&high);
    run(&mut replica, 5, &["07 0100 0000 00"], "0 1");
    replica.expect_tuples(&[high, low].concat());
    run(&mut replica, 5, &["06 0100 0000 00"], "0 1");
    replica.expect_tuples(&[low, low].concat());
    run(&mut replica, 5, &["07 0000 0100 01 00 00 00000002"], "0 1");
    replica.expect_tuples(&[low, low, [high[0]; 2]].concat());
}

/// A space is named by both bytes: 1 and 256 are no names of each other, nor of 257.
#[test]
fn ds_takes_its_own_space_and_tuples_alone() {
    let mut replica = opened(&[1, 256, 257]);
    run(&mut replica, 5, &ALIKE.map(out).each_ref().map(String::as_str), "0 1");
    replica.expect("DS", "02 0005 0100", &["6 2 5 0 0"]);
    replica.expect_tuples(&["0000 01 01 00000007", "0001 01 01 00000007", "0101 01 01 00000007"]);
    replica.expect("DS", "02 0005 0001", &["7 2 5 0 0"]);
    replica.expect_tuples(&["0000 01 01 00000007", "0101 01 01 00000007"]);
    assert_eq!(replica.state[space(1)], unhex("0101 00 0000"));
}

/// A statement that waits in 256 is woken there alone, and holds back DS of 256 alone.
#[test]
fn a_statement_that_waits_in_256() {
    let mut replica = opened(&[1, 256]);
    replica.expect("AG", "02 0006 01 01 0100 01 00 01 00000007 00", &[]);
    replica.expect_waiting(0, "00000004 000F 02 0006 01 01 0100 01 00 01 00000007 00");
    run(&mut replica, 5, &[&out("0000"), &out("0001")], "0 1");
    replica.expect_unchanged("DS", "02 0005 0100", "6 2 5 15 0");
    replica.expect("DS", "02 0005 0001", &["7 2 5 0 0"]);
    let feeds = format!("02 0005 01 00 01 {}", out("0100"));
    replica.expect("AG", &feeds, &["8 2 5 0 1", "4 2 6 0 1"]);
    replica.expect_tuples(&["0000 01 01 00000007"]);
    replica.expect("DS", "02 0005 0100", &["9 2 5 0 0"]);
}

#[test]
fn a_ds_body_has_five_bytes() {
    let mut replica = opened(&[1, 256]);
    for body in ["02 0005", "02 0005 01", "02 0005 0100 00", "02 0005 0001 01"] {
        let line = format!("{} 255 65535 6 0", replica.position + 1);
        replica.expect_unchanged("DS", body, &line);
    }
    replica.expect("DS", "02 0005 0100", &["8 2 5 0 0"]);
}

/// 24,768 bytes are no state, and no more so where they are as many as a state has.
#[test]
fn a_state_of_the_layout_before() {
    let mut before = unhex("5453 00000001 0004 00 0001 01 0000 00");
    for length in [24_768, 25_312] {
        before.resize(length, 0);
        Replica::refuse_all(&before, &record("RV", 2, "03"), &[0; REPLY_BYTES], 1);
    }
    let mut short = vec![7; 24_768];
    assert_eq!((LIBRARY.fresh)(&mut short), 1);
    assert!(short == [7; 24_768]);
}

/// What was a copy within space 0 of the tuples with one whole number is a copy of all tuples to space 261.
#[test]
fn a_record_of_the_layout_before() {
    let copies = "07 00 00 01 05 00";
    run(&mut Replica::up(), 5, &[copies], "10 0");
    let mut replica = opened(&[261]);
    run(&mut replica, 5, &[&out("0000"), copies], "0 1");
    replica.expect_tuples(&["0000 01 01 00000007", "0105 01 01 00000007"]);
}
