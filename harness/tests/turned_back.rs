//! Every number of "Turned back" with its example, and the order of the checks.

use harness::hex::record;
use harness::layout::{owed, HOSTS};
use harness::replica::Replica;

#[test]
fn refusal_1() {
    let good = record("RV", 1, "03");
    Replica::refuse_all(&[], &good, &[0; 3564], 1);
    Replica::refuse_all(&[0; 25_312], &good, &[0; 3564], 1);
    let fresh = Replica::fresh().state;
    Replica::refuse_all(&fresh[..25_311], &good, &[0; 3564], 1);
    Replica::refuse_all(&[&fresh[..], &[0]].concat(), &good, &[0; 3564], 1);
}

#[test]
fn refusal_2() {
    let fresh = Replica::fresh().state;
    Replica::refuse_all(&fresh, &record("RV", 1, "03"), &[7; 3563], 2);
    Replica::refuse_all(&fresh, &record("RV", 1, "03"), &[], 2);
}

#[test]
fn refusal_3() {
    let mut replica = Replica::fresh();
    replica.refuse(b"AG", 3);
    replica.refuse(b"", 3);
    replica.refuse(b"RV\0\x01\0\0\0", 3);
    replica.refuse(b"RV\0\x02\0\0\0\x01\x03", 3);
    replica.refuse(b"RV\0\x00\0\0\0\x01\x03", 3);
    replica.refuse(b"RP\0\x01\0\0\0\x01\x03", 3);
}

#[test]
fn refusals_4_and_5() {
    let mut replica = Replica::fresh();
    replica.refuse(&record("RV", 0, "03"), 4);
    replica.refuse(&record("RV", 2, "03"), 5);
    replica.refuse(&record("RV", 4_294_967_295, "03"), 5);
    replica.expect("RV", "03", &["1 3 0 0 0 0:0:00000001"]);
    replica.refuse(&record("RV", 1, "03"), 4);
}

/// Of 1 to 5 the first that fails is returned, whatever else is wrong.
#[test]
fn the_order_of_1_to_5() {
    let up = Replica::up().state;
    let states: [(&[u8], u64); 2] = [(&up[1..], 1), (&up, 0)];
    let replies: [(&[u8], u64); 2] = [(&[9; 3563], 2), (&[9; 3564], 0)];
    let none = b"XX\0\0\0\0\0\0".to_vec();
    let records = [(none, 3), (record("RV", 1, "03"), 4), (record("RV", 3, "03"), 5)];
    for (state, first) in states {
        for (reply, second) in replies {
            for (record, third) in &records {
                let number = [first, second, *third].into_iter().find(|number| *number > 0).unwrap_or(0);
                Replica::refuse_all(state, record, reply, number);
            }
        }
    }
}

#[test]
fn refusal_6() {
    let mut replica = Replica::fresh();
    replica.expect_unchanged("RV", "10", "1 255 65535 6 0");
    let bodies = [("CR", ""), ("MO", "02 00"), ("MS", "02 0001 02"), ("DS", "02 0001"), ("AG", "")];
    let no_space_number = [("DS", "02 0001 00"), ("DS", "02 0001 0000 00"), ("AG", "02 0001 01 01 00")];
    for (mark, body) in bodies.into_iter().chain(no_space_number) {
        let line = format!("{} 255 65535 6 0", replica.position + 1);
        replica.expect_unchanged(mark, body, &line);
    }
}

#[test]
fn refusals_7_and_8() {
    let mut replica = Replica::fresh();
    replica.expect_unchanged("CR", "03", "1 3 0 7 0");
    replica.expect("RV", "03", &["2 3 0 0 0 0:0:00000001"]);
    replica.expect_unchanged("RV", "03", "3 3 0 8 0");
    replica.expect("RV", "0F", &["4 15 0 0 0 0:0:00000002"]);
    assert_eq!(replica.state[HOSTS], [0x80, 0x08]);
}

#[test]
fn refusal_9() {
    let mut replica = Replica::up();
    replica.expect("AG", "02 0000 01 01 0000 01 05 00 00", &[]);
    replica.expect_unchanged("MO", "02 0000", "3 2 0 9 0");
    replica.expect_unchanged("MS", "02 0000 01", "4 2 0 9 0");
    replica.expect_unchanged("DS", "02 0000 0009", "5 2 0 9 0");
    replica.expect_unchanged("AG", "02 0000 01 00 00", "6 2 0 9 0");
    replica.expect("RV", "04", &["7 4 0 0 0 0:0:00000002"]);
    replica.expect_unchanged("MO", "04 0000", "8 4 0 9 0");
    replica.expect("CR", "02", &["9 2 0 0 0 0:0:00000001"]);
    assert_eq!(replica.waiting_count(), 0);
}

#[test]
fn refusals_10_and_11() {
    let mut replica = Replica::up();
    replica.expect_unchanged("AG", "02 0005 01 00 01 05 0009 01 00 00 00000001", "2 2 5 10 0");
    replica.expect("MS", "02 0005 01", &["3 2 5 0 0 0:0:00000001"]);
    replica.expect_unchanged("AG", "02 0006 01 00 01 05 0001 01 00 00 00000001", "4 2 6 11 0");
    let closed_after_denied = "02 0006 02  02 0001 01 05 00  00  00  01  07 0000 0009 00";
    replica.expect_unchanged("AG", closed_after_denied, "5 2 6 10 0");
    let in_a_later_branch = "02 0006 02  00 00  02 0001 01 05 00 00";
    replica.expect_unchanged("AG", in_a_later_branch, "6 2 6 11 0");
    replica.expect_unchanged("DS", "02 0006 0001", "7 2 6 11 0");
    replica.expect_unchanged("DS", "02 0006 0009", "8 2 6 10 0");
    replica.expect("AG", "02 0005 01 00 01 05 0001 01 00 00 00000001", &["9 2 5 0 1"]);
    replica.expect("DS", "02 0005 0001", &["10 2 5 0 0"]);
    replica.expect_tuples(&[]);
}

/// Of a statement alone: a crash without room is done, and its failure tuple is owed.
#[test]
fn refusal_12() {
    let mut replica = Replica::full();
    replica.expect_unchanged("AG", "02 0005 01 00 01 05 0000 01 00 00 00000001", "4 2 5 12 1");
    replica.expect_unchanged("AG", "02 0005 01 00 01 07 0000 0000 00", "5 2 5 12 1");
    replica.expect("MO", "02 0005", &["6 2 5 0 0 0:0:00000001"]);
    replica.expect("AG", "02 0005 01 01 0000 01 00 01 00000007 00", &[]);
    replica.expect("CR", "02", &["8 2 0 0 0 0:0:00000000"]);
    assert_eq!((replica.waiting_count(), replica.tuple_count()), (0, 512));
    assert_eq!(owed(&replica.state), [0x0004, 0, 0, 0, 0, 0, 0, 0]);
}

#[test]
fn refusal_13() {
    let mut replica = Replica::up();
    for process in 1..=32 {
        replica.expect("AG", &format!("02 {process:04X} 01 01 0000 01 00 01 00000007 00"), &[]);
    }
    replica.expect_unchanged("AG", "02 0021 01 01 0000 01 00 01 00000007 00", "34 2 33 13 0");
    replica.expect_unchanged("AG", "02 0021 01 02 0000 01 00 01 00000007 00", "35 2 33 18 0");
}

#[test]
fn refusal_14_monitors() {
    let mut replica = Replica::up();
    for monitor in 1..=8 {
        let line = format!("{} 2 5 0 0 0:0:{monitor:08X}", monitor + 1);
        replica.expect("MO", "02 0005", &[&line]);
    }
    replica.expect_unchanged("MO", "02 0005", "10 2 5 14 0");
}

#[test]
fn refusal_15() {
    let mut replica = Replica::up();
    replica.expect_unchanged("DS", "02 0005 0000", "2 2 5 15 0");
    replica.expect("MS", "02 0005", &["3 2 5 0 0 0:0:00000001"]);
    replica.expect("AG", "02 0005 01  01 0000 01 05 00  01  05 0001 01 00 00 00000001", &[]);
    replica.expect_unchanged("DS", "02 0006 0001", "5 2 6 15 0");
}

#[test]
fn refusals_16_and_17() {
    let mut replica = Replica::up();
    replica.expect_unchanged("AG", "02 0005 01 00 01 01 0000 01 05 00", "2 2 5 16 1");
    replica.expect("AG", "02 0005 01 00 01 05 0000 01 00 00 7FFFFFFF", &["3 2 5 0 1"]);
    let plus = "02 0005 01  01 0000 01 01 00 00  01  05 0000 01 03 00 00 00000001";
    replica.expect_unchanged("AG", plus, "4 2 5 17 1");
}

/// One out: 17 before 12. Between operations the first to fail decides.
#[test]
fn the_order_of_17_and_12() {
    let mut replica = Replica::full();
    let both = "02 0005 01  03 0000 01 01 00 00  01  05 0000 01 04 00 00 80000000";
    replica.expect_unchanged("AG", both, "4 2 5 17 1");
    let twelve_first = "02 0005 01  03 0000 01 01 00 00  02  05 0000 01 02 00  05 0000 01 04 00 00 80000000";
    replica.expect_unchanged("AG", twelve_first, "5 2 5 12 1");
}
