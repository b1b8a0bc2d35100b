//! L4, ranges in templates, with expectations worked out by hand.

mod common;

use common::{hex, record, unhex, Cabinet};
use reference::generate::rng::Rng;
use reference::matching::first_failing;
use reference::meeting::can_meet;
use reference::run::{matches, Tuple};
use reference::statement::{self, operation_bytes, operation_parts, Field};
use reference::value::Value;
use reference::writer::{self, Addition, Part};

/// The answer for rd in space 0 with these fields, their number before them.
fn answer(fields: &str, values: &str) -> u8 {
    let operation = operation_parts(&unhex(&format!("03 0000 {fields}"))).unwrap();
    let bytes = unhex(values);
    let values = bytes.chunks(5).map(|value| Value { kind: value[0], bytes: value[1..].try_into().unwrap() });
    let tuple = Tuple { space: 0, values: values.collect() };
    let answer = first_failing(&operation.fields, &[], &tuple.values).number();
    assert_eq!(matches(&operation, &tuple, &[]), answer == 0, "{fields}");
    answer
}

/// Each of the values is in the range, or each is not.
fn range(kind: &str, lowest: &str, highest: &str, inside: &[&str], outside: &[&str]) {
    let fields = format!("01 06 {kind} {lowest} {highest} 00");
    for value in inside {
        assert_eq!(answer(&fields, &format!("{kind} {value}")), 0, "{fields}: {value}");
    }
    for value in outside {
        assert_eq!(answer(&fields, &format!("{kind} {value}")), 3, "{fields}: {value}");
    }
}

// ---- The answer ----

#[test]
fn both_ends_are_included() {
    range("00", "00000003", "00000005", &["00000003", "00000004", "00000005"], &["00000002", "00000006"]);
    // 3.4 to 3.6 metres, and 3.5 between.
    let inside = ["4059999A", "4059999B", "40600000", "40666665", "40666666"];
    range("02", "4059999A", "40666666", &inside, &["40599999", "40666667", "C0600000"]);
}

#[test]
fn whole_numbers_go_by_their_sign() {
    let inside = ["FFFFFFFE", "FFFFFFFF", "00000000", "00000001"];
    range("00", "FFFFFFFE", "00000001", &inside, &["FFFFFFFD", "00000002", "7FFFFFFF", "80000000"]);
    range("00", "80000000", "FFFFFFFF", &["80000000", "80000001", "FFFFFFFF"], &["00000000", "7FFFFFFF"]);
    range("00", "00000000", "7FFFFFFF", &["00000000", "7FFFFFFF"], &["FFFFFFFF", "80000000"]);
    let all = ["80000000", "FFFFFFFF", "00000000", "00000001", "7FFFFFFF"];
    range("00", "80000000", "7FFFFFFF", &all, &[]);
    // Bytes of 1.0 and -1.0 metres are whole numbers like others.
    range("00", "BF800000", "3F800000", &["BF800000", "C0000000", "00000000", "3F800000"], &["BF7FFFFF", "3F800001"]);
}

/// -2 metres are C0000000, -1.5 BFC00000, -1 BF800000; the more bits, the lower.
#[test]
fn negative_metres_go_by_their_number() {
    let outside = ["C0000001", "FF7FFFFF", "BF7FFFFF", "80000001", "00000000", "3FC00000", "7F7FFFFF"];
    range("02", "C0000000", "BF800000", &["C0000000", "BFFFFFFF", "BFC00000", "BF800001", "BF800000"], &outside);
    range("02", "FF7FFFFF", "C0000000", &["FF7FFFFF", "C0000001", "C0000000"], &["BFFFFFFF", "40000000"]);
}

#[test]
fn subnormal_metres_of_both_signs() {
    range("02", "00000001", "00000003", &["00000001", "00000002", "00000003"], &["00000000", "00000004", "80000002"]);
    let outside = ["80000004", "00000000", "00000002"];
    range("02", "80000003", "80000001", &["80000003", "80000002", "80000001"], &outside);
    // The last subnormal ones and the first normal ones.
    range("02", "007FFFFF", "00800000", &["007FFFFF", "00800000"], &["007FFFFE", "00800001", "807FFFFF"]);
    range("02", "80800000", "807FFFFF", &["80800000", "807FFFFF"], &["80800001", "807FFFFE", "007FFFFF"]);
}

#[test]
fn a_range_around_zero() {
    range("02", "80000001", "00000001", &["80000001", "00000000", "00000001"], &["80000002", "00000002"]);
    // From -1 to 0.5.
    let inside = ["BF800000", "BF000000", "80000001", "00000000", "00000001", "3F000000"];
    range("02", "BF800000", "3F000000", &inside, &["BF800001", "3F000001", "3F800000"]);
    range("02", "00000000", "3F800000", &["00000000", "00000001", "3F800000"], &["80000001", "BF800000", "3F800001"]);
    range("02", "BF800000", "00000000", &["BF800000", "80000001", "00000000"], &["00000001", "BF800001"]);
    range("02", "FF7FFFFF", "7F7FFFFF", &["FF7FFFFF", "80000001", "00000000", "00000001", "7F7FFFFF"], &[]);
    range("00", "FFFFFFFF", "00000001", &["FFFFFFFF", "00000000", "00000001"], &["FFFFFFFE", "00000002"]);
}

/// With equal ends a range matches what form 0 does.
#[test]
fn equal_ends_are_one_value() {
    let numbers = ["00000000", "00000001", "00000002", "3F800000", "7F7FFFFF", "80000001", "BF800000", "FF7FFFFF"];
    for (kind, end) in ["00", "02"].iter().flat_map(|kind| numbers.map(|end| (kind, end))) {
        for (other, value) in ["00", "02"].iter().flat_map(|other| numbers.map(|value| (other, value))) {
            let expected = if kind != other { 2 } else { 3 * u8::from(end != value) };
            let values = format!("{other} {value}");
            assert_eq!(answer(&format!("01 06 {kind} {end} {end} 00"), &values), expected, "{end} {values}");
            assert_eq!(answer(&format!("01 00 {kind} {end}"), &values), expected, "{end} {values}");
        }
    }
}

/// The number of fields, then all kinds, then the values and ranges.
#[test]
fn a_value_out_of_range_is_answer_3() {
    let two = "02 06 00 00000003 00000005 00 06 02 00000000 3F800000 01";
    assert_eq!(answer(two, "00 00000004 02 3F000000"), 0);
    assert_eq!(answer(two, "00 00000006 02 3F000000"), 3);
    assert_eq!(answer(two, "00 00000004 02 40000000"), 3);
    assert_eq!(answer(two, "00 00000006 02 40000000"), 3);
    assert_eq!(answer(two, "00 00000006 00 00000000"), 2);
    assert_eq!(answer(two, "01 00000004 02 3F000000"), 2);
    assert_eq!(answer(two, "02 00000004 02 3F000000"), 2);
    assert_eq!(answer(two, "00 00000004"), 1);
    assert_eq!(answer(two, "00 00000006 02 40000000 00 00000000"), 1);
    let mixed = "03 00 01 00000007 06 00 00000003 00000005 00 05 02";
    assert_eq!(answer(mixed, "01 00000007 00 00000005 02 00000000"), 0);
    assert_eq!(answer(mixed, "01 00000008 00 00000005 02 00000000"), 3);
    assert_eq!(answer(mixed, "01 00000007 00 00000002 02 00000000"), 3);
    assert_eq!(answer(mixed, "01 00000007 00 00000002 00 00000000"), 2);
}

/// DECISIONS 114: a negative value is below one that is not; of one sign the lower bits are the lower
/// value, but for two negative metres the higher bits.
#[test]
fn the_order_goes_by_the_bits() {
    let mut rng = Rng::new(7);
    let ends = [0, 1, 0x007F_FFFF, 0x0080_0000, 0x3F80_0000, 0x7F7F_FFFF, 0x7FFF_FFFF];
    for _ in 0..100_000 {
        let mut bits = || if rng.percent(50) { rng.next() as u32 } else { rng.pick(&ends) | rng.pick(&[0, 1 << 31]) };
        let (one, other) = (bits(), bits());
        let lower = |metres: bool| match (one >> 31, other >> 31) {
            (1, 0) => true,
            (0, 1) => false,
            (1, 1) if metres => one >= other,
            _ => one <= other,
        };
        for kind in [0, 2] {
            let [left, right] = [one, other].map(|bits| Value { kind, bytes: bits.to_be_bytes() });
            if left.is_legal() && right.is_legal() {
                assert_eq!(left.is_at_most(&right), lower(kind == 2), "{left:?} {right:?}");
            }
        }
    }
}

// ---- What is legal ----

const MALFORMED: &str = "FF FFFF 06 00 00";

/// A statement of process 5 on the empty space 0: 6, or else this outcome and branch.
fn is_malformed(branches: &str, otherwise: &str) -> bool {
    let mut cabinet = Cabinet::up();
    let count = cabinet.call(&record("AG", 2, &format!("02 0005 {branches}"))) as usize;
    let reply = hex(&cabinet.reply[..count]);
    let expected = [MALFORMED, otherwise].map(|end| hex(&unhex(&format!("5250 00000002 {end}"))));
    assert!(expected.contains(&reply), "{branches}: {reply}");
    reply == expected[0]
}

/// By a rdp guard, which on the empty space is 18.
fn guard_is_malformed(fields: &str) -> bool {
    is_malformed(&format!("01 04 0000 {fields} 00"), "02 0005 12 00 00")
}

#[test]
fn legal_ranges() {
    let cases = [
        "00 00000003 00000005 00",
        "00 00000003 00000003 0F",
        "00 80000000 7FFFFFFF 07",
        "00 FFFFFFFF 00000000 07",
        "00 80000000 80000000 07",
        "00 80000000 FFFFFFFF 07",
        "02 00000000 00000000 07",
        "02 80000001 00000000 07",
        "02 80000002 80000001 07",
        "02 C0000000 BF800000 07",
        "02 FF7FFFFF 7F7FFFFF 07",
        "02 7F7FFFFF 7F7FFFFF 07",
    ];
    for case in cases {
        assert!(!guard_is_malformed(&format!("01 06 {case}")), "{case}");
    }
}

#[test]
fn lowest_above_highest_is_malformed() {
    let cases = [
        "00 00000005 00000004",
        "00 00000000 FFFFFFFF",
        "00 7FFFFFFF 80000000",
        "00 FFFFFFFF FFFFFFFE",
        "00 FFFFFFFF 80000000",
        "02 3F800001 3F800000",
        "02 BF800000 C0000000",
        "02 80000001 80000002",
        "02 00000000 80000001",
        "02 00000001 00000000",
        "02 7F7FFFFF FF7FFFFF",
    ];
    for case in cases {
        assert!(guard_is_malformed(&format!("01 06 {case} 07")), "{case}");
    }
}

#[test]
fn names_and_unknown_kinds_have_no_range() {
    for kind in ["01", "03", "04", "80", "FF"] {
        assert!(guard_is_malformed(&format!("01 06 {kind} 00000001 00000002 07")), "{kind}");
        assert!(guard_is_malformed(&format!("01 06 {kind} 00000001 00000001 07")), "{kind}");
    }
}

/// A NaN of both signs, infinity of both signs, negative zero.
#[test]
fn ends_that_are_no_values_are_malformed() {
    for bits in ["7FC00000", "7F800001", "FFC00000", "FFFFFFFF", "7F800000", "FF800000", "80000000"] {
        assert!(guard_is_malformed(&format!("01 06 02 {bits} 7F7FFFFF 07")), "{bits}");
        assert!(guard_is_malformed(&format!("01 06 02 FF7FFFFF {bits} 07")), "{bits}");
        assert!(guard_is_malformed(&format!("01 06 02 {bits} {bits} 07")), "{bits}");
        assert!(!guard_is_malformed(&format!("01 06 00 {bits} 7FFFFFFF 07")), "{bits}");
    }
}

#[test]
fn a_range_has_a_variable_from_0_to_15() {
    for variable in 0..=255_u8 {
        let fields = format!("01 06 00 00000001 00000002 {variable:02X}");
        assert_eq!(guard_is_malformed(&fields), variable > 15, "{variable}");
    }
}

#[test]
fn a_range_has_eleven_bytes() {
    let body = unhex("02 0005 01 04 0000 01 06 02 80000001 00000001 07 00");
    assert_eq!(body.len(), 8 + 11 + 1);
    for length in 0..body.len() {
        assert_eq!(statement::read(&body[..length]), None, "{length}");
    }
    let read = statement::read(&body).unwrap();
    let range = Field::Range { kind: 2, lowest: [0x80, 0, 0, 1], highest: [0, 0, 0, 1], variable: 7 };
    assert_eq!(read.branches[0].guard.fields, [range]);
    assert_eq!(statement::write(&read), body);
    let longer = [&body[..], &[0]].concat();
    assert_eq!(statement::read(&longer), None);
    // There is no form 7.
    assert!(guard_is_malformed("01 07 00 00000001 00000002 07"));
}

#[test]
fn out_move_and_copy_have_no_range() {
    let range = "01 06 00 00000001 00000002 07";
    for operation in ["05 0000", "06 0000 0000", "07 0000 0000"] {
        assert!(is_malformed(&format!("01 00 01 {operation} {range}"), "02 0005 00 01 00"), "{operation}");
    }
    assert!(!is_malformed(&format!("01 00 01 01 0000 {range}"), "02 0005 10 01 00"));
    assert!(!is_malformed(&format!("01 00 01 03 0000 {range}"), "02 0005 10 01 00"));
    // inp and rdp are guards alone.
    assert!(is_malformed(&format!("01 00 01 02 0000 {range}"), "02 0005 10 01 00"));
    assert!(is_malformed(&format!("01 00 01 04 0000 {range}"), "02 0005 10 01 00"));
}

#[test]
fn a_range_binds_once_in_a_branch() {
    let (range, bind) = ("06 00 00000001 00000002 03", "01 00 03");
    for (one, other) in [(range, range), (range, bind), (bind, range)] {
        assert!(guard_is_malformed(&format!("02 {one} {other}")), "{one} {other}");
        let later = format!("01 04 0000 01 {one} 01 03 0000 01 {other}");
        assert!(is_malformed(&later, "02 0005 12 00 00"), "{later}");
        let bodies = format!("01 00 02 03 0000 01 {one} 03 0000 01 {other}");
        assert!(is_malformed(&bodies, "02 0005 10 01 00"), "{bodies}");
        let branches = format!("02 04 0000 01 {one} 00 04 0000 01 {other} 00");
        assert!(!is_malformed(&branches, "02 0005 12 00 00"), "{branches}");
    }
    assert!(!guard_is_malformed("02 06 00 00000001 00000002 03 06 00 00000001 00000002 04"));
}

/// Used in a later operation of the branch alone, and with its own kind.
#[test]
fn a_variable_of_a_range_is_used_later() {
    let range = "06 00 00000001 00000002 03";
    assert!(guard_is_malformed(&format!("02 {range} 02 03")));
    assert!(guard_is_malformed(&format!("02 02 03 {range}")));
    let cases = [
        ("05 0000 01 02 03", false),
        ("05 0000 01 03 03 00 00000001", false),
        ("05 0000 01 04 03 00 00000001", false),
        ("05 0000 01 03 03 02 3F800000", true),
        ("05 0000 01 04 03 02 3F800000", true),
        ("05 0000 01 03 03 01 00000001", true),
        ("05 0000 01 02 04", true),
        ("01 0000 01 02 03", false),
        ("06 0000 0000 01 02 03", false),
    ];
    for (operation, expected) in cases {
        let branch = format!("01 04 0000 01 {range} 01 {operation}");
        assert_eq!(is_malformed(&branch, "02 0005 12 00 00"), expected, "{operation}");
    }
    let other = format!("02 04 0000 01 {range} 00 04 0000 01 05 00 01 05 0000 01 02 03");
    assert!(is_malformed(&other, "02 0005 12 00 00"));
}

// ---- Streams ----

/// Host 2 up and these tuples in space 0, by process 5 at position 2.
fn with(tuples: &[&str]) -> Cabinet {
    let mut cabinet = Cabinet::up();
    let outs: Vec<String> = tuples.iter().map(|fields| format!("05 0000 {fields}")).collect();
    let body = format!("02 0005 01 00 {:02X} {}", outs.len(), outs.join(" "));
    cabinet.expect("AG", &body, "5250 00000002 02 0005 00 01 00");
    cabinet
}

const FORTY_ONE: &str = "02 00 01 00000007 00 00 00000029";

/// in(0, name 7, 40 to 42 into 3): the reply shows 41, and 2, 3 and 4 go by it.
#[test]
fn the_value_found_is_bound() {
    let guard = "01 0000 02 00 01 00000007 06 00 00000028 0000002A 03";
    let mut cabinet = with(&[FORTY_ONE]);
    let out = "05 0000 03 02 03 03 03 00 00000001 04 03 00 00000002";
    let body = format!("02 0005 01 {guard} 01 {out}");
    cabinet.expect("AG", &body, "5250 00000003 02 0005 00 01 01 03 00 00000029");
    cabinet.expect_tuples(&["0000 03 00 00000029 00 0000002A 00 00000027"]);
}

/// 3.5 metres in 3.4 to 3.6; plus 0.5 is 4, minus 0.5 is 3.
#[test]
fn metres_near_the_mark() {
    let mut cabinet = with(&["01 00 02 40600000"]);
    let guard = "03 0000 01 06 02 4059999A 40666666 0F";
    let body = format!("02 0005 01 {guard} 01 05 0000 02 03 0F 02 3F000000 04 0F 02 3F000000");
    cabinet.expect("AG", &body, "5250 00000003 02 0005 00 01 01 0F 02 40600000");
    cabinet.expect_tuples(&["0000 01 02 40600000", "0000 02 02 40800000 02 40400000"]);
}

#[test]
fn each_guard_takes_a_range() {
    for (code, left) in [("01", 0), ("02", 0), ("03", 1), ("04", 1)] {
        for ends in ["00000029 0000002B", "00000020 00000029", "00000029 00000029", "80000000 7FFFFFFF"] {
            let mut cabinet = with(&[FORTY_ONE]);
            let body = format!("02 0005 01 {code} 0000 02 05 01 06 00 {ends} 00 00");
            cabinet.expect("AG", &body, "5250 00000003 02 0005 00 01 01 00 00 00000029");
            assert_eq!(cabinet.state[15], left, "{code} {ends}");
        }
        for ends in ["0000002A 0000002B", "00000000 00000028", "80000000 FFFFFFFF"] {
            let mut cabinet = with(&[FORTY_ONE]);
            let body = format!("02 0005 01 {code} 0000 02 05 01 06 00 {ends} 00 00");
            let waits = code == "01" || code == "03";
            cabinet.expect("AG", &body, if waits { "" } else { "5250 00000003 02 0005 12 00 00" });
            assert_eq!((cabinet.waiting(), cabinet.state[15]), (u8::from(waits), 1), "{code} {ends}");
        }
    }
}

/// 39, 43, 42, 41 are there: of 40 to 42 it is 42 that is the oldest.
#[test]
fn the_oldest_in_range_is_taken() {
    let four = ["01 00 00 00000027", "01 00 00 0000002B", "01 00 00 0000002A", "01 00 00 00000029"];
    let mut cabinet = with(&four);
    let body = "02 0005 01 01 0000 01 06 00 00000028 0000002A 03 00";
    cabinet.expect("AG", body, "5250 00000003 02 0005 00 01 01 03 00 0000002A");
    cabinet.expect_tuples(&["0000 01 00 00000027", "0000 01 00 0000002B", "0000 01 00 00000029"]);
    cabinet.expect("AG", body, "5250 00000004 02 0005 00 01 01 03 00 00000029");
    cabinet.expect("AG", body, "");
    assert_eq!(cabinet.waiting(), 1);
}

/// The first branch's range misses 41; the values come in rising number of their variables.
#[test]
fn a_later_branch_and_two_ranges() {
    let mut cabinet = with(&["02 00 00 00000029 00 02 BFC00000"]);
    let first = "01 0000 02 06 00 0000002A 0000002B 02 05 02 00";
    let second = "01 0000 02 06 00 00000000 00000029 09 06 02 C0000000 BF800000 02 00";
    let reply = "5250 00000003 02 0005 00 02 02 02 02 BFC00000 09 00 00000029";
    cabinet.expect("AG", &format!("02 0005 02 {first} {second}"), reply);
    cabinet.expect_tuples(&[]);
}

#[test]
fn a_range_in_the_body() {
    // true, then in(0, 4 to 6 into 0), out(0, variable 0, variable 0).
    let body = "02 0005 01 00 02 01 0000 01 06 00 00000004 00000006 00 05 0000 02 02 00 02 00";
    let mut cabinet = with(&["01 00 00 00000007", "01 00 00 00000005"]);
    cabinet.expect("AG", body, "5250 00000003 02 0005 00 01 01 00 00 00000005");
    cabinet.expect_tuples(&["0000 01 00 00000007", "0000 02 00 00000005 00 00000005"]);
    // Neither 3 nor 7 is in it: 16.
    let mut cabinet = with(&["01 00 00 00000007", "01 00 00 00000003"]);
    cabinet.expect_unchanged("AG", body, "5250 00000003 02 0005 10 01 00");
    // rd leaves it.
    let read = "02 0005 01 00 01 03 0000 01 06 00 00000004 00000006 00";
    let mut cabinet = with(&["01 00 00 00000006"]);
    cabinet.expect("AG", read, "5250 00000003 02 0005 00 01 01 00 00 00000006");
    cabinet.expect_tuples(&["0000 01 00 00000006"]);
}

/// rd(0, 40 to 42 into 3, any whole), then in or move by variable 3.
#[test]
fn a_value_of_a_range_in_later_templates() {
    let three = ["02 00 00 00000029 00 00 00000000", "01 00 00 0000002A", "01 00 00 00000029"];
    let guard = "03 0000 02 06 00 00000028 0000002A 03 05 00";
    let mut cabinet = with(&three);
    let body = format!("02 0005 01 {guard} 01 01 0000 01 02 03");
    cabinet.expect("AG", &body, "5250 00000003 02 0005 00 01 01 03 00 00000029");
    cabinet.expect_tuples(&["0000 02 00 00000029 00 00000000", "0000 01 00 0000002A"]);
    let mut cabinet = with(&three);
    let body = format!("02 0005 01 {guard} 01 06 0000 0000 02 02 03 05 00");
    cabinet.expect("AG", &body, "5250 00000003 02 0005 00 01 01 03 00 00000029");
    let moved = ["0000 01 00 0000002A", "0000 01 00 00000029", "0000 02 00 00000029 00 00000000"];
    cabinet.expect_tuples(&moved);
}

#[test]
fn a_sum_off_the_range_is_17() {
    let mut cabinet = with(&["01 00 00 7FFFFFFF"]);
    let body = "02 0005 01 01 0000 01 06 00 00000000 7FFFFFFF 03 01 05 0000 01 03 03 00 00000001";
    cabinet.expect_unchanged("AG", body, "5250 00000003 02 0005 11 01 00");
}

/// Process 6 waits for -2 to -1 metres: 0, -0.5 and -2.0000002 do not wake it, -1 does.
#[test]
fn a_waiting_range_is_woken_from_its_ends_on() {
    let mut cabinet = Cabinet::up();
    cabinet.expect("AG", "02 0006 01 01 0000 01 06 02 C0000000 BF800000 0C 01 05 0000 01 02 0C", "");
    for (position, bits) in [(3, "00000000"), (4, "BF000000"), (5, "C0000001"), (6, "3F800000")] {
        let body = format!("02 0005 01 00 01 05 0000 01 00 02 {bits}");
        cabinet.expect("AG", &body, &format!("5250 {position:08X} 02 0005 00 01 00"));
        assert_eq!(cabinet.waiting(), 1);
    }
    let replies = "5250 00000007 02 0005 00 01 00  5250 00000002 02 0006 00 01 01 0C 02 BF800000";
    cabinet.expect("AG", "02 0005 01 00 01 05 0000 01 00 02 BF800000", replies);
    assert_eq!(cabinet.waiting(), 0);
    let left = ["00000000", "BF000000", "C0000001", "3F800000", "BF800000"].map(|bits| format!("0000 01 02 {bits}"));
    cabinet.expect_tuples(&left.iter().map(String::as_str).collect::<Vec<&str>>());
}

/// Monitor 1, host 3 crashes: rd(0, name 1, 1 to 8 into 0, 3 to 4 into 1).
#[test]
fn a_crash_notice_in_range() {
    let mut cabinet = Cabinet::up();
    cabinet.expect("RV", "03", "5250 00000002 03 0000 00 00 01 00 00 00000002");
    cabinet.expect("RV", "05", "5250 00000003 05 0000 00 00 01 00 00 00000003");
    cabinet.expect("MO", "02 0005", "5250 00000004 02 0005 00 00 01 00 00 00000001");
    let guard = "03 0000 03 00 01 00000001 06 00 00000001 00000008 00 06 00 00000003 00000004 01";
    cabinet.expect("AG", &format!("02 0005 01 {guard} 00"), "");
    cabinet.expect("CR", "05", "5250 00000006 05 0000 00 00 01 00 00 00000002");
    let woken = "5250 00000005 02 0005 00 01 02 00 00 00000001 01 00 00000003";
    cabinet.expect("CR", "03", &format!("5250 00000007 03 0000 00 00 01 00 00 00000001 {woken}"));
}

// ---- States ----

/// A waiting body's range must be legal, and no tuple may be in it.
#[test]
fn a_state_with_a_waiting_range() {
    let mut cabinet = with(&["01 00 00 00000029"]);
    cabinet.expect("AG", "02 0005 01 01 0000 01 06 00 0000002A 0000002B 03 00", "");
    // Entry at 17,120: position 4, length 2, then the body; the range at its place 8.
    let at = 17_120 + 6 + 8;
    assert_eq!(cabinet.state[at..at + 11], unhex("06 00 0000002A 0000002B 03"));
    let with_range = |text: &str| {
        let mut state = cabinet.state.clone();
        state[at..at + 11].copy_from_slice(&unhex(text));
        Cabinet { state, reply: cabinet.reply.clone(), position: 3 }.holds_a_state()
    };
    assert!(with_range("06 00 0000002A 0000002B 03"));
    assert!(with_range("06 00 0000002B 0000002B 03"));
    assert!(with_range("06 00 80000000 00000028 0F"));
    assert!(with_range("06 02 00000000 3F800000 03"));
    assert!(!with_range("06 00 0000002B 0000002A 03"), "upside down");
    assert!(!with_range("06 00 00000029 0000002B 03"), "it holds at its lowest");
    assert!(!with_range("06 00 00000000 00000029 03"), "it holds at its highest");
    assert!(!with_range("06 00 80000000 7FFFFFFF 03"), "it holds inside");
    assert!(!with_range("06 01 0000002A 0000002B 03"), "names");
    assert!(!with_range("06 02 00000000 7F800000 03"), "infinity");
    assert!(!with_range("06 00 0000002A 0000002B 10"), "variable 16");
}

// ---- The writer ----

#[test]
fn the_writer_takes_ranges() {
    let range = Part { form: 6, kind: 2, variable: 15, value: [0xBF, 0x80, 0, 0], highest: [0x3F, 0, 0, 0] };
    let guard = |part: &Part| Addition { code: 1, spaces: vec![0x0102], fields: vec![part.clone()] };
    let mut buffer = vec![7; 20];
    assert_eq!(writer::begin(&mut buffer, 2, 5, &guard(&range)), (0, 20));
    assert_eq!(buffer, unhex("02 0005 01 01 0102 01 06 02 BF800000 3F000000 0F 00"));
    let before = buffer.clone();
    let turned = Part { value: range.highest, highest: range.value, ..range.clone() };
    let wrong = [
        turned,
        Part { kind: 1, value: [0; 4], highest: [0; 4], ..range.clone() },
        Part { variable: 16, ..range.clone() },
        Part { highest: [0x7F, 0x80, 0, 0], ..range.clone() },
        Part { value: [0x80, 0, 0, 0], ..range.clone() },
        Part { form: 7, ..range.clone() },
    ];
    for part in &wrong {
        assert_eq!(writer::begin(&mut buffer, 2, 5, &guard(part)), (6, 0), "{part:?}");
        assert_eq!(writer::begin(&mut [], 2, 5, &guard(part)), (6, 0), "{part:?}");
    }
    let out = Addition { code: 5, ..guard(&range) };
    assert_eq!(writer::add_operation(&mut buffer, 20, &out), (6, 20));
    assert_eq!(writer::add_operation(&mut buffer, 20, &guard(&range)), (6, 20));
    let other = Part { variable: 14, ..range.clone() };
    assert_eq!(writer::add_operation(&mut buffer, 20, &guard(&other)), (2, 20));
    assert_eq!(writer::add_branch(&mut buffer, 20, &guard(&range)), (2, 20));
    assert_eq!(buffer, before);
    assert_eq!(writer::begin(&mut [7; 19], 2, 5, &guard(&range)), (2, 0));
}

/// Only a form 6 has a highest value.
#[test]
fn the_writer_looks_at_highest_in_form_6_alone() {
    for form in [0, 1, 5] {
        let part = |highest| Part { form, kind: 0, variable: 3, value: [0, 0, 0, 5], highest };
        let guard = |highest| Addition { code: 3, spaces: vec![0], fields: vec![part(highest)] };
        let (mut one, mut other) = (vec![0; 20], vec![0; 20]);
        let written = writer::begin(&mut one, 2, 5, &guard([0; 4]));
        assert_eq!(written.0, 0);
        assert_eq!(writer::begin(&mut other, 2, 5, &guard([0xFF; 4])), written);
        assert_eq!(one, other);
    }
}

/// Six ranges take 66 bytes.
#[test]
fn six_ranges_in_a_template() {
    let text: Vec<String> = (0..6).map(|variable| format!("06 00 FFFFFFFF 00000001 {variable:02X}")).collect();
    let bytes = unhex(&format!("03 0000 06 {}", text.join(" ")));
    assert_eq!(bytes.len(), 4 + 66);
    let operation = operation_parts(&bytes).unwrap();
    assert_eq!(operation_bytes(&operation), bytes);
    let six = "06 00 00 FFFFFFFF 00 00 00000000 00 00 00000001 00 00 FFFFFFFF 00 00 00000000 00 00 00000001";
    let mut cabinet = with(&[six]);
    let body = format!("02 0005 01 {} 00", hex(&bytes));
    let shown = "00 00 FFFFFFFF 01 00 00000000 02 00 00000001 03 00 FFFFFFFF 04 00 00000000 05 00 00000001";
    cabinet.expect("AG", &body, &format!("5250 00000003 02 0005 00 01 06 {shown}"));
}

// ---- Whether two templates can meet ----

/// The answer, which is the same the other way round.
fn meet(first: &str, second: &str) -> u64 {
    let (first, second) = (unhex(first), unhex(second));
    let answer = can_meet(&first, &second);
    assert_eq!(can_meet(&second, &first), answer, "{first:?} {second:?}");
    answer
}

/// The answer for rd and in of space 0 with one field each.
fn fields_meet(one: &str, other: &str) -> u64 {
    meet(&format!("03 0000 01 {one}"), &format!("01 0000 01 {other}"))
}

#[test]
fn ranges_meet_where_they_share_a_value() {
    let cases = [
        // Whole: touching at 5, apart, one in the other, overlapping, equal.
        ("00 00000001 00000005", "00 00000005 00000009", 1),
        ("00 00000001 00000004", "00 00000005 00000009", 0),
        ("00 00000001 00000009", "00 00000004 00000005", 1),
        ("00 00000001 00000006", "00 00000004 00000009", 1),
        ("00 00000001 00000005", "00 00000001 00000005", 1),
        ("00 00000005 00000005", "00 00000005 00000005", 1),
        ("00 00000005 00000005", "00 00000006 00000006", 0),
        // By the sign: -3 to -1, then from -1, from 0, and up to the ends of the kind.
        ("00 FFFFFFFD FFFFFFFF", "00 FFFFFFFF 00000005", 1),
        ("00 FFFFFFFD FFFFFFFF", "00 00000000 00000005", 0),
        ("00 FFFFFFFD FFFFFFFF", "00 80000000 FFFFFFFD", 1),
        ("00 FFFFFFFD FFFFFFFF", "00 80000000 FFFFFFFC", 0),
        ("00 80000000 80000000", "00 7FFFFFFF 7FFFFFFF", 0),
        ("00 80000000 7FFFFFFF", "00 7FFFFFFF 7FFFFFFF", 1),
        ("00 80000000 7FFFFFFF", "00 80000000 80000000", 1),
        // Metres: -2 to -1, touching at -1 and at -2, and the next values beyond.
        ("02 C0000000 BF800000", "02 BF800000 00000000", 1),
        ("02 C0000000 BF800000", "02 BF7FFFFF 00000000", 0),
        ("02 C0000000 BF800000", "02 FF7FFFFF C0000000", 1),
        ("02 C0000000 BF800000", "02 FF7FFFFF C0000001", 0),
        ("02 C0000000 BF800000", "02 BFC00000 BFC00000", 1),
        ("02 C0000000 BF800000", "02 3F800000 40000000", 0),
        // Around 0: the least metres of both signs.
        ("02 BF800000 80000001", "02 00000000 3F800000", 0),
        ("02 BF800000 80000001", "02 80000001 3F800000", 1),
        ("02 BF800000 00000000", "02 00000000 3F800000", 1),
        ("02 BF800000 00000000", "02 00000001 3F800000", 0),
        ("02 FF7FFFFF 7F7FFFFF", "02 7F7FFFFF 7F7FFFFF", 1),
    ];
    for (one, other, expected) in cases {
        assert_eq!(fields_meet(&format!("06 {one} 00"), &format!("06 {other} 01")), expected, "{one} {other}");
    }
}

#[test]
fn a_range_meets_values_and_formals() {
    let range = "06 00 00000005 00000009 00";
    for (number, expected) in [("00000004", 0), ("00000005", 1), ("00000007", 1), ("00000009", 1), ("0000000A", 0)] {
        assert_eq!(fields_meet(range, &format!("00 00 {number}")), expected, "{number}");
    }
    assert_eq!(fields_meet("06 02 C0000000 BF800000 00", "00 02 BFC00000"), 1);
    assert_eq!(fields_meet("06 02 C0000000 BF800000 00", "00 02 BF7FFFFF"), 0);
    for (kind, expected) in [("00", 1), ("01", 0), ("02", 0)] {
        assert_eq!(fields_meet(range, &format!("01 {kind} 00")), expected, "{kind}");
        assert_eq!(fields_meet(range, &format!("05 {kind}")), expected, "{kind}");
    }
}

#[test]
fn values_and_formals_meet() {
    let cases = [
        ("00 01 00000007", "00 01 00000007", 1),
        ("00 01 00000007", "00 01 00000008", 0),
        ("00 01 00000007", "01 01 00", 1),
        ("00 01 0000FFFF", "05 01", 1),
        ("00 00 80000000", "05 00", 1),
        ("00 02 FF7FFFFF", "01 02 0F", 1),
        ("01 01 00", "01 01 00", 1),
        ("01 02 00", "05 02", 1),
        ("05 00", "05 00", 1),
        // Equal bytes of other kinds.
        ("00 01 00000007", "00 00 00000007", 0),
        ("00 02 00000000", "00 00 00000000", 0),
        ("05 00", "05 01", 0),
        ("01 02 00", "05 01", 0),
        ("06 00 00000000 00000000 00", "06 02 00000000 00000000 00", 0),
        ("06 00 00000000 00000001 00", "00 01 00000000", 0),
    ];
    for (one, other, expected) in cases {
        assert_eq!(fields_meet(one, other), expected, "{one} {other}");
    }
}

/// Both bytes of the space count, and whether it is open is not asked; codes play no part.
#[test]
fn templates_of_one_space_and_count_meet() {
    let codes = ["01", "02", "03", "04"];
    for (first, second) in codes.iter().flat_map(|one| codes.map(|other| (one, other))) {
        assert_eq!(meet(&format!("{first} 1234 01 05 00"), &format!("{second} 1234 01 05 00")), 1);
        for space in ["1235", "1334", "3412", "0000", "FFFF"] {
            assert_eq!(meet(&format!("{first} 1234 01 05 00"), &format!("{second} {space} 01 05 00")), 0, "{space}");
        }
    }
    for (one, other) in (1..=6).flat_map(|one| (1..=6).map(move |other| (one, other))) {
        let template = |count: usize| format!("03 0000 {count:02X} {}", "05 00 ".repeat(count));
        assert_eq!(meet(&template(one), &template(other)), u64::from(one == other), "{one} {other}");
    }
}

#[test]
fn every_place_is_asked() {
    let template = |at: usize, field: &str| {
        let mut fields = ["05 00"; 6];
        fields[at] = field;
        format!("02 0000 06 {}", fields.join(" "))
    };
    for at in 0..6 {
        let first = template(at, "06 00 00000001 00000005 0F");
        assert_eq!(meet(&first, &template(at, "06 00 00000005 00000007 0E")), 1);
        assert_eq!(meet(&first, &template(at, "06 00 00000006 00000007 0E")), 0);
        assert_eq!(meet(&first, &template(at, "05 02")), 0);
        assert_eq!(meet(&first, &template((at + 1) % 6, "06 00 00000006 00000007 0E")), 1);
    }
}

/// Six fields of 11 bytes in each, which share one value in every place.
#[test]
fn six_ranges_meet_six() {
    let first: Vec<String> = (0..6).map(|v| format!("06 00 FFFFFF00 {v:08X} {v:02X}")).collect();
    let second: Vec<String> = (0..6).map(|v| format!("06 00 {v:08X} 00000100 {:02X}", v + 10)).collect();
    let template = |fields: &[String]| format!("01 00FF 06 {}", fields.join(" "));
    assert_eq!(unhex(&template(&first)).len(), 70);
    assert_eq!(meet(&template(&first), &template(&second)), 1);
    for at in 0..6 {
        let mut missed = second.clone();
        missed[at] = format!("06 00 {:08X} 00000100 09", at + 1);
        assert_eq!(meet(&template(&first), &template(&missed)), 0, "{at}");
        missed[at] = "06 02 00000000 00000100 09".to_string();
        assert_eq!(meet(&template(&first), &template(&missed)), 0, "{at}");
    }
}

// ---- What is refused ----

/// A template that is refused 6 with itself and with others, also before the 19 of the other.
fn is_6(text: &str) {
    for other in ["03 0000 01 05 00", "03 0000 01 02 00", "04 FFFF 01 00 01 00000007", text] {
        assert_eq!(meet(text, other), 6, "{text} with {other}");
    }
}

#[test]
fn bytes_that_are_no_template_are_6() {
    let whole = "03 0000 02 06 02 BF800000 3F000000 0F 00 01 00000007";
    let bytes = unhex(whole);
    assert_eq!(meet(whole, whole), 1);
    for length in 0..bytes.len() {
        is_6(&hex(&bytes[..length]));
    }
    for spare in ["00", "05", "FF", "05 00"] {
        is_6(&format!("{whole} {spare}"));
    }
    is_6("");
    // The true guard, out, move and copy with and without fields, and no code.
    let others = ["00", "00 00", "05 0000 01 00 00 00000001", "06 0000 0000 01 05 00", "06 0000 0000 00"];
    others.iter().for_each(|text| is_6(text));
    let more = ["07 0000 0000 01 05 00", "07 0000 0000 00", "08 0000 01 05 00", "FF 0000 01 05 00"];
    more.iter().for_each(|text| is_6(text));
    for code in ["00", "05", "06", "07"] {
        is_6(&format!("{code} 0000 01 05 00"));
    }
    is_6("03 0000 00");
    is_6(&format!("03 0000 07 {}", "05 00 ".repeat(7)));
    is_6("03 0000 FF 05 00");
}

#[test]
fn fields_against_a_rule_are_6() {
    let fields = [
        "00 03 00000000",
        "00 01 00010000",
        "00 02 80000000",
        "00 02 7F800000",
        "01 03 00",
        "01 00 10",
        "02 10",
        "02 FF",
        "03 00 00 00000001",
        "04 00 00 00000001",
        "05 03",
        "06 00 00000005 00000004 00",
        "06 00 00000000 FFFFFFFF 00",
        "06 02 BF800000 C0000000 00",
        "06 01 00000001 00000002 00",
        "06 03 00000001 00000002 00",
        "06 02 80000000 3F800000 00",
        "06 02 BF800000 80000000 00",
        "06 02 FF800000 7F7FFFFF 00",
        "06 02 00000000 7FC00000 00",
        "06 00 00000001 00000002 10",
        "07 00 00000001 00000002 00",
    ];
    for field in fields {
        is_6(&format!("03 0000 01 {field}"));
        is_6(&format!("02 0000 03 05 00 {field} 05 01"));
    }
}

/// Within one operation; each of the two may bind the same one.
#[test]
fn bound_twice_is_6() {
    let (bind, range) = ("01 01 07", "06 00 00000001 00000002 07");
    for (one, other) in [(bind, bind), (bind, range), (range, bind), (range, range)] {
        is_6(&format!("03 0000 02 {one} {other}"));
        is_6(&format!("03 0000 03 {one} 05 00 {other}"));
        is_6(&format!("03 0000 03 {one} 02 07 {other}"));
    }
    assert_eq!(fields_meet("01 00 07", "06 00 00000001 00000002 07"), 1);
}

/// A form 2 in either is 19, whatever the answer would be, and after 6 alone.
#[test]
fn a_form_2_is_19() {
    for variable in 0..=255_u8 {
        let expected = if variable <= 15 { 19 } else { 6 };
        assert_eq!(fields_meet(&format!("02 {variable:02X}"), "05 00"), expected, "{variable}");
    }
    assert_eq!(fields_meet("02 00", "02 00"), 19);
    // Other spaces, other counts, other kinds beside it.
    assert_eq!(meet("03 0000 01 02 00", "03 0001 01 05 00"), 19);
    assert_eq!(meet("03 0000 01 02 00", "03 0000 02 05 00 05 00"), 19);
    assert_eq!(meet("03 0000 02 02 00 05 00", "03 0000 02 05 00 05 01"), 19);
    // Beside a form 1 or 6 of the same variable, which it does not bind.
    for binding in ["01 00 07", "06 00 00000001 00000002 07"] {
        assert_eq!(meet(&format!("03 0000 02 {binding} 02 07"), "03 0000 02 05 00 05 00"), 19);
        assert_eq!(meet(&format!("03 0000 02 02 07 {binding}"), "03 0000 02 05 00 05 00"), 19);
        assert_eq!(meet(&format!("03 0000 03 02 07 {binding} 02 07"), "03 0000 01 05 00"), 19);
    }
}

/// 6 of the second comes before 19 of the first, and the other way round.
#[test]
fn six_comes_before_nineteen() {
    let used = unhex("03 0000 01 02 00");
    for wrong in ["", "03 0000 01 02 10", "03 0000 01 05 00 00", "03 0000 01 05", "05 0000 01 02 00"] {
        assert_eq!(can_meet(&used, &unhex(wrong)), 6, "{wrong}");
        assert_eq!(can_meet(&unhex(wrong), &used), 6, "{wrong}");
    }
    // In one and the same operation too.
    is_6("03 0000 02 02 00 06 00 00000002 00000001 03");
    is_6("03 0000 02 02 00 02 10");
}
