//! L2, matching in the printed order, with expectations worked out by hand.

mod common;

use common::{unhex, Cabinet};
use reference::matching::{first_failing, Failing};
use reference::run::{matches, Tuple};
use reference::statement::{parts, Operation};
use reference::value::{metres, name, whole, Value};

/// The operation in these bytes, legal or not.
fn operation(text: &str) -> Operation {
    let body = unhex(&format!("02 0005 01 00 01 {text}"));
    parts(&body).unwrap().branches[0].body[0].clone()
}

/// A tuple by its space and values.
fn tuple(text: &str) -> Tuple {
    let bytes = unhex(text);
    let values = bytes[2..].chunks(5).map(|value| Value { kind: value[0], bytes: value[1..].try_into().unwrap() });
    Tuple { space: u16::from_be_bytes([bytes[0], bytes[1]]), values: values.collect() }
}

/// The answer for rd in space 0 with these fields, their number before them.
fn answer(fields: &str, bound: &[(u8, Value)], values: &str) -> u8 {
    let (operation, tuple) = (operation(&format!("03 0000 {fields}")), tuple(&format!("0000 {values}")));
    let answer = first_failing(&operation.fields, bound, &tuple.values).number();
    assert_eq!(matches(&operation, &tuple, bound), answer == 0, "{fields} {values}");
    answer
}

// ---- The answer ----

#[test]
fn numbers_of_the_answers() {
    use Failing::*;
    let numbers = [Nothing, FieldCount, Kinds, Values].map(Failing::number);
    assert_eq!(numbers, [0, 1, 2, 3]);
}

/// For every two answers an input that has the first, where a test left out or put off gives the second.
#[test]
fn every_pair_is_told_apart() {
    let cases = [
        // All agrees, by a given value and by each formal: 0 and not 1, 2 or 3.
        ("03 00 01 00000007 05 00 01 02 04", "01 00000007 00 00000029 02 3F800000", 0),
        // The values that are there agree: 1 and not 0.
        ("01 00 01 00000007", "01 00000007 00 00000029", 1),
        ("02 00 01 00000007 05 00", "01 00000007", 1),
        // The kind of the first differs too: 1 and not 2.
        ("01 00 01 00000007", "00 00000007 00 00000029", 1),
        ("02 00 01 00000007 05 00", "00 00000007", 1),
        // The value of the first differs too: 1 and not 3.
        ("01 00 01 00000007", "01 00000008 00 00000029", 1),
        ("02 00 01 00000007 05 00", "01 00000008", 1),
        // Four equal bytes of another kind: 2 and not 0.
        ("01 00 01 00000007", "00 00000007", 2),
        // Another kind, and other bytes before it, after it and in it: 2 and not 3.
        ("02 00 01 00000007 05 02", "01 00000008 00 00000029", 2),
        ("02 05 02 00 01 00000007", "00 00000029 01 00000008", 2),
        ("01 00 01 00000007", "00 00000008", 2),
        // The number and the kinds agree: 3 and neither 0 nor 1 nor 2.
        ("01 00 01 00000007", "01 00000008", 3),
    ];
    for (fields, values, expected) in cases {
        assert_eq!(answer(fields, &[], values), expected, "{fields} {values}");
    }
}

/// The bytes behind a tuple's last value are zero, and so are those of whole 0.
#[test]
fn unused_bytes_are_no_values() {
    for rest in ["00 00 00000000", "01 00 05", "05 00"] {
        assert_eq!(answer(&format!("02 00 01 00000007 {rest}"), &[], "01 00000007"), 1, "{rest}");
    }
    assert_eq!(answer("02 00 01 00000007 02 05", &[(5, whole(0))], "01 00000007"), 1);
    assert_eq!(answer("01 00 01 00000007", &[], "01 00000007 00 00000000"), 1);
}

/// DECISIONS 85: a value of the first field and a kind of the last one differ.
#[test]
fn all_kinds_come_before_any_value() {
    let fields = "06 00 00 00000001 00 00 00000002 05 00 00 01 00000004 05 02 05 01";
    let middle = "00 00000002 00 00000003 01 00000004 02 00000005";
    assert_eq!(answer(fields, &[], &format!("00 00000001 {middle} 01 00000006")), 0);
    assert_eq!(answer(fields, &[], &format!("00 00000009 {middle} 01 00000006")), 3);
    assert_eq!(answer(fields, &[], &format!("00 00000001 {middle} 00 00000006")), 2);
    assert_eq!(answer(fields, &[], &format!("00 00000009 {middle} 00 00000006")), 2);
    assert_eq!(answer(fields, &[], &format!("00 00000009 {middle} 02 00000006")), 2);
    assert_eq!(answer(fields, &[], &format!("00 00000009 {middle}")), 1);
}

/// DECISIONS 85: a form 2 has the kind and the bytes of its variable's value, and of no other's.
#[test]
fn a_bound_variable_has_kind_and_bytes() {
    let bound = [(2, whole(7)), (3, name(7)), (9, metres(7)), (15, name(8))];
    let cases = [
        ("01 02 03", "01 00000007", 0),
        ("01 02 03", "00 00000007", 2),
        ("01 02 03", "02 00000007", 2),
        ("01 02 03", "01 00000008", 3),
        ("01 02 03", "01 00000007 01 00000007", 1),
        ("01 02 02", "00 00000007", 0),
        ("01 02 02", "01 00000007", 2),
        ("01 02 09", "02 00000007", 0),
        ("01 02 09", "00 00000007", 2),
        ("01 02 0F", "01 00000008", 0),
        ("01 02 0F", "01 00000007", 3),
        ("02 02 03 02 03", "01 00000007 01 00000007", 0),
        ("02 02 03 02 03", "01 00000007 01 00000008", 3),
        ("02 02 0F 02 03", "01 00000007 00 00000007", 2),
        ("02 02 03 02 0F", "00 00000007 01 00000007", 2),
    ];
    for (fields, values, expected) in cases {
        assert_eq!(answer(fields, &bound, values), expected, "{fields} {values}");
    }
}

#[test]
fn every_kind_of_a_form_is_tested() {
    for (own, other) in [("00", "01"), ("00", "02"), ("01", "00"), ("01", "02"), ("02", "00"), ("02", "01")] {
        for form in [format!("00 {own} 00000007"), format!("01 {own} 05"), format!("05 {own}")] {
            assert_eq!(answer(&format!("01 {form}"), &[], &format!("{own} 00000007")), 0, "{form}");
            assert_eq!(answer(&format!("01 {form}"), &[], &format!("{other} 00000007")), 2, "{form} {other}");
        }
    }
}

#[test]
fn every_byte_of_a_value_is_tested() {
    for other in ["81020304", "01820304", "01028304", "01020384", "01020305"] {
        for kind in ["00", "02"] {
            let fields = format!("01 00 {kind} 01020304");
            assert_eq!(answer(&fields, &[], &format!("{kind} {other}")), 3, "{kind} {other}");
            let bound = [(0, Value { kind: unhex(kind)[0], bytes: [1, 2, 3, 4] })];
            assert_eq!(answer("01 02 00", &bound, &format!("{kind} {other}")), 3, "{kind} {other}");
            assert_eq!(answer(&format!("01 05 {kind}"), &[], &format!("{kind} {other}")), 0);
        }
    }
    for other in ["00008304", "00000384"] {
        assert_eq!(answer("01 00 01 00000304", &[], &format!("01 {other}")), 3, "{other}");
    }
    // The smallest metres are not zero, and a sign alone makes another value.
    assert_eq!(answer("01 00 02 00000000", &[], "02 00000001"), 3);
    assert_eq!(answer("01 00 02 3F800000", &[], "02 BF800000"), 3);
}

/// A name's first two bytes are zero, so that one bit there is no name any more.
#[test]
fn names_have_two_zero_bytes() {
    assert!(name(65_535).is_legal());
    for bytes in [[0, 1, 0, 7], [1, 0, 0, 7], [0, 128, 0, 7], [128, 0, 0, 7]] {
        assert!(!Value { kind: 1, bytes }.is_legal());
    }
}

/// DECISIONS 86: the space is no part of the answer, and part of the match.
#[test]
fn the_space_is_asked_beside_the_answer() {
    for code in ["01", "02", "03", "04"] {
        let template = operation(&format!("{code} 0102 01 05 00"));
        for (space, expected) in [("0102", true), ("0002", false), ("0100", false), ("0201", false)] {
            let tuple = tuple(&format!("{space} 00 00000001"));
            assert_eq!(first_failing(&template.fields, &[], &tuple.values), Failing::Nothing);
            assert_eq!(matches(&template, &tuple, &[]), expected, "{code} {space}");
        }
    }
}

/// DECISIONS 86: with 0 fields the space of move and copy decides alone; the target is not asked.
#[test]
fn no_fields_ask_for_the_space_alone() {
    for code in ["06", "07"] {
        let template = operation(&format!("{code} 0001 0000 00"));
        for values in ["00 00000001", "01 00000007 02 3F800000", "00 00000000 00 00000000 00 00000000"] {
            let (from, to) = (tuple(&format!("0001 {values}")), tuple(&format!("0000 {values}")));
            assert_eq!(first_failing(&template.fields, &[], &from.values).number(), 1);
            assert!(matches(&template, &from, &[]) && !matches(&template, &to, &[]));
        }
    }
}

// ---- Streams ----

/// Host 2 up and (name 7, whole 41) in space 0, by process 5 at position 2.
fn with_tuple() -> Cabinet {
    let mut cabinet = Cabinet::up();
    let out = "02 0005 01 00 01 05 0000 02 00 01 00000007 00 00 00000029";
    cabinet.expect("AG", out, "5250 00000002 02 0005 00 01 00");
    cabinet
}

/// Templates that nearly match (name 7, whole 41): by 1, by 2 and by 3.
const NEAR: [(u8, &str); 9] = [
    (1, "01 00 01 00000007"),
    (1, "03 00 01 00000007 00 00 00000029 05 00"),
    (1, "03 00 01 00000007 05 00 00 00 00000000"),
    (2, "02 00 00 00000007 00 00 00000029"),
    (2, "02 00 01 00000007 00 02 00000029"),
    (2, "02 00 01 00000008 01 01 03"),
    (3, "02 00 01 00000008 00 00 00000029"),
    (3, "02 00 01 00000007 00 00 01000029"),
    (3, "02 05 01 00 00 00000028"),
];

#[test]
fn near_templates_answer_1_to_3() {
    for (expected, fields) in NEAR {
        assert_eq!(answer(fields, &[], "01 00000007 00 00000029"), expected, "{fields}");
    }
}

#[test]
fn a_guard_that_nearly_matches_finds_none() {
    for (_, fields) in NEAR {
        for code in ["02", "04"] {
            let guard = format!("02 0005 01 {code} 0000 {fields} 00");
            with_tuple().expect_unchanged("AG", &guard, "5250 00000003 02 0005 12 00 00");
        }
        for code in ["01", "03"] {
            let mut cabinet = with_tuple();
            cabinet.expect("AG", &format!("02 0005 01 {code} 0000 {fields} 00"), "");
            assert_eq!(cabinet.waiting(), 1);
            cabinet.expect_tuples(&["0000 02 01 00000007 00 00000029"]);
        }
        let body = format!("02 0005 01 00 01 01 0000 {fields}");
        with_tuple().expect_unchanged("AG", &body, "5250 00000003 02 0005 10 01 00");
    }
}

#[test]
fn a_guard_that_matches_fires() {
    for (code, left) in [("01", 0), ("02", 0), ("03", 1), ("04", 1)] {
        let kept = ["0000 02 01 00000007 00 00000029"];
        let given = format!("02 0005 01 {code} 0000 02 00 01 00000007 00 00 00000029 00");
        let mut cabinet = with_tuple();
        cabinet.expect("AG", &given, "5250 00000003 02 0005 00 01 00");
        cabinet.expect_tuples(&kept[..left]);
        let formal = format!("02 0005 01 {code} 0000 02 05 01 01 00 03 00");
        let mut cabinet = with_tuple();
        cabinet.expect("AG", &formal, "5250 00000003 02 0005 00 01 01 03 00 00000029");
        cabinet.expect_tuples(&kept[..left]);
    }
}

/// Three wait for what nearly comes, a fourth for what comes: it alone is woken.
#[test]
fn a_waiting_guard_that_nearly_matches_is_not_woken() {
    let mut cabinet = Cabinet::up();
    cabinet.expect("AG", "02 0006 01 01 0000 01 00 01 00000007 00", "");
    cabinet.expect("AG", "02 0007 01 01 0000 02 00 01 00000007 01 02 00 00", "");
    cabinet.expect("AG", "02 0008 01 01 0000 02 00 01 00000007 00 00 0000002A 00", "");
    cabinet.expect("AG", "02 0009 01 01 0000 02 00 01 00000007 01 00 00 00", "");
    let out = "02 0005 01 00 01 05 0000 02 00 01 00000007 00 00 00000029";
    let replies = "5250 00000006 02 0005 00 01 00  5250 00000005 02 0009 00 01 01 00 00 00000029";
    cabinet.expect("AG", out, replies);
    cabinet.expect_tuples(&[]);
    assert_eq!(cabinet.waiting(), 3);
}

/// "No assignment takes place unless all the fields match": a tuple that fails in a later field binds nothing.
#[test]
fn only_the_match_is_bound() {
    let mut cabinet = Cabinet::up();
    let (a, b) = ("02 00 00 00000001 00 01 00000008", "02 00 00 00000002 00 01 00000007");
    let out = format!("02 0005 01 00 02 05 0000 {a} 05 0000 {b}");
    cabinet.expect("AG", &out, "5250 00000002 02 0005 00 01 00");
    let guard = "02 0005 01 03 0000 02 01 00 04 00 01 00000007 00";
    cabinet.expect("AG", guard, "5250 00000003 02 0005 00 01 01 04 00 00000002");
    let neither = "02 0005 01 04 0000 02 01 00 04 00 01 00000009 00";
    cabinet.expect_unchanged("AG", neither, "5250 00000004 02 0005 12 00 00");
}

/// (name 7), (whole 7) and (whole 7, whole 1) are there. Variable 3 as name 7 does not meet whole 7.
#[test]
fn a_body_in_of_another_kind_is_16() {
    let mut cabinet = Cabinet::up();
    let pair = "05 0000 02 00 00 00000007 00 00 00000001";
    let out = format!("02 0005 01 00 03 05 0000 01 00 01 00000007 05 0000 01 00 00 00000007 {pair}");
    cabinet.expect("AG", &out, "5250 00000002 02 0005 00 01 00");
    let by_name = "02 0005 01 03 0000 01 01 01 03 01 01 0000 02 02 03 05 00";
    cabinet.expect_unchanged("AG", by_name, "5250 00000003 02 0005 10 01 00");
    let by_number = "02 0005 01 03 0000 01 01 01 03 01 01 0000 03 02 03 05 00 05 00";
    cabinet.expect_unchanged("AG", by_number, "5250 00000004 02 0005 10 01 00");
    let by_whole = "02 0005 01 03 0000 01 01 00 03 01 01 0000 02 02 03 05 00";
    cabinet.expect("AG", by_whole, "5250 00000005 02 0005 00 01 01 03 00 00000007");
    cabinet.expect_tuples(&["0000 01 01 00000007", "0000 01 00 00000007"]);
}

/// Space 1 open, and in space 0 (name 7, 41), (name 7), (whole 7, 41), (name 8, 41), (name 7, 41).
fn with_five() -> Cabinet {
    let mut cabinet = Cabinet::up();
    cabinet.expect("MS", "02 0005 00", "5250 00000002 02 0005 00 00 01 00 00 00000001");
    let (seven, whole, number) = ("00 01 00000007", "00 00 00000007", "00 00 00000029");
    let outs = [
        format!("05 0000 02 {seven} {number}"),
        format!("05 0000 01 {seven}"),
        format!("05 0000 02 {whole} {number}"),
        format!("05 0000 02 00 01 00000008 {number}"),
        format!("05 0000 02 {seven} {number}"),
    ];
    let body = format!("02 0005 01 00 05 {}", outs.join(" "));
    cabinet.expect("AG", &body, "5250 00000003 02 0005 00 01 00");
    cabinet
}

/// The five of `with_five` without their space.
const FIVE: [&str; 5] = [
    "02 01 00000007 00 00000029",
    "01 01 00000007",
    "02 00 00000007 00 00000029",
    "02 01 00000008 00 00000029",
    "02 01 00000007 00 00000029",
];

/// Space and place in `FIVE` of each tuple left by a body of this one operation.
fn leaves(operations: &str, left: &[(&str, usize)], values: &str) {
    let mut cabinet = with_five();
    cabinet.expect("AG", &format!("02 0005 01 {operations}"), &format!("5250 00000004 02 0005 00 01 {values}"));
    let tuples: Vec<String> = left.iter().map(|(space, at)| format!("{space} {}", FIVE[*at])).collect();
    cabinet.expect_tuples(&tuples.iter().map(String::as_str).collect::<Vec<&str>>());
}

/// The first and the last match; the others fail by 1, 2 and 3.
#[test]
fn move_and_copy_with_fields() {
    let (here, there) = ("0000", "0001");
    let moved = [(here, 1), (here, 2), (here, 3), (there, 0), (there, 4)];
    let copied = [(here, 0), (here, 1), (here, 2), (here, 3), (here, 4), (there, 0), (there, 4)];
    for fields in ["02 00 01 00000007 05 00", "02 00 01 00000007 00 00 00000029"] {
        leaves(&format!("00 01 06 0000 0001 {fields}"), &moved, "00");
        leaves(&format!("00 01 07 0000 0001 {fields}"), &copied, "00");
    }
    // By variable 6, name 7 from the second tuple.
    let bind = "03 0000 01 01 01 06 01";
    leaves(&format!("{bind} 06 0000 0001 02 02 06 05 00"), &moved, "01 06 01 00000007");
    leaves(&format!("{bind} 07 0000 0001 02 02 06 05 00"), &copied, "01 06 01 00000007");
    // Kinds alone: the fourth too.
    let moved = [(here, 1), (here, 2), (there, 0), (there, 3), (there, 4)];
    leaves("00 01 06 0000 0001 02 05 01 05 00", &moved, "00");
    // No tuple has a whole and a name, or three fields; in space 1 there is none.
    let five = [(here, 0), (here, 1), (here, 2), (here, 3), (here, 4)];
    for fields in ["02 05 00 05 01", "03 05 01 05 00 05 00"] {
        leaves(&format!("00 01 06 0000 0001 {fields}"), &five, "00");
    }
    leaves("00 01 06 0001 0000 02 05 01 05 00", &five, "00");
}

#[test]
fn move_and_copy_without_fields() {
    let (here, there) = ("0000", "0001");
    let five = |space: &'static str| (0..5).map(move |at| (space, at));
    leaves("00 01 06 0000 0001 00", &five(there).collect::<Vec<_>>(), "00");
    leaves("00 01 07 0000 0001 00", &five(here).chain(five(there)).collect::<Vec<_>>(), "00");
    leaves("00 01 06 0001 0000 00", &five(here).collect::<Vec<_>>(), "00");
    leaves("00 01 07 0001 0000 00", &five(here).collect::<Vec<_>>(), "00");
}
