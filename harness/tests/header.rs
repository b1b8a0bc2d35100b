//! The header's names have the paper's numbers, and its layout number is the library's.

use harness::library::replica_layout;
use harness::stack::defined;

/// Names that begin alike, with their numbers.
fn expect(start: &str, names: &[(&str, usize)]) {
    for (name, number) in names {
        assert_eq!(defined(&format!("REPLICA_{start}{name}")), *number, "{start}{name}");
    }
}

/// As many names begin so as are listed: a new one is to be listed too.
fn expect_all(start: &str, names: &[(&str, usize)]) {
    expect(start, names);
    let header = include_str!("../../include/replica.h");
    let begins = format!("#define REPLICA_{start}");
    assert_eq!(header.lines().filter(|line| line.starts_with(&begins)).count(), names.len(), "{start}");
}

#[test]
fn the_layout_is_the_librarys() {
    assert_eq!((defined("REPLICA_LAYOUT"), unsafe { replica_layout() }), (4, 4));
}

#[test]
fn sizes() {
    expect("", &[("STATE_BYTES", 25_312), ("REPLY_BYTES", 3_564), ("BODY_BYTES", 250), ("FIELDS", 6)]);
    expect("REPLY_", &[("HEAD", 12), ("VALUE", 6)]);
}

#[test]
fn refusals() {
    let names =
        [("NOT_A_STATE", 1), ("REPLY_SHORT", 2), ("NO_RECORD", 3), ("POSITION_PAST", 4), ("POSITION_GAP", 5)];
    expect("", &names);
    expect("", &[("MALFORMED", 6), ("BODY_SHORT", 2)]);
}

#[test]
fn answers_on_templates() {
    expect("", &[("APART", 0), ("MEET", 1), ("MALFORMED", 6), ("VARIABLE", 19)]);
}

#[test]
fn codes_forms_and_kinds() {
    let codes = ["TRUE", "IN", "INP", "RD", "RDP", "OUT", "MOVE", "COPY"];
    let forms = ["ACTUAL", "FORMAL", "REFERENCE", "SUM", "DIFFERENCE", "ANONYMOUS", "RANGE"];
    let numbered = |names: &[&'static str]| names.iter().copied().zip(0..).collect::<Vec<_>>();
    expect_all("CODE_", &numbered(&codes));
    expect_all("FORM_", &numbered(&forms));
    expect_all("KIND_", &numbered(&["WHOLE", "NAME", "METRES"]));
    expect_all("SPACE_", &numbered(&["SHARED", "PRIVATE"]));
}

#[test]
fn outcomes() {
    let names = [
        ("DONE", 0),
        ("MALFORMED", 6),
        ("HOST_DOWN", 7),
        ("HOST_UP", 8),
        ("PROCESS_WAITS", 9),
        ("SPACE_NOT_OPEN", 10),
        ("SPACE_DENIED", 11),
        ("TUPLES_FULL", 12),
        ("WAITING_FULL", 13),
        ("USED_UP", 14),
        ("SPACE_IN_USE", 15),
        ("NO_MATCH", 16),
        ("OFF_RANGE", 17),
        ("NO_GUARD", 18),
    ];
    expect_all("OUTCOME_", &names);
}
