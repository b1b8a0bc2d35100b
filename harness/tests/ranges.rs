//! Ranges in templates (request L4 of document 02), by whole calls: values written out, each call compared with the
//! second implementation too.

use harness::caller::Caller;
use harness::hex::{hex, record, unhex};
use harness::layout::{self, waiting, LAST, REPLY_BYTES, WAITING_BYTES};
use harness::library::{replica_can_meet, replica_take, LIBRARY, REFERENCE};
use harness::modes::{self, Mode, DEFAULT, DENORMALS_ARE_ZERO, OTHERS};
use harness::replica::Replica;
use reference::layout::is_state;
use std::ops::Range;

// ---- One range and one value ----

/// A range, with its ends in digits.
#[derive(Clone, Copy)]
struct Near<'a> {
    kind: u8,
    lowest: &'a str,
    highest: &'a str,
}

/// A range of whole numbers.
fn whole<'a>(lowest: &'a str, highest: &'a str) -> Near<'a> {
    Near { kind: 0, lowest, highest }
}

/// A range of metres.
fn metres<'a>(lowest: &'a str, highest: &'a str) -> Near<'a> {
    Near { kind: 2, lowest, highest }
}

impl Near<'_> {
    /// The field, into a variable.
    fn field(&self, variable: u8) -> String {
        format!("06 {:02X} {} {} {variable:02X}", self.kind, self.lowest, self.highest)
    }

    /// Each of the first values lies in it, both ends do, and none of the others.
    fn expect(&self, inside: &[&str], outside: &[&str]) {
        for value in inside.iter().chain([&self.lowest, &self.highest]) {
            self.expect_found(value);
            self.expect_wakes(value, true);
        }
        for value in outside {
            self.expect_not_found(value);
            self.expect_wakes(value, false);
        }
    }

    /// Process 6 puts the value.
    fn put(&self, value: &str) -> String {
        format!("02 0006 01 00 01 05 0000 01 00 {:02X} {value}", self.kind)
    }

    /// One value in space 0 that lies in the range, into variable 9.
    fn template(&self) -> String {
        format!("0000 01 {}", self.field(9))
    }

    fn entry(&self, value: &str) -> String {
        format!("0000 01 {:02X} {value}", self.kind)
    }

    /// rd and rdp find the value in a guard and in a body, and bind it; in and inp take it.
    fn expect_found(&self, value: &str) {
        let template = self.template();
        let found = [("rdp", format!("04 {template} 00")), ("rd", format!("03 {template} 00"))];
        let taken = [("inp", format!("02 {template} 00")), ("in", format!("01 {template} 00"))];
        let in_body = [("body rd", format!("00 01 03 {template}")), ("body in", format!("00 01 01 {template}"))];
        for (at, (name, branch)) in found.iter().chain(&taken).chain(&in_body).enumerate() {
            let mut replica = Replica::up();
            replica.expect("AG", &self.put(value), &["2 2 6 0 1"]);
            let line = format!("3 2 5 0 1 9:{}:{value}", self.kind);
            replica.expect("AG", &format!("02 0005 01 {branch}"), &[&line]);
            let takes = [2, 3, 5].contains(&at);
            assert_eq!(replica.tuple_count(), usize::from(!takes), "{name}");
        }
    }

    /// Guards inp and rdp are 18, a body is 16, and guards in and rd wait.
    fn expect_not_found(&self, value: &str) {
        let template = self.template();
        let mut replica = Replica::up();
        replica.expect("AG", &self.put(value), &["2 2 6 0 1"]);
        replica.expect_unchanged("AG", &format!("02 0005 01 04 {template} 00"), "3 2 5 18 0");
        replica.expect_unchanged("AG", &format!("02 0005 01 02 {template} 00"), "4 2 5 18 0");
        replica.expect_unchanged("AG", &format!("02 0005 01 00 01 03 {template}"), "5 2 5 16 1");
        replica.expect_unchanged("AG", &format!("02 0005 01 00 01 01 {template}"), "6 2 5 16 1");
        replica.expect("AG", &format!("02 0005 01 03 {template} 00"), &[]);
        replica.expect("AG", &format!("02 0007 01 01 {template} 00"), &[]);
        replica.expect_tuples(&[&self.entry(value)]);
        replica.expect_waiting(0, &format!("00000007 0014 02 0005 01 03 {template} 00"));
        replica.expect_waiting(1, &format!("00000008 0014 02 0007 01 01 {template} 00"));
    }

    /// An rd and an in that wait are woken by a value that lies in the range, and by no other.
    fn expect_wakes(&self, value: &str, lies: bool) {
        let template = self.template();
        let mut replica = Replica::up();
        replica.expect("AG", &format!("02 0005 01 03 {template} 00"), &[]);
        replica.expect("AG", &format!("02 0007 01 01 {template} 00"), &[]);
        let bound = format!("0 1 9:{}:{value}", self.kind);
        let lines = ["4 2 6 0 1".to_string(), format!("2 2 5 {bound}"), format!("3 2 7 {bound}")];
        let lines: Vec<&str> = lines.iter().map(String::as_str).collect();
        replica.expect("AG", &self.put(value), if lies { &lines } else { &lines[..1] });
        assert_eq!((replica.waiting_count(), replica.tuple_count()), if lies { (0, 0) } else { (2, 1) });
    }
}

#[test]
fn both_ends_are_included() {
    whole("00000003", "00000005").expect(&["00000004"], &["00000002", "00000006", "FFFFFFFC"]);
    // 3.4 to 3.6 metres: 3.5 lies between, and the next values beside the ends do not
    metres("4059999A", "40666666").expect(&["4059999B", "40600000", "40666665"], &["40599999", "40666667", "C0600000"]);
}

#[test]
fn whole_numbers_from_the_least_to_the_greatest() {
    whole("80000000", "7FFFFFFF").expect(&["80000001", "FFFFFFFF", "00000000", "00000001", "7FFFFFFE"], &[]);
    whole("80000000", "FFFFFFFF").expect(&["80000001", "BF800000"], &["00000000", "7FFFFFFF"]);
    whole("00000000", "7FFFFFFF").expect(&["00000001", "3F800000"], &["FFFFFFFF", "80000000"]);
    whole("80000000", "80000000").expect(&[], &["80000001", "7FFFFFFF", "00000000"]);
    whole("7FFFFFFF", "7FFFFFFF").expect(&[], &["7FFFFFFE", "80000000", "FFFFFFFF"]);
}

#[test]
fn whole_numbers_around_0() {
    whole("FFFFFFFE", "00000001").expect(&["FFFFFFFF", "00000000"], &["FFFFFFFD", "00000002", "80000000", "7FFFFFFF"]);
    whole("FFFFFFFF", "00000000").expect(&[], &["FFFFFFFE", "00000001"]);
    // bytes in an order of their own: 255 lies between 0 and 256, and 511 does not
    whole("00000000", "00000100").expect(&["000000FF"], &["00000101", "000001FF", "01000000", "FF000000"]);
}

#[test]
fn metres_from_the_least_to_the_greatest() {
    let all = ["FF7FFFFE", "BF800000", "80000001", "00000000", "00000001", "3F800000", "7F7FFFFE"];
    metres("FF7FFFFF", "7F7FFFFF").expect(&all, &[]);
    metres("FF7FFFFF", "FF7FFFFF").expect(&[], &["FF7FFFFE", "7F7FFFFF", "80000001", "00000000"]);
    metres("7F7FFFFF", "7F7FFFFF").expect(&[], &["7F7FFFFE", "FF7FFFFF", "00000001"]);
}

/// -2 metres are C0000000, -1.5 BFC00000, -1 BF800000: the higher the bits, the lower the number.
#[test]
fn negative_metres_go_by_their_number() {
    let outside = ["C0000001", "FF7FFFFF", "BF7FFFFF", "80000001", "00000000", "3FC00000"];
    metres("C0000000", "BF800000").expect(&["BFFFFFFF", "BFC00000", "BF800001"], &outside);
    metres("FF7FFFFF", "C0000000").expect(&["FF7FFFFE", "C0000001"], &["BFFFFFFF", "40000000"]);
}

#[test]
fn subnormal_metres_of_both_signs() {
    metres("00000001", "00000003").expect(&["00000002"], &["00000000", "00000004", "80000002"]);
    metres("80000003", "80000001").expect(&["80000002"], &["80000004", "00000000", "00000002"]);
    // the last subnormal ones and the first normal ones
    metres("007FFFFF", "00800000").expect(&[], &["007FFFFE", "00800001", "807FFFFF"]);
    metres("80800000", "807FFFFF").expect(&[], &["80800001", "807FFFFE", "007FFFFF"]);
}

#[test]
fn metres_around_0() {
    metres("80000001", "00000001").expect(&["00000000"], &["80000002", "00000002"]);
    metres("00000000", "00000000").expect(&[], &["00000001", "80000001", "3F800000"]);
    metres("80000001", "00000000").expect(&[], &["80000002", "00000001"]);
    metres("00000000", "00000001").expect(&[], &["80000001", "00000002"]);
    // from -1 to 0.5
    let inside = ["BF7FFFFF", "80000001", "00000000", "00000001", "3EFFFFFF"];
    metres("BF800000", "3F000000").expect(&inside, &["BF800001", "3F000001", "3F800000"]);
}

/// Four bytes that lie in the range, as a value of another kind.
#[test]
fn a_value_of_another_kind_is_not_found() {
    for (near, kind) in [(metres("00000000", "40600000"), "00"), (whole("00000000", "40600000"), "02")] {
        for kind in [kind, "01"] {
            let mut replica = Replica::up();
            let puts = format!("02 0006 01 00 01 05 0000 01 00 {kind} 00000007");
            replica.expect("AG", &puts, &["2 2 6 0 1"]);
            replica.expect_unchanged("AG", &format!("02 0005 01 02 {} 00", near.template()), "3 2 5 18 0");
        }
    }
}

// ---- Ranges beside other fields and statements ----

/// The oldest tuple whose metres lie from 3.4 to 3.6, of name 7: neither one before it, nor the nearest to 3.5.
#[test]
fn the_oldest_in_the_range_is_found() {
    let mut replica = Replica::up();
    let put = |name: u8, metres: &str| format!("05 0000 02 00 01 {name:08X} 00 02 {metres}");
    let puts = [put(7, "40533333"), put(8, "40600000"), put(7, "40633333"), put(7, "40600000")].concat();
    replica.expect("AG", &format!("02 0006 01 00 04 {puts}"), &["2 2 6 0 1"]);
    let takes = format!("02 0005 01 01 0000 02 00 01 00000007 {} 00", metres("4059999A", "40666666").field(0));
    replica.expect("AG", &takes, &["3 2 5 0 1 0:2:40633333"]);
    replica.expect("AG", &takes, &["4 2 5 0 1 0:2:40600000"]);
    replica.expect_tuples(&["0000 02 01 00000007 02 40533333", "0000 02 01 00000008 02 40600000"]);
    replica.expect("AG", &takes, &[]);
}

/// What was found, and neither end, is searched for again, and put with a sum and a difference of it.
#[test]
fn what_is_bound_is_used() {
    let mut replica = Replica::up();
    let puts = "05 0000 02 00 01 00000007 00 02 40600000 05 0000 02 00 01 00000008 00 02 40600000";
    replica.expect("AG", &format!("02 0006 01 00 02 {puts}"), &["2 2 6 0 1"]);
    let takes = format!("01 0000 02 00 01 00000007 {}", metres("4059999A", "40666666").field(15));
    let again = "03 0000 02 00 01 00000008 02 0F";
    let out = "05 0000 04 00 01 00000009 02 0F 03 0F 02 3F000000 04 0F 02 3E800000";
    replica.expect("AG", &format!("02 0005 01 {takes} 02 {again} {out}"), &["3 2 5 0 1 15:2:40600000"]);
    replica.expect_tuples(&[
        "0000 02 01 00000008 02 40600000",
        "0000 04 01 00000009 02 40600000 02 40800000 02 40500000",
    ]);
}

/// A sum with what a range bound is off the range of whole numbers: 17, and the tuple that the guard took is there.
#[test]
fn a_sum_of_what_is_bound_fails() {
    let mut replica = Replica::up();
    replica.expect("AG", "02 0006 01 00 01 05 0000 01 00 00 7FFFFFFF", &["2 2 6 0 1"]);
    let near = whole("7FFFFFF0", "7FFFFFFF").field(0);
    let fails = format!("02 0005 01 01 0000 01 {near} 01 05 0000 01 03 00 00 00000001");
    replica.expect_unchanged("AG", &fails, "3 2 5 17 1");
    let works = format!("02 0005 01 01 0000 01 {near} 01 05 0000 01 04 00 00 00000001");
    replica.expect("AG", &works, &["4 2 5 0 1 0:0:7FFFFFFF"]);
    replica.expect_tuples(&["0000 01 00 7FFFFFFE"]);
}

/// Ranges from 1 to 2 and from 2 to 3 metres both have 2 metres: the older statement takes it, then the younger one.
#[test]
fn ranges_that_touch() {
    let low = format!("01 0000 01 {} 00", metres("3F800000", "40000000").field(0));
    let high = format!("01 0000 01 {} 00", metres("40000000", "40400000").field(1));
    let put = |value: &str| format!("02 0006 01 00 01 05 0000 01 00 02 {value}");
    let mut replica = Replica::up();
    replica.expect("AG", &format!("02 0007 01 {high}"), &[]);
    replica.expect("AG", &format!("02 0005 01 {low}"), &[]);
    replica.expect("AG", &put("40000000"), &["4 2 6 0 1", "2 2 7 0 1 1:2:40000000"]);
    replica.expect("AG", &put("40000001"), &["5 2 6 0 1"]);
    replica.expect("AG", &put("40000000"), &["6 2 6 0 1", "3 2 5 0 1 0:2:40000000"]);
    replica.expect_tuples(&["0000 01 02 40000001"]);
}

/// The first of two guards whose range a value lies in is chosen; the second where it lies in that alone.
#[test]
fn branches_by_ranges() {
    let branches = |process: &str| {
        let [low, high] = [whole("00000000", "00000009").field(0), whole("00000009", "00000014").field(0)];
        format!("02 {process} 02 02 0000 01 {low} 00 02 0000 01 {high} 00")
    };
    for (value, line) in [("00000000", "0 1"), ("00000009", "0 1"), ("0000000A", "0 2"), ("00000014", "0 2")] {
        let mut replica = Replica::up();
        replica.expect("AG", &whole("0", "0").put(value), &["2 2 6 0 1"]);
        replica.expect("AG", &branches("0005"), &[&format!("3 2 5 {line} 0:0:{value}")]);
        replica.expect_tuples(&[]);
    }
    let mut replica = Replica::up();
    replica.expect("AG", &whole("0", "0").put("00000015"), &["2 2 6 0 1"]);
    replica.expect_unchanged("AG", &branches("0005"), "3 2 5 18 0");
}

// ---- As many as there can be ----

/// rd in space 0 of so many ranges from 1 to 2 metres, into these variables, and of more fields.
fn reads(variables: Range<u8>, more: &[&str]) -> String {
    let count = variables.len() + more.len();
    let near = metres("3F800000", "40000000");
    let ranges: String = variables.map(|variable| near.field(variable)).collect();
    format!("03 0000 {count:02X} {ranges} {}", more.concat())
}

/// Host 2 is up, and there are tuples of six, four, and two metres with a whole number 7 and 8; each is 1.5 metres.
fn filled() -> Replica {
    let mut replica = Replica::up();
    let metres = |count: usize| "00 02 3FC00000".repeat(count);
    let two = format!("05 0000 04 {} 00 00 00000007 00 00 00000008", metres(2));
    let puts = format!("05 0000 06 {} 05 0000 04 {} {two}", metres(6), metres(4));
    replica.expect("AG", &format!("02 0006 01 00 03 {puts}"), &["2 2 6 0 1"]);
    replica
}

/// " 0:2:3FC00000 1:2:3FC00000 .." for these variables.
fn bound(variables: Range<u8>) -> String {
    variables.map(|variable| format!(" {variable}:2:3FC00000")).collect()
}

/// All 16 variables of a branch by ranges.
#[test]
fn sixteen_ranges_in_a_branch() {
    let mut replica = filled();
    let body = format!("02 0005 01 {} 02 {} {}", reads(0..6, &[]), reads(6..12, &[]), reads(12..16, &[]));
    assert_eq!(unhex(&body).len(), 193);
    replica.expect("AG", &body, &[&format!("3 2 5 0 1{}", bound(0..16))]);
}

/// 4 bytes, two branches with a count, four operations of 4 bytes, twenty ranges of 11: 242 bytes. A given value of 6
/// bytes and a kind of 2 make 250. A form 1 in the place of the kind, of one byte more, is malformed, and so are 21
/// ranges, which have 253 bytes.
#[test]
fn as_many_ranges_as_a_body_holds() {
    let misses = format!("{} 01 {}", reads(0..6, &[]).replace("40000000", "3FBFFFFF"), reads(6..12, &[]));
    let body = |last: &str| format!("02 0005 02 {misses} {} 01 {last}", reads(0..6, &[]));
    let (given, kind, formal) = ("00 00 00000007", "05 00", "01 00 0F");
    let length = |body: &str| unhex(body).len();

    let twenty = body(&reads(6..8, &[]));
    assert_eq!((length(&twenty), twenty.matches("06 02 3F800000").count()), (242, 20));
    filled().expect_unchanged("AG", &twenty, "3 2 5 16 2");

    let longest = body(&reads(6..8, &[given, kind]));
    assert_eq!((length(&longest), longest.matches("06 02 3F800000").count()), (250, 20));
    filled().expect("AG", &longest, &[&format!("3 2 5 0 2{}", bound(0..8))]);

    let longer = body(&reads(6..8, &[given, formal]));
    assert_eq!(length(&longer), 251);
    filled().expect_unchanged("AG", &longer, "3 255 65535 6 0");
    let more = body(&reads(6..9, &[]));
    assert_eq!((length(&more), more.matches("06 02 3F800000").count()), (253, 21));
    filled().expect_unchanged("AG", &more, "3 255 65535 6 0");
}

/// 250 bytes of ranges wait, in an entry of 256, and are woken.
#[test]
fn the_longest_statement_of_ranges_waits() {
    let body = format!(
        "02 0005 02 {} 01 {} {} 01 {}",
        reads(0..6, &[]),
        reads(6..12, &[]),
        reads(0..6, &[]).replace("3F800000", "3F7FFFFF"),
        reads(6..8, &["00 00 00000007", "05 00"])
    );
    assert_eq!(unhex(&body).len(), 250);
    let mut replica = Replica::up();
    replica.expect("AG", &body, &[]);
    replica.expect_waiting(0, &format!("00000002 00FA {body}"));
    let puts = |count: usize, value: &str| format!("05 0000 {count:02X} {}", format!("00 02 {value}").repeat(count));
    // 0.99999994 metres lie in the second guard's ranges alone
    let two = format!("05 0000 04 {} 00 00 00000007 00 00 00000008", "00 02 3FC00000".repeat(2));
    replica.expect("AG", &format!("02 0006 01 00 01 {two}"), &["3 2 6 0 1"]);
    replica.expect("AG", &format!("02 0006 01 00 01 {}", puts(6, "3F7FFFFE")), &["4 2 6 0 1"]);
    let values: String = (0..6).map(|variable| format!(" {variable}:2:3F7FFFFF")).collect();
    let woken = format!("2 2 5 0 2{values}{}", bound(6..8));
    replica.expect("AG", &format!("02 0006 01 00 01 {}", puts(6, "3F7FFFFF")), &["5 2 6 0 1", &woken]);
    assert_eq!(replica.waiting_count(), 0);
}

// ---- What is malformed ----

/// A statement of process 5 is malformed: refused 6, and nothing but the position changes.
fn expect_malformed(branches: &str) {
    Replica::up().expect_unchanged("AG", &format!("02 0005 {branches}"), "2 255 65535 6 0");
}

/// A guard of one field, which waits where it is legal; in a body it is 16 there.
fn expect_legal(field: &str, is_legal: bool) {
    let guards = ["01", "02", "03", "04"].map(|code| format!("01 {code} 0000 01 {field} 00"));
    let bodies = ["01", "03"].map(|code| format!("01 00 01 {code} 0000 01 {field}"));
    for statement in guards.iter().chain(&bodies) {
        let mut replica = Replica::up();
        let body = format!("02 0005 {statement}");
        match (is_legal, &statement[3..5]) {
            (false, _) => expect_malformed(statement),
            (true, "00") => replica.expect_unchanged("AG", &body, "2 2 5 16 1"),
            (true, "01" | "03") => replica.expect("AG", &body, &[]),
            (true, _) => replica.expect_unchanged("AG", &body, "2 2 5 18 0"),
        }
    }
}

#[test]
fn ends_that_are_legal_and_not() {
    let legal = [
        whole("80000000", "7FFFFFFF"),
        whole("FFFFFFFF", "00000000"),
        whole("00000007", "00000007"),
        metres("FF7FFFFF", "7F7FFFFF"),
        metres("80000001", "00000000"),
        metres("80000002", "80000001"),
        metres("C0000000", "BF800000"),
        metres("00000000", "00000000"),
    ];
    let malformed = [
        // the lowest above the highest
        whole("00000008", "00000007"),
        whole("00000000", "FFFFFFFF"),
        whole("7FFFFFFF", "80000000"),
        whole("C0000000", "BF800000"),
        metres("00000001", "00000000"),
        metres("00000000", "80000001"),
        metres("80000001", "80000002"),
        metres("BF800000", "C0000000"),
        metres("7F7FFFFF", "FF7FFFFF"),
        // negative zero, infinite, no number
        metres("80000000", "00000000"),
        metres("BF800000", "80000000"),
        metres("80000000", "80000000"),
        metres("FF800000", "00000000"),
        metres("00000000", "7F800000"),
        metres("7F800000", "7F800000"),
        metres("7FC00000", "00000000"),
        metres("00000000", "7FC00000"),
        metres("FFC00000", "7FC00000"),
        metres("7F800001", "7F800001"),
    ];
    legal.iter().for_each(|near| expect_legal(&near.field(0), true));
    malformed.iter().for_each(|near| expect_legal(&near.field(0), false));
}

#[test]
fn kinds_and_variables_of_a_range() {
    for kind in 0..=255_u8 {
        let near = Near { kind, lowest: "00000001", highest: "00000002" };
        expect_legal(&near.field(0), kind == 0 || kind == 2);
    }
    for variable in 0..=255 {
        expect_legal(&whole("00000001", "00000002").field(variable), variable < 16);
    }
}

/// Forms 7 and up, whatever follows them.
#[test]
fn forms_above_6() {
    for form in 7..=255_u8 {
        for rest in ["", "00", "00 00", "00 00000001", "00 00 00000001", "00 00000001 00000002 00"] {
            expect_malformed(&format!("01 01 0000 01 {form:02X} {rest} 00"));
        }
    }
}

/// out, move and copy have no ranges.
#[test]
fn ranges_in_other_operations() {
    let near = whole("00000001", "00000002");
    for operation in ["05 0000", "06 0000 0000", "07 0000 0000"] {
        expect_malformed(&format!("01 00 01 {operation} 01 {}", near.field(0)));
        expect_malformed(&format!("01 00 01 {operation} 02 00 00 00000001 {}", near.field(0)));
        expect_malformed(&format!("01 01 0000 01 01 00 00 01 {operation} 01 {}", near.field(0)));
        expect_malformed(&format!("01 {operation} 01 {} 00", near.field(0)));
    }
}

/// A variable is bound once in a branch; another branch may bind it again.
#[test]
fn ranges_that_bind_a_variable() {
    let (near, formal) = (whole("00000001", "00000002").field(3), "01 00 03");
    let other = metres("00000001", "00000002").field(3);
    for (first, second) in [(&near[..], &near[..]), (&near, &other), (&near, formal), (formal, &near)] {
        expect_malformed(&format!("01 01 0000 02 {first} {second} 00"));
        expect_malformed(&format!("01 01 0000 01 {first} 01 03 0000 01 {second}"));
        expect_malformed(&format!("01 00 02 03 0000 01 {first} 01 0000 01 {second}"));
        Replica::up().expect("AG", &format!("02 0005 02 01 0000 01 {first} 00 03 0000 01 {second} 00"), &[]);
    }
}

/// Used by later operations of its branch, and by forms 3 and 4 with its kind.
#[test]
fn uses_of_what_a_range_binds() {
    let near = [whole("00000001", "00000002").field(3), metres("00000001", "00000002").field(3)];
    for (near, kind, other) in [(&near[0], "00", "02"), (&near[1], "02", "00")] {
        let waits = |body: &str| Replica::up().expect("AG", &format!("02 0005 01 01 0000 01 {near} 01 {body}"), &[]);
        let malformed = |body: &str| expect_malformed(&format!("01 01 0000 01 {near} 01 {body}"));
        for operation in ["03 0000", "05 0000", "06 0000 0000", "07 0000 0000"] {
            waits(&format!("{operation} 01 02 03"));
        }
        for form in ["03", "04"] {
            waits(&format!("05 0000 01 {form} 03 {kind} 00000001"));
            malformed(&format!("05 0000 01 {form} 03 {other} 00000001"));
            malformed(&format!("05 0000 01 {form} 04 {kind} 00000001"));
        }
        malformed("05 0000 01 02 04");
        expect_malformed(&format!("01 01 0000 02 {near} 02 03 00"));
        expect_malformed(&format!("01 01 0000 02 02 03 {near} 00"));
        expect_malformed(&format!("02 01 0000 01 {near} 00 00 01 05 0000 01 02 03"));
    }
}

/// Cut after each byte of the range, with a length that fits; and with a byte more.
#[test]
fn a_range_cut_short() {
    let field = hex(&unhex(&whole("00000001", "00000002").field(0)));
    for length in 0..11 {
        expect_malformed(&format!("01 01 0000 01 {}", &field[..2 * length]));
        expect_malformed(&format!("01 01 0000 01 {} 00", &field[..2 * length]));
    }
    expect_malformed(&format!("01 01 0000 01 {field}"));
    expect_malformed(&format!("01 01 0000 01 {field} 00 00"));
    Replica::up().expect("AG", &format!("02 0005 01 01 0000 01 {field} 00"), &[]);
}

// ---- Waiting ranges in a damaged state ----

/// A state with these tuples of one value in space 0, in which process 5 waits.
fn waits_beside(tuples: &[&str], statement: &str) -> Vec<u8> {
    let mut replica = Replica::up();
    let puts: String = tuples.iter().map(|value| format!("05 0000 01 00 {value}")).collect();
    replica.expect("AG", &format!("02 0006 01 00 {:02X} {puts}", tuples.len()), &["2 2 6 0 1"]);
    replica.expect("AG", &format!("02 0005 {statement}"), &[]);
    assert_eq!(replica.waiting_count(), 1);
    replica.state
}

/// Whether the library takes the bytes for a state, as the second implementation does; 3 is tried after that.
fn passes(caller: &mut Caller, bytes: &[u8]) -> bool {
    let returned = caller.agree(bytes, b"XX", &[4; REPLY_BYTES]);
    assert_eq!(returned, Ok(if is_state(bytes) { 3 } else { 1 }));
    returned == Ok(3)
}

/// From -2 to -1 metres into variable 3, beside a tuple of -0.5 metres: each value of the field's bytes.
#[test]
fn each_byte_of_a_waiting_range() {
    let near = metres("C0000000", "BF800000").field(3);
    let mut state = waits_beside(&["02 BF000000"], &format!("01 01 0000 01 {near} 00"));
    let start = waiting(0).start + 14;
    assert_eq!(state[start..start + 11], unhex(&near));
    let mut caller = Caller::new(LIBRARY);
    let mut each = |place: usize, expected: fn(u8) -> bool| {
        let old = state[start + place];
        for new in 0..=255 {
            state[start + place] = new;
            assert_eq!(passes(&mut caller, &state), expected(new), "byte {place} made {new:02X}");
        }
        state[start + place] = old;
    };
    each(0, |form| form == 6);
    // as whole numbers the lowest is above the highest
    each(1, |kind| kind == 2);
    // xx000000 is at most -1 from C0000000 on; FF000000 is finite
    each(2, |high| high >= 0xC0);
    each(3, |_| true);
    each(4, |_| true);
    each(5, |_| true);
    // xx800000 is -4 for C0, and for BE it is -0.25, so that the guard holds
    each(6, |high| high == 0xBF);
    // BFxx0000 is -0.5 for 00, and the guard holds
    each(7, |next| next != 0);
    each(8, |_| true);
    each(9, |_| true);
    each(10, |variable| variable < 16);
}

/// Two ranges with what uses them, beside values right below and above: every value of every byte of the entry that is
/// used, and some of the others. The record after that is taken as the second implementation takes it.
#[test]
fn a_waiting_statement_of_ranges_at_every_byte() {
    let (near, around) = (metres("80000002", "3F800000"), whole("FFFFFFFE", "00000005"));
    let first = format!("01 0000 01 {} 01 05 0000 02 02 00 03 00 02 3F800000", near.field(0));
    let again = metres("40000000", "40400000").field(1);
    let second = format!("03 0000 01 {} 01 03 0000 02 {again} 02 0F", around.field(15));
    let tuples = ["02 80000003", "02 3F800001", "00 FFFFFFFD", "00 00000006", "01 00000000"];
    let mut state = waits_beside(&tuples, &format!("02 {first} {second}"));
    let entry = waiting(0);
    let used = 6 + usize::from(state[entry.start + 5]);
    let record = record("AG", 4, "02 0006 01 00 01 05 0000 01 00 02 00000000");
    let (mut caller, mut counts) = (Caller::new(LIBRARY), [0; 2]);
    for at in 0..WAITING_BYTES {
        let old = state[entry.start + at];
        let values: Vec<u8> = if at < used { (0..=255).collect() } else { vec![1, 255] };
        for new in values.into_iter().filter(|new| *new != old) {
            state[entry.start + at] = new;
            let is_state = passes(&mut caller, &state);
            counts[usize::from(is_state)] += 1;
            let taken = caller.agree(&state, &record, &[4; REPLY_BYTES]);
            assert!(taken.as_ref().is_ok_and(|taken| (*taken == 1) != is_state), "byte {at} made {new:02X}: {taken:?}");
        }
        state[entry.start + at] = old;
    }
    assert_eq!(used, 72);
    assert!(counts[0] > 15_000 && counts[1] > 3_000, "{counts:?}");
}

/// A tuple comes to lie in a range that waits, by one byte of it: no state, since the statement should have run.
#[test]
fn tuples_beside_a_waiting_range() {
    let near = metres("4059999A", "40666666").field(3);
    let state = waits_beside(&["02 40666667"], &format!("01 01 0000 01 {near} 00"));
    let (mut caller, value) = (Caller::new(LIBRARY), layout::tuple(0).start + layout::VALUES_AT);
    let kept: Vec<u8> = (0..=255)
        .filter(|last| {
            let mut bytes = state.clone();
            bytes[value + 4] = *last;
            passes(&mut caller, &bytes)
        })
        .collect();
    assert_eq!(kept, (0x67..=0xFF).collect::<Vec<u8>>());
    assert_eq!(state[LAST], 3_u32.to_be_bytes());
}

// ---- In every floating-point mode ----

/// What a call in a mode returns, leaves and replies.
fn taken(mode: Mode, state: &[u8], record: &[u8]) -> (u64, Vec<u8>, Vec<u8>) {
    let (mut state, mut reply) = (state.to_vec(), vec![0; REPLY_BYTES]);
    let (returned, word) = modes::call(mode, replica_take, &mut state, record, &mut reply);
    assert_eq!(word, mode.word, "{mode}");
    (returned, state, reply)
}

/// Subnormal metres are neither zero nor equal to each other: in a guard, in the test of a state and in its ends.
#[test]
fn subnormal_metres_in_every_mode() {
    let cases = [
        ("00000001", "80000001", "00000000", 18),
        ("80000001", "00000000", "00000001", 18),
        ("00000001", "00000002", "00000003", 18),
        ("00000003", "00000001", "00000002", 18),
        ("80000003", "80000002", "80000001", 18),
        ("00000000", "00000001", "007FFFFF", 18),
        ("00000002", "00000001", "00000003", 0),
        ("80000002", "80000003", "00000000", 0),
        ("00000000", "80000001", "00000001", 0),
        ("00000002", "00000002", "00000001", 6),
        ("80000001", "80000001", "80000002", 6),
        ("00000000", "00000000", "80000001", 6),
    ];
    for (value, lowest, highest, outcome) in cases {
        let mut replica = Replica::up();
        let near = metres(lowest, highest);
        replica.expect("AG", &near.put(value), &["2 2 6 0 1"]);
        let record = record("AG", 3, &format!("02 0005 01 02 {} 00", near.template()));
        for mode in OTHERS.iter().chain([&DEFAULT]) {
            let (mut state, mut reply) = (replica.state.clone(), vec![0; REPLY_BYTES]);
            let returned = (REFERENCE.take)(&mut state, &record, &mut reply);
            assert_eq!(reply[9], outcome, "{value} from {lowest} to {highest}");
            assert!(taken(*mode, &replica.state, &record) == (returned, state, reply), "{mode}: {lowest} {highest}");
        }
    }
    let near = metres("00000002", "00000003").field(0);
    let state = waits_beside(&["02 00000001"], &format!("01 01 0000 01 {near} 00"));
    for mode in OTHERS {
        assert_eq!(taken(mode, &state, b"XX").0, 3, "{mode}");
    }
}

/// One metres value in space 0, from the lowest to the highest.
fn template(near: Near) -> Vec<u8> {
    unhex(&format!("01 {}", near.template()))
}

#[test]
fn templates_of_subnormal_metres_in_every_mode() {
    let low = template(metres("80000001", "00000000"));
    for (lowest, highest, answer) in [
        ("00000001", "00000002", 0),
        ("80000003", "80000002", 0),
        ("00000000", "00000001", 1),
        ("80000002", "80000001", 1),
        ("00000002", "00000001", 6),
    ] {
        let other = template(metres(lowest, highest));
        for mode in OTHERS.iter().chain([&DEFAULT]) {
            let asked = modes::ask(*mode, replica_can_meet, &low, &other);
            assert_eq!(asked, (answer, mode.word), "{mode}: {lowest} {highest}");
        }
    }
}

/// The modes are those that the processor compares in: with denormals taken as zero, 1 is not above 0 to it.
#[test]
fn the_processor_takes_denormals_as_zero() {
    let (sum, _) = modes::processor(DENORMALS_ARE_ZERO, 0x0000_0001, 0x0000_0000);
    assert_eq!(sum, 0);
}
