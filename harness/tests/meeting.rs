//! Whether two templates can meet (request L4 of document 02): answers written out, pairs damaged and generated, and
//! wrong stand-ins that are noticed. Every pair is asked in both orders.

use harness::hex::{hex, unhex};
use harness::library::{can_meet, replica_can_meet};
use harness::meetings::{self, library, Asker, CanMeet, BATCH};
use reference::generate::coverage::Coverage;
use reference::meeting::can_meet as second_can_meet;
use reference::statement::{operation_bytes, operation_parts, Field, Operation};
use reference::value::{Value, WHOLE};
use std::ptr::null;

const APART: u64 = 0;
const MEET: u64 = 1;
const MALFORMED: u64 = 6;
const VARIABLE: u64 = 19;

const SEED: u64 = 9;
const BATCHES: u64 = 250;

/// The two have this answer in both orders, by the second implementation too.
fn expect(first: &str, second: &str, answer: u64) {
    let agreed = Asker::new(library).agree(&unhex(first), &unhex(second));
    assert_eq!(agreed, Ok(answer), "{first} and {second}");
}

/// in of one field in space 0.
fn one(field: &str) -> String {
    format!("01 0000 01 {field}")
}

/// The answer on two templates of one field, and on those of six that have these in one place.
fn expect_fields(first: &str, second: &str, answer: u64) {
    expect(&one(first), &one(second), answer);
    for place in 0..6 {
        let six = |field: &str| {
            let fields = (0..6).map(|at| if at == place { field } else { "05 00" });
            format!("03 0000 06 {}", fields.collect::<String>())
        };
        expect(&six(first), &six(second), answer);
    }
}

// ---- 1 and 0 ----

/// in, inp, rd and rdp play no part.
#[test]
fn codes() {
    let template = |code: u8, field: &str| format!("{code:02X} 0000 01 {field}");
    for (first, second) in (1..=4).flat_map(|first| (1..=4).map(move |second| (first, second))) {
        expect(&template(first, "05 00"), &template(second, "00 00 00000007"), MEET);
        expect(&template(first, "00 00 00000008"), &template(second, "00 00 00000007"), APART);
    }
}

#[test]
fn spaces() {
    let template = |space: u16| format!("01 {space:04X} 01 05 00");
    for space in [0, 1, 255, 256, 0x8001, 65_535] {
        expect(&template(space), &template(space), MEET);
        (0..16).for_each(|bit| expect(&template(space), &template(space ^ 1 << bit), APART));
    }
    expect(&template(0x0102), &template(0x0201), APART);
}

#[test]
fn counts() {
    let template = |count: usize| format!("01 0000 {count:02X} {}", "05 00".repeat(count));
    for (first, second) in (1..=6).flat_map(|first| (1..=6).map(move |second| (first, second))) {
        expect(&template(first), &template(second), if first == second { MEET } else { APART });
    }
}

/// Each form of one kind beside each of every kind; bits are 0, which is a value of all kinds and lies in the range.
#[test]
fn forms_and_kinds() {
    let forms = |kind: u8| {
        let range = if kind == 1 { None } else { Some(format!("06 {kind:02X} 00000000 00000001 00")) };
        let others = [format!("00 {kind:02X} 00000000"), format!("01 {kind:02X} 00"), format!("05 {kind:02X}")];
        others.into_iter().chain(range).collect::<Vec<String>>()
    };
    for (first, second) in (0..3).flat_map(|first| (0..3).map(move |second| (first, second))) {
        for one in forms(first) {
            let answer = if first == second { MEET } else { APART };
            forms(second).iter().for_each(|other| expect_fields(&one, other, answer));
        }
    }
}

/// Given values meet where all four bytes are the same.
#[test]
fn given_values() {
    for kind in ["00", "01", "02"] {
        let given = |bits: u32| format!("00 {kind} {bits:08X}");
        expect_fields(&given(0x1234), &given(0x1234), MEET);
        expect_fields(&given(0x1234), &given(0x1235), APART);
        expect_fields(&given(0x1234), &given(0x0234), APART);
    }
    expect_fields("00 02 3F800000", "00 02 BF800000", APART);
    expect_fields("00 00 00001234", "00 00 01001234", APART);
    expect_fields("00 00 7FFFFFFF", "00 00 FFFFFFFF", APART);
}

/// The value lies in the range, or does not.
fn expect_in(kind: &str, lowest: &str, highest: &str, inside: &[&str], outside: &[&str]) {
    let range = format!("06 {kind} {lowest} {highest} 05");
    for value in inside.iter().chain([&lowest, &highest]) {
        expect_fields(&range, &format!("00 {kind} {value}"), MEET);
        expect_fields(&range, &format!("06 {kind} {value} {value} 05"), MEET);
    }
    for value in outside {
        expect_fields(&range, &format!("00 {kind} {value}"), APART);
        expect_fields(&range, &format!("06 {kind} {value} {value} 05"), APART);
    }
}

#[test]
fn a_range_beside_a_value() {
    expect_in("00", "00000003", "00000005", &["00000004"], &["00000002", "00000006", "FFFFFFFC"]);
    expect_in("00", "FFFFFFFE", "00000001", &["FFFFFFFF", "00000000"], &["FFFFFFFD", "00000002", "80000000"]);
    expect_in("00", "80000000", "7FFFFFFF", &["80000001", "FFFFFFFF", "00000000"], &[]);
    expect_in("00", "7FFFFFFF", "7FFFFFFF", &[], &["7FFFFFFE", "80000000", "FFFFFFFF"]);
    expect_in("02", "4059999A", "40666666", &["40600000"], &["40599999", "40666667", "C0600000"]);
    expect_in("02", "C0000000", "BF800000", &["BFC00000"], &["C0000001", "BF7FFFFF", "80000001", "00000000"]);
    expect_in("02", "80000002", "00000001", &["80000001", "00000000"], &["80000003", "00000002"]);
    expect_in("02", "FF7FFFFF", "7F7FFFFF", &["80000001", "00000000", "00000001"], &[]);
}

/// Ranges by their ends.
fn expect_ranges(kind: &str, first: [&str; 2], second: [&str; 2], answer: u64) {
    let range = |[lowest, highest]: [&str; 2]| format!("06 {kind} {lowest} {highest} 07");
    expect_fields(&range(first), &range(second), answer);
}

#[test]
fn ranges_of_whole_numbers() {
    let low = ["00000003", "00000005"];
    expect_ranges("00", low, low, MEET);
    expect_ranges("00", low, ["00000005", "00000007"], MEET);
    expect_ranges("00", low, ["00000006", "00000007"], APART);
    expect_ranges("00", low, ["00000004", "00000007"], MEET);
    expect_ranges("00", low, ["00000004", "00000004"], MEET);
    expect_ranges("00", low, ["80000000", "7FFFFFFF"], MEET);
    expect_ranges("00", low, ["80000000", "00000002"], APART);
    expect_ranges("00", ["80000000", "FFFFFFFF"], ["00000000", "7FFFFFFF"], APART);
    expect_ranges("00", ["80000000", "00000000"], ["00000000", "7FFFFFFF"], MEET);
    expect_ranges("00", ["80000000", "80000000"], ["80000000", "80000001"], MEET);
    expect_ranges("00", ["BF800000", "C0000000"], ["C0000001", "C0000002"], APART);
}

/// -2 metres are C0000000, -1 BF800000, -0.5 BF000000, 0.5 3F000000, 1 3F800000.
#[test]
fn ranges_of_metres() {
    let negative = ["C0000000", "BF800000"];
    expect_ranges("02", negative, ["BF800000", "BF000000"], MEET);
    expect_ranges("02", negative, ["BF7FFFFF", "BF000000"], APART);
    expect_ranges("02", negative, ["FF7FFFFF", "C0000000"], MEET);
    expect_ranges("02", negative, ["FF7FFFFF", "C0000001"], APART);
    expect_ranges("02", negative, ["BFC00000", "3F800000"], MEET);
    expect_ranges("02", negative, ["3F800000", "40000000"], APART);
    expect_ranges("02", negative, ["BFE00000", "BFC00000"], MEET);
    expect_ranges("02", ["BF800000", "00000000"], ["00000000", "3F800000"], MEET);
    expect_ranges("02", ["BF800000", "80000001"], ["00000000", "3F800000"], APART);
    expect_ranges("02", ["BF800000", "00000000"], ["00000001", "3F800000"], APART);
    expect_ranges("02", ["80000003", "80000002"], ["80000002", "80000001"], MEET);
    expect_ranges("02", ["80000003", "80000002"], ["80000001", "00000001"], APART);
    expect_ranges("02", ["007FFFFF", "007FFFFF"], ["00800000", "7F7FFFFF"], APART);
    expect_ranges("02", ["FF7FFFFF", "7F7FFFFF"], ["7F7FFFFF", "7F7FFFFF"], MEET);
}

/// All places must agree: five that do are not enough.
#[test]
fn six_ranges_beside_six() {
    let six = |high: &str, at: u8| {
        let ends = |place: u8| if place == at { ("C0000000", high) } else { ("C0000000", "40000000") };
        let field = |place: u8| format!("06 02 {} {} {place:02X}", ends(place).0, ends(place).1);
        format!("02 1234 06 {}", (0..6).map(field).collect::<String>())
    };
    let other = |place: u8| format!("06 02 BF800000 40400000 {:02X}", 15 - place);
    let other = format!("04 1234 06 {}", (0..6).map(other).collect::<String>());
    assert_eq!(unhex(&other).len(), 70);
    for at in 0..6 {
        expect(&six("BF800000", at), &other, MEET);
        expect(&six("BF800001", at), &other, APART);
    }
}

/// A variable of the one template is none of the other.
#[test]
fn variables_of_one_name() {
    let field = |variable: u8| format!("01 0000 02 01 00 {variable:02X} 06 02 00000000 3F800000 {:02X}", 15 - variable);
    for (first, second) in (0..16).flat_map(|first| (0..16).map(move |second| (first, second))) {
        expect(&field(first), &field(second), MEET);
    }
}

// ---- 6 ----

/// The template is malformed, beside one that is not, beside one with a form 2, and beside itself.
fn expect_malformed(template: &str) {
    for other in [&one("05 00"), &one("02 00"), template] {
        expect(template, other, MALFORMED);
    }
}

/// A field as the only one, and behind and before others.
fn expect_malformed_field(field: &str) {
    expect_malformed(&one(field));
    expect_malformed(&format!("03 0000 02 05 01 {field}"));
    expect_malformed(&format!("04 FFFF 03 {field} 01 01 0E 00 00 00000000"));
}

#[test]
fn other_codes_are_malformed() {
    expect_malformed("00");
    for code in (0..=255).filter(|code| !(1..=4).contains(code)) {
        expect_malformed(&format!("{code:02X} 0000 01 05 00"));
        expect_malformed(&format!("{code:02X} 0000 01 00 00 00000001"));
        expect_malformed(&format!("{code:02X} 0000 0000 01 05 00"));
        expect_malformed(&format!("{code:02X} 0000 0000 00"));
    }
}

#[test]
fn field_counts_that_are_malformed() {
    for count in (0..=255).filter(|count| !(1..=6).contains(count)) {
        expect_malformed(&format!("01 0000 {count:02X} {}", "05 00".repeat(count)));
    }
    for (count, fields) in (1..=6).flat_map(|count| (0..=8).map(move |fields| (count, fields))) {
        let template = format!("01 0000 {count:02X} {}", "05 00".repeat(fields));
        if count == fields {
            expect(&template, &template, MEET);
        } else {
            expect_malformed(&template);
        }
    }
}

#[test]
fn forms_that_are_malformed() {
    for form in [3, 4] {
        expect_malformed_field(&format!("{form:02X} 00 00 00000001"));
        expect_malformed_field(&format!("{form:02X} 0F 02 3F800000"));
    }
    for form in 7..=255 {
        for rest in ["", "00", "00 00", "00 00000001", "00 00 00000001", "00 00000001 00000002 00"] {
            expect_malformed_field(&format!("{form:02X} {rest}"));
        }
    }
}

#[test]
fn kinds_that_are_malformed() {
    for kind in 3..=255 {
        expect_malformed_field(&format!("00 {kind:02X} 00000000"));
        expect_malformed_field(&format!("01 {kind:02X} 00"));
        expect_malformed_field(&format!("05 {kind:02X}"));
    }
    for kind in (0..=255).filter(|kind| ![0, 2].contains(kind)) {
        expect_malformed_field(&format!("06 {kind:02X} 00000001 00000002 00"));
    }
}

#[test]
fn values_that_are_malformed() {
    for bits in ["00010000", "01000000", "FFFFFFFF"] {
        expect_malformed_field(&format!("00 01 {bits}"));
    }
    for bits in ["80000000", "7F800000", "FF800000", "7FC00000", "FFFFFFFF"] {
        expect_malformed_field(&format!("00 02 {bits}"));
    }
    for bits in ["80000000", "7F800000", "FF800000", "7F800001", "7FC00000", "FFC00000"] {
        expect_malformed_field(&format!("06 02 {bits} 7F7FFFFF 00"));
        expect_malformed_field(&format!("06 02 FF7FFFFF {bits} 00"));
        expect_malformed_field(&format!("06 02 {bits} {bits} 00"));
    }
}

#[test]
fn ranges_upside_down_are_malformed() {
    for ends in ["00000002 00000001", "00000000 FFFFFFFF", "7FFFFFFF 80000000", "C0000000 BF800000"] {
        expect_malformed_field(&format!("06 00 {ends} 00"));
    }
    expect_malformed_field("06 02 7F7FFFFF FF7FFFFF 00");
    for ends in ["00000002 00000001", "00000000 80000001", "80000001 80000002", "BF800000 C0000000"] {
        expect_malformed_field(&format!("06 02 {ends} 00"));
    }
}

#[test]
fn variables_that_are_malformed() {
    for variable in 16..=255 {
        expect_malformed_field(&format!("01 00 {variable:02X}"));
        expect_malformed_field(&format!("02 {variable:02X}"));
        expect_malformed_field(&format!("06 00 00000001 00000002 {variable:02X}"));
    }
}

#[test]
fn variables_bound_twice_are_malformed() {
    let (formal, range) = ("01 02 09", "06 00 00000001 00000002 09");
    for (first, second) in [(formal, formal), (formal, range), (range, formal), (range, range)] {
        expect_malformed(&format!("01 0000 02 {first} {second}"));
        expect_malformed(&format!("01 0000 06 {first} 05 00 01 00 08 02 09 00 01 00000007 {second}"));
        expect(&one(first), &one(first), MEET);
    }
}

#[test]
fn bytes_too_few_and_too_many_are_malformed() {
    let fields = ["00 01 00000007", "01 00 0F", "02 03", "05 02", "06 02 C0000000 3F800000 09"];
    for template in fields.map(one).iter().chain([&format!("01 0000 05 {}", fields.concat())]) {
        let bytes = unhex(template);
        (0..bytes.len()).for_each(|length| expect_malformed(&hex(&bytes[..length])));
        for more in ["00", "01", "05 00", "FF", "01 0000 01 05 00"] {
            expect_malformed(&format!("{template} {more}"));
        }
    }
}

// ---- 19 ----

/// A form 2 of any variable, alone and beside others, whatever the other template is.
#[test]
fn form_2() {
    for variable in 0..16 {
        let uses = format!("02 {variable:02X}");
        for other in ["00 00 00000001", "01 01 00", "05 02", "06 00 00000001 00000002 00", &uses] {
            expect_fields(&uses, other, VARIABLE);
        }
    }
    for other in ["01 0001 01 05 00", "01 0000 02 05 00 05 00", "04 FFFF 06 050005000500050005000500"] {
        expect(&one("02 00"), other, VARIABLE);
    }
}

/// A variable that forms 1 and 6 bind beside it, before or behind; twice the same.
#[test]
fn form_2_of_a_variable_that_is_bound() {
    for binds in ["01 00 03", "06 00 00000001 00000002 03", "06 02 BF800000 3F800000 03"] {
        for fields in [format!("{binds} 02 03"), format!("02 03 {binds}")] {
            expect(&format!("01 0000 02 {fields}"), &one("05 00"), VARIABLE);
            expect(&format!("01 0000 02 {fields}"), &format!("03 0000 02 {fields}"), VARIABLE);
        }
        expect(&format!("01 0000 03 02 03 {binds} 02 03"), "01 0000 01 05 01", VARIABLE);
    }
}

/// 6 of either comes before 19 of either.
#[test]
fn the_order_of_6_and_19() {
    let (uses, malformed) = (one("02 00"), one("05 03"));
    expect(&uses, &malformed, MALFORMED);
    for field in ["05 03", "02 10", "06 00 00000002 00000001 03", "01 00 10", "00 02 80000000", "03 00 00 00000001"] {
        expect(&format!("01 0000 02 02 00 {field}"), &one("05 00"), MALFORMED);
        expect(&format!("01 0000 02 {field} 02 00"), &uses, MALFORMED);
    }
    expect(&format!("{uses} 00"), &uses, MALFORMED);
    expect(&uses, "", MALFORMED);
    expect("01 0000 03 02 09 01 00 09 01 00 09", &uses, MALFORMED);
}

// ---- Buffers ----

#[test]
fn null_and_empty_buffers() {
    let (good, uses) = (unhex(&one("05 00")), unhex(&one("02 00")));
    unsafe {
        assert_eq!(replica_can_meet(null(), 0, null(), 0), MALFORMED);
        for other in [&good, &uses] {
            let (pointer, length) = (other.as_ptr(), other.len());
            assert_eq!(replica_can_meet(null(), 0, pointer, length), MALFORMED);
            assert_eq!(replica_can_meet(pointer, length, null(), 0), MALFORMED);
            assert_eq!(replica_can_meet(pointer, 0, pointer, length), MALFORMED);
            assert_eq!(replica_can_meet(pointer, length, pointer, 0), MALFORMED);
        }
    }
}

/// One buffer for both.
#[test]
fn a_buffer_beside_itself() {
    let templates = [
        ("01 0000 01 05 00", MEET),
        ("04 FFFF 02 00 02 3F800000 06 00 80000000 7FFFFFFF 0F", MEET),
        ("01 0000 02 01 00 00 02 00", VARIABLE),
        ("01 0000 02 01 00 00 01 00 00", MALFORMED),
        ("01 0000 01 05 00 00", MALFORMED),
        ("05 0000 01 00 00 00000001", MALFORMED),
    ];
    for (template, answer) in templates {
        let bytes = unhex(template);
        assert_eq!(can_meet(&bytes, &bytes), answer, "{template}");
        assert_eq!(bytes, unhex(template));
    }
}

/// Any part of a buffer beside any other part of it. Three parts are templates: in of a range in space 0, which are the
/// first 15 bytes, in of any whole number in space 0, which are six within these, and in of a value in another space.
#[test]
fn buffers_that_overlap() {
    let buffer = unhex("01 0000 01 06 00 01000001 05000000 05 00");
    let before = buffer.clone();
    assert_eq!(can_meet(&buffer[..15], &buffer[6..12]), MEET);
    assert_eq!(can_meet(&buffer[6..12], &buffer[..15]), MEET);
    assert_eq!(can_meet(&buffer[3..13], &buffer[..15]), APART);
    let parts = || (0..=buffer.len()).flat_map(|start| (start..=16).map(move |end| start..end));
    let mut seen = [0; 3];
    for (first, second) in parts().flat_map(|first| parts().map(move |second| (first.clone(), second))) {
        let (one, other) = (&buffer[first.clone()], &buffer[second.clone()]);
        let answer = can_meet(one, other);
        assert_eq!(answer, second_can_meet(one, other), "{first:?} {second:?}");
        seen[[APART, MEET, MALFORMED].iter().position(|one| *one == answer).unwrap()] += 1;
    }
    assert_eq!((buffer, seen), (before, [4, 5, 23_400]));
}

// ---- Damaged and generated pairs ----

/// Each byte of the one in each of its values, and each part of it from the start, beside each of the others.
#[test]
fn templates_damaged_at_every_byte() {
    let templates = [
        "01 0000 01 05 00",
        "03 0102 02 01 01 0F 02 0E",
        "02 0000 03 00 00 00000007 00 01 00000007 00 02 40E00000",
        "04 0000 02 06 00 FFFFFFFE 00000005 00 06 02 C0000000 3F800000 01",
        "01 0000 02 06 00 00000005 00000009 07 06 02 3F800000 40000000 08",
        "01 0000 02 05 00 01 02 00",
    ]
    .map(unhex);
    let (mut asker, mut seen) = (Asker::new(library), [0; 4]);
    let mut ask = |first: &[u8], second: &[u8]| {
        let answer = asker.agree(first, second).unwrap_or_else(|fault| panic!("{fault}"));
        seen[[APART, MEET, MALFORMED, VARIABLE].iter().position(|one| *one == answer).unwrap()] += 1;
    };
    for (good, other) in templates.iter().flat_map(|good| templates.iter().map(move |other| (good, other))) {
        (0..good.len()).for_each(|length| ask(&good[..length], other));
        for at in 0..good.len() {
            let mut bytes = good.clone();
            for new in 0..=255 {
                bytes[at] = new;
                ask(&bytes, other);
            }
        }
    }
    assert!(seen.iter().all(|count| *count > 500), "{seen:?}");
}

#[test]
fn generated_pairs() {
    let (mut asker, mut coverage) = (Asker::new(library), Coverage::default());
    for number in 0..BATCHES {
        meetings::run(SEED, number, &mut asker, &mut coverage).unwrap_or_else(|fault| panic!("{fault}"));
    }
    assert!(BATCHES * BATCH >= 20_000);
    assert_eq!(meetings::missing(&coverage), Vec::<String>::new());
    let answers = [APART, MEET, MALFORMED, VARIABLE].map(|answer| coverage.cells[&format!("meet {answer} in all")]);
    assert_eq!(answers.iter().sum::<usize>() as u64, BATCHES * BATCH);
    assert!(answers.iter().all(|count| *count > 1_000), "{answers:?}");
}

// ---- The comparison itself ----

fn verdict(can_meet: CanMeet) -> Result<(), String> {
    let (mut asker, mut coverage) = (Asker::new(can_meet), Coverage::default());
    (0..60).try_for_each(|number| meetings::run(SEED, number, &mut asker, &mut coverage))
}

/// The pairs notice it, and the fault has these words.
fn noticed(can_meet: CanMeet, words: &str) {
    let fault = verdict(can_meet).expect_err("not noticed");
    assert!(fault.contains(words), "{fault}");
    assert!(fault.starts_with("compare --pairs 9 "), "{fault}");
}

/// The templates, with each field made another, where both are legal and without form 2.
fn changed(first: &[u8], second: &[u8], change: fn(Field) -> Field) -> u64 {
    let answer = second_can_meet(first, second);
    if answer > MEET {
        return answer;
    }
    let other = |bytes: &[u8]| {
        let template = operation_parts(bytes).unwrap_or_else(|| panic!("{}", hex(bytes)));
        operation_bytes(&Operation { fields: template.fields.into_iter().map(change).collect(), ..template })
    };
    second_can_meet(&other(first), &other(second))
}

/// The field as one of whole numbers, with the same bits.
fn as_whole(field: Field) -> Field {
    match field {
        Field::Given(value) => Field::Given(Value { kind: WHOLE, ..value }),
        Field::Bind { variable, .. } => Field::Bind { kind: WHOLE, variable },
        Field::Any { .. } => Field::Any { kind: WHOLE },
        Field::Range { lowest, highest, variable, .. } => Field::Range { kind: WHOLE, lowest, highest, variable },
        other => other,
    }
}

/// Whether two fields are ranges of which the one ends where the other begins.
fn touch((one, other): (&Field, &Field)) -> bool {
    match (one, other) {
        (Field::Range { lowest, highest, .. }, Field::Range { lowest: low, highest: high, .. }) => {
            highest == low || high == lowest
        }
        _ => false,
    }
}

#[test]
fn the_second_implementation_passes() {
    assert_eq!(verdict(|first, second| second_can_meet(first, second)), Ok(()));
}

#[test]
fn wrong_ranges_that_touch_do_not_meet() {
    noticed(
        |first, second| match (second_can_meet(first, second), operation_parts(first), operation_parts(second)) {
            (MEET, Some(one), Some(other)) if one.fields.iter().zip(&other.fields).any(touch) => APART,
            (answer, ..) => answer,
        },
        "answered 0 and not 1",
    );
}

#[test]
fn wrong_kinds_ignored() {
    noticed(
        |first, second| match changed(first, second, as_whole) {
            MALFORMED => second_can_meet(first, second),
            answer => answer,
        },
        "answered 1 and not 0",
    );
}

/// Negative metres in reverse: ranges of them are upside down, or lie elsewhere.
#[test]
fn wrong_metres_by_their_bits() {
    noticed(
        |first, second| match (second_can_meet(first, second), changed(first, second, as_whole)) {
            (MEET, MALFORMED | APART) => APART,
            (answer, _) => answer,
        },
        "answered 0 and not 1",
    );
}

#[test]
fn wrong_ranges_taken_for_form_1() {
    noticed(
        |first, second| {
            changed(first, second, |field| match field {
                Field::Range { kind, variable, .. } => Field::Bind { kind, variable },
                other => other,
            })
        },
        "answered 1 and not 0",
    );
}

#[test]
fn wrong_19_before_6() {
    noticed(
        |first, second| {
            let templates = [operation_parts(first), operation_parts(second)].into_iter().flatten();
            let uses = templates.flat_map(|template| template.fields).any(|field| field.form() == 2);
            if uses { VARIABLE } else { second_can_meet(first, second) }
        },
        "answered 19 and not 6",
    );
}

#[test]
fn wrong_6_of_the_first_alone() {
    noticed(
        |first, second| match (second_can_meet(first, second), second_can_meet(first, first)) {
            (MALFORMED, MEET | VARIABLE) => APART,
            (answer, _) => answer,
        },
        "answered 0 and not 6",
    );
}

#[test]
fn wrong_19_of_the_first_alone() {
    noticed(
        |first, second| match (second_can_meet(first, second), second_can_meet(first, first)) {
            (VARIABLE, MEET) => APART,
            (answer, _) => answer,
        },
        "answered 0 and not 19",
    );
}

#[test]
fn wrong_spare_byte_passed() {
    noticed(
        |first, second| {
            let shorter = &second[..second.len().saturating_sub(1)];
            match (second_can_meet(first, second), second_can_meet(first, shorter)) {
                (MALFORMED, answer) => answer,
                (answer, _) => answer,
            }
        },
        " and not 6",
    );
}

#[test]
fn wrong_codes_compared() {
    noticed(
        |first, second| match second_can_meet(first, second) {
            MEET if first[0] != second[0] => APART,
            answer => answer,
        },
        "answered 0 and not 1",
    );
}

#[test]
fn wrong_space_by_its_low_byte() {
    noticed(
        |first, second| {
            let [first, second] = [first, second].map(|bytes| {
                let mut bytes = bytes.to_vec();
                bytes.iter_mut().skip(1).take(1).for_each(|high| *high = 0);
                bytes
            });
            second_can_meet(&first, &second)
        },
        "answered 1 and not 0",
    );
}

#[test]
fn wrong_byte_past_a_buffer() {
    noticed(
        |first, second| {
            unsafe { second.as_mut_ptr().add(second.len()).write(0) };
            second_can_meet(first, second)
        },
        "the second was written 1 bytes past its end",
    );
}

#[test]
fn wrong_byte_of_a_buffer_changed() {
    noticed(
        |first, second| {
            let answer = second_can_meet(first, second);
            if let [code, ..] = first {
                *code ^= 3;
            }
            answer
        },
        "the first byte 0 is",
    );
}
