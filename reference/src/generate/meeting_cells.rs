//! The cells of a pair of templates, and those that must be.

use super::meetings::Meeting;
use super::ranges::{above, ends};
use crate::matching::kind;
use crate::meeting::{can_meet, common_tuple};
use crate::statement::{operation_parts, Field, Operation, IN, INP, RD, RDP};
use crate::value::{Value, METRES, NAME, WHOLE};

const CODES: [u8; 4] = [IN, INP, RD, RDP];
const FORMS: [u8; 4] = [0, 1, 5, 6];
const SIDES: [&str; 2] = ["first", "second"];

/// Every way in which a side is refused 6.
const NOTES: [&str; 24] = [
    "cut",
    "one byte short",
    "spare byte",
    "empty",
    "true",
    "out",
    "move or copy",
    "move or copy without fields",
    "code",
    "variable of form 1",
    "variable of form 2",
    "variable of form 6",
    "kind of form 0",
    "kind of form 1",
    "kind of form 5",
    "value of form 0",
    "range upside down",
    "range of names",
    "range end",
    "form 3 or 4",
    "no field",
    "seven fields",
    "bound twice",
    "in all",
];

pub fn of_meeting(one: &Meeting) -> Vec<String> {
    let answer = one.answer();
    let read = |bytes: &[u8]| operation_parts(bytes);
    let mut cells = match (answer, read(&one.first), read(&one.second)) {
        (6, ..) => of_malformed(one),
        (19, Some(first), Some(second)) => of_uses([&first, &second]),
        (0, Some(first), Some(second)) => of_apart(&first, &second),
        (1, Some(first), Some(second)) => of_met(&first, &second),
        _ => Vec::new(),
    };
    cells.push("in all".to_string());
    cells.iter().map(|cell| format!("meet {answer} {cell}")).collect()
}

/// 6 comes first, whatever the other one is.
fn of_malformed(one: &Meeting) -> Vec<String> {
    let alone = [can_meet(&one.first, &one.first), can_meet(&one.second, &one.second)];
    let mut cells = Vec::new();
    for side in (0..2).filter(|side| alone[*side] == 6) {
        cells.push(format!("{} {}", SIDES[side], one.notes[side]));
        cells.push(format!("{} in all", SIDES[side]));
        if alone[1 - side] == 19 {
            cells.push(format!("{} beside a form 2", SIDES[side]));
        }
    }
    if alone == [6, 6] {
        cells.push("both".to_string());
    }
    cells
}

/// 19 comes before the answer, whatever that would be.
fn of_uses(templates: [&Operation; 2]) -> Vec<String> {
    let used = |template: &Operation| -> Vec<u8> {
        let variable = |field: &Field| if let Field::Use { variable } = field { Some(*variable) } else { None };
        template.fields.iter().filter_map(variable).collect()
    };
    let mut cells = Vec::new();
    for (template, side) in templates.iter().zip(SIDES).filter(|(template, _)| !used(template).is_empty()) {
        cells.push(side.to_string());
        let bindings = template.fields.iter().filter(|field| field.binding().is_some());
        for field in bindings.filter(|field| field.binding().is_some_and(|(v, _)| used(template).contains(&v))) {
            cells.push(format!("{side} of a variable of form {}", field.form()));
        }
    }
    if cells.contains(&SIDES[0].to_string()) && cells.contains(&SIDES[1].to_string()) {
        cells.push("both".to_string());
    }
    if templates[0].spaces != templates[1].spaces {
        cells.push("of other spaces".to_string());
    }
    if templates[0].fields.len() != templates[1].fields.len() {
        cells.push("of other counts".to_string());
    }
    cells
}

/// The places by what they have: other kinds, nothing in common, or a value.
fn places<'a>(first: &'a Operation, second: &'a Operation) -> Vec<(&'a Field, &'a Field, bool, bool)> {
    let both = first.fields.iter().zip(&second.fields);
    let alone = |field: &Field| Operation { code: RD, spaces: vec![0], fields: vec![field.clone()] };
    both.map(|(one, other)| {
        let kinds = kind(one, &[]) != kind(other, &[]);
        (one, other, kinds, !kinds && common_tuple(&alone(one), &alone(other)).is_none())
    })
    .collect()
}

fn of_apart(first: &Operation, second: &Operation) -> Vec<String> {
    let (space, count) = (first.spaces != second.spaces, first.fields.len() != second.fields.len());
    let places = places(first, second);
    let kinds: Vec<usize> = (0..places.len()).filter(|at| places[*at].2).collect();
    let values: Vec<usize> = (0..places.len()).filter(|at| places[*at].3).collect();
    let mut cells = match (space, count, &kinds[..], &values[..]) {
        (true, false, [], []) => vec!["by the space alone".to_string()],
        (false, true, [], []) => vec!["by the count alone".to_string()],
        (false, false, [at], []) => vec![format!("by the kind of field {at} alone")],
        (false, false, [], [at]) => vec![format!("by the values of field {at} alone")],
        _ => vec!["by several".to_string()],
    };
    for (one, other, ..) in places.iter().filter(|place| place.3) {
        let kind = kind(one, &[]).unwrap_or(WHOLE);
        cells.push(format!("forms {} {} kind {kind}", one.form(), other.form()));
        cells.extend(of_ranges(one, other));
    }
    cells
}

fn of_met(first: &Operation, second: &Operation) -> Vec<String> {
    let count = first.fields.len();
    let mut cells = vec![format!("fields {count}"), format!("codes {} {}", first.code, second.code)];
    for (one, other, ..) in places(first, second) {
        let kind = kind(one, &[]).unwrap_or(WHOLE);
        cells.push(format!("forms {} {} kind {kind}", one.form(), other.form()));
        cells.extend(of_ranges(one, other));
    }
    let is_range = |field: &Field| field.form() == 6;
    if count == 6 && first.fields.iter().chain(&second.fields).all(is_range) {
        cells.push("six ranges beside six".to_string());
    }
    cells
}

/// How two ranges lie to each other, and on which side of 0 they touch or part.
fn of_ranges(one: &Field, other: &Field) -> Vec<String> {
    let (Some(one), Some(other)) = (ends(one), ends(other)) else {
        return Vec::new();
    };
    let (low, high) = if one.0.is_at_most(&other.0) { (one, other) } else { (other, one) };
    let lies = if one == other {
        "equal"
    } else if low.1 == high.0 {
        "touch"
    } else if !high.0.is_at_most(&low.1) {
        if above(&low.1) == Some(high.0) { "just apart" } else { "far apart" }
    } else if high.1.is_at_most(&low.1) || low.0 == high.0 {
        "one in the other"
    } else {
        "overlap"
    };
    let zero = Value { bytes: [0; 4], ..low.1 };
    let side = if zero.is_at_most(&low.1) { "from 0 up" } else { "below 0" };
    vec![format!("ranges of kind {} {lies}", low.0.kind), format!("ranges of kind {} {lies} {side}", low.0.kind)]
}

// ---- What must be ----

fn of_sixes() -> Vec<String> {
    let mut cells = vec!["6 both".to_string()];
    for side in SIDES {
        cells.extend(NOTES.map(|note| format!("6 {side} {note}")));
        cells.push(format!("6 {side} beside a form 2"));
        cells.push(format!("19 {side}"));
        cells.extend([1, 6].map(|form| format!("19 {side} of a variable of form {form}")));
    }
    cells
}

/// The pairs of forms that meet, and those of which both give something that they may differ in.
fn of_forms() -> Vec<String> {
    let pairs = FORMS.into_iter().flat_map(|one| FORMS.map(|other| (one, other)));
    let kinds = [WHOLE, NAME, METRES];
    let mut cells = Vec::new();
    for ((one, other), kind) in pairs.flat_map(|pair| kinds.map(|kind| (pair, kind))) {
        if kind == NAME && (one == 6 || other == 6) {
            continue;
        }
        cells.push(format!("1 forms {one} {other} kind {kind}"));
        if [0, 6].contains(&one) && [0, 6].contains(&other) {
            cells.push(format!("0 forms {one} {other} kind {kind}"));
        }
    }
    cells
}

/// The cells that must be reached.
pub fn wanted() -> Vec<String> {
    let once = ["1 six ranges beside six", "19 both", "19 of other spaces", "19 of other counts"];
    let apart = ["0 by the space alone", "0 by the count alone", "0 by several"];
    let mut cells: Vec<String> = once.iter().chain(&apart).map(|cell| cell.to_string()).collect();
    cells.extend([0, 1, 6, 19].map(|answer| format!("{answer} in all")));
    cells.extend(of_sixes());
    cells.extend(of_forms());
    cells.extend(CODES.into_iter().flat_map(|one| CODES.map(|other| format!("1 codes {one} {other}"))));
    for at in 0..6 {
        cells.push(format!("1 fields {}", at + 1));
        cells.extend(["kind", "values"].map(|what| format!("0 by the {what} of field {at} alone")));
    }
    for (kind, side) in [WHOLE, METRES].into_iter().flat_map(|kind| ["from 0 up", "below 0"].map(|side| (kind, side))) {
        let met = ["equal", "touch", "one in the other", "overlap"];
        cells.extend(met.map(|lies| format!("1 ranges of kind {kind} {lies} {side}")));
        cells.extend(["just apart", "far apart"].map(|lies| format!("0 ranges of kind {kind} {lies} {side}")));
    }
    cells.iter().map(|cell| format!("meet {cell}")).collect()
}
