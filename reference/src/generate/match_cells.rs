//! The cells of a match, and those that must be.

use super::matches::Match;
use super::ranges::{above, below, ends};
use crate::matching::{actual, kind, value_agrees, value_of};
use crate::statement::{Field, COPY, IN, INP, MOST_FIELDS, MOVE, RD, RDP};
use crate::value::{whole, Value, METRES, NAME, WHOLE};

const CODES: [u8; 6] = [IN, INP, RD, RDP, MOVE, COPY];
const KINDS: [u8; 3] = [WHOLE, NAME, METRES];
const GIVEN: [u8; 2] = [0, 2];
const FORMS: [u8; 5] = [0, 1, 2, 5, 6];
const RANGE: u8 = 6;

/// A field of the template beside the value at its place.
struct Pair {
    at: usize,
    field: Field,
    form: u8,
    kind: u8,
    actual: Option<Value>,
    agrees: bool,
    value: Value,
}

impl Pair {
    fn kind_differs(&self) -> bool {
        self.kind != self.value.kind
    }

    fn bytes_differ(&self) -> bool {
        self.actual.is_some_and(|own| own.bytes != self.value.bytes)
    }

    fn value_differs(&self) -> bool {
        !self.kind_differs() && !self.agrees
    }
}

fn pairs(one: &Match) -> Vec<Pair> {
    let both = one.operation.fields.iter().zip(&one.tuple.values).enumerate();
    both.filter_map(|(at, (field, value))| {
        let kind = kind(field, &one.bound)?;
        let actual = actual(field, &one.bound);
        let agrees = value_agrees(field, &one.bound, value);
        Some(Pair { at, field: field.clone(), form: field.form(), kind, actual, agrees, value: *value })
    })
    .collect()
}

/// The names whose condition holds.
fn reached(cells: &[(bool, &str)]) -> Vec<String> {
    cells.iter().filter(|(reached, _)| *reached).map(|(_, cell)| cell.to_string()).collect()
}

pub fn of_match(one: &Match) -> Vec<String> {
    let (answer, pairs) = (one.answer().number(), pairs(one));
    let mut cells = match answer {
        0 => of_none(one, &pairs),
        1 => of_count(one, &pairs),
        2 => of_kinds(&pairs),
        _ => of_values(one, &pairs),
    };
    cells.extend(of_any(one));
    cells.iter().map(|cell| format!("match {answer} {cell}")).collect()
}

fn of_any(one: &Match) -> Vec<String> {
    let (spaces, bound) = (&one.operation.spaces, one.bound.len());
    let mut cells = vec!["in all".to_string(), format!("code {}", one.operation.code)];
    cells.extend(reached(&[
        (bound == 0, "with none bound"),
        (bound == 16, "with 16 bound"),
        (spaces[0] == 0, "in space 0"),
        (spaces[0] > 255, "in a space over 255"),
        (spaces.len() == 2 && spaces[0] == spaces[1], "within a space"),
        (spaces.len() == 2 && spaces[0] != spaces[1], "across spaces"),
    ]));
    cells
}

// ---- By answer ----

fn of_none(one: &Match, pairs: &[Pair]) -> Vec<String> {
    let mut cells = vec![format!("fields {}", pairs.len())];
    let mut used = Vec::new();
    for pair in pairs {
        cells.push(format!("form {}", pair.form));
        cells.push(format!("form {} code {}", pair.form, one.operation.code));
        cells.push(format!("form {} kind {}", pair.form, pair.kind));
        if let Field::Use { variable } = pair.field {
            cells.push(format!("variable {variable:02}"));
            used.push(variable);
        }
        cells.extend(of_range(pair));
    }
    let twice = used.iter().enumerate().any(|(at, variable)| used[..at].contains(variable));
    cells.extend(reached(&[
        (pairs.iter().all(|pair| pair.actual.is_some()), "all given"),
        (pairs.iter().all(|pair| pair.actual.is_none()), "none given"),
        (twice, "variable twice"),
    ]));
    cells
}

fn of_count(one: &Match, pairs: &[Pair]) -> Vec<String> {
    let (fields, values) = (&one.operation.fields, &one.tuple.values);
    let side = if values.len() < fields.len() { "shorter" } else { "longer" };
    let kinds = pairs.iter().any(Pair::kind_differs);
    let bytes = pairs.iter().any(Pair::value_differs);
    let zero = |field: &Field| {
        kind(field, &one.bound) == Some(WHOLE) && value_agrees(field, &one.bound, &whole(0))
    };
    let rest = &fields[pairs.len()..];
    let zeros = rest.iter().all(zero) && values[pairs.len()..].iter().all(|value| *value == whole(0));
    let mut cells = vec![format!("{} fields {} values", fields.len(), values.len())];
    let more = reached(&[
        (!kinds && !bytes, "agrees"),
        (kinds, "and a kind"),
        (bytes, "and a value"),
        (!kinds && !bytes && zeros, "agrees by whole zeros"),
    ]);
    cells.extend(more.iter().map(|cell| format!("{side} {cell}")));
    cells
}

fn of_kinds(pairs: &[Pair]) -> Vec<String> {
    let others: Vec<&Pair> = pairs.iter().filter(|pair| pair.kind_differs()).collect();
    let mut cells = Vec::new();
    for pair in &others {
        let (form, own, found) = (pair.form, pair.kind, pair.value.kind);
        cells.push(format!("form {form}"));
        cells.push(format!("kind {own} at kind {found}"));
        if pair.actual.is_some() && !pair.bytes_differ() {
            cells.push(format!("form {form} equal bytes"));
            cells.push(format!("form {form} equal bytes kind {own} at kind {found}"));
        }
        if form == RANGE && value_agrees(&pair.field, &[], &Value { kind: own, ..pair.value }) {
            cells.push(format!("form {form} holds the bytes kind {own} at kind {found}"));
        }
    }
    let (first, last) = (others[0].at, others[others.len() - 1].at);
    let value = |law: &dyn Fn(usize) -> bool| pairs.iter().any(|pair| pair.value_differs() && law(pair.at));
    let ends = first == pairs.len() - 1 && value(&|at| at == 0);
    if let [alone] = others[..] {
        cells.push(format!("field {} alone", alone.at));
    }
    cells.extend(reached(&[
        (value(&|at| at < first), "with an earlier value"),
        (value(&|at| at > last), "with a later value"),
        (ends, "first value and last kind"),
        (ends && pairs.len() == MOST_FIELDS, "first value and last kind of six"),
        (others.len() > 1, "several kinds"),
        (others.len() > 1 && others.len() == pairs.len(), "every kind"),
    ]));
    cells
}

fn of_values(one: &Match, pairs: &[Pair]) -> Vec<String> {
    let others: Vec<&Pair> = pairs.iter().filter(|pair| pair.value_differs()).collect();
    let mut cells = Vec::new();
    for pair in &others {
        cells.push(format!("form {}", pair.form));
        cells.push(format!("kind {}", pair.kind));
        cells.push(format!("form {} kind {}", pair.form, pair.kind));
        cells.extend(of_range(pair));
        let Field::Use { variable } = pair.field else { continue };
        let agrees = |other: u8| other != variable && value_of(other, &one.bound) == Some(pair.value);
        if (0..=15).any(agrees) {
            cells.push("where another variable agrees".to_string());
        }
    }
    match others[..] {
        [alone] => cells.extend(of_value(alone)),
        _ => cells.push("several values".to_string()),
    }
    cells.extend(reached(&[(pairs.len() > 1 && others.len() == pairs.len(), "every value")]));
    cells
}

/// Where a value lies in a range, or how it misses it; and where the range lies.
fn of_range(pair: &Pair) -> Vec<String> {
    let Some((lowest, highest)) = ends(&pair.field) else {
        return Vec::new();
    };
    let (value, zero) = (pair.value, Value { bytes: [0; 4], ..lowest });
    let spot = match (value.is_at_most(&lowest), highest.is_at_most(&value)) {
        (true, true) => "of one value",
        (true, false) if value == lowest => "at its lowest",
        (true, false) if Some(value) == below(&lowest) => "just below",
        (true, false) => "far below",
        (false, true) if value == highest => "at its highest",
        (false, true) if Some(value) == above(&highest) => "just above",
        (false, true) => "far above",
        (false, false) => "inside",
    };
    let side = match (zero.is_at_most(&lowest), zero.is_at_most(&highest)) {
        (true, _) => "from 0 up",
        (false, true) => "from below 0",
        (false, false) => "below 0",
    };
    vec![format!("range kind {} {spot}", pair.kind), format!("range kind {} {side}", pair.kind)]
}

/// The one value that differs: its field, and its byte where one alone differs from an actual's.
fn of_value(pair: &Pair) -> Vec<String> {
    let Some(own) = pair.actual.map(|own| own.bytes) else {
        return vec![format!("field {} alone", pair.at)];
    };
    let bytes: Vec<usize> = (0..4).filter(|at| own[*at] != pair.value.bytes[*at]).collect();
    let mut cells = vec![format!("field {} alone", pair.at)];
    match bytes[..] {
        [byte] => {
            cells.push(format!("byte {byte} alone"));
            cells.push(format!("kind {} byte {byte} alone", pair.kind));
            cells.push(format!("form {} byte {byte} alone", pair.form));
        }
        _ => cells.push("several bytes".to_string()),
    }
    cells
}

// ---- What must be ----

const ONCE: [&str; 21] = [
    "0 all given",
    "0 none given",
    "0 variable twice",
    "1 shorter agrees",
    "1 shorter and a kind",
    "1 shorter and a value",
    "1 shorter agrees by whole zeros",
    "1 longer agrees",
    "1 longer and a kind",
    "1 longer and a value",
    "1 longer agrees by whole zeros",
    "2 with an earlier value",
    "2 with a later value",
    "2 first value and last kind",
    "2 first value and last kind of six",
    "2 several kinds",
    "2 every kind",
    "3 where another variable agrees",
    "3 several values",
    "3 every value",
    "3 several bytes",
];

/// Whether an operation of the code may have the form where it can stand: inp and rdp are guards,
/// in which no variable is bound yet.
fn allows(code: u8, form: u8) -> bool {
    match form {
        1 | RANGE => !matches!(code, MOVE | COPY),
        2 => !matches!(code, INP | RDP),
        _ => true,
    }
}

/// Names have no ranges.
fn has_kind(form: u8, kind: u8) -> bool {
    form != RANGE || kind != NAME
}

/// The cells of ranges by answer and kind.
fn of_ranges() -> Vec<(bool, String)> {
    let (met, missed) = (
        ["of one value", "at its lowest", "at its highest", "inside"],
        ["just below", "just above", "far below", "far above"],
    );
    let mut cells = Vec::new();
    for kind in KINDS {
        for (answer, other, spots) in [(0, 3, met), (3, 0, missed)] {
            cells.extend(spots.map(|spot| (has_kind(RANGE, kind), format!("{answer} range kind {kind} {spot}"))));
            cells.extend(spots.map(|spot| (false, format!("{other} range kind {kind} {spot}"))));
            let sides = ["from 0 up", "from below 0", "below 0"];
            cells.extend(sides.map(|side| (has_kind(RANGE, kind), format!("{answer} range kind {kind} {side}"))));
        }
    }
    cells
}

/// A name's first two bytes are zero.
fn may_differ(kind: u8, byte: usize) -> bool {
    kind != NAME || byte >= 2
}

fn each_answer() -> Vec<String> {
    let common = ["in all", "with none bound", "with 16 bound", "in space 0", "in a space over 255"];
    let mut cells = Vec::new();
    for answer in 0..=3 {
        cells.extend(common.map(|cell| format!("{answer} {cell}")));
        cells.extend(["within a space", "across spaces"].map(|cell| format!("{answer} {cell}")));
        cells.extend(CODES.map(|code| format!("{answer} code {code}")));
    }
    for at in 0..MOST_FIELDS {
        cells.push(format!("0 fields {}", at + 1));
        cells.extend([2, 3].map(|answer| format!("{answer} field {at} alone")));
    }
    cells
}

/// By form, by kind and by byte; `can` tells which of them to list.
fn by_parts(can: bool) -> Vec<String> {
    let mut cells = Vec::new();
    for (code, form) in CODES.into_iter().flat_map(|code| FORMS.map(|form| (code, form))) {
        cells.push((allows(code, form), format!("0 form {form} code {code}")));
    }
    for form in FORMS {
        cells.extend([0, 2].map(|answer| (true, format!("{answer} form {form}"))));
        cells.push((GIVEN.contains(&form) || form == RANGE, format!("3 form {form}")));
        cells.push((GIVEN.contains(&form), format!("2 form {form} equal bytes")));
        cells.extend((0..4).map(|byte| (GIVEN.contains(&form), format!("3 form {form} byte {byte} alone"))));
    }
    for (kind, form) in KINDS.into_iter().flat_map(|kind| FORMS.map(|form| (kind, form))) {
        cells.push((has_kind(form, kind), format!("0 form {form} kind {kind}")));
        let misses = GIVEN.contains(&form) || form == RANGE && has_kind(form, kind);
        cells.push((misses, format!("3 form {form} kind {kind}")));
        for other in KINDS {
            let equal = format!("2 form {form} equal bytes kind {kind} at kind {other}");
            cells.push((GIVEN.contains(&form) && kind != other, equal));
            let held = format!("2 form {form} holds the bytes kind {kind} at kind {other}");
            cells.push((form == RANGE && has_kind(form, kind) && kind != other, held));
        }
    }
    for kind in KINDS {
        cells.push((true, format!("3 kind {kind}")));
        cells.extend(KINDS.map(|other| (kind != other, format!("2 kind {kind} at kind {other}"))));
        cells.extend((0..4).map(|byte| (may_differ(kind, byte), format!("3 kind {kind} byte {byte} alone"))));
    }
    cells.extend((0..4).map(|byte| (true, format!("3 byte {byte} alone"))));
    cells.extend(of_ranges());
    for (fields, values) in (1..=6).flat_map(|fields| (1..=6).map(move |values| (fields, values))) {
        cells.push((fields != values, format!("1 {fields} fields {values} values")));
    }
    cells.into_iter().filter(|(may, _)| *may == can).map(|(_, cell)| cell).collect()
}

/// The cells that must be reached.
pub fn wanted() -> Vec<String> {
    let mut cells: Vec<String> = ONCE.map(String::from).to_vec();
    cells.extend(each_answer());
    cells.extend(by_parts(true));
    cells.extend((0..=15).map(|variable| format!("0 variable {variable:02}")));
    cells.iter().map(|cell| format!("match {cell}")).collect()
}

/// The cells that cannot occur.
pub fn impossible() -> Vec<String> {
    by_parts(false).iter().map(|cell| format!("match {cell}")).collect()
}
