//! What must hold for every generated match.

mod common;

use common::unhex;
use reference::call::take;
use reference::generate::matches::{Match, Matches};
use reference::layout::{read_state, tuple_entry};
use reference::matching::Failing;
use reference::run::{matches, Tuple};
use reference::statement::{self, operation_bytes};
use reference::statement::{COPY, IN, INP, MOVE, RD, RDP, TRUE};
use reference::value::Value;
use std::process::Command;

/// Kind of a template's field or a tuple's value, and its lowest and highest bytes; a formal without a
/// range has none.
type Part = (u8, Option<([u8; 4], [u8; 4])>);

/// A line of `vectors --matches`, read byte by byte.
struct Line {
    code: u8,
    spaces: Vec<u8>,
    fields: Vec<Part>,
    entry: Vec<u8>,
    values: Vec<Part>,
    answer: u8,
}

/// The same bytes for both ends.
fn four(bytes: &[u8]) -> Option<([u8; 4], [u8; 4])> {
    let one = bytes[..4].try_into().unwrap();
    Some((one, one))
}

/// A number that tells the order of the values of a kind.
fn number(kind: u8, bytes: [u8; 4]) -> f64 {
    match kind {
        2 => f32::from_be_bytes(bytes).into(),
        0 => i32::from_be_bytes(bytes).into(),
        _ => u32::from_be_bytes(bytes).into(),
    }
}

/// `VARIABLE:KIND:EIGHTHEX` with commas between, in rising number.
fn read_bound(text: &str) -> Vec<(u8, Part)> {
    let mut bound: Vec<(u8, Part)> = Vec::new();
    for item in text.split(',').filter(|item| *item != "-") {
        let parts: Vec<&str> = item.split(':').collect();
        assert!(parts.len() == 3 && parts[2].len() == 8, "{text}");
        let (variable, kind) = (parts[0].parse().unwrap(), parts[1].parse().unwrap());
        assert!(variable <= 15 && bound.last().is_none_or(|(last, _)| *last < variable), "{text}");
        bound.push((variable, (kind, four(&unhex(parts[2])))));
    }
    bound
}

/// The fields of an operation; each variable that is bound here is new, each used is bound before.
fn read_fields(code: u8, mut bytes: &[u8], bound: &[(u8, Part)]) -> Vec<Part> {
    let (mut fields, mut new) = (Vec::new(), Vec::new());
    while let [form, rest @ ..] = bytes {
        let transfer = code == MOVE || code == COPY;
        let (length, part) = match form {
            0 => (5, (rest[0], four(&rest[1..]))),
            1 | 6 => {
                let at = if *form == 1 { 1 } else { 9 };
                assert!(!transfer && rest[at] <= 15 && !new.contains(&rest[at]));
                assert!(bound.iter().all(|(variable, _)| *variable != rest[at]));
                new.push(rest[at]);
                let ends = (*form == 6).then(|| (four(&rest[1..]).unwrap().0, four(&rest[5..]).unwrap().0));
                (at + 1, (rest[0], ends))
            }
            2 => (1, bound.iter().find(|(variable, _)| *variable == rest[0]).unwrap().1),
            5 => (1, (rest[0], None)),
            _ => panic!("form {form}"),
        };
        fields.push(part);
        bytes = &rest[length..];
    }
    fields
}

fn read_line(text: &str) -> Line {
    let parts: Vec<&str> = text.split(' ').collect();
    let &["match", operation, bound, entry, answer] = &parts[..] else { panic!("{text}") };
    let (operation, bound, entry) = (unhex(operation), read_bound(bound), unhex(entry));
    let code = operation[0];
    let spaces = if code == MOVE || code == COPY { 4 } else { 2 };
    assert!(matches!(code, IN | INP | RD | RDP | MOVE | COPY) && entry.len() == 33, "{text}");
    let fields = read_fields(code, &operation[2 + spaces..], &bound);
    assert_eq!(fields.len(), usize::from(operation[1 + spaces]), "{text}");
    let used = 3 + 5 * usize::from(entry[2]);
    assert!(entry[used..].iter().all(|byte| *byte == 0), "{text}");
    let values = entry[3..used].chunks(5).map(|value| (value[0], four(&value[1..]))).collect();
    let spaces = operation[1..1 + spaces].to_vec();
    Line { code, spaces, fields, entry, values, answer: answer.parse().unwrap() }
}

fn printed(arguments: &[&str]) -> String {
    let run = Command::new(env!("CARGO_BIN_EXE_vectors")).args(arguments).output().unwrap();
    assert!(run.status.success());
    String::from_utf8(run.stdout).unwrap()
}

/// 1 exactly if the numbers differ; 2 exactly if they agree and some kind differs; 3 exactly if those
/// agree and some value is not the given one or out of its range; 0 exactly if all agree.
#[test]
fn laws_of_the_answer() {
    for line in printed(&["--matches", "5", "6000"]).lines() {
        let read = read_line(line);
        let (fields, values) = (&read.fields, &read.values);
        let numbers = fields.len() == values.len();
        let differs = |own: &Part, found: &Part| {
            let value = found.1.unwrap().0;
            own.1.is_some_and(|(lowest, highest)| {
                let (low, high) = (number(own.0, lowest), number(own.0, highest));
                !(low..=high).contains(&number(own.0, value))
            })
        };
        let kinds = (0..fields.len().min(values.len())).all(|at| fields[at].0 == values[at].0);
        let bytes = (0..fields.len().min(values.len())).all(|at| !differs(&fields[at], &values[at]));
        assert_eq!(read.answer == 1, !numbers, "{line}");
        assert_eq!(read.answer == 2, numbers && !kinds, "{line}");
        assert_eq!(read.answer == 3, numbers && kinds && !bytes, "{line}");
        assert_eq!(read.answer == 0, numbers && kinds && bytes, "{line}");
    }
}

#[test]
fn lines_are_well_formed() {
    let text = printed(&["--matches", "9", "3000"]);
    assert_eq!(text, printed(&["--matches", "9", "3000"]));
    assert!(text.starts_with(&printed(&["--matches", "9", "30"])));
    assert!(text != printed(&["--matches", "10", "3000"]));
    let mut matches = Matches::new(9);
    assert_eq!(text.lines().count(), 3000);
    for line in text.lines() {
        let (read, one) = (read_line(line), matches.make());
        assert!((1..=6).contains(&read.fields.len()) && (1..=6).contains(&read.values.len()), "{line}");
        assert!(read.entry[..2] == read.spaces[..2] && read.code == one.operation.code, "{line}");
        let parts: Vec<&str> = line.split(' ').collect();
        assert_eq!(unhex(parts[1]), operation_bytes(&one.operation));
        assert_eq!(unhex(parts[3]), tuple_entry(&one.tuple));
        let legal_end = |kind: u8, bytes: [u8; 4]| Value { kind, bytes }.is_legal();
        let legal = |part: &Part| {
            let (kind, ends) = *part;
            kind <= 2
                && ends.is_none_or(|(low, high)| {
                    let rising = low == high || kind != 1 && number(kind, low) < number(kind, high);
                    rising && legal_end(kind, low) && legal_end(kind, high)
                })
        };
        assert!(read.fields.iter().chain(&read.values).all(legal), "{line}");
    }
}

/// A match is the same space and answer 0; in another space there is none.
#[test]
fn matches_are_answer_0_in_the_space() {
    let mut generated = Matches::new(21);
    for _ in 0..6_000 {
        let one = generated.make();
        let found = matches(&one.operation, &one.tuple, &one.bound);
        assert_eq!(found, one.answer() == Failing::Nothing);
        for space in [one.tuple.space ^ 1, one.tuple.space ^ 0x0100, !one.tuple.space] {
            let elsewhere = Tuple { space, ..one.tuple.clone() };
            assert!(!matches(&one.operation, &elsewhere, &one.bound));
        }
        let mut turned = one.bound.clone();
        turned.reverse();
        assert_eq!(matches(&one.operation, &one.tuple, &turned), found);
    }
}

// ---- Whole calls ----

/// Outcome (None: waits) and tuples that the paper gives, by the answer.
fn expected(one: &Match, guard: bool) -> (Option<u8>, Vec<Tuple>) {
    let found = one.answer() == Failing::Nothing;
    let tuple = one.tuple.clone();
    let arrived = || Tuple { space: one.operation.spaces[1], ..tuple.clone() };
    match (one.operation.code, found) {
        (IN | INP, true) => (Some(0), vec![]),
        (RD | RDP, true) => (Some(0), vec![tuple]),
        (MOVE, true) => (Some(0), vec![arrived()]),
        (COPY, true) => (Some(0), vec![tuple.clone(), arrived()]),
        (MOVE | COPY, false) => (Some(0), vec![tuple]),
        (INP | RDP, false) => (Some(18), vec![tuple]),
        (_, false) if guard => (None, vec![tuple]),
        _ => (Some(16), vec![tuple]),
    }
}

#[test]
fn calls_go_by_the_answer() {
    let mut generated = Matches::new(33);
    for _ in 0..2_000 {
        let one = generated.make();
        let (statement, record) = (one.statement(), one.record());
        let (mut state, mut reply) = (one.state(), vec![0; 3_564]);
        assert!(statement::is_legal(&statement), "{record:?}");
        let count = take(&mut state, &record, &mut reply);
        let (outcome, left) = expected(&one, statement.branches[0].guard.code != TRUE);
        assert_eq!((count > 0).then_some(reply[9]), outcome, "{record:?}");
        let mut tuples = read_state(&state).unwrap().tuples;
        if outcome == Some(16) {
            tuples.drain(..one.bound.len().div_ceil(6));
        }
        assert_eq!(tuples, left, "{record:?}");
    }
}
