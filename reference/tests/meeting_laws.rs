//! What must hold for every pair of templates.

mod common;

use common::unhex;
use reference::generate::meetings::Meetings;
use reference::generate::rng::Rng;
use reference::meeting::{can_meet, common_tuple};
use reference::run::matches;
use reference::statement::operation_parts;
use reference::value::Value;
use std::process::Command;

/// Kind, and the lowest and highest number that a field matches.
type Set = (u8, f64, f64);

fn number(kind: u8, bytes: &[u8]) -> f64 {
    let bytes: [u8; 4] = bytes[..4].try_into().unwrap();
    match kind {
        2 => f32::from_be_bytes(bytes).into(),
        0 => i32::from_be_bytes(bytes).into(),
        _ => u32::from_be_bytes(bytes).into(),
    }
}

/// The sets of the fields of a template without form 2, read byte by byte.
fn sets(mut bytes: &[u8]) -> Vec<Set> {
    let mut sets = Vec::new();
    while let [form, kind, rest @ ..] = bytes {
        let (length, ends) = match form {
            0 => (4, Some((number(*kind, rest), number(*kind, rest)))),
            1 => (1, None),
            5 => (0, None),
            6 => (9, Some((number(*kind, rest), number(*kind, &rest[4..])))),
            _ => panic!("form {form}"),
        };
        let (low, high) = ends.unwrap_or((f64::NEG_INFINITY, f64::INFINITY));
        sets.push((*kind, low, high));
        bytes = &rest[length..];
    }
    sets
}

fn printed(arguments: &[&str]) -> String {
    let run = Command::new(env!("CARGO_BIN_EXE_vectors")).args(arguments).output().unwrap();
    assert!(run.status.success());
    String::from_utf8(run.stdout).unwrap()
}

fn read_line(line: &str) -> (Vec<u8>, Vec<u8>, u64) {
    let parts: Vec<&str> = line.split(' ').collect();
    let &["meet", first, second, answer] = &parts[..] else { panic!("{line}") };
    let bytes = |text: &str| if text == "-" { Vec::new() } else { unhex(text) };
    (bytes(first), bytes(second), answer.parse().unwrap())
}

/// 1 exactly if space, count and kinds agree and no set begins above the other's end.
#[test]
fn laws_of_the_answer() {
    for line in printed(&["--meetings", "5", "6000"]).lines() {
        let (first, second, answer) = read_line(line);
        if answer > 1 {
            continue;
        }
        let (one, other) = (sets(&first[4..]), sets(&second[4..]));
        let share = |(one, other): (&Set, &Set)| one.0 == other.0 && one.1 <= other.2 && other.1 <= one.2;
        let meet = first[1..4] == second[1..4] && one.iter().zip(&other).all(share);
        assert_eq!(answer, u64::from(meet), "{line}");
    }
}

#[test]
fn lines_are_well_formed() {
    let text = printed(&["--meetings", "9", "3000"]);
    assert_eq!(text, printed(&["--meetings", "9", "3000"]));
    assert!(text.starts_with(&printed(&["--meetings", "9", "30"])));
    assert!(text != printed(&["--meetings", "10", "3000"]));
    let mut meetings = Meetings::new(9);
    assert_eq!(text.lines().count(), 3000);
    for line in text.lines() {
        let one = meetings.make();
        assert_eq!(read_line(line), (one.first.clone(), one.second.clone(), one.answer()), "{line}");
        assert!([0, 1, 6, 19].contains(&one.answer()), "{line}");
    }
}

/// The answer is the same both ways, and a legal template without form 2 meets itself.
#[test]
fn the_answer_is_symmetric() {
    let mut meetings = Meetings::new(21);
    for _ in 0..20_000 {
        let one = meetings.make();
        assert_eq!(can_meet(&one.second, &one.first), one.answer());
        let alone = [&one.first, &one.second].map(|side| can_meet(side, side));
        assert!(alone.iter().all(|answer| [1, 6, 19].contains(answer)));
        let refusal = [6, 19].into_iter().find(|refusal| alone.contains(refusal));
        assert_eq!(Some(one.answer()).filter(|answer| *answer > 1), refusal);
    }
}

/// 1 comes with a legal tuple that both match, in their space alone.
#[test]
fn one_comes_with_a_tuple() {
    let (mut meetings, mut rng, mut tuples) = (Meetings::new(33), Rng::new(33), 0);
    for _ in 0..6_000 {
        let one = meetings.make();
        if one.answer() > 1 {
            continue;
        }
        let [first, second] = [&one.first, &one.second].map(|side| operation_parts(side).unwrap());
        let found = common_tuple(&first, &second);
        assert_eq!(u64::from(found.is_some()), one.answer());
        if let Some(mut tuple) = found {
            assert!(tuple.values.iter().all(Value::is_legal));
            assert!(matches(&first, &tuple, &[]) && matches(&second, &tuple, &[]));
            tuple.space ^= 1 << rng.below(16);
            assert!(!matches(&first, &tuple, &[]) && !matches(&second, &tuple, &[]));
            tuples += 1;
        }
    }
    assert!(tuples > 1000);
}

/// Any bytes have an answer, the same both ways.
#[test]
fn no_bytes_make_it_panic() {
    let (mut meetings, mut rng) = (Meetings::new(45), Rng::new(45));
    for _ in 0..20_000 {
        let one = meetings.make();
        let (mut first, second) = (one.first, one.second);
        for _ in 0..rng.below(4) {
            let at = rng.below(first.len().max(1));
            if let Some(byte) = first.get_mut(at) {
                *byte = rng.pick(&[0, 1, 2, 6, 128, 255, byte.reverse_bits()]);
            }
        }
        let answer = can_meet(&first, &second);
        assert!([0, 1, 6, 19].contains(&answer) && can_meet(&second, &first) == answer);
    }
}
