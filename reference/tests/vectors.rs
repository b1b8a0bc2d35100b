//! What `vectors` prints can be read back and gives the same answers.

mod common;

use common::unhex;
use reference::call::{fresh, take};
use std::process::Command;

fn plain(text: &str) -> Vec<u8> {
    if text == "-" {
        Vec::new()
    } else {
        unhex(text)
    }
}

fn expanded(text: &str) -> Vec<u8> {
    let mut bytes = Vec::new();
    for run in text.split(',').filter(|run| *run != "-") {
        let (digits, zeros) = run.split_once('*').unwrap();
        bytes.extend(unhex(digits));
        bytes.resize(bytes.len() + zeros.parse::<usize>().unwrap(), 0);
    }
    bytes
}

/// Makes the call of one line on the state that the line before left.
fn replay(line: &str, state: &mut Vec<u8>) {
    let parts: Vec<&str> = line.split(' ').collect();
    let &["call", given, record, length, returned, replies, after] = &parts[..] else {
        panic!("{line}");
    };
    if given != "same" {
        *state = expanded(given);
    }
    let expected = if after == "same" { state.clone() } else { expanded(after) };
    let mut reply = vec![0x77; length.parse().unwrap()];
    let returned: u64 = returned.parse().unwrap();
    assert_eq!(take(state, &plain(record), &mut reply), returned, "{line}");
    let count = plain(replies).len();
    assert!(reply[..count] == plain(replies) && reply[count..].iter().all(|byte| *byte == 0x77));
    assert!((1..=5).contains(&returned) && count == 0 || returned == count as u64);
    assert!(*state == expected, "{line}");
}

#[test]
fn vectors_replay() {
    let run = Command::new(env!("CARGO_BIN_EXE_vectors")).args(["3", "42", "12"]).output().unwrap();
    let text = String::from_utf8(run.stdout).unwrap();
    let mut state = Vec::new();
    let mut calls = 0;
    for line in text.lines() {
        if line.starts_with("stream ") {
            state = vec![0; 25_312];
            fresh(&mut state);
        } else {
            replay(line, &mut state);
            calls += 1;
        }
    }
    assert_eq!(calls, 42 * 12);
}
