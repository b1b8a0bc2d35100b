//! The lines that the program `cabinet` prints for a stream.

use crate::call::{fresh, take};
use crate::layout::{REPLY_BYTES, STATE_BYTES};
use std::fmt::Write;

/// The first record and what follows it; a cut last record is what there is.
fn first_record(stream: &[u8]) -> (&[u8], &[u8]) {
    let length = match stream {
        [_, _, high, low, ..] => 8 + usize::from(u16::from_be_bytes([*high, *low])),
        _ => 8,
    };
    stream.split_at(length.min(stream.len()))
}

fn number(bytes: &[u8]) -> u32 {
    bytes.iter().fold(0, |sum, byte| sum << 8 | u32::from(*byte))
}

/// The line of the first reply, and what follows that reply.
fn reply_line(replies: &[u8]) -> (String, &[u8]) {
    let (head, rest) = replies.split_at(12);
    let (position, process) = (number(&head[2..6]), number(&head[7..9]));
    let mut line = format!("{position} {} {process} {} {}", head[6], head[9], head[10]);
    let (values, rest) = rest.split_at(6 * usize::from(head[11]));
    for value in values.chunks(6) {
        let _ = write!(line, " {}:{}:{:08X}", value[0], value[1], number(&value[2..]));
    }
    line.push('\n');
    (line, rest)
}

/// Everything that is printed for a stream, from the fresh state on.
pub fn printed(mut stream: &[u8]) -> String {
    let (mut state, mut reply) = (vec![0; STATE_BYTES], vec![0; REPLY_BYTES]);
    fresh(&mut state);
    let mut lines = String::new();
    while !stream.is_empty() {
        let (record, rest) = first_record(stream);
        stream = rest;
        let returned = take(&mut state, record, &mut reply);
        if (1..=5).contains(&returned) {
            let _ = writeln!(lines, "refused {returned}");
            if returned == 3 {
                break;
            }
            continue;
        }
        let mut replies = &reply[..returned as usize];
        while !replies.is_empty() {
            let (line, rest) = reply_line(replies);
            lines.push_str(&line);
            replies = rest;
        }
    }
    lines
}
