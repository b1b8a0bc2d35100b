//! Prints test vectors. Usage: vectors SEED STREAMS RECORDS [--coverage]
//! or, for matches alone: vectors --matches SEED COUNT [--coverage]
//! or, for pairs of templates: vectors --meetings SEED COUNT [--coverage]

use reference::generate::coverage::Coverage;
use reference::generate::matches::{Match, Matches};
use reference::generate::meetings::{Meeting, Meetings};
use reference::generate::{Step, Stream};
use reference::layout::tuple_entry;
use reference::statement::operation_bytes;
use reference::value::Value;
use std::io::{self, Write};
use std::process::ExitCode;

fn hex(bytes: &[u8]) -> String {
    if bytes.is_empty() {
        return "-".to_string();
    }
    bytes.iter().map(|byte| format!("{byte:02x}")).collect()
}

/// Runs `HEX*ZEROS` with commas between; a run ends where 8 zeros or more follow.
fn compressed(bytes: &[u8]) -> String {
    if bytes.is_empty() {
        return "-".to_string();
    }
    let mut runs = Vec::new();
    let mut at = 0;
    while at < bytes.len() {
        let rest = &bytes[at..];
        let plain = rest.windows(8).position(|window| window == [0; 8]).unwrap_or(rest.len());
        let zeros = rest[plain..].iter().take_while(|byte| **byte == 0).count();
        let text: String = rest[..plain].iter().map(|byte| format!("{byte:02x}")).collect();
        runs.push(format!("{text}*{zeros}"));
        at += plain + zeros;
    }
    runs.join(",")
}

fn line(step: &Step) -> String {
    let state = step.given.as_ref().map_or("same".to_string(), |bytes| compressed(bytes));
    let after = if step.after == step.before { "same".to_string() } else { compressed(&step.after) };
    let (record, reply) = (hex(&step.record), hex(step.replies()));
    format!("call {state} {record} {} {} {reply} {after}", step.lent.len(), step.returned)
}

fn match_line(one: &Match) -> String {
    let named = |(variable, value): &(u8, Value)| format!("{variable}:{}:{}", value.kind, hex(&value.bytes));
    let bound: Vec<String> = one.bound.iter().map(named).collect();
    let bound = if bound.is_empty() { "-".to_string() } else { bound.join(",") };
    let (operation, tuple) = (hex(&operation_bytes(&one.operation)), hex(&tuple_entry(&one.tuple)));
    format!("match {operation} {bound} {tuple} {}", one.answer().number())
}

fn meeting_line(one: &Meeting) -> String {
    format!("meet {} {} {}", hex(&one.first), hex(&one.second), one.answer())
}

fn print_streams(coverage: &mut Coverage, seed: u64, streams: u64, records: u64) -> io::Result<()> {
    let mut out = io::BufWriter::new(io::stdout().lock());
    for number in 0..streams {
        let mut stream = Stream::new(seed, number);
        writeln!(out, "stream {number} {}", stream.profile().name())?;
        for _ in 0..records {
            let step = stream.step();
            coverage.add(&step);
            writeln!(out, "{}", line(&step))?;
        }
    }
    out.flush()
}

fn print_matches(coverage: &mut Coverage, seed: u64, count: u64) -> io::Result<()> {
    let mut out = io::BufWriter::new(io::stdout().lock());
    let mut matches = Matches::new(seed);
    for _ in 0..count {
        let one = matches.make();
        coverage.add_match(&one);
        writeln!(out, "{}", match_line(&one))?;
    }
    out.flush()
}

fn print_meetings(coverage: &mut Coverage, seed: u64, count: u64) -> io::Result<()> {
    let mut out = io::BufWriter::new(io::stdout().lock());
    let mut meetings = Meetings::new(seed);
    for _ in 0..count {
        let one = meetings.make();
        coverage.add_meeting(&one);
        writeln!(out, "{}", meeting_line(&one))?;
    }
    out.flush()
}

fn print_cells(coverage: &Coverage) {
    for (cell, count) in &coverage.cells {
        eprintln!("{cell:40} {count}");
    }
}

fn print_calls(coverage: &Coverage) {
    eprintln!("calls {}, taken {}, statements done {}", coverage.calls, coverage.taken, coverage.done);
}

fn main() -> ExitCode {
    let (options, numbers): (Vec<String>, Vec<String>) =
        std::env::args().skip(1).partition(|argument| argument.starts_with("--"));
    let numbers: Option<Vec<u64>> = numbers.iter().map(|text| text.parse().ok()).collect();
    let has = |name: &str| options.iter().any(|option| option == name);
    let mut coverage = Coverage::default();
    let printed = match (has("--matches"), has("--meetings"), numbers.as_deref()) {
        (false, false, Some(&[seed, streams, records])) => print_streams(&mut coverage, seed, streams, records),
        (true, false, Some(&[seed, count])) => print_matches(&mut coverage, seed, count),
        (false, true, Some(&[seed, count])) => print_meetings(&mut coverage, seed, count),
        _ => {
            eprintln!("usage: vectors SEED STREAMS RECORDS [--coverage]");
            eprintln!("       vectors --matches SEED COUNT [--coverage]");
            eprintln!("       vectors --meetings SEED COUNT [--coverage]");
            return ExitCode::FAILURE;
        }
    };
    if printed.is_err() {
        return ExitCode::FAILURE;
    }
    if has("--coverage") {
        print_cells(&coverage);
    }
    if has("--coverage") && coverage.calls > 0 {
        print_calls(&coverage);
    }
    ExitCode::SUCCESS
}
