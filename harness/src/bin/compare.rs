//! Compares the library with the second implementation on generated calls, event lists and pairs of templates.
//!
//!     compare [CALLS [LISTS [SEED [PAIRS]]]]
//!     compare --stream SEED NUMBER
//!     compare --list SEED NUMBER
//!     compare --pairs SEED NUMBER
//!
//! Prints what was reached. Fails at the first difference, where a cell that can occur stays empty, where
//! under half of the calls take their record, or where under a quarter end in outcome 0 of a statement.

use harness::caller::Caller;
use harness::events::{self, Counts, KINDS};
use harness::library::LIBRARY;
use harness::meetings::{self, Asker, BATCH};
use harness::streams;
use reference::generate::cells::{impossible, missing};
use reference::generate::coverage::Coverage;
use std::process::ExitCode;
use std::sync::atomic::{AtomicBool, AtomicU64, Ordering::Relaxed};
use std::thread;

const CALLS: u64 = 310_000;
const LISTS: u64 = 2_100;
const PAIRS: u64 = 60_000;
const SEED: u64 = 1;
const USAGE: &str = "usage: compare [CALLS [LISTS [SEED [PAIRS]]]] | --stream SEED NUMBER | --list SEED NUMBER \
    | --pairs SEED NUMBER";

/// How much there is to do at least.
#[derive(Clone, Copy)]
struct Wanted {
    calls: u64,
    lists: u64,
    pairs: u64,
}

/// What all threads share: the next stream, list and batch of pairs, and how far they are.
#[derive(Default)]
struct Progress {
    stream: AtomicU64,
    list: AtomicU64,
    batch: AtomicU64,
    calls: AtomicU64,
    failed: AtomicBool,
}

/// What one thread reached.
#[derive(Default)]
struct Reached {
    coverage: Coverage,
    counts: Counts,
    lists: usize,
    events: usize,
    meetings: Coverage,
    pairs: u64,
}

impl Reached {
    fn merge(&mut self, other: &Reached) {
        self.coverage.merge(&other.coverage);
        for (kind, count) in &other.counts {
            *self.counts.entry(kind).or_insert(0) += count;
        }
        self.lists += other.lists;
        self.events += other.events;
        self.meetings.merge(&other.meetings);
        self.pairs += other.pairs;
    }
}

/// Works through lists, pairs and streams until there are enough of each.
fn work(seed: u64, wanted: Wanted, progress: &Progress) -> Result<Reached, String> {
    let mut reached = Reached::default();
    let (mut caller, mut asker) = (Caller::new(LIBRARY), Asker::new(meetings::library));
    while !progress.failed.load(Relaxed) {
        let number = progress.list.fetch_add(1, Relaxed);
        if number >= wanted.lists {
            break;
        }
        reached.events += events::run(seed, number, &mut caller, &mut reached.counts)?;
        reached.lists += 1;
    }
    while !progress.failed.load(Relaxed) {
        let number = progress.batch.fetch_add(1, Relaxed);
        if number * BATCH >= wanted.pairs {
            break;
        }
        meetings::run(seed, number, &mut asker, &mut reached.meetings)?;
        reached.pairs += BATCH;
    }
    while !progress.failed.load(Relaxed) && progress.calls.load(Relaxed) < wanted.calls {
        let number = progress.stream.fetch_add(1, Relaxed);
        let before = reached.coverage.calls;
        streams::run(seed, number, &mut caller, &mut reached.coverage)?;
        progress.calls.fetch_add((reached.coverage.calls - before) as u64, Relaxed);
    }
    Ok(reached)
}

/// Runs a thread for each processor; the first failure ends them all.
fn compare(seed: u64, wanted: Wanted) -> Result<Reached, String> {
    let progress = Progress::default();
    let count = thread::available_parallelism().map_or(1, usize::from);
    thread::scope(|scope| {
        let worker = || {
            let result = work(seed, wanted, &progress);
            progress.failed.fetch_or(result.is_err(), Relaxed);
            result
        };
        let threads: Vec<_> = (0..count).map(|_| scope.spawn(worker)).collect();
        let mut whole = Reached::default();
        for thread in threads {
            whole.merge(&thread.join().map_err(|_| format!("a thread stopped (seed {seed})"))??);
        }
        Ok(whole)
    })
}

fn print(reached: &Reached) {
    for (cell, count) in reached.coverage.cells.iter().chain(&reached.meetings.cells) {
        println!("{cell:45} {count:9}");
    }
    for (kind, count) in &reached.counts {
        println!("event lists: {kind:32} {count:9}");
    }
    let Coverage { calls, taken, done, .. } = reached.coverage;
    println!("{} event lists, {} events", reached.lists, reached.events);
    println!("{} pairs of templates", reached.pairs);
    println!("{calls} calls, {taken} take their record, {done} end in outcome 0 of a statement");
}

/// What a whole run must have reached, besides agreement.
fn faults(reached: &Reached) -> Vec<String> {
    let Coverage { calls, taken, done, .. } = reached.coverage;
    let mut faults: Vec<String> = Vec::new();
    faults.extend(missing(&reached.coverage).iter().map(|cell| format!("never reached: {cell}")));
    faults.extend(meetings::missing(&reached.meetings).iter().map(|cell| format!("never reached: {cell}")));
    faults.extend(impossible(&reached.coverage).iter().map(|cell| format!("cannot occur: {cell}")));
    let empty = KINDS.iter().filter(|kind| !reached.counts.contains_key(*kind));
    faults.extend(empty.map(|kind| format!("never in a list: {kind}")));
    if taken * 2 < calls {
        faults.push("under half of the calls take their record".to_string());
    }
    if done * 4 < calls {
        faults.push("under a quarter of the calls end in outcome 0 of a statement".to_string());
    }
    faults
}

fn whole(seed: u64, wanted: Wanted) -> Result<(), String> {
    println!("seed {seed}");
    let reached = compare(seed, wanted)?;
    print(&reached);
    let faults = faults(&reached);
    if faults.is_empty() {
        return Ok(());
    }
    Err(format!("seed {seed}:\n{}", faults.join("\n")))
}

fn run(words: &[String]) -> Result<(), String> {
    let numbers: Vec<u64> = words.iter().filter_map(|word| word.parse().ok()).collect();
    let mut caller = Caller::new(LIBRARY);
    match (words.first().map(String::as_str), &numbers[..]) {
        (Some("--stream"), &[seed, number]) => {
            streams::run(seed, number, &mut caller, &mut Coverage::default())
        }
        (Some("--list"), &[seed, number]) => {
            events::run(seed, number, &mut caller, &mut Counts::new()).map(|_| ())
        }
        (Some("--pairs"), &[seed, number]) => {
            meetings::run(seed, number, &mut Asker::new(meetings::library), &mut Coverage::default())
        }
        (_, numbers) if numbers.len() == words.len() && numbers.len() < 5 => {
            let given = |at: usize, default| numbers.get(at).copied().unwrap_or(default);
            whole(
                given(2, SEED),
                Wanted { calls: given(0, CALLS), lists: given(1, LISTS), pairs: given(3, PAIRS) },
            )
        }
        _ => Err(USAGE.to_string()),
    }
}

fn main() -> ExitCode {
    let words: Vec<String> = std::env::args().skip(1).collect();
    match run(&words) {
        Ok(()) => ExitCode::SUCCESS,
        Err(fault) => {
            eprintln!("{fault}");
            ExitCode::FAILURE
        }
    }
}
