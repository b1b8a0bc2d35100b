//! Times calls of the library. The unit is the time that reading a state once takes: one pass over all its bytes that
//! sums them up in words of 8, timed in the same run.
//!
//!     bench [SAMPLES]
//!     bench --limits [SAMPLES]   the checks of states that have a limit alone
//!     bench --plain [SAMPLES]    for programs: lines of name, tab, check of the state, tab, whole call, in least ns
//!     bench --asked              such a line, of samples of some milliseconds, for each name that is a line of input
//!
//! The exit status of the first two is 1 where a check takes longer than its limit.
//!
//! Buffers are warm: each sample copies a state to the one buffer and times a call on it. The check of the
//! state is timed by the same call with an unknown mark, which check 3 turns back; the rest is what the call
//! takes beyond that.

use harness::layout::STATE_BYTES;
use harness::library::{replica_layout, Calls, LIBRARY, REFERENCE};
use harness::program::{path, printed, Pieces};
use harness::ratios::line;
use harness::rows::{self, Row, LIMITS};
use std::hint::black_box;
use std::io::stdin;
use std::process::ExitCode;
use std::time::{Duration, Instant};

const SAMPLES: usize = 4_000;
/// Samples of a row that takes long end sooner.
const MOST: Duration = Duration::from_secs(2);
/// How often a unit and a check that has a limit are timed in turn.
const TURNS: usize = 40;
/// A call that is turned back leaves its buffers as they were, so that many can be timed at once.
const AT_ONCE: usize = 32;
/// How long a row is timed where it is asked for, and how often at least.
const ASKED: Duration = Duration::from_millis(5);
const ASKED_SAMPLES: usize = 4;

/// Least and median nanoseconds.
#[derive(Clone, Copy)]
struct Times {
    least: f64,
    median: f64,
}

fn summed(mut samples: Vec<f64>) -> Times {
    samples.sort_by(f64::total_cmp);
    Times { least: samples[0], median: samples[samples.len() / 2] }
}

/// The numbers of so many samples, or of those that begin in time.
fn numbers(samples: usize) -> impl Iterator<Item = usize> {
    let start = Instant::now();
    (0..samples).take_while(move |_| start.elapsed() < MOST)
}

/// Nanoseconds of one run of `action`, made `times` times, less what reading the clock takes.
fn clocked(times: usize, clock: f64, mut action: impl FnMut()) -> f64 {
    let start = Instant::now();
    for _ in 0..times {
        action();
    }
    (start.elapsed().as_nanos() as f64 - clock).max(0.0) / times as f64
}

/// What reading the clock twice takes at least.
fn clock() -> f64 {
    summed((0..10_000).map(|_| clocked(1, 0.0, || ())).collect()).least
}

/// Each turn of the loop adds up 16 words. With four, it takes twice as long where the linker lays it across two lines
/// of the cache.
#[inline(never)]
fn pass(bytes: &[u8]) -> u64 {
    let word = |chunk: &[u8]| chunk.try_into().map_or(0, u64::from_ne_bytes);
    let turns = bytes.chunks_exact(128);
    let mut sums = [0_u64; 16];
    let rest = turns.remainder().chunks_exact(8).map(word);
    for turn in turns {
        for (sum, chunk) in sums.iter_mut().zip(turn.chunks_exact(8)) {
            *sum = sum.wrapping_add(word(chunk));
        }
    }
    rest.chain(sums).fold(0, u64::wrapping_add)
}

/// One word-wise pass over a state.
fn unit(samples: usize, clock: f64) -> Times {
    let state = vec![3; STATE_BYTES];
    let sample = |_| {
        clocked(AT_ONCE, clock, || {
            black_box(pass(black_box(&state)));
        })
    };
    summed((0..samples).map(sample).collect())
}

/// The buffers of the calls of one row.
struct Timed<'a> {
    calls: Calls,
    row: &'a Row,
    state: Vec<u8>,
    reply: Vec<u8>,
    clock: f64,
}

impl Timed<'_> {
    fn new(calls: Calls, row: &Row, clock: f64) -> Timed<'_> {
        Timed { calls, row, state: row.states[0].clone(), reply: vec![0; row.reply_length], clock }
    }

    /// A record on the row's states in turn.
    fn call(&mut self, record: &[u8], turn: usize, times: usize) -> f64 {
        self.state.copy_from_slice(&self.row.states[turn % self.row.states.len()]);
        let (take, state, reply) = (self.calls.take, &mut self.state, &mut self.reply);
        clocked(times, self.clock, || {
            black_box(take(state, black_box(record), reply));
        })
    }

    /// Check of the state, so many at once, whole call, and rest. A sample has both calls, on two states where
    /// there are many.
    fn taken(&mut self, numbers: impl Iterator<Item = usize>, at_once: usize) -> [Times; 3] {
        let record = self.row.record.clone();
        let unknown = [b"XX", &record[2..]].concat();
        let [mut check, mut whole, mut rest] = [(); 3].map(|()| Vec::new());
        for number in numbers {
            check.push(self.call(&unknown, number, at_once));
            whole.push(self.call(&record, number + self.row.states.len() / 2, 1));
            rest.push(whole[number] - check[number]);
        }
        let (check, whole, rest) = (summed(check), summed(whole), summed(rest));
        let rest = Times { least: whole.least - check.least, median: rest.median };
        [check, whole, rest]
    }

    fn refused(&mut self, numbers: impl Iterator<Item = usize>) -> Times {
        let record = self.row.record.clone();
        summed(numbers.map(|number| self.call(&record, number, AT_ONCE)).collect())
    }
}

/// The rows that are taken, without those of a layout after the library's.
fn taken() -> impl Iterator<Item = Row> {
    let layout = unsafe { replica_layout() };
    rows::taken().into_iter().filter(move |row| row.since <= layout)
}

/// Both give the same answer, so that the same work is timed.
fn agree(row: &Row) {
    let answer = |calls: Calls| {
        let (mut state, mut reply) = (row.states[0].clone(), vec![0; row.reply_length]);
        let returned = (calls.take)(&mut state, &row.record, &mut reply);
        (returned, state, reply)
    };
    assert!(answer(LIBRARY) == answer(REFERENCE), "{}", row.name);
}

fn print_taken(samples: usize, unit: f64, clock: f64) {
    println!("in units{:38} check of state            rest          whole call  second", "");
    println!("{:46}    least   median    least   median   ns, least  x whole", "");
    for row in &taken().collect::<Vec<Row>>() {
        agree(row);
        let [check, whole, rest] = Timed::new(LIBRARY, row, clock).taken(numbers(samples), 1);
        let [_, second, _] = Timed::new(REFERENCE, row, clock).taken(numbers(samples.div_ceil(20)), 1);
        let columns = [check.least, check.median, rest.least, rest.median].map(|time| time / unit);
        let columns: String = columns.iter().map(|units| format!(" {units:8.2}")).collect();
        println!("{:46}{columns} {:11.0} {:8.1}", row.name, whole.least, second.least / whole.least);
    }
}

fn print_refused(rows: &[Row], samples: usize, unit: f64, clock: f64) {
    println!("\nin units{:38}    least   median   ns, least  second, x whole", "");
    for row in rows {
        agree(row);
        let whole = Timed::new(LIBRARY, row, clock).refused(0..samples);
        let second = Timed::new(REFERENCE, row, clock).refused(0..samples.div_ceil(20));
        let columns = [whole.least, whole.median].map(|time| time / unit);
        let columns: String = columns.iter().map(|units| format!(" {units:8.3}")).collect();
        println!("{:46}{columns} {:11.1} {:8.1}", row.name, whole.least, second.least / whole.least);
    }
}

/// Least nanoseconds of a unit and of the check of a row's state. They are timed in turns, so that both have quiet
/// moments.
fn unit_and_check(row: &Row, samples: usize, clock: f64) -> [f64; 2] {
    let (mut timed, samples) = (Timed::new(LIBRARY, row, clock), samples.div_ceil(TURNS));
    let turns = (0..TURNS).map(|_| {
        let [check, ..] = timed.taken(numbers(samples), 1);
        [unit(samples, clock).least, check.least]
    });
    turns.fold([f64::INFINITY; 2], |least, turn| [0, 1].map(|at| least[at].min(turn[at])))
}

/// The checks of states that have a limit; whether all keep it.
fn print_limits(samples: usize, clock: f64) -> bool {
    let (rows, mut kept) = (rows::taken(), true);
    println!("\ncheck of state, least{:25}    units  at most          ns  ns of a unit", "");
    for (name, most) in LIMITS {
        let row = rows.iter().find(|row| row.name == name).unwrap_or_else(|| panic!("no row {name}"));
        agree(row);
        let [unit, check] = unit_and_check(row, samples, clock);
        let units = check / unit;
        let verdict = if units > most { "  TOO LONG" } else { "" };
        println!("{name:46} {units:8.2} {most:8.2} {check:11.0} {unit:13.0}{verdict}");
        kept &= units <= most;
    }
    kept
}

/// The pace of `cabinet` at two lengths of stream.
fn print_program() {
    println!();
    for records in [20_000, 80_000] {
        let record = |at: u32| reference::generate::join([*b"RV", *b"CR"][at as usize % 2], at + 1, &[2]);
        let input: Vec<u8> = (0..records).flat_map(record).collect();
        let start = Instant::now();
        let lines = printed(&input, &Pieces::whole()).lines().count();
        let pace = start.elapsed().as_nanos() as f64 / f64::from(records);
        println!("cabinet, {records:6} records, {lines:6} lines: {pace:8.0} ns a record");
    }
}

/// Whether all limits are kept.
fn print_all(samples: usize) -> bool {
    let clock = clock();
    let unit = unit(samples, clock);
    println!("A unit is the time of reading a state once: a pass over {STATE_BYTES} bytes that sums them up in words of 8.");
    println!("Here it is {:.0} ns at least, {:.0} ns in the median.\n", unit.least, unit.median);
    print_taken(samples, unit.least, clock);
    print_refused(&rows::refused(), samples, unit.least, clock);
    let kept = print_limits(samples, clock);
    if path().exists() {
        print_program();
    }
    kept
}

/// The plain line of a row.
fn plain(row: &Row, is_taken: bool, numbers: impl Iterator<Item = usize>, clock: f64) -> String {
    let mut timed = Timed::new(LIBRARY, row, clock);
    if !is_taken {
        return line(row.name, [None, Some(timed.refused(numbers).least)]);
    }
    let [check, whole, _] = timed.taken(numbers, if row.is_brief { AT_ONCE } else { 1 });
    line(row.name, [Some(check.least), Some(whole.least)])
}

/// Rows, and whether they are taken.
fn all() -> impl Iterator<Item = (Row, bool)> {
    taken().map(|row| (row, true)).chain(rows::refused().into_iter().map(|row| (row, false)))
}

fn print_plain(samples: usize) {
    let clock = clock();
    for (row, is_taken) in all() {
        agree(&row);
        println!("{}", plain(&row, is_taken, numbers(samples), clock));
    }
}

/// Answers a name that no row has with an empty line.
fn print_asked() {
    let (clock, all) = (clock(), all().collect::<Vec<(Row, bool)>>());
    for name in stdin().lines().map_while(Result::ok) {
        let start = Instant::now();
        let numbers = (0..).take_while(|number| *number < ASKED_SAMPLES || start.elapsed() < ASKED);
        let found = all.iter().find(|(row, _)| row.name == name);
        println!("{}", found.map_or(String::new(), |(row, is_taken)| plain(row, *is_taken, numbers, clock)));
    }
}

fn main() -> ExitCode {
    let words: Vec<String> = std::env::args().skip(1).collect();
    let samples = |at: usize| words.get(at).and_then(|word| word.parse().ok()).unwrap_or(SAMPLES);
    let mut kept = true;
    match words.first().map(String::as_str) {
        Some("--plain") => print_plain(samples(1)),
        Some("--asked") => print_asked(),
        Some("--limits") => kept = print_limits(samples(1), clock()),
        _ => kept = print_all(samples(0)),
    }
    ExitCode::from(u8::from(!kept))
}
