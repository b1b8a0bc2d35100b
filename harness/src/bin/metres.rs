//! Adds and subtracts metres by calls of the library, and compares with the processor's own results.
//!
//!     metres [PAIRS [SEED]]                 so many pairs of random bits, and as many near ones
//!     metres --sum LEFT plus|minus RIGHT    one sum, of bits in hexadecimal, in each mode
//!
//! Each sum is taken by two replicas, one in the default mode and one in each of the others in turn. Prints what was
//! reached. Fails at the first difference, with the words that make it again.

use harness::library::replica_take;
use harness::metres::{alike, both, near_pair, shown, uniform_pair, Adder, Sum};
use harness::modes::{Mode, DEFAULT, OTHERS};
use reference::generate::rng::Rng;
use std::process::ExitCode;
use std::sync::atomic::{AtomicBool, AtomicU64, Ordering::Relaxed};
use std::thread;

const PAIRS: u64 = 100_000;
const SEED: u64 = 1;
const USAGE: &str = "usage: metres [PAIRS [SEED]] | --sum LEFT plus|minus RIGHT";
/// Pairs that two replicas take; the next ones have another mode.
const CHUNK: u64 = 10_000;

// ---- Counts ----

const COUNTED: [&str; 8] = [
    "pairs",
    "sums and differences",
    "refused 17",
    "subnormal results",
    "exact zeros",
    "ties",
    "the processor differs in the mode",
    "the processor would end the program",
];

#[derive(Clone, Copy, Default)]
struct Counts([u64; COUNTED.len()]);

impl Counts {
    fn merge(&mut self, other: &Counts) {
        for (mine, others) in self.0.iter_mut().zip(other.0) {
            *mine += others;
        }
    }

    fn add(&mut self, sum: Sum, mode: Mode) {
        let expected = sum.expected();
        let (bits, flags) = sum.processor(mode);
        let holds = [
            !sum.minus,
            true,
            expected.is_none(),
            expected.is_some_and(|bits| bits & 0x7F80_0000 == 0 && bits != 0),
            expected == Some(0),
            is_tie(sum),
            bits != sum.processor(DEFAULT).0,
            mode.traps() && flags != 0,
        ];
        for (count, holds) in self.0.iter_mut().zip(holds) {
            *count += u64::from(holds);
        }
    }
}

/// The exact result lies halfway between two f32: it has 25 significant bits. Then an f64 has it exactly. Results that
/// are subnormal are never between two.
fn is_tie(sum: Sum) -> bool {
    let left = f64::from(f32::from_bits(sum.left));
    let right = f64::from(f32::from_bits(sum.right)) * if sum.minus { -1.0 } else { 1.0 };
    let result = left + right;
    let part = result - left;
    let is_exact = left - (result - part) + (right - part) == 0.0;
    is_exact && result.to_bits() & 0x1FFF_FFFF == 0x1000_0000
}

fn print(uniform: &Counts, near: &Counts) {
    println!("{:38} {:>12} {:>12}", "", "random bits", "near");
    for (at, name) in COUNTED.iter().enumerate() {
        println!("{name:38} {:12} {:12}", uniform.0[at], near.0[at]);
    }
}

// ---- Runs ----

/// The pairs of a chunk: of random bits in even chunks, near ones in odd ones.
fn chunk(number: u64, count: u64, seed: u64, counts: &mut [Counts; 2]) -> Result<(), String> {
    let mode = OTHERS[(number / 2 % OTHERS.len() as u64) as usize];
    let (is_near, mut rng) = (number % 2 == 1, Rng::new(seed.wrapping_mul(1_000_003).wrapping_add(number)));
    let pair = |_| if is_near { near_pair(&mut rng) } else { uniform_pair(&mut rng) };
    let sums: Vec<Sum> = (0..count).map(pair).flat_map(both).collect();
    sums.iter().for_each(|sum| counts[usize::from(is_near)].add(*sum, mode));
    let mut adders = [DEFAULT, mode].map(|mode| Adder::new(mode, replica_take));
    alike(&mut adders, &sums).map_err(|fault| format!("metres --sum {fault} (seed {seed}, chunk {number})"))
}

/// Works through chunks until there are enough of both kinds.
fn work(pairs: u64, seed: u64, next: &AtomicU64, failed: &AtomicBool) -> Result<[Counts; 2], String> {
    let mut counts = [Counts::default(); 2];
    while !failed.load(Relaxed) {
        let number = next.fetch_add(1, Relaxed);
        let begun = number / 2 * CHUNK;
        if begun >= pairs {
            break;
        }
        let result = chunk(number, CHUNK.min(pairs - begun), seed, &mut counts);
        failed.fetch_or(result.is_err(), Relaxed);
        result?;
    }
    Ok(counts)
}

/// Runs a thread for each processor; the first failure ends them all.
fn whole(pairs: u64, seed: u64) -> Result<(), String> {
    println!("seed {seed}");
    let (next, failed) = (AtomicU64::new(0), AtomicBool::new(false));
    let count = thread::available_parallelism().map_or(1, usize::from);
    let mut counts = [Counts::default(); 2];
    thread::scope(|scope| {
        let worker = || work(pairs, seed, &next, &failed);
        let threads: Vec<_> = (0..count).map(|_| scope.spawn(worker)).collect();
        for thread in threads {
            let reached = thread.join().map_err(|_| format!("a thread stopped (seed {seed})"))??;
            counts.iter_mut().zip(&reached).for_each(|(all, one)| all.merge(one));
        }
        Ok::<(), String>(())
    })?;
    print(&counts[0], &counts[1]);
    Ok(())
}

/// A line for each mode. Where the library raises an exception that is unmasked, it ends the program.
fn single(sum: Sum) -> Result<(), String> {
    println!("{sum}: {}", shown(sum.expected()));
    let mut result = Ok(());
    for mode in [DEFAULT].into_iter().chain(OTHERS) {
        let mut adder = Adder::new(mode, replica_take);
        let verdict = adder.expect(sum, sum.expected()).and_then(|()| adder.expect_word());
        println!("{mode:33}  {}", verdict.as_ref().map_or_else(String::as_str, |()| "as expected"));
        result = result.and(verdict);
    }
    result
}

fn read_sum(words: &[String]) -> Option<Sum> {
    let [option, left, operation, right] = words else { return None };
    let bits = |word: &String| u32::from_str_radix(word, 16).ok();
    let minus = ["plus", "minus"].iter().position(|name| name == operation)? == 1;
    (option == "--sum").then_some(Sum { left: bits(left)?, minus, right: bits(right)? })
}

fn run(words: &[String]) -> Result<(), String> {
    if let Some(sum) = read_sum(words) {
        return single(sum);
    }
    let numbers: Vec<u64> = words.iter().filter_map(|word| word.parse().ok()).collect();
    if numbers.len() != words.len() || numbers.len() > 2 {
        return Err(USAGE.to_string());
    }
    let given = |at: usize, default| numbers.get(at).copied().unwrap_or(default);
    whole(given(0, PAIRS), given(1, SEED))
}

fn main() -> ExitCode {
    let words: Vec<String> = std::env::args().skip(1).collect();
    match run(&words) {
        Ok(()) => ExitCode::SUCCESS,
        Err(fault) => {
            eprintln!("{fault}");
            ExitCode::FAILURE
        }
    }
}
