//! The generator reaches every cell that can occur.

use reference::generate::cells::{impossible, missing, wanted_of_debts};
use reference::generate::coverage::Coverage;
use reference::generate::matches::Matches;
use reference::generate::meetings::Meetings;
use reference::generate::{match_cells, meeting_cells, range_cells};
use reference::generate::{Profile, Stream, PROFILES};
use std::collections::BTreeSet;

fn run(seed: u64, streams: u64, records: usize) -> Coverage {
    let mut coverage = Coverage::default();
    for number in 0..streams {
        let mut stream = Stream::new(seed, number);
        for _ in 0..records {
            coverage.add(&stream.step());
        }
    }
    coverage
}

#[test]
fn short_streams_reach_every_cell() {
    let coverage = run(11, 2400, 15);
    let missing = missing(&coverage);
    assert!(missing.is_empty(), "never reached: {missing:?}");
    let found = impossible(&coverage);
    assert!(found.is_empty(), "cannot occur: {found:?}");
    assert!(coverage.taken * 2 >= coverage.calls);
    assert!(coverage.done * 4 >= coverage.calls);
}

/// The streams that dwell on debts reach all cells of debts by themselves.
#[test]
fn debts_reach_every_cell() {
    let debts = PROFILES.iter().position(|profile| *profile == Profile::Debts).unwrap() as u64;
    for seed in [1, 12, 2024] {
        let mut coverage = Coverage::default();
        for number in 0..600 {
            let mut stream = Stream::new(seed, number * PROFILES.len() as u64 + debts);
            (0..15).for_each(|_| coverage.add(&stream.step()));
        }
        let mut missing = wanted_of_debts();
        missing.retain(|cell| !coverage.cells.contains_key(cell));
        assert!(missing.is_empty(), "seed {seed}, never reached: {missing:?}");
        assert!(impossible(&coverage).is_empty());
    }
}

/// Streams with few tuples reach all cells of ranges by themselves.
#[test]
fn ranges_reach_every_cell() {
    let few = [Profile::Ordinary, Profile::Waiting, Profile::Arithmetic, Profile::Damage];
    for seed in [1, 2024] {
        let mut coverage = Coverage::default();
        for number in 0..2400 {
            let mut stream = Stream::new(seed, number);
            let records = if few.contains(&stream.profile()) { 15 } else { 0 };
            (0..records).for_each(|_| coverage.add(&stream.step()));
        }
        let mut missing = range_cells::wanted();
        missing.retain(|cell| !coverage.cells.contains_key(cell));
        assert!(missing.is_empty(), "seed {seed}, never reached: {missing:?}");
    }
}

#[test]
fn long_streams_are_mostly_taken() {
    let coverage = run(5, 24, 300);
    assert!(coverage.taken * 2 >= coverage.calls);
    assert!(coverage.done * 4 >= coverage.calls);
    assert!(impossible(&coverage).is_empty());
}

#[test]
fn matches_reach_every_cell() {
    for seed in [1, 11, 2024] {
        let (mut coverage, mut matches) = (Coverage::default(), Matches::new(seed));
        (0..4_000).for_each(|_| coverage.add_match(&matches.make()));
        let count = |cell: &String| coverage.cells.get(cell).copied().unwrap_or(0);
        let missing: Vec<String> = match_cells::wanted().into_iter().filter(|cell| count(cell) == 0).collect();
        assert!(missing.is_empty(), "never reached: {missing:?}");
        let found: Vec<String> = match_cells::impossible().into_iter().filter(|cell| count(cell) > 0).collect();
        assert!(found.is_empty(), "cannot occur: {found:?}");
        for answer in 0..=3 {
            assert!(count(&format!("match {answer} in all")) >= 600, "{answer}");
        }
    }
}

#[test]
fn meetings_reach_every_cell() {
    for seed in [1, 11, 2024] {
        let (mut coverage, mut meetings) = (Coverage::default(), Meetings::new(seed));
        (0..8_000).for_each(|_| coverage.add_meeting(&meetings.make()));
        let count = |cell: &str| coverage.cells.get(cell).copied().unwrap_or(0);
        let missing: Vec<String> = meeting_cells::wanted().into_iter().filter(|cell| count(cell) == 0).collect();
        assert!(missing.is_empty(), "seed {seed}, never reached: {missing:?}");
        for answer in [0, 1, 6, 19] {
            assert!(count(&format!("meet {answer} in all")) >= 800, "{answer}");
        }
    }
}

/// No cell is listed twice or as both, and every cell counted is in one of the lists.
#[test]
fn cells_of_matches_are_listed() {
    let (wanted, impossible) = (match_cells::wanted(), match_cells::impossible());
    let listed: BTreeSet<&String> = wanted.iter().chain(&impossible).collect();
    assert_eq!(listed.len(), wanted.len() + impossible.len());
    let mut matches = Matches::new(7);
    for _ in 0..4_000 {
        for cell in match_cells::of_match(&matches.make()) {
            assert!(listed.contains(&cell), "{cell}");
        }
    }
}
