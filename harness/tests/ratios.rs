//! The ratios of two files of plain output, on small ones whose ratios are worked out by hand; the rows.

use harness::layout::{
    owed, tuple, tuple_count, SPACE_COUNT_AT, VALUES_AT, VALUE_BYTES, VALUE_COUNT_AT, WAITING_COUNT_AT,
};
use harness::library::LIBRARY;
use harness::ratios::{line, read, Ratio, Ratios};
use harness::{rows, states};
use reference::statement;
use std::process::{Command, Output};

/// Two turns. The least of a row's two parts may come of different turns.
const BASE: &str = "\
slower\t1000.00\t2000.00
faster\t500.00\t800.00
refused\t-\t4.00
gone\t1.00\t2.00
slower\t1010.00\t1900.00
faster\t510.00\t790.00
refused\t-\t3.00
gone\t1.00\t2.00
";
const HEAD: &str = "\
slower\t1100.00\t1995.00
faster\t400.00\t395.00
refused\t-\t4.90
new\t9.00\t9.00
slower\t1020.00\t2100.00
faster\t501.00\t900.00
refused\t-\t4.80
new\t9.00\t9.00
";

fn ratios(base: &str, head: &str) -> Ratios {
    let times = |plain| read(plain).unwrap_or_else(|fault| panic!("{fault}"));
    Ratios::new(&times(base), &times(head))
}

#[test]
fn least_of_all_turns_by_row() {
    let of = |base, head| Some(Ratio { base, head });
    let found = ratios(BASE, HEAD);
    let expected = [
        ("slower", [of(1000.0, 1020.0), of(1900.0, 1995.0)]),
        ("faster", [of(500.0, 400.0), of(790.0, 395.0)]),
        ("refused", [None, of(3.0, 4.8)]),
    ];
    assert_eq!(found.rows, expected.map(|(name, parts)| (name.to_string(), parts)));
    assert_eq!(found.alone, [["gone".to_string()], ["new".to_string()]]);
}

#[test]
fn head_over_base() {
    assert_eq!(Ratio { base: 790.0, head: 395.0 }.value(), 0.5);
    assert_eq!(Ratio { base: 1900.0, head: 1995.0 }.value(), 1.05);
}

/// The row "refused" is 1.6 times as slow, by 1.8 ns.
#[test]
fn the_worst_is_one_that_is_judged() {
    let found = ratios(BASE, HEAD);
    assert_eq!(found.worst(), Some(("slower", "whole call", Ratio { base: 1900.0, head: 1995.0 })));
    assert!(!found.exceeds(1.05) && found.exceeds(1.049));
    let found = ratios(BASE, &HEAD.replace("4.80", "5.00").replace("4.90", "5.00"));
    assert_eq!(found.worst(), Some(("refused", "whole call", Ratio { base: 3.0, head: 5.0 })));
    assert!(found.exceeds(1.66) && !found.exceeds(1.67));
}

#[test]
fn a_check_of_the_state_can_be_the_worst() {
    let found = ratios("a\t100.00\t300.00\n", "a\t120.00\t310.00\n");
    assert_eq!(found.worst(), Some(("a", "check of state", Ratio { base: 100.0, head: 120.0 })));
}

#[test]
fn the_table() {
    let expected = [
        "least ns                                               check of state                   whole call",
        "                                                     base       head  ratio        base       head  ratio",
        "slower                                             1000.0     1020.0  1.020      1900.0     1995.0  1.050",
        "faster                                              500.0      400.0  0.800       790.0      395.0  0.500",
        "refused                                                                             3.0        4.8  1.600~",
        "only in base: gone",
        "only in head: new",
        "~ differs by less than 2 ns, which the clock and the place of the code in memory decide: not judged",
        "worst ratio: 1.050, whole call of \"slower\"",
    ];
    let printed = ratios(BASE, HEAD).to_string();
    assert_eq!(printed.lines().map(str::trim_end).collect::<Vec<&str>>(), expected);
    let same = ratios(BASE, BASE).to_string();
    assert!(same.ends_with("\nworst ratio: none, no row differs by 2 ns\n"), "{same}");
}

#[test]
fn what_is_written_is_read() {
    let lines = [line("a, b", [Some(1234.567), Some(2.0)]), line("c", [None, Some(0.03)])];
    let expected = [("a, b", [Some(1234.57), Some(2.0)]), ("c", [None, Some(0.03)])];
    assert_eq!(read(&lines.join("\n")), Ok(expected.map(|(name, parts)| (name.to_string(), parts)).to_vec()));
}

#[test]
fn what_is_no_plain_output_is_refused() {
    for line in [
        "unit: a pass over 25,312 bytes",
        "a\t1.0",
        "a\t1.0\t2.0\t3.0",
        "a\tx\t1.0",
        "a\t-1\t1.0",
        "a\t1.0\tNaN",
    ] {
        assert_eq!(read(line), Err(format!("not a line of plain output: {line}")));
    }
}

/// Rows go by their names.
#[test]
fn names_of_rows_differ() {
    let mut names: Vec<&str> = rows::taken().iter().chain(&rows::refused()).map(|row| row.name).collect();
    names.sort_unstable();
    assert!(names.windows(2).all(|pair| pair[0] != pair[1]), "{names:?}");
}

fn distinct<T: Ord>(mut numbers: Vec<T>) -> usize {
    numbers.sort_unstable();
    numbers.dedup();
    numbers.len()
}

/// They are done: one reply with outcome 0 and no values.
#[test]
fn rows_of_32_spaces() {
    let rows = rows::taken();
    let rows: Vec<&rows::Row> = rows.iter().filter(|row| row.name.starts_with("32 spaces")).collect();
    for row in &rows {
        let (mut state, mut reply) = (row.states[0].clone(), vec![0; row.reply_length]);
        assert_eq!((LIBRARY.take)(&mut state, &row.record, &mut reply), 12, "{}", row.name);
        assert_eq!((row.states[0][SPACE_COUNT_AT], reply[9]), (32, 0), "{}", row.name);
    }
    let names = |row: &&rows::Row| statement::read(&row.record[8..]).map(|read| distinct(read.spaces()));
    assert_eq!(rows.iter().map(names).collect::<Vec<_>>(), [Some(1), Some(8), Some(12), Some(1), None, None]);
    assert_eq!(distinct(states::spread(512).tuples.iter().map(|tuple| tuple.space).collect()), 32);
    assert!(states::many_names().waiting.iter().all(|entry| distinct(entry.statement.spaces()) == 12));
}

/// Their numbers lie far apart, and differ in both bytes.
#[test]
fn the_32_spaces() {
    let numbers: Vec<u16> = states::spread(0).spaces.iter().map(|space| space.number).collect();
    assert_eq!((numbers.len(), numbers[0], numbers[31]), (32, 0, 65_535));
    assert!(numbers.windows(2).all(|pair| pair[1] - pair[0] >= 2_114), "{numbers:?}");
    let bytes = |at: usize| numbers.iter().map(|number| number.to_be_bytes()[at]).collect::<Vec<u8>>();
    assert_eq!([0, 1].map(|at| distinct(bytes(at))), [32, 32], "{numbers:?}");
    assert_eq!(states::scattered(states::LAST), 65_535);
}

/// The states of rows with a limit have 512 tuples of three fields, in one space and in 32.
#[test]
fn rows_with_a_limit() {
    let rows = rows::taken();
    let found = rows::LIMITS.map(|(name, _)| rows.iter().find(|row| row.name == name));
    let counts = found.map(|row| row.map(|row| (tuple_count(&row.states[0]), row.states[0][SPACE_COUNT_AT])));
    assert_eq!(counts, [Some((512, 1)), Some((512, 32))]);
    for row in found.into_iter().flatten() {
        let tuples = (0..512).map(|at| &row.states[0][tuple(at)]);
        assert!(tuples.clone().all(|tuple| tuple[VALUE_COUNT_AT] == 3), "{}", row.name);
        let spaces = tuples.map(|tuple| [tuple[0], tuple[1]]).collect();
        assert_eq!(distinct::<[u8; 2]>(spaces), usize::from(row.states[0][SPACE_COUNT_AT]), "{}", row.name);
    }
}

/// What the tuples of a state are, by the bits of their values.
fn bits(state: &[u8]) -> Vec<Vec<u32>> {
    let values = |entry: &[u8]| {
        let count = usize::from(entry[VALUE_COUNT_AT]);
        entry[VALUES_AT..].chunks(VALUE_BYTES).take(count).map(word).collect()
    };
    (0..tuple_count(state)).map(|at| values(&state[tuple(at)])).collect()
}

/// The bits of a metres value.
fn word(value: &[u8]) -> u32 {
    assert_eq!(value[0], 2);
    value[1..].iter().fold(0, |bits, byte| bits << 8 | u32::from(*byte))
}

/// They are done, and put as many sums as their names say.
#[test]
fn rows_of_metres() {
    let rows = rows::taken();
    let left = |name: &str| {
        let row = rows.iter().find(|row| row.name == name)?;
        let (mut state, mut reply) = (row.states[0].clone(), vec![0; row.reply_length]);
        (LIBRARY.take)(&mut state, &row.record, &mut reply);
        Some((reply[9], bits(&state)))
    };
    assert_eq!(left("a sum of metres"), Some((0, vec![vec![0x404F_7641]])));
    let first = vec![0x3F80_0001, 0x3480_0000, 0x3F8C_CCCD, 0x4B80_0000, 0xB700_0000, 0x7EFF_FFFE];
    let second = vec![0xC000_0000, 0x4049_0FDB, 0xCF12_3456, 0x4AFF_FFFE, 0xC2C8_3333, 0x7F7F_FFFF];
    assert_eq!(left("12 sums of metres"), Some((0, vec![first, second])));
}

/// The longest call known: each statement is tried until it is woken, the youngest first and the oldest last.
#[test]
fn the_row_that_wakes_from_the_youngest() {
    let rows = rows::taken();
    let row = rows.iter().find(|row| row.name.ends_with("youngest wake first"));
    let (mut state, mut reply) = (states::bytes(&states::chain()), vec![0; 3_564]);
    let count = row.map_or(0, |row| (LIBRARY.take)(&mut state, &row.record, &mut reply));
    let answered: Vec<(u8, u8)> =
        reply[..count as usize].chunks(12).map(|reply| (reply[5], reply[9])).collect();
    let woken = (1..=32).rev().map(|position| (position, 0));
    assert_eq!(answered[1..], woken.collect::<Vec<_>>());
    assert_eq!((tuple_count(&state), state[WAITING_COUNT_AT]), (512, 0));
}

/// The rows of a layout; those of a later one come later, so that the rows of an older library are the first ones.
fn rows_since(layout: u64) -> Vec<rows::Row> {
    let rows = rows::taken();
    assert!(rows.is_sorted_by_key(|row| row.since));
    rows.into_iter().filter(|row| row.since == layout).collect()
}

#[test]
fn rows_by_layouts() {
    assert_eq!([2, 3, 4].map(|layout| rows_since(layout).len()), [21, 6, 5]);
    assert_eq!(rows::taken().len(), 32);
}

/// Each with the bytes of its replies, the tuples that it leaves, and the pairs owed before and after it.
#[test]
fn rows_of_debts() {
    let debts = rows_since(3);
    let pairs = |state: &[u8]| owed(state).iter().map(|mask| mask.count_ones()).sum::<u32>();
    let expected = [
        ("512 tuples, 8 monitors, crash", 18, 512, 0, 8),
        ("512 tuples, a pair owed, in of the newest", 12, 512, 1, 0),
        ("a pair owed, in that wakes a move of 512", 2 * 12, 512, 1, 0),
        ("512 tuples, 128 pairs owed, DS of all", 12, 128, 128, 0),
        ("512 tuples, 128 pairs owed, DS that wakes 32", 12 + 32 * 24, 96, 128, 0),
        ("128 pairs owed, 32 x 4 guards, youngest first", 33 * 12, 508, 128, 0),
    ];
    for (row, (name, count, tuples, before, after)) in debts.iter().zip(expected) {
        let (mut state, mut reply) = (row.states[0].clone(), vec![0; row.reply_length]);
        assert_eq!((row.name, tuple_count(&state), pairs(&state)), (name, 512, before));
        assert_eq!((LIBRARY.take)(&mut state, &row.record, &mut reply), count, "{name}");
        assert_eq!((reply[9], tuple_count(&state), pairs(&state)), (0, tuples, after), "{name}");
        assert_eq!(state[WAITING_COUNT_AT], 0, "{name}");
    }
}

/// Each with the bytes of its replies and the outcome of the first, and the tuples and statements that it leaves.
#[test]
fn rows_of_ranges() {
    let expected = [
        ("512 tuples, in of a range, the newest alone", 18, 0, 511, 0),
        ("512 tuples, inp of a range that has none", 12, 18, 512, 0),
        ("512 tuples of 6, in of the newest by 6 ranges", 12 + 6 * 6, 0, 511, 0),
        ("512 tuples, 31 x 4 guards with a range, out", 12, 0, 512, 31),
        ("outs that wake 8 of 32 by a range", 12 + 8 * 18, 0, 8, 24),
    ];
    let rows = rows_since(4);
    assert_eq!(rows.len(), expected.len());
    for (row, (name, count, outcome, tuples, waiting)) in rows.iter().zip(expected) {
        let (mut state, mut reply) = (row.states[0].clone(), vec![0; row.reply_length]);
        assert_eq!((LIBRARY.take)(&mut state, &row.record, &mut reply), count, "{name}");
        assert_eq!((row.name, reply[9], tuple_count(&state)), (name, outcome, tuples));
        assert_eq!(state[WAITING_COUNT_AT], waiting, "{name}");
    }
    // the newest lies inside, and each of the others outside
    let [lowest, highest] = states::NEAR.map(f32::from_bits);
    let lies = |at: usize| {
        let bytes = rows[0].states[0][tuple(at)][VALUES_AT + VALUE_BYTES + 1..][..4].try_into();
        (lowest..=highest).contains(&f32::from_be_bytes(bytes.unwrap_or_default()))
    };
    assert_eq!((0..512).filter(|at| lies(*at)).collect::<Vec<usize>>(), [511]);
}

/// What the program says of two files of these bytes.
fn judged(name: &str, base: &str, head: &str, most: &[&str]) -> Output {
    let folder = std::env::temp_dir().join(format!("ratios-{name}-{}", std::process::id()));
    let paths = [folder.join("base"), folder.join("head")];
    let output = std::fs::create_dir_all(&folder)
        .and_then(|()| std::fs::write(&paths[0], base))
        .and_then(|()| std::fs::write(&paths[1], head))
        .and_then(|()| Command::new(env!("CARGO_BIN_EXE_ratios")).args(&paths).args(most).output());
    let removed = std::fs::remove_dir_all(&folder);
    assert!(removed.is_ok());
    output.unwrap_or_else(|fault| panic!("{fault}"))
}

#[test]
fn the_exit_status() {
    for (most, status) in [(&[][..], 0), (&["1.05"], 0), (&["1.04"], 1), (&["0.9"], 1), (&["fast"], 2)] {
        let output = judged("status", BASE, HEAD, most);
        assert_eq!(output.status.code(), Some(status), "{most:?}");
        let printed = String::from_utf8_lossy(&output.stdout);
        assert_eq!(status == 2, printed.is_empty(), "{printed}");
    }
    assert_eq!(judged("none", BASE, "other\t1.0\t1.0\n", &[]).status.code(), Some(2));
}
