//! The lines that `cabinet` prints, against the paper's and those of the second implementation.

use harness::hex::{hex, record};
use harness::program::{ends_where_nothing_can_be_written, printed, printed_of_a_folder, Pieces};
use reference::generate::rng::Rng;
use reference::generate::Stream;
use reference::lines;
use std::time::Duration;

const SEED: u64 = 1;

fn example() -> [Vec<u8>; 3] {
    let add_one =
        "02 0005 01 01 0000 02 00 01 00000007 01 00 00 01 05 0000 02 00 01 00000007 03 00 00 00000001";
    let put_41 = "02 0006 01 00 01 05 0000 02 00 01 00000007 00 00 00000029";
    [record("RV", 1, "02"), record("AG", 2, add_one), record("AG", 3, put_41)]
}

#[test]
fn the_example() {
    let lines = "1 2 0 0 0 0:0:00000001\n3 2 6 0 1\n2 2 5 0 1 0:0:00000029\n";
    assert_eq!(printed(&example().concat(), &Pieces::whole()), lines);
}

#[test]
fn empty_input_prints_nothing() {
    assert_eq!(printed(b"", &Pieces::whole()), "");
}

#[test]
fn a_text_that_cannot_be_written_ends_it() {
    assert!(ends_where_nothing_can_be_written(&record("RV", 1, "02")));
}

#[test]
fn an_input_that_cannot_be_read_prints_nothing() {
    assert_eq!(printed_of_a_folder(), "");
}

#[test]
fn refusals_4_and_5_go_on() {
    let up = record("RV", 1, "02");
    let stream = [up, record("CR", 1, "02"), record("CR", 3, "02"), record("CR", 2, "02")].concat();
    let lines = "1 2 0 0 0 0:0:00000001\nrefused 4\nrefused 5\n2 2 0 0 0 0:0:00000000\n";
    assert_eq!(printed(&stream, &Pieces::whole()), lines);
}

#[test]
fn an_unknown_mark_ends_it() {
    let stream = [record("RV", 1, "02"), record("XX", 2, "02"), record("CR", 2, "02")].concat();
    assert_eq!(printed(&stream, &Pieces::whole()), "1 2 0 0 0 0:0:00000001\nrefused 3\n");
}

/// Cut anywhere, the example ends in `refused 3`, save between two records.
#[test]
fn a_cut_last_record_ends_it() {
    let (stream, ends) = (example().concat(), [0, 9, 52]);
    let whole = ["", "1 2 0 0 0 0:0:00000001\n", "1 2 0 0 0 0:0:00000001\n"];
    for length in 0..stream.len() {
        let before = ends.iter().rposition(|end| *end <= length).unwrap_or(0);
        let last = if ends.contains(&length) { "" } else { "refused 3\n" };
        let lines = format!("{}{last}", whole[before]);
        assert_eq!(printed(&stream[..length], &Pieces::whole()), lines, "cut at {length}");
    }
}

/// Records in order with late, early and repeated ones between them; some end in a cut or unknown record.
fn stream(rng: &mut Rng, number: u64, length: usize) -> Vec<u8> {
    let mut source = Stream::from_fresh(SEED, number);
    let mut records: Vec<Vec<u8>> = Vec::new();
    let mut bytes = Vec::new();
    for _ in 0..length {
        records.push(source.feed());
        bytes.extend(&records[records.len() - 1]);
        match rng.below(12) {
            0 => bytes.extend(rng.pick(&records.iter().collect::<Vec<_>>())),
            1 => bytes.extend(record("RV", records.len() as u32 + 2 + rng.below(9) as u32, "05")),
            _ => {}
        }
    }
    match rng.below(4) {
        0 => bytes.truncate(bytes.len() - 1 - rng.below(20).min(bytes.len() - 1)),
        1 => bytes.extend(b"RP\0\x01\0\0\0\x01\0"),
        _ => {}
    }
    bytes
}

#[test]
fn random_streams() {
    let mut rng = Rng::new(SEED);
    for number in 0..350 {
        let length = 1 + rng.below(60);
        let input = stream(&mut rng, number, length);
        let found = printed(&input, &Pieces::whole());
        assert!(found == lines::printed(&input), "seed {SEED}, stream {number}: {}", hex(&input));
    }
}

/// Each read gives what has come so far: pieces of any length, down to one byte.
#[test]
fn short_reads() {
    let mut rng = Rng::new(SEED + 1);
    for number in 0..40 {
        let input = stream(&mut rng, number, 6);
        let few = if number == 0 { 1 } else { 1 + rng.below(40) };
        let lengths = (0..7).map(|_| 1 + rng.below(few)).collect();
        let found = printed(&input, &Pieces { lengths, pause: Duration::from_micros(300) });
        assert!(found == lines::printed(&input), "seed {SEED}, stream {number}: {}", hex(&input));
    }
}

/// 512 tuples, two monitors and two crashes: no line tells of the four failure tuples that are owed, until ins make
/// room for them.
#[test]
fn a_stream_that_owes() {
    let copies = "07 0000 0000 00".repeat(7);
    let takes = "02 0005 01 01 0000 01 05 00 00";
    let waits = "02 0006 01 01 0000 03 00 01 00000001 01 00 00 01 00 01 00";
    let bodies = [
        ("RV", "02".to_string()),
        ("RV", "03".to_string()),
        ("RV", "0F".to_string()),
        ("MO", "02 0005".to_string()),
        ("MO", "02 0005".to_string()),
        ("AG", format!("02 0005 01 00 08 05 0000 01 00 00 00000000 {copies}")),
        ("AG", "02 0005 01 00 02 07 0000 0000 00 07 0000 0000 00".to_string()),
        ("AG", "02 0005 01 00 01 05 0000 01 00 00 00000000".to_string()),
        ("CR", "0F".to_string()),
        ("CR", "03".to_string()),
        ("RV", "03".to_string()),
        ("AG", waits.to_string()),
        ("AG", takes.to_string()),
        ("AG", waits.to_string()),
        ("AG", waits.to_string()),
        ("AG", waits.to_string()),
        ("AG", waits.to_string()),
    ];
    let records = bodies.iter().zip(1..).map(|((mark, body), position)| record(mark, position, body));
    let stream: Vec<u8> = records.flatten().collect();
    let lines = "\
        1 2 0 0 0 0:0:00000001\n2 3 0 0 0 0:0:00000002\n3 15 0 0 0 0:0:00000003\n\
        4 2 5 0 0 0:0:00000001\n5 2 5 0 0 0:0:00000002\n6 2 5 0 1\n7 2 5 0 1\n8 2 5 12 1\n\
        9 15 0 0 0 0:0:00000002\n10 3 0 0 0 0:0:00000001\n11 3 0 0 0 0:0:00000002\n\
        13 2 5 0 1\n12 2 6 0 1 0:0:00000001 1:0:00000003\n\
        14 2 6 0 1 0:0:00000001 1:0:0000000F\n15 2 6 0 1 0:0:00000002 1:0:00000003\n\
        16 2 6 0 1 0:0:00000002 1:0:0000000F\n";
    assert_eq!(printed(&stream, &Pieces::whole()), lines);
}

/// A drive waits for 3.4 to 3.6 metres, and is woken by the second position; then a range that is malformed, one that
/// nothing lies in, and one of two guards.
#[test]
fn a_stream_with_ranges() {
    let position = |metres: &str| format!("02 0006 01 00 01 05 0000 02 00 01 00000007 00 02 {metres}");
    let near = |code: &str, ends: &str| format!("{code} 0000 02 00 01 00000007 06 02 {ends} 03");
    let bodies = [
        ("RV", "02".to_string()),
        ("AG", format!("02 0005 01 {} 01 05 0000 01 02 03", near("01", "4059999A 40666666"))),
        ("AG", position("40680000")),
        ("AG", position("40600000")),
        ("AG", format!("02 0005 01 {} 00", near("01", "40666666 4059999A"))),
        ("AG", format!("02 0005 01 {} 00", near("04", "C0680000 00000000"))),
        ("AG", format!("02 0005 02 {} 00 {} 00", near("02", "00000000 4067FFFF"), near("04", "40680000 7F7FFFFF"))),
    ];
    let records = bodies.iter().zip(1..).map(|((mark, body), position)| record(mark, position, body));
    let stream: Vec<u8> = records.flatten().collect();
    let lines = "\
        1 2 0 0 0 0:0:00000001\n3 2 6 0 1\n4 2 6 0 1\n2 2 5 0 1 3:2:40600000\n\
        5 255 65535 6 0\n6 2 5 18 0\n7 2 5 0 2 3:2:40680000\n";
    assert_eq!(printed(&stream, &Pieces::whole()), lines);
}

/// Records of 65,543 bytes, whole, in pieces, and cut.
#[test]
fn the_longest_records() {
    let long = |position| record("AG", position, &"07".repeat(65_535));
    let stream = [record("RV", 1, "02"), long(2), long(9), record("CR", 3, "02"), long(4)].concat();
    let whole =
        "1 2 0 0 0 0:0:00000001\n2 255 65535 6 0\nrefused 5\n3 2 0 0 0 0:0:00000000\n4 255 65535 6 0\n";
    let pieces = Pieces { lengths: vec![4_093, 60_000, 1, 12_345], pause: Duration::from_micros(300) };
    for pieces in [&Pieces::whole(), &pieces] {
        assert_eq!(printed(&stream, pieces), whole);
        let cut = "1 2 0 0 0 0:0:00000001\n2 255 65535 6 0\nrefused 5\n3 2 0 0 0 0:0:00000000\nrefused 3\n";
        assert_eq!(printed(&stream[..stream.len() - 1], pieces), cut);
    }
}

/// Streams of more bytes than any buffer has.
#[test]
fn a_long_random_stream() {
    let mut rng = Rng::new(SEED + 2);
    let input = stream(&mut rng, 7, 6_000);
    let found = printed(&input, &Pieces::whole());
    assert!(input.len() > 300_000);
    assert!(found == lines::printed(&input), "seed {SEED}");
}

/// Each space number is given out and its space closed, until none is left.
#[test]
fn all_space_numbers() {
    let (mut input, mut lines) = (record("RV", 1, "02"), "1 2 0 0 0 0:0:00000001\n".to_string());
    for number in 1..=65_535 {
        let (opens, closes) = (2 * number, 2 * number + 1);
        input.extend(record("MS", opens, "02 0005"));
        input.extend(record("DS", closes, &format!("02 0005 {number:04X}")));
        lines.push_str(&format!("{opens} 2 5 0 0 0:0:{number:08X}\n{closes} 2 5 0 0\n"));
    }
    input.extend(record("MS", 131_072, "02 0005"));
    lines.push_str("131072 2 5 14 0\n");
    assert!(printed(&input, &Pieces::whole()) == lines);
}

/// A host goes up and down 100,000 times.
#[test]
fn a_stream_of_200000_records() {
    let (mut input, mut lines) = (Vec::new(), String::new());
    for position in 1..=200_000 {
        let up = position % 2;
        input.extend(record(if up == 1 { "RV" } else { "CR" }, position, "0F"));
        lines.push_str(&format!("{position} 15 0 0 0 0:0:{up:08X}\n"));
    }
    assert!(printed(&input, &Pieces::whole()) == lines);
}
