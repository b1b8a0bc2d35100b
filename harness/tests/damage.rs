//! States damaged at every byte position of every section, and records at every byte.

use harness::caller::{Caller, Expected};
use harness::hex::{hex, record, unhex};
use harness::layout::{
    self, HEADER_USED, MARK, MONITORS_AT, NEXT, OWED, SPACES_AT, SPACE_BYTES, SPACE_COUNT_AT, STATE_BYTES,
    TUPLES_AT, TUPLE_BYTES, TUPLE_COUNT, WAITING_AT, WAITING_BYTES,
};
use harness::library::LIBRARY;
use harness::replica::Replica;
use harness::states;
use reference::generate::join;
use reference::run::Run;
use reference::statement;
use std::collections::BTreeMap;

/// How often each number was returned: 0 stands for a record taken.
type Returns = BTreeMap<u64, usize>;

/// Whether an entry of the state lies there.
fn in_use(run: &Run, at: usize) -> bool {
    let sections = [
        (0, HEADER_USED),
        (SPACES_AT, SPACE_BYTES * run.spaces.len()),
        (TUPLES_AT, TUPLE_BYTES * run.tuples.len()),
        (WAITING_AT, WAITING_BYTES * run.waiting.len()),
    ];
    sections.iter().any(|(start, length)| (*start..start + length).contains(&at))
}

/// Calls with one byte at each position changed, in the ways that `changes` gives for it.
fn damage(run: &Run, changes: impl Fn(usize, u8) -> Vec<u8>) -> Returns {
    let mut bytes = states::bytes(run);
    let process = 77;
    let out = states::operation(5, &[0], states::given(&[reference::value::whole(1)]));
    let guard = states::operation(0, &[], vec![]);
    let body = states::statement(2, process, vec![states::branch(guard, vec![out])]);
    let record = join(*b"AG", run.last + 1, &statement::write(&body));
    let (mut caller, mut returns) = (Caller::new(LIBRARY), Returns::new());
    for at in 0..STATE_BYTES {
        let old = bytes[at];
        for new in changes(at, old) {
            bytes[at] = new;
            let returned = caller.agree(&bytes, &record, &[4; 3_564]);
            let returned = returned.unwrap_or_else(|fault| panic!("byte {at}, {old} made {new}: {fault}"));
            *returns.entry(if returned > 5 { 0 } else { returned }).or_insert(0) += 1;
        }
        bytes[at] = old;
    }
    returns
}

/// One more, one less, each bit, all bits.
fn some(old: u8) -> Vec<u8> {
    let mut bytes = vec![old.wrapping_add(1), old.wrapping_sub(1), !old, 0, 255];
    bytes.extend((0..8).map(|bit| old ^ 1 << bit));
    bytes.sort();
    bytes.dedup();
    bytes.retain(|byte| *byte != old);
    bytes
}

/// Every other value of each byte that says something, and some of each zero byte.
#[test]
fn a_small_state_at_every_byte() {
    let run = states::small();
    let every = |old: u8| (0..=255).filter(|byte| *byte != old).collect();
    let returns = damage(&run, |at, old| match (old, in_use(&run, at)) {
        (0, false) => some(old)[..2].to_vec(),
        (0, true) => some(old),
        _ => every(old),
    });
    let unused = (0..STATE_BYTES).filter(|at| !in_use(&run, *at)).count();
    assert!(returns[&1] > 2 * unused && returns[&0] > 10_000, "{returns:?}");
}

/// One change of each byte of full tables, another in turn.
#[test]
fn a_full_state_at_every_byte() {
    let returns = damage(&states::full(), |at, old| vec![some(old)[at * 5 % some(old).len()]]);
    assert!(returns[&1] > 10_000 && returns[&0] > 1_000, "{returns:?}");
}

/// In the fresh state no byte from the count of spaces on may change.
#[test]
fn the_fresh_state_at_every_byte() {
    let mut bytes = Replica::fresh().state;
    let (record, reply) = (record("RV", 1, "03"), [4; 3_564]);
    let mut caller = Caller::new(LIBRARY);
    for at in MARK.chain(SPACE_COUNT_AT..STATE_BYTES) {
        let old = bytes[at];
        for new in some(old) {
            bytes[at] = new;
            let unchanged = Expected { returned: 1, state: &bytes, reply: &reply };
            assert_eq!(caller.take(&bytes, &record, &reply, &unchanged), Ok(()), "byte {at} made {new}");
        }
        bytes[at] = old;
    }
}

// ---- Bytes of numbers, with what the paper says of them ----

/// Whether the library, and the second implementation too, takes the bytes for a state; 3 is tried after that.
fn is_state(bytes: &[u8]) -> bool {
    let mut caller = Caller::new(LIBRARY);
    let returned = caller.agree(bytes, b"XX", &[4; 3_564]);
    assert!(caller.left().0 == bytes && [Ok(1), Ok(3)].contains(&returned), "returned {returned:?}");
    returned == Ok(3)
}

/// Every value of the byte at this place: a state exactly where `expected` says so.
fn each_value(state: &[u8], at: usize, expected: impl Fn(u8) -> bool) {
    let mut bytes = state.to_vec();
    for new in 0..=255 {
        bytes[at] = new;
        assert_eq!(is_state(&bytes), expected(new), "byte {at} made {new}");
    }
}

/// The fresh state, but spaces 0, 1 and 256 are open; with this next number and these tuples.
fn three_spaces(next: u32, tuples: &[&str]) -> Vec<u8> {
    let mut bytes = Replica::fresh().state;
    layout::set_next(&mut bytes, next);
    bytes[SPACE_COUNT_AT] = 3;
    for (at, entry) in ["0000 00 0000", "0001 00 0000", "0100 00 0000"].iter().enumerate() {
        bytes[layout::space(at)].copy_from_slice(&unhex(entry));
    }
    bytes[TUPLE_COUNT].copy_from_slice(&(tuples.len() as u16).to_be_bytes());
    for (at, entry) in tuples.iter().enumerate() {
        let entry = unhex(entry);
        bytes[layout::tuple(at)][..entry.len()].copy_from_slice(&entry);
    }
    assert!(is_state(&bytes));
    bytes
}

/// 1 to 65,536, by each of the four bytes.
#[test]
fn each_byte_of_the_next_number() {
    for next in [1_u32, 256, 65_535, 65_536] {
        let mut bytes = Replica::fresh().state;
        layout::set_next(&mut bytes, next);
        for (place, at) in NEXT.enumerate() {
            let with = |new: u8| {
                let mut number = next.to_be_bytes();
                number[place] = new;
                u32::from_be_bytes(number)
            };
            each_value(&bytes, at, |new| (1..=65_536).contains(&with(new)));
        }
    }
}

/// The next number is above all spaces that are open.
#[test]
fn each_byte_of_the_next_number_above_a_space() {
    let [first, second, third, fourth] = [0, 1, 2, 3].map(|place| NEXT.start + place);
    let bytes = three_spaces(0x0302, &[]);
    each_value(&bytes, first, |new| new == 0);
    each_value(&bytes, second, |new| new == 0);
    each_value(&bytes, third, |new| new >= 1);
    each_value(&bytes, fourth, |_| true);
    let bytes = three_spaces(0x0101, &[]);
    each_value(&bytes, third, |new| new >= 1);
    each_value(&bytes, fourth, |new| new >= 1);
}

/// Numbers of spaces rise, from 0 to below the next number.
#[test]
fn each_byte_of_a_space_number() {
    let bytes = three_spaces(0x0300, &[]);
    let [zero, one, last] = [0, 1, 2].map(|at| layout::space(at).start);
    each_value(&bytes, zero, |new| new == 0);
    each_value(&bytes, zero + 1, |new| new == 0);
    each_value(&bytes, one, |new| new == 0);
    each_value(&bytes, one + 1, |new| new >= 1);
    each_value(&bytes, last, |new| new == 1 || new == 2);
    each_value(&bytes, last + 1, |_| true);
    let all = three_spaces(65_536, &[]);
    each_value(&all, last, |new| new >= 1);
    let mut exchanged = bytes;
    exchanged[layout::space(1)].copy_from_slice(&unhex("0100 00 0000"));
    exchanged[layout::space(2)].copy_from_slice(&unhex("0001 00 0000"));
    assert!(!is_state(&exchanged));
}

/// A tuple lies in an open space. 257 is not open, though both of its bytes are bytes of open ones.
#[test]
fn each_byte_of_a_tuples_space() {
    let bytes = three_spaces(65_536, &["0000 01 00 00000000", "0100 01 00 00000000", "0001 01 00 00000000"]);
    let [in_0, in_256, in_1] = [0, 1, 2].map(|at| layout::tuple(at).start);
    each_value(&bytes, in_0, |new| new <= 1);
    each_value(&bytes, in_0 + 1, |new| new <= 1);
    each_value(&bytes, in_256, |new| new <= 1);
    each_value(&bytes, in_256 + 1, |new| new == 0);
    each_value(&bytes, in_1, |new| new == 0);
    each_value(&bytes, in_1 + 1, |new| new <= 1);
}

/// A space with tuples is not to be lost, by either byte of its number.
#[test]
fn each_byte_of_the_number_of_a_space_with_tuples() {
    let bytes = three_spaces(65_536, &["0100 01 00 00000000"]);
    let last = layout::space(2).start;
    each_value(&bytes, last, |new| new == 1);
    each_value(&bytes, last + 1, |new| new == 0);
}

/// The counts, and the bytes after them up to the first space.
#[test]
fn each_byte_of_the_counts_and_the_rest_of_the_header() {
    let bytes = three_spaces(65_536, &["0000 01 00 00000000", "0100 01 00 00000000"]);
    for at in SPACE_COUNT_AT..SPACES_AT {
        let old = bytes[at];
        each_value(&bytes, at, |new| new == old);
    }
}

/// Host 2 is up, so many monitor numbers are given and so many tuples (whole 0) are there; these masks.
fn owing(monitors: u8, tuples: u16, masks: [u16; 8]) -> Vec<u8> {
    let mut bytes = Replica::up().state;
    bytes[MONITORS_AT] = monitors;
    bytes[TUPLE_COUNT].copy_from_slice(&tuples.to_be_bytes());
    for at in 0..tuples.into() {
        bytes[layout::tuple(at)][..8].copy_from_slice(&unhex("0000 01 00 00000000"));
    }
    layout::set_owed(&mut bytes, masks);
    bytes
}

/// Nothing is owed to a number that was not given, and nothing beside fewer than 512 tuples.
fn may_owe(monitors: u8, tuples: u16, masks: [u16; 8]) -> bool {
    let is_owed = |mask: &u16| *mask != 0;
    !masks[monitors.into()..].iter().any(is_owed) && (tuples == 512 || !masks.iter().any(is_owed))
}

/// Each bit of each mask changed, beside each count of monitors; where it may be so the record is taken, and what is
/// owed is laid down. Else the call is turned back and changes no byte.
#[test]
fn each_bit_of_the_masks() {
    let takes = record("AG", 2, "02 0005 01 02 0000 01 05 00 00");
    let (mut caller, mut returns) = (Caller::new(LIBRARY), Returns::new());
    for (monitors, tuples) in (0..=8).flat_map(|monitors| [0, 1, 511, 512].map(|tuples| (monitors, tuples))) {
        let mut all = [0xFFFF; 8];
        all[monitors.into()..].fill(0);
        let both = [[0; 8], all];
        let good = if monitors > 0 && tuples == 512 { &both[..] } else { &both[..1] };
        for good in good {
            for (place, bit) in (0..8).flat_map(|place| (0..16).map(move |bit| (place, bit))) {
                let mut masks = *good;
                masks[place] ^= 1 << bit;
                let bytes = owing(monitors, tuples, masks);
                let expected = if may_owe(monitors, tuples, masks) { 12 } else { 1 };
                let returned = caller.agree(&bytes, &takes, &[4; 3_564]);
                assert_eq!(returned, Ok(expected), "{monitors} monitors, {tuples} tuples, {masks:04X?}");
                assert_eq!(caller.left().0 == bytes, expected == 1);
                *returns.entry(expected).or_insert(0) += 1;
            }
        }
    }
    assert_eq!(returns, Returns::from([(1, 4_480), (12, 1_152)]));
}

/// Every value of each byte of the masks, where three of eight numbers are given.
#[test]
fn each_byte_of_the_masks() {
    for at in OWED {
        let is_given = at < OWED.start + 6;
        each_value(&owing(3, 512, [0; 8]), at, |new| new == 0 || is_given);
        each_value(&owing(3, 512, [0xFFFF, 1, 0x8000, 0, 0, 0, 0, 0]), at, |new| new == 0 || is_given);
        each_value(&owing(3, 511, [0; 8]), at, |new| new == 0);
        each_value(&owing(8, 512, [0x0180; 8]), at, |_| true);
    }
}

/// The count of monitors, the counts and the bytes after the masks, of a state that owes something to number 3.
#[test]
fn each_byte_of_the_header_beside_a_debt() {
    let bytes = owing(5, 512, [0, 0, 0x0100, 0, 0, 0, 0, 0]);
    each_value(&bytes, MONITORS_AT, |new| (3..=8).contains(&new));
    for at in (SPACE_COUNT_AT..OWED.start).chain(HEADER_USED..SPACES_AT) {
        let old = bytes[at];
        each_value(&bytes, at, |new| new == old);
    }
}

/// A waiting statement names open spaces, by both bytes, at both ends of a move.
#[test]
fn each_byte_of_a_space_that_a_waiting_statement_names() {
    let mut bytes = three_spaces(65_536, &[]);
    bytes[layout::LAST].copy_from_slice(&unhex("00000001"));
    bytes[layout::HOSTS].copy_from_slice(&unhex("0004"));
    bytes[layout::WAITING_COUNT_AT] = 1;
    let entry = unhex("00000001 0011 02 0005 01  01 0100 01 05 00  01  06 0000 0100 00");
    let start = layout::waiting(0).start;
    bytes[start..start + entry.len()].copy_from_slice(&entry);
    assert!(is_state(&bytes));
    let [guard, from, to] = [11, 18, 20].map(|at| start + at);
    for (at, high) in [(guard, 1), (from, 0), (to, 1)] {
        assert_eq!(bytes[at..at + 2], [high, 0]);
        each_value(&bytes, at, |new| new <= 1);
        each_value(&bytes, at + 1, |new| new == 0 || high == 0 && new == 1);
    }
}

/// Records that are done on the small state: one of each mark, and statements with all codes and forms.
fn records(run: &Run) -> Vec<Vec<u8>> {
    let all_body_codes = "02 0001 01  00  08  07 0000 0002 02 05 00 00 01 00000007  06 0002 0002 00
        05 0002 01 00 02 3F800000  01 0002 01 05 02  03 0000 02 01 00 00 05 01
        05 0000 02 02 00 03 00 00 7FFFFFFF  05 0000 01 04 00 00 00000001  07 0002 0000 00";
    let all_guards = "02 0001 04  01 0000 02 01 01 04 01 02 0F  01  05 0000 01 03 0F 02 40400000
        02 0000 01 00 00 FFFFFFFF  00  03 0000 03 05 00 05 01 05 02  00
        04 0000 01 01 02 00  01  05 0000 02 04 00 02 00000001 02 00";
    let variables = "02 0001 01  03 0000 02 01 00 00 01 01 01  03  05 0000 01 02 00
        05 0000 02 03 00 00 00000001 02 01  01 0000 01 02 00";
    let high_spaces = "02 0000 01  04 0102 05 05 00 05 01 05 02 05 00 05 01  03
        05 0102 01 00 01 00000007  06 0102 0002 00  07 0002 0102 01 05 01";
    // the first guard misses; metres from -4 to -3 with a whole number from -9 to -1, then any name with metres to 0.5
    let ranges = "02 0001 02  02 0000 02 06 02 40000000 40400000 0F 05 00  00
        01 0000 02 06 02 C0800000 C0400000 00 06 00 FFFFFFF7 FFFFFFFF 01  02
        03 0000 02 01 01 02 06 02 C0800000 3F000000 03  05 0000 03 02 00 03 01 00 00000001 04 03 02 3F800000";
    let bodies = [
        ("RV", "01"),
        ("CR", "02"),
        ("MO", "02 0001"),
        ("MS", "02 0001 01"),
        ("DS", "02 0000 0102"),
        ("AG", all_body_codes),
        ("AG", all_guards),
        ("AG", variables),
        ("AG", high_spaces),
        ("AG", ranges),
    ];
    bodies.iter().map(|(mark, body)| record(mark, run.last + 1, body)).collect()
}

#[test]
fn the_records_are_done() {
    let run = states::small();
    for good in records(&run) {
        let mut caller = Caller::new(LIBRARY);
        let returned = caller.agree(&states::bytes(&run), &good, &[4; 3_564]);
        assert!(returned.is_ok_and(|count| count >= 12) && caller.left().1[9] == 0, "{}", hex(&good));
    }
}

#[test]
fn records_cut_padded_and_damaged_at_every_byte() {
    let run = states::small();
    let (state, mut caller) = (states::bytes(&run), Caller::new(LIBRARY));
    for good in records(&run) {
        let mut agree = |bytes: &[u8]| match caller.agree(&state, bytes, &[4; 3_564]) {
            Ok(returned) => returned,
            Err(fault) => panic!("{}: {fault}", hex(bytes)),
        };
        for length in 0..good.len() {
            assert_eq!(agree(&good[..length]), 3);
            // cut, with a length that fits
            if length >= 8 {
                agree(&join([good[0], good[1]], run.last + 1, &good[8..length]));
            }
        }
        for more in 1..20 {
            let padded = [&good[..], &vec![more; more.into()]].concat();
            assert_eq!(agree(&padded), 3);
            agree(&join([good[0], good[1]], run.last + 1, &padded[8..]));
        }
        for at in 0..good.len() {
            let mut bytes = good.clone();
            for new in 0..=255 {
                bytes[at] = new;
                agree(&bytes);
            }
        }
    }
}
