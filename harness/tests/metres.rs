//! Sums and differences of metres: as the processor adds in its default mode, and the same bytes in each rounding, with
//! denormals flushed or taken as zero, with exceptions unmasked, and all at once.

use harness::caller::Caller;
use harness::library::{replica_take, Calls, LIBRARY, REFERENCE};
use harness::metres::{alike, both, hard, hard_pairs, is_legal, sums, Adder, Answer, Sum};
use harness::modes::{
    self, Mode, ALL_AT_ONCE, DEFAULT, DENORMALS_ARE_ZERO, DOWNWARD, FLAGS, FLAGS_RAISED, FLUSH_TO_ZERO,
    NO_SUBNORMALS, OTHERS, TOWARD_ZERO, UNMASKED, UPWARD,
};
use harness::rows::{taken, Row};
use harness::streams;
use reference::generate::coverage::Coverage;
use std::slice::{from_raw_parts, from_raw_parts_mut};

/// Pairs of random bits, and near ones, beside those of hard values.
const RANDOM: usize = 25_000;

fn plus(left: u32, right: u32) -> Sum {
    Sum { left, minus: false, right }
}

fn minus(left: u32, right: u32) -> Sum {
    Sum { left, minus: true, right }
}

// ---- The default mode, against the processor ----

#[test]
fn all_pairs_of_hard_values() {
    let mut adder = Adder::new(DEFAULT, replica_take);
    for sum in hard_pairs().into_iter().flat_map(both) {
        assert_eq!(adder.expect(sum, sum.expected()), Ok(()));
    }
}

#[test]
fn random_pairs() {
    let mut adder = Adder::new(DEFAULT, replica_take);
    for sum in sums(1, RANDOM).into_iter().skip(2 * hard_pairs().len()) {
        assert_eq!(adder.expect(sum, sum.expected()), Ok(()));
    }
}

// ---- Values written out ----

/// In each of these modes, by a replica that then adds 0 to 0.
fn expect(modes: &[Mode], sum: Sum, result: Answer) {
    for mode in modes {
        let mut adder = Adder::new(*mode, replica_take);
        assert_eq!(adder.expect(sum, result), Ok(()));
        assert_eq!(adder.expect(plus(0, 0), Some(0)), Ok(()));
        assert_eq!(adder.expect_word(), Ok(()));
    }
}

#[test]
fn a_subnormal_result_is_not_flushed() {
    expect(&[NO_SUBNORMALS], minus(0x0080_0001, 0x0080_0000), Some(0x0000_0001));
    expect(&[FLUSH_TO_ZERO], minus(0x0080_0000, 0x0080_0001), Some(0x8000_0001));
}

#[test]
fn a_subnormal_value_is_not_zero() {
    expect(&[DENORMALS_ARE_ZERO], plus(0x0000_0001, 0x0000_0000), Some(0x0000_0001));
    expect(&[DENORMALS_ARE_ZERO], plus(0x007F_FFFF, 0x0000_0001), Some(0x0080_0000));
}

/// 1 plus a quarter of its last place, and plus a half.
#[test]
fn rounding_is_to_nearest() {
    expect(&[UPWARD], plus(0x3F80_0000, 0x3300_0000), Some(0x3F80_0000));
    expect(&[UPWARD], plus(0x3F80_0000, 0x3380_0000), Some(0x3F80_0000));
    expect(&[DOWNWARD, TOWARD_ZERO], plus(0x3F80_0000, 0x3380_0001), Some(0x3F80_0001));
    expect(&[DOWNWARD, TOWARD_ZERO], plus(0x3F80_0001, 0x3380_0000), Some(0x3F80_0002));
}

/// The greatest value plus less than half of its last place, and plus the half, which rounds to infinity.
#[test]
fn near_the_top() {
    expect(&[UPWARD], plus(0x7F7F_FFFF, 0x72FF_FFFF), Some(0x7F7F_FFFF));
    expect(&[DOWNWARD, TOWARD_ZERO], plus(0x7F7F_FFFF, 0x7300_0000), None);
    expect(&[DOWNWARD, TOWARD_ZERO], plus(0x7F7F_FFFF, 0x7F7F_FFFF), None);
    expect(&[UPWARD, TOWARD_ZERO], minus(0xFF7F_FFFF, 0x7F7F_FFFF), None);
}

/// The next call finds a state: a negative zero would be turned back with 1.
#[test]
fn zero_is_never_negative() {
    expect(&[DOWNWARD], minus(0x40A0_0000, 0x40A0_0000), Some(0x0000_0000));
    expect(&[DOWNWARD], plus(0xC0A0_0000, 0x40A0_0000), Some(0x0000_0000));
    expect(&[DOWNWARD], minus(0x0000_0000, 0x0000_0000), Some(0x0000_0000));
}

// ---- Two replicas in different modes ----

/// All sums of hard values, and random ones that other modes do not have.
fn expect_alike(one: Mode, other: Mode) {
    let seed = u64::from(one.word << 16 | other.word);
    let mut adders = [one, other].map(|mode| Adder::new(mode, replica_take));
    assert_eq!(alike(&mut adders, &sums(seed, RANDOM)), Ok(()));
}

#[test]
fn default_and_flush_to_zero() {
    expect_alike(DEFAULT, FLUSH_TO_ZERO);
}

#[test]
fn default_and_denormals_are_zero() {
    expect_alike(DEFAULT, DENORMALS_ARE_ZERO);
}

#[test]
fn default_and_no_subnormals() {
    expect_alike(DEFAULT, NO_SUBNORMALS);
}

#[test]
fn default_and_rounding_downward() {
    expect_alike(DEFAULT, DOWNWARD);
}

#[test]
fn default_and_rounding_upward() {
    expect_alike(DEFAULT, UPWARD);
}

#[test]
fn default_and_rounding_toward_zero() {
    expect_alike(DEFAULT, TOWARD_ZERO);
}

#[test]
fn default_and_flags_that_are_raised() {
    expect_alike(DEFAULT, FLAGS_RAISED);
}

#[test]
fn default_and_exceptions_unmasked() {
    expect_alike(DEFAULT, UNMASKED);
}

#[test]
fn default_and_all_at_once() {
    expect_alike(DEFAULT, ALL_AT_ONCE);
}

#[test]
fn downward_and_upward() {
    expect_alike(DOWNWARD, UPWARD);
}

#[test]
fn flush_to_zero_and_toward_zero() {
    expect_alike(FLUSH_TO_ZERO, TOWARD_ZERO);
}

#[test]
fn no_subnormals_and_all_at_once() {
    expect_alike(NO_SUBNORMALS, ALL_AT_ONCE);
}

// ---- Whole statements and streams ----

/// A sum, and 12 sums, as the second implementation answers in the default mode.
#[test]
fn rows_of_the_benchmark() {
    let rows: Vec<Row> = taken().into_iter().filter(|row| row.name.ends_with("of metres")).collect();
    assert_eq!(rows.len(), 2);
    let all = || [DEFAULT].into_iter().chain(OTHERS);
    for (row, mode) in rows.iter().flat_map(|row| all().map(move |mode| (row, mode))) {
        let lent = || (row.states[0].clone(), vec![0; row.reply_length]);
        let ((mut state, mut reply), (mut after, mut replies)) = (lent(), lent());
        let expected = (REFERENCE.take)(&mut after, &row.record, &mut replies);
        let (returned, word) = modes::call(mode, replica_take, &mut state, &row.record, &mut reply);
        assert_eq!((returned, word), (expected, mode.word), "{}, {mode}", row.name);
        assert!(state == after && reply == replies, "{}, {mode}", row.name);
    }
}

fn take_upward(state: &mut [u8], record: &[u8], reply: &mut [u8]) -> u64 {
    modes::call(UPWARD, replica_take, state, record, reply).0
}

fn take_without_subnormals(state: &mut [u8], record: &[u8], reply: &mut [u8]) -> u64 {
    modes::call(NO_SUBNORMALS, replica_take, state, record, reply).0
}

/// Generated calls with all that they can do, as the second implementation answers in the default mode.
#[test]
fn generated_streams() {
    for take in [take_upward, take_without_subnormals] {
        let (mut caller, mut coverage) = (Caller::new(Calls { take, ..LIBRARY }), Coverage::default());
        for number in 0..56 {
            assert_eq!(streams::run(5, number, &mut caller, &mut coverage), Ok(()));
        }
    }
}

// ---- The tests themselves ----

#[test]
fn the_hard_values_have_the_ends_of_all_ranges() {
    let (values, signs) = (hard(), [0, 0x8000_0000]);
    let ends = [1, 0x007F_FFFF, 0x0080_0000, 0x00FF_FFFF, 0x3F80_0000, 0x7F00_0000, 0x7F7F_FFFF];
    for end in ends.iter().flat_map(|end| signs.map(|sign| end | sign)).chain([0]) {
        assert_eq!(values.iter().filter(|value| **value == end).count(), 1, "{end:08X}");
    }
    assert!(values.iter().all(|value| is_legal(*value)));
    assert!(![0x8000_0000, 0x7F80_0000, 0xFF80_0001].into_iter().any(is_legal));
}

#[test]
fn expected_results_come_of_the_default_mode() {
    assert_eq!(modes::current() & !FLAGS, DEFAULT.word);
    let of = |sum: Sum| Some(sum.processor(DEFAULT).0).filter(|bits| bits & 0x7F80_0000 != 0x7F80_0000);
    for sum in sums(2, RANDOM) {
        assert_eq!(of(sum), sum.expected(), "{sum}");
    }
}

/// The processor's own sums of hard values are others in each mode, or raise an exception that is unmasked.
#[test]
fn hard_values_tell_the_modes_apart() {
    for mode in OTHERS.into_iter().filter(|mode| *mode != FLAGS_RAISED) {
        let differs = |sum: &Sum| {
            let (bits, flags) = sum.processor(mode);
            bits != sum.processor(DEFAULT).0 || mode.traps() && flags != 0
        };
        let count = hard_pairs().into_iter().flat_map(both).filter(differs).count();
        assert!(count > 500, "{mode}: {count}");
    }
}

/// The second implementation, which has the processor add.
unsafe extern "C" fn adds_by_the_processor(
    state: *mut u8,
    state_length: usize,
    record: *const u8,
    record_length: usize,
    reply: *mut u8,
    reply_length: usize,
) -> u64 {
    let state = from_raw_parts_mut(state, state_length);
    let record = from_raw_parts(record, record_length);
    (REFERENCE.take)(state, record, from_raw_parts_mut(reply, reply_length))
}

#[test]
fn a_library_that_has_the_processor_add_is_noticed() {
    let sums = sums(3, 0);
    let verdict =
        |mode| alike(&mut [DEFAULT, mode].map(|mode| Adder::new(mode, adds_by_the_processor)), &sums);
    for mode in [FLUSH_TO_ZERO, DENORMALS_ARE_ZERO, NO_SUBNORMALS, DOWNWARD, UPWARD, TOWARD_ZERO] {
        assert!(verdict(mode).is_err_and(|fault| fault.contains(mode.name)), "{mode}");
    }
    assert!(verdict(UNMASKED).is_err_and(|fault| fault.contains("MXCSR was 1F80 and is 1F")));
}
