//! Space numbers for a run: those open at its start, and others like them.

use super::rng::Rng;
use crate::run::{Run, NUMBERS_USED_UP};
use crate::statement::SpaceNumber;
use std::collections::BTreeSet;

pub fn high(number: SpaceNumber) -> u8 {
    number.to_be_bytes()[0]
}

pub fn low(number: SpaceNumber) -> u8 {
    number.to_be_bytes()[1]
}

pub type Byte = fn(SpaceNumber) -> u8;

/// The two bytes of a number by name.
pub const BYTES: [(&str, Byte); 2] = [("high", high), ("low", low)];

/// How the numbers of a start lie.
#[derive(Clone, Copy)]
enum Style {
    Following,
    FarApart,
    OneLowByte,
    OneHighByte,
    FewBytes,
}

/// Up to 31 numbers above 0, rising.
pub fn rising(rng: &mut Rng, count: usize) -> Vec<SpaceNumber> {
    use Style::*;
    let style = rng.pick(&[Following, FarApart, OneLowByte, OneHighByte, FewBytes]);
    let start = first(rng, count);
    let few = [0, 1, 2, 127, 128, 254, 255];
    let (shared, any) = (rng.pick(&few), rng.next() as u8);
    let shared = if rng.percent(50) { shared } else { any };
    let mut numbers = BTreeSet::new();
    while numbers.len() < count {
        let number = match style {
            Following => start + numbers.len() as SpaceNumber,
            FarApart => rng.next() as SpaceNumber,
            OneLowByte => SpaceNumber::from_be_bytes([rng.next() as u8, shared]),
            OneHighByte => SpaceNumber::from_be_bytes([shared, rng.next() as u8]),
            FewBytes => SpaceNumber::from_be_bytes([rng.pick(&few), rng.pick(&few)]),
        };
        if number > 0 {
            numbers.insert(number);
        }
    }
    numbers.into_iter().collect()
}

/// The first of so many numbers that follow each other: small ones, across 256, the last ones, or any.
fn first(rng: &mut Rng, count: usize) -> SpaceNumber {
    let last = NUMBERS_USED_UP as usize - count.max(1);
    let starts = [1 + rng.below(9), 256 - rng.below(32), last, 1 + rng.below(last)];
    rng.pick(&starts) as SpaceNumber
}

/// A next number above all: the least, a later one, or one near an end.
pub fn next(rng: &mut Rng, numbers: &[SpaceNumber]) -> u32 {
    let least = numbers.last().map_or(1, |last| u32::from(*last) + 1);
    let later = match rng.below(10) {
        0..=2 => NUMBERS_USED_UP - rng.below(4) as u32,
        3..=5 => 254 + rng.below(3) as u32,
        6 => least + rng.below(1000) as u32,
        _ => least,
    };
    later.clamp(least, NUMBERS_USED_UP)
}

/// A number with one byte of this one, or with its bytes the other way round.
fn beside(rng: &mut Rng, number: SpaceNumber) -> SpaceNumber {
    let ([high, low], other) = (number.to_be_bytes(), rng.next() as u8);
    SpaceNumber::from_be_bytes(match rng.below(4) {
        0 => [other, low],
        1 => [0, low],
        2 => [high, other],
        _ => [low, high],
    })
}

/// A number that is most likely not open: between two that are, beside one, or any.
pub fn closed(rng: &mut Rng, run: &Run) -> SpaceNumber {
    let at = rng.below(run.spaces.len());
    let number = run.spaces[at].number;
    let end = run.spaces.get(at + 1).map_or(NUMBERS_USED_UP, |space| space.number.into());
    let between = (end - u32::from(number) - 1) as usize;
    match rng.below(8) {
        0..=4 if between > 0 => number + 1 + rng.below(between) as SpaceNumber,
        0..=6 => beside(rng, number),
        _ => rng.next() as SpaceNumber,
    }
}

/// Whether two numbers differ in one byte alone.
pub fn are_alike(one: SpaceNumber, other: SpaceNumber) -> bool {
    one != other && (high(one) == high(other) || low(one) == low(other))
}
