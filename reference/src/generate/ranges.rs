//! Ranges around values, just beside them, and values at and beside the ends of a range.

use super::rng::Rng;
use super::statements;
use crate::statement::Field;
use crate::value::{metres, whole, Value, METRES, WHOLE};

pub const LEAST_METRES: u32 = 0xFF7F_FFFF;
pub const MOST_METRES: u32 = 0x7F7F_FFFF;

/// A field of form 6 with these ends.
pub fn field(ends: (Value, Value), variable: u8) -> Field {
    let (lowest, highest) = ends;
    Field::Range { kind: lowest.kind, lowest: lowest.bytes, highest: highest.bytes, variable }
}

/// The ends of a form 6.
pub fn ends(field: &Field) -> Option<(Value, Value)> {
    match *field {
        Field::Range { kind, lowest, highest, .. } => {
            Some((Value { kind, bytes: lowest }, Value { kind, bytes: highest }))
        }
        _ => None,
    }
}

/// Names have no ranges.
pub fn has_ranges(kind: u8) -> bool {
    matches!(kind, WHOLE | METRES)
}

// ---- The next values ----

/// The metres of an f32, where negative zero is zero; None where it is not finite.
fn metres_of(number: f32) -> Option<Value> {
    let value = metres(if number == 0.0 { 0 } else { number.to_bits() });
    value.is_legal().then_some(value)
}

/// The next whole number or metres above; None at the last one.
pub fn above(value: &Value) -> Option<Value> {
    match value.kind {
        WHOLE => i32::from_be_bytes(value.bytes).checked_add(1).map(whole),
        METRES => metres_of(f32::from_be_bytes(value.bytes).next_up()),
        _ => None,
    }
}

/// The next whole number or metres below; None at the first one.
pub fn below(value: &Value) -> Option<Value> {
    match value.kind {
        WHOLE => i32::from_be_bytes(value.bytes).checked_sub(1).map(whole),
        METRES => metres_of(f32::from_be_bytes(value.bytes).next_down()),
        _ => None,
    }
}

/// The first and the last value of a kind.
pub fn limits(kind: u8) -> (Value, Value) {
    match kind {
        WHOLE => (whole(i32::MIN), whole(i32::MAX)),
        _ => (metres(LEAST_METRES), metres(MOST_METRES)),
    }
}

// ---- Ranges for a value ----

/// A value at most this one: itself, the next, the first one, zero or some other.
pub fn at_most(rng: &mut Rng, value: &Value) -> Value {
    let tried = match rng.below(8) {
        0..=2 => *value,
        3 | 4 => below(value).unwrap_or(*value),
        5 => limits(value.kind).0,
        6 => Value { bytes: [0; 4], ..*value },
        _ => statements::value(rng, value.kind),
    };
    if tried.is_at_most(value) { tried } else { *value }
}

/// A value that this one is at most.
pub fn at_least(rng: &mut Rng, value: &Value) -> Value {
    let tried = match rng.below(8) {
        0..=2 => *value,
        3 | 4 => above(value).unwrap_or(*value),
        5 => limits(value.kind).1,
        6 => Value { bytes: [0; 4], ..*value },
        _ => statements::value(rng, value.kind),
    };
    if value.is_at_most(&tried) { tried } else { *value }
}

/// A range that the value lies in: at an end, inside, or alone.
pub fn around(rng: &mut Rng, value: &Value) -> (Value, Value) {
    (at_most(rng, value), at_least(rng, value))
}

/// A range that begins right above the value or ends right below it, where there is one.
pub fn beside(rng: &mut Rng, value: &Value) -> (Value, Value) {
    let (over, under) = (above(value), below(value));
    match (over, under) {
        (Some(over), under) if under.is_none() || rng.percent(50) => (over, at_least(rng, &over)),
        (_, Some(under)) => (at_most(rng, &under), under),
        _ => (*value, *value),
    }
}

/// Mostly a range around the value, now and then one that just misses it.
pub fn near(rng: &mut Rng, value: &Value, misses: usize) -> (Value, Value) {
    if rng.percent(misses) { beside(rng, value) } else { around(rng, value) }
}

// ---- Values for a range ----

/// A value in the range: an end, the next to an end, or between.
pub fn inside(rng: &mut Rng, (lowest, highest): (Value, Value)) -> Value {
    let tried = match rng.below(6) {
        0 | 1 => Some(lowest),
        2 | 3 => Some(highest),
        4 => above(&lowest),
        _ => Some(statements::value(rng, lowest.kind)),
    };
    let fits = |value: &Value| lowest.is_at_most(value) && value.is_at_most(&highest);
    tried.filter(fits).unwrap_or(lowest)
}

/// Mostly a value in the range, now and then the one right below or above it.
pub fn value_for(rng: &mut Rng, ends: (Value, Value), misses: usize) -> Value {
    let missed = match rng.below(2) {
        0 => below(&ends.0),
        _ => above(&ends.1),
    };
    missed.filter(|_| rng.percent(misses)).unwrap_or_else(|| inside(rng, ends))
}
