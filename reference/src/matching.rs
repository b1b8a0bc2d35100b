//! The match of source document 003, section 5.1: its conditions in the printed order.

use crate::statement::Field;
use crate::value::Value;

/// The first condition that fails, for a tuple of the template's space.
#[derive(Clone, Copy, PartialEq, Eq, Debug)]
pub enum Failing {
    Nothing,
    FieldCount,
    Kinds,
    Values,
}

impl Failing {
    pub fn number(self) -> u8 {
        match self {
            Failing::Nothing => 0,
            Failing::FieldCount => 1,
            Failing::Kinds => 2,
            Failing::Values => 3,
        }
    }
}

/// The value of a variable; None where it is not bound.
pub fn value_of(variable: u8, bound: &[(u8, Value)]) -> Option<Value> {
    bound.iter().find(|(other, _)| *other == variable).map(|(_, value)| *value)
}

/// The value of an actual: given, or its variable's. A formal has none.
pub fn actual(field: &Field, bound: &[(u8, Value)]) -> Option<Value> {
    match field {
        Field::Given(value) => Some(*value),
        Field::Use { variable } => value_of(*variable, bound),
        Field::Bind { .. } | Field::Any { .. } | Field::Range { .. } => None,
        Field::Plus { .. } | Field::Minus { .. } => None,
    }
}

/// The kind of a template's field. Forms 3 and 4 are of no template.
pub fn kind(field: &Field, bound: &[(u8, Value)]) -> Option<u8> {
    match field {
        Field::Bind { kind, .. } | Field::Any { kind } | Field::Range { kind, .. } => Some(*kind),
        Field::Given(_) | Field::Use { .. } => actual(field, bound).map(|value| value.kind),
        Field::Plus { .. } | Field::Minus { .. } => None,
    }
}

/// The third condition for a value of the field's kind: an actual has the same bytes, a range goes
/// from its lowest to its highest value, both included. Any other formal matches every value.
pub fn value_agrees(field: &Field, bound: &[(u8, Value)], value: &Value) -> bool {
    match field {
        Field::Range { kind, lowest, highest, .. } => {
            let end = |bytes: &[u8; 4]| Value { kind: *kind, bytes: *bytes };
            end(lowest).is_at_most(value) && value.is_at_most(&end(highest))
        }
        _ => actual(field, bound).is_none_or(|own| own.bytes == value.bytes),
    }
}

/// The number of fields, then the kinds of all fields, then the values of the actuals and ranges.
pub fn first_failing(fields: &[Field], bound: &[(u8, Value)], values: &[Value]) -> Failing {
    let pairs = || fields.iter().zip(values);
    if fields.len() != values.len() {
        Failing::FieldCount
    } else if pairs().any(|(field, value)| kind(field, bound) != Some(value.kind)) {
        Failing::Kinds
    } else if pairs().any(|(field, value)| !value_agrees(field, bound, value)) {
        Failing::Values
    } else {
        Failing::Nothing
    }
}
