//! Whether two templates can meet: whether one tuple exists that both match.

use crate::run::{matches, Tuple};
use crate::statement::{self, Field, Operation};
use crate::value::Value;

/// For the bytes of two operations of codes 1 to 4: 6 where either is malformed, then 19 where either
/// has a form 2, then 1 if there is a tuple that both match, else 0.
pub fn can_meet(first: &[u8], second: &[u8]) -> u64 {
    let (Some(first), Some(second)) = (template(first), template(second)) else {
        return 6;
    };
    if uses_a_variable(&first) || uses_a_variable(&second) {
        return 19;
    }
    u64::from(common_tuple(&first, &second).is_some())
}

fn template(bytes: &[u8]) -> Option<Operation> {
    statement::operation_parts(bytes).filter(statement::is_legal_template)
}

fn uses_a_variable(template: &Operation) -> bool {
    template.fields.iter().any(|field| matches!(field, Field::Use { .. }))
}

/// A legal tuple that both templates match: tried as a whole, with a value that suits both fields
/// in each place.
pub fn common_tuple(first: &Operation, second: &Operation) -> Option<Tuple> {
    let both = first.fields.iter().zip(&second.fields);
    let values: Option<Vec<Value>> = both.map(|(one, other)| common_value(one, other)).collect();
    let tuple = Tuple { space: first.spaces[0], values: values? };
    let is_common = matches(first, &tuple, &[]) && matches(second, &tuple, &[]);
    is_common.then_some(tuple)
}

/// A value that both fields match, each tried as a template of its own. Where there is one, it is
/// among the candidates: two ranges that share a value share the lowest one of either.
fn common_value(one: &Field, other: &Field) -> Option<Value> {
    let suits = |field: &Field, value: &Value| {
        let template = Operation { code: statement::RD, spaces: vec![0], fields: vec![field.clone()] };
        matches(&template, &Tuple { space: 0, values: vec![*value] }, &[])
    };
    let mut candidates = [candidate(one), candidate(other)].into_iter().flatten();
    candidates.find(|value| value.is_legal() && suits(one, value) && suits(other, value))
}

/// The given value, the lowest one of a range, or zero where every value of the kind is matched.
fn candidate(field: &Field) -> Option<Value> {
    match *field {
        Field::Given(value) => Some(value),
        Field::Range { kind, lowest, .. } => Some(Value { kind, bytes: lowest }),
        Field::Bind { kind, .. } | Field::Any { kind } => Some(Value { kind, bytes: [0; 4] }),
        Field::Use { .. } | Field::Plus { .. } | Field::Minus { .. } => None,
    }
}
