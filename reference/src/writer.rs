//! The writer: makes an AG body in a lent buffer, one addition at a time.

use crate::statement::{self, Branch, Field, Operation, SpaceNumber, Statement};
use crate::value::Value;

/// A field handed in. Parts that its form does not have are not looked at; `value` is the lowest of a
/// form 6, which alone has a `highest`.
#[derive(Clone, PartialEq, Eq, Debug, Default)]
pub struct Part {
    pub form: u8,
    pub kind: u8,
    pub variable: u8,
    pub value: [u8; 4],
    pub highest: [u8; 4],
}

/// An operation handed in; a wrong count of spaces is a breach.
#[derive(Clone, PartialEq, Eq, Debug, Default)]
pub struct Addition {
    pub code: u8,
    pub spaces: Vec<SpaceNumber>,
    pub fields: Vec<Part>,
}

/// The answer, 0, 6 or 2, and the count of filled bytes after it.
pub type Written = (u64, usize);

fn field(part: &Part) -> Option<Field> {
    let (kind, variable) = (part.kind, part.variable);
    let value = Value { kind, bytes: part.value };
    match part.form {
        0 => Some(Field::Given(value)),
        1 => Some(Field::Bind { kind, variable }),
        2 => Some(Field::Use { variable }),
        3 => Some(Field::Plus { variable, value }),
        4 => Some(Field::Minus { variable, value }),
        5 => Some(Field::Any { kind }),
        6 => Some(Field::Range { kind, lowest: part.value, highest: part.highest, variable }),
        _ => None,
    }
}

fn operation(addition: &Addition) -> Option<Operation> {
    let fields: Option<Vec<Field>> = addition.fields.iter().map(field).collect();
    Some(Operation { code: addition.code, spaces: addition.spaces.clone(), fields: fields? })
}

/// Writes the statement if it is legal and fits; `fill` is kept where it is refused.
fn put(buffer: &mut [u8], fill: usize, statement: Option<Statement>) -> Written {
    let Some(statement) = statement.filter(statement::is_legal) else {
        return (6, fill);
    };
    let bytes = statement::write(&statement);
    if buffer.len() < bytes.len() {
        return (2, fill);
    }
    buffer[..bytes.len()].copy_from_slice(&bytes);
    (0, bytes.len())
}

/// Host, process and the first guard.
pub fn begin(buffer: &mut [u8], host: u8, process: u16, guard: &Addition) -> Written {
    let statement = operation(guard).map(|guard| Statement {
        host,
        process,
        branches: vec![Branch { guard, body: Vec::new() }],
    });
    put(buffer, 0, statement)
}

/// One operation more in the last branch.
pub fn add_operation(buffer: &mut [u8], fill: usize, addition: &Addition) -> Written {
    let longer = filled(buffer, fill).and_then(|mut statement| {
        statement.branches.last_mut()?.body.push(operation(addition)?);
        Some(statement)
    });
    put(buffer, fill, longer)
}

/// One branch more, with this guard and no body operation yet.
pub fn add_branch(buffer: &mut [u8], fill: usize, guard: &Addition) -> Written {
    let longer = filled(buffer, fill).and_then(|mut statement| {
        let guard = operation(guard)?;
        statement.branches.push(Branch { guard, body: Vec::new() });
        Some(statement)
    });
    put(buffer, fill, longer)
}

/// The statement in the filled bytes, which must be a legal body.
fn filled(buffer: &[u8], fill: usize) -> Option<Statement> {
    statement::read(buffer.get(..fill)?)
}
