//! Statements: an AG body read from bytes to data, and written back.

use crate::value::{Value, METRES, NAME, WHOLE};

pub const TRUE: u8 = 0;
pub const IN: u8 = 1;
pub const INP: u8 = 2;
pub const RD: u8 = 3;
pub const RDP: u8 = 4;
pub const OUT: u8 = 5;
pub const MOVE: u8 = 6;
pub const COPY: u8 = 7;

/// Two bytes wherever it is written.
pub type SpaceNumber = u16;

pub const MOST_BYTES: usize = 250;
pub const MOST_BRANCHES: usize = 4;
pub const MOST_OPERATIONS: usize = 8;
pub const MOST_FIELDS: usize = 6;

#[derive(Clone, PartialEq, Eq, Debug)]
pub struct Statement {
    pub host: u8,
    pub process: u16,
    pub branches: Vec<Branch>,
}

#[derive(Clone, PartialEq, Eq, Debug)]
pub struct Branch {
    pub guard: Operation,
    pub body: Vec<Operation>,
}

/// `spaces` holds none for true, one for codes 1 to 5, from and to for 6 and 7.
#[derive(Clone, PartialEq, Eq, Debug)]
pub struct Operation {
    pub code: u8,
    pub spaces: Vec<SpaceNumber>,
    pub fields: Vec<Field>,
}

/// The seven forms, 0 to 6 in this order. A range matches from its lowest to its highest value.
#[derive(Clone, PartialEq, Eq, Debug)]
pub enum Field {
    Given(Value),
    Bind { kind: u8, variable: u8 },
    Use { variable: u8 },
    Plus { variable: u8, value: Value },
    Minus { variable: u8, value: Value },
    Any { kind: u8 },
    Range { kind: u8, lowest: [u8; 4], highest: [u8; 4], variable: u8 },
}

impl Field {
    /// The variable that the field binds, and its kind.
    pub fn binding(&self) -> Option<(u8, u8)> {
        match *self {
            Field::Bind { kind, variable } | Field::Range { kind, variable, .. } => Some((variable, kind)),
            _ => None,
        }
    }

    pub fn form(&self) -> u8 {
        match self {
            Field::Given(_) => 0,
            Field::Bind { .. } => 1,
            Field::Use { .. } => 2,
            Field::Plus { .. } => 3,
            Field::Minus { .. } => 4,
            Field::Any { .. } => 5,
            Field::Range { .. } => 6,
        }
    }
}

// ---- Reading ----

/// What is left to read.
struct Rest<'a>(&'a [u8]);

impl Rest<'_> {
    fn byte(&mut self) -> Option<u8> {
        let (first, rest) = self.0.split_first()?;
        self.0 = rest;
        Some(*first)
    }

    fn process(&mut self) -> Option<u16> {
        Some(u16::from_be_bytes([self.byte()?, self.byte()?]))
    }

    fn space(&mut self) -> Option<SpaceNumber> {
        Some(SpaceNumber::from_be_bytes([self.byte()?, self.byte()?]))
    }

    fn value(&mut self) -> Option<Value> {
        Some(Value { kind: self.byte()?, bytes: self.four()? })
    }

    fn four(&mut self) -> Option<[u8; 4]> {
        Some([self.byte()?, self.byte()?, self.byte()?, self.byte()?])
    }

    fn range(&mut self) -> Option<Field> {
        let (kind, lowest, highest) = (self.byte()?, self.four()?, self.four()?);
        Some(Field::Range { kind, lowest, highest, variable: self.byte()? })
    }

    fn field(&mut self) -> Option<Field> {
        match self.byte()? {
            0 => Some(Field::Given(self.value()?)),
            1 => Some(Field::Bind { kind: self.byte()?, variable: self.byte()? }),
            2 => Some(Field::Use { variable: self.byte()? }),
            3 => Some(Field::Plus { variable: self.byte()?, value: self.value()? }),
            4 => Some(Field::Minus { variable: self.byte()?, value: self.value()? }),
            5 => Some(Field::Any { kind: self.byte()? }),
            6 => self.range(),
            _ => None,
        }
    }

    fn operation(&mut self) -> Option<Operation> {
        let code = self.byte()?;
        let mut operation = Operation { code, spaces: Vec::new(), fields: Vec::new() };
        if code == TRUE {
            return Some(operation);
        }
        for _ in 0..space_count(code)? {
            operation.spaces.push(self.space()?);
        }
        for _ in 0..self.byte()? {
            operation.fields.push(self.field()?);
        }
        Some(operation)
    }

    fn branch(&mut self) -> Option<Branch> {
        let mut branch = Branch { guard: self.operation()?, body: Vec::new() };
        for _ in 0..self.byte()? {
            branch.body.push(self.operation()?);
        }
        Some(branch)
    }
}

/// How many spaces an operation of this code names.
fn space_count(code: u8) -> Option<usize> {
    match code {
        TRUE => Some(0),
        IN..=OUT => Some(1),
        MOVE | COPY => Some(2),
        _ => None,
    }
}

/// Reads a legal AG body; None where the body is malformed.
pub fn read(body: &[u8]) -> Option<Statement> {
    parts(body).filter(is_legal)
}

/// The parts of a body that ends where they do, legal or not.
pub fn parts(body: &[u8]) -> Option<Statement> {
    let mut rest = Rest(body);
    let (host, process) = (rest.byte()?, rest.process()?);
    let mut statement = Statement { host, process, branches: Vec::new() };
    for _ in 0..rest.byte()? {
        statement.branches.push(rest.branch()?);
    }
    rest.0.is_empty().then_some(statement)
}

/// The one operation that the bytes are, legal or not, with nothing behind it.
pub fn operation_parts(bytes: &[u8]) -> Option<Operation> {
    let mut rest = Rest(bytes);
    let operation = rest.operation()?;
    rest.0.is_empty().then_some(operation)
}

// ---- Writing ----

fn write_value(value: &Value, bytes: &mut Vec<u8>) {
    bytes.push(value.kind);
    bytes.extend(value.bytes);
}

fn write_field(field: &Field, bytes: &mut Vec<u8>) {
    bytes.push(field.form());
    match field {
        Field::Given(value) => write_value(value, bytes),
        Field::Bind { kind, variable } => bytes.extend([*kind, *variable]),
        Field::Use { variable } => bytes.push(*variable),
        Field::Plus { variable, value } | Field::Minus { variable, value } => {
            bytes.push(*variable);
            write_value(value, bytes);
        }
        Field::Any { kind } => bytes.push(*kind),
        Field::Range { kind, lowest, highest, variable } => {
            bytes.push(*kind);
            bytes.extend(lowest.iter().chain(highest));
            bytes.push(*variable);
        }
    }
}

fn write_operation(operation: &Operation, bytes: &mut Vec<u8>) {
    bytes.push(operation.code);
    if operation.code == TRUE {
        return;
    }
    bytes.extend(operation.spaces.iter().flat_map(|space| space.to_be_bytes()));
    bytes.push(operation.fields.len() as u8);
    for field in &operation.fields {
        write_field(field, bytes);
    }
}

/// The bytes of an operation as a body has them.
pub fn operation_bytes(operation: &Operation) -> Vec<u8> {
    let mut bytes = Vec::new();
    write_operation(operation, &mut bytes);
    bytes
}

/// The bytes of a statement, legal or not.
pub fn write(statement: &Statement) -> Vec<u8> {
    let mut bytes = vec![statement.host];
    bytes.extend(statement.process.to_be_bytes());
    bytes.push(statement.branches.len() as u8);
    for branch in &statement.branches {
        write_operation(&branch.guard, &mut bytes);
        bytes.push(branch.body.len() as u8);
        for operation in &branch.body {
            write_operation(operation, &mut bytes);
        }
    }
    bytes
}

// ---- What is legal ----

/// Every limit and rule of "The stream" on a statement.
pub fn is_legal(statement: &Statement) -> bool {
    is_legal_at_any_length(statement) && write(statement).len() <= MOST_BYTES
}

/// Every limit and rule but that of 250 bytes.
pub fn is_legal_at_any_length(statement: &Statement) -> bool {
    statement.host <= 15
        && (1..=MOST_BRANCHES).contains(&statement.branches.len())
        && statement.branches.iter().all(branch_is_legal)
}

fn branch_is_legal(branch: &Branch) -> bool {
    let codes = matches!(branch.guard.code, TRUE | IN | INP | RD | RDP)
        && branch.body.iter().all(|op| matches!(op.code, IN | RD | OUT | MOVE | COPY));
    codes && branch.body.len() <= MOST_OPERATIONS && variables_are_legal(branch)
}

/// Goes through the operations in order with the variables bound so far.
fn variables_are_legal(branch: &Branch) -> bool {
    let mut bound: Vec<(u8, u8)> = Vec::new();
    for operation in std::iter::once(&branch.guard).chain(&branch.body) {
        if !shape_is_legal(operation) || !operation.fields.iter().all(|f| field_is_legal(f, &bound)) {
            return false;
        }
        if !bind_once(operation, &mut bound) {
            return false;
        }
    }
    true
}

/// Adds what the operation binds; false where a variable is bound already.
fn bind_once(operation: &Operation, bound: &mut Vec<(u8, u8)>) -> bool {
    for (variable, kind) in operation.fields.iter().filter_map(Field::binding) {
        if bound.iter().any(|(other, _)| *other == variable) {
            return false;
        }
        bound.push((variable, kind));
    }
    true
}

/// A legal template by itself: of codes 1 to 4, where a form 2 may name every variable from 0 to 15
/// and none counts as bound before.
pub fn is_legal_template(operation: &Operation) -> bool {
    let every: Vec<(u8, u8)> = (0..=15).map(|variable| (variable, WHOLE)).collect();
    matches!(operation.code, IN | INP | RD | RDP)
        && shape_is_legal(operation)
        && operation.fields.iter().all(|field| field_is_legal(field, &every))
        && bind_once(operation, &mut Vec::new())
}

/// Counts of spaces and fields, and the forms that the code allows.
fn shape_is_legal(operation: &Operation) -> bool {
    let (fewest, forms): (usize, &[u8]) = match operation.code {
        TRUE => return operation.spaces.is_empty() && operation.fields.is_empty(),
        IN | INP | RD | RDP => (1, &[0, 1, 2, 5, 6]),
        OUT => (1, &[0, 2, 3, 4]),
        MOVE | COPY => (0, &[0, 2, 5]),
        _ => return false,
    };
    space_count(operation.code) == Some(operation.spaces.len())
        && (fewest..=MOST_FIELDS).contains(&operation.fields.len())
        && operation.fields.iter().all(|field| forms.contains(&field.form()))
}

/// `bound` lists (variable, kind) of the earlier operations alone.
fn field_is_legal(field: &Field, bound: &[(u8, u8)]) -> bool {
    match field {
        Field::Given(value) => value.is_legal(),
        Field::Bind { kind, variable } => *kind <= 2 && *variable <= 15,
        Field::Use { variable } => bound.iter().any(|(other, _)| other == variable),
        Field::Plus { variable, value } | Field::Minus { variable, value } => {
            value.is_legal() && value.kind != NAME && bound.contains(&(*variable, value.kind))
        }
        Field::Any { kind } => *kind <= 2,
        Field::Range { kind, lowest, highest, variable } => {
            let (lowest, highest) = (Value { kind: *kind, bytes: *lowest }, Value { kind: *kind, bytes: *highest });
            *variable <= 15 && range_is_legal(&lowest, &highest)
        }
    }
}

/// Whole or metres, both ends legal, and the lowest not above the highest.
fn range_is_legal(lowest: &Value, highest: &Value) -> bool {
    matches!(lowest.kind, WHOLE | METRES)
        && lowest.is_legal()
        && highest.is_legal()
        && lowest.is_at_most(highest)
}

// ---- Questions about a statement ----

impl Branch {
    pub fn operations(&self) -> impl Iterator<Item = &Operation> {
        std::iter::once(&self.guard).chain(&self.body)
    }
}

impl Statement {
    /// The spaces that any operation of any branch names.
    pub fn spaces(&self) -> Vec<SpaceNumber> {
        let mut named = Vec::new();
        for operation in self.branches.iter().flat_map(Branch::operations) {
            named.extend(&operation.spaces);
        }
        named
    }

    /// Whether some guard is in or rd.
    pub fn may_wait(&self) -> bool {
        self.branches.iter().any(|branch| matches!(branch.guard.code, IN | RD))
    }
}
