//! A seeded generator of matches: a template, the variables bound so far, a tuple of its space.
//! The tuple starts as one that matches; then a few things of it are changed.

use super::rng::Rng;
use super::{ranges, statements};
use crate::layout::encode;
use crate::matching::{first_failing, Failing};
use crate::run::{Run, Space, Tuple};
use crate::statement::{self, Branch, Field, Operation, SpaceNumber, Statement};
use crate::statement::{COPY, IN, INP, MOST_FIELDS, MOVE, RD, RDP, TRUE};
use crate::value::{whole, Value, METRES, NAME, WHOLE};

const VARIABLES: usize = 16;

pub struct Match {
    pub operation: Operation,
    /// In rising number.
    pub bound: Vec<(u8, Value)>,
    pub tuple: Tuple,
}

impl Match {
    pub fn answer(&self) -> Failing {
        first_failing(&self.operation.fields, &self.bound, &self.tuple.values)
    }

    /// A space of neither the template nor 0, for the tuples that the variables are bound by.
    fn spare(&self) -> SpaceNumber {
        (1..).find(|number| !self.operation.spaces.contains(number)).unwrap()
    }

    /// A statement that binds the variables by in of the spare space, then has the operation. With
    /// nothing bound codes 1 to 4 are the guard.
    pub fn statement(&self) -> Statement {
        let operation = self.operation.clone();
        let bind = |(variable, value): &(u8, Value)| Field::Bind { kind: value.kind, variable: *variable };
        let groups = self.bound.chunks(MOST_FIELDS).map(|group| group.iter().map(bind).collect());
        let binding = groups.map(|fields| Operation { code: IN, spaces: vec![self.spare()], fields });
        let mut body: Vec<Operation> = binding.collect();
        let mut guard = Operation { code: TRUE, spaces: vec![], fields: vec![] };
        if body.is_empty() && operation.code <= RDP {
            guard = operation;
        } else {
            body.push(operation);
        }
        Statement { host: 2, process: 5, branches: vec![Branch { guard, body }] }
    }

    /// The statement's record, the first after `state`.
    pub fn record(&self) -> Vec<u8> {
        let body = statement::write(&self.statement());
        let mut record = b"AG".to_vec();
        record.extend((body.len() as u16).to_be_bytes());
        record.extend(1u32.to_be_bytes());
        record.extend(body);
        record
    }

    /// A state with the tuple behind those that the variables are bound by.
    pub fn state(&self) -> Vec<u8> {
        let mut run = Run { next: 65_536, ..Run::fresh() };
        run.up[2] = true;
        let mut numbers = self.operation.spaces.clone();
        numbers.extend([0, self.spare()]);
        numbers.sort();
        numbers.dedup();
        run.spaces = numbers.iter().map(|number| Space { number: *number, private: false, owner: 0 }).collect();
        for group in self.bound.chunks(MOST_FIELDS) {
            run.tuples.push(Tuple { space: self.spare(), values: group.iter().map(|(_, value)| *value).collect() });
        }
        run.tuples.push(self.tuple.clone());
        encode(&run)
    }
}

/// What is changed in a tuple that matches.
#[derive(Clone, Copy)]
enum Change {
    Nothing,
    Count,
    CountAndKind,
    CountAndValue,
    Kind,
    Kinds,
    ValueThenKind,
    KindThenValue,
    Ends,
    Value,
    Values,
    Order,
    Beside,
    All,
}

const CHANGES: [(Change, usize); 14] = [
    (Change::Nothing, 12),
    (Change::Count, 15),
    (Change::CountAndKind, 5),
    (Change::CountAndValue, 5),
    (Change::Kind, 15),
    (Change::Kinds, 3),
    (Change::ValueThenKind, 6),
    (Change::KindThenValue, 6),
    (Change::Ends, 5),
    (Change::Value, 26),
    (Change::Values, 4),
    (Change::Order, 3),
    (Change::Beside, 8),
    (Change::All, 2),
];

pub struct Matches {
    rng: Rng,
}

impl Matches {
    pub fn new(seed: u64) -> Matches {
        let mut rng = Rng::new(seed.wrapping_mul(1_000_003));
        rng.next();
        Matches { rng }
    }

    pub fn make(&mut self) -> Match {
        let code = self.rng.pick(&[IN, INP, RD, RDP, MOVE, COPY]);
        let spaces = self.spaces(code);
        let mut values = self.values();
        let mut names = self.names(code);
        let fields = names.template(&mut self.rng, &values);
        self.change(&mut values, &fields);
        names.others(&mut self.rng, &values);
        let mut bound = names.bound;
        bound.sort_by_key(|(variable, _)| *variable);
        let tuple = Tuple { space: spaces[0], values };
        Match { operation: Operation { code, spaces, fields }, bound, tuple }
    }

    fn spaces(&mut self, code: u8) -> Vec<SpaceNumber> {
        let any = self.rng.next() as SpaceNumber;
        let from = self.rng.pick(&[0, 0, 1, 255, 256, SpaceNumber::MAX, any]);
        let to = self.rng.pick(&[from, 0, 1, from.swap_bytes(), !any]);
        if matches!(code, MOVE | COPY) { vec![from, to] } else { vec![from] }
    }

    /// Variables for a template of the code: inp and rdp are guards, in and rd now and then, and
    /// in a guard nothing is bound yet.
    fn names(&mut self, code: u8) -> Names {
        let guard = matches!(code, INP | RDP) || matches!(code, IN | RD) && self.rng.percent(20);
        let mut free: Vec<u8> = (0..VARIABLES as u8).collect();
        for end in (1..VARIABLES).rev() {
            free.swap(end, self.rng.below(end + 1));
        }
        Names { guard, binds: !matches!(code, MOVE | COPY), free, bound: Vec::new() }
    }

    // ---- Tuples ----

    /// 1 to 6 legal values: some twice, now and then with whole zeros at the end.
    fn values(&mut self) -> Vec<Value> {
        let count = 1 + self.rng.below(MOST_FIELDS);
        let zeros = if self.rng.percent(20) { self.rng.below(count) } else { 0 };
        let mut values = vec![any_value(&mut self.rng)];
        while values.len() < count - zeros {
            let again = self.rng.percent(20);
            values.push(if again { self.rng.pick(&values) } else { any_value(&mut self.rng) });
        }
        values.resize(count, whole(0));
        values
    }

    fn change(&mut self, values: &mut Vec<Value>, fields: &[Field]) {
        let weights = CHANGES.map(|(_, weight)| weight);
        let (change, _) = CHANGES[self.rng.weighted(&weights)];
        let (one, other) = (self.rng.below(values.len()), self.rng.below(values.len()));
        let (first, last) = (one.min(other), one.max(other));
        let given = self.given(fields).unwrap_or(one);
        match change {
            Change::Nothing => {}
            Change::Count => self.recount(values),
            Change::CountAndKind => {
                self.other_kind(values, one);
                self.recount(values);
            }
            Change::CountAndValue => {
                self.other_value(values, given);
                self.recount(values);
            }
            Change::Kind => self.other_kind(values, one),
            Change::Kinds => (0..=one).for_each(|at| self.other_kind(values, at)),
            Change::ValueThenKind => {
                self.other_value(values, first);
                self.other_kind(values, last);
            }
            Change::KindThenValue => {
                self.other_kind(values, first);
                self.other_value(values, last);
            }
            Change::Ends => {
                self.other_value(values, 0);
                self.other_kind(values, fields.len() - 1);
            }
            Change::Value => self.other_value(values, given),
            Change::Values => (0..=one).for_each(|at| self.other_value(values, at)),
            Change::Order => values.rotate_left(one),
            Change::Beside => self.beside(values, fields),
            Change::All => *values = self.values(),
        }
    }

    /// Each value of a range goes right below or above it, or to another place in it.
    fn beside(&mut self, values: &mut [Value], fields: &[Field]) {
        for (field, value) in fields.iter().zip(values) {
            if let Some(ends) = ranges::ends(field) {
                *value = ranges::value_for(&mut self.rng, ends, 60);
            }
        }
    }

    /// A field of form 0 or 2.
    fn given(&mut self, fields: &[Field]) -> Option<usize> {
        let is_given = |at: &usize| matches!(fields[*at], Field::Given(_) | Field::Use { .. });
        let given: Vec<usize> = (0..fields.len()).filter(is_given).collect();
        (!given.is_empty()).then(|| self.rng.pick(&given))
    }

    /// Another number of values, mostly by one; what is added may be whole zeros.
    fn recount(&mut self, values: &mut Vec<Value>) {
        let near = [values.len() - 1, values.len() + 1];
        let count = if self.rng.percent(45) { self.rng.pick(&near) } else { 1 + self.rng.below(MOST_FIELDS) };
        let zeros = self.rng.percent(40);
        values.truncate(count.max(1));
        while values.len() < count.min(MOST_FIELDS) {
            values.push(if zeros { whole(0) } else { any_value(&mut self.rng) });
        }
    }

    /// Another kind, mostly with the same four bytes where that is legal.
    fn other_kind(&mut self, values: &mut [Value], at: usize) {
        let old = values[at];
        let kind = (old.kind + 1 + self.rng.below(2) as u8) % 3;
        let kept = Value { kind, ..old };
        let keeps = kept.is_legal() && self.rng.percent(80);
        values[at] = if keeps { kept } else { value(&mut self.rng, kind) };
    }

    /// One bit changed, or now and then another value of the kind.
    fn other_value(&mut self, values: &mut [Value], at: usize) {
        let old = values[at];
        while values[at] == old {
            values[at] = if self.rng.percent(20) { value(&mut self.rng, old.kind) } else { self.flipped(old) };
        }
    }

    /// The value with one bit changed; itself where that is not legal.
    fn flipped(&mut self, old: Value) -> Value {
        let mut flipped = old;
        flipped.bytes[self.rng.below(4)] ^= 1 << self.rng.below(8);
        if flipped.is_legal() { flipped } else { old }
    }
}

/// A legal value of the kind; many have bytes that are legal in every kind.
pub fn value(rng: &mut Rng, kind: u8) -> Value {
    loop {
        let number = match rng.below(4) {
            0 => return statements::value(rng, kind),
            1 => rng.pick(&[0, 1, 7, 255, 256, 65_535]),
            2 => rng.next() as u32 % 65_536,
            _ => rng.next() as u32,
        };
        let value = Value { kind, bytes: number.to_be_bytes() };
        if value.is_legal() {
            return value;
        }
    }
}

pub fn any_value(rng: &mut Rng) -> Value {
    let kind = rng.pick(&[WHOLE, NAME, METRES]);
    value(rng, kind)
}

/// The variables of a template: those still free, and those bound before it.
struct Names {
    guard: bool,
    binds: bool,
    free: Vec<u8>,
    bound: Vec<(u8, Value)>,
}

impl Names {
    /// Fields that match the values.
    fn template(&mut self, rng: &mut Rng, values: &[Value]) -> Vec<Field> {
        let mixes = [(1, 1, 1), (1, 1, 1), (1, 1, 0), (1, 0, 0), (0, 1, 0), (0, 1, 6)];
        let (given, formal, range) = rng.pick(&mixes);
        let binds = formal * usize::from(self.binds);
        let uses = given * usize::from(!self.guard);
        let ranges = 3 * range * usize::from(self.binds);
        let weights = [3 * given, 2 * binds, 3 * uses, 2 * formal, ranges];
        let mut fields = Vec::new();
        for value in values {
            let form = rng.weighted(&weights);
            fields.push(self.field(rng, form, *value));
        }
        fields
    }

    fn field(&mut self, rng: &mut Rng, form: usize, value: Value) -> Field {
        match form {
            0 => Field::Given(value),
            1 => Field::Bind { kind: value.kind, variable: self.taken() },
            2 => Field::Use { variable: self.bound_to(rng, value) },
            4 if ranges::has_ranges(value.kind) => ranges::field(ranges::around(rng, &value), self.taken()),
            _ => Field::Any { kind: value.kind },
        }
    }

    /// A variable that has the value: one that has it already, or another.
    fn bound_to(&mut self, rng: &mut Rng, value: Value) -> u8 {
        let known = self.bound.iter().find(|(_, other)| *other == value).map(|(variable, _)| *variable);
        known.filter(|_| rng.percent(50)).unwrap_or_else(|| {
            let variable = self.taken();
            self.bound.push((variable, value));
            variable
        })
    }

    fn taken(&mut self) -> u8 {
        self.free.pop().expect("a template has six fields at most")
    }

    /// More bound variables: with a value of the tuple, the like in another kind, or any value.
    fn others(&mut self, rng: &mut Rng, values: &[Value]) {
        let count = rng.pick(&[0, 0, 1, 2, 3, VARIABLES]);
        for _ in 0..count.min(self.free.len()) * usize::from(!self.guard) {
            let like = rng.pick(values);
            let turned = Value { kind: (like.kind + 1) % 3, ..like };
            let value = match rng.below(3) {
                0 => like,
                1 if turned.is_legal() => turned,
                _ => any_value(rng),
            };
            let variable = self.taken();
            self.bound.push((variable, value));
        }
    }
}
