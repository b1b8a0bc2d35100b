//! Statements made for a run, each with an ending in view.

use super::rng::Rng;
use super::{debts, long, numbers, ranges, Profile};
use crate::run::{Run, Tuple};
use crate::statement::{self, Branch, Field, Operation, SpaceNumber, Statement};
use crate::statement::{COPY, IN, INP, MOVE, OUT, RD, RDP, TRUE};
use crate::value::{metres, name, whole, Value, METRES, NAME, WHOLE};

/// The ending in view; others may come of it.
#[derive(Clone, Copy, PartialEq, Eq)]
pub enum Intent {
    Done,
    Feed,
    Wait,
    Eighteen,
    Sixteen,
    Sum,
    Grow,
    Foreign,
    Wide,
    Long,
    Debt,
}

/// Variables bound so far, with the value expected of each.
pub type Bound = Vec<(u8, Value)>;

pub struct Maker<'a> {
    pub(super) rng: &'a mut Rng,
    pub(super) run: &'a Run,
    profile: Profile,
    pub(super) host: u8,
    pub(super) process: u16,
}

pub fn operation(code: u8, spaces: Vec<SpaceNumber>, fields: Vec<Field>) -> Operation {
    Operation { code, spaces, fields }
}

/// A value of the kind: small ones, and the ends of the range.
pub fn value(rng: &mut Rng, kind: u8) -> Value {
    match kind {
        WHOLE => whole(rng.pick(&[0, 1, 2, 3, 41, -1, -2, i32::MAX, i32::MAX - 1, i32::MIN, i32::MIN + 1])),
        NAME => name(rng.pick(&[1, 2, 3, 7, 65_535])),
        _ => metres(rng.pick(&[
            0,
            1,
            0x0080_0000,
            0x3F00_0000,
            0x3F80_0000,
            0x3F80_0001,
            0x3380_0000,
            0x4040_0000,
            0xC060_0000,
            0x7F7F_FFFF,
            0x7F7F_FFFF,
            0x7F7F_FFFF,
            0xFF7F_FFFF,
            0xFF7F_FFFF,
            0x7300_0000,
            0x72FF_FFFF,
            0x8000_0001,
        ])),
    }
}

/// A value of the kind, with few of them so that templates meet.
fn plain_value(rng: &mut Rng, kind: u8) -> Value {
    match kind {
        WHOLE => whole(rng.pick(&[0, 1, 2, -1])),
        NAME => name(rng.pick(&[1, 7])),
        _ => metres(rng.pick(&[0, 0x3F00_0000, 0x4040_0000, 0xBF00_0000])),
    }
}

/// A statement that binds all 16 variables, six of them by ranges around 0, once six and four wholes
/// are there.
pub fn wide(host: u8, process: u16, trigger: bool) -> Statement {
    let bind = |from: u8, to: u8| (from..to).map(|variable| Field::Bind { kind: WHOLE, variable }).collect();
    let around = |variable: u8| ranges::field((whole(-i32::from(variable)), whole(i32::from(variable))), variable);
    let zeros = |count| vec![Field::Given(whole(0)); count];
    let mut body = vec![operation(RD, vec![0], bind(6, 12)), operation(RD, vec![0], bind(12, 16))];
    let mut guard = operation(RD, vec![0], (0..6).map(around).collect());
    if trigger {
        body.insert(0, guard);
        body.insert(0, operation(OUT, vec![0], zeros(4)));
        body.insert(0, operation(OUT, vec![0], zeros(6)));
        guard = operation(TRUE, vec![], vec![]);
    }
    Statement { host, process, branches: vec![Branch { guard, body }] }
}

/// A statement that waits with rd for (name 7, a whole) in space 0.
pub fn signal(host: u8, process: u16) -> Statement {
    let fields = vec![Field::Given(name(7)), Field::Bind { kind: WHOLE, variable: 3 }];
    let branch = Branch { guard: operation(RD, vec![0], fields), body: Vec::new() };
    Statement { host, process, branches: vec![branch] }
}

impl<'a> Maker<'a> {
    pub fn new(rng: &'a mut Rng, run: &'a Run, profile: Profile, host: u8, process: u16) -> Maker<'a> {
        Maker { rng, run, profile, host, process }
    }

    fn intent(&mut self) -> Intent {
        use Intent::*;
        if self.profile == Profile::Full && self.run.tuples.len() < 256 && self.rng.percent(50) {
            return Grow;
        }
        if self.profile == Profile::Debts && !debts::is_nearly_full(self.run) && self.rng.percent(60) {
            return Grow;
        }
        if self.run.waiting.len() == 32 && self.rng.percent(25) {
            return Wait;
        }
        if self.profile == Profile::Waiting && self.rng.percent(50) {
            match &self.run.waiting[..] {
                [first, second, ..] if first.statement.branches == second.statement.branches => {
                    let six = first.statement.branches[0].guard.fields.len() == 6;
                    return if six { Wide } else { Feed };
                }
                _ => {}
            }
        }
        let weights = match self.profile {
            //                done feed wait 18 16 sum grow foreign wide long debt
            Profile::Full => [40, 12, 8, 2, 4, 12, 20, 1, 0, 1, 4],
            Profile::Waiting => [20, 30, 30, 2, 3, 4, 1, 2, 8, 2, 0],
            Profile::Spaces => [44, 12, 14, 3, 3, 3, 2, 36, 0, 3, 0],
            Profile::Arithmetic => [15, 15, 12, 2, 2, 50, 0, 1, 0, 0, 0],
            Profile::Debts => [14, 6, 8, 1, 1, 3, 2, 1, 0, 1, 63],
            _ => [42, 18, 16, 4, 5, 6, 2, 4, 1, 3, 0],
        };
        let intents = [Done, Feed, Wait, Eighteen, Sixteen, Sum, Grow, Foreign, Wide, Long, Debt];
        intents[self.rng.weighted(&weights)]
    }

    pub fn statement(&mut self) -> Statement {
        let intent = self.intent();
        self.statement_for(intent)
    }

    pub fn statement_for(&mut self, intent: Intent) -> Statement {
        if intent == Intent::Wide {
            return wide(self.host, self.process, true);
        }
        if intent == Intent::Long {
            let open = self.open();
            return long::statement(self.rng, &open, self.host, self.process);
        }
        if intent == Intent::Debt {
            return self.about_debts();
        }
        let count = self.rng.pick(&[1, 1, 1, 1, 2, 2, 3, 4]);
        let chosen = self.rng.below(count);
        let branches = (0..count).map(|at| self.branch(intent, at, chosen)).collect();
        let mut statement = Statement { host: self.host, process: self.process, branches };
        if intent == Intent::Foreign {
            self.misname(&mut statement);
        }
        if !self.rng.percent(1) {
            shorten(&mut statement);
        }
        statement
    }

    /// Branches before the chosen one find nothing; later ones are any.
    fn branch(&mut self, intent: Intent, at: usize, chosen: usize) -> Branch {
        let mut bound = Bound::new();
        let waits = matches!(intent, Intent::Wait | Intent::Eighteen);
        let guard = if waits || at < chosen {
            let codes: &[u8] = match intent {
                Intent::Wait if at == chosen => &[IN, RD],
                Intent::Eighteen => &[INP, RDP],
                _ => &[IN, INP, RD, RDP],
            };
            let code = self.rng.pick(codes);
            self.absent(code, &mut bound)
        } else {
            self.present(&mut bound)
        };
        let body = match intent {
            Intent::Feed if at == chosen => self.feeding(&mut bound),
            Intent::Wait if self.rng.percent(50) => self.feeding(&mut bound),
            Intent::Sum if at == chosen && self.run.tuples.len() < 510 => self.sum(&mut bound),
            Intent::Sum if at == chosen => self.sum_when_full(&mut bound),
            Intent::Grow if at == chosen => self.growing(),
            Intent::Sixteen if at == chosen => vec![self.absent(IN, &mut bound)],
            _ => self.body(&mut bound),
        };
        Branch { guard, body }
    }

    // ---- Guards ----

    /// A guard that is true or finds a tuple.
    fn present(&mut self, bound: &mut Bound) -> Operation {
        let code = self.rng.pick(&[IN, INP, RD, RDP]);
        match self.found() {
            Some(tuple) if self.rng.percent(65) => {
                let fields = self.template(&tuple, bound, true);
                operation(code, vec![self.near(tuple.space)], fields)
            }
            _ => operation(TRUE, vec![], vec![]),
        }
    }

    /// An operation that most likely finds nothing yet.
    pub(super) fn absent(&mut self, code: u8, bound: &mut Bound) -> Operation {
        let space = self.space();
        let watches = matches!(self.profile, Profile::Monitors | Profile::Debts);
        if watches && self.rng.percent(60) {
            return self.notice(code, bound);
        }
        let mark = name(900 + self.rng.below(6) as u16);
        let mut fields = vec![Field::Given(mark)];
        for _ in 0..self.rng.below(3) {
            let kind = self.kind();
            let value = plain_value(self.rng, kind);
            let before = Bound::new();
            let field = self.cover(&value, &before, bound, true);
            fields.push(field);
        }
        operation(code, vec![space], fields)
    }

    /// A tuple present in a space open to the process.
    pub(super) fn found(&mut self) -> Option<Tuple> {
        let run = self.run;
        let open: Vec<&Tuple> =
            run.tuples.iter().filter(|tuple| run.is_open_to(tuple.space, self.process)).collect();
        if open.is_empty() {
            return None;
        }
        Some(self.rng.pick(&open).clone())
    }

    /// A template that the tuple matches, if the values expected are right.
    pub(super) fn template(&mut self, tuple: &Tuple, bound: &mut Bound, binds: bool) -> Vec<Field> {
        let before = bound.clone();
        tuple.values.iter().map(|value| self.cover(value, &before, bound, binds)).collect()
    }

    pub(super) fn cover(
        &mut self,
        value: &Value,
        before: &Bound,
        bound: &mut Bound,
        binds: bool,
    ) -> Field {
        let same = before.iter().find(|(_, other)| other == value);
        let variable = self.rng.below(16) as u8;
        let free = !bound.iter().any(|(other, _)| *other == variable);
        match (self.rng.below(10), same) {
            (0..=2, Some((variable, _))) => Field::Use { variable: *variable },
            (0..=5, _) if binds && free => {
                bound.push((variable, *value));
                self.formal(value, variable)
            }
            (6 | 7, _) => Field::Any { kind: value.kind },
            _ => Field::Given(*value),
        }
    }

    /// A field that binds the variable: of the kind, or by a range that the value mostly lies in.
    fn formal(&mut self, value: &Value, variable: u8) -> Field {
        if ranges::has_ranges(value.kind) && self.rng.percent(45) {
            return ranges::field(ranges::near(self.rng, value, 12), variable);
        }
        Field::Bind { kind: value.kind, variable }
    }

    fn kind(&mut self) -> u8 {
        self.rng.pick(&[WHOLE, WHOLE, NAME, METRES])
    }

    /// The spaces open to the process.
    pub(super) fn open(&self) -> Vec<SpaceNumber> {
        let numbers = self.run.spaces.iter().map(|space| space.number);
        numbers.filter(|number| self.run.is_open_to(*number, self.process)).collect()
    }

    /// A space open to the process.
    fn space(&mut self) -> SpaceNumber {
        let open = self.open();
        if self.rng.percent(50) {
            0
        } else {
            self.rng.pick(&open)
        }
    }

    /// The space; now and then another open one that differs in one byte alone.
    fn near(&mut self, space: SpaceNumber) -> SpaceNumber {
        let mut open = self.open();
        open.retain(|other| numbers::are_alike(*other, space));
        if open.is_empty() || !self.rng.percent(15) {
            space
        } else {
            self.rng.pick(&open)
        }
    }

    // ---- Bodies ----

    pub(super) fn body(&mut self, bound: &mut Bound) -> Vec<Operation> {
        let count = self.rng.pick(&[0, 1, 1, 2, 2, 3, 4, 8]);
        let mut body = Vec::new();
        for _ in 0..count {
            let found = self.found();
            let weights = match self.profile {
                Profile::Full => [12, 30, 15, 30, 3],
                Profile::Spaces => [36, 10, 14, 25, 15],
                _ => [50, 14, 16, 12, 3],
            };
            let operation = match (self.rng.weighted(&weights), found) {
                (1, Some(tuple)) => operation(IN, vec![tuple.space], self.template(&tuple, bound, true)),
                (2, Some(tuple)) => operation(RD, vec![tuple.space], self.template(&tuple, bound, true)),
                (3, found) => self.transfer(MOVE, found, bound),
                (4, found) => self.transfer(COPY, found, bound),
                _ => self.out(bound),
            };
            body.push(operation);
        }
        body
    }

    fn transfer(&mut self, code: u8, found: Option<Tuple>, bound: &mut Bound) -> Operation {
        let (mut from, to) = (self.space(), self.space());
        let mut fields = Vec::new();
        if let Some(tuple) = found.filter(|_| code == COPY || self.rng.percent(60)) {
            from = tuple.space;
            fields = self.template(&tuple, bound, false);
        }
        let to = if self.rng.percent(70) { to } else { self.near(from) };
        operation(code, vec![from, to], fields)
    }

    pub(super) fn out(&mut self, bound: &Bound) -> Operation {
        let space = self.space();
        let count = self.rng.pick(&[1, 2, 2, 2, 3, 6]);
        let fields = (0..count).map(|_| self.out_field(bound)).collect();
        operation(OUT, vec![space], fields)
    }

    fn out_field(&mut self, bound: &Bound) -> Field {
        let kind = self.kind();
        let given = Field::Given(plain_value(self.rng, kind));
        if bound.is_empty() || self.rng.percent(40) {
            return given;
        }
        let (variable, expected) = self.rng.pick(bound);
        if expected.kind == NAME || self.rng.percent(40) {
            return Field::Use { variable };
        }
        let ends = self.profile == Profile::Arithmetic || self.rng.percent(10);
        let kind = expected.kind;
        let operand = if ends { value(self.rng, kind) } else { plain_value(self.rng, kind) };
        if self.rng.percent(50) {
            Field::Plus { variable, value: operand }
        } else {
            Field::Minus { variable, value: operand }
        }
    }

    /// Deposits what some waiting guard looks for, among others.
    fn feeding(&mut self, bound: &mut Bound) -> Vec<Operation> {
        let mut body = if self.rng.percent(30) { self.body(bound) } else { Vec::new() };
        for _ in 0..self.rng.pick(&[1, 1, 2, 3]) {
            body.push(self.meeting(bound));
        }
        body.truncate(8);
        body
    }

    /// An out of what some waiting guard looks for; of anything where none waits.
    pub(super) fn meeting(&mut self, bound: &Bound) -> Operation {
        let run = self.run;
        let guards: Vec<&Operation> = run
            .waiting
            .iter()
            .flat_map(|entry| entry.statement.branches.iter().map(|branch| &branch.guard))
            .filter(|guard| run.is_open_to(guard.spaces[0], self.process))
            .collect();
        if guards.is_empty() {
            return self.out(bound);
        }
        let guard = self.rng.pick(&guards);
        let fields = guard.fields.iter().map(|field| self.fill(field)).collect();
        operation(OUT, guard.spaces.clone(), fields)
    }

    fn fill(&mut self, field: &Field) -> Field {
        match field {
            Field::Bind { kind, .. } | Field::Any { kind } => {
                let ends = self.profile == Profile::Arithmetic || self.rng.percent(15);
                Field::Given(if ends { value(self.rng, *kind) } else { plain_value(self.rng, *kind) })
            }
            Field::Range { .. } => match ranges::ends(field) {
                Some(ends) => Field::Given(ranges::value_for(self.rng, ends, 20)),
                None => field.clone(),
            },
            given => given.clone(),
        }
    }

    /// A value at a range end is deposited, bound, and added to or taken from.
    fn sum(&mut self, bound: &mut Bound) -> Vec<Operation> {
        let space = self.space();
        let variable = self.rng.below(16) as u8;
        if bound.iter().any(|(other, _)| *other == variable) {
            return self.body(bound);
        }
        let kind = self.rng.pick(&[WHOLE, METRES]);
        let mark = Field::Given(name(65_000));
        let first = Field::Given(value(self.rng, kind));
        let operand = value(self.rng, kind);
        let result = match self.rng.below(2) {
            0 => Field::Plus { variable, value: operand },
            _ => Field::Minus { variable, value: operand },
        };
        vec![
            operation(OUT, vec![space], vec![mark.clone(), first]),
            operation(IN, vec![space], vec![mark.clone(), Field::Bind { kind, variable }]),
            operation(OUT, vec![space], vec![result]),
        ]
    }

    /// A whole that is there is bound, and the sum deposited is mostly off the range.
    fn sum_when_full(&mut self, bound: &mut Bound) -> Vec<Operation> {
        let variable = self.rng.below(16) as u8;
        let free = !bound.iter().any(|(other, _)| *other == variable);
        let Some(tuple) = self.found().filter(|tuple| free && tuple.values[0].kind == WHOLE) else {
            return self.body(bound);
        };
        let mut fields: Vec<Field> = tuple.values.iter().map(|v| Field::Any { kind: v.kind }).collect();
        fields[0] = Field::Bind { kind: WHOLE, variable };
        let far = Field::Plus { variable, value: whole(i32::MAX) };
        let code = self.rng.pick(&[RD, RD, IN]);
        vec![operation(code, vec![tuple.space], fields), operation(OUT, vec![tuple.space], vec![far])]
    }

    /// Copies that double the tuples, or outs one after another.
    fn growing(&mut self) -> Vec<Operation> {
        let bound = Bound::new();
        let count = self.run.tuples.len();
        let copy = operation(COPY, vec![0, 0], vec![]);
        if count == 0 {
            let pair = [1, 2].map(|i| operation(OUT, vec![0], vec![Field::Given(whole(i)); i as usize]));
            return pair.into_iter().chain(vec![copy; 6]).collect();
        }
        if self.profile == Profile::Debts {
            return self.filling();
        }
        if count.is_power_of_two() && count < 512 && self.rng.percent(70) {
            return vec![copy; (512 / count).ilog2().min(8) as usize];
        }
        match self.rng.below(4) {
            0 => (0..8).map(|_| self.out(&bound)).collect(),
            1 => vec![self.out(&bound)],
            2 => vec![self.out(&bound), copy],
            _ => vec![copy; 1 + self.rng.below(4)],
        }
    }

    /// Names a space that is not open, or another's: in a guard, an out, or at an end of a move or copy.
    fn misname(&mut self, statement: &mut Statement) {
        let run = self.run;
        let private = |s: &&crate::run::Space| s.private && s.owner != self.process;
        let others: Vec<SpaceNumber> = run.spaces.iter().filter(private).map(|s| s.number).collect();
        let wrong = match self.rng.below(4) {
            0 if !others.is_empty() => self.rng.pick(&others),
            _ => numbers::closed(self.rng, run),
        };
        let (right, transfer) = (self.space(), self.rng.pick(&[MOVE, COPY]));
        let count = statement.branches.len();
        let branch = &mut statement.branches[self.rng.below(count)];
        let fields = vec![Field::Given(name(7))];
        branch.body.truncate(7);
        match self.rng.below(4) {
            0 if branch.guard.code != TRUE => branch.guard.spaces = vec![wrong],
            1 => branch.body.insert(0, operation(transfer, vec![wrong, right], fields)),
            2 => branch.body.insert(0, operation(transfer, vec![right, wrong], fields)),
            _ => branch.body.insert(0, operation(OUT, vec![wrong], fields)),
        }
    }
}

/// Takes operations and branches off the end until the body has at most 250 bytes.
pub fn shorten(statement: &mut Statement) {
    while statement::write(statement).len() > statement::MOST_BYTES {
        let last = statement.branches.len() - 1;
        if statement.branches[last].body.pop().is_none() {
            statement.branches.pop();
        }
    }
}
