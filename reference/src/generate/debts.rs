//! Debts: states that owe failure tuples, and statements that make room, keep it or wait for such tuples.

use super::rng::Rng;
use super::statements::{operation, shorten, Bound, Maker};
use crate::run::{failure, holds, Run, Tuple, MOST_MONITORS, MOST_TUPLES};
use crate::statement::{Branch, Field, Operation, SpaceNumber, Statement, MOST_OPERATIONS};
use crate::statement::{COPY, IN, INP, MOVE, OUT, RD, RDP, TRUE};
use crate::value::{name, whole, WHOLE};

/// At most so many fewer tuples than the table holds.
const NEARLY: usize = 4;

pub fn is_nearly_full(run: &Run) -> bool {
    run.tuples.len() + NEARLY >= MOST_TUPLES
}

// ---- States ----

/// A count of monitor numbers: most often 8, seldom none.
pub fn monitors(rng: &mut Rng) -> usize {
    let most = usize::from(MOST_MONITORS);
    let any = 1 + rng.below(most);
    rng.pick(&[0, 1, 1, any, any, any, any, any, any, most, most, most])
}

/// A count of tuples: 508 to 512, mostly all.
pub fn count(rng: &mut Rng) -> usize {
    if rng.percent(65) {
        MOST_TUPLES
    } else {
        MOST_TUPLES - rng.below(NEARLY + 1)
    }
}

/// Puts a few failure tuples in the place of others.
pub fn replace_some(rng: &mut Rng, run: &mut Run) {
    for _ in 0..rng.pick(&[0, 0, 0, 1, 3]) {
        let at = rng.below(run.tuples.len());
        let number = 1 + rng.below(usize::from(run.monitors).max(1));
        run.tuples[at] = failure(number as u8, rng.below(16) as u8);
    }
}

/// Owes beside 512 tuples: nothing, one pair, those of a number or of a host, all, or some.
pub fn owe(rng: &mut Rng, run: &mut Run) {
    if run.tuples.len() < MOST_TUPLES || run.monitors == 0 {
        return;
    }
    let number = 1 + rng.below(usize::from(run.monitors)) as u8;
    let (host, style, often) = (rng.below(16) as u8, rng.below(10), rng.pick(&[2, 10, 50]));
    for monitor in 1..=run.monitors {
        for other in 0..16 {
            let is_owed = match style {
                0 => false,
                1 | 2 => (monitor, other) == (number, host),
                3 => monitor == number,
                4 => other == host,
                5 => true,
                _ => rng.percent(often),
            };
            if is_owed {
                run.owed.insert((monitor, other));
            }
        }
    }
}

/// The hosts that are owed, up or down.
pub fn owed_hosts(run: &Run, up: bool) -> Vec<u8> {
    let is_owed = |host: u8| run.owed.iter().any(|(_, other)| *other == host);
    (0..16).filter(|host| run.up[usize::from(*host)] == up && is_owed(*host)).collect()
}

/// Those of the spaces that hold tuples and that no waiting statement names.
pub fn filled(run: &Run, spaces: &[SpaceNumber]) -> Vec<SpaceNumber> {
    let named: Vec<SpaceNumber> = run.waiting.iter().flat_map(|entry| entry.statement.spaces()).collect();
    let holds_tuples = |space: SpaceNumber| run.tuples.iter().any(|tuple| tuple.space == space);
    spaces.iter().copied().filter(|space| holds_tuples(*space) && !named.contains(space)).collect()
}

// ---- Statements ----

impl Maker<'_> {
    /// Takes more than it puts, as many, or fewer; fails after taking; waits; moves.
    pub fn about_debts(&mut self) -> Statement {
        let takes = self.rng.pick(&[1, 1, 1, 2, 2, 3, 4]);
        let fewer = self.rng.below(takes);
        let branch = match self.rng.weighted(&[34, 14, 6, 6, 5, 26, 5, 4]) {
            0 => self.trade(takes, fewer),
            1 => self.trade(takes, takes),
            2 => self.trade(takes, takes + 1),
            3 => self.spoiled(takes, fewer),
            4 => self.trade(0, 1),
            5 => return self.watch(),
            6 => self.shift(),
            _ => self.trade(MOST_OPERATIONS, 0),
        };
        let mut statement = Statement { host: self.host, process: self.process, branches: vec![branch] };
        shorten(&mut statement);
        statement
    }

    /// Takes so many tuples, by the guard or in the body, then puts so many.
    fn trade(&mut self, takes: usize, puts: usize) -> Branch {
        let mut bound = Bound::new();
        let mut branch = Branch { guard: operation(TRUE, vec![], vec![]), body: Vec::new() };
        for taken in 0..takes {
            let Some(tuple) = self.found_or_told() else {
                break;
            };
            let fields = self.template(&tuple, &mut bound, true);
            if taken == 0 && self.rng.percent(70) {
                branch.guard = operation(self.rng.pick(&[IN, IN, INP]), vec![tuple.space], fields);
            } else {
                branch.body.push(operation(IN, vec![tuple.space], fields));
            }
        }
        for _ in 0..puts {
            branch.body.push(self.put(&bound));
        }
        branch.body.truncate(MOST_OPERATIONS);
        branch
    }

    /// A tuple present; now and then a failure tuple.
    fn found_or_told(&mut self) -> Option<Tuple> {
        let is_told = |tuple: &&Tuple| tuple.space == 0 && tuple.values[0] == name(1);
        let told: Vec<&Tuple> = self.run.tuples.iter().filter(is_told).collect();
        if told.is_empty() || self.rng.percent(70) {
            return self.found();
        }
        Some(self.rng.pick(&told).clone())
    }

    /// An out of what a waiting guard looks for, of a failure tuple, or of anything.
    fn put(&mut self, bound: &Bound) -> Operation {
        match self.rng.below(10) {
            0..=5 => self.meeting(bound),
            6 => {
                let (monitor, host) = self.pair();
                let given = failure(monitor, host).values.into_iter().map(Field::Given);
                operation(OUT, vec![0], given.collect())
            }
            _ => self.out(bound),
        }
    }

    /// Takes and puts, and then an operation fails: 16, or 17.
    fn spoiled(&mut self, takes: usize, puts: usize) -> Branch {
        let mut branch = self.trade(takes, puts);
        branch.body.truncate(MOST_OPERATIONS - 2);
        if self.rng.percent(50) {
            branch.body.push(operation(IN, vec![0], vec![Field::Given(name(899))]));
            return branch;
        }
        let Some(tuple) = self.found().filter(|tuple| tuple.values[0] != name(1)) else {
            return branch;
        };
        let Some(at) = tuple.values.iter().position(|value| value.kind == WHOLE) else {
            return branch;
        };
        let mut bound = Bound::new();
        let mut fields = self.template(&tuple, &mut bound, false);
        let bindings = branch.operations().flat_map(|op| op.fields.iter().filter_map(Field::binding));
        let used: Vec<u8> = bindings.map(|(variable, _)| variable).collect();
        let Some(variable) = (0..16).find(|variable| !used.contains(variable)) else {
            return branch;
        };
        fields[at] = Field::Bind { kind: WHOLE, variable };
        let far = Field::Minus { variable, value: whole(i32::MIN) };
        branch.body.push(operation(RD, vec![tuple.space], fields));
        branch.body.push(operation(OUT, vec![0], vec![far]));
        branch
    }

    /// Moves some tuples out of space 0, for a DS to take along.
    fn shift(&mut self) -> Branch {
        let mut open = self.open();
        open.retain(|space| *space > 0);
        let to: SpaceNumber = if open.is_empty() { 0 } else { self.rng.pick(&open) };
        let fields = match self.found().filter(|tuple| tuple.space == 0) {
            Some(tuple) => tuple.values.iter().map(|value| Field::Any { kind: value.kind }).collect(),
            None => vec![Field::Given(name(7))],
        };
        let body = vec![operation(MOVE, vec![0, to], fields)];
        Branch { guard: operation(TRUE, vec![], vec![]), body }
    }

    /// Copies and outs up to 508 to 512 tuples.
    pub fn filling(&mut self) -> Vec<Operation> {
        let bound = Bound::new();
        let most = MOST_TUPLES - self.rng.below(NEARLY + 1);
        let mut room = most.saturating_sub(self.run.tuples.len());
        let like = self.found();
        let (space, fields) = like.map_or((0, Vec::new()), |tuple| {
            (tuple.space, tuple.values.iter().map(|value| Field::Any { kind: value.kind }).collect())
        });
        let copy = operation(COPY, vec![space, space], fields);
        let mut count = self.run.tuples.iter().filter(|t| crate::run::matches(&copy, t, &[])).count();
        let mut body = Vec::new();
        while room > 0 && body.len() < MOST_OPERATIONS {
            if count > 0 && count <= room {
                body.push(copy.clone());
                room -= count;
                count *= 2;
            } else {
                body.push(self.out(&bound));
                room -= 1;
            }
        }
        body
    }

    // ---- Failure tuples ----

    /// A pair: mostly one that is owed, the first ones more often; else one that a crash may leave.
    fn pair(&mut self) -> (u8, u8) {
        let owed: Vec<(u8, u8)> = self.run.owed.iter().copied().collect();
        if !owed.is_empty() && self.rng.percent(65) {
            let most = if self.rng.percent(50) { owed.len().min(3) } else { owed.len() };
            return owed[self.rng.below(most)];
        }
        let numbers = usize::from(self.run.monitors).max(3);
        (1 + self.rng.below(numbers) as u8, self.rng.below(16) as u8)
    }

    /// A template for a failure tuple: of actuals alone, or with formals.
    pub fn notice(&mut self, code: u8, bound: &mut Bound) -> Operation {
        let (monitor, host) = self.pair();
        let tuple = failure(monitor, host);
        let mut fields: Vec<Field> = tuple.values.iter().copied().map(Field::Given).collect();
        let before = Bound::new();
        if self.rng.percent(70) {
            fields[1] = self.cover(&tuple.values[1], &before, bound, true);
            fields[2] = self.cover(&tuple.values[2], &before, bound, true);
        }
        if self.rng.percent(10) {
            fields[0] = self.cover(&tuple.values[0], &before, bound, true);
        }
        operation(code, vec![0], fields)
    }

    /// Waits for failure tuples that are not there yet.
    pub fn watch(&mut self) -> Statement {
        let mut branches = Vec::new();
        for at in 0..self.rng.pick(&[1, 1, 1, 2]) {
            let codes: &[u8] = if at == 0 { &[IN, RD] } else { &[IN, INP, RD, RDP] };
            let code = self.rng.pick(codes);
            let mut bound = Bound::new();
            let guard = self.expecting(code, &mut bound);
            branches.push(Branch { guard, body: self.once_told(&mut bound) });
        }
        let mut statement = Statement { host: self.host, process: self.process, branches };
        shorten(&mut statement);
        statement
    }

    /// A notice that most likely is not there yet.
    fn expecting(&mut self, code: u8, bound: &mut Bound) -> Operation {
        for _ in 0..8 {
            let mut new = Bound::new();
            let guard = self.notice(code, &mut new);
            if !holds(&guard, &self.run.tuples) {
                *bound = new;
                return guard;
            }
        }
        self.absent(code, bound)
    }

    /// What a statement does that was told of a crash: nothing, puts, takes and puts, takes, or anything.
    fn once_told(&mut self, bound: &mut Bound) -> Vec<Operation> {
        match self.rng.below(10) {
            0..=2 => Vec::new(),
            3..=5 => vec![self.put(bound)],
            6 => vec![self.put(bound), self.put(bound)],
            7 => {
                let taken = self.found().map(|tuple| {
                    operation(IN, vec![tuple.space], self.template(&tuple, bound, true))
                });
                taken.into_iter().chain([self.put(bound)]).collect()
            }
            8 => vec![self.notice(IN, bound)],
            _ => self.body(bound),
        }
    }
}
