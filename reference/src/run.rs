//! The one-by-one run on plain lists: one step for each record taken.

use crate::matching::{first_failing, value_of, Failing};
use crate::statement::{self, Field, Operation, SpaceNumber, Statement};
use crate::statement::{COPY, IN, INP, MOVE, OUT, RD, RDP, TRUE};
use crate::value::{name, whole, Value};
use std::collections::BTreeSet;

pub const MOST_SPACES: usize = 32;
pub const MOST_TUPLES: usize = 512;
pub const MOST_WAITING: usize = 32;
pub const MOST_MONITORS: u8 = 8;
/// The next space number once 1 to 65,535 are used up.
pub const NUMBERS_USED_UP: u32 = 65_536;

#[derive(Clone, PartialEq, Eq, Debug)]
pub struct Space {
    pub number: SpaceNumber,
    pub private: bool,
    /// 0 where the space is shared.
    pub owner: u16,
}

#[derive(Clone, PartialEq, Eq, Debug)]
pub struct Tuple {
    pub space: SpaceNumber,
    pub values: Vec<Value>,
}

#[derive(Clone, PartialEq, Eq, Debug)]
pub struct Waiting {
    pub position: u32,
    pub statement: Statement,
}

#[derive(Clone, PartialEq, Eq, Debug)]
pub struct Run {
    pub last: u32,
    pub up: [bool; 16],
    pub monitors: u8,
    pub next: u32,
    pub spaces: Vec<Space>,
    pub tuples: Vec<Tuple>,
    pub waiting: Vec<Waiting>,
    /// The pairs of monitor number and host whose failure tuples found no room,
    /// in the order in which they are laid down.
    pub owed: BTreeSet<(u8, u8)>,
}

#[derive(Clone, PartialEq, Eq, Debug)]
pub struct Reply {
    pub position: u32,
    pub host: u8,
    pub process: u16,
    pub outcome: u8,
    pub branch: u8,
    pub values: Vec<(u8, Value)>,
}

#[derive(Clone, Copy, PartialEq, Eq, Debug)]
pub enum Mark {
    Rv,
    Cr,
    Mo,
    Ms,
    Ds,
    Ag,
}

pub const MARKS: [(Mark, &[u8; 2]); 6] = [
    (Mark::Rv, b"RV"),
    (Mark::Cr, b"CR"),
    (Mark::Mo, b"MO"),
    (Mark::Ms, b"MS"),
    (Mark::Ds, b"DS"),
    (Mark::Ag, b"AG"),
];

/// A well-formed body, read.
#[derive(Clone, PartialEq, Eq, Debug)]
pub enum Request {
    Recover { host: u8 },
    Crash { host: u8 },
    Monitor { host: u8, process: u16 },
    Make { host: u8, process: u16, private: bool },
    Destroy { host: u8, process: u16, space: SpaceNumber },
    Guarded(Statement),
}

/// Reads a body; None is check 6.
pub fn read_request(mark: Mark, body: &[u8]) -> Option<Request> {
    if mark == Mark::Ag {
        return statement::read(body).map(Request::Guarded);
    }
    let host = *body.first()?;
    if host > 15 {
        return None;
    }
    let process = |high: u8, low: u8| u16::from_be_bytes([high, low]);
    match (mark, &body[1..]) {
        (Mark::Rv, []) => Some(Request::Recover { host }),
        (Mark::Cr, []) => Some(Request::Crash { host }),
        (Mark::Mo, &[a, b]) => Some(Request::Monitor { host, process: process(a, b) }),
        (Mark::Ms, &[a, b]) => Some(Request::Make { host, process: process(a, b), private: false }),
        (Mark::Ms, &[a, b, kind @ (0 | 1)]) => {
            Some(Request::Make { host, process: process(a, b), private: kind == 1 })
        }
        (Mark::Ds, &[a, b, high, low]) => {
            let space = SpaceNumber::from_be_bytes([high, low]);
            Some(Request::Destroy { host, process: process(a, b), space })
        }
        _ => None,
    }
}

impl Request {
    pub fn host(&self) -> u8 {
        match self {
            Request::Recover { host }
            | Request::Crash { host }
            | Request::Monitor { host, .. }
            | Request::Make { host, .. }
            | Request::Destroy { host, .. } => *host,
            Request::Guarded(statement) => statement.host,
        }
    }

    /// RV and CR come from no process.
    pub fn process(&self) -> Option<u16> {
        match self {
            Request::Recover { .. } | Request::Crash { .. } => None,
            Request::Monitor { process, .. }
            | Request::Make { process, .. }
            | Request::Destroy { process, .. } => Some(*process),
            Request::Guarded(statement) => Some(statement.process),
        }
    }

    /// The spaces it names, each of which must be open to its process.
    fn spaces(&self) -> Vec<SpaceNumber> {
        match self {
            Request::Destroy { space, .. } => vec![*space],
            Request::Guarded(statement) => statement.spaces(),
            _ => Vec::new(),
        }
    }
}

/// How a statement ended once a branch was chosen.
pub enum Ending {
    Done { tuples: Vec<Tuple>, values: Vec<(u8, Value)> },
    Failed(u8),
}

// ---- Templates and operations ----

/// Rule 1: the same space, and no condition of the match fails.
/// A move or copy without fields asks for the space alone.
pub fn matches(operation: &Operation, tuple: &Tuple, bound: &[(u8, Value)]) -> bool {
    let every = matches!(operation.code, MOVE | COPY) && operation.fields.is_empty();
    tuple.space == operation.spaces[0]
        && (every || first_failing(&operation.fields, bound, &tuple.values) == Failing::Nothing)
}

/// Whether a guard is true or finds a tuple.
pub fn holds(guard: &Operation, tuples: &[Tuple]) -> bool {
    guard.code == TRUE || tuples.iter().any(|tuple| matches(guard, tuple, &[]))
}

/// in, inp, rd, rdp: the oldest match is bound, and removed by in and inp.
fn find(op: &Operation, tuples: &mut Vec<Tuple>, bound: &mut Vec<(u8, Value)>) -> Result<(), u8> {
    let oldest = tuples.iter().position(|tuple| matches(op, tuple, bound)).ok_or(16)?;
    for (field, value) in op.fields.iter().zip(&tuples[oldest].values) {
        if let Some((variable, _)) = field.binding() {
            bound.push((variable, *value));
        }
    }
    if matches!(op.code, IN | INP) {
        tuples.remove(oldest);
    }
    Ok(())
}

/// The value that a field of out deposits; 17 where there is none.
fn deposit(field: &Field, bound: &[(u8, Value)]) -> Result<Value, u8> {
    let (variable, minus, operand) = match field {
        Field::Given(value) => return Ok(*value),
        Field::Use { variable } => return value_of(*variable, bound).ok_or(17),
        Field::Plus { variable, value } => (variable, false, value),
        Field::Minus { variable, value } => (variable, true, value),
        Field::Bind { .. } | Field::Any { .. } | Field::Range { .. } => return Err(17),
    };
    let value = value_of(*variable, bound).ok_or(17)?;
    value.combine(minus, operand).ok_or(17)
}

/// out: 17 is tried before 12.
fn out(op: &Operation, tuples: &mut Vec<Tuple>, bound: &[(u8, Value)]) -> Result<(), u8> {
    let values: Result<Vec<Value>, u8> = op.fields.iter().map(|field| deposit(field, bound)).collect();
    let tuple = Tuple { space: op.spaces[0], values: values? };
    if tuples.len() >= MOST_TUPLES {
        return Err(12);
    }
    tuples.push(tuple);
    Ok(())
}

/// move and copy: the matches, in their old order, are appended to the target.
fn transfer(op: &Operation, tuples: &mut Vec<Tuple>, bound: &[(u8, Value)]) -> Result<(), u8> {
    let mut taken: Vec<Tuple> = tuples.iter().filter(|t| matches(op, t, bound)).cloned().collect();
    if op.code == MOVE {
        tuples.retain(|tuple| !matches(op, tuple, bound));
    }
    if tuples.len() + taken.len() > MOST_TUPLES {
        return Err(12);
    }
    for tuple in &mut taken {
        tuple.space = op.spaces[1];
    }
    tuples.append(&mut taken);
    Ok(())
}

/// One operation past its checks; 16, 17 or 12 where it fails.
pub fn operate(op: &Operation, tuples: &mut Vec<Tuple>, bound: &mut Vec<(u8, Value)>) -> Result<(), u8> {
    match op.code {
        IN | INP | RD | RDP => find(op, tuples, bound),
        OUT => out(op, tuples, bound),
        MOVE | COPY => transfer(op, tuples, bound),
        _ => Ok(()),
    }
}

/// Rules 2 to 5: the first branch whose guard holds, counted from 1, and how it
/// ends. None where no guard holds.
pub fn execute(statement: &Statement, tuples: &[Tuple]) -> Option<(u8, Ending)> {
    let chosen = statement.branches.iter().position(|branch| holds(&branch.guard, tuples))?;
    let mut tuples = tuples.to_vec();
    let mut values = Vec::new();
    for operation in statement.branches[chosen].operations() {
        if let Err(refusal) = operate(operation, &mut tuples, &mut values) {
            return Some((chosen as u8 + 1, Ending::Failed(refusal)));
        }
    }
    values.sort_by_key(|(variable, _)| *variable);
    Some((chosen as u8 + 1, Ending::Done { tuples, values }))
}

/// The tuple that tells a monitor of a crash.
pub fn failure(monitor: u8, host: u8) -> Tuple {
    Tuple { space: 0, values: vec![name(1), whole(i32::from(monitor)), whole(i32::from(host))] }
}

// ---- The run ----

impl Default for Run {
    fn default() -> Run {
        Run::fresh()
    }
}

impl Run {
    pub fn fresh() -> Run {
        Run {
            last: 0,
            up: [false; 16],
            monitors: 0,
            next: 1,
            spaces: vec![Space { number: 0, private: false, owner: 0 }],
            tuples: Vec::new(),
            waiting: Vec::new(),
            owed: BTreeSet::new(),
        }
    }

    pub fn hosts_up(&self) -> usize {
        self.up.iter().filter(|up| **up).count()
    }

    pub fn space(&self, number: SpaceNumber) -> Option<&Space> {
        self.spaces.iter().find(|space| space.number == number)
    }

    /// Open, and shared or the process's own.
    pub fn is_open_to(&self, number: SpaceNumber, process: u16) -> bool {
        self.space(number).is_some_and(|space| !space.private || space.owner == process)
    }

    pub fn process_waits(&self, process: u16) -> bool {
        self.waiting.iter().any(|entry| entry.statement.process == process)
    }

    /// Checks 7 to 15 save 12 and 13, in order; None where all pass. A statement
    /// tries these two as it runs.
    fn check(&self, request: &Request) -> Option<u8> {
        let up = self.up[usize::from(request.host())];
        let recover = matches!(request, Request::Recover { .. });
        let process = request.process();
        let spaces = request.spaces();
        let open_to = |space: &SpaceNumber| process.is_some_and(|process| self.is_open_to(*space, process));
        if !recover && !up {
            Some(7)
        } else if recover && up {
            Some(8)
        } else if process.is_some_and(|process| self.process_waits(process)) {
            Some(9)
        } else if !spaces.iter().all(|space| self.space(*space).is_some()) {
            Some(10)
        } else if !spaces.iter().all(open_to) {
            Some(11)
        } else {
            self.check_limits(request)
        }
    }

    /// 14 for MO and MS, 15 for DS.
    fn check_limits(&self, request: &Request) -> Option<u8> {
        let used_up = self.spaces.len() >= MOST_SPACES || self.next >= NUMBERS_USED_UP;
        let named = |space: SpaceNumber| self.waiting.iter().any(|w| w.statement.spaces().contains(&space));
        match request {
            Request::Monitor { .. } if self.monitors >= MOST_MONITORS => Some(14),
            Request::Make { .. } if used_up => Some(14),
            Request::Destroy { space, .. } if *space == 0 || named(*space) => Some(15),
            _ => None,
        }
    }

    /// Takes one record: the own reply first, then a reply for each statement woken, again
    /// from the oldest until no guard holds. Debts are laid down before each search.
    pub fn step(&mut self, position: u32, mark: Mark, body: &[u8]) -> Vec<Reply> {
        self.last = position;
        let mut replies = Vec::new();
        replies.extend(self.own_reply(position, mark, body));
        self.lay();
        while let Some(reply) = self.wake_oldest() {
            replies.push(reply);
            self.lay();
        }
        replies
    }

    /// The record's own effect and reply; None where the statement waits.
    pub fn own_reply(&mut self, position: u32, mark: Mark, body: &[u8]) -> Option<Reply> {
        let mut reply =
            Reply { position, host: 255, process: 65_535, outcome: 6, branch: 0, values: Vec::new() };
        let Some(request) = read_request(mark, body) else {
            return Some(reply);
        };
        reply.host = request.host();
        reply.process = request.process().unwrap_or(0);
        if let Some(refusal) = self.check(&request) {
            reply.outcome = refusal;
            return Some(reply);
        }
        if let Request::Guarded(statement) = request {
            return self.start(statement, reply);
        }
        reply.outcome = 0;
        if let Some(number) = self.perform(&request) {
            reply.values = vec![(0, whole(number))];
        }
        Some(reply)
    }

    /// RV, CR, MO, MS and DS past their checks: the number that they give, if any.
    fn perform(&mut self, request: &Request) -> Option<i32> {
        match *request {
            Request::Recover { host } => self.up[usize::from(host)] = true,
            Request::Crash { host } => self.crash(host),
            Request::Monitor { .. } => {
                self.monitors += 1;
                return Some(i32::from(self.monitors));
            }
            Request::Make { process, private, .. } => return Some(self.make(process, private)),
            Request::Destroy { space, .. } => {
                self.spaces.retain(|other| other.number != space);
                self.tuples.retain(|tuple| tuple.space != space);
                return None;
            }
            Request::Guarded(_) => return None,
        }
        Some(self.hosts_up() as i32)
    }

    /// Rule 6: what finds no room is owed.
    fn crash(&mut self, host: u8) {
        self.up[usize::from(host)] = false;
        self.waiting.retain(|entry| entry.statement.host != host);
        for monitor in 1..=self.monitors {
            if self.tuples.len() < MOST_TUPLES {
                self.tuples.push(failure(monitor, host));
            } else {
                self.owed.insert((monitor, host));
            }
        }
    }

    /// Lays down as many owed tuples as fit: the lowest monitor first, then the lowest host.
    pub fn lay(&mut self) {
        while self.tuples.len() < MOST_TUPLES {
            let Some((monitor, host)) = self.owed.pop_first() else {
                return;
            };
            self.tuples.push(failure(monitor, host));
        }
    }

    /// The next number is at most 65,535 here, by check 14.
    fn make(&mut self, process: u16, private: bool) -> i32 {
        let number = self.next as SpaceNumber;
        let owner = if private { process } else { 0 };
        self.spaces.push(Space { number, private, owner });
        self.next += 1;
        i32::from(number)
    }

    /// A statement past check 11 runs, waits, or is answered 13 or 18.
    fn start(&mut self, statement: Statement, mut reply: Reply) -> Option<Reply> {
        if let Some((branch, ending)) = execute(&statement, &self.tuples) {
            self.settle(&mut reply, branch, ending);
        } else if !statement.may_wait() {
            reply.outcome = 18;
        } else if self.waiting.len() >= MOST_WAITING {
            reply.outcome = 13;
        } else {
            self.waiting.push(Waiting { position: reply.position, statement });
            return None;
        }
        Some(reply)
    }

    /// Takes over what a statement left, or nothing where it failed.
    fn settle(&mut self, reply: &mut Reply, branch: u8, ending: Ending) {
        reply.branch = branch;
        match ending {
            Ending::Done { tuples, values } => {
                self.tuples = tuples;
                reply.outcome = 0;
                reply.values = values;
            }
            Ending::Failed(refusal) => reply.outcome = refusal,
        }
    }

    /// The oldest waiting statement with a guard that holds; None where there is none.
    pub fn oldest_ready(&self) -> Option<usize> {
        self.waiting.iter().position(|entry| self.has_guard_that_holds(&entry.statement))
    }

    /// Rule 7, once: that statement runs and leaves the queue.
    pub fn wake_oldest(&mut self) -> Option<Reply> {
        let Waiting { position, statement } = self.waiting.remove(self.oldest_ready()?);
        let (host, process) = (statement.host, statement.process);
        let mut reply = Reply { position, host, process, outcome: 0, branch: 0, values: Vec::new() };
        if let Some((branch, ending)) = execute(&statement, &self.tuples) {
            self.settle(&mut reply, branch, ending);
        }
        Some(reply)
    }

    pub fn has_guard_that_holds(&self, statement: &Statement) -> bool {
        statement.branches.iter().any(|branch| holds(&branch.guard, &self.tuples))
    }
}
