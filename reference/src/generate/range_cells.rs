//! The cells of a step that tell of ranges.

use super::ranges::{above, below, ends};
use crate::matching::{value_agrees, value_of};
use crate::run::{matches, operate, Mark, Reply, Run, Tuple};
use crate::statement::{self, Branch, Field, Operation, Statement, COPY, MOVE, OUT, RDP, TRUE};
use crate::value::{Value, METRES, WHOLE};

type Bound = Vec<(u8, Value)>;

/// A statement that ran or began to wait, with the tuples that it found.
struct Ran {
    statement: Statement,
    reply: Option<Reply>,
    tuples: Vec<Tuple>,
    is_woken: bool,
}

fn has_range(operation: &Operation) -> bool {
    operation.fields.iter().any(|field| ends(field).is_some())
}

fn tells_of_ranges(statement: &Statement) -> bool {
    statement.branches.iter().flat_map(Branch::operations).any(has_range)
}

fn reached(cells: &[(bool, &str)]) -> Vec<String> {
    cells.iter().filter(|(reached, _)| *reached).map(|(_, cell)| cell.to_string()).collect()
}

fn kind_name(value: &Value) -> &'static str {
    if value.kind == WHOLE { "whole" } else { "metres" }
}

/// The step once more: the own statement, then each one woken; those with ranges alone.
fn ran(before: &Run, mark: Mark, body: &[u8]) -> Vec<Ran> {
    let mut run = before.clone();
    run.last += 1;
    let mut all = Vec::new();
    let own = statement::read(body).filter(|statement| mark == Mark::Ag && tells_of_ranges(statement));
    let reply = run.own_reply(run.last, mark, body);
    all.extend(own.map(|statement| Ran { statement, reply, tuples: before.tuples.clone(), is_woken: false }));
    run.lay();
    while let Some(at) = run.oldest_ready() {
        let woken = Some(&run.waiting[at].statement).filter(|statement| tells_of_ranges(statement)).cloned();
        let tuples = if woken.is_some() { run.tuples.clone() } else { Vec::new() };
        let reply = run.wake_oldest();
        all.extend(woken.map(|statement| Ran { statement, reply, tuples, is_woken: true }));
        run.lay();
    }
    all
}

/// What a taken record shows, where it or a waiting statement has a range.
pub fn of_step(before: &Run, mark: Mark, body: &[u8]) -> Vec<String> {
    let own = statement::read(body).filter(|_| mark == Mark::Ag);
    let waits = before.waiting.iter().any(|entry| tells_of_ranges(&entry.statement));
    if !waits && !own.as_ref().is_some_and(tells_of_ranges) {
        return Vec::new();
    }
    ran(before, mark, body).iter().flat_map(of_statement).collect()
}

fn of_statement(ran: &Ran) -> Vec<String> {
    let outcome = ran.reply.as_ref().map(|reply| reply.outcome);
    let guards = || ran.statement.branches.iter().map(|branch| &branch.guard);
    if matches!(outcome, None | Some(13 | 18)) {
        let mut cells: Vec<String> = guards().flat_map(|guard| missed("guard", guard, &[], &ran.tuples)).collect();
        let waits = guards().any(has_range);
        cells.extend(reached(&[
            (waits && outcome.is_none(), "range guard waits"),
            (waits && outcome == Some(18), "range guard 18"),
        ]));
        return cells;
    }
    let chosen = ran.reply.as_ref().map_or(0, |reply| usize::from(reply.branch));
    let Some(branch) = chosen.checked_sub(1).map(|at| &ran.statement.branches[at]) else {
        return Vec::new();
    };
    let mut cells: Vec<String> =
        guards().take(chosen - 1).flat_map(|guard| missed("guard", guard, &[], &ran.tuples)).collect();
    cells.extend(reached(&[(!cells.is_empty(), "range missed and a later branch chosen")]));
    cells.extend(of_branch(ran, branch, outcome == Some(0)));
    cells
}

/// Runs the branch that was chosen once more.
fn of_branch(ran: &Ran, branch: &Branch, is_done: bool) -> Vec<String> {
    let (mut tuples, mut bound, mut by_range) = (ran.tuples.clone(), Bound::new(), Vec::new());
    let mut cells = Vec::new();
    for (at, operation) in branch.operations().enumerate() {
        let place = if at > 0 { "body" } else if ran.is_woken { "woken" } else { "guard" };
        cells.extend(of_operation(place, operation, &bound, &tuples));
        if is_done {
            cells.extend(uses(operation, &by_range, &bound));
        }
        if operate(operation, &mut tuples, &mut bound).is_err() {
            let uses_one = operation.fields.iter().any(|field| by_range.contains(&used(field)));
            cells.extend(reached(&[
                (operation.code <= RDP && has_range(operation), "range body 16"),
                (operation.code == OUT && uses_one, "range bound fails in out"),
            ]));
            return cells;
        }
        let new = operation.fields.iter().filter(|field| ends(field).is_some());
        by_range.extend(new.map(|field| field.binding().map(|(variable, _)| variable)));
    }
    cells
}

/// A template with ranges: what it found, and what it went past.
fn of_operation(place: &str, operation: &Operation, bound: &Bound, tuples: &[Tuple]) -> Vec<String> {
    if operation.code == TRUE || !has_range(operation) {
        return Vec::new();
    }
    let found = tuples.iter().position(|tuple| matches(operation, tuple, bound));
    let passed = missed(place, operation, bound, &tuples[..found.unwrap_or(tuples.len())]);
    let Some(tuple) = found.map(|at| &tuples[at]) else {
        return passed;
    };
    let mut cells = reached(&[(!passed.is_empty(), "range finds one past another")]);
    for (field, value) in operation.fields.iter().zip(&tuple.values) {
        cells.extend(ends(field).map(|ends| of_range(place, ends, value)).unwrap_or_default());
    }
    let count = operation.fields.iter().filter(|field| ends(field).is_some()).count();
    cells.extend(reached(&[(count > 1, "several ranges"), (count == 6, "six ranges")]));
    cells.extend(passed);
    cells
}

/// Where a value lies in a range that it matched.
fn of_range(place: &str, (lowest, highest): (Value, Value), value: &Value) -> Vec<String> {
    let kind = kind_name(value);
    let spot = match (*value == lowest, *value == highest) {
        (true, true) => "of one value",
        (true, false) => "at its lowest",
        (false, true) => "at its highest",
        (false, false) => "inside",
    };
    let zero = Value { bytes: [0; 4], ..lowest };
    let is_low = lowest != zero && lowest.is_at_most(&zero);
    let is_high = highest != zero && zero.is_at_most(&highest);
    let is_negative = !zero.is_at_most(&highest);
    let mut cells = vec![format!("{place} range {kind} {spot}")];
    if is_negative && lowest != highest {
        cells.push(format!("range of negative {kind} {spot}"));
    }
    let subnormal = |end: &Value| end.kind == METRES && f32::from_be_bytes(end.bytes).is_subnormal();
    cells.extend(reached(&[
        (is_low && is_high && kind == "whole", "range across 0 of wholes"),
        (is_low && is_high && kind == "metres", "range across 0 of metres"),
        (is_low && subnormal(&lowest), "range from negative subnormal metres"),
        (is_high && subnormal(&highest), "range to subnormal metres"),
    ]));
    cells
}

/// The tuples that match but for one range, by the next value below or above it.
fn missed(place: &str, operation: &Operation, bound: &[(u8, Value)], tuples: &[Tuple]) -> Vec<String> {
    let mut cells = Vec::new();
    for (at, field) in operation.fields.iter().enumerate() {
        let Some((lowest, highest)) = ends(field) else { continue };
        let mut wider = operation.clone();
        wider.fields[at] = Field::Any { kind: lowest.kind };
        for tuple in tuples.iter().filter(|tuple| matches(&wider, tuple, bound)) {
            let value = tuple.values[at];
            let side = match (Some(value) == below(&lowest), Some(value) == above(&highest)) {
                _ if value_agrees(field, bound, &value) => continue,
                (true, _) => "missed just below",
                (_, true) => "missed just above",
                _ => "missed",
            };
            cells.push(format!("{place} range {} {side}", kind_name(&value)));
        }
    }
    cells
}

/// The variable that forms 2 to 4 use.
fn used(field: &Field) -> Option<u8> {
    match *field {
        Field::Use { variable } | Field::Plus { variable, .. } | Field::Minus { variable, .. } => Some(variable),
        _ => None,
    }
}

/// The forms that use a variable bound by a range, and where.
fn uses(operation: &Operation, by_range: &[Option<u8>], bound: &Bound) -> Vec<String> {
    let place = match operation.code {
        OUT => "out",
        MOVE | COPY => "move or copy",
        _ => "in or rd",
    };
    let late = operation.fields.iter().filter(|field| used(field).is_some() && by_range.contains(&used(field)));
    let kind = |field: &Field| used(field).and_then(|variable| value_of(variable, bound));
    let cell = |field: &Field| {
        let kind = kind(field).map_or("no", |value| kind_name(&value));
        format!("range bound {kind} used by form {} in {place}", field.form())
    };
    late.map(cell).collect()
}

// ---- What must be ----

const ONCE: [&str; 45] = [
    "range guard waits",
    "range guard 18",
    "range body 16",
    "range bound fails in out",
    "range missed and a later branch chosen",
    "range finds one past another",
    "several ranges",
    "six ranges",
    "range across 0 of wholes",
    "range across 0 of metres",
    "range from negative subnormal metres",
    "range to subnormal metres",
    "range of negative whole at its lowest",
    "range of negative whole at its highest",
    "range of negative metres at its lowest",
    "range of negative metres at its highest",
    "range of negative metres inside",
    "malformed range of wholes upside down",
    "malformed range of metres upside down",
    "malformed range of negative metres upside down",
    "malformed range of names",
    "malformed range kind over 2",
    "malformed range lowest not legal",
    "malformed range highest not legal",
    "malformed range variable over 15",
    "malformed range used where bound",
    "malformed range bound twice",
    "malformed range bound beside form 1",
    "malformed range in out",
    "malformed range in move",
    "malformed range in copy",
    "malformed range bound again",
    "malformed range's variable bound again",
    "malformed range's variable of other kind",
    "refused 1 state waiting range upside down",
    "refused 1 state guard holds by a range",
    "range bound whole used by form 2 in in or rd",
    "range bound whole used by form 2 in move or copy",
    "range bound metres used by form 2 in in or rd",
    "range bound whole used by form 2 in out",
    "range bound whole used by form 3 in out",
    "range bound whole used by form 4 in out",
    "range bound metres used by form 2 in out",
    "range bound metres used by form 3 in out",
    "range bound metres used by form 4 in out",
];

/// The cells that must be reached.
pub fn wanted() -> Vec<String> {
    let mut cells = ONCE.map(String::from).to_vec();
    let places = ["guard", "body", "woken"].into_iter().flat_map(|place| ["whole", "metres"].map(|kind| (place, kind)));
    for (place, kind) in places {
        for spot in ["at its lowest", "at its highest", "inside", "of one value"] {
            cells.push(format!("{place} range {kind} {spot}"));
        }
        for side in ["missed just below", "missed just above", "missed"].into_iter().filter(|_| place != "woken") {
            cells.push(format!("{place} range {kind} {side}"));
        }
    }
    cells
}
