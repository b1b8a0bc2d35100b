//! The cells of a step that tell of space numbers.

use super::numbers::{high, low, Byte, BYTES};
use crate::run::{holds, Request, Run, MOST_SPACES};
use crate::statement::{Branch, Operation, SpaceNumber, Statement, MOVE, TRUE};

/// The own reply's outcome and branch; None where the statement waits.
pub type Answer = Option<(u8, u8)>;

/// The last number without a high byte.
const LAST_LOW: SpaceNumber = 255;

/// A cell for each byte in which one of the others agrees with the number, `*` for its name.
fn alike(cell: &str, number: SpaceNumber, others: &[SpaceNumber]) -> Vec<String> {
    let agrees = |byte: Byte| others.iter().any(|other| *other != number && byte(*other) == byte(number));
    BYTES.iter().filter(|(_, byte)| agrees(*byte)).map(|(name, _)| cell.replace('*', name)).collect()
}

fn open(run: &Run) -> Vec<SpaceNumber> {
    run.spaces.iter().map(|space| space.number).collect()
}

fn with_tuples(run: &Run) -> Vec<SpaceNumber> {
    run.tuples.iter().map(|tuple| tuple.space).collect()
}

/// The entry that a number is found at, or that it would follow; counted from 1.
fn entry(run: &Run, number: SpaceNumber) -> String {
    let count = run.spaces.iter().filter(|space| space.number <= number).count();
    let verb = if run.space(number).is_some() { "named at" } else { "not open after" };
    format!("{verb} entry {count:02}")
}

// ---- States ----

/// How the numbers of the open spaces lie, and the next number.
pub fn of_state(run: &Run) -> Vec<String> {
    let numbers = open(run);
    let follow = |law: fn(SpaceNumber, SpaceNumber) -> bool| numbers.windows(2).any(|p| law(p[0], p[1]));
    let pair = |law: fn(SpaceNumber, SpaceNumber) -> bool| {
        numbers.iter().any(|one| numbers.iter().any(|other| one < other && law(*one, *other)))
    };
    let private = |number: SpaceNumber| run.space(number).is_some_and(|space| space.private);
    let zero = |number: &SpaceNumber| *number > 0 && low(*number) == 0;
    let cells = [
        (run.next == 65_535, "next number 65535"),
        (run.next == 65_536, "next number 65536"),
        (numbers.contains(&65_535), "space 65535 open"),
        (numbers.len() == MOST_SPACES && numbers[1] > LAST_LOW, "31 spaces over 255"),
        (follow(|one, next| next - one > 10_000), "spaces far apart"),
        (follow(|one, next| low(one) > low(next)), "spaces with falling low bytes"),
        (pair(|one, other| low(one) == low(other)), "spaces of one low byte"),
        (pair(|one, other| high(one) == high(other) && high(one) > 0), "spaces of one high byte"),
        (pair(|one, other| one == other.swap_bytes()), "spaces of swapped bytes"),
        (numbers.iter().any(zero), "space with low byte 0"),
        (numbers.iter().any(|number| zero(number) && private(*number)), "private space with low byte 0"),
    ];
    let reached = cells.iter().filter(|(reached, _)| *reached);
    let mut found: Vec<String> = reached.map(|(_, cell)| cell.to_string()).collect();
    found.push(format!("spaces open {:02}", numbers.len()));
    found
}

// ---- Requests ----

/// What a request past check 6 shows.
pub fn of_request(before: &Run, request: &Request, answer: Answer) -> Vec<String> {
    match (request, answer) {
        (Request::Make { .. }, Some((outcome, _))) => of_make(before, outcome),
        (Request::Destroy { space, .. }, Some((outcome, _))) => of_destroy(before, *space, outcome),
        (Request::Guarded(statement), _) => of_statement(before, statement, answer),
        _ => Vec::new(),
    }
}

fn of_make(before: &Run, outcome: u8) -> Vec<String> {
    let last = if before.space(SpaceNumber::MAX).is_some() { "open" } else { "closed" };
    match (outcome, before.next) {
        (0, next @ (255 | 256 | 65_535)) => vec![format!("MS gives {next}")],
        (14, 65_536) if before.spaces.len() < MOST_SPACES => vec![format!("MS 14 with 65535 {last}")],
        _ => Vec::new(),
    }
}

fn of_destroy(before: &Run, space: SpaceNumber, outcome: u8) -> Vec<String> {
    let mut cells = match outcome {
        0 => of_closed(before, space),
        10 => alike("DS 10 at an open * byte", space, &open(before)),
        11 => Vec::new(),
        15 => of_named(before, space),
        _ => return Vec::new(),
    };
    cells.push(entry(before, space));
    if outcome != 10 && space > LAST_LOW {
        cells.push(format!("DS {outcome} over 255"));
    }
    cells
}

/// What must stay when a space is closed.
fn of_closed(before: &Run, space: SpaceNumber) -> Vec<String> {
    let named: Vec<SpaceNumber> = before.waiting.iter().flat_map(|w| w.statement.spaces()).collect();
    let mut cells = alike("DS 0 beside tuples of its * byte", space, &with_tuples(before));
    cells.extend(alike("DS 0 beside a named * byte", space, &named));
    if space == SpaceNumber::MAX {
        cells.push("DS 0 of 65535".to_string());
    }
    if low(space) == 0 {
        cells.push("DS 0 of low byte 0".to_string());
    }
    cells
}

/// Where waiting statements name a space, if they all do so at one sort of place.
fn of_named(before: &Run, space: SpaceNumber) -> Vec<String> {
    let all = before.waiting.iter().flat_map(|waiting| names(&waiting.statement));
    let mut places: Vec<&str> = all.filter(|(_, name)| *name == space).map(|(place, _)| place).collect();
    places.dedup();
    match places[..] {
        [place] if space > 0 => vec![format!("DS 15 {place} alone")],
        _ => Vec::new(),
    }
}

// ---- Statements ----

fn of_statement(before: &Run, statement: &Statement, answer: Answer) -> Vec<String> {
    match answer {
        Some((6..=9, _)) => Vec::new(),
        Some((10, _)) => of_not_open(before, statement),
        Some((11, _)) => of_private(before, statement),
        Some((0, branch)) => {
            let mut cells = of_open(before, statement);
            cells.extend(of_done(before, &statement.branches[usize::from(branch) - 1]));
            cells
        }
        _ => of_open(before, statement),
    }
}

/// Each space that a statement names, with where.
fn names(statement: &Statement) -> Vec<(&'static str, SpaceNumber)> {
    let mut names = Vec::new();
    for branch in &statement.branches {
        names.extend(branch.guard.spaces.iter().map(|space| ("guard", *space)));
        for operation in &branch.body {
            match operation.spaces[..] {
                [from, to] => names.extend([("from", from), ("to", to)]),
                _ => names.extend(operation.spaces.iter().map(|space| ("body", *space))),
            }
        }
    }
    names
}

fn of_not_open(before: &Run, statement: &Statement) -> Vec<String> {
    let mut cells = Vec::new();
    for (place, space) in names(statement).into_iter().filter(|(_, space)| before.space(*space).is_none()) {
        cells.push(format!("AG 10 {place}"));
        cells.push(entry(before, space));
        cells.extend(alike("AG 10 at an open * byte", space, &open(before)));
        if before.space(space.swap_bytes()).is_some() {
            cells.push("AG 10 at open swapped bytes".to_string());
        }
    }
    cells
}

fn of_private(before: &Run, statement: &Statement) -> Vec<String> {
    let mut cells = Vec::new();
    let mut free = open(before);
    free.retain(|space| before.is_open_to(*space, statement.process));
    for (place, space) in names(statement).into_iter().filter(|(_, space)| !free.contains(space)) {
        cells.push(format!("AG 11 {place}"));
        cells.extend(alike("AG 11 at an open * byte", space, &free));
    }
    cells
}

/// A statement past check 11.
fn of_open(before: &Run, statement: &Statement) -> Vec<String> {
    let mut named = statement.spaces();
    named.sort_unstable();
    named.dedup();
    let mut cells: Vec<String> = named.iter().map(|space| entry(before, *space)).collect();
    cells.extend(of_guard(before, &statement.branches[0].guard));
    cells
}

/// Tuples that a guard goes past and that it would match with another byte in its space.
fn of_guard(before: &Run, guard: &Operation) -> Vec<String> {
    if guard.code == TRUE {
        return Vec::new();
    }
    let found = before.tuples.iter().position(|tuple| holds(guard, std::slice::from_ref(tuple)));
    let passed = &before.tuples[..found.unwrap_or(before.tuples.len())];
    let matches = |space: &SpaceNumber| holds(&Operation { spaces: vec![*space], ..guard.clone() }, passed);
    let others: Vec<SpaceNumber> = open(before).into_iter().filter(matches).collect();
    let count = if found.is_some() { "one" } else { "none" };
    alike(&format!("guard finds {count} past its * byte"), guard.spaces[0], &others)
}

fn of_done(before: &Run, branch: &Branch) -> Vec<String> {
    let named: Vec<SpaceNumber> = branch.operations().flat_map(|op| op.spaces.clone()).collect();
    let mut cells = Vec::new();
    if named.iter().any(|space| *space > LAST_LOW) {
        cells.push("AG 0 over 255".to_string());
    }
    if named.contains(&SpaceNumber::MAX) {
        cells.push("AG 0 in 65535".to_string());
    }
    for operation in &branch.body {
        if let [from, to] = operation.spaces[..] {
            let verb = if operation.code == MOVE { "move" } else { "copy" };
            cells.extend(alike(&format!("{verb} across one * byte"), from, &[to]));
            cells.extend(alike(&format!("{verb} beside tuples of its * byte"), from, &with_tuples(before)));
        }
    }
    cells
}

/// Whether the guard that woke a statement is in a space over 255.
pub fn woken_over_255(before: &Run, position: u32, branch: u8) -> bool {
    let entry = before.waiting.iter().find(|entry| entry.position == position);
    let branch = entry.and_then(|entry| entry.statement.branches.get(usize::from(branch) - 1));
    branch.is_some_and(|branch| branch.guard.spaces.iter().any(|space| *space > LAST_LOW))
}
