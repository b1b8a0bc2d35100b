//! Damage to bodies, records and states.

use super::numbers::{self, low};
use super::rng::Rng;
use super::{debts, ranges, statements};
use crate::layout::{encode, HEADER_USED, NEXT_AT, OWED_AT, OWED_BYTES, SPACES_AT, SPACE_BYTES};
use crate::layout::{SPACE_COUNT_AT, STATE_BYTES, TUPLES_AT, TUPLE_BYTES, WAITING_AT, WAITING_BYTES};
use crate::run::{Mark, Run, Tuple, MOST_MONITORS, MOST_TUPLES, NUMBERS_USED_UP};
use crate::statement::{self, Branch, Field, Operation, SpaceNumber, Statement};
use crate::statement::{COPY, IN, INP, MOVE, OUT, RD, RDP, TRUE};
use crate::value::{metres, name, whole, Value, METRES, NAME, WHOLE};

/// Writes some other value to one byte.
fn change(rng: &mut Rng, bytes: &mut [u8], at: usize) {
    let old = bytes[at];
    let new = match rng.below(5) {
        0 => old.wrapping_add(1),
        1 => old.wrapping_sub(1),
        2 => old ^ 1 << rng.below(8),
        3 => 0,
        _ => rng.next() as u8,
    };
    bytes[at] = if new == old { old ^ 1 } else { new };
}

/// A body cut, made longer, with one byte changed, or with one rule broken.
pub fn body(rng: &mut Rng, mark: Mark, body: Vec<u8>) -> (Vec<u8>, &'static str) {
    let mut bytes = body;
    match rng.below(6) {
        0 => {
            bytes.truncate(rng.below(bytes.len()));
            (bytes, "body cut")
        }
        1 => {
            let more = if rng.percent(10) { 300 } else { 1 + rng.below(3) };
            bytes.extend((0..more).map(|_| rng.next() as u8));
            (bytes, "body longer")
        }
        2 if mark != Mark::Ag => {
            bytes[0] = 16 + rng.below(240) as u8;
            (bytes, "host over 15")
        }
        3 if mark == Mark::Ds => {
            bytes.pop();
            (bytes, "body cut")
        }
        4 if mark == Mark::Ds => {
            bytes.push(rng.next() as u8);
            (bytes, "body longer")
        }
        3..=5 if mark == Mark::Ag => breach(rng, bytes),
        _ => {
            let at = rng.below(bytes.len());
            change(rng, &mut bytes, at);
            (bytes, "body changed")
        }
    }
}

/// Breaks one rule of "The stream" in the last branch of a statement.
fn breach(rng: &mut Rng, bytes: Vec<u8>) -> (Vec<u8>, &'static str) {
    let Some(mut statement) = statement::read(&bytes) else {
        return (bytes, "body over 250");
    };
    if rng.percent(25) {
        let note = count_breach(rng, &mut statement);
        return (statement::write(&statement), note);
    }
    let Some(branch) = statement.branches.last_mut() else {
        return (bytes, "good");
    };
    let (fields, body, note) = match rng.below(100) {
        0..=31 => guard_breach(rng),
        32..=69 => body_breach(rng),
        70..=86 => range_breach(rng),
        _ => range_body_breach(rng),
    };
    branch.guard = Operation { code: RDP, spaces: vec![0], fields };
    branch.body = body;
    (statement::write(&statement), note)
}

/// A host or a count off its range, all else legal.
fn count_breach(rng: &mut Rng, statement: &mut Statement) -> &'static str {
    let guard = Operation { code: TRUE, spaces: vec![], fields: vec![] };
    let copy = Operation { code: COPY, spaces: vec![0, 0], fields: vec![] };
    match rng.below(5) {
        0 => {
            statement.host = rng.pick(&[16, 17, 128, 255]);
            "statement host over 15"
        }
        1 => {
            statement.branches = vec![Branch { guard, body: vec![copy; 9] }];
            "nine operations"
        }
        2 => {
            statement.branches = vec![Branch { guard, body: vec![] }; 5];
            "five branches"
        }
        3 => {
            statement.branches.clear();
            "no branch"
        }
        _ => {
            let out = Operation { code: OUT, spaces: vec![0], fields: vec![Field::Given(whole(1))] };
            statement.branches = vec![Branch { guard: out, body: vec![] }];
            "out as guard"
        }
    }
}

type Breach = (Vec<Field>, Vec<Operation>, &'static str);

fn bind(kind: u8, variable: u8) -> Field {
    Field::Bind { kind, variable }
}

/// Fields of a guard that break a rule.
fn guard_breach(rng: &mut Rng) -> Breach {
    let bits = rng.pick(&[0x8000_0000, 0x7F80_0000, 0x7FC0_0000, 0xFF80_0000]);
    let (fields, note) = match rng.below(8) {
        0 => (vec![Field::Given(metres(bits))], "metres not legal"),
        1 => (vec![Field::Given(Value { kind: NAME, bytes: [0, 1, 0, 0] })], "name over 65535"),
        2 => (vec![bind(WHOLE, 3), Field::Use { variable: 3 }], "used where bound"),
        3 => (vec![bind(WHOLE, 3), bind(WHOLE, 3)], "bound twice"),
        4 => (vec![bind(WHOLE, 16)], "variable over 15"),
        5 if rng.percent(50) => (vec![bind(3, 1)], "kind over 2"),
        5 => (vec![Field::Any { kind: 3 }], "kind over 2"),
        6 => (vec![Field::Any { kind: WHOLE }; 7], "seven fields"),
        _ => (vec![], "no field"),
    };
    (fields, Vec::new(), note)
}

/// A body operation that breaks a rule, after a guard that binds variable 3.
fn body_breach(rng: &mut Rng) -> Breach {
    let any = Field::Any { kind: WHOLE };
    let sum = Field::Plus { variable: 3, value: whole(1) };
    let other = Field::Plus { variable: 3, value: metres(0) };
    let names = Field::Minus { variable: 3, value: name(1) };
    let wrong = Field::Plus { variable: 3, value: metres(0x8000_0000) };
    let kind = match rng.below(8) {
        0 => NAME,
        1 => METRES,
        _ => WHOLE,
    };
    let (code, fields, note) = match (kind, rng.below(12)) {
        (NAME, _) => (OUT, vec![names], "sum of names"),
        (METRES, _) => (OUT, vec![wrong], "operand not legal"),
        (_, 0 | 1) => (OUT, vec![other], "sum of other kind"),
        (_, 2) => (OUT, vec![any], "any in out"),
        (_, 3) => (OUT, vec![bind(WHOLE, 4)], "bind in out"),
        (_, 4) => (OUT, vec![], "out without field"),
        (_, 5) => (OUT, vec![Field::Use { variable: 4 }], "used unbound"),
        (_, 6) => (INP, vec![any], "guard code in body"),
        (_, 7) => (TRUE, vec![], "guard code in body"),
        (_, 8) => (RD, vec![bind(WHOLE, 3)], "bound twice"),
        (_, 9) => (RD, vec![sum], "sum in rd"),
        (_, 10) => (MOVE, vec![bind(WHOLE, 4)], "bind in move"),
        _ => (COPY, vec![any; 7], "seven fields"),
    };
    let spaces = if matches!(code, MOVE | COPY) { vec![0, 0] } else { vec![0] };
    (vec![bind(kind, 3)], vec![Operation { code, spaces, fields }], note)
}

fn range(kind: u8, lowest: u32, highest: u32, variable: u8) -> Field {
    Field::Range { kind, lowest: lowest.to_be_bytes(), highest: highest.to_be_bytes(), variable }
}

/// A range in a guard that breaks a rule.
fn range_breach(rng: &mut Rng) -> Breach {
    let bits = rng.pick(&[0x8000_0000, 0x7F80_0000, 0x7FC0_0000, 0xFF80_0000, 0xFFFF_FFFF]);
    let (over, under) = rng.pick(&[(1, 0), (0, u32::MAX), (i32::MAX as u32, 1 << 31), (u32::MAX, u32::MAX - 1)]);
    let negative = rng.pick(&[(0x8000_0001, 0x8000_0002), (0xBF80_0000, 0xC000_0000), (0, 0x8000_0001)]);
    let (least, most) = (ranges::LEAST_METRES, ranges::MOST_METRES);
    let kind = rng.pick(&[3, 4, 255]);
    let (fields, note) = match rng.below(11) {
        0 => (vec![range(WHOLE, over, under, 3)], "range of wholes upside down"),
        1 => (vec![range(METRES, 0x3F80_0001, 0x3F80_0000, 3)], "range of metres upside down"),
        2 => (vec![range(METRES, negative.0, negative.1, 3)], "range of negative metres upside down"),
        3 => (vec![range(NAME, 1, rng.pick(&[1, 7]), 3)], "range of names"),
        4 => (vec![range(kind, 0, 0, 3)], "range kind over 2"),
        5 => (vec![range(METRES, bits, most, 3)], "range lowest not legal"),
        6 => (vec![range(METRES, least, bits, 3)], "range highest not legal"),
        7 => (vec![range(WHOLE, 0, 1, rng.pick(&[16, 255]))], "range variable over 15"),
        8 => (vec![range(WHOLE, 0, 1, 3), Field::Use { variable: 3 }], "range used where bound"),
        9 => (vec![range(WHOLE, 0, 1, 3), range(METRES, 0, 1, 3)], "range bound twice"),
        _ => (vec![bind(WHOLE, 3), range(WHOLE, 0, 1, 3)], "range bound beside form 1"),
    };
    (fields, Vec::new(), note)
}

/// A range where it may not stand, or one whose variable is not used as it may be.
fn range_body_breach(rng: &mut Rng) -> Breach {
    let one = range(WHOLE, 0, 1, 4);
    let again = range(WHOLE, 0, 1, 3);
    let other = Field::Plus { variable: 3, value: metres(0) };
    let (code, fields, note) = match rng.below(6) {
        0 => (OUT, vec![one], "range in out"),
        1 => (MOVE, vec![one], "range in move"),
        2 => (COPY, vec![one], "range in copy"),
        3 => (RD, vec![again], "range bound again"),
        4 => (RD, vec![bind(WHOLE, 3)], "range's variable bound again"),
        _ => (OUT, vec![other], "range's variable of other kind"),
    };
    let spaces = if matches!(code, MOVE | COPY) { vec![0, 0] } else { vec![0] };
    (vec![range(WHOLE, 0, 1, 3)], vec![Operation { code, spaces, fields }], note)
}

/// A record with another mark, size or position.
pub fn record(rng: &mut Rng, record: Vec<u8>, last: u32) -> (Vec<u8>, &'static str) {
    let mut bytes = record;
    match rng.below(7) {
        0 => {
            let unknown = rng.pick(&[b"RP", b"ag", b"GA", b"\0\0", b"TS", b"AM", b"RG"]);
            bytes[..2].copy_from_slice(unknown);
            (bytes, "unknown mark")
        }
        1 => {
            bytes.truncate(rng.below(bytes.len()));
            (bytes, "record cut")
        }
        2 => {
            bytes.push(rng.next() as u8);
            (bytes, "record longer")
        }
        3 | 4 => {
            let any = rng.below(last as usize + 1) as u32;
            let passed = rng.pick(&[0, last, last.saturating_sub(1), any]);
            bytes[4..8].copy_from_slice(&passed.to_be_bytes());
            (bytes, "position passed")
        }
        _ => {
            let ahead = rng.pick(&[last.saturating_add(2), last.saturating_add(257), u32::MAX]);
            bytes[4..8].copy_from_slice(&ahead.to_be_bytes());
            (bytes, "position ahead")
        }
    }
}

/// A damaged state: of another length, with bytes changed, or with its lists broken.
pub fn state(rng: &mut Rng, good: &Run) -> (Vec<u8>, &'static str) {
    let mut bytes = encode(good);
    let often = match good.tuples.len() {
        MOST_TUPLES => 60,
        _ if debts::is_nearly_full(good) => 75,
        _ => 8,
    };
    if rng.percent(often) {
        return debt(rng, good, bytes);
    }
    match rng.below(24) {
        0 => {
            let length = rng.pick(&[0, 1, 64, STATE_BYTES - 1, STATE_BYTES + 1]);
            bytes.resize(length, 0);
            (bytes, "length")
        }
        1..=3 => changed(rng, bytes, (0, HEADER_USED), SPACES_AT, "header"),
        4 | 5 => changed(rng, bytes, (SPACES_AT, good.spaces.len() * SPACE_BYTES), TUPLES_AT, "spaces"),
        6 | 7 => changed(rng, bytes, (TUPLES_AT, good.tuples.len() * TUPLE_BYTES), WAITING_AT, "tuples"),
        8 | 9 => {
            let used = (WAITING_AT, good.waiting.len() * WAITING_BYTES);
            changed(rng, bytes, used, STATE_BYTES, "waiting")
        }
        10 | 11 => one_of(rng, bytes, NEXT_AT, &NEXT_BYTES),
        12 => one_of(rng, bytes, SPACE_COUNT_AT, &COUNT_BYTES),
        _ => lists(rng, good).unwrap_or_else(|| one_of(rng, bytes, NEXT_AT, &NEXT_BYTES)),
    }
}

const NEXT_BYTES: [&str; 4] =
    ["next number byte 1", "next number byte 2", "next number byte 3", "next number byte 4"];

const COUNT_BYTES: [&str; 4] =
    ["count of spaces", "count of tuples byte 1", "count of tuples byte 2", "count of waiting"];

const OWED_BYTE: [&str; OWED_BYTES] = [
    "owed byte 01",
    "owed byte 02",
    "owed byte 03",
    "owed byte 04",
    "owed byte 05",
    "owed byte 06",
    "owed byte 07",
    "owed byte 08",
    "owed byte 09",
    "owed byte 10",
    "owed byte 11",
    "owed byte 12",
    "owed byte 13",
    "owed byte 14",
    "owed byte 15",
    "owed byte 16",
];

/// A debt changed, which leaves a state where it may be so; or the byte after the masks.
fn debt(rng: &mut Rng, good: &Run, bytes: Vec<u8>) -> (Vec<u8>, &'static str) {
    let mut run = good.clone();
    match rng.below(12) {
        0..=7 => one_of(rng, bytes, OWED_AT, &OWED_BYTE),
        8 => one_of(rng, bytes, HEADER_USED, &["byte after the masks"]),
        _ => match debt_lists(rng, &mut run) {
            Some(note) => (encode(&run), note),
            None => one_of(rng, bytes, OWED_AT, &OWED_BYTE),
        },
    }
}

/// A pair more or less, or one that may not be owed; None where the run has no such.
fn debt_lists(rng: &mut Rng, run: &mut Run) -> Option<&'static str> {
    let host = rng.below(16) as u8;
    let number = 1 + rng.below(usize::from(run.monitors.max(1))) as u8;
    let given = run.monitors > 0;
    let full = run.tuples.len() == MOST_TUPLES;
    match rng.below(5) {
        0 if full && run.monitors < MOST_MONITORS => {
            run.owed.insert((run.monitors + 1, host));
            Some("owed to a number not given")
        }
        1 => {
            run.monitors = run.owed.last()?.0 - 1;
            Some("fewer monitors than owed")
        }
        2 if full && given && run.owed.insert((number, host)) => Some("a pair more"),
        3 if run.owed.len() > 1 => {
            run.owed.pop_first();
            Some("a pair less")
        }
        _ if given => {
            run.owed.insert((number, host));
            let gone = if full { rng.pick(&[1, 1, 2, 256, MOST_TUPLES]) } else { 0 };
            run.tuples.truncate(run.tuples.len() - gone);
            Some("owed below 512 tuples")
        }
        _ => None,
    }
}

/// Changes one of the bytes that stand from a place on, each with its note.
fn one_of(
    rng: &mut Rng,
    mut bytes: Vec<u8>,
    start: usize,
    notes: &[&'static str],
) -> (Vec<u8>, &'static str) {
    let at = rng.below(notes.len());
    change(rng, &mut bytes, start + at);
    (bytes, notes[at])
}

/// Changes a byte of a section, mostly in the part in use.
fn changed(
    rng: &mut Rng,
    mut bytes: Vec<u8>,
    (start, used): (usize, usize),
    end: usize,
    note: &'static str,
) -> (Vec<u8>, &'static str) {
    let length = if used > 0 && rng.percent(80) { used } else { end - start };
    let at = start + rng.below(length);
    change(rng, &mut bytes, at);
    (bytes, note)
}

/// Breaks one condition of "The state buffer"; None where the run has nothing to break.
fn lists(rng: &mut Rng, good: &Run) -> Option<(Vec<u8>, &'static str)> {
    let mut run = good.clone();
    let note = match rng.below(28) {
        0..=4 => header_lists(rng, &mut run),
        5..=9 => space_lists(rng, &mut run),
        10..=16 => number_lists(rng, &mut run),
        _ => waiting_lists(rng, &mut run),
    }?;
    Some((encode(&run), note))
}

fn header_lists(rng: &mut Rng, run: &mut Run) -> Option<&'static str> {
    match rng.below(6) {
        0 => {
            run.monitors = 9 + rng.below(247) as u8;
            Some("monitors over 8")
        }
        1 => {
            let over = NUMBERS_USED_UP + 1;
            run.next = rng.pick(&[over, over, over + 255, 2 * NUMBERS_USED_UP, u32::MAX]);
            Some("next number over 65536")
        }
        2 => {
            run.next = 0;
            Some("next number 0")
        }
        3 => {
            run.next = run.spaces.last()?.number.into();
            Some("space not below next")
        }
        4 => {
            let space = closed(rng, run)?;
            run.tuples.first_mut()?.space = space;
            Some("tuple in closed space")
        }
        _ => {
            let values = vec![whole(0); if rng.percent(50) { 7 } else { 0 }];
            let fits = values.len() < 7 || run.tuples.len() < 511;
            run.tuples.pop()?;
            run.tuples.push(Tuple { space: 0, values });
            fits.then_some("field count")
        }
    }
}

fn space_lists(rng: &mut Rng, run: &mut Run) -> Option<&'static str> {
    let last = run.spaces.len() - 1;
    match rng.below(6) {
        0 | 5 if last > 0 => {
            let falls = |at: &usize| low(run.spaces[*at].number) > low(run.spaces[at + 1].number);
            let first = (0..last).find(falls).filter(|_| rng.percent(50));
            let at = first.unwrap_or_else(|| rng.below(last));
            let note = if falls(&at) { "spaces by their low bytes" } else { "spaces out of order" };
            run.spaces.swap(at, at + 1);
            Some(note)
        }
        1 if last > 0 => {
            run.spaces[last].number = run.spaces[last - 1].number;
            Some("space twice")
        }
        2 => {
            run.spaces[0].private = true;
            Some("space 0 private")
        }
        3 => {
            run.spaces.remove(0);
            Some("space 0 closed")
        }
        _ => {
            run.spaces.iter_mut().rfind(|space| !space.private)?.owner = 5;
            Some("shared with owner")
        }
    }
}

/// A number that is not open, where the one tried is not.
fn closed(rng: &mut Rng, run: &Run) -> Option<SpaceNumber> {
    Some(numbers::closed(rng, run)).filter(|number| run.space(*number).is_none())
}

/// Changes a byte of a space number: to that of another open space, or any way.
fn number(rng: &mut Rng, run: &Run, old: SpaceNumber, byte: usize) -> SpaceNumber {
    let mut bytes = old.to_be_bytes();
    let other = run.spaces[rng.below(run.spaces.len())].number.to_be_bytes();
    if other[byte] != bytes[byte] && rng.percent(50) {
        bytes[byte] = other[byte];
    } else {
        change(rng, &mut bytes, byte);
    }
    SpaceNumber::from_be_bytes(bytes)
}

/// Changes a byte of the space number in a space entry, a tuple or a waiting body.
fn number_lists(rng: &mut Rng, run: &mut Run) -> Option<&'static str> {
    let (good, byte) = (run.clone(), rng.below(2));
    let (place, notes) = match rng.below(3) {
        0 => {
            let at = rng.below(run.spaces.len());
            (&mut run.spaces[at].number, ["space number byte 1", "space number byte 2"])
        }
        1 if !run.tuples.is_empty() => {
            let at = rng.below(run.tuples.len());
            (&mut run.tuples[at].space, ["tuple's space byte 1", "tuple's space byte 2"])
        }
        _ if !run.waiting.is_empty() => {
            let at = rng.below(run.waiting.len());
            let guard = &mut run.waiting[at].statement.branches[0].guard;
            (&mut guard.spaces[0], ["waiting space byte 1", "waiting space byte 2"])
        }
        _ => return None,
    };
    *place = number(rng, &good, *place, byte);
    Some(notes[byte])
}

fn waiting_lists(rng: &mut Rng, run: &mut Run) -> Option<&'static str> {
    let count = run.waiting.len();
    if count == 0 {
        return None;
    }
    let at = rng.below(count);
    let next = (at + 1) % count;
    let host = usize::from(run.waiting[at].statement.host);
    match rng.below(14) {
        0 => run.waiting[at].position = 0,
        1 => run.waiting[count - 1].position = run.last.checked_add(1)?,
        2 if count > 1 => run.waiting[at].position = run.waiting[next].position,
        3 if count > 1 => run.waiting.swap(at, next),
        4 if count > 1 => run.waiting[at].statement.process = run.waiting[next].statement.process,
        5 => run.up[host] = false,
        6 | 7 => return held(rng, run, at),
        8 => {
            for branch in &mut run.waiting[at].statement.branches {
                branch.guard.code = if branch.guard.code == IN { INP } else { RDP };
            }
            return Some("no in or rd guard");
        }
        9 | 10 => {
            let process = run.waiting[at].statement.process;
            let other = run.spaces.iter().find(|space| space.private && space.owner != process)?.number;
            run.waiting[at].statement.branches[0].guard.spaces[0] = other;
            return Some("waits in another's space");
        }
        11 | 12 => return turned(run, at),
        _ => {
            let closed = closed(rng, run)?;
            run.waiting[at].statement.branches[0].guard.spaces[0] = closed;
            return Some("waits in closed space");
        }
    }
    Some("waiting entry")
}

/// A range of a waiting guard with its ends exchanged.
fn turned(run: &mut Run, at: usize) -> Option<&'static str> {
    let branches = &mut run.waiting[at].statement.branches;
    let mut fields = branches.iter_mut().flat_map(|branch| &mut branch.guard.fields);
    fields.find_map(|field| match field {
        Field::Range { lowest, highest, .. } if lowest != highest => {
            std::mem::swap(lowest, highest);
            Some("waiting range upside down")
        }
        _ => None,
    })
}

/// A guard of a waiting statement holds: true, or a tuple that it finds.
fn held(rng: &mut Rng, run: &mut Run, at: usize) -> Option<&'static str> {
    let branches = &mut run.waiting[at].statement.branches;
    let branch = rng.below(branches.len());
    if branches.len() > 1 && rng.percent(60) {
        branches[branch].guard = Operation { code: TRUE, spaces: vec![], fields: vec![] };
        branches[branch].body.clear();
        let other = (branch + 1) % branches.len();
        branches[other].guard.code = if rng.percent(50) { IN } else { RD };
        return Some("guard true");
    }
    let guard = &branches[branch].guard;
    let mut values = Vec::new();
    for field in &guard.fields {
        values.push(match field {
            Field::Given(value) => *value,
            Field::Bind { kind, .. } | Field::Any { kind } => statements::value(rng, (*kind).min(METRES)),
            _ => ranges::inside(rng, ranges::ends(field)?),
        });
    }
    let by_range = guard.fields.iter().any(|field| ranges::ends(field).is_some());
    let tuple = Tuple { space: guard.spaces[0], values };
    if run.tuples.len() == 512 {
        run.tuples.pop();
    }
    run.tuples.push(tuple);
    Some(if by_range { "guard holds by a range" } else { "guard holds" })
}
