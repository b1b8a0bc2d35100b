//! The state buffer and the replies, as bytes.

use crate::run::{Reply, Run, Space, Tuple, Waiting};
use crate::run::{MOST_MONITORS, MOST_SPACES, MOST_TUPLES, MOST_WAITING, NUMBERS_USED_UP};
use crate::statement::{self, SpaceNumber, MOST_FIELDS};
use crate::value::Value;
use std::collections::BTreeSet;

pub const STATE_BYTES: usize = 25_312;
pub const REPLY_BYTES: usize = 3_564;

// The header: the mark, then these.
pub const LAST_AT: usize = 2;
pub const HOSTS_AT: usize = LAST_AT + 4;
pub const MONITORS_AT: usize = HOSTS_AT + 2;
pub const NEXT_AT: usize = MONITORS_AT + 1;
pub const SPACE_COUNT_AT: usize = NEXT_AT + 4;
pub const TUPLE_COUNT_AT: usize = SPACE_COUNT_AT + 1;
pub const WAITING_COUNT_AT: usize = TUPLE_COUNT_AT + 2;
pub const OWED_AT: usize = WAITING_COUNT_AT + 1;
pub const OWED_BYTES: usize = 2 * MOST_MONITORS as usize;
pub const HEADER_USED: usize = OWED_AT + OWED_BYTES;

// A space entry: the number, then these.
pub const KIND_AT: usize = size_of::<SpaceNumber>();
pub const OWNER_AT: usize = KIND_AT + 1;
pub const SPACE_BYTES: usize = OWNER_AT + 2;

// A tuple: the space, then these.
pub const FIELD_COUNT_AT: usize = size_of::<SpaceNumber>();
pub const VALUES_AT: usize = FIELD_COUNT_AT + 1;
pub const VALUE_BYTES: usize = 5;
pub const TUPLE_BYTES: usize = VALUES_AT + MOST_FIELDS * VALUE_BYTES;

// A waiting entry: the position, then these.
pub const LENGTH_AT: usize = 4;
pub const BODY_AT: usize = LENGTH_AT + 2;
pub const WAITING_BYTES: usize = 256;

// The sections.
pub const SPACES_AT: usize = 64;
pub const TUPLES_AT: usize = SPACES_AT + MOST_SPACES * SPACE_BYTES;
pub const WAITING_AT: usize = TUPLES_AT + MOST_TUPLES * TUPLE_BYTES;
const _: () = assert!(WAITING_AT + MOST_WAITING * WAITING_BYTES == STATE_BYTES);

// ---- Writing ----

fn put(bytes: &mut [u8], at: usize, part: &[u8]) {
    bytes[at..at + part.len()].copy_from_slice(part);
}

/// Bit h for host h.
fn mask(hosts: &[bool; 16]) -> u16 {
    (0..16).map(|host| u16::from(hosts[host]) << host).sum()
}

/// The mask of each monitor number from 1 on, bit h for host h.
fn owed_bytes(owed: &BTreeSet<(u8, u8)>) -> Vec<u8> {
    let is_owed = |monitor: u8| std::array::from_fn(|host| owed.contains(&(monitor, host as u8)));
    (1..=MOST_MONITORS).flat_map(|monitor| mask(&is_owed(monitor)).to_be_bytes()).collect()
}

fn space_bytes(space: &Space) -> Vec<u8> {
    let mut bytes = space.number.to_be_bytes().to_vec();
    bytes.push(u8::from(space.private));
    bytes.extend(space.owner.to_be_bytes());
    bytes
}

fn tuple_bytes(tuple: &Tuple) -> Vec<u8> {
    let mut bytes = tuple.space.to_be_bytes().to_vec();
    bytes.push(tuple.values.len() as u8);
    for value in &tuple.values {
        bytes.push(value.kind);
        bytes.extend(value.bytes);
    }
    bytes
}

/// The whole entry of a tuple, its unused bytes zero.
pub fn tuple_entry(tuple: &Tuple) -> Vec<u8> {
    let mut bytes = tuple_bytes(tuple);
    bytes.resize(TUPLE_BYTES, 0);
    bytes
}

fn waiting_bytes(entry: &Waiting) -> Vec<u8> {
    let body = statement::write(&entry.statement);
    let mut bytes = entry.position.to_be_bytes().to_vec();
    bytes.extend((body.len() as u16).to_be_bytes());
    bytes.extend(body);
    bytes
}

fn put_header(bytes: &mut [u8], run: &Run) {
    put(bytes, 0, b"TS");
    put(bytes, LAST_AT, &run.last.to_be_bytes());
    put(bytes, HOSTS_AT, &mask(&run.up).to_be_bytes());
    put(bytes, MONITORS_AT, &[run.monitors]);
    put(bytes, NEXT_AT, &run.next.to_be_bytes());
    put(bytes, SPACE_COUNT_AT, &[run.spaces.len() as u8]);
    put(bytes, TUPLE_COUNT_AT, &(run.tuples.len() as u16).to_be_bytes());
    put(bytes, WAITING_COUNT_AT, &[run.waiting.len() as u8]);
    put(bytes, OWED_AT, &owed_bytes(&run.owed));
}

/// The 25,312 bytes of a run within the limits.
pub fn encode(run: &Run) -> Vec<u8> {
    let mut bytes = vec![0; STATE_BYTES];
    put_header(&mut bytes, run);
    for (i, space) in run.spaces.iter().enumerate() {
        put(&mut bytes, SPACES_AT + i * SPACE_BYTES, &space_bytes(space));
    }
    for (i, tuple) in run.tuples.iter().enumerate() {
        put(&mut bytes, TUPLES_AT + i * TUPLE_BYTES, &tuple_bytes(tuple));
    }
    for (i, entry) in run.waiting.iter().enumerate() {
        put(&mut bytes, WAITING_AT + i * WAITING_BYTES, &waiting_bytes(entry));
    }
    bytes
}

pub fn reply_bytes(reply: &Reply) -> Vec<u8> {
    let mut bytes = b"RP".to_vec();
    bytes.extend(reply.position.to_be_bytes());
    bytes.push(reply.host);
    bytes.extend(reply.process.to_be_bytes());
    bytes.extend([reply.outcome, reply.branch, reply.values.len() as u8]);
    for (variable, value) in &reply.values {
        bytes.extend([*variable, value.kind]);
        bytes.extend(value.bytes);
    }
    bytes
}

// ---- Reading ----

fn number2(bytes: &[u8], at: usize) -> u16 {
    u16::from_be_bytes([bytes[at], bytes[at + 1]])
}

fn number4(bytes: &[u8], at: usize) -> u32 {
    u32::from_be_bytes([bytes[at], bytes[at + 1], bytes[at + 2], bytes[at + 3]])
}

/// The hosts of the mask at a place.
fn read_mask(bytes: &[u8], at: usize) -> [bool; 16] {
    let mask = number2(bytes, at);
    std::array::from_fn(|host| mask >> host & 1 == 1)
}

/// The pairs in the masks of all monitor numbers, given or not.
fn read_owed(bytes: &[u8]) -> BTreeSet<(u8, u8)> {
    let mut owed = BTreeSet::new();
    for monitor in 1..=MOST_MONITORS {
        let hosts = read_mask(bytes, OWED_AT + 2 * (usize::from(monitor) - 1));
        owed.extend((0..16).filter(|host| hosts[usize::from(*host)]).map(|host| (monitor, host)));
    }
    owed
}

fn read_value(bytes: &[u8]) -> Option<Value> {
    let value = Value { kind: bytes[0], bytes: [bytes[1], bytes[2], bytes[3], bytes[4]] };
    value.is_legal().then_some(value)
}

fn read_space(bytes: &[u8]) -> Option<Space> {
    let (number, owner) = (number2(bytes, 0), number2(bytes, OWNER_AT));
    match bytes[KIND_AT] {
        0 => Some(Space { number, private: false, owner }),
        1 => Some(Space { number, private: true, owner }),
        _ => None,
    }
}

fn read_tuple(bytes: &[u8]) -> Option<Tuple> {
    let count = usize::from(bytes[FIELD_COUNT_AT]);
    if !(1..=MOST_FIELDS).contains(&count) {
        return None;
    }
    let values: Option<Vec<Value>> =
        bytes[VALUES_AT..].chunks(VALUE_BYTES).take(count).map(read_value).collect();
    Some(Tuple { space: number2(bytes, 0), values: values? })
}

fn read_waiting(bytes: &[u8]) -> Option<Waiting> {
    let length = usize::from(number2(bytes, LENGTH_AT));
    let body = bytes[BODY_AT..].get(..length)?;
    Some(Waiting { position: number4(bytes, 0), statement: statement::read(body)? })
}

/// Reads `count` entries of a section; None where there are too many or one is not legal.
fn read_section<T>(
    section: &[u8],
    size: usize,
    count: usize,
    read: fn(&[u8]) -> Option<T>,
) -> Option<Vec<T>> {
    if count * size > section.len() {
        return None;
    }
    section.chunks(size).take(count).map(read).collect()
}

/// The lists in the bytes; None where the counts or an entry in use break a limit.
fn decode(bytes: &[u8]) -> Option<Run> {
    if bytes.len() != STATE_BYTES || bytes[..2] != *b"TS" {
        return None;
    }
    let spaces = bytes[SPACE_COUNT_AT].into();
    let tuples = number2(bytes, TUPLE_COUNT_AT).into();
    let waiting = bytes[WAITING_COUNT_AT].into();
    Some(Run {
        last: number4(bytes, LAST_AT),
        up: read_mask(bytes, HOSTS_AT),
        monitors: bytes[MONITORS_AT],
        next: number4(bytes, NEXT_AT),
        spaces: read_section(&bytes[SPACES_AT..TUPLES_AT], SPACE_BYTES, spaces, read_space)?,
        tuples: read_section(&bytes[TUPLES_AT..WAITING_AT], TUPLE_BYTES, tuples, read_tuple)?,
        waiting: read_section(&bytes[WAITING_AT..], WAITING_BYTES, waiting, read_waiting)?,
        owed: read_owed(bytes),
    })
}

// ---- What is a state ----

fn spaces_are_sound(run: &Run) -> bool {
    let zero = Space { number: 0, private: false, owner: 0 };
    run.spaces.first() == Some(&zero)
        && run.spaces.windows(2).all(|pair| pair[0].number < pair[1].number)
        && run.spaces.iter().all(|space| u32::from(space.number) < run.next)
        && run.spaces.iter().all(|space| space.private || space.owner == 0)
}

fn tuples_are_sound(run: &Run) -> bool {
    run.tuples.iter().all(|tuple| run.space(tuple.space).is_some())
}

/// Owed to monitor numbers that were given, and only beside 512 tuples.
fn debt_is_sound(run: &Run) -> bool {
    run.owed.iter().all(|(monitor, _)| *monitor <= run.monitors)
        && (run.owed.is_empty() || run.tuples.len() == MOST_TUPLES)
}

fn entry_is_sound(run: &Run, entry: &Waiting) -> bool {
    let statement = &entry.statement;
    let namesakes = run.waiting.iter().filter(|w| w.statement.process == statement.process).count();
    (1..=run.last).contains(&entry.position)
        && run.up[usize::from(statement.host)]
        && namesakes == 1
        && statement.spaces().iter().all(|space| run.is_open_to(*space, statement.process))
        && statement.may_wait()
        && !run.has_guard_that_holds(statement)
}

fn is_sound(run: &Run) -> bool {
    run.monitors <= MOST_MONITORS
        && (1..=NUMBERS_USED_UP).contains(&run.next)
        && run.spaces.len() <= MOST_SPACES
        && run.tuples.len() <= MOST_TUPLES
        && run.waiting.len() <= MOST_WAITING
        && spaces_are_sound(run)
        && tuples_are_sound(run)
        && debt_is_sound(run)
        && run.waiting.windows(2).all(|pair| pair[0].position < pair[1].position)
        && run.waiting.iter().all(|entry| entry_is_sound(run, entry))
}

/// The lists of a state; None where the bytes are not a state. The bytes must be
/// the very ones that the lists give: so all unused bytes are zero.
pub fn read_state(bytes: &[u8]) -> Option<Run> {
    let run = decode(bytes)?;
    (is_sound(&run) && encode(&run) == bytes).then_some(run)
}

pub fn is_state(bytes: &[u8]) -> bool {
    read_state(bytes).is_some()
}
