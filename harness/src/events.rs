//! Whole event lists on two replicas, held to the claim of "Two cabinets" by the one-by-one run of the
//! second implementation: records in, before and after their turn, cuts, restarts from empty and from copies.

use crate::caller::{Caller, Expected};
use crate::hex::record;
use crate::layout::{REPLY_BYTES, STATE_BYTES};
use reference::call::split;
use reference::generate::rng::Rng;
use reference::generate::{Profile, Stream, PROFILES};
use reference::layout::{encode, reply_bytes};
use reference::run::Run;
use std::cmp::Ordering;
use std::collections::BTreeMap;

/// What every set of lists must have.
pub const KINDS: [&str; 19] = [
    "taken",
    "taken and wakes",
    "taken and owes more",
    "taken and owes less",
    "taken again after a restart",
    "refused 2",
    "refused 3",
    "refused 4 repeated",
    "refused 4 late",
    "refused 4 number 0",
    "refused 5 early",
    "refused 5 last number",
    "cut between calls",
    "cut in a call",
    "cut in a restart",
    "restart empty",
    "restart from the latest copy",
    "restart from an earlier copy",
    "restart from a copy that owes",
];

/// How often each kind of event occurred.
pub type Counts = BTreeMap<&'static str, usize>;

/// The records 1, 2, .. and, for each count of them, the one-by-one run's state, the replies to the last
/// record, whether that woke a statement, and how many failure tuples are owed then.
struct History {
    records: Vec<Vec<u8>>,
    states: Vec<Vec<u8>>,
    replies: Vec<Vec<u8>>,
    wakes: Vec<bool>,
    owed: Vec<usize>,
}

impl History {
    fn new(seed: u64, number: u64, length: usize) -> History {
        let mut stream = Stream::from_fresh(seed, number);
        let mut run = Run::fresh();
        let (states, replies) = (vec![encode(&run)], vec![vec![]]);
        let mut history = History { records: vec![], states, replies, wakes: vec![false], owed: vec![0] };
        for _ in 0..length {
            let record = stream.feed();
            let (mark, position, body) = split(&record).expect("a record of the feed passes check 3");
            let replies = run.step(position, mark, body);
            history.wakes.push(replies.iter().any(|reply| reply.position != position));
            history.replies.push(replies.iter().flat_map(reply_bytes).collect());
            history.states.push(encode(&run));
            history.owed.push(run.owed.len());
            history.records.push(record);
        }
        history
    }
}

/// A state with the count of records that it has taken.
#[derive(Clone)]
struct Held {
    position: usize,
    state: Vec<u8>,
}

/// `now` is none from a cut until the restart that follows it; `buffer` is then any bytes.
struct Cabinet {
    now: Option<usize>,
    buffer: Vec<u8>,
    held: Vec<Held>,
    furthest: usize,
}

struct List<'a> {
    rng: Rng,
    history: History,
    /// At most so many records come in order at once.
    at_once: usize,
    cabinets: [Cabinet; 2],
    caller: &'a mut Caller,
    counts: &'a mut Counts,
}

/// Runs one event list; the error says how to run it again.
pub fn run(seed: u64, number: u64, caller: &mut Caller, counts: &mut Counts) -> Result<usize, String> {
    let mut rng = Rng::new(seed.wrapping_mul(7_000_003).wrapping_add(number) ^ 0x5A5A);
    let owes = PROFILES[number as usize % PROFILES.len()] == Profile::Debts;
    // its table is full after some 50 records
    let (least, more, at_once) = if owes { (80, 80, 40) } else { (10, 70, 8) };
    let history = History::new(seed, number, least + rng.below(more));
    let cabinets = [0, 1].map(|_| Cabinet { now: None, buffer: vec![], held: vec![], furthest: 0 });
    let mut list = List { rng, history, at_once, cabinets, caller, counts };
    let events = 40 + list.rng.below(160);
    let again = |at, fault| format!("compare --list {seed} {number}: event {at}: {fault}");
    list.begin().map_err(|fault| again(0, fault))?;
    for at in 1..=events {
        list.event().map_err(|fault| again(at, fault))?;
    }
    Ok(events)
}

impl List<'_> {
    fn count(&mut self, kind: &'static str) {
        *self.counts.entry(kind).or_insert(0) += 1;
    }

    fn any_bytes(&mut self, length: usize) -> Vec<u8> {
        let words: Vec<[u8; 8]> = (0..length.div_ceil(8)).map(|_| self.rng.next().to_be_bytes()).collect();
        words.into_iter().flatten().take(length).collect()
    }

    /// Both are empty at first.
    fn begin(&mut self) -> Result<(), String> {
        for at in [0, 1] {
            self.cabinets[at].buffer = self.any_bytes(STATE_BYTES);
            self.restart_empty(at)?;
        }
        Ok(())
    }

    fn event(&mut self) -> Result<(), String> {
        let at = self.rng.below(2);
        match self.cabinets[at].now {
            None => self.restart(at),
            Some(_) if self.rng.percent(3) => {
                self.count("cut between calls");
                self.cut(at);
                Ok(())
            }
            Some(position) if self.rng.percent(4) => {
                self.cut_call(at, position);
                Ok(())
            }
            Some(position) if self.rng.percent(50) => self.in_order(at, position),
            Some(position) => self.call(at, position),
        }
    }

    // ---- Calls ----

    /// Some records in order.
    fn in_order(&mut self, at: usize, position: usize) -> Result<(), String> {
        let end = self.history.records.len().min(position + 1 + self.rng.below(self.at_once));
        for next in position..end {
            let record = self.history.records[next].clone();
            self.take(at, &record, "taken")?;
        }
        Ok(())
    }

    /// A record in, before or after its turn, or bytes that are none.
    fn call(&mut self, at: usize, position: usize) -> Result<(), String> {
        let (record, kind) = self.some_record(position);
        self.take(at, &record, kind)
    }

    /// Equal numbers have equal records.
    fn some_record(&mut self, position: usize) -> (Vec<u8>, &'static str) {
        let length = self.history.records.len();
        match self.rng.weighted(&[30, 15, 15, 5, 15, 5, 15]) {
            0 if position < length => (self.history.records[position].clone(), "taken"),
            1 if position > 0 => (self.history.records[position - 1].clone(), "refused 4 repeated"),
            2 if position > 1 => {
                let late = self.rng.below(position - 1);
                (self.history.records[late].clone(), "refused 4 late")
            }
            3 => (record("RV", 0, "01"), "refused 4 number 0"),
            4 if position + 1 < length => {
                let early = position + 1 + self.rng.below(length - position - 1);
                (self.history.records[early].clone(), "refused 5 early")
            }
            5 => (record("CR", u32::MAX, "01"), "refused 5 last number"),
            _ => (self.no_record(position), "refused 3"),
        }
    }

    /// Bytes that fail check 3: cut, padded, of an unknown mark, or any.
    fn no_record(&mut self, position: usize) -> Vec<u8> {
        let mut bytes = self.history.records[position.min(self.history.records.len() - 1)].clone();
        match self.rng.below(4) {
            0 => bytes.truncate(self.rng.below(bytes.len())),
            1 => bytes.push(0),
            2 => bytes[0] = b'r',
            _ => {
                let length = self.rng.below(300);
                bytes = self.any_bytes(length);
            }
        }
        bytes
    }

    /// A reply buffer in any length, with any bytes.
    fn reply_buffer(&mut self) -> Vec<u8> {
        let length = match self.rng.below(20) {
            0 => self.rng.below(REPLY_BYTES),
            1 => REPLY_BYTES - 1,
            2 => REPLY_BYTES + self.rng.below(5000),
            _ => REPLY_BYTES,
        };
        self.any_bytes(length)
    }

    /// An uncut call: taken exactly when checks 2 to 5 pass against the cabinet's position, with the run's
    /// replies and the run's state; else the first number that fails, and no byte changed.
    fn take(&mut self, at: usize, record: &[u8], kind: &'static str) -> Result<(), String> {
        let Some(position) = self.cabinets[at].now else {
            return Ok(());
        };
        let lent = self.reply_buffer();
        let mut reply = lent.clone();
        let number = split(record).map(|(_, number, _)| number as usize);
        let (returned, after) = match number {
            _ if lent.len() < REPLY_BYTES => (2, position),
            None => (3, position),
            Some(number) if number <= position => (4, position),
            Some(number) if number > position + 1 => (5, position),
            Some(number) => {
                let replies = &self.history.replies[number];
                reply[..replies.len()].copy_from_slice(replies);
                (replies.len() as u64, number)
            }
        };
        let expected = Expected { returned, state: &self.history.states[after], reply: &reply };
        let buffer = &self.cabinets[at].buffer;
        self.caller
            .take(buffer, record, &lent, &expected)
            .map_err(|fault| format!("cabinet {at} at {position}, {kind}: {fault}"))?;
        self.count_call(at, returned, kind, after);
        self.keep(at, after);
        Ok(())
    }

    /// A record in order is refused where its reply buffer is short, or that of the record before it was.
    fn count_call(&mut self, at: usize, returned: u64, kind: &'static str, after: usize) {
        let kind = match (returned, kind) {
            (2, _) => "refused 2",
            (5, "taken") => "refused 5 early",
            _ => kind,
        };
        self.count(kind);
        if kind == "taken" && self.history.wakes[after] {
            self.count("taken and wakes");
        }
        if kind == "taken" {
            match self.history.owed[after].cmp(&self.history.owed[after - 1]) {
                Ordering::Greater => self.count("taken and owes more"),
                Ordering::Less => self.count("taken and owes less"),
                Ordering::Equal => {}
            }
        }
        if kind == "taken" && after <= self.cabinets[at].furthest {
            self.count("taken again after a restart");
        }
    }

    /// The cabinet holds what the last call left, now and, where it moved on, for a copy.
    fn keep(&mut self, at: usize, position: usize) {
        let state = self.caller.left().0;
        let cabinet = &mut self.cabinets[at];
        cabinet.buffer.copy_from_slice(state);
        if cabinet.now != Some(position) {
            cabinet.held.push(Held { position, state: state.to_vec() });
        }
        cabinet.now = Some(position);
        cabinet.furthest = cabinet.furthest.max(position);
    }

    // ---- Cuts and restarts ----

    /// A cut call took nothing: any bytes are left, and its replies do not count.
    fn cut_call(&mut self, at: usize, position: usize) {
        self.count("cut in a call");
        let (record, _) = self.some_record(position);
        let lent = self.reply_buffer();
        self.caller.call(&self.cabinets[at].buffer, &record, &lent);
        if self.rng.percent(70) {
            let reached = self.rng.below(STATE_BYTES);
            let state = self.caller.left().0;
            self.cabinets[at].buffer[..reached].copy_from_slice(&state[..reached]);
            self.cabinets[at].now = None;
        } else {
            self.cut(at);
        }
    }

    /// Leaves any bytes: none changed, zeros, a part overwritten, or all.
    fn cut(&mut self, at: usize) {
        self.cabinets[at].now = None;
        let (from, to) = match self.rng.below(4) {
            0 => (0, 0),
            1 => {
                self.cabinets[at].buffer.fill(0);
                return;
            }
            2 => (self.rng.below(STATE_BYTES), STATE_BYTES),
            _ => (0, STATE_BYTES),
        };
        let bytes = self.any_bytes(to - from);
        self.cabinets[at].buffer[from..to].copy_from_slice(&bytes);
    }

    /// From empty, or from a copy of a state that the other held; now and then cut, so that another follows.
    fn restart(&mut self, at: usize) -> Result<(), String> {
        if self.rng.percent(15) {
            self.count("cut in a restart");
            self.cut(at);
            return Ok(());
        }
        if self.rng.percent(30) {
            return self.restart_empty(at);
        }
        let others = &self.cabinets[1 - at].held;
        let (chosen, kind) = match self.rng.below(2) {
            0 => (others.len() - 1, "restart from the latest copy"),
            _ => (self.rng.below(others.len()), "restart from an earlier copy"),
        };
        let copy = others[chosen].clone();
        let cabinet = &mut self.cabinets[at];
        cabinet.buffer.copy_from_slice(&copy.state);
        cabinet.now = Some(copy.position);
        let owes = self.history.owed[copy.position] > 0;
        cabinet.held.push(copy);
        self.count(kind);
        if owes {
            self.count("restart from a copy that owes");
        }
        Ok(())
    }

    fn restart_empty(&mut self, at: usize) -> Result<(), String> {
        self.count("restart empty");
        let cabinet = &mut self.cabinets[at];
        let returned = self.caller.agree_fresh(&cabinet.buffer)?;
        cabinet.buffer.copy_from_slice(self.caller.left().0);
        if returned != 0 || cabinet.buffer != self.history.states[0] {
            return Err("the fresh-state call left no fresh state".to_string());
        }
        cabinet.now = Some(0);
        cabinet.held.push(Held { position: 0, state: cabinet.buffer.clone() });
        Ok(())
    }
}
