//! A seeded generator of streams: calls that reach every outcome.

pub mod cells;
pub mod coverage;
pub mod damage;
pub mod debt_cells;
pub mod debts;
pub mod long;
pub mod match_cells;
pub mod matches;
pub mod meeting_cells;
pub mod meetings;
pub mod number_cells;
pub mod numbers;
pub mod range_cells;
pub mod ranges;
pub mod rng;
pub mod start;
pub mod statements;

use crate::call::{fresh, take};
use crate::layout::{encode, read_state, REPLY_BYTES, STATE_BYTES};
use crate::run::{Mark, Run, MARKS};
use crate::statement::{self, SpaceNumber};
use rng::Rng;
use statements::Maker;

/// What a stream dwells on.
#[derive(Clone, Copy, PartialEq, Eq, Debug)]
pub enum Profile {
    Ordinary,
    Full,
    Waiting,
    Spaces,
    Monitors,
    Arithmetic,
    Damage,
    Debts,
}

pub const PROFILES: [Profile; 8] = [
    Profile::Ordinary,
    Profile::Full,
    Profile::Waiting,
    Profile::Spaces,
    Profile::Monitors,
    Profile::Arithmetic,
    Profile::Damage,
    Profile::Debts,
];

impl Profile {
    pub fn name(self) -> &'static str {
        match self {
            Profile::Ordinary => "ordinary",
            Profile::Full => "full",
            Profile::Waiting => "waiting",
            Profile::Spaces => "spaces",
            Profile::Monitors => "monitors",
            Profile::Arithmetic => "arithmetic",
            Profile::Damage => "damage",
            Profile::Debts => "debts",
        }
    }
}

/// One call made, with all bytes before and after it.
pub struct Step {
    /// The state where it is not the one that the call before left.
    pub given: Option<Vec<u8>>,
    pub before: Vec<u8>,
    pub record: Vec<u8>,
    pub lent: Vec<u8>,
    pub returned: u64,
    pub reply: Vec<u8>,
    pub after: Vec<u8>,
    /// What was done to the record and to the state.
    pub record_note: &'static str,
    pub state_note: &'static str,
}

impl Step {
    pub fn is_taken(&self) -> bool {
        !(1..=5).contains(&self.returned)
    }

    /// The reply bytes written; none where the call was turned back.
    pub fn replies(&self) -> &[u8] {
        let count = if self.is_taken() { self.returned as usize } else { 0 };
        &self.reply[..count]
    }
}

pub struct Stream {
    rng: Rng,
    profile: Profile,
    /// What the last call left.
    state: Vec<u8>,
    /// The last state that was one, which the stream goes on from.
    good: Run,
}

impl Stream {
    pub fn new(seed: u64, number: u64) -> Stream {
        let mut rng = Rng::new(seed.wrapping_mul(1_000_003).wrapping_add(number));
        rng.next();
        let profile = PROFILES[(number % PROFILES.len() as u64) as usize];
        let mut state = vec![0; STATE_BYTES];
        fresh(&mut state);
        let often = match profile {
            Profile::Waiting | Profile::Spaces | Profile::Debts => 85,
            _ => 60,
        };
        let good = if rng.percent(often) { start::built(&mut rng, profile) } else { Run::fresh() };
        Stream { rng, profile, state, good }
    }

    /// A stream from the fresh state, whose records `feed` gives in order.
    pub fn from_fresh(seed: u64, number: u64) -> Stream {
        let mut stream = Stream::new(seed, number);
        stream.good = Run::fresh();
        stream
    }

    /// As `from_fresh`, after records that open and close spaces until the next number is this one.
    pub fn from_fresh_at(seed: u64, number: u64, next: u32) -> (Stream, Vec<Vec<u8>>) {
        let mut stream = Stream::from_fresh(seed, number);
        let mut records = vec![stream.fed(Mark::Rv, &[2])];
        for space in 1..next {
            let [high, low] = (space as SpaceNumber).to_be_bytes();
            records.push(stream.fed(Mark::Ms, &[2, 0, 5]));
            records.push(stream.fed(Mark::Ds, &[2, 0, 5, high, low]));
        }
        (stream, records)
    }

    pub fn profile(&self) -> Profile {
        self.profile
    }

    /// The next record in order: of the next position and of a size that fits. The run takes it.
    pub fn feed(&mut self) -> Vec<u8> {
        let (mark, body, _) = self.marked_body();
        self.fed(mark, &body)
    }

    /// The record at the next position, which the run takes.
    fn fed(&mut self, mark: Mark, body: &[u8]) -> Vec<u8> {
        let position = self.good.last + 1;
        self.good.step(position, mark, body);
        join(mark_bytes(mark), position, body)
    }

    /// Makes the next call.
    pub fn step(&mut self) -> Step {
        let idle = match self.profile {
            Profile::Waiting => self.good.waiting.is_empty(),
            Profile::Debts => self.good.owed.is_empty(),
            _ => false,
        };
        if self.good.last == u32::MAX && self.rng.percent(70) || idle && self.rng.percent(20) {
            self.good = start::built(&mut self.rng, self.profile);
        }
        let (record, record_note) = self.record();
        let good = encode(&self.good);
        let often = match self.profile {
            Profile::Damage => 20,
            Profile::Debts => 10,
            _ => 3,
        };
        let (before, state_note) = if self.rng.percent(often) {
            damage::state(&mut self.rng, &self.good)
        } else {
            (good, "good")
        };
        let given = (before != self.state).then(|| before.clone());
        let lent = self.reply_buffer();
        let (mut after, mut reply) = (before.clone(), lent.clone());
        let returned = take(&mut after, &record, &mut reply);
        if let Some(run) = read_state(&after) {
            self.good = run;
        }
        self.state.clone_from(&after);
        Step { given, before, record, lent, returned, reply, after, record_note, state_note }
    }

    /// A reply buffer of some length, with any bytes.
    fn reply_buffer(&mut self) -> Vec<u8> {
        let length = match self.rng.below(100) {
            0 => 0,
            1 => self.rng.below(REPLY_BYTES),
            2 => REPLY_BYTES - 1,
            3..=12 => REPLY_BYTES + 1 + self.rng.below(500),
            _ => REPLY_BYTES,
        };
        let mut bytes = Vec::new();
        while bytes.len() < length {
            bytes.extend(self.rng.next().to_be_bytes());
        }
        bytes.truncate(length);
        bytes
    }

    /// A mark, mostly with a legal body, and what was done to the body.
    fn marked_body(&mut self) -> (Mark, Vec<u8>, &'static str) {
        let mark = self.mark();
        let (mut body, mut note) = (self.body(mark), "good");
        let often = if self.profile == Profile::Damage { 25 } else { 3 };
        if self.rng.percent(often) {
            (body, note) = damage::body(&mut self.rng, mark, body);
        }
        (mark, body, note)
    }

    /// The next record: mostly the next position and a legal body.
    fn record(&mut self) -> (Vec<u8>, &'static str) {
        let (mark, body, mut note) = self.marked_body();
        let mut record = join(mark_bytes(mark), self.good.last.wrapping_add(1), &body);
        if self.rng.percent(6) {
            (record, note) = damage::record(&mut self.rng, record, self.good.last);
        }
        (record, note)
    }

    fn mark(&mut self) -> Mark {
        let hosts = self.good.hosts_up();
        if hosts == 0 && self.rng.percent(90) {
            return Mark::Rv;
        }
        let rv = match self.profile {
            Profile::Debts if hosts >= 6 => 5,
            _ if hosts < 3 => 12,
            Profile::Debts => 12,
            _ => 2,
        };
        let (cr, mo, ms, ds) = match self.profile {
            Profile::Debts if debts::is_nearly_full(&self.good) => (14, 4, 2, 8),
            Profile::Debts => (4, 6, 5, 2),
            Profile::Spaces => (1, 1, 14, 12),
            Profile::Monitors => (14, 8, 1, 1),
            Profile::Full => (5, 2, 2, 1),
            Profile::Waiting => (2, 3, 4, 3),
            _ => (3, 2, 4, 3),
        };
        let ag = 100 - rv - cr - mo - ms - ds;
        let marks = [Mark::Rv, Mark::Cr, Mark::Mo, Mark::Ms, Mark::Ds, Mark::Ag];
        marks[self.rng.weighted(&[rv, cr, mo, ms, ds, ag])]
    }

    /// A legal body for the mark.
    fn body(&mut self, mark: Mark) -> Vec<u8> {
        let host = self.host(mark);
        let process = self.process();
        let [high, low] = process.to_be_bytes();
        match mark {
            Mark::Rv | Mark::Cr => vec![host],
            Mark::Mo => vec![host, high, low],
            Mark::Ms => match self.rng.below(3) {
                0 => vec![host, high, low],
                kind => vec![host, high, low, kind as u8 - 1],
            },
            Mark::Ds => {
                let space = self.space_to_close(process).to_be_bytes();
                [&[host, high, low][..], &space].concat()
            }
            Mark::Ag => {
                let mut maker = Maker::new(&mut self.rng, &self.good, self.profile, host, process);
                statement::write(&maker.statement())
            }
        }
    }

    /// An up host, or for RV a down one; now and then any.
    fn host(&mut self, mark: Mark) -> u8 {
        let wanted = mark != Mark::Rv;
        let fit: Vec<u8> = (0..16).filter(|host| self.good.up[usize::from(*host)] == wanted).collect();
        let crowd: Vec<u8> = self.good.waiting.iter().map(|w| w.statement.host).collect();
        let often = if mark == Mark::Rv { 10 } else { 4 };
        let owed = debts::owed_hosts(&self.good, wanted);
        let dropped = if self.profile == Profile::Debts { 15 } else { 60 };
        if fit.is_empty() || self.rng.percent(often) {
            self.rng.below(16) as u8
        } else if matches!(mark, Mark::Rv | Mark::Cr) && !owed.is_empty() && self.rng.percent(40) {
            self.rng.pick(&owed)
        } else if mark == Mark::Cr && !crowd.is_empty() && self.rng.percent(dropped) {
            self.rng.pick(&crowd)
        } else {
            self.rng.pick(&fit)
        }
    }

    /// A process that does not wait; now and then one that does.
    fn process(&mut self) -> u16 {
        let few = [0, 1, 2, 3, 4, 5, 6, 7, 65_535];
        let free: Vec<u16> = few.into_iter().filter(|p| !self.good.process_waits(*p)).collect();
        let busy: Vec<u16> = self.good.waiting.iter().map(|w| w.statement.process).collect();
        if !busy.is_empty() && self.rng.percent(6) {
            self.rng.pick(&busy)
        } else if free.is_empty() || self.rng.percent(5) {
            start::free_process(&mut self.rng, &self.good)
        } else {
            self.rng.pick(&free)
        }
    }

    fn space_to_close(&mut self, process: u16) -> SpaceNumber {
        let open: Vec<SpaceNumber> = self.good.spaces.iter().map(|space| space.number).collect();
        let own: Vec<SpaceNumber> =
            open.iter().copied().filter(|n| *n > 0 && self.good.is_open_to(*n, process)).collect();
        let ends = self.ends();
        let filled = debts::filled(&self.good, &own);
        if self.profile == Profile::Debts && !filled.is_empty() && self.rng.percent(70) {
            return self.rng.pick(&filled);
        }
        match self.rng.below(12) {
            0 => self.good.spaces.last().map_or(0, |space| space.number),
            1 | 2 => numbers::closed(&mut self.rng, &self.good),
            3 | 4 => self.rng.pick(&open),
            5 | 6 if !ends.is_empty() => self.rng.pick(&ends),
            _ if own.is_empty() => self.rng.pick(&open),
            _ => self.rng.pick(&own),
        }
    }

    /// The spaces above 0 from or to which waiting statements move or copy.
    fn ends(&self) -> Vec<SpaceNumber> {
        let branches = self.good.waiting.iter().flat_map(|waiting| &waiting.statement.branches);
        let transfers = branches.flat_map(|branch| &branch.body).filter(|op| op.spaces.len() == 2);
        transfers.flat_map(|op| op.spaces.clone()).filter(|space| *space > 0).collect()
    }
}

fn mark_bytes(mark: Mark) -> [u8; 2] {
    MARKS.iter().find(|(other, _)| *other == mark).map_or(*b"AG", |found| *found.1)
}

/// Mark, length, position, body.
pub fn join(mark: [u8; 2], position: u32, body: &[u8]) -> Vec<u8> {
    let mut record = mark.to_vec();
    record.extend((body.len() as u16).to_be_bytes());
    record.extend(position.to_be_bytes());
    record.extend(body);
    record
}
