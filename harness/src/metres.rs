//! Sums and differences of metres: values that are hard to add, what is expected of them, and replicas that add
//! them in some mode, a record for each.

use crate::hex::record;
use crate::layout::{HEADER_USED, REPLY_BYTES, TUPLES_AT, TUPLE_BYTES, VALUES_AT};
use crate::modes::{self, Mode, Take};
use crate::states;
use reference::generate::rng::Rng;
use reference::run::Tuple;
use reference::value::metres;
use std::fmt::{Display, Formatter, Result as Written};
use std::ops::Range;

// ---- Sums ----

/// Two metres values by their bits, which are added or subtracted.
#[derive(Clone, Copy, Debug, PartialEq, Eq)]
pub struct Sum {
    pub left: u32,
    pub minus: bool,
    pub right: u32,
}

/// The bits of the result, and none for outcome 17.
pub type Answer = Option<u32>;

impl Sum {
    /// The processor's own result. To be asked for in the default mode alone.
    pub fn expected(self) -> Answer {
        let (left, right) = (f32::from_bits(self.left), f32::from_bits(self.right));
        let result = if self.minus { left - right } else { left + right };
        result.is_finite().then_some(result.to_bits())
    }

    /// What the processor's own addition gives in a mode, and the flags that it raises.
    pub fn processor(self, mode: Mode) -> (u32, u32) {
        modes::processor(mode, self.left, self.right ^ u32::from(self.minus) << 31)
    }
}

impl Display for Sum {
    fn fmt(&self, f: &mut Formatter) -> Written {
        let Sum { left, minus, right } = self;
        write!(f, "{left:08X} {} {right:08X}", if *minus { "minus" } else { "plus" })
    }
}

pub fn shown(answer: Answer) -> String {
    answer.map_or("17".to_string(), |bits| format!("{bits:08X}"))
}

/// Sum and difference of a pair.
pub fn both([left, right]: [u32; 2]) -> [Sum; 2] {
    [false, true].map(|minus| Sum { left, minus, right })
}

// ---- Pairs ----

const SIGN: u32 = 0x8000_0000;
const FRACTION: u32 = 0x007F_FFFF;

/// Finite, and not negative zero.
pub fn is_legal(bits: u32) -> bool {
    bits & !SIGN < 0x7F80_0000 && bits != SIGN
}

/// Exponents of which many pairs are 22 to 26 apart, where the smaller value is about half of the last place of
/// the greater: at the lower end (0 is that of subnormals), around 1, and at the upper end.
const EXPONENTS: [u32; 19] =
    [0, 1, 2, 23, 24, 25, 102, 103, 104, 126, 127, 128, 150, 151, 152, 229, 230, 253, 254];
/// Powers of two with their neighbours, and halves; even and odd ones.
const FRACTIONS: [u32; 6] = [0, 1, 0x3F_FFFF, 0x40_0000, 0x7F_FFFE, 0x7F_FFFF];

/// Each of these exponents with each of these fractions, of both signs.
pub fn hard() -> Vec<u32> {
    let values = EXPONENTS.iter().flat_map(|exponent| FRACTIONS.map(|fraction| exponent << 23 | fraction));
    values.flat_map(|bits| [bits, bits | SIGN]).filter(|bits| is_legal(*bits)).collect()
}

pub fn hard_pairs() -> Vec<[u32; 2]> {
    let values = hard();
    values.iter().flat_map(|left| values.iter().map(|right| [*left, *right])).collect()
}

/// Random bits of a metres value.
fn uniform(rng: &mut Rng) -> u32 {
    loop {
        let bits = rng.next() as u32;
        if is_legal(bits) {
            return bits;
        }
    }
}

pub fn uniform_pair(rng: &mut Rng) -> [u32; 2] {
    [uniform(rng), uniform(rng)]
}

/// Values whose exponents are at most 26 apart, so that fractions overlap or just miss: ties, carries, cancellation.
/// Every third first value is at an end of the range or around 1.
pub fn near_pair(rng: &mut Rng) -> [u32; 2] {
    let mut left = uniform(rng);
    if rng.below(3) == 0 {
        left = left & (SIGN | FRACTION) | rng.pick(&EXPONENTS) << 23;
    }
    let exponent = ((left >> 23 & 0xFF) + rng.below(53) as u32).saturating_sub(26).min(254);
    let fraction = match rng.below(4) {
        0 => rng.next() as u32,
        1 => left.wrapping_add(rng.below(9) as u32).wrapping_sub(4),
        2 => (rng.next() as u32) << rng.below(24),
        _ => rng.pick(&FRACTIONS),
    };
    let right = rng.next() as u32 & SIGN | exponent << 23 | fraction & FRACTION;
    if is_legal(left) && is_legal(right) {
        [left, right]
    } else {
        near_pair(rng)
    }
}

/// All pairs of hard values, then so many of random bits and so many near ones, added and subtracted.
pub fn sums(seed: u64, count: usize) -> Vec<Sum> {
    let mut rng = Rng::new(seed);
    let random = (0..2 * count).map(|at| match at % 2 {
        0 => uniform_pair(&mut rng),
        _ => near_pair(&mut rng),
    });
    hard_pairs().into_iter().chain(random).flat_map(both).collect()
}

// ---- Replicas ----

/// in(0, any metres), then out(0, left), in(0, metres into 0), out(0, variable 0 plus or minus right), by process 5
/// of host 2.
const ADDS: &str = "02 0005 01  01 0000 01 05 02  03
    05 0000 01 00 02 00000000  01 0000 01 01 02 00  05 0000 01 03 00 02 00000000";
/// Where a record has them.
const POSITION_AT: usize = 4;
const LEFT_AT: usize = 25;
const FORM_AT: usize = 40;
const RIGHT_AT: usize = 43;
const RECORD_BYTES: usize = 47;
const PLUS: u8 = 3;
const MINUS: u8 = 4;

/// Header and only tuple of the state.
const USED: [Range<usize>; 2] = [0..HEADER_USED, TUPLES_AT..TUPLES_AT + TUPLE_BYTES];
/// The four bytes of its value, after the kind.
const VALUE_AT: usize = TUPLES_AT + VALUES_AT + 1;
/// The outcome in a reply, the bytes of one with the variable, and of one without.
const OUTCOME_AT: usize = 9;
const DONE_BYTES: u64 = 18;
const REFUSED_BYTES: u64 = 12;
/// Whole buffers are compared after each so many records.
const RUN: usize = 32;

/// A replica with one tuple, of one metres value, whose calls are all made in one mode.
pub struct Adder {
    pub mode: Mode,
    take: Take,
    position: u32,
    record: Vec<u8>,
    state: Vec<u8>,
    reply: Vec<u8>,
    /// The first sum whose call changed MXCSR, and to what.
    changed: Option<(Sum, u32)>,
}

impl Adder {
    pub fn new(mode: Mode, take: Take) -> Adder {
        let mut run = states::near_empty();
        run.tuples.push(Tuple { space: 0, values: vec![metres(0)] });
        let (state, reply) = (states::bytes(&run), vec![0; REPLY_BYTES]);
        let record = record("AG", 0, ADDS);
        assert_eq!(record.len(), RECORD_BYTES);
        Adder { mode, take, position: run.last, record, state, reply, changed: None }
    }

    fn write(&mut self, at: usize, number: u32) {
        self.record[at..at + 4].copy_from_slice(&number.to_be_bytes());
    }

    /// Takes the next record, which puts this sum in the place of the tuple. The answer is read from the state.
    pub fn add(&mut self, sum: Sum) -> Result<Answer, String> {
        self.position += 1;
        self.write(POSITION_AT, self.position);
        self.write(LEFT_AT, sum.left);
        self.write(RIGHT_AT, sum.right);
        self.record[FORM_AT] = if sum.minus { MINUS } else { PLUS };
        let (returned, word) =
            modes::call(self.mode, self.take, &mut self.state, &self.record, &mut self.reply);
        if word != self.mode.word && self.changed.is_none() {
            self.changed = Some((sum, word));
        }
        match (returned, self.reply[OUTCOME_AT]) {
            (DONE_BYTES, 0) => Ok(Some(self.value())),
            (REFUSED_BYTES, 17) => Ok(None),
            (REFUSED_BYTES.., outcome) => Err(format!("{sum}: {}: outcome {outcome}", self.mode)),
            _ => Err(format!("{sum}: {}: turned back with {returned}", self.mode)),
        }
    }

    /// The value of the only tuple.
    fn value(&self) -> u32 {
        self.state[VALUE_AT..VALUE_AT + 4].iter().fold(0, |bits, byte| bits << 8 | u32::from(*byte))
    }

    /// As `add`, and the answer is the expected one.
    pub fn expect(&mut self, sum: Sum, expected: Answer) -> Result<(), String> {
        let answer = self.add(sum)?;
        if answer == expected {
            return Ok(());
        }
        Err(format!("{sum}: {}: {} and not {}", self.mode, shown(answer), shown(expected)))
    }

    /// No call changed MXCSR, neither the mode nor a flag.
    pub fn expect_word(&self) -> Result<(), String> {
        let Some((sum, word)) = self.changed else { return Ok(()) };
        Err(format!("{sum}: {}: MXCSR was {:04X} and is {word:04X}", self.mode, self.mode.word))
    }

    /// Both have the same bytes: where a record changes them, or everywhere.
    fn expect_alike(&self, other: &Adder, whole: bool, sum: Sum) -> Result<(), String> {
        let replies = 0..DONE_BYTES as usize;
        let used = USED.iter().all(|used| self.state[used.clone()] == other.state[used.clone()]);
        let replied = self.reply[replies.clone()] == other.reply[replies];
        if used && replied && (!whole || self.state == other.state && self.reply == other.reply) {
            return Ok(());
        }
        Err(format!("{sum}: {} and {}: bytes differ", self.mode, other.mode))
    }
}

/// Two replicas take the same records in their modes: they answer as expected, have the same bytes, and leave MXCSR
/// alone. The last is told last, but where an exception would end the program, before that.
pub fn alike([one, other]: &mut [Adder; 2], sums: &[Sum]) -> Result<(), String> {
    for (at, sum) in sums.iter().enumerate() {
        let (expected, is_last) = (sum.expected(), at + 1 == sums.len());
        one.expect(*sum, expected)?;
        if other.mode.traps() {
            one.expect_word()?;
        }
        other.expect(*sum, expected)?;
        one.expect_alike(other, is_last || at % RUN == 0, *sum)?;
    }
    one.expect_word().and_then(|()| other.expect_word())
}
