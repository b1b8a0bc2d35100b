//! The writer's functions: one addition compared in everything that it can do, and chains of random additions.

use crate::hex::hex;
use crate::layout::{REPLY_BYTES, STATE_BYTES};
use crate::lent::Lent;
use crate::library::{self, Addition, Field};
use reference::generate::join;
use reference::generate::rng::Rng;
use reference::writer as second;

/// What an addition is to do.
#[derive(Clone, Copy, Debug, PartialEq, Eq)]
pub enum Call {
    Begin { host: u8, process: u16 },
    Operation,
    Branch,
}

/// The three functions behind one, of the library or of a stand-in.
pub trait Write: FnMut(&mut [u8], &mut usize, Call, Addition) -> u64 {}
impl<F: FnMut(&mut [u8], &mut usize, Call, Addition) -> u64> Write for F {}

pub fn library(body: &mut [u8], fill: &mut usize, call: Call, addition: Addition) -> u64 {
    let (bytes, length) = (body.as_mut_ptr(), body.len());
    unsafe {
        match call {
            Call::Begin { host, process } => {
                library::replica_begin(bytes, length, fill, host, process, addition)
            }
            Call::Operation => library::replica_operation(bytes, length, fill, addition),
            Call::Branch => library::replica_branch(bytes, length, fill, addition),
        }
    }
}

fn spaces(addition: &Addition) -> Vec<u16> {
    match addition.code {
        0 => Vec::new(),
        1..=5 => vec![addition.from],
        _ => vec![addition.from, addition.to],
    }
}

/// The fields that count; one more than fit where the count is higher. The code true has none.
fn fields(addition: &Addition) -> Vec<Field> {
    match addition.code {
        0 => Vec::new(),
        _ => addition.fields.iter().chain([&Field::default()]).take(addition.count).copied().collect(),
    }
}

/// The parts as the second implementation takes them.
fn handed(addition: &Addition) -> second::Addition {
    let part = |field: Field| second::Part {
        form: field.form,
        kind: field.kind,
        variable: field.variable,
        value: field.bits.to_be_bytes(),
        highest: field.highest.to_be_bytes(),
    };
    let fields = fields(addition).into_iter().map(part).collect();
    second::Addition { code: addition.code, spaces: spaces(addition), fields }
}

pub fn reference(body: &mut [u8], fill: &mut usize, call: Call, addition: Addition) -> u64 {
    let addition = handed(&addition);
    let (answer, left) = match call {
        Call::Begin { host, process } => second::begin(body, host, process, &addition),
        Call::Operation => second::add_operation(body, *fill, &addition),
        Call::Branch => second::add_branch(body, *fill, &addition),
    };
    *fill = left;
    answer
}

// ---- Bytes composed by hand ----

fn field_bytes(field: &Field) -> Vec<u8> {
    let (variable, kind, bits) = (field.variable, field.kind, field.bits.to_be_bytes());
    let parts = match field.form {
        0 => [&[kind], &bits[..]].concat(),
        1 => vec![kind, variable],
        2 => vec![variable],
        5 => vec![kind],
        6 => [&[kind], &bits[..], &field.highest.to_be_bytes(), &[variable]].concat(),
        _ => [&[variable, kind], &bits[..]].concat(),
    };
    [vec![field.form], parts].concat()
}

/// The bytes of an addition, legal or not.
pub fn bytes(addition: &Addition) -> Vec<u8> {
    let mut bytes = vec![addition.code];
    if addition.code != 0 {
        bytes.extend(spaces(addition).into_iter().flat_map(u16::to_be_bytes));
        bytes.push(addition.count.min(255) as u8);
        bytes.extend(fields(addition).iter().flat_map(field_bytes));
    }
    bytes
}

/// A body, and where the operation count of its last branch stands.
#[derive(Clone, Default)]
pub struct Body {
    pub bytes: Vec<u8>,
    pub count_at: usize,
}

impl Body {
    /// The body with an addition more, legal or not.
    pub fn with(&self, call: Call, addition: &Addition) -> Body {
        let mut body = self.clone();
        if let Call::Begin { host, process } = call {
            let [high, low] = process.to_be_bytes();
            body.bytes = vec![host, high, low, 0];
        }
        body.bytes.extend(bytes(addition));
        if call == Call::Operation {
            body.bytes[self.count_at] += 1;
        } else {
            body.bytes[3] += 1;
            body.count_at = body.bytes.len();
            body.bytes.push(0);
        }
        body
    }
}

// ---- One addition ----

/// How many additions were answered 0, 6 and 2, for each of the three functions.
#[derive(Clone, Copy, Debug, Default, PartialEq, Eq)]
pub struct Counts {
    pub answers: [[u64; 3]; 3],
    /// Records of filled bytes, and of refused additions composed by hand.
    pub records: [u64; 2],
    /// Ranges in the additions that were done.
    pub ranges: u64,
    /// The most bytes of a body, branches, and operations of a branch.
    pub most: [usize; 3],
}

impl Counts {
    pub fn sum(&self) -> u64 {
        self.answers.iter().flatten().sum()
    }

    fn note_body(&mut self, body: &Body) {
        let reached = [body.bytes.len(), body.bytes[3].into(), body.bytes[body.count_at].into()];
        self.most = std::array::from_fn(|at| self.most[at].max(reached[at]));
        self.records[0] += 1;
    }

    fn note(&mut self, call: Call, answer: u64) {
        let row = match call {
            Call::Begin { .. } => 0,
            Call::Operation => 1,
            Call::Branch => 2,
        };
        let column = [0, 6, 2].iter().position(|number| *number == answer);
        self.answers[row][column.expect("the comparison lets no other answer pass")] += 1;
    }
}

/// Canaries on both sides of the fill.
const GUARD: usize = 0xA55A_C33C_0FF0_9669;

pub struct Desk<W> {
    write: W,
    buffer: Lent,
    turn: usize,
    up: Vec<u8>,
    pub counts: Counts,
}

impl<W: Write> Desk<W> {
    pub fn new(write: W) -> Desk<W> {
        Desk { write, buffer: Lent::default(), turn: 0, up: all_up(), counts: Counts::default() }
    }

    /// Makes the addition on both implementations, and compares the return, the fill, the buffer and the
    /// bytes around both. Hands back the answer, and the fill after it.
    pub fn agree(
        &mut self,
        buffer: &[u8],
        fill: usize,
        call: Call,
        addition: &Addition,
    ) -> Result<(u64, usize), String> {
        self.turn += 1;
        self.buffer.fill(buffer, self.turn);
        let mut fills = [GUARD, fill, GUARD];
        let answer = (self.write)(self.buffer.bytes_mut(), &mut fills[1], call, *addition);
        let (mut after, mut wanted) = (buffer.to_vec(), fill);
        let expected = reference(&mut after, &mut wanted, call, *addition);
        if answer != expected {
            return Err(format!("returned {answer} and not {expected}"));
        }
        if fills != [GUARD, wanted, GUARD] {
            return Err(format!("the fill is {} and not {wanted}, or a word beside it changed", fills[1]));
        }
        self.buffer.holds(&after).map_err(|fault| format!("the body {fault}"))?;
        self.counts.note(call, answer);
        if answer == 0 {
            self.counts.ranges += fields(addition).iter().filter(|field| field.form == 6).count() as u64;
        }
        Ok((answer, wanted))
    }

    /// The outcome that a replica with all hosts up gives a statement of this body; None where it waits.
    pub fn outcome(&self, body: &[u8]) -> Result<Option<u8>, String> {
        let (mut state, mut reply) = (self.up.clone(), [0; REPLY_BYTES]);
        match library::take(&mut state, &join(*b"AG", 17, body), &mut reply) {
            0 => Ok(None),
            number @ 1..=5 => Err(format!("the record was refused {number}")),
            _ => Ok(Some(reply[9])),
        }
    }

    /// The addition to a body, in a buffer of so many of these bytes. Where it is done, the filled bytes are
    /// those composed by hand, and no record of them has outcome 6; one of a refused 6 has.
    pub fn add(
        &mut self,
        body: &Body,
        call: Call,
        addition: &Addition,
        buffer: &[u8],
    ) -> Result<u64, String> {
        let (answer, fill) = self.agree(buffer, body.bytes.len(), call, addition)?;
        let composed = body.with(call, addition);
        let filled = &self.buffer.bytes()[..if answer == 0 { fill } else { 0 }];
        if answer == 0 && composed.bytes != filled {
            return Err(format!("the filled bytes are {}", hex(filled)));
        }
        if !is_judged(call, body, buffer) {
            return Ok(answer);
        }
        if answer == 0 {
            self.counts.note_body(&composed);
        } else {
            self.counts.records[1] += 1;
        }
        let malformed = self.outcome(&composed.bytes)? == Some(6);
        if malformed != (answer == 6) {
            return Err(format!("answered {answer}, outcome 6 is {malformed}: {}", hex(&composed.bytes)));
        }
        Ok(answer)
    }
}

/// Whether the buffer holds the body whole, so that it is the addition that is judged.
fn is_judged(call: Call, body: &Body, buffer: &[u8]) -> bool {
    matches!(call, Call::Begin { .. }) || buffer.starts_with(&body.bytes)
}

/// The state with hosts 0 to 15 up, at position 16.
fn all_up() -> Vec<u8> {
    let (mut state, mut reply) = (vec![0; STATE_BYTES], [0; REPLY_BYTES]);
    assert_eq!(library::fresh(&mut state), 0);
    for host in 0..16 {
        let record = join(*b"RV", u32::from(host) + 1, &[host]);
        assert_eq!(library::take(&mut state, &record, &mut reply), 18);
    }
    state
}

// ---- Random additions ----

/// Ends of the range, and of what one byte holds; numbers with a low byte of 0. All are legal.
const SPACES: [u16; 7] = [0, 1, 255, 256, 512, 32_768, 65_535];
/// Ends of the ranges of every kind; infinite metres, metres that are no number, negative zero.
const BITS: [u32; 12] = [
    0,
    1,
    7,
    65_535,
    65_536,
    0x7FFF_FFFF,
    0x8000_0000,
    0xFFFF_FFFF,
    0x3F80_0000,
    0x7F80_0000,
    0x7FC0_0000,
    0xFF7F_FFFF,
];

/// Legal metres, of both signs; the greatest, and subnormal ones.
const METRES: [u32; 8] = [
    0,
    1,
    0x8000_0001,
    0x807F_FFFF,
    0x3F80_0000,
    0xC000_0000,
    0x7F7F_FFFF,
    0xFF7F_FFFF,
];

fn any_field(rng: &mut Rng) -> Field {
    Field {
        form: rng.below(8) as u8,
        kind: rng.below(4) as u8,
        variable: rng.below(18) as u8,
        bits: rng.pick(&BITS),
        highest: rng.pick(&BITS),
    }
}

/// Parts of every range, legal or not.
fn any_addition(rng: &mut Rng) -> Addition {
    Addition {
        code: rng.below(10) as u8,
        from: rng.pick(&SPACES),
        to: rng.pick(&SPACES),
        count: if rng.percent(2) { usize::MAX } else { rng.below(9) },
        fields: std::array::from_fn(|_| any_field(rng)),
    }
}

/// The variables that a branch has bound, with their kinds.
type Bound = Vec<(u8, u8)>;

fn legal_bits(rng: &mut Rng, kind: u8) -> u32 {
    match kind {
        1 => rng.pick(&[0, 7, 65_535]),
        2 => rng.pick(&METRES),
        _ => rng.pick(&BITS),
    }
}

/// Whether the whole number, or the metres, of the one bits are at most those of the other.
fn at_most(kind: u8, one: u32, other: u32) -> bool {
    match kind {
        2 => f32::from_bits(one) <= f32::from_bits(other),
        _ => one as i32 <= other as i32,
    }
}

/// The ends of a legal range of the kind, now and then equal.
fn legal_ends(rng: &mut Rng, kind: u8) -> (u32, u32) {
    let (one, other) = (legal_bits(rng, kind), legal_bits(rng, kind));
    if at_most(kind, one, other) { (one, other) } else { (other, one) }
}

/// A field that an operation of this code may have; parts that it does not have are of any kind.
fn legal_field(rng: &mut Rng, code: u8, bound: &Bound, binds: &mut Bound) -> Field {
    let mut field = any_field(rng);
    let forms: &[u8] = match code {
        1..=4 => &[0, 1, 2, 5, 6],
        5 => &[0, 2, 3, 4],
        _ => &[0, 2, 5],
    };
    field.form = rng.pick(forms);
    let free = |v: &u8| !bound.iter().chain(binds.iter()).any(|(other, _)| other == v);
    let frees: Vec<u8> = (0..16).filter(free).collect();
    let usable: Vec<(u8, u8)> =
        bound.iter().copied().filter(|(_, kind)| field.form == 2 || *kind != 1).collect();
    match field.form {
        1 if !frees.is_empty() => {
            (field.kind, field.variable) = (rng.below(3) as u8, rng.pick(&frees));
            binds.push((field.variable, field.kind));
        }
        6 if !frees.is_empty() => {
            (field.kind, field.variable) = (rng.pick(&[0, 2]), rng.pick(&frees));
            (field.bits, field.highest) = legal_ends(rng, field.kind);
            binds.push((field.variable, field.kind));
        }
        2 if !usable.is_empty() => field.variable = rng.pick(&usable).0,
        3 | 4 if !usable.is_empty() => {
            (field.variable, field.kind) = rng.pick(&usable);
            field.bits = legal_bits(rng, field.kind);
        }
        5 => field.kind = rng.below(3) as u8,
        _ => {
            (field.form, field.kind) = (0, rng.below(3) as u8);
            field.bits = legal_bits(rng, field.kind);
        }
    }
    field
}

/// A legal guard or operation; what it binds is handed back. Unused parts are of any kind.
fn legal_addition(rng: &mut Rng, guard: bool, wide: bool, bound: &Bound) -> (Addition, Bound) {
    let mut addition = any_addition(rng);
    let mut binds = Bound::new();
    addition.code = rng.pick(if guard { &[0, 0, 1, 2, 3, 4] } else { &[1, 3, 5, 5, 6, 7] });
    if addition.code == 0 {
        return (addition, binds);
    }
    addition.count = if wide { 5 + rng.below(2) } else { 1 + rng.below(3) };
    if addition.code > 5 {
        addition.count -= rng.below(2);
    }
    for at in 0..addition.count {
        addition.fields[at] = legal_field(rng, addition.code, bound, &mut binds);
    }
    (addition, binds)
}

/// The addition with one part of another.
fn mutated(rng: &mut Rng, mut addition: Addition) -> Addition {
    let other = any_addition(rng);
    let at = rng.below(6);
    match rng.below(9) {
        0 => addition.code = other.code,
        1 => addition.from = other.from,
        2 => addition.to = other.to,
        3 => addition.count = other.count,
        4 => addition.fields[at].form = other.fields[at].form,
        5 => addition.fields[at].kind = other.fields[at].kind,
        6 => addition.fields[at].variable = other.fields[at].variable,
        7 => addition.fields[at].highest = other.fields[at].highest,
        _ => addition.fields[at].bits = other.fields[at].bits,
    }
    addition
}

// ---- Chains of additions ----

/// More than a body and an addition need.
const ROOM: usize = 320;
const STEPS: usize = 24;

struct Chain {
    rng: Rng,
    body: Body,
    bound: Bound,
    /// Long operations, which lead to 250 bytes; short ones lead to 8 operations and 4 branches.
    wide: bool,
    /// The next of the buffer lengths that come round, 0 to 256.
    length: usize,
}

impl Chain {
    fn new(seed: u64, number: u64) -> Chain {
        let mut rng = Rng::new(seed.wrapping_mul(1_000_003).wrapping_add(number));
        let wide = rng.percent(50);
        let length = (number as usize).wrapping_mul(STEPS) % 257;
        Chain { rng, body: Body::default(), bound: Bound::new(), wide, length }
    }

    fn next_call(&mut self) -> Call {
        let hosts = [0, 2, 15, 15, 16, 255];
        if self.body.bytes.is_empty() || self.rng.percent(2) {
            let process = self.rng.next() as u16;
            return Call::Begin { host: self.rng.pick(&hosts), process };
        }
        if self.rng.percent(if self.wide { 15 } else { 20 }) {
            Call::Branch
        } else {
            Call::Operation
        }
    }

    /// Legal, or legal but for one part, or of any parts; with what it binds.
    fn next_addition(&mut self, call: Call) -> (Addition, Bound) {
        let bound = if call == Call::Operation { self.bound.clone() } else { Bound::new() };
        let (addition, binds) = legal_addition(&mut self.rng, call != Call::Operation, self.wide, &bound);
        match self.rng.below(20) {
            0..=11 => (addition, [bound, binds].concat()),
            12..=17 => (mutated(&mut self.rng, addition), [bound, binds].concat()),
            _ => (any_addition(&mut self.rng), bound),
        }
    }

    /// The filled bytes, and any bytes after them.
    fn buffer(&mut self) -> Vec<u8> {
        let mut bytes = self.body.bytes.clone();
        bytes.extend((bytes.len()..ROOM).map(|_| self.rng.next() as u8));
        bytes
    }

    /// The lengths that a step tries: one that comes round, those around what is needed, and ample.
    fn lengths(&mut self, needed: usize) -> [usize; 5] {
        self.length = (self.length + 1) % 257;
        [self.length, needed.saturating_sub(1), needed, needed + 1, ROOM]
    }

    /// One addition at several buffer lengths, then at a damaged body; what was done last stays.
    fn step(&mut self, desk: &mut Desk<impl Write>) -> Result<(), String> {
        let call = self.next_call();
        let (addition, bound) = self.next_addition(call);
        let told = |fault: String| format!("{call:?} {addition:?}: {fault}");
        let after = self.body.with(call, &addition);
        let needed = after.bytes.len().min(ROOM - 1);
        let buffer = self.buffer();
        let mut done = false;
        for length in self.lengths(needed) {
            done = desk.add(&self.body, call, &addition, &buffer[..length]).map_err(told)? == 0;
        }
        self.damaged(desk, buffer, call, &addition).map_err(told)?;
        if done {
            (self.body, self.bound) = (after, bound);
        }
        Ok(())
    }

    /// Another fill, past the buffer too, and a changed filled byte.
    fn damaged(
        &mut self,
        desk: &mut Desk<impl Write>,
        mut buffer: Vec<u8>,
        call: Call,
        addition: &Addition,
    ) -> Result<(), String> {
        let fill = self.body.bytes.len();
        let fills = [fill.wrapping_sub(1), fill + 1, 0, ROOM, ROOM + 1, usize::MAX, self.rng.below(ROOM)];
        let other = self.rng.pick(&fills);
        desk.agree(&buffer, other, call, addition)?;
        let at = self.rng.below(fill.max(1));
        buffer[at] = buffer[at].wrapping_add(self.rng.pick(&[1, 255, 128, 2]));
        desk.agree(&buffer, fill, call, addition)?;
        Ok(())
    }
}

/// One chain of random additions; a fault names the words that make it again.
pub fn chain(seed: u64, number: u64, desk: &mut Desk<impl Write>) -> Result<(), String> {
    let mut chain = Chain::new(seed, number);
    for step in 0..STEPS {
        chain.step(desk).map_err(|fault| format!("seed {seed} chain {number} step {step}: {fault}"))?;
    }
    Ok(())
}
