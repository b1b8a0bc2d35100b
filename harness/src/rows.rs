//! Calls that go deep or take long: the rows of the benchmark, on which the stack is measured too.

use crate::layout::{REPLY_BYTES, STATE_BYTES};
use crate::states::{self, any, branch, given, naming, operation, put, range, scattered, statement, LAST, NEAR};
use reference::generate::join;
use reference::generate::statements::wide;
use reference::run::{Run, Space, Tuple, Waiting};
use reference::statement::{self, Branch, Field, Operation, IN, INP, MOVE, OUT, RD, TRUE};
use reference::value::{metres, name, whole};

/// A record to be taken by each of some states in turn.
pub struct Row {
    pub name: &'static str,
    pub states: Vec<Vec<u8>>,
    pub record: Vec<u8>,
    pub reply_length: usize,
    /// A check of its states is so short that many must be timed at once.
    pub is_brief: bool,
    /// The first layout whose libraries answer so.
    pub since: u64,
}

/// A body as the next record of these runs.
fn marked(name: &'static str, runs: &[Run], mark: [u8; 2], body: &[u8]) -> Row {
    let record = join(mark, runs[0].last + 1, body);
    let is_brief = runs[0].tuples.len() < 2 && runs[0].waiting.is_empty();
    let states = runs.iter().map(states::bytes).collect();
    Row { name, states, record, reply_length: REPLY_BYTES, is_brief, since: 2 }
}

/// The statement of host 2, process 7, as the next record of these runs.
fn row(name: &'static str, runs: &[Run], branches: Vec<Branch>) -> Row {
    marked(name, runs, *b"AG", &statement::write(&statement(2, 7, branches)))
}

fn always(body: Vec<Operation>) -> Vec<Branch> {
    vec![branch(operation(TRUE, &[], vec![]), body)]
}

fn out(values: &[reference::value::Value]) -> Operation {
    operation(OUT, &[0], given(values))
}

/// in(0, name 7, this whole number, any metres), then this body.
fn newest(number: i32, body: Vec<Operation>) -> Vec<Branch> {
    let fields = vec![Field::Given(name(7)), Field::Given(whole(number)), any(2)];
    vec![branch(operation(IN, &[0], fields), body)]
}

fn near_empty() -> Vec<Row> {
    let empty = states::near_empty();
    let mut one = empty.clone();
    one.tuples.push(Tuple { space: 0, values: vec![name(7), whole(41)] });
    let fields = vec![Field::Given(name(7)), Field::Bind { kind: 0, variable: 0 }];
    let takes = vec![branch(operation(IN, &[0], fields), vec![])];
    vec![
        row("out, near-empty", &[empty], always(vec![out(&[name(7), whole(41)])])),
        row("in, near-empty", &[one], takes),
    ]
}

/// Takes metres and puts sums and differences: of near values, of far ones, and of some that cancel.
fn sums() -> Vec<Row> {
    let held = |values: &[u32]| {
        let values = values.iter().map(|bits| metres(*bits)).collect();
        Run { tuples: vec![Tuple { space: 0, values }], ..states::near_empty() }
    };
    let takes = |count| {
        let fields = (0..count).map(|variable| Field::Bind { kind: 2, variable }).collect();
        operation(IN, &[0], fields)
    };
    let plus = |variable, bits| Field::Plus { variable, value: metres(bits) };
    let minus = |variable, bits| Field::Minus { variable, value: metres(bits) };
    let six = held(&[0x3F80_0000, 0x4049_0FDB, 0x3DCC_CCCD, 0x4B7F_FFFF, 0xC2C8_0000, 0x7F7F_FFFF]);
    let first = vec![
        plus(0, 0x3380_0001),
        minus(1, 0x4049_0FDA),
        plus(2, 0x3F80_0000),
        plus(3, 0x3F00_0000),
        plus(4, 0x42C7_FFFF),
        minus(5, 0x7F00_0000),
    ];
    let second = vec![
        minus(0, 0x4040_0000),
        plus(1, 0x2F00_0000),
        minus(2, 0x4F12_3456),
        minus(3, 0x4B00_0000),
        minus(4, 0x3DCC_CCCD),
        plus(5, 0x72FF_FFFF),
    ];
    let puts = |fields| operation(OUT, &[0], fields);
    let one = vec![puts(vec![plus(0, 0x3DCC_CCCD)])];
    vec![
        row("a sum of metres", &[held(&[0x4049_0FDB])], vec![branch(takes(1), one)]),
        row("12 sums of metres", &[six], vec![branch(takes(6), vec![puts(first), puts(second)])]),
    ]
}

fn many_tuples() -> Vec<Row> {
    let regular = states::regular();
    let random: Vec<Run> = (1..=64).map(states::random).collect();
    let nothing = operation(IN, &[0], given(&[name(8)]));
    let six = vec![branch(operation(IN, &[0], given(&[whole(511); 6])), vec![])];
    vec![
        row("512 tuples of 3, in of the newest", std::slice::from_ref(&regular), newest(511, vec![])),
        row("512 tuples of 6, in of the newest", &[states::six_fields()], six),
        row("512 random, 64 states, in of the newest", &random, newest(511, vec![])),
        row("512 tuples, in of the oldest, then fails", &[regular], newest(0, vec![nothing])),
    ]
}

/// Takes the oldest tuple and puts one that again meets no guard.
fn many_guards() -> Vec<Row> {
    let fields = [1, 0, 1, 0, 0, 0].map(any).to_vec();
    let values = [name(7), whole(1), name(2), whole(3), whole(99), whole(99)];
    let takes = vec![branch(operation(IN, &[0], fields), vec![out(&values)])];
    vec![
        row("512 tuples, 31 x 4 guards, one place differs", &[states::near_misses(false)], takes.clone()),
        row("512 tuples, 31 x 4 guards, any place differs", &[states::near_misses(true)], takes),
    ]
}

fn moves_and_wakes() -> Vec<Row> {
    let mut two_spaces = states::regular();
    two_spaces.next = 2;
    two_spaces.spaces.push(Space { number: 1, private: false, owner: 0 });
    let moves = operation(MOVE, &[0, 1], vec![]);
    let mut mover = two_spaces.clone();
    mover.tuples.pop();
    let waits = vec![branch(operation(IN, &[0], given(&[name(9)])), vec![moves.clone()])];
    mover.waiting.push(Waiting { position: 1, statement: statement(2, 8, waits) });
    let feeds = always(vec![out(&[name(7), whole(41)])]);
    vec![
        row("move of 512", &[two_spaces], always(vec![moves])),
        row("out that wakes a move of 511", &[mover], always(vec![out(&[name(9)])])),
        row("out that wakes 32", &[states::crowd(false)], feeds),
        row("511 tuples, 32 x 4 guards, youngest wake first", &[states::chain()], always(vec![out(&states::awaited(31))])),
        row("outs that wake 32, 16 values each", &[states::crowd(true)], wide(2, 7, true).branches),
    ]
}

/// 32 spaces are open, and what names them names now a low and now a high one.
fn many_spaces() -> Vec<Row> {
    let (full, crowd) = (states::spread(512), states::many_names());
    let newest = &full.tuples[511];
    let takes = vec![branch(operation(IN, &[newest.space], given(&newest.values)), vec![])];
    let puts = |from: usize, to: usize| always((from..to).map(put).collect());
    let twelve = [naming(3, 0), puts(9, 12)].concat();
    let [high, low] = scattered(LAST).to_be_bytes();
    let closes = |name, run: &Run| marked(name, std::slice::from_ref(run), *b"DS", &[2, 0, 7, high, low]);
    vec![
        row("32 spaces, 512 tuples, in of the newest", std::slice::from_ref(&full), takes),
        row("32 spaces, 504 tuples, outs to 8 of them", &[states::spread(504)], puts(0, 8)),
        row("32 spaces, body that names 12 of them", &[states::spread(0)], twelve),
        row("32 spaces, 31 waiting name 12 each, out", std::slice::from_ref(&crowd), puts(0, 1)),
        closes("32 spaces, 512 tuples, DS of the last", &full),
        closes("32 spaces, 31 waiting name 12 each, DS", &crowd),
    ]
}

/// Crashes without room and debts, which libraries before layout 3 refuse.
fn debts() -> Vec<Row> {
    let mut crashing = states::owing(0, &[]);
    crashing.up[3] = true;
    let last = states::owing(0, &[(8, 15)]);
    let mut mover = last.clone();
    let moves = vec![operation(MOVE, &[0, 1], vec![])];
    let told = branch(operation(RD, &[0], given(&states::notice(8, 15))), moves);
    mover.waiting.push(Waiting { position: 1, statement: statement(2, 8, vec![told]) });
    let closes = |name, run: Run| marked(name, &[run], *b"DS", &[2, 0, 7, 0, 1]);
    let rows = vec![
        marked("512 tuples, 8 monitors, crash", &[crashing], *b"CR", &[3]),
        row("512 tuples, a pair owed, in of the newest", &[last], newest(511, vec![])),
        row("a pair owed, in that wakes a move of 512", &[mover], newest(511, vec![])),
        closes("512 tuples, 128 pairs owed, DS of all", states::owing(1, &states::pairs())),
        closes("512 tuples, 128 pairs owed, DS that wakes 32", states::told()),
        row("128 pairs owed, 32 x 4 guards, youngest first", &[states::owed_chain()], states::take_four()),
    ];
    rows.into_iter().map(|row| Row { since: 3, ..row }).collect()
}

/// Searches by ranges, which libraries before layout 4 call malformed.
fn ranges() -> Vec<Row> {
    let near = |code| {
        let fields = vec![Field::Given(name(7)), range(metres(NEAR[0]), metres(NEAR[1]), 0)];
        vec![branch(operation(code, &[0], fields), vec![])]
    };
    let six = (0..6).map(|variable| range(whole(511), whole(i32::MAX), variable)).collect();
    let six = vec![branch(operation(IN, &[0], six), vec![])];
    let takes = operation(IN, &[0], [1, 0, 1, 0, 0, 0].map(any).to_vec());
    let takes = vec![branch(takes, vec![out(&states::link(99))])];
    let outs = vec![out(&states::at(0x4060_0000)); 8];
    let rows = vec![
        row("512 tuples, in of a range, the newest alone", &[states::positions(0x4060_0000)], near(IN)),
        row("512 tuples, inp of a range that has none", &[states::positions(0x4066_6667)], near(INP)),
        row("512 tuples of 6, in of the newest by 6 ranges", &[states::six_fields()], six),
        row("512 tuples, 31 x 4 guards with a range, out", &[states::missed_ranges()], takes),
        row("outs that wake 8 of 32 by a range", &[states::near_crowd()], always(outs)),
    ];
    rows.into_iter().map(|row| Row { since: 4, ..row }).collect()
}

/// The check of the states of these rows takes at most so many units of the benchmark, in the least sample: 512 tuples
/// of one shape in one space, and spread over 32.
pub const LIMITS: [(&str, f64); 2] =
    [("512 tuples of 3, in of the newest", 15.0), ("32 spaces, 512 tuples, in of the newest", 20.0)];

/// Records that are taken.
pub fn taken() -> Vec<Row> {
    let rows =
        [near_empty(), sums(), many_tuples(), many_guards(), moves_and_wakes(), many_spaces(), debts(), ranges()];
    rows.into_iter().flatten().collect()
}

/// Refusals 1 to 5 on a near-empty state, 1 for three reasons.
pub fn refused() -> Vec<Row> {
    let good = || row("", &[states::near_empty()], always(vec![out(&[metres(0)])]));
    let changed = |name: &'static str, change: fn(&mut Row)| {
        let mut row = good();
        row.name = name;
        change(&mut row);
        row
    };
    vec![
        changed("refusal 1, length", |row| row.states[0].truncate(STATE_BYTES - 1)),
        changed("refusal 1, first byte", |row| row.states[0][0] = 0),
        changed("refusal 1, last byte", |row| row.states[0][STATE_BYTES - 1] = 1),
        changed("refusal 2", |row| row.reply_length = REPLY_BYTES - 1),
        changed("refusal 3", |row| row.record[0] = b'X'),
        changed("refusal 4", |row| row.record[7] = 1),
        changed("refusal 5", |row| row.record[7] = 3),
    ]
}
