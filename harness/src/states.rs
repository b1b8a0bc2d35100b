//! States built by hand, to be damaged, to measure the stack and to time calls on.

use reference::generate::ranges;
use reference::generate::rng::Rng;
use reference::generate::statements::{signal, wide};
use reference::layout::{encode, is_state};
use reference::run::{Run, Space, Tuple, Waiting};
use reference::statement::{self, Branch, Field, Operation, Statement, IN, INP, MOVE, OUT, RD, RDP};
use reference::value::{metres, name, whole, Value};

// ---- Parts ----

pub fn operation(code: u8, spaces: &[u16], fields: Vec<Field>) -> Operation {
    Operation { code, spaces: spaces.to_vec(), fields }
}

pub fn given(values: &[Value]) -> Vec<Field> {
    values.iter().map(|value| Field::Given(*value)).collect()
}

pub fn any(kind: u8) -> Field {
    Field::Any { kind }
}

/// From the one value to the other, into this variable.
pub fn range(lowest: Value, highest: Value, variable: u8) -> Field {
    ranges::field((lowest, highest), variable)
}

pub fn branch(guard: Operation, body: Vec<Operation>) -> Branch {
    Branch { guard, body }
}

pub fn statement(host: u8, process: u16, branches: Vec<Branch>) -> Statement {
    Statement { host, process, branches }
}

fn tuple(space: u16, values: &[Value]) -> Tuple {
    Tuple { space, values: values.to_vec() }
}

/// The bytes of a run that is a state.
pub fn bytes(run: &Run) -> Vec<u8> {
    let bytes = encode(run);
    assert!(is_state(&bytes));
    bytes
}

/// Host 2 is up, and nothing else.
pub fn near_empty() -> Run {
    let mut run = Run { last: 1, ..Run::fresh() };
    run.up[2] = true;
    run
}

// ---- States to be damaged ----

/// A tuple of a count of values, whose kinds and values go by the number; neighbours differ in kind.
fn mixed_tuple(space: u16, number: usize, count: usize) -> Tuple {
    let kinds = [whole(-(number as i32)), name(number as u16), metres(0xC060_0000)];
    Tuple { space, values: (0..count).map(|at| kinds[(number + at) % 3]).collect() }
}

/// in on (name 999) and three more guards, each of another code; none holds.
fn four_guards(host: u8, process: u16, spaces: [u16; 2]) -> Statement {
    let mark = |number| given(&[name(number)]);
    let feeds = operation(OUT, &[spaces[0]], given(&[name(998), metres(1)]));
    let moves = operation(MOVE, &spaces, vec![any(1)]);
    let branches = vec![
        branch(operation(IN, &[spaces[0]], mark(999)), vec![feeds]),
        branch(operation(INP, &[spaces[1]], mark(998)), vec![moves]),
        branch(operation(RD, &[spaces[1]], vec![any(1), Field::Bind { kind: 1, variable: 9 }]), vec![]),
        branch(operation(RDP, &[spaces[0]], mark(997)), vec![]),
    ];
    statement(host, process, branches)
}

/// A body of 250 bytes that waits for one metres value in a space.
fn longest(host: u8, process: u16, space: u16) -> Statement {
    let out = |count| operation(OUT, &[space], given(&vec![whole(0); count]));
    let mut body = vec![out(6); 5];
    body.extend([out(4), operation(MOVE, &[space, space], vec![any(0), any(0)])]);
    let guard = operation(RD, &[space], vec![Field::Bind { kind: 2, variable: 0 }]);
    let longest = statement(host, process, vec![branch(guard, body)]);
    assert_eq!(statement::write(&longest).len(), 250);
    longest
}

/// in and rd of one value in a range, of metres from -4 to -3 and of whole numbers around 0; there is no tuple of one
/// value. What they bind is put out and searched for.
fn ranges_alone(host: u8, process: u16, spaces: [u16; 2]) -> Statement {
    let near = range(metres(0xC080_0000), metres(0xC040_0000), 0);
    let around = range(whole(-256), whole(256), 15);
    let puts = vec![Field::Use { variable: 0 }, Field::Plus { variable: 0, value: metres(0x3F80_0000) }];
    let again = vec![Field::Use { variable: 15 }, range(metres(1), metres(0x7F7F_FFFF), 1)];
    let branches = vec![
        branch(operation(IN, &[spaces[0]], vec![near]), vec![operation(OUT, &[spaces[1]], puts)]),
        branch(operation(RD, &[spaces[1]], vec![around]), vec![operation(RD, &[spaces[0]], again)]),
    ];
    statement(host, process, branches)
}

fn wait(run: &mut Run, position: u32, statement: Statement) {
    run.waiting.push(Waiting { position, statement });
}

/// The spaces of `small`: a byte of one is often that of another.
pub const SMALL: [u16; 5] = [0, 2, 256, 258, 2_056];

/// A state with something in each section, and room in each.
pub fn small() -> Run {
    let mut run = Run { last: 1000, monitors: 3, next: 2_057, ..Run::fresh() };
    for host in [0, 2, 15] {
        run.up[host] = true;
    }
    let kinds = [(false, 0), (true, 5), (true, 0), (true, 65_535)];
    for (number, (private, owner)) in SMALL[1..].iter().zip(kinds) {
        run.spaces.push(Space { number: *number, private, owner });
    }
    for number in 0..14 {
        run.tuples.push(mixed_tuple(SMALL[number % 5], number, 2 + number % 5));
    }
    wait(&mut run, 3, signal(0, 40));
    wait(&mut run, 700, four_guards(2, 5, [0, 256]));
    wait(&mut run, 997, ranges_alone(15, 43, [0, 2]));
    wait(&mut run, 998, longest(15, 41, 2));
    wait(&mut run, 999, wide(2, 42, false));
    wait(&mut run, 1000, four_guards(0, 65_535, [2_056, 2]));
    run
}

/// The spaces of `full`, 0 to 65,535: each of four high bytes with each of eight low ones, so that a changed byte
/// now names another open space and now none.
fn crossed() -> Vec<u16> {
    let lows = [0x00, 0x01, 0x02, 0x04, 0x7F, 0x80, 0xFE, 0xFF];
    [0x00, 0x01, 0x80, 0xFF].iter().flat_map(|high| lows.map(|low| high << 8 | low)).collect()
}

/// All tables are full, all numbers are used up, and one more record can be taken. A process waits for each space,
/// and has its number: every third space is private to it. Of each two pairs one is owed.
pub fn full() -> Run {
    let mut run = Run { last: u32::MAX - 1, monitors: 8, next: 65_536, up: [true; 16], ..Run::fresh() };
    run.owed = pairs().into_iter().filter(|(monitor, host)| (monitor + host) % 2 == 0).collect();
    let spaces = crossed();
    for (at, number) in spaces.iter().copied().enumerate().skip(1) {
        let private = at % 3 == 1;
        run.spaces.push(Space { number, private, owner: if private { number } else { 0 } });
    }
    for number in 0..512 {
        run.tuples.push(mixed_tuple(spaces[number % 32], number, 2 + number % 5));
    }
    for (at, space) in spaces.into_iter().enumerate() {
        let host = at as u8 % 16;
        let statement = match at % 4 {
            0 => longest(host, space, space),
            1 => ranges_alone(host, space, [space, 0]),
            _ => four_guards(host, space, [space, 0]),
        };
        wait(&mut run, 1 + at as u32 * 100_000_000, statement);
    }
    run
}

// ---- States to time calls on ----

/// (name 7, this whole number, metres 1).
fn shaped(space: u16, number: usize) -> Tuple {
    tuple(space, &[name(7), whole(number as i32), metres(0x3F80_0000)])
}

/// 512 tuples of one shape.
pub fn regular() -> Run {
    let mut run = near_empty();
    run.tuples = (0..512).map(|number| shaped(0, number)).collect();
    run
}

/// 512 tuples of six whole numbers.
pub fn six_fields() -> Run {
    let mut run = near_empty();
    run.tuples = (0..512).map(|number| tuple(0, &[whole(number); 6])).collect();
    run
}

/// 512 tuples of random counts and kinds; the newest is (name 7, whole 511, metres 1).
pub fn random(seed: u64) -> Run {
    let mut rng = Rng::new(seed);
    let mut run = near_empty();
    for _ in 0..511 {
        let count = 1 + rng.below(6);
        let values: Vec<Value> = (0..count)
            .map(|_| match rng.below(3) {
                0 => whole(rng.next() as i32),
                1 => name(rng.next() as u16),
                _ => metres(0x4000_0000 | rng.next() as u32 >> 9),
            })
            .collect();
        run.tuples.push(tuple(0, &values));
    }
    run.tuples.push(tuple(0, &[name(7), whole(511), metres(0x3F80_0000)]));
    run
}

/// 512 tuples and 31 statements of 4 branches. A guard gives six values, which differ from each tuple's in
/// one: always the last, or one that varies.
pub fn near_misses(varying: bool) -> Run {
    let mut run = near_empty();
    run.last = 1000;
    let base = [name(7), whole(1), name(2), whole(3), whole(4), whole(5)];
    for number in 0..512 {
        let mut values = base;
        let at = if varying { number * 7 % 6 } else { 5 };
        values[at] =
            if at == 0 || at == 2 { name(1000 + number as u16) } else { whole(1000 + number as i32) };
        run.tuples.push(tuple(0, &values));
    }
    for number in 0..31 {
        let mut branches = Vec::new();
        for at in 0..4 {
            let mut values = base;
            if !varying {
                values[5] = whole(100_000 + 4 * number + at);
            }
            branches.push(branch(operation(IN, &[0], given(&values)), vec![]));
        }
        wait(&mut run, 1 + number as u32, statement(2, 100 + number as u16, branches));
    }
    run
}

/// A tuple that misses those of `chain`, and the guards of its statements, in the last place alone.
pub fn link(number: i32) -> [Value; 6] {
    [name(7), whole(1), name(2), whole(3), whole(4), whole(number)]
}

/// The link that statement `number` of `chain` waits for.
pub fn awaited(number: usize) -> [Value; 6] {
    link(200_000 + number as i32)
}

/// 511 tuples, and 32 statements of 4 guards that no tuple meets. The last guard of each takes the link that the
/// next younger one puts out: so they wake from the youngest to the oldest, each after all older ones were tried.
pub fn chain() -> Run {
    let mut run = near_empty();
    run.last = 1000;
    run.tuples = (0..511).map(|number| tuple(0, &link(1000 + number))).collect();
    for number in 0..32 {
        let guard = |values: &[Value]| operation(IN, &[0], given(values));
        let mut branches: Vec<Branch> =
            (0..3).map(|at| branch(guard(&link(100_000 + 4 * number as i32 + at)), vec![])).collect();
        let puts = if number == 0 { link(300_000) } else { awaited(number - 1) };
        branches.push(branch(guard(&awaited(number)), vec![operation(OUT, &[0], given(&puts))]));
        wait(&mut run, 1 + number as u32, statement(2, 100 + number as u16, branches));
    }
    run
}

/// 32 statements that wait for one tuple; wide ones bind all 16 variables.
pub fn crowd(all_variables: bool) -> Run {
    let mut run = near_empty();
    run.last = 1000;
    for number in 0..32 {
        let process = 100 + number as u16;
        wait(&mut run, 1 + number, if all_variables { wide(2, process, false) } else { signal(2, process) });
    }
    run
}

// ---- States that ranges search ----

/// 3.4 and 3.6 metres.
pub const NEAR: [u32; 2] = [0x4059_999A, 0x4066_6666];

/// (name 7, these metres).
pub fn at(bits: u32) -> [Value; 2] {
    [name(7), metres(bits)]
}

/// 512 tuples (name 7, metres), now below 3.4 and now above 3.6, of both signs; but the newest has this.
pub fn positions(newest: u32) -> Run {
    let mut run = near_empty();
    let bits = |number: u32| match number % 4 {
        0 => NEAR[0] - 1 - number,
        1 => NEAR[1] + 1 + number,
        2 => 0xC060_0000 + number,
        _ => 0x0000_0001 + number,
    };
    run.tuples = (0..511).map(|number| tuple(0, &at(bits(number)))).collect();
    run.tuples.push(tuple(0, &at(newest)));
    run
}

/// 512 links, and 31 statements of 4 guards. A guard gives five values of the links, and a range that begins above the
/// sixth of all of them.
pub fn missed_ranges() -> Run {
    let mut run = near_empty();
    run.last = 1000;
    run.tuples = (0..512).map(|number| tuple(0, &link(1000 + number))).collect();
    for number in 0..31 {
        let guard = |at: i32| {
            let mut fields = given(&link(0)[..5]);
            fields.push(range(whole(100_000 + 4 * number + at), whole(i32::MAX), 0));
            branch(operation(IN, &[0], fields), vec![])
        };
        let branches = (0..4).map(guard).collect();
        wait(&mut run, 1 + number as u32, statement(2, 100 + number as u16, branches));
    }
    run
}

/// 32 statements that wait for (name 7, 3.4 to 3.6 metres), and put that back as (name 7, metres) 10 metres up.
pub fn near_crowd() -> Run {
    let mut run = near_empty();
    run.last = 1000;
    let near = vec![Field::Given(name(7)), range(metres(NEAR[0]), metres(NEAR[1]), 0)];
    let up = vec![Field::Given(name(7)), Field::Plus { variable: 0, value: metres(0x4120_0000) }];
    for number in 0..32 {
        let branches = vec![branch(operation(IN, &[0], near.clone()), vec![operation(OUT, &[0], up.clone())])];
        wait(&mut run, 1 + number, statement(2, 100 + number as u16, branches));
    }
    run
}

// ---- States of 32 spaces ----

/// The 32 spaces, 0, 2114, 4228, .. 65,535: both bytes vary.
fn apart(at: usize) -> u16 {
    (at * 65_535 / 31) as u16
}

/// Each 32 numbers in a row give all 32 spaces, and neighbours lie far apart.
pub fn scattered(number: usize) -> u16 {
    apart(number * 11 % 32)
}

/// The place of space 65,535, the last, among the scattered.
pub const LAST: usize = 29;

/// Tuples of one shape, as many in each of 32 spaces as in another.
pub fn spread(tuples: usize) -> Run {
    let mut run = Run { next: 65_536, ..near_empty() };
    run.spaces = (0..32).map(|at| Space { number: apart(at), private: false, owner: 0 }).collect();
    run.tuples = (0..tuples).map(|number| shaped(scattered(number), number)).collect();
    run
}

pub fn put(number: usize) -> Operation {
    operation(OUT, &[scattered(number)], given(&[name(9)]))
}

/// Branches with three names each, and none of the last space, that wait for (name 8).
pub fn naming(count: usize, from: usize) -> Vec<Branch> {
    let place = |at: usize| (from + at) % LAST;
    let waits = |at: usize| operation(IN, &[scattered(place(at))], given(&[name(8)]));
    let three = |at: usize| branch(waits(3 * at), vec![put(place(3 * at + 1)), put(place(3 * at + 2))]);
    (0..count).map(three).collect()
}

/// 31 statements wait that name 12 of 32 spaces each.
pub fn many_names() -> Run {
    let mut run = Run { last: 1000, ..spread(0) };
    for number in 0..31 {
        wait(&mut run, 1 + number as u32, statement(2, 100 + number as u16, naming(4, 5 * number)));
    }
    run
}

// ---- States that owe ----

/// The failure tuple of a monitor number and a host.
pub fn notice(monitor: u8, host: u8) -> [Value; 3] {
    [name(1), whole(monitor.into()), whole(host.into())]
}

/// All pairs of monitor number and host, in the order in which they are laid down.
pub fn pairs() -> Vec<(u8, u8)> {
    (1..=8).flat_map(|monitor| (0..16).map(move |host| (monitor, host))).collect()
}

/// 512 tuples of one shape in a space, 0 or 1; eight monitor numbers are given, and these pairs are owed.
pub fn owing(space: u16, pairs: &[(u8, u8)]) -> Run {
    let mut run = Run { last: 1000, monitors: 8, next: 2, ..near_empty() };
    run.spaces.push(Space { number: 1, private: false, owner: 0 });
    run.tuples = (0..512).map(|number| shaped(space, number)).collect();
    run.owed = pairs.iter().copied().collect();
    run
}

/// 512 tuples in space 1, all pairs owed, and 32 statements that each take a notice and tell its monitor and host.
pub fn told() -> Run {
    let mut run = owing(1, &pairs());
    let bind = |variable| Field::Bind { kind: 0, variable };
    for number in 0..32 {
        let takes = operation(IN, &[0], vec![Field::Given(name(1)), bind(0), bind(1)]);
        wait(&mut run, 1 + number, statement(2, 100 + number as u16, vec![branch(takes, vec![])]));
    }
    run
}

/// in of any link.
fn take_link() -> Operation {
    operation(IN, &[0], [1, 0, 1, 0, 0, 0].map(any).to_vec())
}

/// Takes four links, so that four pairs are laid down.
pub fn take_four() -> Vec<Branch> {
    vec![branch(take_link(), vec![take_link(); 3])]
}

/// 512 links, all pairs owed, and 32 statements of 4 guards that no tuple meets. The last guard of each takes a notice,
/// the youngest the first that is laid down, the next one the fifth, and so on; then it takes three links. So four
/// pairs are laid down after each, and they wake from the youngest to the oldest, each after all older ones were tried.
pub fn owed_chain() -> Run {
    let mut run = Run { last: 1000, monitors: 8, owed: pairs().into_iter().collect(), ..near_empty() };
    run.tuples = (0..512).map(|number| tuple(0, &link(1000 + number))).collect();
    for number in 0..32 {
        let guard = |values: &[Value]| operation(IN, &[0], given(values));
        let mut branches: Vec<Branch> =
            (0..3).map(|at| branch(guard(&link(100_000 + 4 * number as i32 + at)), vec![])).collect();
        let (monitor, host) = pairs()[4 * (31 - number)];
        branches.push(branch(guard(&notice(monitor, host)), vec![take_link(); 3]));
        wait(&mut run, 1 + number as u32, statement(2, 100 + number as u16, branches));
    }
    run
}
