//! Statements with lengths near the limit.

use super::ranges;
use super::rng::Rng;
use crate::statement::{self, Branch, Field, Operation, SpaceNumber, Statement, MOST_BYTES};
use crate::statement::{COPY, IN, INP, MOST_OPERATIONS, MOVE, OUT, RD, RDP, TRUE};
use crate::value::{name, whole, WHOLE};

/// The bytes of a move without fields, and of an out with six.
const SHORTEST: usize = 6;
const LONGEST: usize = 40;

/// A statement of 246 to 254 bytes, legal where these are at most 250.
pub fn statement(rng: &mut Rng, spaces: &[SpaceNumber], host: u8, process: u16) -> Statement {
    let length = MOST_BYTES - 4 + rng.below(9);
    let count = rng.pick(&[1, 1, 2, 3]);
    let always = Operation { code: TRUE, spaces: vec![], fields: vec![] };
    let mut branches = vec![Branch { guard: always, body: Vec::new() }; count];
    branches[0].guard = guard(rng, spaces, length);
    let mut statement = Statement { host, process, branches };
    let left = length - statement::write(&statement).len();
    for (i, size) in sizes(rng, left, count * MOST_OPERATIONS).into_iter().enumerate() {
        let operation = operation(rng, spaces, size);
        statement.branches[i / MOST_OPERATIONS].body.push(operation);
    }
    statement
}

/// A guard that leaves an even count of bytes; unless it is true it most likely finds nothing.
fn guard(rng: &mut Rng, spaces: &[SpaceNumber], length: usize) -> Operation {
    let odd = length % 2 == 1;
    if !odd && rng.percent(50) {
        return Operation { code: TRUE, spaces: vec![], fields: vec![] };
    }
    let mut fields = vec![Field::Given(name(900 + rng.below(6) as u16))];
    if !odd {
        let range = ranges::field((whole(-1), whole(1)), 0);
        fields.push(if rng.percent(50) { Field::Bind { kind: WHOLE, variable: 0 } } else { range });
    }
    Operation { code: rng.pick(&[IN, RD, INP, RDP]), spaces: vec![rng.pick(spaces)], fields }
}

/// At most so many even sizes that make up the whole.
fn sizes(rng: &mut Rng, whole: usize, most: usize) -> Vec<usize> {
    let (fewest, most) = (whole.div_ceil(LONGEST), most.min(whole / SHORTEST));
    let mut sizes = vec![SHORTEST; fewest + rng.below(most - fewest + 1)];
    while sizes.iter().sum::<usize>() < whole {
        let at = rng.below(sizes.len());
        if sizes[at] < LONGEST {
            sizes[at] += 2;
        }
    }
    sizes
}

/// An out, where one has that size, or else a move or copy.
fn operation(rng: &mut Rng, spaces: &[SpaceNumber], size: usize) -> Operation {
    let given = Field::Given(whole(rng.below(3) as i32));
    let (out, rest) = (size - 4, size - SHORTEST);
    if out % 6 == 0 && (size == LONGEST || rng.percent(70)) {
        return Operation { code: OUT, spaces: vec![rng.pick(spaces)], fields: vec![given; out / 6] };
    }
    let mut fields = vec![given; rest / 6];
    fields.extend(vec![Field::Any { kind: WHOLE }; rest % 6 / 2]);
    let ends = vec![rng.pick(spaces), rng.pick(spaces)];
    Operation { code: rng.pick(&[MOVE, COPY]), spaces: ends, fields }
}
