//! Stack used by the fresh-state call, by the rows, by generated calls, by the writer and by pairs of templates.

use crate::layout::STATE_BYTES;
use crate::rows;
use crate::stack::Stack;
use crate::writer::{chain, Desk};
use reference::generate::meetings::Meetings;
use reference::generate::Stream;

/// More than any call may use.
const ROOM: usize = 256 * 1024;
const RECORDS: usize = 15;

pub fn fresh() -> usize {
    let mut state = vec![1; STATE_BYTES];
    Stack::new(ROOM).used(|stack| assert_eq!(stack.fresh(&mut state), 0))
}

/// The most that one call on one of these states uses.
fn take(stack: &mut Stack, states: &[Vec<u8>], record: &[u8], reply: &[u8]) -> usize {
    let call = |state: &Vec<u8>| {
        stack.used(|stack| {
            stack.take(&mut state.clone(), record, &mut reply.to_vec());
        })
    };
    states.iter().map(call).max().unwrap_or(0)
}

pub fn rows() -> Vec<(&'static str, usize)> {
    let mut stack = Stack::new(ROOM);
    let rows = rows::taken().into_iter().chain(rows::refused());
    rows.map(|row| (row.name, take(&mut stack, &row.states, &row.record, &vec![0; row.reply_length])))
        .collect()
}

pub fn generated(seed: u64, streams: u64) -> usize {
    let mut stack = Stack::new(ROOM);
    let mut most = 0;
    for number in 0..streams {
        let mut stream = Stream::new(seed, number);
        for _ in 0..RECORDS {
            let step = stream.step();
            most = most.max(take(&mut stack, &[step.before], &step.record, &step.lent));
        }
    }
    most
}

/// The most that an addition uses, with the 88 bytes by which it is handed in, and 8 that keep the stack aligned.
pub fn writer(seed: u64, chains: u64) -> usize {
    let mut stack = Stack::new(ROOM);
    let mut most = 0;
    let mut desk = Desk::new(|body: &mut [u8], fill: &mut usize, call, addition| {
        let (before, filled) = (body.to_vec(), *fill);
        let mut answer = 0;
        let used = stack.used(|stack| {
            body.copy_from_slice(&before);
            *fill = filled;
            answer = stack.write(body, fill, call, addition);
        });
        most = most.max(used);
        answer
    });
    for number in 0..chains {
        chain(seed, number, &mut desk).unwrap_or_else(|fault| panic!("{fault}"));
    }
    most
}

/// Six ranges on either side, which touch: every field is looked at.
fn longest_templates() -> [Vec<u8>; 2] {
    let ranges = |ends: [u32; 2]| {
        let field = |variable: u8| [&[6, 2], &ends.map(u32::to_be_bytes).concat()[..], &[variable]].concat();
        [&[1, 0, 0, 6][..], &(10..16).flat_map(field).collect::<Vec<u8>>()].concat()
    };
    [ranges([0xC000_0000, 0xBF80_0000]), ranges([0xBF80_0000, 0x3F80_0000])]
}

/// The most that asking about two templates uses.
pub fn meetings(seed: u64, pairs: u64) -> usize {
    let (mut stack, mut generated) = (Stack::new(ROOM), Meetings::new(seed));
    let [first, second] = longest_templates();
    let mut most = stack.used(|stack| assert_eq!(stack.can_meet(&first, &second), 1));
    for _ in 0..pairs {
        let one = generated.make();
        most = most.max(stack.used(|stack| assert_eq!(stack.can_meet(&one.first, &one.second), one.answer())));
    }
    most
}

/// The most of all of them.
pub fn most(seed: u64, streams: u64) -> usize {
    let rows = rows().into_iter().map(|(_, used)| used).max().unwrap_or(0);
    let written = writer(seed, streams / 10);
    fresh().max(rows).max(generated(seed, streams)).max(written).max(meetings(seed, streams))
}

/// Makes the same calls on a stack of exactly these bytes, below which no byte may be touched.
pub fn run_within(bytes: usize) {
    let mut stack = Stack::new(bytes);
    stack.fresh(&mut vec![1; STATE_BYTES]);
    for row in rows::taken().into_iter().chain(rows::refused()) {
        for state in &row.states {
            stack.take(&mut state.clone(), &row.record, &mut vec![0; row.reply_length]);
        }
    }
    let [first, second] = longest_templates();
    assert_eq!(stack.can_meet(&first, &second), 1);
    let mut desk = Desk::new(|body: &mut [u8], fill: &mut usize, call, addition| {
        stack.write(body, fill, call, addition)
    });
    for number in 0..10 {
        chain(1, number, &mut desk).unwrap_or_else(|fault| panic!("{fault}"));
    }
}
