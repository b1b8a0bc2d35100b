//! The two calls, on byte buffers of any length and with any bytes.

use crate::layout::{encode, read_state, reply_bytes, REPLY_BYTES, STATE_BYTES};
use crate::run::{Mark, Run, MARKS};

/// Writes the fresh state: 0, or 1 where the length is wrong.
pub fn fresh(state: &mut [u8]) -> u64 {
    if state.len() != STATE_BYTES {
        return 1;
    }
    state.copy_from_slice(&encode(&Run::fresh()));
    0
}

/// Mark, position and body; None is check 3.
pub fn split(record: &[u8]) -> Option<(Mark, u32, &[u8])> {
    let (head, body) = record.split_at_checked(8)?;
    let (mark, _) = MARKS.iter().find(|(_, bytes)| head[..2] == bytes[..])?;
    let length = usize::from(u16::from_be_bytes([head[2], head[3]]));
    let position = u32::from_be_bytes([head[4], head[5], head[6], head[7]]);
    (body.len() == length).then_some((*mark, position, body))
}

/// Takes one record: the reply byte count, or 1 to 5 and no byte changed.
pub fn take(state: &mut [u8], record: &[u8], reply: &mut [u8]) -> u64 {
    let Some(mut run) = read_state(state) else {
        return 1;
    };
    if reply.len() < REPLY_BYTES {
        return 2;
    }
    let Some((mark, position, body)) = split(record) else {
        return 3;
    };
    if position <= run.last {
        return 4;
    }
    if position - run.last > 1 {
        return 5;
    }
    let replies = run.step(position, mark, body);
    state.copy_from_slice(&encode(&run));
    let bytes: Vec<u8> = replies.iter().flat_map(reply_bytes).collect();
    reply[..bytes.len()].copy_from_slice(&bytes);
    bytes.len() as u64
}
