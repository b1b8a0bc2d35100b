//! One call on lent buffers, compared in everything that it can do.

use crate::lent::Lent;
use crate::library::{Calls, REFERENCE};

/// What a call must return and leave.
pub struct Expected<'a> {
    pub returned: u64,
    pub state: &'a [u8],
    pub reply: &'a [u8],
}

pub struct Caller {
    calls: Calls,
    state: Lent,
    record: Lent,
    reply: Lent,
    turn: usize,
}

impl Caller {
    pub fn new(calls: Calls) -> Caller {
        let [state, record, reply] = Default::default();
        Caller { calls, state, record, reply, turn: 0 }
    }

    /// Lends copies of the three buffers at ever other alignments and makes the call.
    pub fn call(&mut self, state: &[u8], record: &[u8], reply: &[u8]) -> u64 {
        self.turn += 1;
        self.state.fill(state, self.turn);
        self.record.fill(record, self.turn / 3);
        self.reply.fill(reply, self.turn / 5);
        (self.calls.take)(self.state.bytes_mut(), self.record.bytes(), self.reply.bytes_mut())
    }

    /// The state and the reply buffer that the last call left.
    pub fn left(&self) -> (&[u8], &[u8]) {
        (self.state.bytes(), self.reply.bytes())
    }

    /// Makes the call and compares the return, all three buffers and the bytes around them.
    pub fn take(
        &mut self,
        state: &[u8],
        record: &[u8],
        reply: &[u8],
        expected: &Expected,
    ) -> Result<(), String> {
        let returned = self.call(state, record, reply);
        if returned != expected.returned {
            return Err(format!("returned {returned} and not {}", expected.returned));
        }
        self.state.holds(expected.state).map_err(|fault| format!("the state {fault}"))?;
        self.reply.holds(expected.reply).map_err(|fault| format!("the reply buffer {fault}"))?;
        self.record.holds(record).map_err(|fault| format!("the record {fault}"))
    }

    /// Makes the call on both implementations and hands back what they agree to return.
    pub fn agree(&mut self, state: &[u8], record: &[u8], reply: &[u8]) -> Result<u64, String> {
        let (mut after, mut replies) = (state.to_vec(), reply.to_vec());
        let returned = (REFERENCE.take)(&mut after, record, &mut replies);
        self.take(state, record, reply, &Expected { returned, state: &after, reply: &replies })?;
        Ok(returned)
    }

    /// Makes the fresh-state call on both.
    pub fn agree_fresh(&mut self, state: &[u8]) -> Result<u64, String> {
        self.turn += 1;
        self.state.fill(state, self.turn);
        let returned = (self.calls.fresh)(self.state.bytes_mut());
        let mut after = state.to_vec();
        let expected = (REFERENCE.fresh)(&mut after);
        if returned != expected {
            return Err(format!("fresh returned {returned} and not {expected}"));
        }
        self.state.holds(&after).map_err(|fault| format!("fresh: the state {fault}"))?;
        Ok(returned)
    }
}
