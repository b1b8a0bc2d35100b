//! A replica driven by hand: each call is compared with what is written out, and with the second
//! implementation.

use crate::caller::{Caller, Expected};
use crate::hex::{hex, record, unhex};
use crate::layout::{
    self, LAST, MARK, REPLY_BYTES, STATE_BYTES, TUPLES_AT, TUPLE_BYTES, WAITING_AT, WAITING_BYTES,
    WAITING_COUNT_AT,
};
use crate::library::LIBRARY;

pub struct Replica {
    pub state: Vec<u8>,
    pub position: u32,
    caller: Caller,
}

/// The bytes of a reply from a line as `cabinet` prints it:
/// position, host, process, outcome, branch, then variable:kind:digits.
pub fn reply(line: &str) -> Vec<u8> {
    let words: Vec<&str> = line.split_whitespace().collect();
    let (head, values) = words.split_at(5);
    let number = |at: usize| head[at].parse::<u32>().unwrap_or_else(|_| panic!("{line}"));
    let [_, _, high, low] = number(2).to_be_bytes();
    let mut bytes = b"RP".to_vec();
    bytes.extend(number(0).to_be_bytes());
    bytes.extend([number(1) as u8, high, low, number(3) as u8, number(4) as u8, values.len() as u8]);
    for value in values {
        let parts: Vec<&str> = value.split(':').collect();
        bytes.extend(parts[..2].iter().map(|part| part.parse::<u8>().unwrap_or_else(|_| panic!("{line}"))));
        bytes.extend(unhex(parts[2]));
    }
    bytes
}

impl Replica {
    pub fn fresh() -> Replica {
        let mut state = vec![0xAA; STATE_BYTES];
        assert_eq!((LIBRARY.fresh)(&mut state), 0);
        Replica::of(state, 0)
    }

    /// A replica that goes on from these bytes.
    pub fn of(state: Vec<u8>, position: u32) -> Replica {
        Replica { state, position, caller: Caller::new(LIBRARY) }
    }

    /// Host 2 is up.
    pub fn up() -> Replica {
        let mut replica = Replica::fresh();
        replica.expect("RV", "02", &["1 2 0 0 0 0:0:00000001"]);
        replica
    }

    /// Host 2 is up, and space 0 has 512 times the tuple (whole 0).
    pub fn full() -> Replica {
        let mut replica = Replica::up();
        let copies = "07 0000 0000 00".repeat(7);
        let first = format!("02 0001 01 00 08 05 0000 01 00 00 00000000 {copies}");
        replica.expect("AG", &first, &["2 2 1 0 1"]);
        replica.expect("AG", "02 0001 01 00 02 07 0000 0000 00 07 0000 0000 00", &["3 2 1 0 1"]);
        assert_eq!(replica.tuple_count(), 512);
        replica
    }

    /// Makes a call with a reply buffer of any bytes; it returns this and replies these bytes.
    fn call(&mut self, record: &[u8], returned: u64, replies: &[u8]) {
        let lent: Vec<u8> = (0..REPLY_BYTES).map(|at| (at * 7 + 3) as u8).collect();
        let agreed = self.caller.agree(&self.state, record, &lent);
        let shown = hex(record);
        assert_eq!(agreed, Ok(returned), "{shown}");
        let mut left = lent;
        left[..replies.len()].copy_from_slice(replies);
        let (state, reply) = self.caller.left();
        assert_eq!(hex(&reply[..replies.len()]), hex(replies), "{shown}");
        assert!(reply == left, "bytes past the replies changed: {shown}");
        self.state = state.to_vec();
    }

    /// The record at the next position is taken with exactly these replies, and none where it waits.
    pub fn expect(&mut self, mark: &str, body: &str, replies: &[&str]) {
        let replies: Vec<u8> = replies.iter().flat_map(|line| reply(line)).collect();
        self.expect_bytes(mark, body, &replies);
    }

    pub fn expect_bytes(&mut self, mark: &str, body: &str, replies: &[u8]) {
        self.position += 1;
        self.call(&record(mark, self.position, body), replies.len() as u64, replies);
        assert_eq!(self.state[LAST], self.position.to_be_bytes());
    }

    /// As `expect`, and nothing else than the position changes.
    pub fn expect_unchanged(&mut self, mark: &str, body: &str, line: &str) {
        let before = self.state.clone();
        self.expect(mark, body, &[line]);
        let after = LAST.end;
        assert!(self.state[MARK] == before[MARK] && self.state[after..] == before[after..], "{mark} {body}");
    }

    /// The call is turned back with this number and changes no byte.
    pub fn refuse(&mut self, record: &[u8], number: u64) {
        let before = self.state.clone();
        self.call(record, number, &[]);
        assert!(self.state == before, "{}", hex(record));
    }

    /// The call with these buffers returns this number and changes no byte.
    pub fn refuse_all(state: &[u8], record: &[u8], reply: &[u8], number: u64) {
        let expected = Expected { returned: number, state, reply };
        assert_eq!(Caller::new(LIBRARY).take(state, record, reply, &expected), Ok(()));
    }

    pub fn tuple_count(&self) -> usize {
        layout::tuple_count(&self.state)
    }

    pub fn waiting_count(&self) -> u8 {
        self.state[WAITING_COUNT_AT]
    }

    /// These are all tuples, oldest first; the rest of their section is zero.
    pub fn expect_tuples(&self, tuples: &[&str]) {
        assert_eq!(self.tuple_count(), tuples.len());
        let mut section = Vec::new();
        for tuple in tuples {
            section.extend(unhex(tuple));
            section.resize(section.len().next_multiple_of(TUPLE_BYTES), 0);
        }
        section.resize(WAITING_AT - TUPLES_AT, 0);
        assert!(self.state[TUPLES_AT..WAITING_AT] == section, "{tuples:?}");
    }

    /// The used bytes of a waiting entry, and zeros after them.
    pub fn expect_waiting(&self, at: usize, entry: &str) {
        let mut bytes = unhex(entry);
        bytes.resize(WAITING_BYTES, 0);
        assert_eq!(hex(&self.state[layout::waiting(at)]), hex(&bytes));
    }
}
