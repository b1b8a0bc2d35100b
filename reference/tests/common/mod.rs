//! Hexadecimal helpers and a cabinet driven by hand.
#![allow(dead_code)]

use reference::call::{fresh, take};

pub fn unhex(text: &str) -> Vec<u8> {
    let digits: Vec<u8> = text.bytes().filter(|byte| !byte.is_ascii_whitespace()).collect();
    assert_eq!(digits.len() % 2, 0, "{text}");
    let pair = |pair: &[u8]| u8::from_str_radix(std::str::from_utf8(pair).unwrap(), 16).unwrap();
    digits.chunks(2).map(pair).collect()
}

pub fn hex(bytes: &[u8]) -> String {
    bytes.iter().map(|byte| format!("{byte:02X}")).collect()
}

pub fn record(mark: &str, position: u32, body: &str) -> Vec<u8> {
    let body = unhex(body);
    let mut bytes = mark.as_bytes().to_vec();
    bytes.extend((body.len() as u16).to_be_bytes());
    bytes.extend(position.to_be_bytes());
    bytes.extend(body);
    bytes
}

pub struct Cabinet {
    pub state: Vec<u8>,
    pub reply: Vec<u8>,
    pub position: u32,
}

impl Cabinet {
    pub fn fresh() -> Cabinet {
        let mut state = vec![0xAA; 25_312];
        assert_eq!(fresh(&mut state), 0);
        Cabinet { state, reply: vec![0x55; 3_564], position: 0 }
    }

    /// A cabinet with host 2 up.
    pub fn up() -> Cabinet {
        let mut cabinet = Cabinet::fresh();
        cabinet.expect("RV", "02", "5250 00000001 02 0000 00 00 01 00 00 00000001");
        cabinet
    }

    /// A cabinet with these first bytes of the header, of the spaces and of each tuple.
    pub fn holding(header: &str, spaces: &str, tuples: &[&str]) -> Cabinet {
        let mut state = vec![0; 25_312];
        let mut put = |at: usize, text: &str| state[at..at + unhex(text).len()].copy_from_slice(&unhex(text));
        put(0, header);
        put(64, spaces);
        for (i, tuple) in tuples.iter().enumerate() {
            put(224 + 33 * i, tuple);
        }
        let position = u32::from_be_bytes([state[2], state[3], state[4], state[5]]);
        Cabinet { state, reply: vec![0x55; 3_564], position }
    }

    /// Whether RV of host 15 at the next position is taken; else it is refused 1 and no byte changes.
    pub fn holds_a_state(mut self) -> bool {
        let record = record("RV", self.position + 1, "0F");
        if take(&mut self.state.clone(), &record, &mut self.reply.clone()) == 18 {
            return true;
        }
        self.refuse(&record, 1);
        false
    }

    pub fn call(&mut self, record: &[u8]) -> u64 {
        take(&mut self.state, record, &mut self.reply)
    }

    /// The record at the next position is taken with exactly these reply bytes.
    pub fn expect(&mut self, mark: &str, body: &str, replies: &str) {
        let replies = unhex(replies);
        self.position += 1;
        let before = self.reply.clone();
        let count = self.call(&record(mark, self.position, body));
        assert_eq!(count, replies.len() as u64, "{mark} {body}");
        assert_eq!(hex(&self.reply[..replies.len()]), hex(&replies), "{mark} {body}");
        assert_eq!(self.reply[replies.len()..], before[replies.len()..]);
    }

    /// The first bytes of the header and of the spaces; the bytes after these are zero.
    pub fn expect_spaces(&self, header: &str, spaces: &str) {
        let (mut header, mut spaces) = (unhex(header), unhex(spaces));
        header.resize(64, 0);
        spaces.resize(160, 0);
        assert_eq!(hex(&self.state[..64]), hex(&header));
        assert_eq!(hex(&self.state[64..224]), hex(&spaces));
    }

    /// As `expect`; the state changes in its position alone.
    pub fn expect_unchanged(&mut self, mark: &str, body: &str, replies: &str) {
        let before = self.state.clone();
        self.expect(mark, body, replies);
        assert_eq!(self.state[..2], before[..2]);
        assert_eq!(self.state[2..6], self.position.to_be_bytes());
        assert!(self.state[6..] == before[6..], "{mark} {body}");
    }

    /// The call is turned back with this number and changes no byte.
    pub fn refuse(&mut self, record: &[u8], number: u64) {
        let (state, reply) = (self.state.clone(), self.reply.clone());
        assert_eq!(self.call(record), number);
        assert!(self.state == state && self.reply == reply);
    }

    /// The used part of each tuple entry, and zero bytes after them.
    pub fn expect_tuples(&self, tuples: &[&str]) {
        assert_eq!(self.state[14..16], (tuples.len() as u16).to_be_bytes());
        for (i, tuple) in tuples.iter().enumerate() {
            let mut entry = unhex(tuple);
            entry.resize(33, 0);
            assert_eq!(hex(&self.state[224 + 33 * i..257 + 33 * i]), hex(&entry), "tuple {i}");
        }
        assert!(self.state[224 + 33 * tuples.len()..17_120].iter().all(|byte| *byte == 0));
    }

    pub fn waiting(&self) -> u8 {
        self.state[16]
    }

    /// 512 tuples (whole 0) in space 0: out and copies to 128, then 256, 512.
    pub fn full() -> Cabinet {
        let mut cabinet = Cabinet::up();
        let copies = "07 0000 0000 00".repeat(7);
        let first = format!("02 0001 01 00 08 05 0000 01 00 00 00000000 {copies}");
        cabinet.expect("AG", &first, "5250 00000002 02 0001 00 01 00");
        let more = "02 0001 01 00 02 07 0000 0000 00 07 0000 0000 00";
        cabinet.expect("AG", more, "5250 00000003 02 0001 00 01 00");
        assert_eq!(cabinet.state[14..16], [2, 0]);
        cabinet
    }
}
