//! Whether two templates can meet: one question compared in the answer and in both buffers, and generated pairs.

use crate::hex::hex;
use crate::lent::Lent;
use crate::library::replica_can_meet;
use reference::generate::coverage::Coverage;
use reference::generate::meeting_cells::wanted;
use reference::generate::meetings::Meetings;
use reference::meeting;

/// The library's function, or a stand-in, which may go wrong in that it writes.
pub type CanMeet = fn(&mut [u8], &mut [u8]) -> u64;

/// Pairs of a batch.
pub const BATCH: u64 = 100;

pub fn library(first: &mut [u8], second: &mut [u8]) -> u64 {
    unsafe { replica_can_meet(first.as_mut_ptr(), first.len(), second.as_mut_ptr(), second.len()) }
}

pub struct Asker {
    can_meet: CanMeet,
    lent: [Lent; 2],
    turn: usize,
}

impl Asker {
    pub fn new(can_meet: CanMeet) -> Asker {
        Asker { can_meet, lent: Default::default(), turn: 0 }
    }

    /// Lends copies of the two at ever other alignments, and compares the answer with the expected one, both buffers
    /// with what they were, and the bytes around them.
    pub fn expect(&mut self, first: &[u8], second: &[u8], expected: u64) -> Result<(), String> {
        self.turn += 1;
        self.lent[0].fill(first, self.turn);
        self.lent[1].fill(second, self.turn / 3);
        let [one, other] = &mut self.lent;
        let answer = (self.can_meet)(one.bytes_mut(), other.bytes_mut());
        if answer != expected {
            return Err(format!("answered {answer} and not {expected}"));
        }
        self.lent[0].holds(first).map_err(|fault| format!("the first {fault}"))?;
        self.lent[1].holds(second).map_err(|fault| format!("the second {fault}"))
    }

    /// Asks both implementations, in either order of the two, and hands back what they agree to answer.
    pub fn agree(&mut self, first: &[u8], second: &[u8]) -> Result<u64, String> {
        let answer = meeting::can_meet(first, second);
        let told = |order: &str, fault| format!("{} {}, {order}: {fault}", shown(first), shown(second));
        self.expect(first, second, answer).map_err(|fault| told("as given", fault))?;
        self.expect(second, first, answer).map_err(|fault| told("exchanged", fault))?;
        Ok(answer)
    }
}

fn shown(bytes: &[u8]) -> String {
    if bytes.is_empty() { "-".to_string() } else { hex(bytes) }
}

/// A batch of generated pairs, counted by what they reached; a fault names the words that make it again.
pub fn run(seed: u64, number: u64, asker: &mut Asker, coverage: &mut Coverage) -> Result<(), String> {
    let mut meetings = Meetings::new(seed.wrapping_mul(1_000_003).wrapping_add(number));
    for pair in 0..BATCH {
        let one = meetings.make();
        let agreed = asker.agree(&one.first, &one.second);
        agreed.map_err(|fault| format!("compare --pairs {seed} {number}, pair {pair}: {fault}"))?;
        coverage.add_meeting(&one);
    }
    Ok(())
}

/// The cells that were not reached.
pub fn missing(coverage: &Coverage) -> Vec<String> {
    wanted().into_iter().filter(|cell| !coverage.cells.contains_key(cell)).collect()
}
