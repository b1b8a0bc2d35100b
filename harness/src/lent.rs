//! Buffers to lend, with canary bytes before and after them.

/// Canary bytes on each side.
const MARGIN: usize = 64;
/// A buffer starts at any of so many alignments.
const SHIFTS: usize = 16;

#[derive(Default)]
pub struct Lent {
    bytes: Vec<u8>,
    start: usize,
    end: usize,
}

/// The canary at a place: neighbours differ.
fn canary(at: usize) -> u8 {
    0xA7 ^ (at as u8).wrapping_mul(29)
}

impl Lent {
    /// Holds a copy of the content, at an alignment that `turn` chooses.
    pub fn fill(&mut self, content: &[u8], turn: usize) {
        self.start = MARGIN + turn % SHIFTS;
        self.end = self.start + content.len();
        self.bytes.resize(self.end + MARGIN, 0);
        self.bytes[self.start..self.end].copy_from_slice(content);
        for at in (0..self.start).chain(self.end..self.bytes.len()) {
            self.bytes[at] = canary(at);
        }
    }

    pub fn bytes(&self) -> &[u8] {
        &self.bytes[self.start..self.end]
    }

    pub fn bytes_mut(&mut self) -> &mut [u8] {
        &mut self.bytes[self.start..self.end]
    }

    /// The content's bytes are these and every canary stands; else what differs first.
    pub fn holds(&self, expected: &[u8]) -> Result<(), String> {
        if let Some(at) = (0..self.start).rev().find(|at| self.bytes[*at] != canary(*at)) {
            return Err(format!("was written {} bytes before its start", self.start - at));
        }
        if let Some(at) = (self.end..self.bytes.len()).find(|at| self.bytes[*at] != canary(*at)) {
            return Err(format!("was written {} bytes past its end", at - self.end + 1));
        }
        if self.bytes() == expected {
            return Ok(());
        }
        let at = self.bytes().iter().zip(expected).position(|(found, wanted)| found != wanted).unwrap_or(0);
        Err(format!("byte {at} is {:02X} and not {:02X}", self.bytes()[at], expected[at]))
    }
}
