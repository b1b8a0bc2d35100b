//! Generated streams: every call compared, and counted by what it reached.

use crate::caller::{Caller, Expected};
use crate::hex::hex;
use reference::generate::coverage::Coverage;
use reference::generate::{Step, Stream, PROFILES};

/// Records of a stream, by its number: short ones reach many starts, long ones go deep.
const LENGTHS: [usize; 4] = [15, 15, 40, 150];

/// What makes the call again, and what it was given.
fn described(seed: u64, number: u64, at: usize, step: &Step, fault: &str) -> String {
    let notes = format!("record {}, state {}", step.record_note, step.state_note);
    let record = hex(&step.record);
    format!("compare --stream {seed} {number}: call {at} ({notes}): {fault}\nrecord {record}")
}

/// Makes the calls of one stream; the error says how to make them again.
pub fn run(seed: u64, number: u64, caller: &mut Caller, coverage: &mut Coverage) -> Result<(), String> {
    let mut stream = Stream::new(seed, number);
    // the profile goes by the number, so that each profile meets each length
    let length = LENGTHS[number as usize / PROFILES.len() % LENGTHS.len()];
    for at in 0..length {
        let step = stream.step();
        let expected = Expected { returned: step.returned, state: &step.after, reply: &step.reply };
        caller
            .take(&step.before, &step.record, &step.lent, &expected)
            .map_err(|fault| described(seed, number, at, &step, &fault))?;
        coverage.add(&step);
    }
    Ok(())
}
