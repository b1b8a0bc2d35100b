//! The comparison itself: it passes the second implementation, and notices calls that go wrong in one thing.

use harness::caller::Caller;
use harness::events::{self, Counts};
use harness::layout::{owed, set_owed, LAST, NEXT, REPLY_BYTES, STATE_BYTES};
use harness::library::{Calls, REFERENCE};
use harness::streams;
use reference::call::{split, take};
use reference::generate::coverage::Coverage;
use reference::generate::{join, ranges};
use reference::layout::{encode, read_state, reply_bytes};
use reference::run::{failure, Mark, Reply, Run};
use reference::statement;
use reference::value::Value;

type Take = fn(&mut [u8], &[u8], &mut [u8]) -> u64;

/// What streams and event lists say of a call for a record.
fn verdicts(take: Take) -> [Result<(), String>; 2] {
    let mut caller = Caller::new(Calls { take, ..REFERENCE });
    let mut coverage = Coverage::default();
    let by_streams = (0..140).try_for_each(|number| streams::run(2, number, &mut caller, &mut coverage));
    let list = |number| events::run(2, number, &mut caller, &mut Counts::new()).map(|_| ());
    [by_streams, (0..30).try_for_each(list)]
}

/// Both notice it, and the fault that is named first has these words.
fn noticed(take: Take, words: &str) {
    for verdict in verdicts(take) {
        let fault = verdict.expect_err("not noticed");
        assert!(fault.contains(words), "{fault}");
    }
}

fn is_taken(returned: u64) -> bool {
    !(1..=5).contains(&returned)
}

#[test]
fn the_second_implementation_passes() {
    assert_eq!(verdicts(take), [Ok(()), Ok(())]);
}

#[test]
fn a_reply_byte_past_the_count() {
    noticed(
        |state, record, reply| {
            let returned = take(state, record, reply);
            if is_taken(returned) && (returned as usize) < reply.len() {
                reply[returned as usize] ^= 1;
            }
            returned
        },
        "the reply buffer byte",
    );
}

#[test]
fn a_byte_past_the_state() {
    noticed(
        |state, record, reply| {
            unsafe { state.as_mut_ptr().add(state.len()).write(0) };
            take(state, record, reply)
        },
        "the state was written 1 bytes past its end",
    );
}

#[test]
fn a_byte_before_the_reply_buffer() {
    noticed(
        |state, record, reply| {
            unsafe { reply.as_mut_ptr().sub(1).write(0) };
            take(state, record, reply)
        },
        "the reply buffer was written 1 bytes before its start",
    );
}

#[test]
fn a_gap_that_is_passed() {
    noticed(
        |state, record, reply| {
            let returned = take(state, record, reply);
            if returned == 5 {
                state[LAST].copy_from_slice(&record[4..8]);
                return take(state, record, reply);
            }
            returned
        },
        "and not 5",
    );
}

#[test]
fn the_first_record_alone() {
    noticed(
        |state, record, reply| {
            let before = state.to_vec();
            let returned = take(state, record, reply);
            let late = split(record).is_some_and(|(_, position, _)| position > 1);
            if is_taken(returned) && late {
                state[LAST.end..].copy_from_slice(&before[LAST.end..]);
            }
            returned
        },
        "the state byte",
    );
}

// ---- Space numbers: event lists are short and begin with the fresh state, so that the streams alone must notice ----

fn noticed_by_streams(take: Take, words: &str) {
    let [by_streams, _] = verdicts(take);
    let fault = by_streams.expect_err("not noticed");
    assert!(fault.contains(words), "{fault}");
}

/// A record with the high byte of a space at this place made 0.
fn low_byte_alone(record: &[u8], at: usize) -> Vec<u8> {
    let mut record = record.to_vec();
    record[at] = 0;
    record
}

#[test]
fn a_space_closed_by_its_low_byte() {
    noticed_by_streams(
        |state, record, reply| match record {
            [b'D', b'S', ..] if record.len() == 13 => take(state, &low_byte_alone(record, 11), reply),
            _ => take(state, record, reply),
        },
        " and not ",
    );
}

/// The space of the first guard, or of the first operation after a guard that is true.
#[test]
fn a_space_named_by_its_low_byte() {
    noticed_by_streams(
        |state, record, reply| match record {
            [b'A', b'G', _, _, _, _, _, _, _, _, _, _, 1..=4, ..] if record.len() > 13 => {
                take(state, &low_byte_alone(record, 13), reply)
            }
            [b'A', b'G', _, _, _, _, _, _, _, _, _, _, 0, 1..=8, ..] if record.len() > 15 => {
                take(state, &low_byte_alone(record, 15), reply)
            }
            _ => take(state, record, reply),
        },
        " and not ",
    );
}

#[test]
fn the_last_space_number_withheld() {
    noticed_by_streams(
        |state, record, reply| {
            let is_last = state.len() == STATE_BYTES && state[NEXT] == [0, 0, 0xFF, 0xFF];
            let returned = take(state, record, reply);
            if is_last && record.starts_with(b"MS") && is_taken(returned) {
                reply[9] = 14;
            }
            returned
        },
        "the reply buffer byte 9 is 0E and not 00",
    );
}

// ---- The order of 1 and 2 ----

/// Event lists lend states alone: the streams notice this one.
#[test]
fn two_before_one() {
    let [by_streams, by_lists] = verdicts(|state, record, reply| match reply.len() {
        0..REPLY_BYTES => 2,
        _ => take(state, record, reply),
    });
    assert!(by_streams.is_err_and(|fault| fault.contains("returned 2 and not 1")));
    assert_eq!(by_lists, Ok(()));
}

// ---- Debts, on the second implementation's run gone wrong ----

/// A call whose record, where it is taken, does this instead.
fn going(
    state: &mut [u8],
    record: &[u8],
    reply: &mut [u8],
    step: impl Fn(&mut Run, Mark, &[u8]) -> Vec<Reply>,
) -> u64 {
    let returned = take(&mut state.to_vec(), record, &mut reply.to_vec());
    let (Some(mut run), Some((mark, position, body))) = (read_state(state), split(record)) else {
        return returned;
    };
    if !is_taken(returned) {
        return returned;
    }
    run.last = position;
    let replies: Vec<u8> = step(&mut run, mark, body).iter().flat_map(reply_bytes).collect();
    state.copy_from_slice(&encode(&run));
    reply[..replies.len()].copy_from_slice(&replies);
    replies.len() as u64
}

/// The own effect, then the queue, with debts laid down by these: before the first search, and after each woken one.
fn laying(run: &mut Run, mark: Mark, body: &[u8], first: fn(&mut Run), again: fn(&mut Run)) -> Vec<Reply> {
    let mut replies = Vec::from_iter(run.own_reply(run.last, mark, body));
    first(run);
    while let Some(reply) = run.wake_oldest() {
        replies.push(reply);
        again(run);
    }
    replies
}

/// Lays down what fits, by this order of the pairs.
fn lay_by(run: &mut Run, order: fn(&(u8, u8)) -> (u8, u8)) {
    while run.tuples.len() < 512 {
        let Some(pair) = run.owed.iter().copied().min_by_key(order) else {
            return;
        };
        run.owed.remove(&pair);
        run.tuples.push(failure(pair.0, pair.1));
    }
}

/// The stand-in that goes right, so that what is noticed below is the fault alone.
#[test]
fn debts_laid_as_they_should_be() {
    let right: Take = |state, record, reply| {
        let again = |run: &mut Run| lay_by(run, |pair| *pair);
        going(state, record, reply, |run, mark, body| laying(run, mark, body, Run::lay, again))
    };
    assert_eq!(verdicts(right), [Ok(()), Ok(())]);
}

#[test]
fn debts_laid_after_the_queue() {
    noticed_by_streams(
        |state, record, reply| {
            going(state, record, reply, |run, mark, body| {
                let replies = laying(run, mark, body, |_| (), |_| ());
                run.lay();
                replies
            })
        },
        " and not ",
    );
}

#[test]
fn debts_not_laid_after_a_woken_statement() {
    noticed_by_streams(
        |state, record, reply| {
            going(state, record, reply, |run, mark, body| laying(run, mark, body, Run::lay, |_| ()))
        },
        " and not ",
    );
}

/// There are fewer tuples than should be, by either byte of their count, 14 and 15.
#[test]
fn debts_laid_for_those_who_wait_alone() {
    noticed_by_streams(
        |state, record, reply| {
            going(state, record, reply, |run, mark, body| {
                let lay = |run: &mut Run| if !run.waiting.is_empty() { run.lay() };
                laying(run, mark, body, lay, lay)
            })
        },
        "the state byte 1",
    );
}

#[test]
fn debts_laid_by_the_lowest_host() {
    noticed_by_streams(
        |state, record, reply| {
            let lay = |run: &mut Run| lay_by(run, |(monitor, host)| (*host, *monitor));
            going(state, record, reply, |run, mark, body| laying(run, mark, body, lay, lay))
        },
        " and not ",
    );
}

#[test]
fn debts_laid_by_the_highest_host() {
    noticed_by_streams(
        |state, record, reply| {
            let lay = |run: &mut Run| lay_by(run, |(monitor, host)| (*monitor, 15 - host));
            going(state, record, reply, |run, mark, body| laying(run, mark, body, lay, lay))
        },
        " and not ",
    );
}

#[test]
fn debts_that_a_recovery_cancels() {
    noticed(
        |state, record, reply| {
            let returned = take(state, record, reply);
            if record.starts_with(b"RV") && is_taken(returned) && reply[9] == 0 {
                let host = record[8];
                set_owed(state, owed(state).map(|mask| mask & !(1 << host)));
            }
            returned
        },
        "the state byte",
    );
}

#[test]
fn a_crash_refused_for_want_of_room() {
    noticed(
        |state, record, reply| {
            let before = state.to_vec();
            let returned = take(state, record, reply);
            if record.starts_with(b"CR") && is_taken(returned) && owed(state) != owed(&before) {
                state[LAST.end..].copy_from_slice(&before[LAST.end..]);
                reply[9] = 12;
                return 12;
            }
            returned
        },
        "returned 12 and not ",
    );
}

#[test]
fn masks_that_are_not_looked_at() {
    noticed_by_streams(
        |state, record, reply| {
            if state.len() == STATE_BYTES && take(&mut state.to_vec(), record, &mut reply.to_vec()) == 1 {
                let mut other = state.to_vec();
                set_owed(&mut other, [0; 8]);
                return take(&mut other, record, reply);
            }
            take(state, record, reply)
        },
        " and not 1",
    );
}

// ---- Ranges ----

/// The record of a statement with the ends of each range made others; None where it has no range.
fn with_ends(record: &[u8], change: fn((Value, Value)) -> (Value, Value)) -> Option<Vec<u8>> {
    let (_, position, body) = split(record).filter(|(mark, ..)| *mark == Mark::Ag)?;
    let (mut statement, mut changed) = (statement::parts(body)?, false);
    for branch in &mut statement.branches {
        let operations = std::iter::once(&mut branch.guard).chain(&mut branch.body);
        for field in operations.flat_map(|operation| &mut operation.fields) {
            if let (Some(ends), Some((variable, _))) = (ranges::ends(field), field.binding()) {
                *field = ranges::field(change(ends), variable);
                changed = true;
            }
        }
    }
    changed.then(|| join(*b"AG", position, &statement::write(&statement)))
}

/// The call with other ends where the first reply has this outcome.
fn with_other_ends(
    state: &mut [u8],
    record: &[u8],
    reply: &mut [u8],
    outcome: u8,
    change: fn((Value, Value)) -> (Value, Value),
) -> u64 {
    let (mut after, mut replies) = (state.to_vec(), reply.to_vec());
    let returned = take(&mut after, record, &mut replies);
    match with_ends(record, change) {
        Some(other) if is_taken(returned) && returned > 0 && replies[9] == outcome => take(state, &other, reply),
        _ => take(state, record, reply),
    }
}

#[test]
fn a_range_without_its_highest_value() {
    noticed_by_streams(
        |state, record, reply| {
            with_other_ends(state, record, reply, 0, |(lowest, highest)| {
                (lowest, ranges::below(&highest).filter(|below| lowest.is_at_most(below)).unwrap_or(highest))
            })
        },
        " and not ",
    );
}

#[test]
fn a_range_without_its_lowest_value() {
    noticed_by_streams(
        |state, record, reply| {
            with_other_ends(state, record, reply, 0, |(lowest, highest)| {
                (ranges::above(&lowest).filter(|above| above.is_at_most(&highest)).unwrap_or(lowest), highest)
            })
        },
        " and not ",
    );
}

#[test]
fn a_range_upside_down_taken() {
    noticed_by_streams(
        |state, record, reply| {
            with_other_ends(state, record, reply, 6, |(lowest, highest)| {
                if lowest.is_at_most(&highest) { (lowest, highest) } else { (highest, lowest) }
            })
        },
        " and not ",
    );
}

#[test]
fn a_range_that_finds_every_value_of_its_kind() {
    noticed_by_streams(
        |state, record, reply| with_other_ends(state, record, reply, 18, |(lowest, _)| ranges::limits(lowest.kind)),
        " and not ",
    );
}

/// The reply shows an end in the place of what was found.
#[test]
fn a_range_that_binds_its_lowest_value() {
    noticed_by_streams(
        |state, record, reply| {
            let returned = take(state, record, reply);
            let guard = split(record).and_then(|(_, _, body)| statement::read(body));
            let field = guard.and_then(|statement| statement.branches.into_iter().next()?.guard.fields.pop());
            if let (Some((lowest, _)), 18..) = (field.and_then(|field| ranges::ends(&field)), returned) {
                if is_taken(returned) && reply[10..12] == [1, 1] {
                    reply[14..18].copy_from_slice(&lowest.bytes);
                }
            }
            returned
        },
        "the reply buffer byte 1",
    );
}
