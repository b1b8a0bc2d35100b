//! What must hold for every call by documents 01 and 02, over generated streams.

use reference::call::{fresh, split, take};
use reference::generate::rng::Rng;
use reference::generate::{join, start, Profile, Step, Stream, PROFILES};
use reference::layout::{encode, is_state, read_state, reply_bytes, REPLY_BYTES, STATE_BYTES};
use reference::run::{Mark, Reply, Run, Tuple};
use reference::statement::{self, Branch, Field, Operation, Statement};
use reference::value::{metres, name, whole, Value};
use reference::writer::{self, Addition, Part};

fn each_step(seed: u64, streams: u64, records: usize, mut law: impl FnMut(&Step)) {
    for number in 0..streams {
        let mut stream = Stream::new(seed, number);
        for _ in 0..records {
            law(&stream.step());
        }
    }
}

// ---- The calls ----

#[test]
fn fresh_is_a_state() {
    let mut state = vec![0xEE; STATE_BYTES];
    assert_eq!(fresh(&mut state), 0);
    assert!(is_state(&state));
    assert_eq!(read_state(&state), Some(Run::fresh()));
    let mut by_hand = vec![0; STATE_BYTES];
    by_hand[..17].copy_from_slice(b"TS\0\0\0\0\0\0\0\0\0\0\x01\x01\0\0\0");
    assert!(state == by_hand);
}

#[test]
fn a_call_turned_back_changes_no_byte() {
    each_step(21, 350, 15, |step| {
        if !step.is_taken() {
            assert!(step.after == step.before && step.reply == step.lent);
        }
        assert!(step.returned != 1 || step.state_note != "good");
        assert_eq!(step.returned == 1, !is_state(&step.before));
    });
}

#[test]
fn a_call_taken_leaves_a_state_and_the_rest_of_the_reply_buffer() {
    each_step(22, 350, 15, |step| {
        if !step.is_taken() {
            return;
        }
        let count = step.returned as usize;
        assert!(count <= REPLY_BYTES);
        assert!(step.reply[count..] == step.lent[count..]);
        let run = read_state(&step.after).expect("a state");
        assert!(encode(&run) == step.after);
        assert!(!run.waiting.iter().any(|entry| run.has_guard_that_holds(&entry.statement)));
        let before = read_state(&step.before).expect("a state");
        assert_eq!(Some(run.last), before.last.checked_add(1));
        assert_eq!(step.record[4..8], run.last.to_be_bytes());
    });
}

/// Checks 2 to 5 against the position, as "Two cabinets" puts it.
#[test]
fn a_record_is_taken_exactly_when_checks_2_to_5_pass() {
    each_step(23, 350, 15, |step| {
        let Some(run) = read_state(&step.before) else {
            return;
        };
        let next = u64::from(run.last) + 1;
        let expected = match split(&step.record) {
            _ if step.lent.len() < REPLY_BYTES => 2,
            None => 3,
            Some((_, position, _)) if u64::from(position) < next => 4,
            Some((_, position, _)) if u64::from(position) > next => 5,
            Some(_) => 0,
        };
        assert_eq!(if step.is_taken() { 0 } else { step.returned }, expected);
    });
}

#[test]
fn the_reply_buffer_has_no_say() {
    each_step(24, 140, 15, |step| {
        if step.is_taken() {
            let (mut state, mut reply) = (step.before.clone(), vec![0; 5000]);
            assert_eq!(take(&mut state, &step.record, &mut reply), step.returned);
            assert!(state == step.after && reply[..step.returned as usize] == *step.replies());
        }
    });
}

/// The records taken from one state, fed to a copy of it and to the lists alone.
#[test]
fn replay_from_a_copy_gives_the_same_bytes() {
    let mut replayed = 0;
    for number in 0..140 {
        let mut stream = Stream::new(25, number);
        let mut pair: Option<(Vec<u8>, Run)> = None;
        for _ in 0..20 {
            let step = stream.step();
            let whole = step.is_taken() && step.given.is_none();
            let kept = pair.take().filter(|(copy, _)| *copy == step.before);
            let Some((mark, position, body)) = split(&step.record).filter(|_| whole) else {
                pair = read_state(&step.after).map(|run| (step.after.clone(), run));
                continue;
            };
            pair = read_state(&step.after).map(|run| (step.after.clone(), run));
            if let Some((mut copy, mut run)) = kept {
                let mut reply = vec![3; REPLY_BYTES];
                assert_eq!(take(&mut copy, &step.record, &mut reply), step.returned);
                let replies = run.step(position, mark, body);
                let bytes: Vec<u8> = replies.iter().flat_map(reply_bytes).collect();
                assert!(bytes == step.replies() && encode(&run) == step.after && copy == step.after);
                pair = Some((copy, run));
                replayed += 1;
            }
        }
    }
    assert!(replayed > 1000);
}

// ---- Replies ----

fn each_reply(mut bytes: &[u8], mut law: impl FnMut(usize, &[u8], &[u8])) {
    let mut index = 0;
    while !bytes.is_empty() {
        let (head, rest) = bytes.split_at(12);
        let (values, rest) = rest.split_at(6 * usize::from(head[11]));
        law(index, head, values);
        bytes = rest;
        index += 1;
    }
}

#[test]
fn replies_are_well_formed() {
    each_step(26, 350, 15, |step| {
        let mark = split(&step.record).map(|(mark, _, _)| mark);
        let position = step.record.get(4..8).unwrap_or(&[]);
        each_reply(step.replies(), |index, head, values| {
            let (outcome, branch) = (head[9], head[10]);
            assert_eq!(&head[..2], b"RP");
            let own = head[2..6] == *position;
            assert_eq!(own, index == 0 && own);
            let is_statement = !own || mark == Some(Mark::Ag);
            let chose = is_statement && [0, 12, 16, 17].contains(&outcome);
            assert_eq!((1..=4).contains(&branch), chose);
            assert!(chose || branch == 0);
            assert!(outcome == 0 || values.is_empty());
            assert_eq!(outcome == 6, head[6] == 255);
            assert!(outcome == 6 || head[6] <= 15);
            let variables: Vec<u8> = values.chunks(6).map(|value| value[0]).collect();
            assert!(variables.windows(2).all(|pair| pair[0] < pair[1]));
            for value in values.chunks(6) {
                let bytes = [value[2], value[3], value[4], value[5]];
                assert!(value[0] <= 15 && Value { kind: value[1], bytes }.is_legal());
            }
        });
    });
}

/// 6 to 18: one reply, and nothing but the position changes.
#[test]
fn a_refused_record_changes_the_position_alone() {
    each_step(27, 350, 15, |step| {
        let replies = step.replies();
        if replies.is_empty() || replies[2..6] != step.record[4..8] || replies[9] == 0 {
            return;
        }
        assert_eq!(step.returned, 12);
        assert!(step.after[..2] == step.before[..2] && step.after[6..] == step.before[6..]);
    });
}

/// Statements before a call are those after it, woken by it, or dropped by a crash.
#[test]
fn every_statement_that_leaves_the_queue_is_answered_or_its_host_crashed() {
    each_step(28, 350, 15, |step| {
        let (true, Some(before), Some(after)) =
            (step.is_taken(), read_state(&step.before), read_state(&step.after))
        else {
            return;
        };
        let mut answered = Vec::new();
        each_reply(step.replies(), |_, head, _| answered.push(head[2..9].to_vec()));
        for entry in &before.waiting {
            let statement = &entry.statement;
            let [high, low] = statement.process.to_be_bytes();
            let head = [&entry.position.to_be_bytes()[..], &[statement.host, high, low]].concat();
            let left = !after.waiting.contains(entry);
            let dropped = &step.record[..2] == b"CR" && !after.up[usize::from(statement.host)];
            assert_eq!(left, dropped || answered.contains(&head));
        }
    });
}

// ---- Space numbers ----

/// MS gives the next number, which steps on, or is 14; nothing else moves that number.
#[test]
fn each_number_is_given_once() {
    each_step(34, 210, 15, |step| {
        let (true, Some(before), Some(after)) =
            (step.is_taken(), read_state(&step.before), read_state(&step.after))
        else {
            return;
        };
        if &step.record[..2] != b"MS" || ![0, 14].contains(&step.replies()[9]) {
            assert_eq!(after.next, before.next);
            return;
        }
        let used_up = before.spaces.len() == 32 || before.next == 65_536;
        assert_eq!(step.replies()[9] == 14, used_up);
        if !used_up {
            assert_eq!(step.replies()[14..18], before.next.to_be_bytes());
            assert_eq!(u32::from(after.spaces[before.spaces.len()].number), before.next);
            assert_eq!(after.next, before.next + 1);
        }
    });
}

/// Records in order from the fresh state on, across 255 and up to the last number.
#[test]
fn a_stream_from_the_fresh_state_opens_late_spaces() {
    for (next, most) in [(250, 65_535), (65_530, 65_536)] {
        let (mut stream, records) = Stream::from_fresh_at(35, 3, next);
        let mut run = Run::fresh();
        for record in records.into_iter().chain((0..300).map(|_| stream.feed())) {
            let (mark, position, body) = split(&record).expect("a record");
            run.step(position, mark, body);
        }
        assert!(run.next > next + 5 && run.next <= most);
        assert_eq!(read_state(&encode(&run)), Some(run));
    }
}

// ---- Debts ----

/// Steps of the streams that dwell on debts, taken, with the runs before and after.
fn each_debt_step(seed: u64, streams: u64, mut law: impl FnMut(&Step, &Run, &Run)) {
    let debts = PROFILES.iter().position(|profile| *profile == Profile::Debts).expect("a profile") as u64;
    for number in 0..streams {
        let mut stream = Stream::new(seed, number * PROFILES.len() as u64 + debts);
        for step in (0..15).map(|_| stream.step()).filter(Step::is_taken) {
            let (before, after) = (read_state(&step.before), read_state(&step.after));
            law(&step, &before.expect("a state"), &after.expect("a state"));
        }
    }
}

/// The pairs in the sixteen bytes of a state, in order.
fn pairs(state: &[u8]) -> Vec<(u8, u8)> {
    let mut pairs = Vec::new();
    for monitor in 1..=8 {
        let at = 15 + 2 * usize::from(monitor);
        let mask = u16::from_be_bytes([state[at], state[at + 1]]);
        pairs.extend((0..16).filter(|host| mask & 1 << host != 0).map(|host| (monitor, host)));
    }
    pairs
}

/// The host of a crash that was done.
fn crashed(step: &Step) -> Option<u8> {
    (&step.record[..2] == b"CR" && step.replies()[9] == 0).then(|| step.record[8])
}

/// The pairs that a crash adds: those without room that are not owed yet.
fn missed(step: &Step, before: &Run) -> Vec<(u8, u8)> {
    let Some(host) = crashed(step) else {
        return Vec::new();
    };
    let room = 512 - before.tuples.len();
    let numbers = (1..=before.monitors).skip(room);
    numbers.map(|monitor| (monitor, host)).filter(|pair| !before.owed.contains(pair)).collect()
}

#[test]
fn owed_beside_512_tuples_alone() {
    let mut owing = 0;
    let mut law = |step: &Step| {
        if is_state(&step.after) {
            let (pairs, monitors) = (pairs(&step.after), step.after[8]);
            assert!(pairs.is_empty() || step.after[14..16] == [2, 0]);
            assert!(pairs.iter().all(|(monitor, _)| *monitor <= monitors));
            owing += usize::from(!pairs.is_empty());
        }
    };
    each_step(36, 350, 15, &mut law);
    each_debt_step(36, 100, |step, _, _| law(step));
    assert!(owing > 500);
}

/// What is owed after a record are the last of the pairs owed before it and missed by it.
#[test]
fn the_first_pairs_are_laid_first() {
    let mut laid = 0;
    each_debt_step(37, 150, |step, before, _| {
        let mut all = [pairs(&step.before), missed(step, before)].concat();
        all.sort_unstable();
        let left = pairs(&step.after);
        assert!(all.ends_with(&left));
        laid += all.len() - left.len();
    });
    assert!(laid > 300);
}

/// The step in its parts: owed after = before + missed - laid, and no room beside a debt at any search.
#[test]
fn a_pair_is_owed_until_it_is_laid() {
    let mut woken_after = 0;
    each_debt_step(38, 150, |step, before, after| {
        let (mark, position, body) = split(&step.record).expect("a record");
        let mut run = Run { last: position, ..before.clone() };
        let mut replies: Vec<Reply> = run.own_reply(position, mark, body).into_iter().collect();
        let mut laid = 0;
        loop {
            let count = run.tuples.len();
            run.lay();
            laid += run.tuples.len() - count;
            assert!(run.owed.is_empty() || run.tuples.len() == 512);
            let Some(reply) = run.wake_oldest() else {
                break;
            };
            replies.push(reply);
            woken_after += usize::from(laid > 0);
        }
        assert_eq!(after.owed.len() + laid, before.owed.len() + missed(step, before).len());
        let bytes: Vec<u8> = replies.iter().flat_map(reply_bytes).collect();
        assert!(run == *after && bytes == step.replies());
    });
    assert!(woken_after > 50);
}

/// Where nobody is woken, the tuples end with those laid, in order; before them stands what the record left.
#[test]
fn laid_tuples_stand_last() {
    let mut laid = 0;
    each_debt_step(39, 150, |step, before, after| {
        let own = usize::from(step.replies().get(2..6) == Some(&step.record[4..8]));
        let mut count = 0;
        each_reply(step.replies(), |_, _, _| count += 1);
        let gone = before.owed.len().saturating_sub(after.owed.len());
        if count > own || crashed(step).is_some() || gone == 0 {
            return;
        }
        let (earlier, last) = after.tuples.split_at(after.tuples.len() - gone);
        for ((monitor, host), tuple) in before.owed.iter().zip(last) {
            let values = vec![name(1), whole((*monitor).into()), whole((*host).into())];
            assert_eq!(*tuple, Tuple { space: 0, values });
        }
        let bare = Run { owed: Default::default(), ..before.clone() };
        let mut state = encode(&bare);
        assert_eq!(take(&mut state, &step.record, &mut vec![0; REPLY_BYTES]), step.returned);
        assert_eq!(read_state(&state).expect("a state").tuples, earlier);
        laid += 1;
    });
    assert!(laid > 50);
}

/// A crash of an up host is done; 12 is a statement's alone.
#[test]
fn a_crash_is_done_exactly_if_its_host_is_up() {
    let mut done = 0;
    each_debt_step(40, 150, |step, before, after| {
        if let Some((Mark::Cr, _, [host @ 0..=15])) = split(&step.record) {
            let up = before.up[usize::from(*host)];
            assert_eq!(step.replies()[9], if up { 0 } else { 7 });
            assert!(!after.up[usize::from(*host)]);
            done += usize::from(up);
        }
    });
    assert!(done > 100);
}

/// Only a crash adds a pair; RV, MO and MS leave all as they are.
#[test]
fn nothing_cancels_a_debt() {
    each_debt_step(41, 100, |step, before, after| {
        if crashed(step).is_none() {
            assert!(after.owed.is_subset(&before.owed));
        }
        if [&b"RV"[..], b"MO", b"MS"].contains(&&step.record[..2]) {
            assert_eq!(after.owed, before.owed);
        }
    });
}

#[test]
fn a_run_written_is_read_back() {
    let mut rng = Rng::new(42);
    for _ in 0..300 {
        let run = start::built(&mut rng, Profile::Debts);
        let bytes = encode(&run);
        assert_eq!(pairs(&bytes), run.owed.iter().copied().collect::<Vec<_>>());
        assert_eq!(read_state(&bytes), Some(run));
    }
    each_debt_step(42, 50, |_, _, after| assert_eq!(read_state(&encode(after)).as_ref(), Some(after)));
}

/// Each of the sixteen bytes changed to any: a state exactly by the two conditions.
#[test]
fn a_changed_mask_is_judged_by_numbers_and_tuples() {
    let mut rng = Rng::new(43);
    let mut found = [0, 0];
    each_debt_step(43, 40, |step, _, after| {
        let mut state = step.after.clone();
        let (at, any) = (17 + rng.below(16), rng.next() as u8);
        state[at] = rng.pick(&[0, 1, 128, 255, any]);
        let pairs = pairs(&state);
        let given = pairs.iter().all(|(monitor, _)| *monitor <= after.monitors);
        let expected = given && (pairs.is_empty() || after.tuples.len() == 512);
        assert_eq!(is_state(&state), expected);
        found[usize::from(expected)] += 1;
    });
    assert!(found[0] > 50 && found[1] > 50);
}

/// Records in order from the fresh state on come to owe and to lay.
#[test]
fn a_stream_from_the_fresh_state_comes_to_owe() {
    let (mut owing, mut laying) = (0, 0);
    for number in 0..6 {
        let mut stream = Stream::from_fresh(44, 8 * number + 7);
        assert_eq!(stream.profile(), Profile::Debts);
        let mut run = Run::fresh();
        for record in (0..150).map(|_| stream.feed()) {
            let (mark, position, body) = split(&record).expect("a record");
            let owed = run.owed.clone();
            run.step(position, mark, body);
            owing += usize::from(run.owed.len() > owed.len());
            laying += usize::from(run.owed.len() < owed.len());
        }
        assert_eq!(read_state(&encode(&run)), Some(run));
    }
    assert!(owing > 20 && laying > 20, "{owing} {laying}");
}

// ---- The state buffer ----

/// The bytes in use, by the counts of the header.
fn in_use(state: &[u8]) -> Vec<bool> {
    let mut used = vec![false; STATE_BYTES];
    used[..33].fill(true);
    used[64..64 + 5 * usize::from(state[13])].fill(true);
    for at in (0..usize::from(state[14]) * 256 + usize::from(state[15])).map(|i| 224 + 33 * i) {
        used[at..at + 3 + 5 * usize::from(state[at + 2])].fill(true);
    }
    for at in (0..usize::from(state[16])).map(|i| 17_120 + 256 * i) {
        let length = usize::from(state[at + 4]) * 256 + usize::from(state[at + 5]);
        used[at..at + 6 + length].fill(true);
    }
    used
}

#[test]
fn all_unused_bytes_are_zero() {
    let mut rng = Rng::new(29);
    each_step(29, 70, 10, |step| {
        if !is_state(&step.after) {
            return;
        }
        let used = in_use(&step.after);
        assert!((0..STATE_BYTES).all(|at| used[at] || step.after[at] == 0));
        let mut state = step.after.clone();
        for _ in 0..20 {
            let at = rng.below(STATE_BYTES);
            if !used[at] {
                state[at] = 1 + rng.below(255) as u8;
                assert!(!is_state(&state), "byte {at}");
                state[at] = 0;
            }
        }
    });
}

#[test]
fn no_bytes_make_a_call_panic() {
    let mut rng = Rng::new(30);
    each_step(30, 70, 10, |step| {
        let mut state = step.after.clone();
        for _ in 0..1 + rng.below(4) {
            if let Some(at) = (!state.is_empty()).then(|| rng.below(state.len())) {
                state[at] = rng.next() as u8;
            }
        }
        let mut record = step.record.clone();
        if let Some(at) = (!record.is_empty()).then(|| rng.below(record.len())) {
            record[at] = rng.next() as u8;
        }
        let mut reply = vec![0; rng.below(2 * REPLY_BYTES)];
        let kept = state.clone();
        let returned = take(&mut state, &record, &mut reply);
        assert!(!(1..=5).contains(&returned) || state == kept);
        assert!((1..=5).contains(&returned) || is_state(&state));
    });
    for length in 0..300 {
        let body: Vec<u8> = (0..length).map(|_| rng.below(8) as u8).collect();
        let mut state = vec![0; STATE_BYTES];
        fresh(&mut state);
        let returned = take(&mut state, &join(*b"AG", 1, &body), &mut vec![0; REPLY_BYTES]);
        assert_eq!(returned, 12);
    }
}

// ---- Values ----

/// f64 holds the exact sum of two f32 well enough to round it once.
#[test]
fn metres_are_rounded_once() {
    let mut rng = Rng::new(31);
    for _ in 0..200_000 {
        let near = rng.next() as u32;
        let other = if rng.percent(50) { rng.next() as u32 } else { near ^ (rng.next() as u32 & 0x81FF_FFFF) };
        let (left, right) = (metres(near), metres(other));
        if !left.is_legal() || !right.is_legal() {
            continue;
        }
        for minus in [false, true] {
            let (a, b) = (f64::from(f32::from_bits(near)), f64::from(f32::from_bits(other)));
            let rounded = (if minus { a - b } else { a + b }) as f32;
            let expected = rounded.is_finite().then(|| metres(rounded.to_bits()));
            assert_eq!(left.combine(minus, &right), expected);
            assert_ne!(expected, Some(metres(0x8000_0000)));
        }
    }
}

#[test]
fn wholes_keep_the_exact_result() {
    let ends = [i32::MIN, i32::MIN + 1, -2, -1, 0, 1, 2, i32::MAX - 1, i32::MAX];
    for left in ends {
        for right in ends {
            assert_eq!(whole(left).combine(false, &whole(right)), left.checked_add(right).map(whole));
            assert_eq!(whole(left).combine(true, &whole(right)), left.checked_sub(right).map(whole));
        }
    }
}

// ---- Statements and the writer ----

#[test]
fn a_body_read_is_written_back_the_same() {
    let mut read = 0;
    each_step(32, 350, 15, |step| {
        if let Some((Mark::Ag, _, body)) = split(&step.record) {
            if let Some(statement) = statement::read(body) {
                assert_eq!(statement::write(&statement), body);
                read += 1;
            }
        }
    });
    assert!(read > 1000);
}

fn part(field: &Field) -> Part {
    let form = field.form();
    match *field {
        Field::Given(value) => Part { form, kind: value.kind, variable: 99, value: value.bytes, highest: [8; 4] },
        Field::Bind { kind, variable } => Part { form, kind, variable, value: [9; 4], highest: [8; 4] },
        Field::Use { variable } => Part { form, kind: 99, variable, value: [9; 4], highest: [8; 4] },
        Field::Plus { variable, value } | Field::Minus { variable, value } => {
            Part { form, kind: value.kind, variable, value: value.bytes, highest: [8; 4] }
        }
        Field::Any { kind } => Part { form, kind, variable: 99, value: [9; 4], highest: [8; 4] },
        Field::Range { kind, lowest, highest, variable } => Part { form, kind, variable, value: lowest, highest },
    }
}

fn addition(operation: &Operation) -> Addition {
    let fields = operation.fields.iter().map(part).collect();
    Addition { code: operation.code, spaces: operation.spaces.clone(), fields }
}

/// Makes the statement by additions; each must leave a legal body, and no byte past it changed.
fn make(statement: &Statement) -> Vec<u8> {
    let mut buffer = vec![0xCD; 260];
    let mut fill = 0;
    let mut step = |buffer: &mut Vec<u8>, (answer, new): (u64, usize)| {
        assert_eq!(answer, 0);
        assert!(new > fill && statement::read(&buffer[..new]).is_some());
        assert!(buffer[new..].iter().all(|byte| *byte == 0xCD));
        fill = new;
        new
    };
    for (at, Branch { guard, body }) in statement.branches.iter().enumerate() {
        let written = match at {
            0 => writer::begin(&mut buffer, statement.host, statement.process, &addition(guard)),
            _ => {
                let filled = statement_fill(&buffer);
                writer::add_branch(&mut buffer, filled, &addition(guard))
            }
        };
        let mut filled = step(&mut buffer, written);
        for operation in body {
            let written = writer::add_operation(&mut buffer, filled, &addition(operation));
            filled = step(&mut buffer, written);
        }
    }
    buffer.truncate(fill);
    buffer
}

/// The count of filled bytes: the only legal body that the buffer starts with.
fn statement_fill(buffer: &[u8]) -> usize {
    let fills: Vec<usize> = (0..=250).filter(|n| statement::read(&buffer[..*n]).is_some()).collect();
    assert_eq!(fills.len(), 1);
    fills[0]
}

#[test]
fn the_writer_makes_every_legal_body() {
    each_step(33, 140, 15, |step| {
        if let Some((Mark::Ag, _, body)) = split(&step.record) {
            if let Some(statement) = statement::read(body) {
                assert_eq!(make(&statement), body);
            }
        }
    });
}

#[test]
fn the_writer_refuses_6_then_2() {
    let guard = Addition::default();
    let mut small = vec![7; 5];
    assert_eq!(writer::begin(&mut small, 16, 5, &guard), (6, 0));
    assert_eq!(writer::begin(&mut small, 2, 5, &guard), (2, 0));
    assert_eq!(small, [7; 5]);
    let mut buffer = vec![7; 16];
    assert_eq!(writer::begin(&mut buffer, 2, 5, &guard), (0, 6));
    assert_eq!(buffer, [2, 0, 5, 1, 0, 0, 7, 7, 7, 7, 7, 7, 7, 7, 7, 7]);
    let given = Part { value: [0, 0, 0, 9], ..Part::default() };
    let out = |space| Addition { code: 5, spaces: vec![space], fields: vec![given.clone()] };
    let nowhere = Addition { spaces: vec![], ..out(0) };
    assert_eq!(writer::add_operation(&mut buffer, 6, &nowhere), (6, 6));
    let twice = Addition { spaces: vec![0, 256], ..out(0) };
    assert_eq!(writer::add_operation(&mut buffer, 6, &twice), (6, 6));
    assert_eq!(writer::add_branch(&mut buffer, 6, &out(0)), (6, 6));
    let unbound = Addition { fields: vec![Part { form: 2, ..Part::default() }], ..out(0) };
    assert_eq!(writer::add_operation(&mut buffer, 6, &unbound), (6, 6));
    assert_eq!(writer::add_operation(&mut buffer, 6, &out(0x0302)), (0, 16));
    assert_eq!(buffer, [2, 0, 5, 1, 0, 1, 5, 3, 2, 1, 0, 0, 0, 0, 0, 9]);
    let full = buffer.clone();
    assert_eq!(writer::add_operation(&mut buffer, 16, &out(3)), (2, 16));
    assert_eq!(writer::add_branch(&mut buffer, 16, &guard), (2, 16));
    assert_eq!(writer::add_operation(&mut buffer, 15, &out(3)), (6, 15));
    assert_eq!(writer::add_operation(&mut buffer, 17, &out(3)), (6, 17));
    assert_eq!(buffer, full);
}

/// Every number that can be handed in is written in its two bytes, at either end of a move.
#[test]
fn the_writer_takes_every_space_number() {
    let mut buffer = vec![7; 12];
    assert_eq!(writer::begin(&mut buffer, 2, 5, &Addition::default()), (0, 6));
    for number in 0..=65_535_u16 {
        let mut longer = buffer.clone();
        let ends = Addition { code: 6, spaces: vec![number, !number], fields: vec![] };
        assert_eq!(writer::add_operation(&mut longer, 6, &ends), (0, 12));
        let (high, low) = ((number / 256) as u8, (number % 256) as u8);
        assert_eq!(longer, [2, 0, 5, 1, 0, 1, 6, high, low, 255 - high, 255 - low, 0]);
    }
}

#[test]
fn the_writer_stops_at_8_operations_4_branches_and_250_bytes() {
    let (mut buffer, guard) = (vec![0; 300], Addition::default());
    let all = Addition { code: 7, spaces: vec![0, 0], fields: vec![] };
    let (_, mut fill) = writer::begin(&mut buffer, 0, 0, &guard);
    for branch in 1..=4 {
        for _ in 0..8 {
            let written = writer::add_operation(&mut buffer, fill, &all);
            assert_eq!(written, (0, fill + 6));
            fill = written.1;
        }
        assert_eq!(writer::add_operation(&mut buffer, fill, &all), (6, fill));
        let written = writer::add_branch(&mut buffer, fill, &guard);
        assert_eq!(written, if branch < 4 { (0, fill + 2) } else { (6, fill) });
        fill = written.1;
    }
    let given = Part { form: 0, ..Part::default() };
    let long = Addition { code: 5, spaces: vec![0], fields: vec![given; 6] };
    let (_, mut fill) = writer::begin(&mut buffer, 0, 0, &guard);
    for _ in 0..6 {
        fill = writer::add_operation(&mut buffer, fill, &long).1;
    }
    assert_eq!(fill, 246);
    assert_eq!(writer::add_operation(&mut buffer, fill, &long), (6, 246));
}
