//! Failure tuples without room (request L3 of document 02), with states and replies worked out by hand. Each state is
//! compared in all its bytes, and each call with the second implementation.

use harness::hex::{hex, record, unhex};
use harness::layout::{owed, set_owed, space, tuple, waiting, SPACES_AT, STATE_BYTES};
use harness::replica::Replica;

/// What a state holds, as text of its entries.
#[derive(Clone)]
struct Held {
    position: u32,
    hosts: u16,
    monitors: u8,
    next: u32,
    spaces: Vec<String>,
    tuples: Vec<String>,
    waiting: Vec<String>,
    owed: [u16; 8],
}

/// A tuple of one whole number.
fn number(space: u16, value: usize) -> String {
    format!("{space:04X} 01 00 {value:08X}")
}

/// A tuple of one name in space 0.
fn named(name: u16) -> String {
    format!("0000 01 01 {name:08X}")
}

/// The failure tuple.
fn notice(monitor: u8, host: u8) -> String {
    format!("0000 03 01 00000001 00 {monitor:08X} 00 {host:08X}")
}

impl Held {
    /// Position 7, space 0 alone, and the tuples (whole 0), (whole 1), ..
    fn new(hosts: u16, monitors: u8, tuples: usize, owed: [u16; 8]) -> Held {
        let spaces = vec!["0000 00 0000".to_string()];
        let tuples = (0..tuples).map(|value| number(0, value)).collect();
        Held { position: 7, hosts, monitors, next: 1, spaces, tuples, waiting: vec![], owed }
    }

    /// Space 1 is open too, and shared.
    fn with_space_1(self, tuples: Vec<String>) -> Held {
        let spaces = ["0000 00 0000", "0001 00 0000"].map(str::to_string).to_vec();
        Held { next: 2, spaces, tuples, ..self }
    }

    fn bytes(&self) -> Vec<u8> {
        let counts = format!("{:02X} {:04X} {:02X}", self.spaces.len(), self.tuples.len(), self.waiting.len());
        let header =
            format!("5453 {:08X} {:04X} {:02X} {:08X} {counts}", self.position, self.hosts, self.monitors, self.next);
        let mut bytes = unhex(&header);
        assert_eq!(bytes.len(), 17);
        bytes.extend(self.owed.map(u16::to_be_bytes).concat());
        assert_eq!(bytes.len(), 33);
        bytes.resize(STATE_BYTES, 0);
        let spaces = self.spaces.iter().enumerate().map(|(at, entry)| (space(at), entry));
        let tuples = self.tuples.iter().enumerate().map(|(at, entry)| (tuple(at), entry));
        let waiting = self.waiting.iter().enumerate().map(|(at, entry)| (waiting(at), entry));
        for (range, entry) in spaces.chain(tuples).chain(waiting) {
            let entry = unhex(entry);
            bytes[range][..entry.len()].copy_from_slice(&entry);
        }
        bytes
    }

    fn replica(&self) -> Replica {
        Replica::of(self.bytes(), self.position)
    }

    /// The replica's state has these bytes, all of them.
    fn is_held_by(&self, replica: &Replica) {
        let expected = self.bytes();
        assert_eq!(hex(&replica.state[..SPACES_AT]), hex(&expected[..SPACES_AT]));
        let differs = (0..STATE_BYTES).find(|at| replica.state[*at] != expected[*at]);
        assert_eq!(differs, None, "the first byte that differs");
    }

    /// Takes away so many of the oldest tuples.
    fn take(&mut self, count: usize) {
        self.tuples.drain(..count);
    }

    /// A waiting entry of a body.
    fn wait(&mut self, position: u32, body: &str) {
        self.waiting.push(format!("{position:08X} {:04X} {body}", unhex(body).len()));
    }
}

/// Process 5 takes the oldest whole number.
const TAKE: &str = "02 0005 01  01 0000 01 05 00  00";
/// Process 5 takes one and puts (name 7).
const TAKE_1_PUT_7: &str = "02 0005 01  01 0000 01 05 00  01  05 0000 01 00 01 00000007";
/// Process 5 takes two and puts (name 7).
const TAKE_2_PUT_7: &str = "02 0005 01  01 0000 01 05 00  02  01 0000 01 05 00  05 0000 01 00 01 00000007";
/// Process 6 reads (name 7) and puts (name 8).
const READ_7_PUT_8: &str = "02 0006 01  03 0000 01 00 01 00000007  01  05 0000 01 00 01 00000008";
/// A template of any failure tuple, which binds 0 to the monitor number and 1 to the host.
const NOTICE: &str = "0000 03 00 01 00000001 01 00 00 01 00 01";

// ---- A crash ----

#[test]
fn a_crash_at_512_owes_to_eight() {
    let mut held = Held::new(0x000C, 8, 512, [0; 8]);
    let mut replica = held.replica();
    replica.expect("CR", "03", &["8 3 0 0 0 0:0:00000001"]);
    (held.position, held.hosts, held.owed) = (8, 0x0004, [0x0008; 8]);
    held.is_held_by(&replica);
}

#[test]
fn a_crash_at_510_appends_two_and_owes_six() {
    let mut held = Held::new(0x000C, 8, 510, [0; 8]);
    let mut replica = held.replica();
    replica.expect("CR", "03", &["8 3 0 0 0 0:0:00000001"]);
    held.tuples.extend([notice(1, 3), notice(2, 3)]);
    (held.position, held.hosts, held.owed) = (8, 0x0004, [0, 0, 8, 8, 8, 8, 8, 8]);
    held.is_held_by(&replica);
}

/// Every host, every count of monitors, and room for none to nine.
#[test]
fn a_crash_of_each_host_with_each_room() {
    for (host, monitors) in (0..16).flat_map(|host| (0..=8).map(move |monitors| (host, monitors))) {
        for count in 503..=512 {
            let mut held = Held::new(0xFFFF, monitors, count, [0; 8]);
            let mut replica = held.replica();
            replica.expect("CR", &format!("{host:02X}"), &[&format!("8 {host} 0 0 0 0:0:0000000F")]);
            (held.position, held.hosts) = (8, 0xFFFF ^ 1 << host);
            for monitor in 1..=monitors {
                match held.tuples.len() {
                    512 => held.owed[usize::from(monitor) - 1] = 1 << host,
                    _ => held.tuples.push(notice(monitor, host)),
                }
            }
            held.is_held_by(&replica);
        }
    }
}

/// One notice for each monitor, though the host crashed twice; its recovery cancels nothing.
#[test]
fn crash_recovery_crash_at_512() {
    let mut held = Held::new(0x000C, 8, 512, [0; 8]);
    let mut replica = held.replica();
    replica.expect("CR", "03", &["8 3 0 0 0 0:0:00000001"]);
    replica.expect("RV", "03", &["9 3 0 0 0 0:0:00000002"]);
    (held.position, held.owed) = (9, [0x0008; 8]);
    held.is_held_by(&replica);
    replica.expect("CR", "03", &["10 3 0 0 0 0:0:00000001"]);
    (held.position, held.hosts) = (10, 0x0004);
    held.is_held_by(&replica);
    for monitor in 1..=8 {
        held.position += 1;
        replica.expect("AG", TAKE, &[&format!("{} 2 5 0 1", held.position)]);
        held.take(1);
        held.tuples.push(notice(monitor, 3));
        held.owed[usize::from(monitor) - 1] = 0;
        held.is_held_by(&replica);
    }
    replica.expect("AG", TAKE, &["19 2 5 0 1"]);
    held.take(1);
    held.position = 19;
    held.is_held_by(&replica);
}

/// With room each crash leaves its tuple; without, a pair is owed beside a tuple that is equal.
#[test]
fn a_crash_beside_an_equal_tuple() {
    let mut held = Held::new(0x000C, 1, 510, [0; 8]);
    let mut replica = held.replica();
    for position in [8, 10, 12] {
        replica.expect("CR", "03", &[&format!("{position} 3 0 0 0 0:0:00000001")]);
        replica.expect("RV", "03", &[&format!("{} 3 0 0 0 0:0:00000002", position + 1)]);
    }
    held.tuples.extend([notice(1, 3), notice(1, 3)]);
    (held.position, held.owed[0]) = (13, 0x0008);
    held.is_held_by(&replica);
}

/// The dropped statement, which waited for a notice, is not answered; one of another host waits on.
#[test]
fn a_crash_at_512_drops_and_owes() {
    let mut held = Held::new(0x000C, 2, 512, [0; 8]);
    let mut replica = held.replica();
    let [dropped, kept] = ["03 0006", "02 0007"].map(|process| format!("{process} 01 01 {NOTICE} 00"));
    replica.expect("AG", &dropped, &[]);
    replica.expect("AG", &kept, &[]);
    replica.expect("CR", "03", &["10 3 0 0 0 0:0:00000001"]);
    held.wait(9, &kept);
    (held.position, held.hosts, held.owed[0], held.owed[1]) = (10, 0x0004, 8, 8);
    held.is_held_by(&replica);
}

/// The one notice with room is taken by the statement that it wakes, so that the next is laid at once; a second
/// statement takes that one, and the third is laid.
#[test]
fn what_a_crash_owes_is_laid_by_the_same_record() {
    let mut held = Held::new(0x000C, 4, 511, [0; 8]);
    let mut replica = held.replica();
    for process in ["0006", "0007"] {
        replica.expect("AG", &format!("02 {process} 01 01 {NOTICE} 00"), &[]);
    }
    let woken = ["8 2 6 0 1 0:0:00000001 1:0:00000003", "9 2 7 0 1 0:0:00000002 1:0:00000003"];
    replica.expect("CR", "03", &["10 3 0 0 0 0:0:00000001", woken[0], woken[1]]);
    held.tuples.push(notice(3, 3));
    (held.position, held.hosts, held.owed[3]) = (10, 0x0004, 8);
    held.is_held_by(&replica);
}

/// 7 and 6 alone: the debt stays as it is.
#[test]
fn a_crash_that_is_refused() {
    let mut replica = Held::new(0x0004, 2, 512, [0x8000, 0x0001, 0, 0, 0, 0, 0, 0]).replica();
    replica.expect_unchanged("CR", "0F", "8 15 0 7 0");
    replica.expect_unchanged("CR", "10", "9 255 65535 6 0");
    replica.expect_unchanged("CR", "", "10 255 65535 6 0");
}

// ---- The order in which debts are laid ----

/// By monitor number and then by host, whatever the order of the crashes.
#[test]
fn the_lowest_monitor_then_the_lowest_host() {
    let mut held = Held::new(0x022C, 2, 512, [0; 8]);
    let mut replica = held.replica();
    for (host, line) in [("05", "8 5 0 0 0 0:0:00000003"), ("09", "9 9 0 0 0 0:0:00000002")] {
        replica.expect("CR", host, &[line]);
    }
    replica.expect("CR", "03", &["10 3 0 0 0 0:0:00000001"]);
    let four = format!("02 0005 01  00  04  {}", "01 0000 01 05 00".repeat(4));
    replica.expect("AG", &four, &["11 2 5 0 1"]);
    held.take(4);
    held.tuples.extend([notice(1, 3), notice(1, 5), notice(1, 9), notice(2, 3)]);
    (held.position, held.hosts, held.owed[1]) = (11, 0x0004, 0x0220);
    held.is_held_by(&replica);
    replica.expect("AG", &four, &["12 2 5 0 1"]);
    held.take(4);
    held.tuples.extend([notice(2, 5), notice(2, 9)]);
    (held.position, held.owed[1]) = (12, 0);
    held.is_held_by(&replica);
}

/// All hosts crash, the highest first; then host 2 is up again and takes tuple by tuple.
#[test]
fn all_128_pairs_by_128_ins() {
    let mut held = Held::new(0xFFFF, 8, 512, [0; 8]);
    let mut replica = held.replica();
    for host in (0..16).rev() {
        held.position += 1;
        let line = format!("{} {host} 0 0 0 0:0:{host:08X}", held.position);
        replica.expect("CR", &format!("{host:02X}"), &[&line]);
    }
    replica.expect("RV", "02", &["24 2 0 0 0 0:0:00000001"]);
    (held.position, held.hosts, held.owed) = (24, 0x0004, [0xFFFF; 8]);
    held.is_held_by(&replica);
    for (monitor, host) in (1..=8).flat_map(|monitor| (0..16).map(move |host| (monitor, host))) {
        held.position += 1;
        replica.expect("AG", TAKE, &[&format!("{} 2 5 0 1", held.position)]);
        held.take(1);
        held.tuples.push(notice(monitor, host));
        held.owed[usize::from(monitor) - 1] &= !(1 << host);
        held.is_held_by(&replica);
    }
    assert_eq!((held.position, held.owed), (152, [0; 8]));
    replica.expect("AG", TAKE, &["153 2 5 0 1"]);
    held.take(1);
    held.position = 153;
    held.is_held_by(&replica);
}

/// 100 of 512 tuples go with their space, of which every fifth place is; 24 pairs come, in order, and nobody waits.
#[test]
fn ds_of_100_tuples_lays_24_pairs() {
    let place = |at: usize| u16::from(at % 5 == 0 && at < 500);
    let tuples = (0..512).map(|at| number(place(at), at)).collect();
    let mut held = Held::new(0x0004, 8, 0, [0x00FF, 0, 0, 0xF00F, 0, 0, 0, 0xAAAA]).with_space_1(tuples);
    let mut replica = held.replica();
    replica.expect("DS", "02 0005 0001", &["8 2 5 0 0"]);
    held.tuples.retain(|tuple| tuple.starts_with("0000"));
    assert_eq!(held.tuples.len(), 412);
    held.tuples.extend((0..8).map(|host| notice(1, host)));
    held.tuples.extend([0, 1, 2, 3, 12, 13, 14, 15].map(|host| notice(4, host)));
    held.tuples.extend([1, 3, 5, 7, 9, 11, 13, 15].map(|host| notice(8, host)));
    held.spaces.pop();
    (held.position, held.owed) = (8, [0; 8]);
    held.is_held_by(&replica);
    assert_eq!(replica.tuple_count(), 436);
}

/// Two places for three pairs; the second pair wakes a statement that reads it.
#[test]
fn ds_of_2_tuples_lays_2_of_3_pairs_and_wakes() {
    let tuples = (0..512).map(|at| number(u16::from(at == 0 || at == 511), at)).collect();
    let mut held = Held::new(0x0004, 7, 0, [0, 0, 0x4000, 0, 0, 0x0003, 0, 0]).with_space_1(tuples);
    let mut replica = held.replica();
    let waits = "02 0006 01  03 0000 03 00 01 00000001 00 00 00000006 01 00 09  00";
    replica.expect("AG", waits, &[]);
    replica.expect("DS", "02 0005 0001", &["9 2 5 0 0", "8 2 6 0 1 9:0:00000000"]);
    held.tuples.retain(|tuple| tuple.starts_with("0000"));
    held.tuples.extend([notice(3, 14), notice(6, 0)]);
    held.spaces.pop();
    (held.position, held.owed) = (9, [0, 0, 0, 0, 0, 0x0002, 0, 0]);
    held.is_held_by(&replica);
}

// ---- Never inside a statement ----

#[test]
fn a_statement_that_takes_and_puts_keeps_the_debt() {
    let mut held = Held::new(0x0004, 1, 512, [0x8000, 0, 0, 0, 0, 0, 0, 0]);
    let mut replica = held.replica();
    replica.expect("AG", TAKE_1_PUT_7, &["8 2 5 0 1"]);
    let in_the_body = "02 0005 01  00  02  01 0000 01 05 00  05 0000 01 00 01 00000008";
    replica.expect("AG", in_the_body, &["9 2 5 0 1"]);
    held.take(2);
    held.tuples.extend([named(7), named(8)]);
    held.position = 9;
    held.is_held_by(&replica);
    let moves = "02 0005 01  00  01  06 0000 0000 01 05 00";
    replica.expect("AG", moves, &["10 2 5 0 1"]);
    held.tuples.rotate_left(510);
    held.position = 10;
    held.is_held_by(&replica);
}

/// The room that it made is its own until it ends: the notice is not there to be read.
#[test]
fn a_statement_does_not_read_what_is_laid_after_it() {
    let held = Held::new(0x0004, 1, 512, [0x0008, 0, 0, 0, 0, 0, 0, 0]);
    let reads = format!("02 0005 01  01 0000 01 05 00  01  03 {NOTICE}");
    held.replica().expect_unchanged("AG", &reads, "8 2 5 16 1");
}

/// 12, 16, 17 and 18, though the first three took a tuple.
#[test]
fn a_failing_statement_makes_no_room() {
    let mut replica = Held::new(0x0004, 1, 512, [0x0008, 0, 0, 0, 0, 0, 0, 0]).replica();
    let puts = "05 0000 01 00 01 00000007";
    replica.expect_unchanged("AG", &format!("02 0005 01 01 0000 01 05 00 02 {puts} {puts}"), "8 2 5 12 1");
    replica.expect_unchanged("AG", "02 0005 01 01 0000 01 05 00 01 01 0000 01 05 02", "9 2 5 16 1");
    let off_range = "02 0005 01  01 0000 01 01 00 00  01  05 0000 01 04 00 00 80000000";
    replica.expect_unchanged("AG", off_range, "10 2 5 17 1");
    replica.expect_unchanged("AG", "02 0005 01 02 0000 01 05 02 00", "11 2 5 18 0");
}

/// The woken one takes (name 7), fails and leaves the queue: (name 7) stays, and so does the debt.
#[test]
fn a_woken_statement_that_fails_makes_no_room() {
    let mut held = Held::new(0x0004, 1, 512, [0x0008, 0, 0, 0, 0, 0, 0, 0]);
    let mut replica = held.replica();
    replica.expect("AG", "02 0006 01  01 0000 01 00 01 00000007  01  01 0000 01 05 02", &[]);
    replica.expect("AG", TAKE_1_PUT_7, &["9 2 5 0 1", "8 2 6 16 1"]);
    held.take(1);
    held.tuples.push(named(7));
    held.position = 9;
    held.is_held_by(&replica);
}

/// Other records leave the debt; a number given now is owed by later crashes alone.
#[test]
fn other_records_keep_the_debt() {
    let mut held = Held::new(0x000C, 7, 512, [0, 0x8001, 0, 0, 0, 0, 0, 0]);
    let mut replica = held.replica();
    replica.expect("MO", "02 0005", &["8 2 5 0 0 0:0:00000008"]);
    replica.expect_unchanged("MO", "02 0005", "9 2 5 14 0");
    replica.expect("MS", "02 0005 01", &["10 2 5 0 0 0:0:00000001"]);
    replica.expect("DS", "02 0005 0001", &["11 2 5 0 0"]);
    replica.expect("AG", READ_7_PUT_8, &[]);
    replica.expect_unchanged("MO", "02 0006", "13 2 6 9 0");
    held.wait(12, READ_7_PUT_8);
    (held.position, held.monitors, held.next) = (13, 8, 2);
    held.is_held_by(&replica);
}

// ---- Before each search, and after each statement that ran ----

/// Two go and one comes: the debt has the place, and the out of the woken statement none. Without a debt it is done.
#[test]
fn the_debt_takes_the_place_before_a_woken_statement() {
    for (mask, last, outcome) in [(0x0008, notice(1, 3), 12), (0, named(8), 0)] {
        let mut held = Held::new(0x0004, 1, 512, [mask, 0, 0, 0, 0, 0, 0, 0]);
        let mut replica = held.replica();
        replica.expect("AG", READ_7_PUT_8, &[]);
        replica.expect("AG", TAKE_2_PUT_7, &["9 2 5 0 1", &format!("8 2 6 {outcome} 1")]);
        held.take(2);
        held.tuples.extend([named(7), last]);
        (held.position, held.owed) = (9, [0; 8]);
        held.is_held_by(&replica);
    }
}

/// The woken statement reads the notice that was laid, and its out finds no room. With in it has that of the notice.
#[test]
fn a_laid_notice_wakes_a_statement_that_puts() {
    let woken = ["8 2 6 12 1", "8 2 6 0 1 0:0:00000002 1:0:00000003"];
    for (code, line, last) in [("03", woken[0], notice(2, 3)), ("01", woken[1], number(0, 3))] {
        let mut held = Held::new(0x0004, 2, 512, [0, 0x0008, 0, 0, 0, 0, 0, 0]);
        let mut replica = held.replica();
        replica.expect("AG", &format!("02 0006 01  {code} {NOTICE}  01  05 0000 01 02 01"), &[]);
        replica.expect("AG", TAKE, &["9 2 5 0 1", line]);
        held.take(1);
        held.tuples.push(last);
        (held.position, held.owed) = (9, [0; 8]);
        held.is_held_by(&replica);
    }
}

/// Each of two statements takes the notice that woke it, and the next pair is laid in the same record.
#[test]
fn a_laid_notice_that_is_taken_makes_room_for_the_next() {
    let mut held = Held::new(0x0004, 2, 512, [0x0018, 0x0001, 0, 0, 0, 0, 0, 0]);
    let mut replica = held.replica();
    for process in ["0006", "0007"] {
        replica.expect("AG", &format!("02 {process} 01 01 {NOTICE} 00"), &[]);
    }
    let woken = ["8 2 6 0 1 0:0:00000001 1:0:00000003", "9 2 7 0 1 0:0:00000001 1:0:00000004"];
    replica.expect("AG", TAKE, &["10 2 5 0 1", woken[0], woken[1]]);
    held.take(1);
    held.tuples.push(notice(2, 0));
    (held.position, held.owed) = (10, [0; 8]);
    held.is_held_by(&replica);
}

/// The notice is there when the queue is first searched: the older statement waits for it and goes first.
#[test]
fn debts_are_laid_before_the_first_search() {
    let mut replica = Held::new(0x0004, 1, 512, [0x0008, 0, 0, 0, 0, 0, 0, 0]).replica();
    replica.expect("AG", &format!("02 0007 01  03 {NOTICE}  00"), &[]);
    replica.expect("AG", "02 0006 01  03 0000 01 00 01 00000007  00", &[]);
    let lines = ["10 2 5 0 1", "8 2 7 0 1 0:0:00000001 1:0:00000003", "9 2 6 0 1"];
    replica.expect("AG", TAKE_2_PUT_7, &lines);
}

/// After the woken statement made room, the notice that is laid wakes an older one, before a younger one that waits
/// for what the woken one put.
#[test]
fn debts_are_laid_before_the_next_search() {
    let mut held = Held::new(0x0004, 1, 512, [0x0008, 0, 0, 0, 0, 0, 0, 0]);
    let mut replica = held.replica();
    replica.expect("AG", &format!("02 0006 01  03 {NOTICE}  00"), &[]);
    let makes_room = "02 0007 01  01 0000 01 00 01 00000007  02  01 0000 01 05 00  05 0000 01 00 01 00000009";
    replica.expect("AG", makes_room, &[]);
    replica.expect("AG", "02 0008 01  03 0000 01 00 01 00000009  01  05 0000 01 00 01 0000000A", &[]);
    let woken = ["9 2 7 0 1", "8 2 6 0 1 0:0:00000001 1:0:00000003", "10 2 8 12 1"];
    replica.expect("AG", TAKE_1_PUT_7, &["11 2 5 0 1", woken[0], woken[1], woken[2]]);
    held.take(2);
    held.tuples.extend([named(9), notice(1, 3)]);
    (held.position, held.owed) = (11, [0; 8]);
    held.is_held_by(&replica);
}

// ---- States ----

/// From the fresh state on, by records alone; a second replica that goes on from a copy owes the same.
#[test]
fn a_stream_that_owes() {
    let mut replica = Replica::full();
    replica.expect("RV", "0F", &["4 15 0 0 0 0:0:00000002"]);
    replica.expect("MO", "02 0001", &["5 2 1 0 0 0:0:00000001"]);
    replica.expect("MO", "02 0001", &["6 2 1 0 0 0:0:00000002"]);
    replica.expect("CR", "0F", &["7 15 0 0 0 0:0:00000001"]);
    assert_eq!(owed(&replica.state), [0x8000, 0x8000, 0, 0, 0, 0, 0, 0]);
    let mut other = Replica::of(replica.state.clone(), 7);
    for replica in [&mut replica, &mut other] {
        replica.expect("AG", TAKE, &["8 2 5 0 1"]);
        assert_eq!(owed(&replica.state), [0, 0x8000, 0, 0, 0, 0, 0, 0]);
        replica.expect("AG", TAKE, &["9 2 5 0 1"]);
        let mut held = Held::new(0x0004, 2, 0, [0; 8]);
        (held.position, held.tuples) = (9, vec![number(0, 0); 510]);
        held.tuples.extend([notice(1, 15), notice(2, 15)]);
        held.is_held_by(replica);
    }
}

/// All sixteen hosts may be owed, up or not, to numbers that were given and beside 512 tuples alone.
#[test]
fn what_a_state_may_owe() {
    let full = Held::new(0xA5A4, 8, 512, [0xFFFF; 8]);
    full.replica().expect("AG", TAKE, &["8 2 5 0 1"]);
    for monitors in 0..8 {
        let mut masks = [0xFFFF; 8];
        masks[usize::from(monitors)..].fill(0);
        let mut state = Held::new(0xA5A4, monitors, 512, masks).bytes();
        Replica::of(state.clone(), 7).expect("AG", TAKE, &["8 2 5 0 1"]);
        masks[usize::from(monitors)] = 0x0100;
        set_owed(&mut state, masks);
        Replica::of(state, 7).refuse(&record("AG", 8, TAKE), 1);
    }
    for tuples in [0, 1, 256, 511] {
        let state = Held::new(0xA5A4, 8, tuples, [0, 0, 0, 0, 0, 0, 0, 1]);
        state.replica().refuse(&record("RV", 8, "00"), 1);
    }
}
