//! The writer's functions: the second implementation's answers over random additions, and values written out.

use harness::hex::{hex, unhex};
use harness::library::{replica_begin, replica_operation, Addition, Field};
use harness::writer::{bytes, chain, library, reference, Body, Call, Desk};
use std::mem::offset_of;
use std::ptr::null_mut;

const SEED: u64 = 5;
const CHAINS: u64 = 3_000;
const BEGIN: Call = Call::Begin { host: 2, process: 5 };

// ---- Random additions ----

/// Every answer of each function comes up, and both kinds of records.
#[test]
fn random_additions() {
    let mut desk = Desk::new(library);
    for number in 0..CHAINS {
        chain(SEED, number, &mut desk).unwrap_or_else(|fault| panic!("{fault}"));
    }
    let counts = desk.counts;
    for (name, [done, malformed, short]) in ["begin", "operation", "branch"].iter().zip(counts.answers) {
        println!("{name:9}  0: {done:6}  6: {malformed:6}  2: {short:6}");
    }
    println!("records of filled bytes {}, of refused additions {}", counts.records[0], counts.records[1]);
    println!("ranges {}", counts.ranges);
    assert_eq!(counts.most, [250, 4, 8], "bytes, branches, operations");
    assert!(counts.sum() >= 200_000, "{} additions", counts.sum());
    assert!(counts.ranges >= 20_000, "{} ranges", counts.ranges);
    assert!(counts.answers.iter().flatten().chain(&counts.records).all(|count| *count > 0), "{counts:?}");
}

// ---- Values written out ----

type Write = fn(&mut [u8], &mut usize, Call, Addition) -> u64;

/// A field whose highest value nobody may look at.
fn field(form: u8, kind: u8, variable: u8, bits: u32) -> Field {
    Field { form, kind, variable, bits, highest: 0x7FC0_0000 }
}

fn range(kind: u8, lowest: u32, highest: u32, variable: u8) -> Field {
    Field { form: 6, kind, variable, bits: lowest, highest }
}

fn addition(code: u8, from: u16, to: u16, fields: &[Field]) -> Addition {
    let mut addition = Addition { code, from, to, count: fields.len(), ..Addition::default() };
    addition.fields[..fields.len()].copy_from_slice(fields);
    addition
}

fn always() -> Addition {
    addition(0, 0, 0, &[])
}

/// out(0, so many times the whole number 0).
fn out(count: usize) -> Addition {
    addition(5, 0, 0, &vec![field(0, 0, 0, 0); count])
}

/// A buffer, its fill, and the comparison.
struct Page {
    desk: Desk<Write>,
    buffer: Vec<u8>,
    body: Body,
}

impl Page {
    fn new(length: usize) -> Page {
        let buffer = (0..length).map(|at| (at * 37 + 11) as u8).collect();
        Page { desk: Desk::new(library), buffer, body: Body::default() }
    }

    /// A body that is begun with the guard true.
    fn begun(length: usize) -> Page {
        let mut page = Page::new(length);
        page.expect(BEGIN, always(), 0);
        page
    }

    /// The addition has this answer; where it is done, it stays.
    fn expect(&mut self, call: Call, addition: Addition, answer: u64) {
        assert_eq!(self.desk.add(&self.body, call, &addition, &self.buffer), Ok(answer), "{addition:?}");
        if answer == 0 {
            self.body = self.body.with(call, &addition);
            self.buffer[..self.body.bytes.len()].copy_from_slice(&self.body.bytes);
        }
    }

    fn expect_body(&self, body: &str) {
        assert_eq!(hex(&self.body.bytes), hex(&unhex(body)));
    }
}

/// As a C compiler lays the header's structs out on x86-64.
#[test]
fn the_layout_of_an_addition() {
    let field = [offset_of!(Field, form), offset_of!(Field, kind), offset_of!(Field, variable)];
    let values = [offset_of!(Field, bits), offset_of!(Field, highest)];
    assert_eq!((field, values, size_of::<Field>()), ([0, 1, 2], [4, 8], 12));
    let spaces = [offset_of!(Addition, from), offset_of!(Addition, to)];
    assert_eq!((offset_of!(Addition, code), spaces), (0, [2, 4]));
    assert_eq!((offset_of!(Addition, count), offset_of!(Addition, fields)), (8, 16));
    assert_eq!(size_of::<Addition>(), 88);
}

#[test]
fn a_begun_body_has_6_bytes() {
    let mut buffer = [0xAA; 8];
    let mut fill = 12_345;
    let returned = unsafe { replica_begin(buffer.as_mut_ptr(), 8, &mut fill, 2, 6, always()) };
    assert_eq!((returned, fill), (0, 6));
    assert_eq!(buffer, [2, 0, 6, 1, 0, 0, 0xAA, 0xAA]);
}

#[test]
fn the_papers_statements() {
    let name = field(0, 1, 0, 7);
    let mut page = Page::new(250);
    page.expect(BEGIN, addition(1, 0, 0, &[name, field(1, 0, 0, 0)]), 0);
    page.expect(Call::Operation, addition(5, 0, 0, &[name, field(3, 0, 0, 1)]), 0);
    page.expect_body(
        "02 0005 01 01 0000 02 00 01 00000007 01 00 00 01 05 0000 02 00 01 00000007 03 00 00 00000001",
    );
    assert_eq!(page.body.bytes.len(), 35);
    page.expect(Call::Begin { host: 2, process: 6 }, always(), 0);
    page.expect(Call::Operation, addition(5, 0, 0, &[name, field(0, 0, 0, 41)]), 0);
    page.expect_body("02 0006 01 00 01 05 0000 02 00 01 00000007 00 00 00000029");
    assert_eq!(page.body.bytes.len(), 22);
}

#[test]
fn every_form_and_both_spaces() {
    let mut page = Page::new(250);
    let binds: Vec<Field> = (0..3).map(|kind| field(1, kind, kind + 10, 0xDEAD)).collect();
    page.expect(BEGIN, addition(3, 255, 9, &binds), 0);
    let uses = [field(2, 9, 11, 3), field(4, 2, 12, 0x3F80_0000), field(3, 0, 10, 0xFFFF_FFFF)];
    page.expect(Call::Operation, addition(5, 1, 999, &uses), 0);
    page.expect(Call::Operation, addition(6, 258, 65_535, &[field(5, 2, 77, 7)]), 0);
    page.expect(Call::Operation, addition(7, 0, 1, &[]), 0);
    page.expect(Call::Branch, always(), 0);
    let first = "03 00FF 03 01 00 0A 01 01 0B 01 02 0C 03";
    let out = "05 0001 03 02 0B 04 0C 02 3F800000 03 0A 00 FFFFFFFF";
    page.expect_body(&format!("02 0005 02 {first} {out} 06 0102 FFFF 01 05 02 07 0000 0001 00 00 00"));
}

/// Form, kind, lowest, highest, variable; what a range binds is used as what form 1 binds.
#[test]
fn ranges() {
    let mut page = Page::new(250);
    let guard = [range(2, 0xC000_0000, 0xBF80_0000, 15), range(0, 0xFFFF_FFFF, 1, 0)];
    page.expect(BEGIN, addition(1, 7, 9, &guard), 0);
    page.expect(Call::Operation, addition(3, 8, 9, &[field(2, 9, 15, 3), range(0, 5, 5, 3)]), 0);
    let uses = [field(4, 2, 15, 0x3F80_0000), field(3, 0, 0, 1), field(3, 0, 3, 2)];
    page.expect(Call::Operation, addition(5, 1, 999, &uses), 0);
    let guard = "01 0007 02 06 02 C0000000 BF800000 0F 06 00 FFFFFFFF 00000001 00 02";
    let reads = "03 0008 02 02 0F 06 00 00000005 00000005 03";
    let out = "05 0001 03 04 0F 02 3F800000 03 00 00 00000001 03 03 00 00000002";
    page.expect_body(&format!("02 0005 01 {guard} {reads} {out}"));
}

/// out, move and copy have no ranges, and inp and rdp are guards alone.
#[test]
fn where_ranges_stand() {
    let near = [range(0, 1, 2, 1)];
    for (code, guard, operation) in [(1, 0, 0), (2, 0, 6), (3, 0, 0), (4, 0, 6), (5, 6, 6), (6, 6, 6), (7, 6, 6)] {
        Page::new(250).expect(BEGIN, addition(code, 0, 0, &near), guard);
        Page::begun(250).expect(Call::Branch, addition(code, 0, 0, &near), guard);
        Page::begun(250).expect(Call::Operation, addition(code, 0, 0, &near), operation);
    }
}

#[test]
fn ranges_that_are_not_legal() {
    let guard = |fields: &[Field]| addition(1, 0, 0, fields);
    let metres = [
        (0xFF7F_FFFF, 0x7F7F_FFFF, 0),
        (0x8000_0001, 0x0000_0001, 0),
        (0x8000_0002, 0x8000_0001, 0),
        (0, 0, 0),
        (0x8000_0001, 0x8000_0002, 6),
        (0xBF80_0000, 0xC000_0000, 6),
        (0x0000_0001, 0x0000_0000, 6),
        (0x0000_0000, 0xBF80_0000, 6),
        (0x8000_0000, 0x0000_0000, 6),
        (0x0000_0000, 0x8000_0000, 6),
        (0xFF80_0000, 0x0000_0000, 6),
        (0x0000_0000, 0x7F80_0000, 6),
        (0x7FC0_0000, 0x7FC0_0000, 6),
    ];
    for (lowest, highest, answer) in metres {
        Page::new(250).expect(BEGIN, guard(&[range(2, lowest, highest, 0)]), answer);
    }
    let (least, greatest) = (0x8000_0000, 0x7FFF_FFFF);
    for (lowest, highest, answer) in
        [(least, greatest, 0), (7, 7, 0), (8, 7, 6), (0, 0xFFFF_FFFF, 6), (greatest, least, 6)]
    {
        Page::new(250).expect(BEGIN, guard(&[range(0, lowest, highest, 0)]), answer);
    }
    for (kind, variable) in [(1, 0), (3, 0), (255, 0), (0, 16), (2, 255)] {
        Page::new(250).expect(BEGIN, guard(&[range(kind, 1, 2, variable)]), 6);
    }
    Page::new(250).expect(BEGIN, guard(&[range(0, 1, 2, 3), range(2, 1, 2, 3)]), 6);
    Page::new(250).expect(BEGIN, guard(&[field(1, 0, 3, 0), range(0, 1, 2, 3)]), 6);
    // bound by metres, and used as a whole number
    let mut page = Page::new(250);
    page.expect(BEGIN, guard(&[range(2, 1, 2, 3)]), 0);
    page.expect(Call::Operation, addition(5, 0, 0, &[field(3, 0, 3, 1)]), 6);
    page.expect(Call::Operation, addition(3, 0, 0, &[range(0, 1, 2, 3)]), 6);
}

/// Twenty ranges have 242 bytes; a value and a kind make 250, and a variable more 251. Twenty-one have 253.
#[test]
fn ranges_to_250_and_to_251_bytes() {
    let near = |variables: std::ops::Range<u8>| {
        variables.map(|variable| range(2, 1, 2, variable)).collect::<Vec<Field>>()
    };
    let rd = |fields: &[Field]| addition(3, 0, 0, fields);
    let long = |last: &[Field], answer| {
        let mut page = Page::new(260);
        page.expect(BEGIN, rd(&near(0..6)), 0);
        page.expect(Call::Operation, rd(&near(6..12)), 0);
        page.expect(Call::Branch, rd(&near(0..6)), 0);
        page.expect(Call::Operation, rd(&[near(6..8), last.to_vec()].concat()), answer);
        page.body.bytes.len()
    };
    let given = field(0, 0, 0, 7);
    assert_eq!(long(&[], 0), 242);
    assert_eq!(long(&[given, field(5, 0, 0, 0)], 0), 250);
    long(&[given, field(1, 0, 9, 0)], 6);
    long(&near(8..9), 6);
}

/// What the guard true does not have is not looked at.
#[test]
fn parts_that_are_not_there() {
    let junk = Addition { from: 999, to: 999, count: usize::MAX, fields: [field(9, 9, 99, 9); 6], code: 0 };
    let mut page = Page::new(6);
    page.expect(BEGIN, junk, 0);
    page.expect_body("02 0005 01 00 00");
}

#[test]
fn the_ninth_operation() {
    let mut page = Page::begun(250);
    for _ in 0..8 {
        page.expect(Call::Operation, addition(7, 0, 0, &[]), 0);
    }
    page.expect(Call::Operation, addition(7, 0, 0, &[]), 6);
    page.expect(Call::Branch, always(), 0);
    page.expect(Call::Operation, addition(7, 0, 0, &[]), 0);
}

#[test]
fn the_fifth_branch() {
    let mut page = Page::begun(250);
    for _ in 0..3 {
        page.expect(Call::Branch, always(), 0);
    }
    page.expect(Call::Branch, always(), 6);
    page.expect_body("02 0005 04 00 00 00 00 00 00 00 00");
}

/// in(0, a whole number into each variable, any whole number).
fn read(variables: &[u8]) -> Addition {
    let binds = variables.iter().map(|variable| field(1, 0, *variable, 0));
    addition(1, 0, 0, &binds.chain([field(5, 0, 0, 0)]).collect::<Vec<Field>>())
}

/// A begun body with these additions done.
fn grown(operations: &[Addition]) -> Page {
    let mut page = Page::begun(300);
    operations.iter().for_each(|operation| page.expect(Call::Operation, *operation, 0));
    page
}

/// A begun body with five outs of six fields, and then these operations, which has so many bytes.
fn long(operations: &[Addition], bytes: usize) -> Page {
    let page = grown(&[&[out(6); 5], operations].concat());
    assert_eq!(page.body.bytes.len(), bytes);
    page
}

#[test]
fn an_operation_to_250_and_to_251_bytes() {
    let mut page = long(&[out(4), out(1)], 244);
    page.expect(Call::Operation, addition(3, 0, 0, &[field(1, 0, 0, 0)]), 6);
    page.expect(Call::Operation, read(&[]), 0);
    assert_eq!(page.body.bytes.len(), 250);
}

#[test]
fn a_branch_to_250_and_to_251_bytes() {
    let mut page = long(&[out(5), addition(7, 0, 0, &[field(5, 0, 0, 0)])], 248);
    page.expect(Call::Branch, always(), 0);
    assert_eq!(page.body.bytes.len(), 250);
    page.expect(Call::Branch, always(), 6);
    long(&[out(4), out(1)], 244).expect(Call::Branch, read(&[]), 6);
    long(&[out(5), read(&[0])], 249).expect(Call::Branch, always(), 6);
}

/// 6 where the addition is illegal in a short buffer too; 2 only where it is legal.
#[test]
fn two_not_before_six() {
    let name = field(0, 1, 0, 65_536);
    for length in 0..=8 {
        let mut page = Page::new(length);
        page.expect(Call::Begin { host: 16, process: 5 }, always(), 6);
        page.expect(BEGIN, out(1), 6);
        page.expect(BEGIN, addition(1, 256, 0, &[name]), 6);
        page.expect(BEGIN, always(), if length < 6 { 2 } else { 0 });
    }
    for length in 6..=16 {
        let mut page = Page::begun(length);
        page.expect(Call::Operation, always(), 6);
        page.expect(Call::Operation, addition(5, 0, 0, &[name]), 6);
        page.expect(Call::Branch, out(1), 6);
        page.expect(Call::Operation, out(1), if length < 16 { 2 } else { 0 });
    }
}

/// The body of a page on which this call is done.
fn written(mut page: Page, call: Call, addition: Addition) -> String {
    page.expect(call, addition, 0);
    hex(&page.body.bytes)
}

/// Every space is legal, at both ends, and is written in two bytes; one in a short buffer is 2.
#[test]
fn every_space() {
    let any = [field(5, 0, 0, 0)];
    let begun = |call, addition| written(Page::begun(250), call, addition);
    for space in [0, 1, 255, 256, 257, 512, 32_768, 65_535] {
        let digits = format!("{space:04X}");
        for code in 1..=4 {
            let guard = format!("0{code}{digits}010500");
            let first = written(Page::new(250), BEGIN, addition(code, space, 999, &any));
            assert_eq!(first, format!("02000501{guard}00"));
            let more = begun(Call::Branch, addition(code, space, 999, &any));
            assert_eq!(more, format!("020005020000{guard}00"));
        }
        let puts = begun(Call::Operation, addition(5, space, 999, &[field(0, 0, 0, 7)]));
        assert_eq!(puts, format!("02000501000105{digits}01000000000007"));
        for code in 6..=7 {
            let from = begun(Call::Operation, addition(code, space, 258, &any));
            assert_eq!(from, format!("0200050100010{code}{digits}0102010500"));
            let to = begun(Call::Operation, addition(code, 258, space, &any));
            assert_eq!(to, format!("0200050100010{code}0102{digits}010500"));
            Page::begun(13).expect(Call::Operation, addition(code, space, space, &any), 2);
        }
    }
}

/// All of 0 to 65,535, as the space of an in, and as both ends of a move.
#[test]
fn all_spaces() {
    let (mut buffer, mut fill) = ([0; 32], 0);
    for space in 0..=65_535 {
        let digits = format!("{space:04X}");
        let guard = addition(1, space, 0, &[field(5, 0, 0, 0)]);
        assert_eq!(library(&mut buffer, &mut fill, BEGIN, guard), 0, "{space}");
        let moves = addition(6, space, !space, &[]);
        assert_eq!(library(&mut buffer, &mut fill, Call::Operation, moves), 0, "{space}");
        let body = format!("02 0005 01 01 {digits} 01 05 00 01 06 {digits} {:04X} 00", !space);
        assert_eq!(buffer[..fill], unhex(&body), "{space}");
    }
}

#[test]
fn values_that_are_not_legal() {
    let metres = |bits| addition(5, 0, 0, &[field(0, 2, 0, bits)]);
    for (bits, answer) in [(0, 0), (0x7F7F_FFFF, 0), (0x8000_0000, 6), (0x7F80_0000, 6), (0x7FC0_0000, 6)] {
        Page::begun(250).expect(Call::Operation, metres(bits), answer);
    }
    Page::begun(250).expect(Call::Operation, addition(5, 0, 0, &[field(0, 1, 0, 65_535)]), 0);
    Page::begun(250).expect(Call::Operation, addition(5, 0, 0, &[field(0, 1, 0, 65_536)]), 6);
    Page::begun(250).expect(Call::Operation, addition(5, 0, 0, &[field(0, 3, 0, 0)]), 6);
}

/// Every buffer length, for additions of every size; a fill past the buffer is 6.
#[test]
fn every_buffer_length() {
    let mut desk = Desk::new(library);
    let mut body = Body::default();
    let ample: Vec<u8> = vec![0xEE; 257];
    for (call, addition) in [
        (BEGIN, always()),
        (Call::Operation, out(6)),
        (Call::Branch, addition(1, 0, 0, &[field(1, 0, 0, 0)])),
    ] {
        let after = body.with(call, &addition);
        let bytes = [&body.bytes[..], &ample[body.bytes.len()..]].concat();
        for length in 0..=256 {
            let expected = match length {
                _ if length < body.bytes.len() => 6,
                _ if length < after.bytes.len() => 2,
                _ => 0,
            };
            let answer = desk.add(&body, call, &addition, &bytes[..length]);
            assert_eq!(answer, Ok(expected), "{length} bytes");
        }
        body = after;
    }
}

/// A null pointer with length 0 is an empty buffer; after a refused begin nothing can be added.
#[test]
fn null_and_a_refused_begin() {
    let mut fill = 9;
    unsafe {
        assert_eq!((replica_begin(null_mut(), 0, &mut fill, 2, 5, out(1)), fill), (6, 0));
        fill = 9;
        assert_eq!((replica_begin(null_mut(), 0, &mut fill, 2, 5, always()), fill), (2, 0));
        assert_eq!((replica_operation(null_mut(), 0, &mut fill, out(1)), fill), (6, 0));
        fill = usize::MAX;
        assert_eq!((replica_operation(null_mut(), 0, &mut fill, out(1)), fill), (6, usize::MAX));
    }
}

// ---- The comparison itself ----

/// What the chains say of a writer.
fn verdict(write: Write) -> Result<(), String> {
    let mut desk = Desk::new(write);
    (0..60).try_for_each(|number| chain(SEED, number, &mut desk))
}

/// The chains notice it, and the fault has these words.
fn noticed(write: Write, words: &str) {
    let fault = verdict(write).expect_err("not noticed");
    assert!(fault.contains(words), "{fault}");
    assert!(fault.starts_with("seed 5 chain "), "{fault}");
}

#[test]
fn the_second_implementation_passes() {
    assert_eq!(verdict(reference), Ok(()));
}

#[test]
fn wrong_two_before_six() {
    noticed(
        |body, fill, call, addition| {
            let needed = fill.saturating_add(bytes(&addition).len());
            if call == Call::Operation && body.len() < needed {
                return 2;
            }
            reference(body, fill, call, addition)
        },
        "returned 2 and not 6",
    );
}

#[test]
fn wrong_count_not_raised() {
    noticed(
        |body, fill, call, addition| {
            let (before, filled) = (body.to_vec(), *fill);
            let answer = reference(body, fill, call, addition);
            if answer == 0 && call == Call::Operation {
                body[..filled].copy_from_slice(&before[..filled]);
            }
            answer
        },
        "the body byte",
    );
}

#[test]
fn wrong_branch_count_not_raised() {
    noticed(
        |body, fill, call, addition| {
            let answer = reference(body, fill, call, addition);
            if answer == 0 && call == Call::Branch {
                body[3] -= 1;
            }
            answer
        },
        "the body byte 3",
    );
}

#[test]
fn wrong_byte_past_the_fill() {
    noticed(
        |body, fill, call, addition| {
            let answer = reference(body, fill, call, addition);
            if answer == 0 && *fill < body.len() {
                body[*fill] ^= 1;
            }
            answer
        },
        "the body byte",
    );
}

#[test]
fn wrong_byte_past_the_buffer() {
    noticed(
        |body, fill, call, addition| {
            unsafe { body.as_mut_ptr().add(body.len()).write(0) };
            reference(body, fill, call, addition)
        },
        "the body was written 1 bytes past its end",
    );
}

#[test]
fn wrong_high_byte_of_a_space_lost() {
    noticed(
        |body, fill, call, mut addition| {
            addition.from %= 256;
            reference(body, fill, call, addition)
        },
        "the body byte",
    );
}

#[test]
fn wrong_high_byte_of_a_target_space_lost() {
    noticed(
        |body, fill, call, mut addition| {
            addition.to %= 256;
            reference(body, fill, call, addition)
        },
        "the body byte",
    );
}

#[test]
fn wrong_bytes_of_a_space_exchanged() {
    noticed(
        |body, fill, call, mut addition| {
            addition.from = addition.from.swap_bytes();
            reference(body, fill, call, addition)
        },
        "the body byte",
    );
}

#[test]
fn wrong_space_above_255_refused() {
    noticed(
        |body, fill, call, addition| match reference(body, fill, call, addition) {
            0 if (1..=7).contains(&addition.code) && addition.from > 255 => 6,
            answer => answer,
        },
        "returned 6 and not 0",
    );
}

#[test]
fn wrong_target_space_of_an_in_looked_at() {
    noticed(
        |body, fill, call, mut addition| {
            if (1..=5).contains(&addition.code) {
                addition.from |= addition.to;
            }
            reference(body, fill, call, addition)
        },
        "the body byte",
    );
}

/// Changes each field of a form.
fn with_fields(mut addition: Addition, form: u8, change: fn(&mut Field)) -> Addition {
    addition.fields.iter_mut().filter(|field| field.form == form).for_each(change);
    addition
}

#[test]
fn wrong_highest_value_lost() {
    noticed(
        |body, fill, call, addition| {
            reference(body, fill, call, with_fields(addition, 6, |field| field.highest = field.bits))
        },
        " and not ",
    );
}

#[test]
fn wrong_ends_of_a_range_exchanged() {
    noticed(
        |body, fill, call, addition| {
            let exchanged = |field: &mut Field| std::mem::swap(&mut field.bits, &mut field.highest);
            reference(body, fill, call, with_fields(addition, 6, exchanged))
        },
        " and not ",
    );
}

#[test]
fn wrong_range_taken_for_form_1() {
    noticed(
        |body, fill, call, addition| reference(body, fill, call, with_fields(addition, 6, |field| field.form = 1)),
        " and not ",
    );
}

/// Negative metres, whose bits are in reverse, are refused.
#[test]
fn wrong_ends_by_their_bits() {
    noticed(
        |body, fill, call, addition| {
            let is_reverse = |field: &Field| field.form == 6 && field.bits > field.highest;
            let counted = &addition.fields[..addition.count.min(6)];
            match reference(body, fill, call, addition) {
                0 if addition.code != 0 && counted.iter().any(is_reverse) => 6,
                answer => answer,
            }
        },
        "returned 6 and not 0",
    );
}

#[test]
fn wrong_highest_value_of_another_form_looked_at() {
    noticed(
        |body, fill, call, addition| {
            let is_high = |field: &Field| field.form == 0 && field.bits > field.highest;
            let counted = &addition.fields[..addition.count.min(6)];
            match reference(body, fill, call, addition) {
                0 if addition.code != 0 && counted.iter().any(is_high) => 6,
                answer => answer,
            }
        },
        "returned 6 and not 0",
    );
}

#[test]
fn wrong_fill_lost_where_refused() {
    noticed(
        |body, fill, call, addition| {
            let answer = reference(body, fill, call, addition);
            if answer != 0 {
                *fill = 0;
            }
            answer
        },
        "the fill is 0 and not",
    );
}

#[test]
fn wrong_bytes_of_a_refused_addition() {
    noticed(
        |body, fill, call, addition| {
            let answer = reference(body, fill, call, addition);
            if answer == 2 {
                let bytes = bytes(&addition);
                let at = (*fill).min(body.len());
                let room = bytes.len().min(body.len() - at);
                body[at..at + room].copy_from_slice(&bytes[..room]);
            }
            answer
        },
        "the body byte",
    );
}

#[test]
fn wrong_body_of_251_bytes() {
    noticed(
        |body, fill, call, addition| match reference(body, fill, call, addition) {
            6 if call == Call::Operation && (245..=250).contains(fill) => 2,
            answer => answer,
        },
        "returned 2 and not 6",
    );
}
