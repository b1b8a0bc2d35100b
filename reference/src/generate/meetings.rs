//! A seeded generator of pairs of templates: those that meet, that nearly do, and those that are refused.

use super::matches::{any_value, value};
use super::ranges;
use super::rng::Rng;
use crate::meeting::can_meet;
use crate::statement::{operation_bytes, Field, Operation, SpaceNumber};
use crate::statement::{IN, INP, MOST_FIELDS, MOVE, OUT, RD, RDP, TRUE};
use crate::value::{metres, name, whole, Value, METRES, NAME, WHOLE};

pub struct Meeting {
    pub first: Vec<u8>,
    pub second: Vec<u8>,
    /// What was done to either.
    pub notes: [&'static str; 2],
}

impl Meeting {
    pub fn answer(&self) -> u64 {
        can_meet(&self.first, &self.second)
    }
}

/// What keeps two templates apart.
#[derive(Clone, Copy, PartialEq)]
enum Gap {
    Nothing,
    Value,
    Kind,
    Count,
    Space,
    Several,
}

const GAPS: [(Gap, usize); 6] =
    [(Gap::Nothing, 46), (Gap::Value, 24), (Gap::Kind, 8), (Gap::Count, 8), (Gap::Space, 8), (Gap::Several, 6)];

pub struct Meetings {
    rng: Rng,
    /// Whether the templates in hand have ranges alone.
    ranges_alone: bool,
}

impl Meetings {
    pub fn new(seed: u64) -> Meetings {
        let mut rng = Rng::new(seed.wrapping_mul(1_000_003));
        rng.next();
        Meetings { rng, ranges_alone: false }
    }

    pub fn make(&mut self) -> Meeting {
        let mut pair = self.templates();
        let (uses, harm) = (self.rng.weighted(&[82, 7, 7, 4]), self.rng.weighted(&[72, 12, 12, 4]));
        for (side, template) in pair.iter_mut().enumerate() {
            if uses >> side & 1 == 1 {
                self.use_variable(template);
            }
        }
        let mut notes = ["good"; 2];
        let [first, second] = [0, 1].map(|side| {
            if harm >> side & 1 == 0 {
                return operation_bytes(&pair[side]);
            }
            let (bytes, note) = self.harmed(&pair[side]);
            notes[side] = note;
            bytes
        });
        Meeting { first, second, notes }
    }

    // ---- Templates ----

    /// Two templates without form 2.
    fn templates(&mut self) -> [Operation; 2] {
        let weights = GAPS.map(|(_, weight)| weight);
        let (gap, _) = GAPS[self.rng.weighted(&weights)];
        self.ranges_alone = self.rng.percent(8);
        let has = |wanted: Gap, rng: &mut Rng| gap == wanted || gap == Gap::Several && rng.percent(50);
        let count = 1 + self.rng.below(MOST_FIELDS);
        let (at, several) = (self.rng.below(count), gap == Gap::Several && self.rng.percent(50));
        let (value, kind) = (has(Gap::Value, &mut self.rng), has(Gap::Kind, &mut self.rng));
        let mut fields: [Vec<Field>; 2] = Default::default();
        let mut free = [self.variables(), self.variables()];
        for place in 0..count {
            let here = place == at || several && self.rng.percent(50);
            let ends = self.sets(here && value, here && kind);
            for side in 0..2 {
                let field = self.field(ends[side], &mut free[side]);
                fields[side].push(field);
            }
        }
        if has(Gap::Count, &mut self.rng) {
            self.recount(&mut fields, &mut free);
        }
        let spaces = self.spaces(gap == Gap::Space || several);
        let mut sides = fields.into_iter().zip(spaces);
        [(); 2].map(|_| {
            let (fields, space) = sides.next().expect("two sides");
            Operation { code: self.rng.pick(&[IN, INP, RD, RDP]), spaces: vec![space], fields }
        })
    }

    /// All variables in any order.
    fn variables(&mut self) -> Vec<u8> {
        let mut free: Vec<u8> = (0..16).collect();
        for end in (1..16).rev() {
            free.swap(end, self.rng.below(end + 1));
        }
        free
    }

    fn spaces(&mut self, differ: bool) -> [SpaceNumber; 2] {
        let any = self.rng.next() as SpaceNumber;
        let one = self.rng.pick(&[0, 1, 255, 256, SpaceNumber::MAX, any]);
        let other = self.rng.pick(&[one ^ 1, one ^ 0x0100, one.swap_bytes(), !one]);
        [one, if differ { other } else { one }]
    }

    /// One side is longer, mostly by one field.
    fn recount(&mut self, fields: &mut [Vec<Field>; 2], free: &mut [Vec<u8>; 2]) {
        let side = self.rng.below(2);
        if fields[side].len() == MOST_FIELDS || fields[side].len() > 1 && self.rng.percent(50) {
            fields[side].pop();
            return;
        }
        let value = any_value(&mut self.rng);
        let field = self.field((value, value), &mut free[side]);
        fields[side].push(field);
    }

    // ---- Fields ----

    /// For a place of either side the ends of what it matches, which share a value unless they may not.
    fn sets(&mut self, apart: bool, other_kind: bool) -> [(Value, Value); 2] {
        let kind = self.rng.pick(&[WHOLE, METRES]);
        let one = if self.ranges_alone { value(&mut self.rng, kind) } else { any_value(&mut self.rng) };
        let around = |rng: &mut Rng| if ranges::has_ranges(one.kind) { ranges::around(rng, &one) } else { (one, one) };
        let mut sets = [around(&mut self.rng), around(&mut self.rng)];
        if apart {
            sets = self.apart(one);
        }
        if other_kind {
            let kind = (one.kind + 1 + self.rng.below(2) as u8) % 3;
            let kept = Value { kind, ..one };
            let other = if kept.is_legal() { kept } else { value(&mut self.rng, kind) };
            sets[self.rng.below(2)] = (other, other);
        }
        sets
    }

    /// Two sets of one kind that share nothing, often with nothing between them.
    fn apart(&mut self, one: Value) -> [(Value, Value); 2] {
        let mut other = one;
        while other == one {
            other = value(&mut self.rng, one.kind);
        }
        if !ranges::has_ranges(one.kind) {
            return [(one, one), (other, other)];
        }
        let (low, high) = if one.is_at_most(&other) { (one, other) } else { (other, one) };
        let next = ranges::above(&low).filter(|_| self.rng.percent(60)).unwrap_or(high);
        let mut sets = [(ranges::at_most(&mut self.rng, &low), low), (next, ranges::at_least(&mut self.rng, &next))];
        if self.rng.percent(50) {
            sets.swap(0, 1);
        }
        sets
    }

    /// A field that matches a set: a range, a value where it is one, or now and then the whole kind.
    fn field(&mut self, ends: (Value, Value), free: &mut Vec<u8>) -> Field {
        let (kind, variable) = (ends.0.kind, free.pop().unwrap_or(0));
        if self.ranges_alone && ranges::has_ranges(kind) {
            return ranges::field(ends, variable);
        }
        let can = (usize::from(ends.0 == ends.1), usize::from(ranges::has_ranges(kind)));
        let whole_kind = usize::from(can == (0, 0)) + usize::from(self.rng.percent(25));
        match self.rng.weighted(&[3 * can.0, 4 * can.1, 3 * whole_kind, 3 * whole_kind]) {
            0 => Field::Given(ends.0),
            1 => ranges::field(ends, variable),
            2 => Field::Bind { kind, variable },
            _ => Field::Any { kind },
        }
    }

    // ---- What is refused ----

    /// A form 2 in the place of a field, or beside all: of any variable, often of one bound here.
    fn use_variable(&mut self, template: &mut Operation) {
        let bound: Vec<u8> = template.fields.iter().filter_map(Field::binding).map(|(variable, _)| variable).collect();
        let any = self.rng.below(16) as u8;
        let variable = if bound.is_empty() || self.rng.percent(50) { any } else { self.rng.pick(&bound) };
        if template.fields.len() < MOST_FIELDS && self.rng.percent(60) {
            let at = self.rng.below(template.fields.len() + 1);
            template.fields.insert(at, Field::Use { variable });
        } else {
            self.replace(template, Field::Use { variable });
        }
    }

    fn replace(&mut self, template: &mut Operation, field: Field) {
        let at = self.rng.below(template.fields.len());
        template.fields[at] = field;
    }

    /// Bytes that are no legal template, and why.
    fn harmed(&mut self, template: &Operation) -> (Vec<u8>, &'static str) {
        let mut bytes = operation_bytes(template);
        match self.rng.below(9) {
            0 => {
                bytes.truncate(self.rng.below(bytes.len()));
                (bytes, "cut")
            }
            1 => {
                bytes.pop();
                (bytes, "one byte short")
            }
            2 => {
                bytes.push(self.rng.pick(&[0, 1, 255]));
                (bytes, "spare byte")
            }
            3 => (Vec::new(), "empty"),
            4 => self.other_code(template),
            _ => {
                let (template, note) = self.breach(template.clone());
                (operation_bytes(&template), note)
            }
        }
    }

    /// An operation of another code, legal in a statement or not.
    fn other_code(&mut self, template: &Operation) -> (Vec<u8>, &'static str) {
        let (space, given) = (template.spaces[0], vec![Field::Given(whole(1))]);
        let other = |code: u8, spaces: Vec<SpaceNumber>, fields: Vec<Field>| Operation { code, spaces, fields };
        let transfer = MOVE + self.rng.below(2) as u8;
        let (operation, note) = match self.rng.below(5) {
            0 => (other(TRUE, vec![], vec![]), "true"),
            1 => (other(OUT, vec![space], given), "out"),
            2 => (other(transfer, vec![space, space], given), "move or copy"),
            3 => (other(transfer, vec![space, space], vec![]), "move or copy without fields"),
            _ => (other(self.rng.pick(&[0, 5, 6, 7, 8, 255]), template.spaces.clone(), vec![]), "code"),
        };
        let mut bytes = operation_bytes(&operation);
        if note == "code" {
            bytes = operation_bytes(template);
            bytes[0] = operation.code;
        }
        (bytes, note)
    }

    /// One field or the number of fields against a rule.
    fn breach(&mut self, mut template: Operation) -> (Operation, &'static str) {
        let variable = self.rng.pick(&[16, 17, 128, 255]);
        let bits = self.rng.pick(&[0x8000_0000, 0x7F80_0000, 0x7FC0_0000, 0xFF80_0000]);
        let kind = self.rng.pick(&[3, 4, 255]);
        let (one, two) = (whole(1), whole(2));
        let (field, note) = match self.rng.below(15) {
            0 => (Field::Bind { kind: WHOLE, variable }, "variable of form 1"),
            1 => (Field::Use { variable }, "variable of form 2"),
            2 => (ranges::field((one, two), variable), "variable of form 6"),
            3 => (Field::Bind { kind, variable: 3 }, "kind of form 1"),
            4 => (Field::Any { kind }, "kind of form 5"),
            5 => (Field::Given(Value { kind, ..one }), "kind of form 0"),
            6 => (Field::Given(Value { kind: NAME, bytes: [0, 1, 0, 0] }), "value of form 0"),
            7 => (Field::Given(metres(bits)), "value of form 0"),
            8 => (ranges::field((two, one), 3), "range upside down"),
            9 => (ranges::field((metres(0x8000_0001), metres(0x8000_0002)), 3), "range upside down"),
            10 => (ranges::field((name(1), name(2)), 3), "range of names"),
            11 => (ranges::field((metres(bits), metres(ranges::MOST_METRES)), 3), "range end"),
            12 => (ranges::field((Value { kind: METRES, bytes: [0; 4] }, metres(bits)), 3), "range end"),
            13 => (Field::Plus { variable: 3, value: one }, "form 3 or 4"),
            _ => return self.breach_of_all(template),
        };
        self.replace(&mut template, field);
        (template, note)
    }

    /// No field, seven, or two that bind one variable.
    fn breach_of_all(&mut self, mut template: Operation) -> (Operation, &'static str) {
        let bind = Field::Bind { kind: NAME, variable: 9 };
        let range = ranges::field((metres(0), metres(1)), 9);
        let note = match self.rng.below(4) {
            0 => {
                template.fields.clear();
                "no field"
            }
            1 => {
                template.fields.resize(MOST_FIELDS + 1, Field::Any { kind: WHOLE });
                "seven fields"
            }
            _ => {
                let pairs = [(bind.clone(), bind.clone()), (bind.clone(), range.clone()), (range.clone(), range)];
                let (one, other) = pairs[self.rng.below(3)].clone();
                template.fields.truncate(MOST_FIELDS - 2);
                template.fields.insert(0, one);
                template.fields.push(other);
                "bound twice"
            }
        };
        (template, note)
    }
}
