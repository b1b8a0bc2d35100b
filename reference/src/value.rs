//! Values: a kind byte and four bytes.

pub const WHOLE: u8 = 0;
pub const NAME: u8 = 1;
pub const METRES: u8 = 2;

/// Two values are equal when kind and bytes are.
#[derive(Clone, Copy, PartialEq, Eq, Debug)]
pub struct Value {
    pub kind: u8,
    pub bytes: [u8; 4],
}

pub fn whole(number: i32) -> Value {
    Value { kind: WHOLE, bytes: number.to_be_bytes() }
}

pub fn name(number: u16) -> Value {
    Value { kind: NAME, bytes: u32::from(number).to_be_bytes() }
}

/// Metres given by the bits of the f32.
pub fn metres(bits: u32) -> Value {
    Value { kind: METRES, bytes: bits.to_be_bytes() }
}

impl Value {
    /// A name is at most 65,535; metres are finite and not negative zero.
    pub fn is_legal(&self) -> bool {
        match self.kind {
            WHOLE => true,
            NAME => u32::from_be_bytes(self.bytes) <= 65_535,
            METRES => {
                let bits = u32::from_be_bytes(self.bytes);
                f32::from_bits(bits).is_finite() && bits != 0x8000_0000
            }
            _ => false,
        }
    }

    /// The order within a kind: whole numbers by the signed number, names and metres by theirs. Of
    /// two kinds neither value is at most the other.
    pub fn is_at_most(&self, other: &Value) -> bool {
        match (self.kind, other.kind) {
            (WHOLE, WHOLE) => i32::from_be_bytes(self.bytes) <= i32::from_be_bytes(other.bytes),
            (NAME, NAME) => u32::from_be_bytes(self.bytes) <= u32::from_be_bytes(other.bytes),
            (METRES, METRES) => f32::from_be_bytes(self.bytes) <= f32::from_be_bytes(other.bytes),
            _ => false,
        }
    }

    /// The variable's value plus, or minus, the operand; None is refusal 17.
    pub fn combine(&self, minus: bool, operand: &Value) -> Option<Value> {
        match (self.kind, operand.kind) {
            (WHOLE, WHOLE) => combine_whole(self.bytes, minus, operand.bytes),
            (METRES, METRES) => combine_metres(self.bytes, minus, operand.bytes),
            _ => None,
        }
    }
}

/// The exact result, where it is in the signed 32-bit range.
fn combine_whole(left: [u8; 4], minus: bool, right: [u8; 4]) -> Option<Value> {
    let left = i64::from(i32::from_be_bytes(left));
    let right = i64::from(i32::from_be_bytes(right));
    let exact = if minus { left - right } else { left + right };
    i32::try_from(exact).ok().map(whole)
}

/// The sum or difference, rounded once, where it is finite.
fn combine_metres(left: [u8; 4], minus: bool, right: [u8; 4]) -> Option<Value> {
    let left = f32::from_be_bytes(left);
    let right = f32::from_be_bytes(right);
    let rounded = if minus { left - right } else { left + right };
    let result = metres(rounded.to_bits());
    result.is_legal().then_some(result)
}
