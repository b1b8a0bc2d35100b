//! Calls in any floating-point mode of the processor, which is the word MXCSR. A mode is set, used and put back
//! within one block of assembly, so that nothing but the call runs in it.

use std::arch::asm;
use std::fmt::{Display, Formatter, Result as Written};

/// The flags that exceptions leave raised.
pub const FLAGS: u32 = 0x003F;
/// A set bit keeps an exception from ending the program.
const MASKS: u32 = 0x1F80;

#[derive(Clone, Copy, Debug, PartialEq, Eq)]
pub struct Mode {
    pub name: &'static str,
    pub word: u32,
}

/// The mode that a process starts with.
pub const DEFAULT: Mode = Mode { name: "default", word: 0x1F80 };
pub const FLUSH_TO_ZERO: Mode = Mode { name: "flush to zero", word: 0x9F80 };
pub const DENORMALS_ARE_ZERO: Mode = Mode { name: "denormals are zero", word: 0x1FC0 };
pub const NO_SUBNORMALS: Mode = Mode { name: "flush to zero, denormals are zero", word: 0x9FC0 };
pub const DOWNWARD: Mode = Mode { name: "rounding downward", word: 0x3F80 };
pub const UPWARD: Mode = Mode { name: "rounding upward", word: 0x5F80 };
pub const TOWARD_ZERO: Mode = Mode { name: "rounding toward zero", word: 0x7F80 };
pub const FLAGS_RAISED: Mode = Mode { name: "default, all flags raised", word: 0x1FBF };
pub const UNMASKED: Mode = Mode { name: "exceptions unmasked", word: 0x0000 };
/// Flush to zero, denormals are zero, rounding upward, exceptions unmasked.
pub const ALL_AT_ONCE: Mode = Mode { name: "all at once", word: 0xC040 };

/// All but the default one.
pub const OTHERS: [Mode; 9] = [
    FLUSH_TO_ZERO,
    DENORMALS_ARE_ZERO,
    NO_SUBNORMALS,
    DOWNWARD,
    UPWARD,
    TOWARD_ZERO,
    FLAGS_RAISED,
    UNMASKED,
    ALL_AT_ONCE,
];

impl Mode {
    /// An exception ends the program.
    pub fn traps(self) -> bool {
        self.word & MASKS != MASKS
    }
}

impl Display for Mode {
    fn fmt(&self, f: &mut Formatter) -> Written {
        f.pad(self.name)
    }
}

/// `replica_take`, or a stand-in.
pub type Take = unsafe extern "C" fn(*mut u8, usize, *const u8, usize, *mut u8, usize) -> u64;
/// `replica_can_meet`, or a stand-in.
pub type CanMeet = unsafe extern "C" fn(*const u8, usize, *const u8, usize) -> u64;

/// MXCSR before a block, in it, and at its end.
#[repr(C)]
#[derive(Default)]
struct Words {
    before: u32,
    within: u32,
    left: u32,
}

/// Makes a call in a mode. Hands back what the call returned, and the word that it left in MXCSR.
pub fn call(mode: Mode, take: Take, state: &mut [u8], record: &[u8], reply: &mut [u8]) -> (u64, u32) {
    let (to, from, into) = (state.as_mut_ptr() as usize, record.as_ptr() as usize, reply.as_mut_ptr() as usize);
    within(mode, take as *const (), [to, state.len(), from, record.len(), into, reply.len()])
}

/// Asks in a mode whether two templates can meet.
pub fn ask(mode: Mode, can_meet: CanMeet, first: &[u8], second: &[u8]) -> (u64, u32) {
    let buffers = [first.as_ptr() as usize, first.len(), second.as_ptr() as usize, second.len()];
    within(mode, can_meet as *const (), [buffers[0], buffers[1], buffers[2], buffers[3], 0, 0])
}

/// Calls a function of at most six words in a mode.
fn within(mode: Mode, function: *const (), values: [usize; 6]) -> (u64, u32) {
    let mut words = Words { within: mode.word, ..Words::default() };
    let returned: u64;
    unsafe {
        asm!(
            "stmxcsr [r12]",
            "ldmxcsr [r12 + 4]",
            "call {function}",
            "stmxcsr [r12 + 8]",
            "ldmxcsr [r12]",
            function = in(reg) function,
            in("r12") &mut words,
            in("rdi") values[0],
            in("rsi") values[1],
            in("rdx") values[2],
            in("rcx") values[3],
            in("r8") values[4],
            in("r9") values[5],
            lateout("rax") returned,
            clobber_abi("C"),
        );
    }
    (returned, words.left)
}

/// The processor's own sum of two f32 in a mode, but with exceptions masked, and the flags that it raises.
pub fn processor(mode: Mode, left: u32, right: u32) -> (u32, u32) {
    let mut words = Words { within: (mode.word | MASKS) & !FLAGS, ..Words::default() };
    let mut sum = f32::from_bits(left);
    unsafe {
        asm!(
            "stmxcsr [{words}]",
            "ldmxcsr [{words} + 4]",
            "addss {sum}, {right}",
            "stmxcsr [{words} + 8]",
            "ldmxcsr [{words}]",
            words = in(reg) &mut words,
            sum = inout(xmm_reg) sum,
            right = in(xmm_reg) f32::from_bits(right),
            options(nostack),
        );
    }
    (sum.to_bits(), words.left & FLAGS)
}

/// The word of the thread that asks.
pub fn current() -> u32 {
    let mut word = 0;
    unsafe { asm!("stmxcsr [{}]", in(reg) &mut word, options(nostack)) };
    word
}
