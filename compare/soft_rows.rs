//! Calls of the engine without floats with what is due for them: by the judges, and some of them by hand.

use crate::kernels::{beside_the_crate, Kernel, NAN};
use crate::soft_judge::Operation::{self, Add, Div, Mul, Sub};
use crate::soft_judge::INFINITY;
use std::fmt;

/// A call with its operands.
#[derive(Clone, Copy, PartialEq, Eq, Hash)]
pub enum Row {
    Pair(Operation, u32, u32),
    /// A kernel by its name.
    Word(&'static str, u32),
}

impl Row {
    /// What is due, by the machine and by whole numbers; of a kernel both are the crate's.
    pub fn dues(&self) -> [u32; 2] {
        match *self {
            Row::Pair(operation, a, b) => [operation.by_machine(a, b), operation.by_whole_numbers(a, b).0],
            Row::Word(name, a) => [of_the_crate(name).expected(a, 0).expect("a raw kernel answers every word") as u32; 2],
        }
    }
}

impl fmt::Display for Row {
    fn fmt(&self, out: &mut fmt::Formatter) -> fmt::Result {
        match self {
            Row::Pair(operation, a, b) => write!(out, "{} {a:08x} {b:08x}", operation.name()),
            Row::Word(name, a) => write!(out, "{name} {a:08x}"),
        }
    }
}

/// The crate's kernel, as ours on the first engine stands beside it.
pub fn of_the_crate(name: &str) -> Kernel {
    beside_the_crate().into_iter().find(|kernel| !kernel.is_guarded() && kernel.name == name).expect("the crate has this kernel")
}

/// The kernels of this engine.
pub const NAMES: [&str; 4] = ["cos", "sin", "atan_norm", "atan"];

/// Operations with what is due for them, worked out by hand.
const BY_HAND: [(Operation, u32, u32, u32); 71] = [
    // half a step beside 1, and just more: the even one of two, or the nearer
    (Add, 0x3f80_0000, 0x3380_0000, 0x3f80_0000),
    (Add, 0x3f80_0000, 0x3380_0001, 0x3f80_0001),
    (Add, 0x3f80_0001, 0x3380_0000, 0x3f80_0002),
    (Add, 0x3f80_0001, 0x337f_ffff, 0x3f80_0001),
    (Add, 0xbf80_0001, 0xb380_0000, 0xbf80_0002),
    (Sub, 0x3f80_0000, 0x3300_0000, 0x3f80_0000),
    (Sub, 0x3f80_0000, 0x3300_0001, 0x3f7f_ffff),
    (Sub, 0x3f80_0000, 0x3380_0000, 0x3f7f_ffff),
    (Sub, 0x3300_0001, 0x3f80_0000, 0xbf7f_ffff),
    // half a step above the largest
    (Add, 0x7f7f_ffff, 0x7300_0000, INFINITY),
    (Add, 0x7f7f_ffff, 0x72ff_ffff, 0x7f7f_ffff),
    (Add, 0x7f7f_fffe, 0x7300_0000, 0x7f7f_fffe),
    (Sub, 0xff7f_ffff, 0x7300_0000, 0xff80_0000),
    (Sub, 0x7f7f_ffff, 0xff7f_ffff, INFINITY),
    // small numbers, and from them to normal ones
    (Add, 0x0000_0001, 0x0000_0001, 0x0000_0002),
    (Add, 0x007f_ffff, 0x0000_0001, 0x0080_0000),
    (Sub, 0x0080_0000, 0x0000_0001, 0x007f_ffff),
    (Sub, 0x0080_0000, 0x007f_ffff, 0x0000_0001),
    (Add, 0x0100_0001, 0x0000_0001, 0x0100_0002),
    // zeros
    (Add, 0x0000_0000, 0x0000_0000, 0x0000_0000),
    (Add, 0x8000_0000, 0x8000_0000, 0x8000_0000),
    (Add, 0x0000_0000, 0x8000_0000, 0x0000_0000),
    (Add, 0x8000_0000, 0x0000_0000, 0x0000_0000),
    (Sub, 0x0000_0000, 0x0000_0000, 0x0000_0000),
    (Sub, 0x8000_0000, 0x0000_0000, 0x8000_0000),
    (Sub, 0x8000_0000, 0x8000_0000, 0x0000_0000),
    (Sub, 0x3f80_0000, 0x3f80_0000, 0x0000_0000),
    (Sub, 0xbf80_0000, 0xbf80_0000, 0x0000_0000),
    (Add, 0xbf80_0000, 0x3f80_0000, 0x0000_0000),
    (Mul, 0x8000_0000, 0x3f80_0000, 0x8000_0000),
    (Mul, 0x8000_0000, 0xbf80_0000, 0x0000_0000),
    (Div, 0x0000_0000, 0xbf80_0000, 0x8000_0000),
    // infinities
    (Add, INFINITY, INFINITY, INFINITY),
    (Add, INFINITY, 0xff80_0000, NAN),
    (Sub, INFINITY, INFINITY, NAN),
    (Sub, 0x3f80_0000, INFINITY, 0xff80_0000),
    (Mul, INFINITY, 0x8000_0001, 0xff80_0000),
    (Mul, 0x0000_0000, INFINITY, NAN),
    (Mul, 0xff80_0000, 0x0000_0000, NAN),
    (Div, INFINITY, INFINITY, NAN),
    (Div, 0xff80_0000, 0x0000_0000, 0xff80_0000),
    (Div, 0xff80_0000, 0x8000_0000, INFINITY),
    (Div, 0xbf80_0000, INFINITY, 0x8000_0000),
    (Div, 0x7f7f_ffff, 0xff80_0000, 0x8000_0000),
    (Div, 0x0000_0000, 0x8000_0000, NAN),
    (Div, 0x3f80_0000, 0x8000_0000, 0xff80_0000),
    (Div, 0x8000_0001, 0x8000_0000, INFINITY),
    // a NaN
    (Add, 0xffc0_0001, 0x3f80_0000, NAN),
    (Sub, 0x3f80_0000, 0x7f80_0001, NAN),
    (Mul, 0x0000_0000, 0xffff_ffff, NAN),
    (Div, 0xff80_0001, 0x0000_0000, NAN),
    // products: 1.5 times an odd number of steps, 1801 times 18631, half and a quarter of small numbers
    (Mul, 0x3f80_0001, 0x3fc0_0000, 0x3fc0_0002),
    (Mul, 0x3f80_0003, 0x3fc0_0000, 0x3fc0_0004),
    (Mul, 0x5f91_8e00, 0x5f61_2000, INFINITY),
    (Mul, 0x7f7f_fffd, 0x3f80_0001, 0x7f7f_ffff),
    (Mul, 0x7f7f_fffe, 0x3f80_0001, INFINITY),
    (Mul, 0x0000_0001, 0x3f00_0000, 0x0000_0000),
    (Mul, 0x8000_0001, 0x3f00_0000, 0x8000_0000),
    (Mul, 0x0000_0001, 0x3f00_0001, 0x0000_0001),
    (Mul, 0x0000_0003, 0x3f00_0000, 0x0000_0002),
    (Mul, 0x00ff_ffff, 0x3f00_0000, 0x0080_0000),
    (Mul, 0x00ff_fffe, 0x3f00_0000, 0x007f_ffff),
    (Mul, 0x1a00_0000, 0x1a00_0000, 0x0000_0000),
    // quotients: thirds, just more than half a step, and small ones
    (Div, 0x3f80_0000, 0x4040_0000, 0x3eaa_aaab),
    (Div, 0x0000_0001, 0x0000_0003, 0x3eaa_aaab),
    (Div, 0x3f80_0000, 0x3f7f_ffff, 0x3f80_0001),
    (Div, 0x0000_0001, 0x3f00_0001, 0x0000_0002),
    (Div, 0x0000_0003, 0x4000_0000, 0x0000_0002),
    (Div, 0x0000_0001, 0x7f7f_ffff, 0x0000_0000),
    (Div, 0x7f7f_ffff, 0x3f7f_ffff, INFINITY),
    (Div, 0x7f7f_fffe, 0x3f7f_ffff, 0x7f7f_ffff),
];

/// Kernels with what is due for them, worked out by hand.
const KERNELS_BY_HAND: [(&str, u32, u32); 12] = [
    ("cos", 0x0000_0000, 0x3f80_0000),
    ("cos", 0x8000_0001, 0x3f80_0000),
    ("cos", INFINITY, INFINITY),
    ("cos", 0xff80_0000, 0xff80_0000),
    ("cos", 0xff80_0001, NAN),
    ("sin", 0x3fc9_0fdb, 0x3f80_0000),
    ("atan_norm", 0x8000_0000, 0x8000_0000),
    ("atan_norm", 0x3f80_0000, 0x3f00_0000),
    ("atan_norm", 0xbf80_0000, 0xbf00_0000),
    ("atan_norm", 0xff80_0000, NAN),
    ("atan", 0x3f80_0000, 0x3f49_0fdb),
    ("atan", 0xffff_ffff, NAN),
];

/// The rows that were worked out by hand, each with its word.
pub fn by_hand() -> impl Iterator<Item = (Row, u32)> {
    let pairs = BY_HAND.into_iter().map(|(operation, a, b, due)| (Row::Pair(operation, a, b), due));
    pairs.chain(KERNELS_BY_HAND.into_iter().map(|(name, a, due)| (Row::Word(name, a), due)))
}
