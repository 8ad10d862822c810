//! What is due for an operation of the engine without floats: by the machine's own floats, and apart from them in whole numbers,
//! by what the nearest word is. The two part on a machine whose floats are set to round or to flush otherwise.

use self::Operation::{Add, Div, Mul, Sub};
use crate::kernels::{is_nan, NAN};
use crate::remainder::parts;
use std::cmp::Ordering;
use std::hint::black_box;

pub const SIGN: u32 = 0x8000_0000;
pub const INFINITY: u32 = 0x7f80_0000;
const SMALLEST_NORMAL: u32 = 0x0080_0000;

#[derive(Clone, Copy, PartialEq, Eq, Hash)]
pub enum Operation {
    Add,
    Sub,
    Mul,
    Div,
}

pub const OPERATIONS: [Operation; 4] = [Add, Sub, Mul, Div];

impl Operation {
    pub fn name(self) -> &'static str {
        match self {
            Add => "add",
            Sub => "sub",
            Mul => "mul",
            Div => "div",
        }
    }

    /// The machine's own operation.
    #[inline(always)]
    pub fn by_machine(self, a: u32, b: u32) -> u32 {
        // the compiler would work out what it knows by itself
        let (x, y) = black_box((f32::from_bits(a), f32::from_bits(b)));
        let answer = match self {
            Add => x + y,
            Sub => x - y,
            Mul => x * y,
            Div => x / y,
        };
        if answer.is_nan() {
            NAN
        } else {
            answer.to_bits()
        }
    }

    /// The same in whole numbers, and what kind of answer it is.
    pub fn by_whole_numbers(self, a: u32, b: u32) -> (u32, Kind) {
        match self {
            _ if is_nan(a) || is_nan(b) => (NAN, Kind::NanOfNan),
            Add => sum(a, b),
            Sub => sum(a, b ^ SIGN),
            Mul => product(a, b),
            Div => quotient(a, b),
        }
    }
}

/// What kind of answer there is. "Down" is toward 0, and a tie is a number halfway between two words.
#[derive(Clone, Copy)]
pub enum Kind {
    NanOfNan,
    NanOfNone,
    Infinite,
    OverInfinity,
    OverZero,
    TooLarge,
    TooLargeTie,
    Zero,
    MinusZero,
    ZeroDown,
    ZeroTie,
    SmallExact,
    SmallDown,
    SmallUp,
    SmallTieDown,
    SmallTieUp,
    Exact,
    Down,
    Up,
    TieDown,
    TieUp,
}

/// The kinds in words, each with the operations that have such answers. A small sum is exact. A quotient is a tie only where it
/// is small, or lies between the last small number and the first normal one.
pub const KINDS: [(Kind, &str, &[Operation]); 21] = [
    (Kind::NanOfNan, "NaN of a NaN", &OPERATIONS),
    (Kind::NanOfNone, "NaN of none", &OPERATIONS),
    (Kind::Infinite, "infinite with an infinity", &OPERATIONS),
    (Kind::OverInfinity, "zero over an infinity", &[Div]),
    (Kind::OverZero, "infinite over a zero", &[Div]),
    (Kind::TooLarge, "too large", &OPERATIONS),
    (Kind::TooLargeTie, "too large by a tie", &[Add, Sub, Mul]),
    (Kind::Zero, "just +0", &OPERATIONS),
    (Kind::MinusZero, "just -0", &OPERATIONS),
    (Kind::ZeroDown, "zero by rounding", &[Mul, Div]),
    (Kind::ZeroTie, "zero by a tie", &[Mul, Div]),
    (Kind::SmallExact, "small and exact", &OPERATIONS),
    (Kind::SmallDown, "small rounded down", &[Mul, Div]),
    (Kind::SmallUp, "small rounded up", &[Mul, Div]),
    (Kind::SmallTieDown, "small by a tie down", &[Mul, Div]),
    (Kind::SmallTieUp, "small by a tie up", &[Mul, Div]),
    (Kind::Exact, "normal and exact", &OPERATIONS),
    (Kind::Down, "normal rounded down", &OPERATIONS),
    (Kind::Up, "normal rounded up", &OPERATIONS),
    (Kind::TieDown, "normal by a tie down", &[Add, Sub, Mul]),
    (Kind::TieUp, "normal by a tie up", &OPERATIONS),
];

/// A whole number of up to 576 binary digits, the highest first, so that they are ordered as lists are.
#[derive(Clone, Copy, PartialEq, Eq, PartialOrd, Ord)]
struct Whole([u64; 9]);

impl Whole {
    /// These digits times 2 to `places`, which are below 512.
    fn new(digits: u64, places: u32) -> Whole {
        let (mut limbs, low) = ([0; 9], 8 - places as usize / 64);
        let moved = (digits as u128) << (places % 64);
        [limbs[low - 1], limbs[low]] = [(moved >> 64) as u64, moved as u64];
        Whole(limbs)
    }

    fn plus(mut self, other: Whole) -> Whole {
        let mut carry = 0;
        for (limb, more) in self.0.iter_mut().zip(other.0).rev() {
            let sum = *limb as u128 + more as u128 + carry;
            (*limb, carry) = (sum as u64, sum >> 64);
        }
        self
    }

    /// The other is no larger.
    fn minus(mut self, other: Whole) -> Whole {
        let mut borrow = false;
        for (limb, less) in self.0.iter_mut().zip(other.0).rev() {
            let (rest, short) = limb.overflowing_sub(less);
            let (rest, again) = rest.overflowing_sub(borrow as u64);
            (*limb, borrow) = (rest, short || again);
        }
        self
    }
}

/// How a number became a word.
#[derive(Clone, Copy, PartialEq)]
enum Rounding {
    Exact,
    Down,
    Up,
    TieDown,
    TieUp,
}

/// The word nearest to a number, and of two as near the even one, both without a sign. The number is `above / below`, counted in
/// the smallest number there is, and `below` is digits and places as `parts` gives them. Where the largest word has no next one,
/// 2^128 stands for it, and gives an infinity.
fn nearest(above: Whole, below: (u64, u32)) -> (u32, Rounding) {
    // a word's value times `below`; an infinity's fields are those of 2^128
    let value = |word: u32| {
        let (digits, places) = parts(word);
        Whole::new(digits * below.0, places + below.1)
    };
    if value(INFINITY) <= above {
        return (INFINITY, Rounding::Down);
    }
    // the last word that is not above the number, and the next
    let (mut low, mut high) = (0, INFINITY);
    while high - low > 1 {
        let middle = (low + high) / 2;
        *(if value(middle) <= above { &mut low } else { &mut high }) = middle;
    }
    let (from_low, to_high) = (above.minus(value(low)), value(high).minus(above));
    match from_low.cmp(&to_high) {
        _ if value(low) == above => (low, Rounding::Exact),
        Ordering::Less => (low, Rounding::Down),
        Ordering::Greater => (high, Rounding::Up),
        Ordering::Equal if low % 2 == 0 => (low, Rounding::TieDown),
        Ordering::Equal => (high, Rounding::TieUp),
    }
}

/// The word nearest to a number of this sign, with its kind.
fn rounded(sign: u32, above: Whole, below: (u64, u32)) -> (u32, Kind) {
    let (size, rounding) = nearest(above, below);
    let kinds = match size {
        0 if sign == 0 => [Kind::Zero, Kind::ZeroDown, Kind::ZeroDown, Kind::ZeroTie, Kind::ZeroTie],
        0 => [Kind::MinusZero, Kind::ZeroDown, Kind::ZeroDown, Kind::ZeroTie, Kind::ZeroTie],
        INFINITY => [Kind::TooLarge, Kind::TooLarge, Kind::TooLarge, Kind::TooLargeTie, Kind::TooLargeTie],
        _ if size < SMALLEST_NORMAL => [Kind::SmallExact, Kind::SmallDown, Kind::SmallUp, Kind::SmallTieDown, Kind::SmallTieUp],
        _ => [Kind::Exact, Kind::Down, Kind::Up, Kind::TieDown, Kind::TieUp],
    };
    (sign | size, kinds[rounding as usize])
}

/// No operand is a NaN, here and below.
fn sum(a: u32, b: u32) -> (u32, Kind) {
    const ONE: (u64, u32) = (1, 0);
    let [sign, other] = [a, b].map(|w| w & SIGN);
    match [a, b].map(|w| w & !SIGN == INFINITY) {
        [true, true] if a != b => return (NAN, Kind::NanOfNone),
        [true, _] => return (a, Kind::Infinite),
        [_, true] => return (b, Kind::Infinite),
        [false, false] => {}
    }
    let [x, y] = [a, b].map(|w| parts(w & !SIGN)).map(|(digits, places)| Whole::new(digits, places));
    match x.cmp(&y) {
        _ if sign == other => rounded(sign, x.plus(y), ONE),
        Ordering::Less => rounded(other, y.minus(x), ONE),
        Ordering::Equal => rounded(0, x.minus(y), ONE),
        Ordering::Greater => rounded(sign, x.minus(y), ONE),
    }
}

/// Two numbers counted in the smallest, 2^-149, have a product counted in 2^-298.
fn product(a: u32, b: u32) -> (u32, Kind) {
    let sign = (a ^ b) & SIGN;
    match (a & !SIGN, b & !SIGN) {
        (INFINITY, 0) | (0, INFINITY) => (NAN, Kind::NanOfNone),
        (INFINITY, _) | (_, INFINITY) => (sign | INFINITY, Kind::Infinite),
        (x, y) => {
            let ((m, i), (n, j)) = (parts(x), parts(y));
            rounded(sign, Whole::new(m * n, i + j), (1, 149))
        }
    }
}

fn quotient(a: u32, b: u32) -> (u32, Kind) {
    let sign = (a ^ b) & SIGN;
    match (a & !SIGN, b & !SIGN) {
        (INFINITY, INFINITY) | (0, 0) => (NAN, Kind::NanOfNone),
        (INFINITY, _) => (sign | INFINITY, Kind::Infinite),
        (_, INFINITY) => (sign, Kind::OverInfinity),
        (_, 0) => (sign | INFINITY, Kind::OverZero),
        (x, y) => {
            let (m, i) = parts(x);
            rounded(sign, Whole::new(m, i + 149), parts(y))
        }
    }
}
