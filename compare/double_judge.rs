//! What is due for a call on doubles, twice and apart: by the machine's own doubles and whole numbers wider than a word, and by the
//! fields of the word with no float at all. Nothing here is taken from the library.

use self::Operation::{Fract, Inv, Sqrt, Trunc};
use std::fmt;

pub const SIGN: u64 = 1 << 63;
pub const ONE: u64 = 1f64.to_bits();
pub const INFINITY: u64 = f64::INFINITY.to_bits();
const NAN: u64 = 0x7ff8_0000_0000_0000;

/// How many bits of a word are its fraction, and the exponent field of 1.
pub const FRACTION_BITS: u32 = 52;
pub const BIAS: u64 = 1_023;

/// The last exponent field, that of the infinities and of each NaN.
pub const LAST_FIELD: u64 = 2_047;

/// What a call gives: the refusal, 0 where there is none, and the word, 0 beside a refusal.
#[derive(Clone, Copy, PartialEq, Eq)]
pub struct Answer {
    pub refusal: u32,
    pub word: u64,
}

impl Answer {
    fn word(word: u64) -> Answer {
        Answer { refusal: 0, word }
    }

    fn refused(refusal: u32) -> Answer {
        Answer { refusal, word: 0 }
    }
}

impl fmt::Display for Answer {
    fn fmt(&self, out: &mut fmt::Formatter) -> fmt::Result {
        match self.refusal {
            0 => write!(out, "{:016x}", self.word),
            refusal => write!(out, "refusal {refusal} with {:016x}", self.word),
        }
    }
}

#[derive(Clone, Copy, PartialEq, Eq)]
pub enum Operation {
    Trunc,
    Fract,
    Sqrt,
    Inv,
}

pub const OPERATIONS: [Operation; 4] = [Trunc, Fract, Sqrt, Inv];

/// How much the number of a raw call is above that of the guarded one.
const RAW: u32 = 0x80;

/// The operation of this number, and whether it is guarded.
#[inline(always)]
pub fn known(op: u32) -> Option<(Operation, bool)> {
    let operation = OPERATIONS.into_iter().find(|operation| operation.number() == op & !RAW)?;
    Some((operation, op & RAW == 0))
}

impl Operation {
    pub fn name(self) -> &'static str {
        match self {
            Trunc => "trunc",
            Fract => "fract",
            Sqrt => "sqrt",
            Inv => "inv",
        }
    }

    fn number(self) -> u32 {
        match self {
            Trunc => 0x01,
            Fract => 0x02,
            Sqrt => 0x09,
            Inv => 0x0b,
        }
    }

    /// The numbers of its calls, guarded and raw.
    pub fn numbers(self) -> [u32; 2] {
        [self.number(), self.number() | RAW]
    }

    /// The refusals that its guarded call has.
    pub fn refusals(self) -> &'static [u32] {
        match self {
            Trunc | Fract => &[1, 4],
            Sqrt => &[1, 9, 3],
            Inv => &[1, 2, 9, 4],
        }
    }

    /// The first refusal that holds of a number, and 0 where none does.
    #[inline(always)]
    fn refusal_by_machine(self, x: f64) -> u32 {
        let too_large = match self {
            Trunc | Fract => x.abs() >= 18_446_744_073_709_551_616.0,
            Sqrt => false,
            // 2^1022 is 1 over the smallest normal number
            Inv => x.abs() > 1.0 / f64::MIN_POSITIVE,
        };
        match self {
            _ if !x.is_finite() => 1,
            Inv if x == 0.0 => 2,
            Sqrt | Inv if x.is_subnormal() => 9,
            Sqrt if x < 0.0 => 3,
            _ if too_large => 4,
            _ => 0,
        }
    }

    #[inline(always)]
    fn guarded_by_machine(self, a: u64) -> Answer {
        let x = f64::from_bits(a);
        match (self.refusal_by_machine(x), self) {
            (0, Trunc) => Answer::word(x.trunc().to_bits()),
            (0, Fract) => Answer::word((x - x.trunc()).copysign(x).to_bits()),
            (0, Sqrt) if x == 0.0 => Answer::word(a),
            (0, _) => Answer::word(self.raw_by_machine(a)),
            (refusal, _) => Answer::refused(refusal),
        }
    }

    /// From 1 on the parts are those of the number whose exponent is this one modulo 64.
    #[inline(always)]
    fn raw_by_machine(self, a: u64) -> u64 {
        let x = f64::from_bits(a);
        match self {
            Trunc if x.abs() < 1.0 => 0f64.copysign(x).to_bits(),
            Fract if x.abs() < 1.0 => a,
            Trunc | Fract => {
                let over = turns_of_64(a);
                let wrapped = f64::from_bits(a - over);
                match self {
                    Trunc => wrapped.trunc().to_bits() + over,
                    _ => (wrapped - wrapped.trunc()).copysign(x).to_bits(),
                }
            }
            Sqrt if x >= 0.0 => ((a as u128 + ONE as u128) / 2) as u64,
            Sqrt => NAN,
            Inv => (2 * ONE as i128 - a as i128).rem_euclid(1 << 64) as u64,
        }
    }

    /// The first refusal that holds of a word, by its fields.
    #[inline(always)]
    fn refusal_by_fields(self, Fields { negative, field, fraction }: Fields) -> u32 {
        let is_zero = (field, fraction) == (0, 0);
        match self {
            _ if field == LAST_FIELD => 1,
            Inv if is_zero => 2,
            Sqrt | Inv if field == 0 && !is_zero => 9,
            Sqrt if negative && !is_zero => 3,
            Trunc | Fract if field >= BIAS + 64 => 4,
            Inv if (field, fraction) > (BIAS + 1_022, 0) => 4,
            _ => 0,
        }
    }

    #[inline(always)]
    fn guarded_by_fields(self, a: u64) -> Answer {
        match self.refusal_by_fields(Fields::of(a)) {
            0 if self == Sqrt && [0, SIGN].contains(&a) => Answer::word(a),
            0 => Answer::word(self.raw_by_fields(a)),
            refusal => Answer::refused(refusal),
        }
    }

    #[inline(always)]
    fn raw_by_fields(self, a: u64) -> u64 {
        let Fields { negative, field, fraction } = Fields::of(a);
        // so many bits of a number from 1 on are below the point
        let below = FRACTION_BITS.saturating_sub((field.saturating_sub(BIAS) % 64) as u32);
        // the sign and the exponent as one field
        let upper = a >> FRACTION_BITS;
        match self {
            Trunc if field < BIAS => a & SIGN,
            Fract if field < BIAS => a,
            Trunc => a >> below << below,
            Fract => a & SIGN | part(fraction % (1 << below), below),
            Sqrt if a != SIGN && (negative || (field, fraction) > (LAST_FIELD, 0)) => NAN,
            Sqrt => {
                let moved = upper + BIAS;
                (moved / 2) << FRACTION_BITS | (fraction + (moved % 2 << FRACTION_BITS)) / 2
            }
            Inv if fraction == 0 => (4_096 + 2 * BIAS - upper) % 4_096 << FRACTION_BITS,
            Inv => (4_095 + 2 * BIAS - upper) % 4_096 << FRACTION_BITS | ((1 << FRACTION_BITS) - fraction),
        }
    }
}

/// How far the exponent of a word from 1 on is above the one modulo 64, as a word.
#[inline(always)]
fn turns_of_64(a: u64) -> u64 {
    ((a & !SIGN) - ONE) >> (FRACTION_BITS + 6) << (FRACTION_BITS + 6)
}

/// The word of a whole number over 2 to so many, which is below 1.
#[inline(always)]
fn part(above: u64, places: u32) -> u64 {
    match above.checked_ilog2() {
        None => 0,
        Some(top) => (BIAS + top as u64 - places as u64) << FRACTION_BITS | (above << (FRACTION_BITS - top)) % (1 << FRACTION_BITS),
    }
}

/// What a word is made of.
#[derive(Clone, Copy)]
struct Fields {
    negative: bool,
    field: u64,
    fraction: u64,
}

impl Fields {
    #[inline(always)]
    fn of(a: u64) -> Fields {
        Fields { negative: a >= SIGN, field: a >> FRACTION_BITS & LAST_FIELD, fraction: a % (1 << FRACTION_BITS) }
    }
}

/// What is due by one of the two ways, given its guarded call and its raw one.
#[inline(always)]
fn due(op: u32, a: u64, guarded: impl Fn(Operation, u64) -> Answer, raw: impl Fn(Operation, u64) -> u64) -> Answer {
    match known(op) {
        None => Answer::refused(6),
        Some((operation, true)) => guarded(operation, a),
        Some((operation, false)) => Answer::word(raw(operation, a)),
    }
}

/// What is due by the machine.
#[inline(always)]
pub fn by_machine(op: u32, a: u64) -> Answer {
    due(op, a, Operation::guarded_by_machine, Operation::raw_by_machine)
}

/// What is due by the fields.
#[inline(always)]
pub fn by_fields(op: u32, a: u64) -> Answer {
    due(op, a, Operation::guarded_by_fields, Operation::raw_by_fields)
}
