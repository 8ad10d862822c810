//! The words that a short run tries: every exponent with the fractions at its edges, random words, and strides. Words at
//! the ends of the gates come up more often than others.

use crate::gates::{ENDS, POWER_ENDS};
use crate::kernels::Takes;
use micromath::F32;

/// A small generator of words (xorshift64*), so that a run can be repeated.
pub struct Random(u64);

impl Random {
    pub fn new(seed: u64) -> Self {
        Random(seed.wrapping_mul(0x9e37_79b9_7f4a_7c15) | 1)
    }

    pub fn word(&mut self) -> u32 {
        self.0 ^= self.0 >> 12;
        self.0 ^= self.0 << 25;
        self.0 ^= self.0 >> 27;
        (self.0.wrapping_mul(0x2545_f491_4f6c_dd1d) >> 32) as u32
    }

    /// A word of twice the length.
    pub fn wide(&mut self) -> u64 {
        (self.word() as u64) << 32 | self.word() as u64
    }

    /// A number below `n`.
    pub fn below(&mut self, n: usize) -> usize {
        self.word() as usize % n
    }

    pub fn one_of<T: Copy>(&mut self, items: &[T]) -> T {
        items[self.below(items.len())]
    }

    /// A word within sixteen powers of two of 1.
    pub fn near_one(&mut self) -> u32 {
        within(self.word())
    }

    /// Words of one kind, each of either sign: zeros, small numbers, infinities or NaN, each kind as likely.
    pub fn specials<const N: usize>(&mut self) -> [u32; N] {
        let kind = self.below(4);
        [(); N].map(|()| {
            let (sign, fraction) = (self.word() & 0x8000_0000, 1 + self.below(0x7f_ffff) as u32);
            sign | [0, fraction, 0x7f80_0000, 0x7f80_0000 | fraction][kind]
        })
    }

    /// A zero, a small number, an infinity or a NaN, of either sign.
    pub fn special(&mut self) -> u32 {
        self.specials::<1>()[0]
    }

    /// A word within four of one of the `ENDS`, of either sign, or any word.
    pub fn operand(&mut self) -> u32 {
        let (w, kind) = (self.word(), self.word());
        if kind % 2 == 0 {
            w
        } else {
            near(ENDS[kind as usize / 2 % ENDS.len()].to_bits(), self.word()) ^ (w & 0x8000_0000)
        }
    }

    /// Two words: any two, two of about the same size, two within sixteen powers of two of 1, or two at the ends of gates.
    pub fn pair(&mut self) -> (u32, u32) {
        let (a, b) = (self.word(), self.word());
        match self.word() % 4 {
            0 => (a, b),
            1 => (a, (a & 0x7f80_0000).wrapping_add(b & 0x017f_ffff) ^ (b & 0x8000_0000)),
            2 => (within(a), within(b)),
            _ => (self.operand(), self.operand()),
        }
    }

    /// A number and a power: any two, a number about 1 with a power that it can bear, or any number with a small power.
    pub fn power(&mut self) -> (u32, u32) {
        let (a, b) = (self.word(), self.word());
        match self.word() % 3 {
            0 => (a, b),
            1 => (a & 0x80ff_ffff | 0x3f00_0000, (b as i32 >> (b % 24)) as u32),
            _ => (a, (b as i32 >> 24) as u32),
        }
    }

    /// A number and a power, some of them at the ends of powi's gate.
    pub fn power_or_end(&mut self) -> (u32, u32) {
        let kind = self.word();
        if kind % 4 == 0 {
            (self.operand(), near(POWER_ENDS[kind as usize / 4 % POWER_ENDS.len()] as u32, self.word()))
        } else {
            self.power()
        }
    }

    /// Any pair, or a number and a float for its power such that the power times the crate's logarithm is within a few words
    /// of an end of exp's gate.
    pub fn float_power(&mut self) -> (u32, u32) {
        let (w, kind) = (self.word() & 0x7fff_ffff, self.word());
        let a = if kind & 2 == 0 { w } else { within(w) };
        let end = if kind & 4 == 0 { -87.0 } else { 88.0 };
        if kind % 2 == 0 {
            self.pair()
        } else {
            // a NaN's bits are not the same on every machine
            let power = end / F32::from_bits(a).ln().0;
            (a, near(if power.is_nan() { 0x7fc0_0000 } else { power.to_bits() }, self.word()))
        }
    }

    /// A number and a divisor. Of any two words most have a quotient that is nearly 0 or past the gate, so most of these are
    /// nearer: a divisor from four times the number's size down to 2^-26 of it; a whole multiple of the divisor, or a neighbour
    /// of one; a divisor that makes the quotient 2^23 or another whole number, or a neighbour of it. Some have a zero or a small
    /// number.
    pub fn divisor(&mut self) -> (u32, u32) {
        let (a, b, digits) = (finite(self.word()), finite(self.word()), self.below(24));
        let sign = self.word() & 0x8000_0000;
        // a whole number of no more digits
        let whole = (1 + self.below(1 << digits)) as f32;
        match self.below(8) {
            0 => self.pair(),
            1 | 2 => {
                let field = (a >> 23 & 0xff) as i32 + 2 - self.below(29) as i32;
                (a, b & 0x807f_ffff | (field.clamp(0, 254) as u32) << 23)
            }
            kind @ (3 | 4) => {
                // the divisor has so few digits that the product has 24 and is exact
                let b = b & !0 << digits;
                let multiple = (whole * f32::from_bits(b)).to_bits() ^ sign;
                (if kind == 3 { multiple } else { near(multiple, self.word()) }, b)
            }
            5 => (a, near((f32::from_bits(a) / 8_388_608.0).to_bits() ^ sign, self.word())),
            6 => (a, near((f32::from_bits(a) / whole).to_bits() ^ sign, self.word())),
            _ => self.one_of(&[(a & 0x807f_ffff, b & 0x807f_ffff), (a & 0x807f_ffff, b), (a & 0x8000_0003, b), (a, b & 0x8000_0003), (a, sign)]),
        }
    }

    /// Words for a kernel that takes these, the second 0 where it is not used: words that have an edge in them, words at the ends
    /// of gates, words about 1, or any.
    pub fn operands(&mut self, takes: Takes, edges: &[u32]) -> (u32, u32) {
        let kind = self.below(4);
        match takes {
            Takes::One if kind == 0 => (self.one_of(edges), 0),
            Takes::One if kind == 1 => (self.near_one(), 0),
            Takes::One => (self.operand(), 0),
            _ if kind == 0 => (self.one_of(edges), self.one_of(edges)),
            Takes::Two => self.pair(),
            Takes::Power => self.power_or_end(),
            Takes::FloatPower => self.float_power(),
            Takes::Divisor => self.divisor(),
        }
    }
}

/// One of the nine words from four below `n` to four above it, by `k`.
fn near(n: u32, k: u32) -> u32 {
    n.wrapping_add(k % 9).wrapping_sub(4)
}

/// The word itself, or one of the same sign and digits if it is no finite number.
fn finite(w: u32) -> u32 {
    if w & 0x7f80_0000 == 0x7f80_0000 {
        w ^ 0x4000_0000
    } else {
        w
    }
}

/// A word of the same sign and digits, within sixteen powers of two of 1.
fn within(w: u32) -> u32 {
    w & 0x87ff_ffff | if w & 0x0800_0000 == 0 { 0x3800_0000 } else { 0x4000_0000 }
}

/// Each sign and exponent field with the fractions 0, 1 and 2, those about the half, and the last two; small whole numbers as
/// words, and as powers in two's complement; then the words within four of each of the `ENDS`.
pub fn edges() -> Vec<u32> {
    let mut words = Vec::new();
    for field in 0..=255u32 {
        for fraction in [0, 1, 2, 0x3f_ffff, 0x40_0000, 0x40_0001, 0x7f_fffe, 0x7f_ffff] {
            for sign in [0, 0x8000_0000] {
                words.push(sign | field << 23 | fraction);
            }
        }
    }
    for n in 0..=300u32 {
        words.extend([n, n.wrapping_neg(), (n as f32).to_bits(), (-(n as f32)).to_bits()]);
    }
    let ends = ENDS.iter().flat_map(|end| [end.to_bits(), (-end).to_bits()]).chain(POWER_ENDS.map(|n| n as u32));
    words.extend(ends.flat_map(|end| (0..9).map(move |k| near(end, k))));
    words.sort_unstable();
    words.dedup();
    words
}
