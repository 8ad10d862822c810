//! The words that the engine without floats is tried on: edges, a grid of all exponents, pairs at random of which most have a sum,
//! a product or a quotient that is near something, and words for the kernels.

use crate::soft_judge::{INFINITY, SIGN};
use crate::words::Random;
use std::f64::consts::FRAC_PI_2;

const FRACTION: u32 = 0x007f_ffff;

/// Words without a sign: both sides of each end, what is half a step beside 1 and the largest number, and 2^25 - 1 halves of such
/// a step as a product.
const SIZES: [u32; 60] = [
    // zero, the small numbers and the first normal ones
    0x0000_0000,
    0x0000_0001,
    0x0000_0002,
    0x0000_0003,
    0x0000_0004,
    0x003f_ffff,
    0x0040_0000,
    0x007f_fffe,
    0x007f_ffff,
    0x0080_0000,
    0x0080_0001,
    0x00ff_fffe,
    0x00ff_ffff,
    0x0100_0000,
    0x0100_0001,
    0x0180_0000,
    // 2^-75 to 2^-62
    0x1a00_0000,
    0x1a35_04f3,
    0x2000_0000,
    0x207f_ffff,
    // 2^-39 and 2^-26 to 2^-23
    0x2c00_0000,
    0x32ff_ffff,
    0x3300_0000,
    0x3300_0001,
    0x3380_0000,
    0x3380_0001,
    0x3400_0000,
    0x3400_0001,
    // 1/2 to 3
    0x3eff_ffff,
    0x3f00_0000,
    0x3f00_0001,
    0x3f7f_ffff,
    0x3f80_0000,
    0x3f80_0001,
    0x3f80_0002,
    0x3f80_0003,
    0x3fff_ffff,
    0x4000_0000,
    0x4040_0000,
    // 2^24 and 2^39
    0x4b7f_ffff,
    0x4b80_0000,
    0x4b80_0001,
    0x5300_0000,
    // 2^64, and 18631 * 2^50 and 1801 * 2^53
    0x5f80_0000,
    0x5f91_8e00,
    0x5f61_2000,
    // half the last step of the numbers, 2^103
    0x72ff_ffff,
    0x7300_0000,
    0x7300_0001,
    0x7380_0000,
    0x7e80_0000,
    0x7eff_ffff,
    0x7f00_0000,
    0x7f7f_fffe,
    0x7f7f_ffff,
    INFINITY,
    0x7f80_0001,
    0x7fbf_ffff,
    0x7fc0_0000,
    0x7fff_ffff,
];

/// These words, of either sign.
pub fn edges() -> Vec<u32> {
    SIZES.into_iter().flat_map(|size| [size, size | SIGN]).collect()
}

/// Every pair of some exponent fields, with every pair of fractions and of signs.
pub struct Grid(Vec<u32>);

const FRACTIONS: [u32; 12] = [0, 1, 2, 3, 0x11_8e00, 0x2a_aaab, 0x3f_ffff, 0x40_0000, 0x40_0001, 0x61_2000, 0x7f_fffe, 0x7f_ffff];

impl Grid {
    /// All of the 256 fields, or some.
    pub fn new(every: bool) -> Grid {
        let about = [0..=3, 22..=27, 37..=40, 63..=65, 101..=104, 125..=129, 148..=152, 189..=191, 228..=231, 250..=255];
        Grid(if every { (0..=255).collect() } else { about.into_iter().flatten().collect() })
    }

    pub fn fields(&self) -> usize {
        self.0.len()
    }

    pub fn len(&self) -> u64 {
        ((self.0.len() * FRACTIONS.len() * 2) as u64).pow(2)
    }

    pub fn at(&self, mut i: u64) -> (u32, u32) {
        let mut one_of = |items: &[u32]| {
            let item = items[i as usize % items.len()];
            i /= items.len() as u64;
            item
        };
        let mut word = || one_of(&[0, SIGN]) | one_of(&FRACTIONS) | one_of(&self.0) << 23;
        (word(), word())
    }
}

fn field(w: u32) -> i32 {
    (w >> 23 & 0xff) as i32
}

/// The word with the finite field that is nearest to this one.
fn with_field(w: u32, field: i32) -> u32 {
    w & (SIGN | FRACTION) | (field.clamp(0, 254) as u32) << 23
}

/// A field about the end of the small numbers, or about the end of all.
fn end(random: &mut Random) -> i32 {
    if random.below(3) == 0 {
        251 + random.below(6) as i32
    } else {
        random.below(30) as i32 - 27
    }
}

/// The word with so many binary digits and no more, from 1 to 24, if its field is not 0.
fn digits(w: u32, digits: usize) -> u32 {
    w & !0 << (24 - digits)
}

/// Two words: any two, two whose exponents are up to 40 apart, neighbours of either sign, two with a small one or an edge among
/// them, or two with a sum, a product or a quotient that is exact, a tie or near an end.
pub fn pair(random: &mut Random, edges: &[u32]) -> (u32, u32) {
    let (a, b, end) = (random.word(), random.word(), end(random));
    let kept = 2 + random.below(22);
    match random.below(16) {
        0..=3 => (a, b),
        4 | 5 => (a, with_field(b, field(a) + random.below(81) as i32 - 40)),
        6 => (a, a.wrapping_add(random.below(9) as u32).wrapping_sub(4) ^ b & SIGN),
        7 => (a & (SIGN | FRACTION >> kept), b),
        8 => (a, b & (SIGN | FRACTION >> kept)),
        9 => (a & (SIGN | FRACTION), b & (SIGN | FRACTION >> kept)),
        10 => (random.one_of(edges), b),
        11 => (a, random.one_of(edges)),
        12 => (a, with_field(b, end + 127 - field(a))),
        13 => (a, with_field(b, field(a) + 127 - end)),
        // the product has 25 digits or 26, or the sum has
        14 => {
            let (a, b) = (digits(a, kept), digits(b, 25 - kept + random.below(2)));
            (a, with_field(b, random.one_of(&[end + 127 - field(a), field(a) - kept as i32])))
        }
        // the quotient has no more digits than so many
        _ => {
            let (by, times) = (1 + random.below(1 << kept), 1 + random.below(1 << (24 - kept)));
            let [dividend, divisor] = [by * times, by].map(|n| (n as f32).to_bits());
            (with_field(dividend ^ a & SIGN, field(b) + end - 127), with_field(divisor, field(b)))
        }
    }
}

/// The words nearest to so many quarter turns.
pub fn turns(quarters: impl Iterator<Item = u64>) -> impl Iterator<Item = u32> {
    quarters.map(|n| (n as f64 * FRAC_PI_2) as f32).map(f32::to_bits)
}

/// Sizes about which a step of cos or of atan_norm ends: where the cast within floor does, where a number has no fraction, and
/// where a square is small, nothing, or too large.
pub const STEPS: [u32; 14] = [
    0x4f00_0000,
    0x4f80_0000,
    0x5049_0fdb,
    0x4b00_0000,
    0x4b80_0000,
    0x4bc9_0fdb,
    0x3e80_0000,
    0x3f00_0000,
    0x1fff_ffff,
    0x2000_0000,
    0x1a35_04f3,
    0x19b5_04f3,
    0x5f80_0000,
    0x5fff_ffff,
];

/// Words for a kernel beside those that every sweep has: about 5,000 quarter turns and these sizes, and the edges of operations.
pub fn for_kernels() -> Vec<u32> {
    let about = |size: u32| (0..9).map(move |k| (size + k).saturating_sub(4));
    let sizes = turns(0..5_000).chain(turns((12..46).map(|k| 1 << k))).chain(STEPS).flat_map(about);
    sizes.flat_map(|size| [size, size | SIGN]).chain(edges()).collect()
}
