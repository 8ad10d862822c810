//! The second engine: known answers, the four operations beside the language's own floats over edges and over pairs drawn at
//! random, and the four kernels beside the raw ones.

use dampmeadow::{raw, raw_atan_norm, soft, Operation};
use std::hint::black_box;

const SIGN: u32 = 1 << 31;
const NAN: u32 = 0x7fc0_0000;

type Kernel = fn(u32) -> u32;

const SIGNS: [char; 4] = ['+', '-', '*', '/'];

fn operation(a: u32, sign: char, b: u32) -> u32 {
    match sign {
        '+' => soft::add(a, b),
        '-' => soft::sub(a, b),
        '*' => soft::mul(a, b),
        _ => soft::div(a, b),
    }
}

/// The same by the language's floats, with one word for every NaN. The processor is asked, and not the compiler.
fn judged(a: u32, sign: char, b: u32) -> u32 {
    let (x, y) = (black_box(f32::from_bits(a)), black_box(f32::from_bits(b)));
    let value = match sign {
        '+' => x + y,
        '-' => x - y,
        '*' => x * y,
        _ => x / y,
    };
    if value.is_nan() {
        NAN
    } else {
        value.to_bits()
    }
}

/// The four operations of a pair.
fn pair(a: u32, b: u32) {
    for sign in SIGNS {
        let (got, due) = (operation(a, sign, b), judged(a, sign, b));
        assert_eq!(got, due, "{a:08x} {sign} {b:08x} is {got:08x}, and {due:08x} is due");
    }
}

/// The four kernels of a word.
fn single(a: u32) {
    assert_eq!(Ok(soft::cos(a)), raw(Operation::Cos, a, 0), "cos {a:08x}");
    assert_eq!(Ok(soft::sin(a)), raw(Operation::Sin, a, 0), "sin {a:08x}");
    assert_eq!(soft::atan_norm(a), raw_atan_norm(a), "atan_norm {a:08x}");
    assert_eq!(Ok(soft::atan(a)), raw(Operation::Atan, a, 0), "atan {a:08x}");
}

/// Two words with a sign between them, and the word that is due.
const KNOWN: [(u32, char, u32, u32); 83] = [
    // exact, and rounded: a tie goes to the even word, and what is a little above or below it to the nearer one
    (0x3f80_0000, '+', 0x4000_0000, 0x4040_0000),
    (0x3f80_0000, '+', 0x3380_0000, 0x3f80_0000),
    (0x3f80_0001, '+', 0x3380_0000, 0x3f80_0002),
    (0x3f80_0000, '+', 0x3380_0001, 0x3f80_0001),
    (0xbf80_0001, '+', 0xb380_0000, 0xbf80_0002),
    (0x4b80_0000, '+', 0x3f80_0000, 0x4b80_0000),
    (0x4b80_0001, '+', 0x3f80_0000, 0x4b80_0002),
    (0x3f80_0000, '+', 0x0000_0001, 0x3f80_0000),
    (0x3f80_0000, '-', 0x4000_0000, 0xbf80_0000),
    (0x4000_0000, '-', 0x3f80_0000, 0x3f80_0000),
    (0x3f80_0000, '-', 0x3300_0000, 0x3f80_0000),
    (0x3f80_0000, '-', 0x3300_0001, 0x3f7f_ffff),
    (0x3f80_0001, '-', 0x3f80_0000, 0x3400_0000),
    (0x4000_0000, '*', 0xc040_0000, 0xc0c0_0000),
    (0x3f80_0001, '*', 0x3fc0_0000, 0x3fc0_0002),
    (0x3f80_0003, '*', 0x3fc0_0000, 0x3fc0_0004),
    (0x3f80_0001, '*', 0x3f80_0001, 0x3f80_0002),
    (0x3f80_0000, '/', 0x4040_0000, 0x3eaa_aaab),
    (0x4040_0000, '/', 0x3f80_0000, 0x4040_0000),
    (0x3f80_0000, '/', 0x3fff_ffff, 0x3f00_0001),
    (0x3faa_aaaa, '/', 0xbfaa_aaab, 0xbf7f_ffff),
    // too large
    (0x7f7f_ffff, '+', 0x7300_0000, 0x7f80_0000),
    (0x7f7f_ffff, '+', 0x72ff_ffff, 0x7f7f_ffff),
    (0xff7f_ffff, '-', 0x7300_0000, 0xff80_0000),
    (0x7f7f_ffff, '*', 0x7f7f_ffff, 0x7f80_0000),
    (0x5f80_0000, '*', 0xdf80_0000, 0xff80_0000),
    (0x5f7f_ffff, '*', 0x5f80_0000, 0x7f7f_ffff),
    (0x7f7f_ffff, '/', 0x3f7f_ffff, 0x7f80_0000),
    (0x7f7f_fffe, '/', 0x3f7f_ffff, 0x7f7f_ffff),
    // too small to be normal: as a result, and as an operand
    (0x0080_0000, '-', 0x0000_0001, 0x007f_ffff),
    (0x007f_ffff, '+', 0x0000_0001, 0x0080_0000),
    (0x0000_0001, '+', 0x0000_0001, 0x0000_0002),
    (0x0000_0001, '*', 0x3f00_0000, 0x0000_0000),
    (0x8000_0001, '*', 0x3f00_0000, 0x8000_0000),
    (0x0000_0003, '*', 0x3f00_0000, 0x0000_0002),
    (0x2000_0000, '*', 0x1f80_0000, 0x0040_0000),
    (0x0080_0000, '*', 0x3f7f_ffff, 0x0080_0000),
    (0x1ac0_0003, '*', 0x19ff_fffc, 0x0000_0001),
    (0x8000_0001, '*', 0x0000_0001, 0x8000_0000),
    (0x0000_0001, '*', 0x7f7f_ffff, 0x34ff_ffff),
    (0x0000_0001, '/', 0x4000_0000, 0x0000_0000),
    (0x0000_0001, '/', 0x3fff_ffff, 0x0000_0001),
    (0x0000_0003, '/', 0x4000_0000, 0x0000_0002),
    (0x0000_0005, '/', 0x3fff_ffff, 0x0000_0003),
    (0x0000_0001, '/', 0x3f00_0001, 0x0000_0002),
    (0x00ff_ffff, '/', 0x4000_0000, 0x0080_0000),
    (0x0000_0001, '/', 0x7f7f_ffff, 0x0000_0000),
    (0x0000_0001, '/', 0x00ff_ffff, 0x3380_0001),
    (0x0000_0005, '/', 0x007f_ffff, 0x3520_0001),
    (0x0080_0000, '/', 0x8000_0001, 0xcb00_0000),
    // zeros and their signs
    (0x8000_0000, '+', 0x8000_0000, 0x8000_0000),
    (0x0000_0000, '+', 0x8000_0000, 0x0000_0000),
    (0x8000_0000, '+', 0x0000_0001, 0x0000_0001),
    (0xbf80_0000, '+', 0x3f80_0000, 0x0000_0000),
    (0x4020_0000, '-', 0x4020_0000, 0x0000_0000),
    (0xc020_0000, '-', 0xc020_0000, 0x0000_0000),
    (0x8000_0001, '-', 0x8000_0001, 0x0000_0000),
    (0x8000_0000, '-', 0x8000_0000, 0x0000_0000),
    (0x8000_0000, '-', 0x0000_0000, 0x8000_0000),
    (0x0000_0000, '-', 0x0000_0000, 0x0000_0000),
    (0x0000_0000, '*', 0xbf80_0000, 0x8000_0000),
    (0x8000_0000, '*', 0x8000_0000, 0x0000_0000),
    (0x0000_0000, '/', 0xbf80_0000, 0x8000_0000),
    (0x3f80_0000, '/', 0x8000_0000, 0xff80_0000),
    (0x8000_0001, '/', 0x8000_0000, 0x7f80_0000),
    (0x0000_0000, '/', 0x0000_0000, 0x7fc0_0000),
    (0x8000_0000, '/', 0x0000_0000, 0x7fc0_0000),
    // infinities
    (0x7f80_0000, '+', 0x7f80_0000, 0x7f80_0000),
    (0x7f80_0000, '+', 0xff80_0000, 0x7fc0_0000),
    (0xff80_0000, '+', 0x7f7f_ffff, 0xff80_0000),
    (0x7f80_0000, '-', 0x7f80_0000, 0x7fc0_0000),
    (0x3f80_0000, '-', 0x7f80_0000, 0xff80_0000),
    (0x7f80_0000, '*', 0xff80_0000, 0xff80_0000),
    (0x0000_0000, '*', 0x7f80_0000, 0x7fc0_0000),
    (0xff80_0000, '*', 0x0000_0000, 0x7fc0_0000),
    (0xff80_0000, '*', 0x0000_0001, 0xff80_0000),
    (0x7f80_0000, '/', 0xff80_0000, 0x7fc0_0000),
    (0x7f80_0000, '/', 0x8000_0000, 0xff80_0000),
    (0xff7f_ffff, '/', 0x7f80_0000, 0x8000_0000),
    // NaN, in either place
    (0x7f80_0001, '+', 0x3f80_0000, 0x7fc0_0000),
    (0x7f80_0000, '-', 0xffc0_0000, 0x7fc0_0000),
    (0xffff_ffff, '*', 0x0000_0000, 0x7fc0_0000),
    (0x3f80_0000, '/', 0xff80_0001, 0x7fc0_0000),
];

#[test]
fn known_pairs_have_known_answers() {
    for (a, sign, b, due) in KNOWN {
        let got = operation(a, sign, b);
        assert_eq!(got, due, "{a:08x} {sign} {b:08x} is {got:08x}, and {due:08x} is due");
        pair(a, b);
    }
}

/// A kernel, a word, and the word that is due.
const KERNELS: [(Kernel, u32, u32); 12] = [
    (soft::cos, 0x0000_0000, 0x3f80_0000),
    (soft::cos, 0x3f80_0000, 0x3f0a_5d25),
    (soft::cos, 0x4480_0000, 0x3f7c_c870),
    (soft::cos, 0xffc0_0001, 0x7fc0_0000),
    (soft::sin, 0x3f80_0000, 0x3f57_984f),
    (soft::sin, 0x7fc0_0000, 0x7fc0_0000),
    (soft::atan_norm, 0x3f80_0000, 0x3f00_0000),
    (soft::atan_norm, 0xbf80_0000, 0xbf00_0000),
    (soft::atan_norm, 0x8000_0000, 0x8000_0000),
    (soft::atan_norm, 0x7f80_0000, 0x7fc0_0000),
    (soft::atan, 0x3f00_0000, 0x3eee_c47c),
    (soft::atan, 0x7f80_0000, 0x7fc0_0000),
];

#[test]
fn known_words_have_known_answers() {
    for (kernel, a, due) in KERNELS {
        assert_eq!(kernel(a), due, "{a:08x} is to give {due:08x}");
        single(a);
    }
}

const EDGES: [u32; 40] = [
    0x00000000, 0x00000001, 0x00000002, 0x00000003, 0x00400000, 0x007fffff, 0x00800000, 0x00800001, 0x00ffffff, 0x01000000,
    0x1f800000, 0x20000000, 0x33000000, 0x33800000, 0x33800001, 0x34000000, 0x3f000000, 0x3f000001, 0x3f7fffff, 0x3f800000,
    0x3f800001, 0x3f800002, 0x3fc00000, 0x3fffffff, 0x40000000, 0x40400000, 0x4b800000, 0x4b800001, 0x5f7fffff, 0x5f800000,
    0x72ffffff, 0x73000000, 0x7f000000, 0x7f7ffffe, 0x7f7fffff, 0x7f800000, 0x7f800001, 0x7fbfffff, 0x7fc00000, 0x7fffffff,
];

/// Each of them with either sign.
fn edges() -> impl Iterator<Item = u32> {
    EDGES.into_iter().flat_map(|word| [word, word | SIGN])
}

#[test]
fn every_edge_with_every_edge() {
    for a in edges() {
        single(a);
        edges().for_each(|b| pair(a, b));
    }
}

/// Words drawn at random, the same every time.
struct Drawn(u64);

impl Drawn {
    fn word(&mut self) -> u32 {
        self.0 = self.0.wrapping_mul(6364136223846793005).wrapping_add(1442695040888963407);
        (self.0 >> 32) as u32
    }

    /// A whole number from one to another.
    fn between(&mut self, from: i32, to: i32) -> i32 {
        from + (self.word() % (to - from + 1) as u32) as i32
    }

    /// A word with this exponent. Half of them end in zeros, so that sums and products come to ties.
    fn with_exponent(&mut self, exponent: i32) -> u32 {
        let zeros = self.between(-23, 22).max(0);
        let fraction = self.word() & 0x007f_ffff & u32::MAX << zeros;
        self.word() & SIGN | (exponent.clamp(0, 254) as u32) << 23 | fraction
    }
}

#[test]
fn any_pair_is_what_the_floats_give() {
    let mut drawn = Drawn(1);
    for _ in 0..60_000 {
        pair(drawn.word(), drawn.word());
    }
}

/// Pairs by their exponents: the second's is so many times the first's, and a number from one end to the other more.
const KINDS: [(i32, i32, i32); 5] = [
    // sums that round and that cancel
    (1, -27, 27),
    // products and quotients about 2^-126
    (-1, 103, 135),
    (1, 119, 151),
    // products and quotients about 2^128
    (-1, 378, 384),
    (1, -130, -124),
];

#[test]
fn pairs_that_round_cancel_vanish_and_overflow() {
    let mut drawn = Drawn(2);
    for (times, from, to) in KINDS {
        for _ in 0..60_000 {
            let exponent = drawn.between(0, 254);
            let a = drawn.with_exponent(exponent);
            let more = drawn.between(from, to);
            pair(a, drawn.with_exponent(times * exponent + more));
        }
    }
}

#[test]
fn a_kernel_is_the_raw_one() {
    let mut drawn = Drawn(3);
    for _ in 0..60_000 {
        single(drawn.word());
        // from small angles to many turns
        let exponent = drawn.between(100, 163);
        single(drawn.with_exponent(exponent));
    }
}
