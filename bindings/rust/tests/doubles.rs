//! Kernels on doubles: both sides of every gate, words of every kind, the language's own trunc and fract, and the bounds of the
//! estimates in whole numbers.

use dampmeadow::{double, Operation, Refusal};

const SIGN: u64 = 1 << 63;
const ONE: u64 = 0x3ff0_0000_0000_0000;
const NAN: u64 = 0x7ff8_0000_0000_0000;

/// The four kernels, in the order of their numbers, which is that of every list below.
const KERNELS: [Operation; 4] = [Operation::Trunc, Operation::Fract, Operation::Sqrt, Operation::Inv];
const GUARDED: [fn(f64) -> Result<f64, Refusal>; 4] = [double::trunc, double::fract, double::sqrt, double::inv];
const RAW: [fn(u64) -> u64; 4] = [double::raw_trunc, double::raw_fract, double::raw_sqrt, double::raw_inv];

/// A word, what the raw kernels give for it, and the numbers of the guarded ones' refusals.
const KNOWN: [(u64, [u64; 4], [u32; 4]); 48] = [
    // zeros
    (0x0000_0000_0000_0000, [0, 0, 0x1ff8_0000_0000_0000, 0x7fe0_0000_0000_0000], [0, 0, 0, 2]),
    (0x8000_0000_0000_0000, [SIGN, SIGN, 0x5ff8_0000_0000_0000, 0xffe0_0000_0000_0000], [0, 0, 0, 2]),
    // too small to be normal, the smallest and the largest
    (0x0000_0000_0000_0001, [0, 0x0000_0000_0000_0001, 0x1ff8_0000_0000_0000, 0x7fdf_ffff_ffff_ffff], [0, 0, 9, 9]),
    (0x8000_0000_0000_0001, [SIGN, 0x8000_0000_0000_0001, NAN, 0xffdf_ffff_ffff_ffff], [0, 0, 9, 9]),
    (0x000f_ffff_ffff_ffff, [0, 0x000f_ffff_ffff_ffff, 0x1fff_ffff_ffff_ffff, 0x7fd0_0000_0000_0001], [0, 0, 9, 9]),
    (0x800f_ffff_ffff_ffff, [SIGN, 0x800f_ffff_ffff_ffff, NAN, 0xffd0_0000_0000_0001], [0, 0, 9, 9]),
    // 2^-1022, the smallest that is normal, and the next
    (0x0010_0000_0000_0000, [0, 0x0010_0000_0000_0000, 0x2000_0000_0000_0000, 0x7fd0_0000_0000_0000], [0, 0, 0, 0]),
    (0x8010_0000_0000_0000, [SIGN, 0x8010_0000_0000_0000, NAN, 0xffd0_0000_0000_0000], [0, 0, 3, 0]),
    (0x0010_0000_0000_0001, [0, 0x0010_0000_0000_0001, 0x2000_0000_0000_0000, 0x7fcf_ffff_ffff_ffff], [0, 0, 0, 0]),
    (0x8010_0000_0000_0001, [SIGN, 0x8010_0000_0000_0001, NAN, 0xffcf_ffff_ffff_ffff], [0, 0, 3, 0]),
    // about 1: the last below it has no whole part
    (0x3fe0_0000_0000_0000, [0, 0x3fe0_0000_0000_0000, 0x3fe8_0000_0000_0000, 0x4000_0000_0000_0000], [0, 0, 0, 0]),
    (0x3fef_ffff_ffff_ffff, [0, 0x3fef_ffff_ffff_ffff, 0x3fef_ffff_ffff_ffff, 0x3ff0_0000_0000_0001], [0, 0, 0, 0]),
    (0xbfef_ffff_ffff_ffff, [SIGN, 0xbfef_ffff_ffff_ffff, NAN, 0xbff0_0000_0000_0001], [0, 0, 3, 0]),
    (0x3ff0_0000_0000_0000, [ONE, 0, ONE, ONE], [0, 0, 0, 0]),
    (0xbff0_0000_0000_0000, [ONE | SIGN, SIGN, NAN, ONE | SIGN], [0, 0, 3, 0]),
    (0x3ff0_0000_0000_0001, [ONE, 0x3cb0_0000_0000_0000, ONE, 0x3fef_ffff_ffff_ffff], [0, 0, 0, 0]),
    (0xbff0_0000_0000_0001, [ONE | SIGN, 0xbcb0_0000_0000_0000, NAN, 0xbfef_ffff_ffff_ffff], [0, 0, 3, 0]),
    // 1.5, 2, -2.5 and 4
    (0x3ff8_0000_0000_0000, [ONE, 0x3fe0_0000_0000_0000, 0x3ff4_0000_0000_0000, 0x3fe8_0000_0000_0000], [0, 0, 0, 0]),
    (0x4000_0000_0000_0000, [0x4000_0000_0000_0000, 0, 0x3ff8_0000_0000_0000, 0x3fe0_0000_0000_0000], [0, 0, 0, 0]),
    (0xc004_0000_0000_0000, [0xc000_0000_0000_0000, 0xbfe0_0000_0000_0000, NAN, 0xbfdc_0000_0000_0000], [0, 0, 3, 0]),
    (0x4010_0000_0000_0000, [0x4010_0000_0000_0000, 0, 0x4000_0000_0000_0000, 0x3fd0_0000_0000_0000], [0, 0, 0, 0]),
    // the last with a fraction, 2^52 - 0.5, and the first from which all are whole
    (
        0x432f_ffff_ffff_ffff,
        [0x432f_ffff_ffff_fffe, 0x3fe0_0000_0000_0000, 0x418f_ffff_ffff_ffff, 0x3cb0_0000_0000_0001],
        [0, 0, 0, 0],
    ),
    (0xc32f_ffff_ffff_ffff, [0xc32f_ffff_ffff_fffe, 0xbfe0_0000_0000_0000, NAN, 0xbcb0_0000_0000_0001], [0, 0, 3, 0]),
    (0x4330_0000_0000_0000, [0x4330_0000_0000_0000, 0, 0x4190_0000_0000_0000, 0x3cb0_0000_0000_0000], [0, 0, 0, 0]),
    // the last below 2^64, 2^64, and past it, where the places are counted modulo 64: 1.5 times 2^64 and 1.25 times 2^65
    (0x43ef_ffff_ffff_ffff, [0x43ef_ffff_ffff_ffff, 0, 0x41ef_ffff_ffff_ffff, 0x3bf0_0000_0000_0001], [0, 0, 0, 0]),
    (0xc3ef_ffff_ffff_ffff, [0xc3ef_ffff_ffff_ffff, SIGN, NAN, 0xbbf0_0000_0000_0001], [0, 0, 3, 0]),
    (0x43f0_0000_0000_0000, [0x43f0_0000_0000_0000, 0, 0x41f0_0000_0000_0000, 0x3bf0_0000_0000_0000], [4, 4, 0, 0]),
    (0xc3f0_0000_0000_0000, [0xc3f0_0000_0000_0000, SIGN, NAN, 0xbbf0_0000_0000_0000], [4, 4, 3, 0]),
    (
        0x43f8_0000_0000_0000,
        [0x43f0_0000_0000_0000, 0x3fe0_0000_0000_0000, 0x41f4_0000_0000_0000, 0x3be8_0000_0000_0000],
        [4, 4, 0, 0],
    ),
    (
        0x4404_0000_0000_0000,
        [0x4400_0000_0000_0000, 0x3fe0_0000_0000_0000, 0x41fa_0000_0000_0000, 0x3bdc_0000_0000_0000],
        [4, 4, 0, 0],
    ),
    // 2^1022, the next, 2^1023, where the inverse is a zero, the next, where it wraps, and the largest
    (0x7fd0_0000_0000_0000, [0x7fd0_0000_0000_0000, 0, 0x5fe0_0000_0000_0000, 0x0010_0000_0000_0000], [4, 4, 0, 0]),
    (0xffd0_0000_0000_0000, [0xffd0_0000_0000_0000, SIGN, NAN, 0x8010_0000_0000_0000], [4, 4, 3, 0]),
    (0x7fd0_0000_0000_0001, [0x7fd0_0000_0000_0001, 0, 0x5fe0_0000_0000_0000, 0x000f_ffff_ffff_ffff], [4, 4, 0, 4]),
    (0xffd0_0000_0000_0001, [0xffd0_0000_0000_0001, SIGN, NAN, 0x800f_ffff_ffff_ffff], [4, 4, 3, 4]),
    (0x7fe0_0000_0000_0000, [0x7fe0_0000_0000_0000, 0, 0x5fe8_0000_0000_0000, 0], [4, 4, 0, 4]),
    (0x7fe0_0000_0000_0001, [0x7fe0_0000_0000_0001, 0, 0x5fe8_0000_0000_0000, 0xffff_ffff_ffff_ffff], [4, 4, 0, 4]),
    (0x7fef_ffff_ffff_ffff, [0x7fef_ffff_ffff_ffff, 0, 0x5fef_ffff_ffff_ffff, 0xfff0_0000_0000_0001], [4, 4, 0, 4]),
    (0xffef_ffff_ffff_ffff, [0xffef_ffff_ffff_ffff, SIGN, NAN, 0x7ff0_0000_0000_0001], [4, 4, 3, 4]),
    // infinities
    (0x7ff0_0000_0000_0000, [0x7ff0_0000_0000_0000, 0, 0x5ff0_0000_0000_0000, 0xfff0_0000_0000_0000], [1, 1, 1, 1]),
    (0xfff0_0000_0000_0000, [0xfff0_0000_0000_0000, SIGN, NAN, 0x7ff0_0000_0000_0000], [1, 1, 1, 1]),
    // NaN: without its fraction it is an infinity
    (0x7ff0_0000_0000_0001, [0x7ff0_0000_0000_0000, 0x3cb0_0000_0000_0000, NAN, 0xffef_ffff_ffff_ffff], [1, 1, 1, 1]),
    (0xfff0_0000_0000_0001, [0xfff0_0000_0000_0000, 0xbcb0_0000_0000_0000, NAN, 0x7fef_ffff_ffff_ffff], [1, 1, 1, 1]),
    (0x7ff8_0000_0000_0000, [0x7ff0_0000_0000_0000, 0x3fe0_0000_0000_0000, NAN, 0xffe8_0000_0000_0000], [1, 1, 1, 1]),
    (0xfff8_0000_0000_0000, [0xfff0_0000_0000_0000, 0xbfe0_0000_0000_0000, NAN, 0x7fe8_0000_0000_0000], [1, 1, 1, 1]),
    (0x7ff4_0000_0000_0000, [0x7ff0_0000_0000_0000, 0x3fd0_0000_0000_0000, NAN, 0xffec_0000_0000_0000], [1, 1, 1, 1]),
    (0xfff8_0000_0000_0001, [0xfff0_0000_0000_0000, 0xbfe0_0000_0000_0002, NAN, 0x7fe7_ffff_ffff_ffff], [1, 1, 1, 1]),
    (0x7fff_ffff_ffff_ffff, [0x7ff0_0000_0000_0000, 0x3fef_ffff_ffff_fffe, NAN, 0xffe0_0000_0000_0001], [1, 1, 1, 1]),
    (0xffff_ffff_ffff_ffff, [0xfff0_0000_0000_0000, 0xbfef_ffff_ffff_fffe, NAN, 0x7fe0_0000_0000_0001], [1, 1, 1, 1]),
];

#[test]
fn known_words_have_known_answers_and_refusals() {
    for (a, words, refusals) in KNOWN {
        for (i, op) in KERNELS.into_iter().enumerate() {
            assert_eq!(RAW[i](a), words[i], "raw {op:?} {a:016x}");
            assert_eq!(double::call(op.raw_number(), a), Ok(words[i]), "raw {op:?} {a:016x} by number");
            // the guarded root of a zero is that zero
            let word = if op == Operation::Sqrt && a & !SIGN == 0 { a } else { words[i] };
            let due = Refusal::from_number(refusals[i]).map_or(Ok(word), Err);
            assert_eq!(double::call(op.number(), a), due, "{op:?} {a:016x} by number");
            assert_eq!(GUARDED[i](f64::from_bits(a)).map(f64::to_bits), due, "{op:?} {a:016x}");
        }
    }
}

#[test]
fn each_refusal_of_doubles_is_given() {
    let refusals = [
        (double::trunc(f64::INFINITY), Refusal::NotFinite),
        (double::inv(-0.0), Refusal::Zero),
        (double::sqrt(-f64::MIN_POSITIVE / 2.0), Refusal::Small),
        (double::sqrt(-f64::MIN_POSITIVE), Refusal::Negative),
        (double::fract(-18_446_744_073_709_551_616.0), Refusal::Outside),
        (double::call(0x03, ONE).map(f64::from_bits), Refusal::NoSuchOperation),
    ];
    for (got, due) in refusals {
        assert_eq!(got, Err(due));
    }
}

#[test]
fn the_kernels_have_their_numbers_and_no_others_exist() {
    let numbers: Vec<u32> = KERNELS.into_iter().flat_map(|op| [op.number(), op.raw_number()]).collect();
    assert_eq!(numbers, [0x01, 0x81, 0x02, 0x82, 0x09, 0x89, 0x0b, 0x8b]);
    for op in (0..0x200).chain([0x209, 0x1_0001, 0x8000_0001, 0x8000_0009, u32::MAX]) {
        let exists = numbers.contains(&op);
        for a in [0, ONE, NAN, u64::MAX] {
            assert_eq!(double::call(op, a) != Err(Refusal::NoSuchOperation), exists, "{op:02x} {a:016x}");
        }
    }
}

/// Words drawn at random, the same every time.
struct Drawn(u64);

impl Drawn {
    fn word(&mut self) -> u64 {
        let mut half = || {
            self.0 = self.0.wrapping_mul(6364136223846793005).wrapping_add(1442695040888963407);
            self.0 >> 32
        };
        half() << 32 | half()
    }

    /// A word with an exponent field from one to another, with either sign. Half of them end in zeros.
    fn within(&mut self, from: u64, to: u64) -> u64 {
        let exponent = from + self.word() % (to - from + 1);
        let zeros = (self.word() % 104).saturating_sub(52);
        self.word() & SIGN | exponent << 52 | self.word() & 0x000f_ffff_ffff_ffff & u64::MAX << zeros
    }
}

#[test]
fn trunc_and_fract_are_the_languages_under_two_to_64() {
    let mut drawn = Drawn(1);
    for _ in 0..200_000 {
        // from 2^-3 up to 2^64
        let x = f64::from_bits(drawn.within(1020, 1086));
        let (whole, rest) = (x.trunc(), (x - x.trunc()).copysign(x));
        assert_eq!(double::trunc(x).map(f64::to_bits), Ok(whole.to_bits()), "{:016x}", x.to_bits());
        assert_eq!(double::fract(x).map(f64::to_bits), Ok(rest.to_bits()), "{:016x}", x.to_bits());
        assert_eq!(whole + rest, x, "{:016x}", x.to_bits());
    }
}

#[test]
fn a_guarded_answer_is_the_raw_one_and_no_nan() {
    let (mut drawn, mut answered) = (Drawn(2), [0; 4]);
    for _ in 0..200_000 {
        let a = drawn.word();
        for (i, op) in KERNELS.into_iter().enumerate() {
            let word = RAW[i](a);
            assert_eq!(double::call(op.raw_number(), a), Ok(word), "raw {op:?} {a:016x}");
            if let Ok(number) = GUARDED[i](f64::from_bits(a)) {
                assert_eq!(number.to_bits(), word, "{op:?} {a:016x}");
                assert!(!number.is_nan(), "{op:?} {a:016x}");
                answered[i] += 1;
            }
        }
    }
    // of all words about a half are refused by trunc and fract, and by sqrt, and few by inv
    assert!(answered.iter().all(|&count| count > 80_000), "{answered:?} answered");
}

/// A positive normal number: its 53 digits as a whole number, and how often that is doubled.
fn parts(x: f64) -> (u128, i32) {
    let word = x.to_bits();
    assert!(x.is_normal() && word < SIGN, "{word:016x}");
    (u128::from(word & 0x000f_ffff_ffff_ffff | 0x0010_0000_0000_0000), (word >> 52) as i32 - 1075)
}

/// A whole number doubled so often, as a multiple of 2^-106. Nothing is rounded.
fn scaled(number: u128, doubled: i32) -> u128 {
    let places = u32::try_from(doubled + 106).unwrap();
    assert!(number.leading_zeros() > places, "{number} {places}");
    number << places
}

#[test]
fn the_square_of_sqrt_is_from_a_little_below_x_to_nine_eighths_of_it() {
    let mut drawn = Drawn(3);
    for i in 0..200_000 {
        let a = match i {
            0 => 0x0010_0000_0000_0000,
            1 => 0x7fef_ffff_ffff_ffff,
            _ => drawn.within(1, 2046) & !SIGN,
        };
        let x = f64::from_bits(a);
        let ((number, doubled), (root, halved)) = (parts(x), parts(double::sqrt(x).unwrap()));
        // both over the power of two of x, so that x is from 1 to below 2
        let (number, square) = (scaled(number, -52), scaled(root * root, 2 * halved - doubled - 52));
        assert!(square >= number - (number >> 52), "{a:016x}");
        assert!(square <= number + number / 8, "{a:016x}");
    }
}

#[test]
fn x_times_inv_is_from_one_to_nine_eighths_and_the_sign_goes_with_it() {
    let mut drawn = Drawn(4);
    for i in 0..200_000 {
        let a = match i {
            0 => 0x0010_0000_0000_0000,
            1 => 0x7fd0_0000_0000_0000,
            _ => drawn.within(1, 2044) & !SIGN,
        };
        let x = f64::from_bits(a);
        let inverse = double::inv(x).unwrap();
        let ((number, doubled), (other, halved)) = (parts(x), parts(inverse));
        let product = scaled(number * other, doubled + halved);
        assert!((8 << 106..=9 << 106).contains(&(product * 8)), "{a:016x}");
        assert_eq!(double::inv(-x).map(f64::to_bits), Ok(inverse.to_bits() ^ SIGN), "{a:016x}");
        let any = drawn.word();
        assert_eq!(double::raw_inv(any ^ SIGN), double::raw_inv(any) ^ SIGN, "{any:016x}");
    }
}

#[test]
fn sqrt_never_falls_and_inv_always_does() {
    let mut drawn = Drawn(5);
    let any = (0..100_000).map(|_| drawn.word()).chain(KNOWN.map(|(a, ..)| a)).map(|a| a & !SIGN);
    let mut up: Vec<u64> = any.flat_map(|a| [a, a + 1]).collect();
    up.sort_unstable();
    up.dedup();
    let number = f64::from_bits;
    let last = up.partition_point(|&a| a <= f64::INFINITY.to_bits());
    for pair in up[..last].windows(2) {
        let (low, high) = (double::raw_sqrt(pair[0]), double::raw_sqrt(pair[1]));
        assert!(low <= high && number(low) <= number(high), "sqrt {pair:016x?}");
    }
    let last = up.partition_point(|&a| a <= 0x7fe0_0000_0000_0000);
    for pair in up[..last].windows(2) {
        let (high, low) = (double::raw_inv(pair[0]), double::raw_inv(pair[1]));
        assert!(low < high && number(low) < number(high), "inv {pair:016x?}");
    }
}

#[test]
fn sqrt_is_exact_at_the_even_powers_of_two() {
    for k in -511..=511 {
        assert_eq!(double::sqrt(2f64.powi(2 * k)), Ok(2f64.powi(k)), "2^{}", 2 * k);
    }
    assert_eq!([2.0, 2f64.powi(1023)].map(double::sqrt), [Ok(1.5), Ok(1.5 * 2f64.powi(511))]);
}
