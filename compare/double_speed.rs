//! How long a call on doubles takes, and one for the row on screen, beside Rust's own operations and beside the same steps in Rust
//! behind a call of the same kind. It measures and judges nothing.

use crate::columns::{Span, View};
use crate::double_judge::Operation::{self, Fract, Inv, Sqrt, Trunc};
use crate::double_judge::{Answer, BIAS, FRACTION_BITS, OPERATIONS, SIGN};
use crate::doubles::call;
use crate::speed::{singly, timed, Side, RUNS, TURNS, WORDS};
use crate::words::Random;
use std::hint::black_box;

/// The same steps in Rust.
mod steps {
    const SIGN: u64 = 1 << 63;
    const ONE: u64 = 0x3ff0_0000_0000_0000;
    const INFINITY: u64 = 0x7ff0_0000_0000_0000;
    const FRACTION: u64 = 0x000f_ffff_ffff_ffff;

    fn places(a: u64) -> u32 {
        (((a & !SIGN) - ONE) >> 52) as u32
    }

    fn trunc(a: u64) -> u64 {
        if a & !SIGN < ONE {
            return a & SIGN;
        }
        a - (a.wrapping_shl(places(a)) & FRACTION).wrapping_shr(places(a))
    }

    fn fract(a: u64) -> u64 {
        if a & !SIGN < ONE {
            return a;
        }
        let below = a.wrapping_shl(places(a)) & FRACTION;
        (f64::from_bits(ONE | below) - 1.0).to_bits() | a & SIGN
    }

    fn sqrt(a: u64) -> u64 {
        if a <= INFINITY || a == SIGN {
            (a + ONE) >> 1
        } else {
            0x7ff8_0000_0000_0000
        }
    }

    fn root(a: u64) -> u64 {
        if a & !SIGN == 0 {
            a
        } else {
            sqrt(a)
        }
    }

    fn inv(a: u64) -> u64 {
        (2 * ONE).wrapping_sub(a)
    }

    /// The first refusal of a guarded call, or 0.
    #[inline(always)]
    fn refusal(op: u32, a: u64, most: u64) -> u32 {
        let size = a & !SIGN;
        match op {
            _ if size >= INFINITY => 1,
            0x0b if size == 0 => 2,
            0x09 | 0x0b if size <= FRACTION && size != 0 => 9,
            0x09 if a > SIGN => 3,
            _ if size > most => 4,
            _ => 0,
        }
    }

    /// To be called as ours is.
    #[inline(never)]
    pub extern "C" fn double(op: u32, a: u64, value: &mut u64) -> u32 {
        const BELOW_64: u64 = 0x43ef_ffff_ffff_ffff;
        let (refusal, word) = match op {
            0x81 => (0, trunc(a)),
            0x82 => (0, fract(a)),
            0x89 => (0, sqrt(a)),
            0x8b => (0, inv(a)),
            0x01 => (refusal(op, a, BELOW_64), trunc(a)),
            0x02 => (refusal(op, a, BELOW_64), fract(a)),
            0x09 => (refusal(op, a, INFINITY), root(a)),
            0x0b => (refusal(op, a, 0x7fd0_0000_0000_0000), inv(a)),
            _ => (6, 0),
        };
        *value = if refusal == 0 { word } else { 0 };
        refusal
    }

    /// To be called as ours is.
    #[inline(never)]
    pub extern "C" fn columns(scan: usize, retouch: usize, retouched: bool, from: usize, to: usize, first: &mut usize, last: &mut usize) -> bool {
        let length = if retouched { retouch } else { scan };
        let given = from <= to && to <= length;
        (*first, *last) = if given { (from, to) } else { (0, 0) };
        given && retouched
    }
}

/// Rust's own operation.
fn own<'a>(words: &'a [u64], of: impl Fn(f64) -> f64 + 'a) -> Side<'a> {
    Side::new("Rust's own", true, singly(words, move |a| of(f64::from_bits(a)).to_bits()))
}

/// The call of this number in Rust, and ours.
fn calls<'a>(words: &'a [u64], op: u32, form: &str) -> [Side<'a>; 2] {
    // the compiler would make a function for this number alone
    let op = black_box(op);
    let told = |answer: Answer| answer.word ^ answer.refusal as u64;
    let in_rust = move |a| {
        let mut word = 0;
        let refusal = steps::double(op, a, &mut word);
        told(Answer { refusal, word })
    };
    let (theirs, ours) = (singly(words, in_rust), singly(words, move |a| told(call(op, a))));
    [Side::new(&format!("{form} in Rust by a call"), true, theirs), Side::new(form, false, ours)]
}

/// A word of size 2^-15 to 2^17, of either sign, but for sqrt.
fn usual(operation: Operation, random: &mut Random) -> u64 {
    let field = BIAS - 15 + random.below(32) as u64;
    let rest = random.wide() & (SIGN | ((1 << FRACTION_BITS) - 1));
    field << FRACTION_BITS | if operation == Sqrt { rest & !SIGN } else { rest }
}

/// Rust's own operation, and then each form in Rust and ours.
fn operation(operation: Operation) -> String {
    let mut random = Random::new(7);
    let words: Vec<u64> = (0..WORDS).map(|_| usual(operation, &mut random)).collect();
    let own = match operation {
        Trunc => own(&words, f64::trunc),
        Fract => own(&words, f64::fract),
        Sqrt => own(&words, f64::sqrt),
        Inv => own(&words, f64::recip),
    };
    let [guarded, raw] = operation.numbers();
    let sides = [own].into_iter().chain(calls(&words, raw, "raw")).chain(calls(&words, guarded, "guarded"));
    line(&format!("doubles, {}", operation.name()), sides.collect())
}

/// Columns within a row of up to 8,192.
fn within(random: &mut Random) -> View {
    let (lengths, retouched) = ([(); 2].map(|()| 1 + random.below(8_192)), random.below(2) == 1);
    let to = random.below(lengths[retouched as usize] + 1);
    View { lengths, retouched, from: random.below(to + 1), to }
}

/// The row on screen in Rust, and ours.
fn columns() -> String {
    let mut random = Random::new(7);
    let views: Vec<View> = (0..WORDS).map(|_| within(&mut random)).collect();
    let told = |span: Span| span.first as u64 ^ span.last as u64 ^ span.retouched as u64;
    let in_rust = move |View { lengths: [scan, retouch], retouched, from, to }: View| {
        let (mut first, mut last) = (0, 0);
        let retouched = steps::columns(scan, retouch, retouched, from, to, &mut first, &mut last);
        told(Span { retouched, first, last })
    };
    let ours = singly(&views, move |view: View| told(view.ours()));
    line("columns", vec![Side::new("Rust by a call", true, singly(&views, in_rust)), Side::new("ours", false, ours)])
}

fn line(name: &str, sides: Vec<Side>) -> String {
    format!("{name}: {}", timed(sides, TURNS, WORDS as f64, "ns"))
}

/// A line for each operation, and one for the row on screen.
pub fn speed() -> Vec<String> {
    let heading =
        format!("doubles, {WORDS} random words of size 2^-15 to 2^17, or columns within a row, {TURNS} turns to a run, medians of {RUNS} runs of each side in turn");
    [heading].into_iter().chain(OPERATIONS.map(operation)).chain([columns()]).collect()
}
