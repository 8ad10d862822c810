//! A second judge of the two euclids: the remainder in whole numbers. Rust's own float remainder and the library's may come to
//! one and the same function of this machine, and beside itself a wrong one would not show.

use crate::kernels::NAN;
use micromath::F32;

const SIGN: u32 = 0x8000_0000;
const INFINITY: u32 = 0x7f80_0000;

/// A finite number without its sign: a whole number, and how many times it is doubled, counted from the smallest number there is.
pub fn parts(w: u32) -> (u64, u32) {
    let (field, fraction) = (w >> 23, (w & 0x007f_ffff) as u64);
    if field == 0 {
        (fraction, 0)
    } else {
        (fraction | 0x0080_0000, field - 1)
    }
}

/// What is left of the first number by the second, exactly, with the first one's sign; 7fc00000 where nothing is.
fn remainder(a: u32, b: u32) -> u32 {
    let (sign, x, y) = (a & SIGN, a & !SIGN, b & !SIGN);
    if x >= INFINITY || y > INFINITY || y == 0 {
        return NAN;
    }
    // an infinite divisor too
    if x < y {
        return a;
    }
    let ((mut rest, doubled), (divisor, unit)) = (parts(x), parts(y));
    let mut left = doubled - unit;
    rest %= divisor;
    while left > 0 {
        // the divisor has 24 digits, so the rest has no more
        let step = left.min(40);
        rest = (rest << step) % divisor;
        left -= step;
    }
    if rest == 0 {
        return sign;
    }
    // up to 24 digits again, as far as the exponent reaches; the digit at the top is then one more in the field
    let up = (rest.leading_zeros() - 40).min(unit);
    sign | (((unit - up) << 23) + (rest << up) as u32)
}

/// rem_euclid by its steps.
pub fn rem_euclid(a: u32, b: u32) -> u32 {
    let (r, y) = (f32::from_bits(remainder(a, b)), f32::from_bits(b));
    let answer = if r >= 0.0 { r } else { r + y.abs() };
    if answer.is_nan() {
        NAN
    } else {
        answer.to_bits()
    }
}

/// div_euclid by its steps, but for the quotients that are a NaN: its bits are 7fc00000 here, trunc of which is +infinity, and 1
/// more or less leaves that.
pub fn div_euclid(a: u32, b: u32) -> u32 {
    let (r, y) = (f32::from_bits(remainder(a, b)), f32::from_bits(b));
    let quotient = f32::from_bits(a) / y;
    if quotient.is_nan() {
        return INFINITY;
    }
    let q = F32(quotient).trunc().0;
    let answer = if r >= 0.0 {
        q
    } else if y > 0.0 {
        q - 1.0
    } else {
        q + 1.0
    };
    answer.to_bits()
}
