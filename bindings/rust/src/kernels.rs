//! Each kernel guarded, by name: floats in, and a number that is never a NaN or a refusal out.

use crate::{guarded, Operation, Refusal};

/// The whole part, toward 0. Takes |x| under 2^32.
///
/// ```
/// use dampmeadow::{trunc, Refusal};
/// assert_eq!(trunc(-2.5), Ok(-2.0));
/// assert_eq!(trunc(4294967296.0), Err(Refusal::Outside));
/// ```
pub fn trunc(x: f32) -> Result<f32, Refusal> {
    guarded(Operation::Trunc, x.to_bits(), 0)
}

/// What trunc leaves, with the sign of x. Takes |x| under 2^32.
///
/// ```
/// use dampmeadow::{fract, Refusal};
/// assert_eq!(fract(-2.5), Ok(-0.5));
/// assert_eq!(fract(f32::NAN), Err(Refusal::NotFinite));
/// ```
pub fn fract(x: f32) -> Result<f32, Refusal> {
    guarded(Operation::Fract, x.to_bits(), 0)
}

/// The largest whole number that is not above x; a zero is +0. Takes |x| to 2^31.
///
/// ```
/// use dampmeadow::{floor, Refusal};
/// assert_eq!(floor(-0.5), Ok(-1.0));
/// assert_eq!(floor(3.0e9), Err(Refusal::Outside));
/// ```
pub fn floor(x: f32) -> Result<f32, Refusal> {
    guarded(Operation::Floor, x.to_bits(), 0)
}

/// The smallest whole number that is not below x; a zero is -0. Takes |x| to 2^31.
///
/// ```
/// use dampmeadow::{ceil, Refusal};
/// assert_eq!(ceil(2.5), Ok(3.0));
/// assert_eq!(ceil(3.0e9), Err(Refusal::Outside));
/// ```
pub fn ceil(x: f32) -> Result<f32, Refusal> {
    guarded(Operation::Ceil, x.to_bits(), 0)
}

/// The nearest whole number, halves away from 0; a zero is +0. Takes |x| under 2^23, but not the magnitude 3effffff, the
/// last below 0.5.
///
/// ```
/// use dampmeadow::{round, Refusal};
/// assert_eq!(round(2.5), Ok(3.0));
/// assert_eq!(round(8388608.0), Err(Refusal::Outside));
/// ```
pub fn round(x: f32) -> Result<f32, Refusal> {
    guarded(Operation::Round, x.to_bits(), 0)
}

/// x without its sign. Takes every finite number.
///
/// ```
/// use dampmeadow::{abs, Refusal};
/// assert_eq!(abs(-2.5), Ok(2.5));
/// assert_eq!(abs(f32::INFINITY), Err(Refusal::NotFinite));
/// ```
pub fn abs(x: f32) -> Result<f32, Refusal> {
    guarded(Operation::Abs, x.to_bits(), 0)
}

/// x with the sign of the second operand. Takes all finite numbers.
///
/// ```
/// use dampmeadow::{copysign, Refusal};
/// assert_eq!(copysign(2.5, -1.0), Ok(-2.5));
/// assert_eq!(copysign(2.5, f32::NAN), Err(Refusal::NotFinite));
/// ```
pub fn copysign(x: f32, sign: f32) -> Result<f32, Refusal> {
    guarded(Operation::Copysign, x.to_bits(), sign.to_bits())
}

/// 1, or -1 where the sign bit of x is set; for zeros too. Takes every finite number.
///
/// ```
/// use dampmeadow::signum;
/// assert_eq!(signum(-2.5), Ok(-1.0));
/// assert_eq!(signum(-0.0), Ok(-1.0));
/// ```
pub fn signum(x: f32) -> Result<f32, Refusal> {
    guarded(Operation::Signum, x.to_bits(), 0)
}

/// The square root, some 6 percent too large at most; of 0 and -0 that same zero. Takes these and x above 0. It never falls as
/// x grows, and of 2^(2k) it is 2^k, exactly.
///
/// ```
/// use dampmeadow::{sqrt, Refusal};
/// assert_eq!(sqrt(4.0), Ok(2.0));
/// assert_eq!(sqrt(f32::MIN_POSITIVE), Ok(1.08420217e-19)); // 2^-126 gives 2^-63
/// assert_eq!(sqrt(2.0), Ok(1.5));
/// assert_eq!(sqrt(-0.0).map(f32::to_bits), Ok(0x8000_0000));
/// assert_eq!(sqrt(1.0e-40), Err(Refusal::Small));
/// ```
pub fn sqrt(x: f32) -> Result<f32, Refusal> {
    guarded(Operation::Sqrt, x.to_bits(), 0)
}

/// 1 over the square root, some 4 percent off at most. Takes x above 0, and never rises as x grows.
///
/// ```
/// use dampmeadow::{invsqrt, Refusal};
/// assert_eq!(invsqrt(1.0), Ok(0.966225028));
/// assert_eq!(invsqrt(-1.0), Err(Refusal::Negative));
/// ```
pub fn invsqrt(x: f32) -> Result<f32, Refusal> {
    guarded(Operation::Invsqrt, x.to_bits(), 0)
}

/// 1/x, the quickest, 12.5 percent too large in size at most; of -x it is that of x with the other sign, and the larger |x| is
/// the smaller it is in size. Takes x that is not 0, |x| to 2^126.
///
/// ```
/// use dampmeadow::{inv, Refusal};
/// assert_eq!(inv(1.5), Ok(0.75));
/// assert_eq!(inv(-1.5), Ok(-0.75));
/// assert_eq!(inv(1.0e38), Err(Refusal::Outside));
/// ```
pub fn inv(x: f32) -> Result<f32, Refusal> {
    guarded(Operation::Inv, x.to_bits(), 0)
}

/// 1/x, closer than [`inv`]. Takes x that is not 0, |x| to 2^125.
///
/// ```
/// use dampmeadow::{recip, Refusal};
/// assert_eq!(recip(4.0), Ok(0.250000119));
/// assert_eq!(recip(0.0), Err(Refusal::Zero));
/// ```
pub fn recip(x: f32) -> Result<f32, Refusal> {
    guarded(Operation::Recip, x.to_bits(), 0)
}

/// e to the x. Takes -87 to 88.
///
/// ```
/// use dampmeadow::{exp, Refusal};
/// assert_eq!(exp(0.5), Ok(1.6484375)); // 1.64872 is true
/// assert_eq!(exp(89.0), Err(Refusal::Outside));
/// ```
pub fn exp(x: f32) -> Result<f32, Refusal> {
    guarded(Operation::Exp, x.to_bits(), 0)
}

/// The natural logarithm. Takes x above 0. Below 1 it is up to 0.118 off: 0.99 gives -0.0198 for -0.01005.
///
/// ```
/// use dampmeadow::{ln, Refusal};
/// assert_eq!(ln(0.75), Ok(-0.405448198)); // -0.28768 is true
/// assert_eq!(ln(3.0), Ok(1.0985954));
/// assert_eq!(ln(-2.0), Err(Refusal::Negative));
/// ```
pub fn ln(x: f32) -> Result<f32, Refusal> {
    guarded(Operation::Ln, x.to_bits(), 0)
}

/// x to a whole power. Takes x that is not 0 and a power from -1048576 to 1048576. A power that is too large is an infinity. Of
/// an x under 0.5 in size it gives up early, with 0, or with an infinity where the power is negative: 0.4 to 75 is 0 here.
/// [`powi_products`](crate::powi_products) tells how much work it took.
///
/// ```
/// use dampmeadow::{powi, Refusal};
/// assert_eq!(powi(3.0, 3), Ok(27.0));
/// assert_eq!(powi(2.0, -1), Ok(0.5));
/// assert_eq!(powi(3.0, 128), Ok(f32::INFINITY));
/// assert_eq!(powi(0.4, 75), Ok(0.0));
/// assert_eq!(powi(3.0, 1_048_577), Err(Refusal::PowerOutside));
/// ```
pub fn powi(x: f32, n: i32) -> Result<f32, Refusal> {
    guarded(Operation::Powi, x.to_bits(), n as u32)
}

/// x to the power n. Takes x above 0, where n times this library's [`ln`] of x, rounded, is from -87 to 88. Like that it is far
/// off where x is below 1.
///
/// ```
/// use dampmeadow::{powf, Refusal};
/// assert_eq!(powf(0.75, 2.0), Ok(0.444459558)); // 0.5625 is true
/// assert_eq!(powf(-4.0, 0.5), Err(Refusal::Negative));
/// ```
pub fn powf(x: f32, n: f32) -> Result<f32, Refusal> {
    guarded(Operation::Powf, x.to_bits(), n.to_bits())
}

/// The arctangent, in radians, from -[`FRAC_PI_2`](core::f32::consts::FRAC_PI_2) to that; of -x it is that of x with the other
/// sign. Takes |x| under 2^64.
///
/// ```
/// use dampmeadow::{atan, Refusal};
/// assert_eq!(atan(0.5), Ok(0.466342807)); // 0.46365 is true
/// assert_eq!(atan(-0.5), Ok(-0.466342807));
/// assert_eq!(atan(1.0e19), Ok(core::f32::consts::FRAC_PI_2));
/// assert_eq!(atan(1.0e20), Err(Refusal::Outside));
/// ```
pub fn atan(x: f32) -> Result<f32, Refusal> {
    guarded(Operation::Atan, x.to_bits(), 0)
}

/// The angle of the point (x, y), in radians. Takes a pair of which the larger magnitude is from 2^-60 to 2^62.
///
/// ```
/// use dampmeadow::{atan2, Refusal};
/// assert_eq!(atan2(1.0, 2.0), Ok(0.466342807));
/// assert_eq!(atan2(1.0, 0.0), Ok(1.57079637));
/// assert_eq!(atan2(0.0, 0.0), Err(Refusal::Outside));
/// ```
pub fn atan2(y: f32, x: f32) -> Result<f32, Refusal> {
    guarded(Operation::Atan2, y.to_bits(), x.to_bits())
}

/// The cosine of x radians, from -1 to 1 and 0.0012 off at most. Takes |x| to 256, some 40 turns. Of a larger angle, take off
/// the whole turns first, with [`rem_euclid`].
///
/// ```
/// use core::f32::consts::TAU;
/// use dampmeadow::{cos, rem_euclid, Refusal};
/// assert_eq!(cos(0.0), Ok(1.0));
/// assert_eq!(cos(1.0), Ok(0.540483773)); // 0.54030 is true
/// assert_eq!(cos(256.0), Ok(-0.0393502489)); // -0.03979 is true
/// assert_eq!(cos(1000.0), Err(Refusal::Outside));
/// assert_eq!(rem_euclid(1000.0, TAU).and_then(cos), Ok(0.562676728)); // 0.56238 is true
/// ```
pub fn cos(x: f32) -> Result<f32, Refusal> {
    guarded(Operation::Cos, x.to_bits(), 0)
}

/// The sine of x radians, from -1 to 1 and 0.0012 off at most. Takes |x| to 256; for a larger angle see [`cos`].
///
/// ```
/// use dampmeadow::{sin, Refusal};
/// assert_eq!(sin(1.0), Ok(0.842167795)); // 0.84147 is true
/// assert_eq!(sin(256.0), Ok(-0.999213219)); // -0.99921 is true
/// assert_eq!(sin(300.0), Err(Refusal::Outside));
/// ```
pub fn sin(x: f32) -> Result<f32, Refusal> {
    guarded(Operation::Sin, x.to_bits(), 0)
}

/// The length of (x, y). Takes a pair of which the larger magnitude is from 2^-60 to 2^62.
///
/// ```
/// use dampmeadow::{hypot, Refusal};
/// assert_eq!(hypot(3.0, 4.0), Ok(5.125));
/// assert_eq!(hypot(0.0, 0.0), Err(Refusal::Outside));
/// ```
pub fn hypot(x: f32, y: f32) -> Result<f32, Refusal> {
    guarded(Operation::Hypot, x.to_bits(), y.to_bits())
}

/// The arcsine, in radians, 0.018 off at most. Takes |x| under 1.
///
/// ```
/// use dampmeadow::{asin, Refusal};
/// assert_eq!(asin(0.5), Ok(0.536748469)); // 0.52360 is true
/// assert_eq!(asin(1.0), Err(Refusal::Outside));
/// ```
pub fn asin(x: f32) -> Result<f32, Refusal> {
    guarded(Operation::Asin, x.to_bits(), 0)
}

/// The arccosine, in radians, 0.029 off at most. Takes 0, -0, and |x| from 2^-60 and under 1.
///
/// ```
/// use dampmeadow::{acos, Refusal};
/// assert_eq!(acos(0.5), Ok(1.04882419)); // 1.04720 is true
/// assert_eq!(acos(0.0), Ok(1.57079637));
/// assert_eq!(acos(1.0e-20), Err(Refusal::Outside));
/// ```
pub fn acos(x: f32) -> Result<f32, Refusal> {
    guarded(Operation::Acos, x.to_bits(), 0)
}

/// The tangent of x radians. Takes |x| to 256, as [`cos`] does, but not where this library's cosine of x is 0, as it is of the
/// float nearest to pi/2. It is within 0.0012 while it is 1 at most in size, and further off the steeper it gets; at the
/// steepest angles even its sign may be wrong. Of an angle under 0.00000005 in size it is 0, without the sign.
///
/// ```
/// use core::f32::consts::FRAC_PI_2;
/// use dampmeadow::{tan, Refusal};
/// assert_eq!(tan(1.0), Ok(1.55817401)); // 1.55741 is true
/// assert_eq!(tan(1.5), Ok(14.2437534)); // 14.10142 is true
/// assert_eq!(tan(-1.0e-8).map(f32::to_bits), Ok(0));
/// assert_eq!(tan(FRAC_PI_2), Err(Refusal::Outside));
/// assert_eq!(tan(300.0), Err(Refusal::Outside));
/// ```
pub fn tan(x: f32) -> Result<f32, Refusal> {
    guarded(Operation::Tan, x.to_bits(), 0)
}

/// What whole steps of y leave of x, from 0 to |y|. Takes a quotient x/y under 2^23 in size, and so no y that is 0. It is exact
/// where x is not below 0. Else it is rounded once, and may be |y| itself. Of -0, and of an x below 0 that y divides, it is -0.
///
/// ```
/// use dampmeadow::{rem_euclid, Refusal};
/// assert_eq!(rem_euclid(-7.0, 3.0), Ok(2.0));
/// assert_eq!(rem_euclid(-1.0e-45, 1.0), Ok(1.0));
/// assert_eq!(rem_euclid(7.0, 0.0), Err(Refusal::Outside));
/// ```
pub fn rem_euclid(x: f32, y: f32) -> Result<f32, Refusal> {
    guarded(Operation::RemEuclid, x.to_bits(), y.to_bits())
}

/// How many whole steps of y go with [`rem_euclid`]. Takes what that takes. It counts by the rounded quotient, and where that
/// was rounded up to a whole number it is one too far from 0 for what rem_euclid leaves. On whole numbers of a size to 2^24 the
/// two always agree.
///
/// ```
/// use dampmeadow::{div_euclid, rem_euclid, Refusal};
/// assert_eq!(div_euclid(-7.0, 3.0), Ok(-3.0));
/// // the float 0.1 is a little more than a tenth: nine of them and what is left are 1
/// assert_eq!(rem_euclid(1.0, 0.1), Ok(0.0999999866));
/// assert_eq!(div_euclid(1.0, 0.1), Ok(10.0));
/// assert_eq!(div_euclid(8388608.0, 1.0), Err(Refusal::Outside));
/// ```
pub fn div_euclid(x: f32, y: f32) -> Result<f32, Refusal> {
    guarded(Operation::DivEuclid, x.to_bits(), y.to_bits())
}
