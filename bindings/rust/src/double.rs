//! Kernels on doubles: trunc, fract, sqrt and inv of an [`f64`].
//!
//! They are the library's own, after those of micromath at 32 bits. [`trunc`], [`fract`], [`sqrt`] and [`inv`] are guarded, and
//! give a number that is never a NaN, or a [`Refusal`]. Each says what it takes; an infinity or a NaN is refused by all of them
//! with [`Refusal::NotFinite`]. Here a number is too small to be normal where its size is under 2^-1022.
//!
//! ```
//! use dampmeadow::{double, Refusal};
//!
//! // what has to be taken twice to make a patch as bright as another
//! fn factor(from: f64, to: f64) -> Result<f64, Refusal> {
//!     double::sqrt(to * double::inv(from)?)
//! }
//!
//! assert_eq!(factor(4.0, 64.0), Ok(4.0)); // 4 by 4 is 16, and that by 4 is 64
//! assert_eq!(factor(0.0, 64.0), Err(Refusal::Zero)); // black stays black
//! ```
//!
//! [`raw_trunc`], [`raw_fract`], [`raw_sqrt`] and [`raw_inv`] go from any word, which is the number's 64 bits, to a word, and
//! refuse nothing. [`call`] takes both forms by their numbers, which are those of the same kernels on floats. Doubles have no
//! frame and no strip.

use crate::{exported, judged, Operation, Refusal};

/// The refusal, 0 where there is none, and the word, 0 beside a refusal.
fn answered(op: u32, a: u64) -> (u32, u64) {
    let mut value = 0;
    // SAFETY: the place is this function's own; the call writes a word to it, and does not keep it.
    let refusal = unsafe { exported::dampmeadow_double(op, a, &mut value) };
    (refusal, value)
}

/// Calls a kernel, guarded or raw, by its number, which is the one that it has on floats: a word in, a word out. There are
/// eight numbers, the guarded and the raw ones of [`Operation::Trunc`], [`Operation::Fract`], [`Operation::Sqrt`] and
/// [`Operation::Inv`]; every other is refused with [`Refusal::NoSuchOperation`]. Every number and every word may be asked for.
///
/// ```
/// use dampmeadow::{double, Operation, Refusal};
/// let four = 4.0f64.to_bits();
/// assert_eq!(double::call(0x09, four), Ok(2.0f64.to_bits()));
/// assert_eq!(double::call(Operation::Sqrt.number(), four), Ok(0x4000000000000000));
/// assert_eq!(double::call(Operation::Sqrt.raw_number(), 0), Ok(0x1ff8000000000000));
/// assert_eq!(double::call(Operation::Cos.number(), four), Err(Refusal::NoSuchOperation));
/// ```
pub fn call(op: u32, a: u64) -> Result<u64, Refusal> {
    let (refusal, word) = answered(op, a);
    judged(refusal, word)
}

fn guarded(op: Operation, x: f64) -> Result<f64, Refusal> {
    call(op.number(), x.to_bits()).map(f64::from_bits)
}

/// A raw kernel of the four is never refused, so the word is its answer.
fn raw(op: Operation, a: u64) -> u64 {
    answered(op.raw_number(), a).1
}

/// The whole part, toward 0, with the sign of x. Takes |x| under 2^64, numbers too small to be normal too. It is exact.
///
/// ```
/// use dampmeadow::{double, Refusal};
/// assert_eq!(double::trunc(-2.5), Ok(-2.0));
/// assert_eq!(double::trunc(-0.5).map(f64::to_bits), Ok(0x8000000000000000)); // -0
/// assert_eq!(double::trunc(1.8446744073709550e19), Ok(1.8446744073709550e19)); // the last below 2^64
/// assert_eq!(double::trunc(1.8446744073709552e19), Err(Refusal::Outside)); // 2^64
/// ```
pub fn trunc(x: f64) -> Result<f64, Refusal> {
    guarded(Operation::Trunc, x)
}

/// What [`trunc`] leaves, with the sign of x. Takes |x| under 2^64, numbers too small to be normal too. It is exact.
///
/// ```
/// use dampmeadow::{double, Refusal};
/// assert_eq!(double::fract(-2.5), Ok(-0.5));
/// assert_eq!(double::fract(-3.0).map(f64::to_bits), Ok(0x8000000000000000)); // -0
/// assert_eq!(double::fract(1.0e-310), Ok(1.0e-310));
/// assert_eq!(double::fract(f64::NAN), Err(Refusal::NotFinite));
/// ```
pub fn fract(x: f64) -> Result<f64, Refusal> {
    guarded(Operation::Fract, x)
}

/// The square root, some 6 percent too large at most: its square is from x(1 - 1/2^52) to 9x/8. Of 0 and -0 it is that same
/// zero. Takes these and x from 2^-1022 on. It never falls as x grows, and of 2^(2k) it is 2^k, exactly.
///
/// ```
/// use dampmeadow::{double, Refusal};
/// assert_eq!(double::sqrt(4.0), Ok(2.0));
/// assert_eq!(double::sqrt(2.0), Ok(1.5));
/// assert_eq!(double::sqrt(-0.0).map(f64::to_bits), Ok(0x8000000000000000));
/// assert_eq!(double::sqrt(-1.0), Err(Refusal::Negative));
/// assert_eq!(double::sqrt(1.0e-310), Err(Refusal::Small));
/// ```
pub fn sqrt(x: f64) -> Result<f64, Refusal> {
    guarded(Operation::Sqrt, x)
}

/// 1/x, 12.5 percent too large in size at most: x times it is from 1 to 9/8. Of -x it is that of x with the other sign, and the
/// larger |x| is the smaller it is in size. Takes |x| from 2^-1022 to 2^1022.
///
/// ```
/// use dampmeadow::{double, Refusal};
/// assert_eq!(double::inv(1.5), Ok(0.75));
/// assert_eq!(double::inv(-1.5), Ok(-0.75));
/// assert_eq!(double::inv(f64::MIN_POSITIVE), Ok(4.49423283715579e307)); // 2^-1022 gives 2^1022
/// assert_eq!(double::inv(0.0), Err(Refusal::Zero));
/// assert_eq!(double::inv(1.0e-310), Err(Refusal::Small));
/// assert_eq!(double::inv(1.0e308), Err(Refusal::Outside));
/// ```
pub fn inv(x: f64) -> Result<f64, Refusal> {
    guarded(Operation::Inv, x)
}

/// The raw form of [`trunc`]: the bits below the point are dropped, and below 1 in size it is the zero of the sign of x. From a
/// size of 2^64 on, for an infinity and a NaN too, the places of the point are counted modulo 64, and the answer means little.
///
/// ```
/// use dampmeadow::double::raw_trunc;
/// assert_eq!(raw_trunc((-2.5f64).to_bits()), (-2.0f64).to_bits());
/// assert_eq!(raw_trunc(0x43f8000000000000), 0x43f0000000000000); // 1.5 times 2^64 loses its half
/// assert_eq!(raw_trunc(0x7ff8000000000000), 0x7ff0000000000000); // a NaN gives an infinity
/// ```
pub fn raw_trunc(a: u64) -> u64 {
    raw(Operation::Trunc, a)
}

/// The raw form of [`fract`]: the bits below the point alone, with the sign bit of x. From a size of 2^64 on it means as little as
/// [`raw_trunc`].
///
/// ```
/// use dampmeadow::double::raw_fract;
/// assert_eq!(raw_fract((-2.5f64).to_bits()), (-0.5f64).to_bits());
/// assert_eq!(raw_fract(0x43f8000000000000), 0.5f64.to_bits()); // of 1.5 times 2^64
/// assert_eq!(raw_fract(0x7ff8000000000000), 0.5f64.to_bits()); // of a NaN
/// ```
pub fn raw_fract(a: u64) -> u64 {
    raw(Operation::Fract, a)
}

/// The raw form of [`sqrt`]: half of the sum of the word and that of 1, rounded down, from +0 to the infinity and for -0. Of a
/// number below 0 and of a NaN it is 7ff8000000000000, a NaN.
///
/// ```
/// use dampmeadow::double::raw_sqrt;
/// assert_eq!(raw_sqrt(4.0f64.to_bits()), 2.0f64.to_bits());
/// assert_eq!(raw_sqrt(0), 0x1ff8000000000000);
/// assert_eq!(raw_sqrt(0x8000000000000000), 0x5ff8000000000000); // of -0
/// assert_eq!(raw_sqrt((-1.0f64).to_bits()), 0x7ff8000000000000);
/// ```
pub fn raw_sqrt(a: u64) -> u64 {
    raw(Operation::Sqrt, a)
}

/// The raw form of [`inv`]: 7fe0000000000000 less the word, modulo 2^64. Turning the sign bit of x turns that of the answer and
/// nothing else, whatever the word.
///
/// ```
/// use dampmeadow::double::raw_inv;
/// assert_eq!(raw_inv(1.5f64.to_bits()), 0.75f64.to_bits());
/// assert_eq!(raw_inv(0), 0x7fe0000000000000); // 2^1023
/// assert_eq!(raw_inv(0xfff8000000000001), 0x7fe7ffffffffffff);
/// ```
pub fn raw_inv(a: u64) -> u64 {
    raw(Operation::Inv, a)
}
