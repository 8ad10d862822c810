//! The second engine: arithmetic on 32-bit floats worked out with whole numbers alone, for a controller that has no floats.
//!
//! A number is its 32 bits, its word, as [`f32::to_bits`] gives them. Every word may be given and every word is answered, with
//! no refusal. An answer that is a NaN is always 7fc00000, whatever bits a NaN among the operands has.
//!
//! [`add`], [`sub`], [`mul`] and [`div`] are IEEE 754's operations. The exact result is rounded once, to the nearest number and
//! on a tie to the even word; numbers too small to be normal are taken and given at their value, and a result from half a step
//! above the largest on is an infinity. [`cos`], [`sin`], [`atan_norm`] and [`atan`] are the raw kernels in steps of these. All
//! of that is proved, for all words.
//!
//! No call depends on the processor's float settings: which way it rounds, and whether it takes small numbers for 0, changes no
//! answer. The calls of the rest of this crate count on the usual ones.
//!
//! ```
//! use dampmeadow::{raw, soft, Operation};
//! let (a, b) = (0.1f32, 0.2f32);
//! assert_eq!(soft::add(a.to_bits(), b.to_bits()), (a + b).to_bits());
//! assert_eq!(Ok(soft::cos(a.to_bits())), raw(Operation::Cos, a.to_bits(), 0));
//! ```
//!
//! This crate links the whole library. A controller without floats takes the small one that has these calls alone, libsoft.a,
//! which include/dampmeadow_soft.h describes.

use crate::exported;

/// a + b. Infinities of unlike signs make a NaN. An exact 0 is +0, but where both operands are -0.
///
/// ```
/// use dampmeadow::soft::add;
/// assert_eq!(add(0x3f800000, 0x40000000), 0x40400000); // 1 + 2
/// // half way between two numbers, to the one whose word is even
/// assert_eq!(add(0x3f800000, 0x33800000), 0x3f800000);
/// assert_eq!(add(0x3f800001, 0x33800000), 0x3f800002);
/// // half a step above the largest, and less
/// assert_eq!(add(0x7f7fffff, 0x73000000), 0x7f800000);
/// assert_eq!(add(0x7f7fffff, 0x72ffffff), 0x7f7fffff);
/// assert_eq!(add(0x80000000, 0x80000000), 0x80000000); // -0 + -0
/// ```
pub fn add(a: u32, b: u32) -> u32 {
    // SAFETY: numbers alone go in and come out, and every one is answered.
    unsafe { exported::dampmeadow_soft_add(a, b) }
}

/// a - b, which is [`add`] with the sign of b turned: x - x is +0.
///
/// ```
/// use dampmeadow::soft::sub;
/// assert_eq!(sub(0x3f800000, 0x40000000), 0xbf800000); // 1 - 2
/// assert_eq!(sub(0xc0200000, 0xc0200000), 0); // x - x
/// assert_eq!(sub(0x00800000, 0x00000001), 0x007fffff); // too small to be normal
/// assert_eq!(sub(0x7f800000, 0x7f800000), 0x7fc00000); // infinity less infinity
/// ```
pub fn sub(a: u32, b: u32) -> u32 {
    // SAFETY: as in `add`.
    unsafe { exported::dampmeadow_soft_sub(a, b) }
}

/// a * b, minus where the signs differ, be it a zero or an infinity. A zero times an infinity is a NaN.
///
/// ```
/// use dampmeadow::soft::mul;
/// assert_eq!(mul(0x40000000, 0xc0400000), 0xc0c00000); // 2 * -3
/// // ties among the smallest: half of it, and one and a half
/// assert_eq!(mul(0x00000001, 0x3f000000), 0);
/// assert_eq!(mul(0x80000001, 0x3f000000), 0x80000000);
/// assert_eq!(mul(0x00000003, 0x3f000000), 0x00000002);
/// assert_eq!(mul(0, 0x7f800000), 0x7fc00000); // 0 * infinity
/// ```
pub fn mul(a: u32, b: u32) -> u32 {
    // SAFETY: as in `add`.
    unsafe { exported::dampmeadow_soft_mul(a, b) }
}

/// a / b, minus where the signs differ, be it a zero or an infinity. A number other than 0 over a zero is an infinity,
/// and an infinity over a zero is one; a zero over a zero and an infinity over an infinity are a NaN.
///
/// ```
/// use dampmeadow::soft::div;
/// assert_eq!(div(0x3f800000, 0x40400000), 0x3eaaaaab); // 1 / 3
/// assert_eq!(div(0x00000001, 0x3f000001), 0x00000002); // the smallest, over a little more than a half
/// assert_eq!(div(0x00000001, 0x7f7fffff), 0); // the smallest over the largest
/// assert_eq!(div(0x3f800000, 0x80000000), 0xff800000); // 1 / -0
/// assert_eq!(div(0, 0), 0x7fc00000); // 0 / 0
/// ```
pub fn div(a: u32, b: u32) -> u32 {
    // SAFETY: as in `add`.
    unsafe { exported::dampmeadow_soft_div(a, b) }
}

/// About the cosine of an angle in radians: what [`raw`](crate::raw) gives for [`Operation::Cos`](crate::Operation::Cos). To
/// 256 in size it is 0.0012 off at most, and further off the larger the angle is. To 26353588 in size it is from -1 to 1; of a
/// larger angle it is 0, 1 or -4.35, and of one above 1.3*10^10 any number.
///
/// ```
/// use dampmeadow::soft::cos;
/// assert_eq!(cos(0), 0x3f800000); // of 0 it is 1
/// assert_eq!(cos(0x3f800000), 0x3f0a5d25); // of 1 it is 0.54048
/// assert_eq!(cos(0xffc00001), 0x7fc00000); // of a NaN it is a NaN
/// ```
pub fn cos(a: u32) -> u32 {
    // SAFETY: as in `add`.
    unsafe { exported::dampmeadow_soft_cos(a) }
}

/// About the sine of an angle in radians: what [`raw`](crate::raw) gives for [`Operation::Sin`](crate::Operation::Sin). It is
/// as close as [`cos`].
///
/// ```
/// use dampmeadow::soft::sin;
/// assert_eq!(sin(0x3f800000), 0x3f57984f); // of 1 it is 0.84217
/// assert_eq!(sin(0x7fc00000), 0x7fc00000); // of a NaN it is a NaN
/// ```
pub fn sin(a: u32) -> u32 {
    // SAFETY: as in `add`.
    unsafe { exported::dampmeadow_soft_sin(a) }
}

/// About the arctangent, as a share of a quarter turn: what [`raw_atan_norm`](crate::raw_atan_norm) gives. Of a number under
/// 2^64 in size it lies from -1 to 1, and turning the number's sign bit turns the answer's and nothing else. Of any other, an
/// infinity too, it is a NaN.
///
/// ```
/// use dampmeadow::soft::atan_norm;
/// assert_eq!(atan_norm(0x3f800000), 0x3f000000); // of 1 it is 0.5
/// assert_eq!(atan_norm(0xbf800000), 0xbf000000);
/// assert_eq!(atan_norm(0x7f800000), 0x7fc00000); // of infinity it is a NaN
/// ```
pub fn atan_norm(a: u32) -> u32 {
    // SAFETY: as in `add`.
    unsafe { exported::dampmeadow_soft_atan_norm(a) }
}

/// About the arctangent in radians, [`atan_norm`] times pi/2: what [`raw`](crate::raw) gives for
/// [`Operation::Atan`](crate::Operation::Atan).
///
/// ```
/// use dampmeadow::soft::atan;
/// assert_eq!(atan(0x3f000000), 0x3eeec47c); // of 0.5 it is 0.46634
/// assert_eq!(atan(0x7f800000), 0x7fc00000); // of infinity it is a NaN
/// ```
pub fn atan(a: u32) -> u32 {
    // SAFETY: as in `add`.
    unsafe { exported::dampmeadow_soft_atan(a) }
}
