//! Float kernels that give a number or say why not: safe calls to the library of Dampmeadow, in which every function is proved
//! to meet its contract.
//!
//! Each kernel has a guarded form under its own name, which gives a number that is never a NaN, or a [`Refusal`]:
//!
//! ```
//! use dampmeadow::{atan2, hypot, Refusal};
//!
//! fn edge(across: f32, down: f32) -> Result<(f32, f32), Refusal> {
//!     Ok((hypot(across, down)?, atan2(down, across)?))
//! }
//!
//! assert_eq!(edge(3.0, 4.0).map(|(strength, _)| strength), Ok(5.125));
//! // flat white has no edge, and so no direction
//! assert_eq!(edge(0.0, 0.0), Err(Refusal::Outside));
//! ```
//!
//! Each says what it takes. An infinity or a NaN is refused by all of them with [`Refusal::NotFinite`]. "Above 0" and "not 0"
//! leave out the numbers that are not 0 and too small to be normal, those of a size under 2^-126: they are refused with
//! [`Refusal::Small`], and a zero, where it is not taken, with [`Refusal::Zero`].
//!
//! The kernels are those of micromath, to the bit, but that [`sqrt`] of a zero is that zero: most are quick estimates, some of
//! them percents off. [`raw`] gives what micromath gives for every word, NaN and infinity among them, but for five cases that
//! docs/DIFFERENCES.md lists. [`raw_floor_marked`] and [`raw_ceil_marked`] give a [`Mark`] beside that, which says what their
//! cast to an integer did to the number. [`powi_products`] counts the products of a power. [`call`] takes any operation by its
//! number, [`strip`] the same over whole lists, and [`answer`] a frame, which is a line of text. A [`Grain`] is a record of
//! samples, their running mean and spread, that is changed in place as each is offered. [`recipe`] works out a formula of
//! kernels on a line of text, and what it gives may be a NaN. [`double`] has four kernels on doubles, guarded and raw.
//! [`columns`] lends the part of a scanned row, or of a retouched one, that is on screen. [`soft`] has a second engine, for a
//! controller without floats: four operations and four kernels on words, with whole numbers alone. The library itself keeps
//! nothing between calls, so they may be made from any thread.
//!
//! The build script finds the library, or proves and builds it, which takes some minutes the first time; where it cannot, it
//! says what is missing. The library needs nothing from outside.

#![no_std]
#![deny(unsafe_op_in_unsafe_fn)]

mod columns;
pub mod double;
mod grain;
mod kernels;
mod mark;
mod operation;
mod recipe;
mod refusal;
pub mod soft;
mod strip;

pub use columns::columns;
pub use grain::Grain;
pub use kernels::*;
pub use mark::Mark;
pub use operation::Operation;
pub use recipe::{recipe, recipe_words};
pub use refusal::Refusal;
pub use strip::{bits, bits_mut, powers, strip};

/// The bytes of an answer to a frame.
pub const ANSWER_LENGTH: usize = 11;

/// The exported calls. A slice is two arguments there, where it begins and how long it is.
mod exported {
    use crate::Grain;

    extern "C" {
        pub fn dampmeadow_words(op: u32, a: u32, b: u32) -> u64;
        pub fn dampmeadow_strip(
            op: u32,
            first: *const u32,
            first_count: usize,
            second: *const u32,
            second_count: usize,
            answers: *mut u32,
            answers_count: usize,
            refusals: *mut u32,
            refusals_count: usize,
        ) -> u32;
        pub fn dampmeadow_answer(line: *const u8, length: usize, space: *mut u8, room: usize) -> u32;
        pub fn dampmeadow_atan_norm(a: u32) -> u32;
        pub fn dampmeadow_atan_norm_guarded(a: u32) -> u64;
        pub fn dampmeadow_parts(a: u32, whole: *mut u32, rest: *mut u32) -> u32;
        pub fn dampmeadow_powi_products(a: u32, n: i32) -> u32;
        pub fn dampmeadow_floor_marked(a: u32) -> u64;
        pub fn dampmeadow_ceil_marked(a: u32) -> u64;
        pub fn dampmeadow_grain_offer(grain: *mut Grain, sample: u32) -> u32;
        pub fn dampmeadow_recipe(line: *const u8, length: usize, x: u32) -> u64;
        pub fn dampmeadow_double(op: u32, a: u64, value: *mut u64) -> u32;
        pub fn dampmeadow_columns(
            scan: usize,
            retouch: usize,
            retouched: bool,
            from: usize,
            to: usize,
            first: *mut usize,
            last: *mut usize,
        ) -> bool;
        pub fn dampmeadow_soft_add(a: u32, b: u32) -> u32;
        pub fn dampmeadow_soft_sub(a: u32, b: u32) -> u32;
        pub fn dampmeadow_soft_mul(a: u32, b: u32) -> u32;
        pub fn dampmeadow_soft_div(a: u32, b: u32) -> u32;
        pub fn dampmeadow_soft_cos(a: u32) -> u32;
        pub fn dampmeadow_soft_sin(a: u32) -> u32;
        pub fn dampmeadow_soft_atan_norm(a: u32) -> u32;
        pub fn dampmeadow_soft_atan(a: u32) -> u32;
    }
}

/// `Ok` for 0, and else the refusal of that number.
fn judged<T>(number: u32, answer: T) -> Result<T, Refusal> {
    Refusal::from_number(number).map_or(Ok(answer), Err)
}

/// A refusal in the high 32 bits, and a word in the low 32.
fn unpacked(packed: u64) -> Result<u32, Refusal> {
    judged((packed >> 32) as u32, packed as u32)
}

/// A mark in the high 32 bits, and a word in the low 32.
fn marked(packed: u64) -> (u32, Mark) {
    let number = (packed >> 32) as u32;
    match Mark::from_number(number) {
        Some(mark) => (packed as u32, mark),
        // the library gives no other number; of one from elsewhere, whatever mark is put here might be untrue
        None => unreachable!("the library gave mark {number}, and there are only 0 to 4"),
    }
}

/// Calls an operation, guarded or raw, by its number in a frame: words in, a word out. Every number and all words may be asked
/// for.
///
/// ```
/// use dampmeadow::{call, Refusal};
/// assert_eq!(call(0x09, 0x40800000, 0), Ok(0x40000000));
/// assert_eq!(call(0x89, 0x80000000, 0), Ok(0x5fc00000));
/// assert_eq!(call(0x1f, 0, 0), Err(Refusal::NoSuchOperation));
/// ```
pub fn call(op: u32, a: u32, b: u32) -> Result<u32, Refusal> {
    // SAFETY: numbers alone go in and come out, and every one is answered.
    unpacked(unsafe { exported::dampmeadow_words(op, a, b) })
}

/// The raw form of an operation: what micromath gives, as its 32 bits, for all words. The only refusal is
/// [`Refusal::Malformed`], where the second word is not used and is not 0. powi's second word is its power, `n as u32`.
///
/// ```
/// use dampmeadow::{raw, Operation, Refusal};
/// assert_eq!(raw(Operation::Sqrt, 4.0f32.to_bits(), 0), Ok(2.0f32.to_bits()));
/// assert_eq!(raw(Operation::Sqrt, 0, 0), Ok(0x1fc00000));
/// assert_eq!(raw(Operation::Atan2, 0, 0), Ok(0x7fc00000));
/// assert_eq!(raw(Operation::Sqrt, 0, 1), Err(Refusal::Malformed));
/// ```
pub fn raw(op: Operation, a: u32, b: u32) -> Result<u32, Refusal> {
    call(op.raw_number(), a, b)
}

/// The guarded form of an operation, which the functions under the kernels' names call: words in, and a number that is never a
/// NaN out. powi's may be an infinity.
///
/// ```
/// use dampmeadow::{guarded, Operation, Refusal};
/// assert_eq!(guarded(Operation::Sqrt, 4.0f32.to_bits(), 0), Ok(2.0));
/// assert_eq!(guarded(Operation::Powi, 2.0f32.to_bits(), -1i32 as u32), Ok(0.5));
/// assert_eq!(guarded(Operation::Sqrt, 0x7fc00000, 0), Err(Refusal::NotFinite));
/// ```
pub fn guarded(op: Operation, a: u32, b: u32) -> Result<f32, Refusal> {
    call(op.number(), a, b).map(f32::from_bits)
}

/// The arctangent as a share of a quarter turn, guarded: from -1 to 1, and of -x that of x with the other sign. Takes |x| under
/// 2^64. It has no operation number.
///
/// ```
/// use dampmeadow::{atan_norm, Refusal};
/// assert_eq!(atan_norm(1.0), Ok(0.5));
/// assert_eq!(atan_norm(-1.0e19), Ok(-1.0));
/// assert_eq!(atan_norm(f32::INFINITY), Err(Refusal::NotFinite));
/// ```
pub fn atan_norm(x: f32) -> Result<f32, Refusal> {
    // SAFETY: as in `call`.
    unpacked(unsafe { exported::dampmeadow_atan_norm_guarded(x.to_bits()) }).map(f32::from_bits)
}

/// The raw form of [`atan_norm`]: any word in, the word that micromath gives out, and no refusal.
///
/// ```
/// use dampmeadow::raw_atan_norm;
/// assert_eq!(raw_atan_norm(0x3f800000), 0x3f000000);
/// assert_eq!(raw_atan_norm(0x7f800000), 0x7fc00000);
/// ```
pub fn raw_atan_norm(a: u32) -> u32 {
    // SAFETY: as in `call`.
    unsafe { exported::dampmeadow_atan_norm(a) }
}

/// [`trunc`] and [`fract`] together, guarded: the whole part and what it leaves, both with the sign of x. Takes |x| under 2^32.
/// It has no operation number.
///
/// ```
/// use dampmeadow::{parts, Refusal};
/// assert_eq!(parts(-2.5), Ok((-2.0, -0.5)));
/// assert_eq!(parts(4294967296.0), Err(Refusal::Outside));
/// ```
pub fn parts(x: f32) -> Result<(f32, f32), Refusal> {
    let (mut whole, mut rest) = (0, 0);
    // SAFETY: the two places are this function's own and apart; the call writes a word to each, and keeps neither.
    let refusal = unsafe { exported::dampmeadow_parts(x.to_bits(), &mut whole, &mut rest) };
    judged(refusal, (f32::from_bits(whole), f32::from_bits(rest)))
}

/// How much work a power took: how many products of two floats [`powi`] formed for its answer. For each binary digit of the size
/// of n but the first there is one that squares, and for each digit that is 1 one that goes into the result: 39 at most, for
/// 1048575 and -1048575. The division that a negative power begins with is no product. 0 where [`powi`] refuses, for the power 0,
/// and where it answers early, with an infinity or 0, because x, not from 0.5 to below 2 in size, is by its exponent too large or
/// too small for the power.
///
/// ```
/// use dampmeadow::powi_products;
/// assert_eq!(powi_products(3.0, 3), 3); // 1 by 3, 3 by 3, and the 3 by the 9
/// assert_eq!(powi_products(3.0, -3), 3);
/// assert_eq!(powi_products(3.0, 0), 0);
/// assert_eq!(powi_products(3.0, 128), 0); // answered early, with an infinity
/// assert_eq!(powi_products(0.0, 3), 0); // refused
/// assert_eq!(powi_products(1.5, 1_048_575), 39);
/// assert_eq!(powi_products(1.5, 1_048_576), 21);
/// ```
pub fn powi_products(x: f32, n: i32) -> u32 {
    // SAFETY: as in `call`.
    unsafe { exported::dampmeadow_powi_products(x.to_bits(), n) }
}

/// Raw floor with the mark of the cast that it makes, which is of x: any word in, the word that [`raw`] gives and the mark out,
/// and no refusal. It has no operation number.
///
/// With [`Mark::Exact`] and [`Mark::Dropped`] the word is the largest whole number that is not above x; a zero is +0. With
/// [`Mark::High`] it is 2^31, which is right for 2^31 itself alone, and with [`Mark::Low`] -2^31, which is too high. With
/// [`Mark::NotANumber`] it is +0.
///
/// ```
/// use dampmeadow::{raw_floor_marked, Mark};
/// assert_eq!(raw_floor_marked((-3.0f32).to_bits()), ((-3.0f32).to_bits(), Mark::Exact));
/// assert_eq!(raw_floor_marked((-0.5f32).to_bits()), ((-1.0f32).to_bits(), Mark::Dropped));
/// // the cast stops short of 3e9, and at 2^31 the answer is right all the same
/// assert_eq!(raw_floor_marked(3.0e9f32.to_bits()), (0x4f000000, Mark::High));
/// assert_eq!(raw_floor_marked(0x4f000000), (0x4f000000, Mark::High));
/// assert_eq!(raw_floor_marked(0x7fc00000), (0, Mark::NotANumber));
/// ```
pub fn raw_floor_marked(a: u32) -> (u32, Mark) {
    // SAFETY: as in `call`.
    marked(unsafe { exported::dampmeadow_floor_marked(a) })
}

/// Raw ceil with the mark of the cast that it makes, which is of -x: any word in, the word that [`raw`] gives and the mark out,
/// and no refusal. It has no operation number.
///
/// With [`Mark::Exact`] and [`Mark::Dropped`] the word is the smallest whole number that is not below x; a zero is -0. With
/// [`Mark::High`], for an x from -2^31 down, it is -2^31, which is right for -2^31 itself alone, and with [`Mark::Low`], for an
/// x above 2^31, it is 2^31, which is too low. With [`Mark::NotANumber`] it is -0.
///
/// ```
/// use dampmeadow::{raw_ceil_marked, Mark};
/// assert_eq!(raw_ceil_marked((-3.0f32).to_bits()), ((-3.0f32).to_bits(), Mark::Exact));
/// assert_eq!(raw_ceil_marked((-0.5f32).to_bits()), ((-0.0f32).to_bits(), Mark::Dropped));
/// // -3e9 is what is cast
/// assert_eq!(raw_ceil_marked(3.0e9f32.to_bits()), (0x4f000000, Mark::Low));
/// assert_eq!(raw_ceil_marked(0x4f000000), (0x4f000000, Mark::Exact));
/// assert_eq!(raw_ceil_marked(0xcf000000), (0xcf000000, Mark::High));
/// assert_eq!(raw_ceil_marked(0x7fc00000), (0x80000000, Mark::NotANumber));
/// ```
pub fn raw_ceil_marked(a: u32) -> (u32, Mark) {
    // SAFETY: as in `call`.
    marked(unsafe { exported::dampmeadow_ceil_marked(a) })
}

/// Answers a frame, given as a line without its newline: [`ANSWER_LENGTH`] bytes at the front of the space, the refusal in two
/// digits, the word in eight and a newline. The bytes after them stay. They are written for a refusal too, but for
/// [`Refusal::NoRoom`]: a space of fewer bytes stays as it is. Any bytes may be given as a line.
///
/// ```
/// use dampmeadow::{answer, Refusal, ANSWER_LENGTH};
/// let mut space = [0; ANSWER_LENGTH];
/// assert_eq!(answer(b"094080000000000000", &mut space), Ok(()));
/// assert_eq!(&space, b"0040000000\n");
/// assert_eq!(answer(b"09bf80000000000000", &mut space), Err(Refusal::Negative));
/// assert_eq!(&space, b"0300000000\n");
/// assert_eq!(answer(b"094080000000000000", &mut space[..10]), Err(Refusal::NoRoom));
/// ```
pub fn answer(line: &[u8], space: &mut [u8]) -> Result<(), Refusal> {
    // SAFETY: both pointers come from slices with their own lengths, which do not overlap since one of them is lent to be
    // changed; the call reads the line, writes to the space, and keeps neither.
    let refusal = unsafe { exported::dampmeadow_answer(line.as_ptr(), line.len(), space.as_mut_ptr(), space.len()) };
    judged(refusal, ())
}
