//! An operation over whole lists, and lists of floats and of powers lent as words.

use crate::{exported, judged, Refusal};
use core::slice;

/// Calls an operation, guarded or raw, for each place of a strip. What [`call`](crate::call) gives for `first[i]` and
/// `second[i]`, or 0 for the second where the operation has one operand, is put into `answers[i]` and `refusals[i]`: the word, 0
/// with a refusal, and the refusal's number, 0 where there is an answer. A refused place changes no other. `second` may hold
/// anything for an operation of one operand: lend `first` twice. [`bits`], [`bits_mut`] and [`powers`] lend floats, and powi's
/// powers, with no copying.
///
/// All four lists have one length, and that may be 0. Where they have not, the strip is refused with [`Refusal::Lengths`], and
/// else, where no operation has this number, with [`Refusal::NoSuchOperation`]. Then nothing is written. `Ok` says nothing of
/// the places, and each may be refused by itself.
///
/// ```
/// use dampmeadow::{bits, bits_mut, strip, Operation, Refusal};
/// let (across, down) = ([3.0, 0.0, f32::NAN], [4.0, 0.0, 1.0]);
/// let (mut strengths, mut refusals) = ([0.0; 3], [0; 3]);
/// let hypot = Operation::Hypot.number();
/// assert_eq!(strip(hypot, bits(&across), bits(&down), bits_mut(&mut strengths), &mut refusals), Ok(()));
/// assert_eq!((strengths, refusals), ([5.125, 0.0, 0.0], [0, 4, 1]));
///
/// // a place as a result
/// let place = |i: usize| Refusal::from_number(refusals[i]).map_or(Ok(strengths[i]), Err);
/// assert_eq!((place(0), place(1)), (Ok(5.125), Err(Refusal::Outside)));
///
/// assert_eq!(strip(hypot, bits(&across), bits(&down[1..]), bits_mut(&mut strengths), &mut refusals), Err(Refusal::Lengths));
/// assert_eq!(strip(0x1f, &[], &[], &mut [], &mut []), Err(Refusal::NoSuchOperation));
/// ```
pub fn strip(op: u32, first: &[u32], second: &[u32], answers: &mut [u32], refusals: &mut [u32]) -> Result<(), Refusal> {
    // SAFETY: each pointer comes from a slice with its own length, an empty one's too is not null, and the two that are written
    // overlap none of the others since they are lent to be changed; the call reads two, writes to two, and keeps none.
    let refusal = unsafe {
        exported::dampmeadow_strip(
            op,
            first.as_ptr(),
            first.len(),
            second.as_ptr(),
            second.len(),
            answers.as_mut_ptr(),
            answers.len(),
            refusals.as_mut_ptr(),
            refusals.len(),
        )
    };
    judged(refusal, ())
}

// what the views below count on; of i32 and u32 the language says so itself
const _: () = assert!(size_of::<f32>() == size_of::<u32>() && align_of::<f32>() == align_of::<u32>());

/// Floats as their words, the same places in memory: a NaN keeps its bits.
///
/// ```
/// assert_eq!(dampmeadow::bits(&[4.0, -1.0]), [0x40800000, 0xbf800000]);
/// ```
pub fn bits(numbers: &[f32]) -> &[u32] {
    // SAFETY: both types have one size and one alignment, and all bits are a u32; the words are lent for as long as the floats.
    unsafe { slice::from_raw_parts(numbers.as_ptr().cast(), numbers.len()) }
}

/// Floats as words that may be written, the same places in memory: what a [`strip`] answers is then a list of floats.
///
/// ```
/// let mut numbers = [4.0, -1.0];
/// dampmeadow::bits_mut(&mut numbers)[1] = 0x40000000;
/// assert_eq!(numbers, [4.0, 2.0]);
/// ```
pub fn bits_mut(numbers: &mut [f32]) -> &mut [u32] {
    // SAFETY: as in `bits`, and all bits are an f32 too, so any word may be written; no one else has the floats meanwhile.
    unsafe { slice::from_raw_parts_mut(numbers.as_mut_ptr().cast(), numbers.len()) }
}

/// Whole powers as the words that powi takes for its second operands, the same places in memory.
///
/// ```
/// use dampmeadow::{bits, bits_mut, powers, strip, Operation};
/// let (mut answers, mut refusals) = ([0.0; 2], [0; 2]);
/// let powi = Operation::Powi.number();
/// assert_eq!(strip(powi, bits(&[3.0, 2.0]), powers(&[3, -1]), bits_mut(&mut answers), &mut refusals), Ok(()));
/// assert_eq!(answers, [27.0, 0.5]);
/// ```
pub fn powers(powers: &[i32]) -> &[u32] {
    // SAFETY: as in `bits`.
    unsafe { slice::from_raw_parts(powers.as_ptr().cast(), powers.len()) }
}
