//! Formulas on a line, worked out at a number.

use crate::{exported, unpacked, Refusal};

/// Works out a recipe, a formula on a line, at x.
///
/// A recipe has one term or more, with `+` or `-` between them; a term has one operand or more, with `*` or `/` between them.
/// An operand is a number, as the eight lower-case hexadecimal digits of its bits; or `x`; or a recipe within parentheses, with
/// one of these names right before them or none: floor, sqrt, invsqrt, inv, recip, exp, ln, cos, sin, atan. Terms are put
/// together from the left, and so are a term's operands. There is no blank, and an operand has no `+` or `-` of its own before
/// it: -1 is written `bf800000`, and -x as `80000000-x`.
///
/// ```
/// use dampmeadow::recipe;
/// assert_eq!(recipe("3f800000+sqrt(x)*x", 4.0), Ok(9.0)); // 1 + 2 * 4
/// assert_eq!(recipe("x-x-x", 1.0), Ok(-1.0)); // (1 - 1) - 1
/// assert_eq!(recipe("80000000-x", 2.5), Ok(-2.5));
/// // a weight that is 1 at 0 and falls to both sides
/// let half = format!("{:08x}", 0.5f32.to_bits());
/// assert_eq!(recipe(&format!("{half}*(3f800000+cos(x))"), 0.0), Ok(1.0));
/// ```
///
/// Each `+`, `-`, `*` and `/` is rounded once and refuses nothing. So the value may be an infinity, and it may be a NaN, which a
/// kernel's never is. x may be either too. The kernels are the guarded ones, and refuse both.
///
/// ```
/// use dampmeadow::{recipe, Refusal};
/// assert_eq!(recipe("3f800000/x", 0.0), Ok(f32::INFINITY));
/// assert_eq!(recipe("sqrt(3f800000/x)", 0.0), Err(Refusal::NotFinite));
/// assert!(recipe("x/x", 0.0).is_ok_and(f32::is_nan));
/// ```
///
/// It is refused with [`Refusal::TooLong`], [`Refusal::TooDeep`] or [`Refusal::NotARecipe`], the first that holds, and else with
/// what the first kernel that refuses does: from left to right, and those in a kernel's parentheses before that kernel.
///
/// ```
/// use dampmeadow::{recipe, Refusal};
/// assert_eq!(recipe("ln(x)+sqrt(bf800000)", 0.0), Err(Refusal::Zero));
/// assert_eq!(recipe("sqrt(bf800000)+ln(x)", 0.0), Err(Refusal::Negative));
/// assert_eq!(recipe("sqrt(bf800000)+", 0.0), Err(Refusal::NotARecipe)); // it ends too soon
/// assert_eq!(recipe("x + x", 1.0), Err(Refusal::NotARecipe)); // it has blanks
/// ```
pub fn recipe(line: &str, x: f32) -> Result<f32, Refusal> {
    recipe_words(line.as_bytes(), x.to_bits()).map(f32::from_bits)
}

/// [`recipe`] of any bytes, with words for x and the value. A value that is a NaN has the word 7fc00000.
///
/// ```
/// use dampmeadow::{recipe_words, Refusal};
/// assert_eq!(recipe_words(b"sqrt(sqrt(41800000))*x", 0x40400000), Ok(0x40c00000));
/// assert_eq!(recipe_words(b"x", 0xff800001), Ok(0x7fc00000));
/// assert_eq!(recipe_words(b"x\n", 0x40400000), Err(Refusal::NotARecipe));
/// ```
pub fn recipe_words(line: &[u8], x: u32) -> Result<u32, Refusal> {
    // SAFETY: the pointer comes from a slice with its own length, and an empty one's too is not null; the call reads the line,
    // and does not keep it.
    unpacked(unsafe { exported::dampmeadow_recipe(line.as_ptr(), line.len(), x) })
}
