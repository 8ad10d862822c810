//! Both sides of every edge in the specification, and its worked examples of the guarded form, each with what is said of it
//! there. The list is written by hand, apart from the gates of `gates.rs`.

use crate::kernels::{guarded, Kernel};
use crate::sweep::Count;

/// What the specification says of a guarded call.
#[derive(Clone, Copy)]
enum Says {
    /// The crate's word.
    Answers,
    Gives(u32),
    Refuses(u64),
}

use Says::{Answers, Gives, Refuses};

/// Every kernel but asin, acos, tan and the two euclids: the first operand of each is a float.
const ALL: &str = "trunc fract floor ceil round abs copysign signum sqrt invsqrt inv recip exp ln powi powf atan atan_norm atan2 cos sin hypot";

/// Kernels, their two words, and what is said of them.
type Row = (&'static str, u32, u32, Says);

/// The words of these stand in the midst of the stored list: a new row goes to `LAST`.
const EDGES: &[Row] = &[
    // 1: infinities and NaN, whatever else holds, and the last words before them
    (ALL, 0x7f80_0000, 0, Refuses(1)),
    (ALL, 0xff80_0000, 0, Refuses(1)),
    (ALL, 0x7f80_0001, 0, Refuses(1)),
    (ALL, 0x7fc0_0000, 0, Refuses(1)),
    (ALL, 0xffff_ffff, 0, Refuses(1)),
    ("abs signum sqrt invsqrt ln copysign powi powf", 0x7f7f_ffff, 0, Answers),
    ("abs signum copysign powi", 0xff7f_ffff, 0, Answers),
    ("copysign powf atan2 hypot", 0x3f80_0000, 0x7f80_0000, Refuses(1)),
    ("copysign powf atan2 hypot", 0x3f80_0000, 0xff80_0000, Refuses(1)),
    ("copysign powf atan2 hypot", 0x3f80_0000, 0x7f80_0001, Refuses(1)),
    ("copysign powf atan2 hypot", 0x3f80_0000, 0xffc0_0000, Refuses(1)),
    ("copysign powf", 0x3f80_0000, 0x7f7f_ffff, Answers),
    ("copysign powf", 0x3f80_0000, 0xff7f_ffff, Answers),
    ("powf", 0x0000_0000, 0x7f80_0000, Refuses(1)),
    ("powf", 0xbf80_0000, 0x7fc0_0000, Refuses(1)),
    ("atan2 hypot", 0x0000_0000, 0x7fc0_0000, Refuses(1)),
    ("powi", 0x7f80_0000, 0x8000_0000, Refuses(1)),
    // a power is no float
    ("powi", 0x3f80_0000, 0x7f80_0000, Refuses(5)),
    ("powi", 0x3f80_0000, 0x7fc0_0000, Refuses(5)),
    ("powi", 0x3f80_0000, 0xff80_0000, Refuses(5)),
    // 2: a zero, before the gate and the power; guarded sqrt answers it, with its sign
    ("invsqrt inv recip ln powi powf", 0x0000_0000, 0, Refuses(2)),
    ("sqrt", 0x0000_0000, 0, Gives(0x0000_0000)),
    ("invsqrt inv recip ln powi powf", 0x8000_0000, 0, Refuses(2)),
    ("sqrt", 0x8000_0000, 0, Gives(0x8000_0000)),
    // 9: no zero, and an exponent field of 0, before the sign, the gate and the power
    ("sqrt invsqrt inv recip ln powi powf", 0x0000_0001, 0, Refuses(9)),
    ("sqrt invsqrt inv recip ln powi powf", 0x007f_ffff, 0, Refuses(9)),
    ("sqrt invsqrt inv recip ln powi powf", 0x807f_ffff, 0, Refuses(9)),
    ("sqrt invsqrt inv recip ln powi powf", 0x0080_0000, 0, Answers),
    ("recip powi", 0x8080_0000, 0, Answers),
    ("powf", 0x8000_0000, 0x7f7f_ffff, Refuses(2)),
    ("powi", 0x007f_ffff, 0x0010_0001, Refuses(9)),
    ("powi", 0x0000_0000, 0x8000_0000, Refuses(2)),
    // elsewhere a zero and a small number have their IEEE value
    ("trunc fract floor ceil round abs copysign signum exp atan atan_norm cos sin", 0x0000_0001, 0, Answers),
    ("trunc fract floor ceil round abs copysign signum exp atan atan_norm cos sin", 0x807f_ffff, 0, Answers),
    ("floor", 0x8000_0001, 0, Gives(0xbf80_0000)),
    ("ceil", 0x0000_0001, 0, Gives(0x3f80_0000)),
    ("abs", 0x8000_0001, 0, Gives(0x0000_0001)),
    ("copysign", 0x0000_0001, 0x8000_0000, Gives(0x8000_0001)),
    ("atan2 hypot", 0x0000_0001, 0x3f80_0000, Answers),
    ("atan2 hypot", 0x3f80_0000, 0x807f_ffff, Answers),
    ("powf", 0x3f00_0000, 0x0000_0001, Answers),
    // 3: below 0, before the gate
    ("sqrt invsqrt ln powf", 0x8080_0000, 0, Refuses(3)),
    ("sqrt invsqrt ln powf", 0xbf80_0000, 0, Refuses(3)),
    ("sqrt invsqrt ln powf", 0xff7f_ffff, 0, Refuses(3)),
    ("powf", 0xc000_0000, 0x7f7f_ffff, Refuses(3)),
    ("powf", 0xc080_0000, 0x3f00_0000, Refuses(3)),
    // ... but inv, recip and powi take either sign, and powf's power has either
    ("inv", 0x8080_0000, 0, Gives(0xfe80_0000)),
    ("inv", 0xbf80_0000, 0, Gives(0xbf80_0000)),
    ("inv", 0xff7f_ffff, 0, Refuses(4)),
    ("inv", 0xfe80_0001, 0, Refuses(4)),
    ("recip", 0xbf80_0000, 0, Answers),
    ("powi", 0xbf80_0000, 3, Gives(0xbf80_0000)),
    ("powf", 0x4000_0000, 0xbf80_0000, Answers),
    // 4: trunc and fract, |x| under 2^32
    ("trunc fract", 0x4f7f_ffff, 0, Answers),
    ("trunc fract", 0x4f80_0000, 0, Refuses(4)),
    ("trunc fract", 0xcf7f_ffff, 0, Answers),
    ("trunc fract", 0xcf80_0000, 0, Refuses(4)),
    // floor and ceil, |x| to 2^31
    ("floor ceil", 0x4f00_0000, 0, Answers),
    ("floor ceil", 0x4f00_0001, 0, Refuses(4)),
    ("floor ceil", 0xcf00_0000, 0, Answers),
    ("floor ceil", 0xcf00_0001, 0, Refuses(4)),
    // round, |x| under 2^23, and not magnitude 3effffff
    ("round", 0x4aff_ffff, 0, Answers),
    ("round", 0x4b00_0000, 0, Refuses(4)),
    ("round", 0x4b00_0001, 0, Refuses(4)),
    ("round", 0xcaff_ffff, 0, Answers),
    ("round", 0xcb00_0000, 0, Refuses(4)),
    ("round", 0x3eff_fffe, 0, Answers),
    ("round", 0x3eff_ffff, 0, Refuses(4)),
    ("round", 0x3f00_0000, 0, Answers),
    ("round", 0xbeff_fffe, 0, Answers),
    ("round", 0xbeff_ffff, 0, Refuses(4)),
    ("round", 0xbf00_0000, 0, Answers),
    // inv, |x| to 2^126, and recip, to 2^125
    ("inv", 0x7e80_0000, 0, Gives(0x0080_0000)),
    ("inv", 0x7e80_0001, 0, Refuses(4)),
    ("inv", 0x7f7f_ffff, 0, Refuses(4)),
    ("recip", 0x7e00_0000, 0, Answers),
    ("recip", 0x7e00_0001, 0, Refuses(4)),
    ("recip", 0xfe00_0000, 0, Answers),
    ("recip", 0xfe00_0001, 0, Refuses(4)),
    // exp, -87 to 88
    ("exp", 0xc2ae_0000, 0, Answers),
    ("exp", 0xc2ae_0001, 0, Refuses(4)),
    ("exp", 0x42ae_0001, 0, Answers),
    ("exp", 0x42b0_0000, 0, Answers),
    ("exp", 0x42b0_0001, 0, Refuses(4)),
    ("exp", 0xc2b0_0000, 0, Refuses(4)),
    // powf, n·ln(x) from -87 to 88: the crate's ln is 1 at 402df5db, -1 at 3ed20a25, 0 at 3f800000 and below -87 at 00800000
    ("powf", 0x402d_f5db, 0xc2ae_0000, Answers),
    ("powf", 0x402d_f5db, 0xc2ae_0001, Refuses(4)),
    ("powf", 0x402d_f5db, 0x42b0_0000, Answers),
    ("powf", 0x402d_f5db, 0x42b0_0001, Refuses(4)),
    ("powf", 0x3ed2_0a25, 0x42ae_0000, Answers),
    ("powf", 0x3ed2_0a25, 0x42ae_0001, Refuses(4)),
    ("powf", 0x3ed2_0a25, 0xc2b0_0000, Answers),
    ("powf", 0x3ed2_0a25, 0xc2b0_0001, Refuses(4)),
    // ... and at 40400000 these exact products are past an end and the first of each two rounds back to it
    ("powf", 0x4040_0000, 0xc29e_6252, Answers),
    ("powf", 0x4040_0000, 0xc29e_6253, Refuses(4)),
    ("powf", 0x4040_0000, 0x42a0_345f, Answers),
    ("powf", 0x4040_0000, 0x42a0_3460, Refuses(4)),
    ("powf", 0x3f80_0000, 0x7f7f_ffff, Gives(0x3f80_0000)),
    ("powf", 0x0080_0000, 0x3f80_0000, Refuses(4)),
    ("powf", 0x4000_0000, 0x7f7f_ffff, Refuses(4)),
    // atan, |x| under 2^64
    ("atan atan_norm", 0x5f7f_ffff, 0, Answers),
    ("atan atan_norm", 0x5f80_0000, 0, Refuses(4)),
    ("atan atan_norm", 0xdf7f_ffff, 0, Answers),
    ("atan atan_norm", 0xdf80_0000, 0, Refuses(4)),
    // atan2 and hypot, the larger magnitude from 2^-60
    ("atan2 hypot", 0x2180_0000, 0x0000_0000, Answers),
    ("atan2 hypot", 0x0000_0000, 0x2180_0000, Answers),
    ("atan2 hypot", 0xa180_0000, 0x0000_0000, Answers),
    ("atan2 hypot", 0x0000_0000, 0xa180_0000, Answers),
    ("atan2 hypot", 0x217f_ffff, 0x2180_0000, Answers),
    ("atan2 hypot", 0xa180_0000, 0x217f_ffff, Answers),
    ("atan2 hypot", 0x217f_ffff, 0x0000_0000, Refuses(4)),
    ("atan2 hypot", 0x0000_0000, 0x217f_ffff, Refuses(4)),
    ("atan2 hypot", 0xa17f_ffff, 0x0000_0000, Refuses(4)),
    ("atan2 hypot", 0x0000_0000, 0xa17f_ffff, Refuses(4)),
    ("atan2 hypot", 0x217f_ffff, 0xa17f_ffff, Refuses(4)),
    ("atan2 hypot", 0x0000_0000, 0x0000_0000, Refuses(4)),
    ("atan2 hypot", 0x0000_0000, 0x8000_0000, Refuses(4)),
    ("atan2 hypot", 0x8000_0000, 0x0000_0000, Refuses(4)),
    ("atan2 hypot", 0x8000_0000, 0x8000_0000, Refuses(4)),
    ("atan2 hypot", 0x0000_0001, 0x807f_ffff, Refuses(4)),
    // ... past 2^60, to 2^62
    ("atan2 hypot", 0x5d80_0000, 0x0000_0000, Answers),
    ("atan2 hypot", 0x0000_0000, 0x5d80_0000, Answers),
    ("atan2 hypot", 0xdd80_0000, 0x3f80_0000, Answers),
    ("atan2 hypot", 0x3f80_0000, 0xdd80_0000, Answers),
    ("atan2 hypot", 0x5d80_0000, 0xdd80_0000, Answers),
    ("atan2 hypot", 0x5d80_0000, 0x217f_ffff, Answers),
    ("atan2 hypot", 0x5d80_0001, 0x0000_0000, Answers),
    ("atan2 hypot", 0x0000_0000, 0x5d80_0001, Answers),
    ("atan2 hypot", 0xdd80_0001, 0x3f80_0000, Answers),
    ("atan2 hypot", 0x3f80_0000, 0xdd80_0001, Answers),
    ("atan2 hypot", 0x5d80_0001, 0x5d80_0000, Answers),
    ("atan2 hypot", 0x5d80_0000, 0x5d80_0001, Answers),
    // cos and sin, past 256: about 1024, where they ended once
    ("cos sin", 0x4480_0000, 0, Refuses(4)),
    ("cos sin", 0x4480_0001, 0, Refuses(4)),
    ("cos sin", 0xc480_0000, 0, Refuses(4)),
    ("cos sin", 0xc480_0001, 0, Refuses(4)),
    // 5: powi's power, -1,048,576 to 1,048,576
    ("powi", 0x3f80_0000, 0x0010_0000, Answers),
    ("powi", 0x3f80_0000, 0x0010_0001, Refuses(5)),
    ("powi", 0x3f80_0000, 0xfff0_0000, Answers),
    ("powi", 0x3f80_0000, 0xffef_ffff, Refuses(5)),
    ("powi", 0xbf80_0000, 0x7fff_ffff, Refuses(5)),
    ("powi", 0xbf80_0000, 0x8000_0000, Refuses(5)),
    // worked examples that no gate turns away
    ("sqrt", 0x4080_0000, 0, Gives(0x4000_0000)),
    ("sqrt", 0x4000_0000, 0, Gives(0x3fc0_0000)),
    ("sqrt", 0x3f80_0001, 0, Gives(0x3f80_0000)),
    ("inv", 0x3fc0_0000, 0, Gives(0x3f40_0000)),
    ("invsqrt", 0x3f80_0000, 0, Gives(0x3f77_5a86)),
    ("trunc", 0xc020_0000, 0, Gives(0xc000_0000)),
    ("fract", 0xc020_0000, 0, Gives(0xbf00_0000)),
    ("signum", 0x8000_0000, 0, Gives(0xbf80_0000)),
    ("floor", 0xbf00_0000, 0, Gives(0xbf80_0000)),
    ("floor round", 0x8000_0000, 0, Gives(0x0000_0000)),
    ("ceil", 0x0000_0000, 0, Gives(0x8000_0000)),
    ("exp cos", 0x0000_0000, 0, Gives(0x3f80_0000)),
    ("exp", 0x3f80_0000, 0, Gives(0x402d_f854)),
    ("powi", 0x4040_0000, 3, Gives(0x41d8_0000)),
    ("powi", 0x4040_0000, 128, Gives(0x7f80_0000)),
];

/// More of them, in the order in which they came. Their words stand in the stored list too, a row at a time.
const LATER: &[Row] = &[
    // a zero before the gate and the power, with either sign
    ("powf", 0x0000_0000, 0x7f7f_ffff, Refuses(2)),
    ("powf", 0x0000_0000, 0xff7f_ffff, Refuses(2)),
    ("powf", 0x8000_0000, 0xff80_0000, Refuses(1)),
    ("powi", 0x0000_0000, 0x0010_0001, Refuses(2)),
    ("powi", 0x8000_0000, 0x8000_0000, Refuses(2)),
    // a small number before the sign, the gate and the power
    ("sqrt invsqrt inv recip ln powi powf", 0x8000_0001, 0, Refuses(9)),
    ("sqrt invsqrt inv recip ln powi powf", 0x0040_0000, 0, Refuses(9)),
    ("sqrt invsqrt inv recip ln powi powf", 0x8040_0000, 0, Refuses(9)),
    ("powf", 0x007f_ffff, 0x7f7f_ffff, Refuses(9)),
    ("powf", 0x8000_0001, 0x7f7f_ffff, Refuses(9)),
    ("powf", 0x8000_0001, 0x7f80_0000, Refuses(1)),
    ("powi", 0x0000_0001, 0x0010_0001, Refuses(9)),
    ("powi", 0x0000_0001, 0x0010_0000, Refuses(9)),
    ("powi", 0x807f_ffff, 0x8000_0000, Refuses(9)),
    ("powi", 0x807f_ffff, 1, Refuses(9)),
    // the second operand is judged for neither
    ("powf", 0x3f00_0000, 0x0000_0000, Answers),
    ("powf", 0x3f00_0000, 0x8000_0000, Answers),
    ("powf", 0x3f00_0000, 0x807f_ffff, Answers),
    ("copysign", 0x3f80_0000, 0x8000_0001, Gives(0xbf80_0000)),
    // elsewhere zeros and the other end of the small numbers
    ("trunc fract floor ceil round abs copysign signum exp atan atan_norm cos sin", 0x0000_0000, 0, Answers),
    ("trunc fract floor ceil round abs copysign signum exp atan atan_norm cos sin", 0x8000_0000, 0, Answers),
    ("trunc fract floor ceil round abs copysign signum exp atan atan_norm cos sin", 0x8000_0001, 0, Answers),
    ("trunc fract floor ceil round abs copysign signum exp atan atan_norm cos sin", 0x007f_ffff, 0, Answers),
    ("atan2 hypot", 0x0000_0000, 0x3f80_0000, Answers),
    ("atan2 hypot", 0x8000_0000, 0x3f80_0000, Answers),
    ("atan2 hypot", 0x3f80_0000, 0x8000_0000, Answers),
];

/// Those of asin, acos, tan and the two euclids, and then any that came after. The stored list ends with their words, a row at a
/// time, and a new row goes last.
const LAST: &[Row] = &[
    // 1: infinities and NaN, whatever else holds, and the last words before them
    ("asin acos tan rem_euclid div_euclid", 0x7f80_0000, 0, Refuses(1)),
    ("asin acos tan rem_euclid div_euclid", 0xff80_0000, 0, Refuses(1)),
    ("asin acos tan rem_euclid div_euclid", 0x7f80_0001, 0, Refuses(1)),
    ("asin acos tan rem_euclid div_euclid", 0x7fc0_0000, 0, Refuses(1)),
    ("asin acos tan rem_euclid div_euclid", 0xffff_ffff, 0, Refuses(1)),
    ("asin acos tan rem_euclid div_euclid", 0x7f7f_ffff, 0, Refuses(4)),
    ("asin acos tan rem_euclid div_euclid", 0xff7f_ffff, 0, Refuses(4)),
    // ... in either operand, where the quotient would be within the gate too
    ("rem_euclid div_euclid", 0x3f80_0000, 0x7f80_0000, Refuses(1)),
    ("rem_euclid div_euclid", 0xbf80_0000, 0x7f80_0000, Refuses(1)),
    ("rem_euclid div_euclid", 0x3f80_0000, 0xff80_0000, Refuses(1)),
    ("rem_euclid div_euclid", 0x3f80_0000, 0x7f80_0001, Refuses(1)),
    ("rem_euclid div_euclid", 0x3f80_0000, 0xffc0_0000, Refuses(1)),
    ("rem_euclid div_euclid", 0x0000_0000, 0x7fc0_0000, Refuses(1)),
    ("rem_euclid div_euclid", 0x0000_0001, 0xff80_0000, Refuses(1)),
    ("rem_euclid div_euclid", 0x7f80_0000, 0x3f80_0000, Refuses(1)),
    ("rem_euclid div_euclid", 0xff80_0000, 0xbf80_0000, Refuses(1)),
    ("rem_euclid div_euclid", 0x7fc0_0000, 0x3f80_0000, Refuses(1)),
    ("rem_euclid div_euclid", 0x7f80_0000, 0x7f80_0000, Refuses(1)),
    ("rem_euclid div_euclid", 0x7fc0_0000, 0x8000_0000, Refuses(1)),
    ("rem_euclid div_euclid", 0x3f80_0000, 0x7f7f_ffff, Answers),
    ("rem_euclid div_euclid", 0xbf80_0000, 0xff7f_ffff, Answers),
    ("rem_euclid div_euclid", 0x7f7f_ffff, 0x7f7f_ffff, Answers),
    ("rem_euclid div_euclid", 0xff7f_ffff, 0x7f7f_ffff, Answers),
    // zeros and small numbers have their IEEE value, and a number below 0 is as good as one above
    ("asin", 0x0000_0000, 0, Gives(0x0000_0000)),
    ("asin", 0x8000_0000, 0, Gives(0x8000_0000)),
    ("asin", 0x0000_0001, 0, Answers),
    ("asin", 0x807f_ffff, 0, Answers),
    // ... but that the sine of a small number is 0, and tan with it
    ("tan", 0x0000_0000, 0, Gives(0x0000_0000)),
    ("tan", 0x8000_0000, 0, Gives(0x0000_0000)),
    ("tan", 0x0000_0001, 0, Gives(0x0000_0000)),
    ("tan", 0x807f_ffff, 0, Gives(0x0000_0000)),
    ("rem_euclid", 0x0000_0000, 0x3f80_0000, Gives(0x0000_0000)),
    ("div_euclid", 0x0000_0000, 0x3f80_0000, Gives(0x0000_0000)),
    ("rem_euclid", 0x8000_0000, 0x3f80_0000, Gives(0x8000_0000)),
    ("div_euclid", 0x8000_0000, 0x3f80_0000, Gives(0x8000_0000)),
    ("rem_euclid", 0x0000_0000, 0x0000_0001, Gives(0x0000_0000)),
    ("div_euclid", 0x0000_0000, 0x0000_0001, Gives(0x0000_0000)),
    ("rem_euclid", 0x0000_0000, 0x8000_0001, Gives(0x0000_0000)),
    ("div_euclid", 0x0000_0000, 0x8000_0001, Gives(0x8000_0000)),
    ("rem_euclid", 0x0000_0001, 0x3f80_0000, Gives(0x0000_0001)),
    ("div_euclid", 0x0000_0001, 0x3f80_0000, Gives(0x0000_0000)),
    // the sum with the divisor rounds to it
    ("rem_euclid", 0x8000_0001, 0x3f80_0000, Gives(0x3f80_0000)),
    ("div_euclid", 0x8000_0001, 0x3f80_0000, Gives(0xbf80_0000)),
    ("rem_euclid", 0x807f_ffff, 0xbf80_0000, Gives(0x3f80_0000)),
    ("div_euclid", 0x807f_ffff, 0xbf80_0000, Gives(0x3f80_0000)),
    // both are small
    ("rem_euclid", 0x0000_0005, 0x0000_0003, Gives(0x0000_0002)),
    ("div_euclid", 0x0000_0005, 0x0000_0003, Gives(0x3f80_0000)),
    ("rem_euclid", 0x8000_0005, 0x0000_0003, Gives(0x0000_0001)),
    ("div_euclid", 0x8000_0005, 0x0000_0003, Gives(0xc000_0000)),
    // 4: asin, |x| under 1
    ("asin", 0x3f7f_ffff, 0, Answers),
    ("asin", 0x3f80_0000, 0, Refuses(4)),
    ("asin", 0x3f80_0001, 0, Refuses(4)),
    ("asin", 0x4000_0000, 0, Refuses(4)),
    ("asin", 0xbf7f_ffff, 0, Answers),
    ("asin", 0xbf80_0000, 0, Refuses(4)),
    ("asin", 0xbf80_0001, 0, Refuses(4)),
    ("asin", 0xc000_0000, 0, Refuses(4)),
    // acos, a zero, or |x| from 2^-60
    ("acos", 0x0000_0000, 0, Gives(0x3fc9_0fdb)),
    ("acos", 0x8000_0000, 0, Gives(0x3fc9_0fdb)),
    ("acos", 0x0000_0001, 0, Refuses(4)),
    ("acos", 0x8000_0001, 0, Refuses(4)),
    ("acos", 0x007f_ffff, 0, Refuses(4)),
    ("acos", 0x807f_ffff, 0, Refuses(4)),
    ("acos", 0x0080_0000, 0, Refuses(4)),
    ("acos", 0x8080_0000, 0, Refuses(4)),
    ("acos", 0x1f80_0000, 0, Refuses(4)),
    ("acos", 0x9f80_0000, 0, Refuses(4)),
    ("acos", 0x217f_ffff, 0, Refuses(4)),
    ("acos", 0xa17f_ffff, 0, Refuses(4)),
    ("acos", 0x2180_0000, 0, Gives(0x3fc9_0fdb)),
    ("acos", 0xa180_0000, 0, Gives(0x3fc9_0fdb)),
    // ... and under 1
    ("acos", 0x3f7f_ffff, 0, Gives(0x39b3_d987)),
    ("acos", 0x3f80_0000, 0, Refuses(4)),
    ("acos", 0x3f80_0001, 0, Refuses(4)),
    ("acos", 0xbf7f_ffff, 0, Gives(0x4049_0a3c)),
    ("acos", 0xbf80_0000, 0, Refuses(4)),
    ("acos", 0xbf80_0001, 0, Refuses(4)),
    // tan, past 256: about 1024, where it ended once
    ("tan", 0x4480_0000, 0, Refuses(4)),
    ("tan", 0x4480_0001, 0, Refuses(4)),
    ("tan", 0xc480_0000, 0, Refuses(4)),
    ("tan", 0xc480_0001, 0, Refuses(4)),
    // ... and within 256 where the cosine is no zero: it is one at pi/2 and -pi/2, and at bfc90fda, but not at 3fc90fda
    ("tan", 0x3fc9_0fda, 0, Gives(0x4b25_294a)),
    ("tan", 0x3fc9_0fdb, 0, Refuses(4)),
    ("tan", 0x3fc9_0fdc, 0, Answers),
    ("tan", 0xbfc9_0fd9, 0, Answers),
    ("tan", 0xbfc9_0fda, 0, Refuses(4)),
    ("tan", 0xbfc9_0fdb, 0, Refuses(4)),
    ("tan", 0xbfc9_0fdc, 0, Answers),
    ("tan", 0x4096_cbe3, 0, Answers),
    ("tan", 0x4096_cbe4, 0, Refuses(4)),
    ("tan", 0xc096_cbe4, 0, Refuses(4)),
    ("tan", 0xc096_cbe5, 0, Answers),
    // ... and past 256 again: 447fa5a9 is the last to 1024 at which it is a zero
    ("tan", 0x447f_a5a8, 0, Refuses(4)),
    ("tan", 0x447f_a5a9, 0, Refuses(4)),
    ("tan", 0xc47f_a5a9, 0, Refuses(4)),
    ("tan", 0xc47f_a5aa, 0, Refuses(4)),
    // the sine of pi is a zero, and the cosine is -1
    ("tan", 0x4049_0fdb, 0, Gives(0x8000_0000)),
    // the two euclids: the divisor is no zero
    ("rem_euclid div_euclid", 0x3f80_0000, 0x0000_0000, Refuses(4)),
    ("rem_euclid div_euclid", 0x3f80_0000, 0x8000_0000, Refuses(4)),
    ("rem_euclid div_euclid", 0xbf80_0000, 0x0000_0000, Refuses(4)),
    ("rem_euclid div_euclid", 0xbf80_0000, 0x8000_0000, Refuses(4)),
    ("rem_euclid div_euclid", 0x0000_0000, 0x0000_0000, Refuses(4)),
    ("rem_euclid div_euclid", 0x0000_0000, 0x8000_0000, Refuses(4)),
    ("rem_euclid div_euclid", 0x8000_0000, 0x0000_0000, Refuses(4)),
    ("rem_euclid div_euclid", 0x8000_0000, 0x8000_0000, Refuses(4)),
    ("rem_euclid div_euclid", 0x0000_0001, 0x0000_0000, Refuses(4)),
    // ... and the quotient's magnitude is under 2^23
    ("rem_euclid div_euclid", 0x4aff_ffff, 0x3f80_0000, Answers),
    ("rem_euclid div_euclid", 0x4b00_0000, 0x3f80_0000, Refuses(4)),
    ("rem_euclid div_euclid", 0x4aff_ffff, 0xbf80_0000, Answers),
    ("rem_euclid div_euclid", 0x4b00_0000, 0xbf80_0000, Refuses(4)),
    ("rem_euclid div_euclid", 0xcaff_ffff, 0x3f80_0000, Answers),
    ("rem_euclid div_euclid", 0xcb00_0000, 0x3f80_0000, Refuses(4)),
    ("rem_euclid div_euclid", 0xcaff_ffff, 0xbf80_0000, Answers),
    ("rem_euclid div_euclid", 0xcb00_0000, 0xbf80_0000, Refuses(4)),
    ("rem_euclid div_euclid", 0x4b00_0001, 0x3f80_0000, Refuses(4)),
    ("rem_euclid div_euclid", 0x4f80_0001, 0x3f80_0000, Refuses(4)),
    // ... whatever the operands are: both past it, and both far below
    ("rem_euclid div_euclid", 0x4bbf_ffff, 0x4040_0000, Answers),
    ("rem_euclid div_euclid", 0x4bc0_0000, 0x4040_0000, Refuses(4)),
    ("rem_euclid div_euclid", 0x7f00_0000, 0x7380_0001, Answers),
    ("rem_euclid div_euclid", 0x7f00_0000, 0x7380_0000, Refuses(4)),
    ("rem_euclid div_euclid", 0x7f00_0000, 0xf380_0001, Answers),
    ("rem_euclid div_euclid", 0xff00_0000, 0x7380_0000, Refuses(4)),
    ("rem_euclid", 0x007f_ffff, 0x0000_0001, Gives(0x0000_0000)),
    ("div_euclid", 0x007f_ffff, 0x0000_0001, Gives(0x4aff_fffe)),
    ("rem_euclid div_euclid", 0x0080_0000, 0x0000_0001, Refuses(4)),
    ("rem_euclid", 0x807f_ffff, 0x8000_0001, Gives(0x8000_0000)),
    ("div_euclid", 0x807f_ffff, 0x8000_0001, Gives(0x4aff_fffe)),
    ("rem_euclid div_euclid", 0x8080_0000, 0x0000_0001, Refuses(4)),
    // ... and where it is infinite
    ("rem_euclid div_euclid", 0x3f80_0000, 0x0000_0001, Refuses(4)),
    ("rem_euclid div_euclid", 0xff7f_ffff, 0x007f_ffff, Refuses(4)),
    // 7 and 4, and 6 and 3, with either sign
    ("rem_euclid", 0x40e0_0000, 0x4080_0000, Gives(0x4040_0000)),
    ("rem_euclid", 0xc0e0_0000, 0x4080_0000, Gives(0x3f80_0000)),
    ("rem_euclid", 0x40e0_0000, 0xc080_0000, Gives(0x4040_0000)),
    ("rem_euclid", 0xc0e0_0000, 0xc080_0000, Gives(0x3f80_0000)),
    ("div_euclid", 0x40e0_0000, 0x4080_0000, Gives(0x3f80_0000)),
    ("div_euclid", 0xc0e0_0000, 0x4080_0000, Gives(0xc000_0000)),
    ("div_euclid", 0x40e0_0000, 0xc080_0000, Gives(0xbf80_0000)),
    ("div_euclid", 0xc0e0_0000, 0xc080_0000, Gives(0x4000_0000)),
    ("rem_euclid", 0x40c0_0000, 0x4040_0000, Gives(0x0000_0000)),
    ("rem_euclid", 0xc0c0_0000, 0x4040_0000, Gives(0x8000_0000)),
    ("rem_euclid", 0xc0c0_0000, 0xc040_0000, Gives(0x8000_0000)),
    ("div_euclid", 0x40c0_0000, 0xc040_0000, Gives(0xc000_0000)),
    ("div_euclid", 0xc0c0_0000, 0x4040_0000, Gives(0xc000_0000)),
    ("div_euclid", 0xc0c0_0000, 0xc040_0000, Gives(0x4000_0000)),
    // a quotient that rounds up to 3, where nearly the whole divisor is left
    ("rem_euclid", 0x4080_0000, 0x3faa_aaab, Gives(0x3faa_aaaa)),
    ("div_euclid", 0x4080_0000, 0x3faa_aaab, Gives(0x4040_0000)),
    ("rem_euclid", 0xc080_0000, 0x3faa_aaab, Gives(0x3400_0000)),
    ("div_euclid", 0xc080_0000, 0x3faa_aaab, Gives(0xc080_0000)),
    // inv with either sign, which is the answer's too: 1 and 1.5, about the end 2^126, and about the first normal number
    ("inv", 0x3f80_0000, 0, Gives(0x3f80_0000)),
    ("inv", 0xbfc0_0000, 0, Gives(0xbf40_0000)),
    ("inv", 0x7e7f_ffff, 0, Gives(0x0080_0001)),
    ("inv", 0xfe7f_ffff, 0, Gives(0x8080_0001)),
    ("inv", 0xfe80_0000, 0, Gives(0x8080_0000)),
    ("inv", 0x0080_0001, 0, Gives(0x7e7f_ffff)),
    ("inv", 0x8080_0001, 0, Gives(0xfe7f_ffff)),
    // atan2 and hypot, the larger magnitude to 2^62: beside a zero
    ("atan2 hypot", 0x5e7f_ffff, 0x0000_0000, Answers),
    ("atan2 hypot", 0x0000_0000, 0x5e7f_ffff, Answers),
    ("atan2 hypot", 0x5e80_0000, 0x0000_0000, Answers),
    ("atan2 hypot", 0x0000_0000, 0x5e80_0000, Answers),
    ("atan2 hypot", 0xde80_0000, 0x0000_0000, Answers),
    ("atan2 hypot", 0x0000_0000, 0xde80_0000, Answers),
    ("atan2 hypot", 0x5e80_0001, 0x0000_0000, Refuses(4)),
    ("atan2 hypot", 0x0000_0000, 0x5e80_0001, Refuses(4)),
    ("atan2 hypot", 0xde80_0001, 0x0000_0000, Refuses(4)),
    ("atan2 hypot", 0x0000_0000, 0xde80_0001, Refuses(4)),
    // ... beside 1
    ("atan2 hypot", 0x5e80_0000, 0x3f80_0000, Answers),
    ("atan2 hypot", 0x3f80_0000, 0x5e80_0000, Answers),
    ("atan2 hypot", 0xde80_0000, 0x3f80_0000, Answers),
    ("atan2 hypot", 0x3f80_0000, 0xde80_0000, Answers),
    ("atan2 hypot", 0x5e80_0001, 0x3f80_0000, Refuses(4)),
    ("atan2 hypot", 0x3f80_0000, 0x5e80_0001, Refuses(4)),
    ("atan2 hypot", 0xde80_0001, 0x3f80_0000, Refuses(4)),
    ("atan2 hypot", 0x3f80_0000, 0xde80_0001, Refuses(4)),
    // ... beside both sides of the end 2^-60
    ("atan2 hypot", 0x5e80_0000, 0x217f_ffff, Answers),
    ("atan2 hypot", 0x217f_ffff, 0x5e80_0000, Answers),
    ("atan2 hypot", 0xde80_0000, 0x2180_0000, Answers),
    ("atan2 hypot", 0x2180_0000, 0xde80_0000, Answers),
    ("atan2 hypot", 0x5e80_0001, 0x217f_ffff, Refuses(4)),
    ("atan2 hypot", 0x217f_ffff, 0x5e80_0001, Refuses(4)),
    ("atan2 hypot", 0xde80_0001, 0x2180_0000, Refuses(4)),
    ("atan2 hypot", 0x2180_0000, 0xde80_0001, Refuses(4)),
    // ... beside each other
    ("atan2 hypot", 0x5e80_0000, 0x5e80_0000, Answers),
    ("atan2 hypot", 0x5e80_0000, 0xde80_0000, Answers),
    ("atan2 hypot", 0xde80_0000, 0x5e80_0000, Answers),
    ("atan2 hypot", 0xde80_0000, 0xde80_0000, Answers),
    ("atan2 hypot", 0x5e7f_ffff, 0x5e80_0000, Answers),
    ("atan2 hypot", 0xde80_0000, 0x5e7f_ffff, Answers),
    ("atan2 hypot", 0x5e80_0001, 0x5e80_0000, Refuses(4)),
    ("atan2 hypot", 0x5e80_0000, 0x5e80_0001, Refuses(4)),
    ("atan2 hypot", 0xde80_0001, 0x5e80_0000, Refuses(4)),
    ("atan2 hypot", 0x5e80_0000, 0xde80_0001, Refuses(4)),
    ("atan2 hypot", 0x5e80_0001, 0xde80_0001, Refuses(4)),
    // ... and between 2^60, where they ended once, and 2^62
    ("atan2 hypot", 0xdd80_0001, 0x0000_0000, Answers),
    ("atan2 hypot", 0x0000_0000, 0xdd80_0001, Answers),
    ("atan2 hypot", 0x5d80_0001, 0x5d80_0001, Answers),
    ("atan2 hypot", 0x5e00_0000, 0xdd80_0001, Answers),
    ("atan2 hypot", 0xde00_0000, 0x5e00_0000, Answers),
    // cos, sin and tan, |x| to 256, with either sign
    ("cos", 0x4380_0000, 0, Gives(0xbd21_2dba)),
    ("sin", 0x4380_0000, 0, Gives(0xbf7f_cc70)),
    ("tan", 0x4380_0000, 0, Gives(0x41cb_2477)),
    ("cos", 0xc380_0000, 0, Gives(0xbd21_2dba)),
    ("sin", 0xc380_0000, 0, Gives(0x3f7f_cc70)),
    ("tan", 0xc380_0000, 0, Gives(0xc1cb_2477)),
    ("cos sin tan", 0x437f_ffff, 0, Answers),
    ("cos sin tan", 0xc37f_ffff, 0, Answers),
    ("cos sin tan", 0x4380_0001, 0, Refuses(4)),
    ("cos sin tan", 0xc380_0001, 0, Refuses(4)),
    // ... and between 256 and 1024
    ("cos sin tan", 0x4400_0000, 0, Refuses(4)),
    ("cos sin tan", 0xc400_0000, 0, Refuses(4)),
    ("cos sin tan", 0x447f_ffff, 0, Refuses(4)),
    ("cos sin tan", 0xc47f_ffff, 0, Refuses(4)),
    // 437ce5f2 is the last to 256 at which the cosine is a zero
    ("tan", 0x437c_e5f0, 0, Answers),
    ("tan", 0x437c_e5f1, 0, Refuses(4)),
    ("tan", 0x437c_e5f2, 0, Refuses(4)),
    ("tan", 0x437c_e5f3, 0, Answers),
    ("tan", 0xc37c_e5f0, 0, Answers),
    ("tan", 0xc37c_e5f1, 0, Refuses(4)),
    ("tan", 0xc37c_e5f2, 0, Refuses(4)),
    ("tan", 0xc37c_e5f3, 0, Answers),
    // powers of two: the first and the last normal even one, 1, an odd one at the end, and an even one that is too small
    ("sqrt", 0x0080_0000, 0, Gives(0x2000_0000)),
    ("sqrt", 0x7e80_0000, 0, Gives(0x5f00_0000)),
    ("sqrt", 0x3f80_0000, 0, Gives(0x3f80_0000)),
    ("sqrt", 0x7f00_0000, 0, Gives(0x5f40_0000)),
    ("sqrt", 0x0020_0000, 0, Refuses(9)),
    // where the raw inverse comes to 0, and the next word, where it wraps
    ("inv", 0x7eff_ffff, 0, Refuses(4)),
    ("inv", 0x7f00_0000, 0, Refuses(4)),
    ("inv", 0x7f00_0001, 0, Refuses(4)),
    // the steepest slopes, and a zero with its sign
    ("atan", 0x5f7f_ffff, 0, Gives(0x3fc9_0fdb)),
    ("atan", 0xdf7f_ffff, 0, Gives(0xbfc9_0fdb)),
    ("atan", 0x8000_0000, 0, Gives(0x8000_0000)),
    // where the raw cosine and the raw sine are the last within -1 and 1, and the next words
    ("cos", 0x4bc9_0fdb, 0, Refuses(4)),
    ("cos", 0xcbc9_0fdb, 0, Refuses(4)),
    ("cos", 0x4bc9_0fdc, 0, Refuses(4)),
    ("cos", 0xcbc9_0fdc, 0, Refuses(4)),
    ("sin", 0x4bc9_0fda, 0, Refuses(4)),
    ("sin", 0xcbc9_0fda, 0, Refuses(4)),
    ("sin", 0x4bc9_0fdb, 0, Refuses(4)),
    ("sin", 0xcbc9_0fdb, 0, Refuses(4)),
    // cos is not even, and sin not odd, to the bit
    ("cos", 0x3349_0fdc, 0, Gives(0x3f7f_ffff)),
    ("cos", 0xb349_0fdc, 0, Gives(0x3f80_0000)),
    ("sin", 0x8000_0000, 0, Gives(0x0000_0000)),
];

impl Says {
    fn refusal(self) -> u64 {
        match self {
            Answers | Gives(_) => 0,
            Refuses(refusal) => refusal,
        }
    }

    /// What the guarded call has to give for these words, if anything will do.
    fn expected(self, kernel: &Kernel, a: u32, b: u32) -> Option<u64> {
        match self {
            Answers => kernel.answer(a, b),
            Gives(word) => Some(word as u64),
            Refuses(refusal) => Some(refusal << 32),
        }
    }
}

/// A list with one kernel to a row.
fn rows(list: &'static [Row]) -> impl Iterator<Item = Row> {
    list.iter().flat_map(|&(names, a, b, says)| names.split(' ').map(move |name| (name, a, b, says)))
}

/// All lists, with one kernel to a row.
fn all() -> impl Iterator<Item = Row> {
    [EDGES, LATER, LAST].into_iter().flat_map(rows)
}

/// The words that the lists have for the kernel of this name.
pub fn words_of(name: &str) -> Vec<(u32, u32)> {
    of(all(), name)
}

/// Those of the first list alone.
pub fn first_of(name: &str) -> Vec<(u32, u32)> {
    of(rows(EDGES), name)
}

fn of(rows: impl Iterator<Item = Row>, name: &str) -> Vec<(u32, u32)> {
    rows.filter(|row| row.0 == name).map(|(_, a, b, _)| (a, b)).collect()
}

/// Those that came later, and those that came last, each with the name of its kernel.
pub fn later() -> impl Iterator<Item = (&'static str, u32, u32)> {
    rows(LATER).map(|(name, a, b, _)| (name, a, b))
}

pub fn last() -> impl Iterator<Item = (&'static str, u32, u32)> {
    rows(LAST).map(|(name, a, b, _)| (name, a, b))
}

/// Tries the list on the kernels that are wanted. This program's own gates have to be those of the list.
pub fn edges(wanted: impl Fn(&Kernel) -> bool) -> Count {
    let guarded = guarded();
    let mut count = Count::default();
    for (name, a, b, says) in all() {
        let kernel = guarded.iter().find(|k| k.name == name).expect("a kernel has this name");
        assert_eq!(kernel.refusal(a, b), says.refusal(), "gates.rs at {name} of {a:08x} {b:08x}");
        if wanted(kernel) {
            count.judge(says.expected(kernel, a, b), kernel.ours(a, b), || kernel.asked(a, b));
        }
    }
    count
}
