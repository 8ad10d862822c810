/// A kernel, with its number in a frame. Its raw form has 0x80 more.
///
/// ```
/// use dampmeadow::Operation;
/// assert_eq!(Operation::Sqrt.number(), 0x09);
/// assert_eq!(Operation::Sqrt.raw_number(), 0x89);
/// assert_eq!(Operation::ALL[0x09 - 1], Operation::Sqrt);
/// ```
#[derive(Clone, Copy, Debug, PartialEq, Eq, Hash)]
#[repr(u32)]
pub enum Operation {
    /// The whole part, toward 0: [`trunc`](crate::trunc).
    Trunc = 0x01,
    /// What trunc leaves: [`fract`](crate::fract).
    Fract = 0x02,
    /// The largest whole number that is not above: [`floor`](crate::floor).
    Floor = 0x03,
    /// The smallest whole number that is not below: [`ceil`](crate::ceil).
    Ceil = 0x04,
    /// The nearest whole number: [`round`](crate::round).
    Round = 0x05,
    /// The number without its sign: [`abs`](crate::abs).
    Abs = 0x06,
    /// The number with the second one's sign: [`copysign`](crate::copysign).
    Copysign = 0x07,
    /// 1 with the number's sign: [`signum`](crate::signum).
    Signum = 0x08,
    /// The square root: [`sqrt`](crate::sqrt).
    Sqrt = 0x09,
    /// 1 over the square root: [`invsqrt`](crate::invsqrt).
    Invsqrt = 0x0a,
    /// The inverse, the quickest: [`inv`](crate::inv).
    Inv = 0x0b,
    /// The inverse, closer: [`recip`](crate::recip).
    Recip = 0x0c,
    /// e to a power: [`exp`](crate::exp).
    Exp = 0x0d,
    /// The natural logarithm: [`ln`](crate::ln).
    Ln = 0x0e,
    /// A whole power, which is the second word: [`powi`](crate::powi).
    Powi = 0x0f,
    /// A power that is a float: [`powf`](crate::powf).
    Powf = 0x10,
    /// The arctangent: [`atan`](crate::atan).
    Atan = 0x11,
    /// The angle of a point, y first: [`atan2`](crate::atan2).
    Atan2 = 0x12,
    /// The cosine: [`cos`](crate::cos).
    Cos = 0x13,
    /// The sine: [`sin`](crate::sin).
    Sin = 0x14,
    /// The length of a pair: [`hypot`](crate::hypot).
    Hypot = 0x15,
    /// The arcsine: [`asin`](crate::asin).
    Asin = 0x16,
    /// The arccosine: [`acos`](crate::acos).
    Acos = 0x17,
    /// The tangent: [`tan`](crate::tan).
    Tan = 0x18,
    /// What whole steps of the second number leave of the first: [`rem_euclid`](crate::rem_euclid).
    RemEuclid = 0x19,
    /// How many whole steps those are: [`div_euclid`](crate::div_euclid).
    DivEuclid = 0x1a,
}

impl Operation {
    /// Every operation, in the order of their numbers.
    pub const ALL: [Operation; 26] = [
        Operation::Trunc,
        Operation::Fract,
        Operation::Floor,
        Operation::Ceil,
        Operation::Round,
        Operation::Abs,
        Operation::Copysign,
        Operation::Signum,
        Operation::Sqrt,
        Operation::Invsqrt,
        Operation::Inv,
        Operation::Recip,
        Operation::Exp,
        Operation::Ln,
        Operation::Powi,
        Operation::Powf,
        Operation::Atan,
        Operation::Atan2,
        Operation::Cos,
        Operation::Sin,
        Operation::Hypot,
        Operation::Asin,
        Operation::Acos,
        Operation::Tan,
        Operation::RemEuclid,
        Operation::DivEuclid,
    ];

    /// The number of its guarded form.
    pub const fn number(self) -> u32 {
        self as u32
    }

    /// The number of its raw form.
    pub const fn raw_number(self) -> u32 {
        self as u32 + 0x80
    }

    /// Whether it uses its second word. Where it does not, that word has to be 0.
    pub const fn takes_two(self) -> bool {
        use Operation::{Atan2, Copysign, DivEuclid, Hypot, Powf, Powi, RemEuclid};
        matches!(self, Copysign | Powi | Powf | Atan2 | Hypot | RemEuclid | DivEuclid)
    }
}
