use core::error::Error;
use core::fmt::{Display, Formatter, Result};

/// Why there is no answer, or why a sample was not taken. Where more than one holds, the first of these is given: 8; 7 for a
/// line that is no frame; 10; 6; 7 for a second word that should be 0; then 1, 2, 9, 3, 4, 5. A call on a
/// [`double`](crate::double) keeps to this order, with 6, 1, 2, 9, 3 and 4 alone. For an offer to a [`Grain`](crate::Grain) it
/// is the first of 12, 1, 4, 11. For a [`recipe`](crate::recipe) it is the first of 13, 14, 15, and else what the first kernel
/// that refuses gives. Later versions of the library have more of them, so a `match` ends with `_`. One displays its number and
/// what it says.
///
/// ```
/// use dampmeadow::{sqrt, Refusal};
/// let refusal = sqrt(-1.0).unwrap_err();
/// assert_eq!(refusal, Refusal::Negative);
/// assert_eq!(refusal.number(), 3);
/// assert_eq!(refusal.to_string(), "refusal 3: the first operand is below 0");
/// ```
#[derive(Clone, Copy, Debug, PartialEq, Eq, Hash)]
#[non_exhaustive]
pub enum Refusal {
    /// 1: an operand or a sample is an infinity or a NaN.
    NotFinite,
    /// 2: the first operand is 0 or -0: invsqrt, inv, recip, ln, powi, powf; on doubles inv.
    Zero,
    /// 3: the first operand is below 0: sqrt, invsqrt, ln, powf; on doubles sqrt.
    Negative,
    /// 4: outside what the operation takes; or a sample's size is above 2^20.
    Outside,
    /// 5: powi's power is out of its range.
    PowerOutside,
    /// 6: no operation has this number, or none that takes a double.
    NoSuchOperation,
    /// 7: the line is no frame; or, judged after 6, the second word is not used by this operation and is not 0.
    Malformed,
    /// 8: the space for an answer has fewer than eleven bytes.
    NoRoom,
    /// 9: the first operand is not 0 and too small to be normal: sqrt, invsqrt, inv, recip, ln, powi, powf; on doubles sqrt and
    /// inv. It is judged before 3.
    Small,
    /// 10: the lists of a [`strip`](crate::strip) have not all one length.
    Lengths,
    /// 11: the record of a [`Grain`](crate::Grain) holds 65536 samples already. Only an offer is refused with it.
    Full,
    /// 12: the record of a [`Grain`](crate::Grain) has counted 4294967295 offers, and nothing changes. Only an offer is refused
    /// with it.
    WornOut,
    /// 13: the [`recipe`](crate::recipe) has more than 240 bytes.
    TooLong,
    /// 14: the parentheses of the [`recipe`](crate::recipe) go more than 16 deep: some beginning of the line, whatever else it
    /// holds, has at least 17 more ( than ).
    TooDeep,
    /// 15: the line is no [`recipe`](crate::recipe). An empty one is none.
    NotARecipe,
    /// One that this version does not know, by its number. It is never one of those above.
    #[non_exhaustive]
    Unknown { number: u32 },
}

impl Refusal {
    /// Every refusal that this version knows, in the order of their numbers.
    pub const ALL: &'static [Refusal] = &[
        Refusal::NotFinite,
        Refusal::Zero,
        Refusal::Negative,
        Refusal::Outside,
        Refusal::PowerOutside,
        Refusal::NoSuchOperation,
        Refusal::Malformed,
        Refusal::NoRoom,
        Refusal::Small,
        Refusal::Lengths,
        Refusal::Full,
        Refusal::WornOut,
        Refusal::TooLong,
        Refusal::TooDeep,
        Refusal::NotARecipe,
    ];

    /// Its number, which is never 0.
    pub const fn number(self) -> u32 {
        match self {
            Refusal::NotFinite => 1,
            Refusal::Zero => 2,
            Refusal::Negative => 3,
            Refusal::Outside => 4,
            Refusal::PowerOutside => 5,
            Refusal::NoSuchOperation => 6,
            Refusal::Malformed => 7,
            Refusal::NoRoom => 8,
            Refusal::Small => 9,
            Refusal::Lengths => 10,
            Refusal::Full => 11,
            Refusal::WornOut => 12,
            Refusal::TooLong => 13,
            Refusal::TooDeep => 14,
            Refusal::NotARecipe => 15,
            Refusal::Unknown { number } => number,
        }
    }

    /// The refusal of this number. 0, which says that there is an answer, is none.
    ///
    /// ```
    /// use dampmeadow::Refusal;
    /// assert_eq!(Refusal::from_number(3), Some(Refusal::Negative));
    /// assert_eq!(Refusal::from_number(0), None);
    /// assert_eq!(Refusal::from_number(99).map(Refusal::number), Some(99));
    /// ```
    pub fn from_number(number: u32) -> Option<Refusal> {
        if number == 0 {
            return None;
        }
        let known = Refusal::ALL.iter().copied().find(|refusal| refusal.number() == number);
        Some(known.unwrap_or(Refusal::Unknown { number }))
    }
}

impl Display for Refusal {
    fn fmt(&self, out: &mut Formatter) -> Result {
        out.pad(match self {
            Refusal::NotFinite => "refusal 1: an operand or a sample is an infinity or a NaN",
            Refusal::Zero => "refusal 2: the first operand is 0 or -0",
            Refusal::Negative => "refusal 3: the first operand is below 0",
            Refusal::Outside => "refusal 4: outside what the operation takes, or a sample above 2^20 in size",
            Refusal::PowerOutside => "refusal 5: powi's power is below -1048576 or above 1048576",
            Refusal::NoSuchOperation => "refusal 6: no operation has this number",
            Refusal::Malformed => "refusal 7: the line is no frame, or its second word should be 0",
            Refusal::NoRoom => "refusal 8: the space for the answer has fewer than 11 bytes",
            Refusal::Small => "refusal 9: the first operand is not 0 and too small to be normal",
            Refusal::Lengths => "refusal 10: the lists have not all one length",
            Refusal::Full => "refusal 11: the record holds 65536 samples",
            Refusal::WornOut => "refusal 12: the record has counted 4294967295 offers",
            Refusal::TooLong => "refusal 13: the recipe has more than 240 bytes",
            Refusal::TooDeep => "refusal 14: the recipe's parentheses go more than 16 deep",
            Refusal::NotARecipe => "refusal 15: the line is no recipe",
            Refusal::Unknown { number } => return write!(out, "refusal {number}: not known to this version of the binding"),
        })
    }
}

impl Error for Refusal {}
