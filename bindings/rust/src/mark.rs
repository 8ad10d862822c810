use core::fmt::{Display, Formatter, Result};

/// What a cast to a 32-bit integer did to its number. Raw floor and ceil go through such a cast, and
/// [`raw_floor_marked`](crate::raw_floor_marked) and [`raw_ceil_marked`](crate::raw_ceil_marked) give its mark beside their
/// answer. A mark is no refusal: whichever it is, there is an answer.
///
/// floor casts x. ceil casts -x and turns the sign of what comes of it, and its mark is that of the cast of -x: of an x above
/// 2^31 floor's mark is [`Mark::High`] and ceil's [`Mark::Low`], and of one below -2^31 it is the other way round.
///
/// ```
/// use dampmeadow::{raw_ceil_marked, raw_floor_marked, Mark};
/// let x = 3.0e9f32.to_bits();
/// assert_eq!(raw_floor_marked(x).1, Mark::High);
/// assert_eq!(raw_ceil_marked(x).1, Mark::Low);
/// assert_eq!(Mark::High.number(), 2);
/// assert_eq!(Mark::High.to_string(), "clipped high");
/// ```
#[derive(Clone, Copy, Debug, PartialEq, Eq, Hash)]
#[repr(u32)]
pub enum Mark {
    /// The integer is the number. Both zeros are 0.
    Exact = 0,
    /// The integer is the number without its fraction.
    Dropped = 1,
    /// The number is 2^31 or above, infinity too, and the integer is 2^31 - 1.
    High = 2,
    /// The number is below -2^31, -infinity too, and the integer is -2^31.
    Low = 3,
    /// A NaN, and the integer is 0.
    NotANumber = 4,
}

impl Mark {
    /// Every mark, in the order of their numbers.
    pub const ALL: [Mark; 5] = [Mark::Exact, Mark::Dropped, Mark::High, Mark::Low, Mark::NotANumber];

    /// Its number.
    pub const fn number(self) -> u32 {
        self as u32
    }

    /// The mark of this number.
    ///
    /// ```
    /// use dampmeadow::Mark;
    /// assert_eq!(Mark::from_number(1), Some(Mark::Dropped));
    /// assert_eq!(Mark::from_number(5), None);
    /// ```
    pub fn from_number(number: u32) -> Option<Mark> {
        Mark::ALL.into_iter().find(|mark| mark.number() == number)
    }
}

impl Display for Mark {
    fn fmt(&self, out: &mut Formatter) -> Result {
        out.pad(match self {
            Mark::Exact => "exact",
            Mark::Dropped => "fraction dropped",
            Mark::High => "clipped high",
            Mark::Low => "clipped low",
            Mark::NotANumber => "not a number",
        })
    }
}
