//! Grain statistics: a record that samples are offered to one by one.

use crate::{exported, judged, Refusal};

/// A running mean of samples and the sum of their squared deviations from it, changed in place as each sample is offered, with
/// a count of the samples taken and one of those refused.
///
/// What is kept is the sum and not the variance: divide it by the count, or by one less, where that is not 0.
///
/// ```
/// use dampmeadow::Grain;
/// let mut grain = Grain::new();
/// for sample in [2.0, 4.0, 4.0, 4.0, 5.0, 5.0, 7.0, 9.0] {
///     grain.offer(sample)?;
/// }
/// assert_eq!((grain.count(), grain.mean(), grain.sum()), (8, 5.0, 32.0));
/// let variance = grain.sum() / grain.count() as f32;
/// assert_eq!(variance, 4.0);
/// # Ok::<(), dampmeadow::Refusal>(())
/// ```
///
/// Of a record from [`Grain::new`] it is proved that the two counts are what they say, and add up to the offers, up to
/// [`Grain::MOST_OFFERS`]; that mean and sum are finite numbers, never a NaN or an infinity, and the sum is never below 0; and
/// that where every sample taken is the same, bit for bit, the sum is +0 and the mean is that number, +0 for -0.
///
/// Two records compare as their fields do: 0 and -0 are equal, and a NaN equals nothing.
#[derive(Clone, Copy, Debug, Default, PartialEq)]
#[repr(C)]
pub struct Grain {
    count: u32,
    refused: u32,
    mean: f32,
    sum: f32,
}

// as the header has it
const _: () = assert!(size_of::<Grain>() == 16 && align_of::<Grain>() == 4);

impl Grain {
    /// How many samples a record takes. The next is refused with [`Refusal::Full`].
    pub const MOST_SAMPLES: u32 = 65536;

    /// How many offers a record counts, those taken and those refused together. The next is refused with [`Refusal::WornOut`].
    pub const MOST_OFFERS: u32 = u32::MAX;

    /// The largest size of a sample, 2^20. One above it is refused with [`Refusal::Outside`].
    pub const LARGEST: f32 = 1048576.0;

    /// A fresh record: no offers, and a mean and a sum of +0. It is the default too.
    ///
    /// ```
    /// use dampmeadow::Grain;
    /// assert_eq!(Grain::new(), Grain::of(0, 0, 0.0, 0.0));
    /// ```
    pub const fn new() -> Grain {
        Grain::of(0, 0, 0.0, 0.0)
    }

    /// A record that was kept elsewhere, to go on with. Any values may be given, those too that no offers leave: a count of
    /// 70000 is full, and a NaN or an infinity goes through the steps as IEEE 754 has it. Which bits a NaN then has is not
    /// said.
    ///
    /// ```
    /// use dampmeadow::Grain;
    /// let mut grain = Grain::of(2, 0, 3.0, 2.0);
    /// assert_eq!(grain.offer(6.0), Ok(()));
    /// assert_eq!(grain, Grain::of(3, 0, 4.0, 8.0));
    /// ```
    pub const fn of(count: u32, refused: u32, mean: f32, sum: f32) -> Grain {
        Grain { count, refused, mean, sum }
    }

    /// How many samples were taken.
    pub const fn count(&self) -> u32 {
        self.count
    }

    /// How many samples were refused, but for those refused with [`Refusal::WornOut`], which are not counted.
    pub const fn refused(&self) -> u32 {
        self.refused
    }

    /// The mean of the samples taken; +0 of none.
    pub const fn mean(&self) -> f32 {
        self.mean
    }

    /// The sum of the squared deviations of the samples taken from their mean; +0 of none.
    pub const fn sum(&self) -> f32 {
        self.sum
    }

    /// Offers a sample. Takes |x| to 2^20, the numbers too small to be normal too, at their value. The count is raised by one,
    /// to n; with d, which is sample - mean, the mean gains d / n, and the sum gains d * (sample - mean), by the new mean. Each
    /// step is rounded once.
    ///
    /// Or it is refused, with the first of these that holds: [`Refusal::WornOut`] where [`Grain::MOST_OFFERS`] were counted,
    /// [`Refusal::NotFinite`] for an infinity or a NaN, [`Refusal::Outside`] for a size above 2^20, and [`Refusal::Full`] where
    /// [`Grain::MOST_SAMPLES`] were taken. With the first nothing changes; with the others one more is counted as refused, and
    /// the rest stays.
    ///
    /// ```
    /// use dampmeadow::{Grain, Refusal};
    /// let mut grain = Grain::new();
    /// assert_eq!(grain.offer(2.0), Ok(()));
    /// assert_eq!(grain.offer(4.0), Ok(()));
    /// assert_eq!(grain, Grain::of(2, 0, 3.0, 2.0));
    /// assert_eq!(grain.offer(f32::NAN), Err(Refusal::NotFinite));
    /// assert_eq!(grain, Grain::of(2, 1, 3.0, 2.0));
    /// ```
    ///
    /// 2^20 is the last that is taken:
    ///
    /// ```
    /// use dampmeadow::{Grain, Refusal};
    /// let mut grain = Grain::new();
    /// assert_eq!(grain.offer(1048576.0), Ok(()));
    /// assert_eq!(grain.offer(1048576.125), Err(Refusal::Outside)); // the next float
    /// assert_eq!(grain, Grain::of(1, 1, 1048576.0, 0.0));
    /// ```
    pub fn offer(&mut self, sample: f32) -> Result<(), Refusal> {
        // SAFETY: the record has the layout that the call knows, every value of its fields may be lent, and no one else has it
        // meanwhile since it is lent to be changed; the call reads it, writes to it, and does not keep it.
        let refusal = unsafe { exported::dampmeadow_grain_offer(self, sample.to_bits()) };
        judged(refusal, ())
    }
}
