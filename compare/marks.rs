//! The marks of a cast to a 32-bit integer, 0 to 4, judged by the value of the number. Nothing here is taken from the library,
//! which goes by the fields of the word.

use std::fmt;

/// The mark of the cast of this word.
pub fn of(a: u32) -> u32 {
    // a double has room for each float and for each integer
    let x = f32::from_bits(a) as f64;
    if x.is_nan() {
        4
    } else if x >= 2_147_483_648.0 {
        2
    } else if x < -2_147_483_648.0 {
        3
    } else if x == x as i32 as f64 {
        0
    } else {
        1
    }
}

/// The mark of the cast that ceil makes, of the number with its sign turned.
pub fn of_turned(a: u32) -> u32 {
    of(a ^ 0x8000_0000)
}

/// A mark in the high half, the word that it comes with in the low.
#[inline(always)]
pub fn over(mark: u32, word: u32) -> u64 {
    (mark as u64) << 32 | word as u64
}

/// How many words were given each mark.
#[derive(Clone, Copy, Default, PartialEq)]
pub struct Tally([u64; 5]);

impl Tally {
    /// How many of the 2^32 words have each mark, counted by the fields. Exact: both zeros, -2^31, and of each sign and exponent
    /// from 0 to 30 as many words as 2 to that exponent, but 2^23 at most. High: 4f000000 to 7f800000. Low: cf000001 to ff800000.
    /// Not a number: 2^23 - 1 words of each sign. Dropped: all others. With every sign turned they are the same words, and as many.
    pub const OF_ALL: Tally = Tally([150_994_945, 2_499_805_184, 813_694_977, 813_694_976, 16_777_214]);

    /// Counts the mark of an answer. What is no mark is not counted.
    #[inline(always)]
    pub fn note(&mut self, answer: u64) {
        if let Some(words) = self.0.get_mut((answer >> 32) as usize) {
            *words += 1;
        }
    }

    pub fn add(&mut self, other: &Tally) {
        for (words, more) in self.0.iter_mut().zip(other.0) {
            *words += more;
        }
    }
}

impl fmt::Display for Tally {
    fn fmt(&self, out: &mut fmt::Formatter) -> fmt::Result {
        let [exact, dropped, high, low, none] = self.0;
        write!(out, "{exact} exact, {dropped} fraction dropped, {high} clipped high, {low} clipped low, {none} not a number")
    }
}
