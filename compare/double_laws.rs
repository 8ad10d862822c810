//! The laws of the answers on doubles, in whole numbers: how near sqrt and inv are, that the parts sum to the number, that inv
//! turns its sign with the number's, in which order the answers to two words are, and at which powers of two sqrt is exact. They are
//! asked of any side by itself.

use crate::double_judge::Operation::{self, Fract, Inv, Sqrt, Trunc};
use crate::double_judge::{Answer, BIAS, FRACTION_BITS, INFINITY, LAST_FIELD, SIGN};
use crate::sweep::Count;

/// A side: what it is called, and its call by number.
#[derive(Clone, Copy)]
pub struct Side {
    pub name: &'static str,
    pub call: fn(u32, u64) -> Answer,
}

impl Side {
    /// Whether both calls of an operation, guarded and raw, answer a word, and so that this holds.
    fn both(&self, operation: Operation, a: u64, holds: impl Fn(u64) -> bool) -> bool {
        operation.numbers().into_iter().map(|op| (self.call)(op, a)).all(|answer| answer.refusal == 0 && holds(answer.word))
    }

    /// The word of a raw call. A refusal, of which there has to be none, shows as a NaN.
    fn raw(&self, operation: Operation, a: u64) -> u64 {
        let [_, op] = operation.numbers();
        match (self.call)(op, a) {
            Answer { refusal: 0, word } => word,
            _ => u64::MAX,
        }
    }
}

/// A law of a word, or of two words in their order.
pub struct Law {
    pub name: &'static str,
    of_two: bool,
    /// Whether it holds, and nothing where it says nothing of these words.
    holds: fn(&Side, [u64; 2]) -> Option<bool>,
}

pub const LAWS: [Law; 6] = [
    Law { name: "sqrt's square is from just below a normal number to 9/8 of it", of_two: false, holds: |side, [a, _]| sqrt_bounds(side, a) },
    Law { name: "inv times the number is from 1 to 9/8", of_two: false, holds: |side, [a, _]| inv_bounds(side, a) },
    Law { name: "trunc and fract sum to the number below 2^64", of_two: false, holds: |side, [a, _]| parts_sum(side, a) },
    Law { name: "inv turns its sign with the number's", of_two: false, holds: |side, [a, _]| turns(side, a) },
    Law { name: "raw sqrt never falls from +0 to the infinity", of_two: true, holds: sqrt_order },
    Law { name: "raw inv always falls from +0 to 2^1023", of_two: true, holds: inv_order },
];

impl Law {
    /// Tries a side at a word, beside the next one and beside another where the law is of two.
    #[inline(always)]
    pub fn judge(&self, count: &mut Count, side: &Side, a: u64, other: u64) {
        self.judge_pair(count, side, [a, a.wrapping_add(1)]);
        if self.of_two {
            self.judge_pair(count, side, [a, other]);
        }
    }

    #[inline(always)]
    fn judge_pair(&self, count: &mut Count, side: &Side, words: [u64; 2]) {
        if let Some(holds) = (self.holds)(side, words) {
            let told = &words[..1 + self.of_two as usize];
            count.judge(Some(1), holds as u64, || format!("whether in {} {} at {told:016x?}", side.name, self.name));
        }
    }
}

/// A finite number without its sign: a whole number, and the power of two that it is times.
fn parts(a: u64) -> (u128, i32) {
    let (field, fraction) = ((a >> FRACTION_BITS & LAST_FIELD) as i32, (a % (1 << FRACTION_BITS)) as u128);
    match field {
        0 => (fraction, -1_074),
        _ => (fraction | 1 << FRACTION_BITS, field - 1_075),
    }
}

/// A number that is not below 0: the place of its highest digit, and its digits from there on, so that numbers are ordered as these
/// are.
#[derive(PartialEq, Eq, PartialOrd, Ord)]
struct Size(i32, u128);

impl Size {
    /// A whole number times a power of two.
    fn new(digits: u128, places: i32) -> Size {
        match digits.checked_ilog2() {
            None => Size(i32::MIN, 0),
            Some(top) => Size(places + top as i32, digits << (127 - top)),
        }
    }

    fn of(a: u64) -> Size {
        let (digits, places) = parts(a);
        Size::new(digits, places)
    }

    fn one() -> Size {
        Size::new(1, 0)
    }
}

fn is_finite(a: u64) -> bool {
    a & !SIGN < INFINITY
}

/// Whether a number is positive and normal.
fn is_normal(a: u64) -> bool {
    (1 << FRACTION_BITS..INFINITY).contains(&a)
}

/// x times 1 - 1/2^52, the square of the answer, and 9/8 of x, in this order.
fn sqrt_bounds(side: &Side, a: u64) -> Option<bool> {
    let (m, i) = parts(a);
    let [low, high] = [Size::new(m * ((1 << 52) - 1), i - 52), Size::new(9 * m, i - 3)];
    let holds = |root: u64| root < INFINITY && (&low..=&high).contains(&&square(root));
    is_normal(a).then(|| side.both(Sqrt, a, holds))
}

fn square(a: u64) -> Size {
    let (digits, places) = parts(a);
    Size::new(digits * digits, 2 * places)
}

/// 1, the number times the answer, which has its sign, and 9/8, in this order.
fn inv_bounds(side: &Side, a: u64) -> Option<bool> {
    let (size, (m, i)) = (a & !SIGN, parts(a));
    let holds = |inverse: u64| {
        let (n, j) = parts(inverse);
        is_finite(inverse) && (a ^ inverse) < SIGN && (Size::one()..=Size::new(9, -3)).contains(&Size::new(m * n, i + j))
    };
    (is_normal(size) && Size::of(size) <= Size::new(1, 1_022)).then(|| side.both(Inv, a, holds))
}

fn parts_sum(side: &Side, a: u64) -> Option<bool> {
    let numbers = || Trunc.numbers().into_iter().zip(Fract.numbers());
    let holds = |(trunc, fract): (u32, u32)| match [trunc, fract].map(|op| (side.call)(op, a)) {
        [Answer { refusal: 0, word: whole }, Answer { refusal: 0, word: rest }] => are_parts(a, whole, rest),
        _ => false,
    };
    (is_finite(a) && Size::of(a) < Size::new(1, 64)).then(|| numbers().all(holds))
}

/// Both have the number's sign, the first is whole, the rest is below 1, and together, counted in the number's last place, they are
/// the number.
fn are_parts(a: u64, whole: u64, rest: u64) -> bool {
    let (digits, last) = parts(a);
    let sum = || Some(counted(whole, last)? + counted(rest, last)?);
    let signed = [whole, rest].into_iter().all(|part| is_finite(part) && (a ^ part) < SIGN);
    signed && counted(whole, 0).is_some() && Size::of(rest) < Size::one() && sum() == Some(digits)
}

/// A finite number without its sign, counted in a power of two, if it is so many times that and not far more.
fn counted(a: u64, unit: i32) -> Option<u128> {
    let (digits, places) = parts(a);
    match places - unit {
        _ if digits == 0 => Some(0),
        up @ 0..=64 => Some(digits << up),
        down @ -127..=-1 => (digits.trailing_zeros() as i32 >= -down).then(|| digits >> -down),
        _ => None,
    }
}

/// Raw of every word; guarded the refusal stays, and the word of an answer turns.
fn turns(side: &Side, a: u64) -> Option<bool> {
    let [op, _] = Inv.numbers();
    let guarded = match (side.call)(op, a) {
        Answer { refusal: 0, word } => Answer { refusal: 0, word: word ^ SIGN },
        refused => refused,
    };
    Some(side.raw(Inv, a ^ SIGN) == side.raw(Inv, a) ^ SIGN && (side.call)(op, a ^ SIGN) == guarded)
}

/// The raw answers to two unlike words in their order, as words and as numbers, if none is past the last.
fn in_order(side: &Side, operation: Operation, words: [u64; 2], last: u64) -> Option<([u64; 2], [f64; 2])> {
    let [a, b] = words.map(|word| word & !SIGN);
    let answers = [a.min(b), a.max(b)].map(|word| side.raw(operation, word));
    (a != b && a.max(b) <= last).then(|| (answers, answers.map(f64::from_bits)))
}

fn sqrt_order(side: &Side, words: [u64; 2]) -> Option<bool> {
    in_order(side, Sqrt, words, INFINITY).map(|([r, s], [x, y])| r <= s && x <= y)
}

fn inv_order(side: &Side, words: [u64; 2]) -> Option<bool> {
    in_order(side, Inv, words, (2 * BIAS) << FRACTION_BITS).map(|([r, s], [x, y])| r > s && x > y)
}

/// Tries sqrt at each normal power of two: of an even one, and only there, the answer's square is the power. Gives how many are not
/// exact, and how many are.
pub fn powers(count: &mut Count, side: &Side) -> [u32; 2] {
    let mut powers = [0; 2];
    for field in 1..LAST_FIELD {
        let (a, is_even) = (field << FRACTION_BITS, field % 2 == BIAS % 2);
        let is_exact = |root: u64| root < INFINITY && square(root) == Size::of(a);
        let holds = side.both(Sqrt, a, |root| is_exact(root) == is_even);
        powers[is_exact(side.raw(Sqrt, a)) as usize] += 1;
        count.judge(Some(1), holds as u64, || format!("whether in {} sqrt of {a:016x} is exact or not as it should be", side.name));
    }
    powers
}
