//! Order and oddness: raw sqrt never falls and is exact at the even powers of two alone, raw invsqrt never rises, raw inv always
//! falls, the raw arctangents are odd to the bit, and they, raw cos and raw sin stay within their ends. All of this is asked of ours
//! and of the crate's, of either by itself. Nothing here is taken from the library.

use crate::kernels::{is_nan, Kernel, NAN};
use crate::soft_judge::{INFINITY, SIGN};
use crate::soft_rows::of_the_crate;
use crate::sweep::{blocks, Count};
use crate::words::{edges, Random};
use std::f32::consts::FRAC_PI_2;

/// What `--only` calls all of this.
pub const KEY: &str = "order";

/// Kernels and words with the answers that are due on either side, worked out by hand.
const BY_HAND: [(&str, u32, u32); 37] = [
    // the two least words have one root
    ("sqrt", 0x0000_0000, 0x1fc0_0000),
    ("sqrt", 0x0000_0001, 0x1fc0_0000),
    ("sqrt", 0x0000_0002, 0x1fc0_0001),
    // powers of two: too small to be normal, the first and the last that are even, and two that are odd
    ("sqrt", 0x0020_0000, 0x1fd0_0000),
    ("sqrt", 0x0080_0000, 0x2000_0000),
    ("sqrt", 0x7e80_0000, 0x5f00_0000),
    ("sqrt", 0x4000_0000, 0x3fc0_0000),
    ("sqrt", 0x7f00_0000, 0x5f40_0000),
    // the infinity; past it a NaN, and then -0, which is lower as a word
    ("sqrt", 0x7f7f_ffff, 0x5f7f_ffff),
    ("sqrt", INFINITY, 0x5f80_0000),
    ("sqrt", 0x7f80_0001, NAN),
    ("sqrt", SIGN, 0x5fc0_0000),
    ("invsqrt", 0x0000_0000, 0x5f37_5a86),
    ("invsqrt", 0x0000_0001, 0x5f37_5a86),
    ("invsqrt", 0x0000_0002, 0x5f37_5a85),
    ("invsqrt", 0x7f7f_ffff, 0x1f77_5a87),
    ("invsqrt", INFINITY, 0x1f77_5a86),
    // where it comes to 0, and then wraps
    ("inv", 0x0000_0000, 0x7f00_0000),
    ("inv", 0x7eff_ffff, 0x0000_0001),
    ("inv", 0x7f00_0000, 0x0000_0000),
    ("inv", 0x7f00_0001, 0xffff_ffff),
    // each zero, the last words below 2^64, where both ends are reached, and 2^64
    ("atan_norm", 0x0000_0000, 0x0000_0000),
    ("atan_norm", SIGN, SIGN),
    ("atan_norm", 0x5f7f_ffff, 0x3f80_0000),
    ("atan_norm", 0xdf7f_ffff, 0xbf80_0000),
    ("atan_norm", 0x5f80_0000, NAN),
    ("atan_norm", 0xdf80_0000, NAN),
    ("atan", 0x0000_0000, 0x0000_0000),
    ("atan", SIGN, SIGN),
    ("atan", 0x5f7f_ffff, 0x3fc9_0fdb),
    ("atan", 0xdf7f_ffff, 0xbfc9_0fdb),
    ("atan", 0x5f80_0000, NAN),
    ("atan", 0xdf80_0000, NAN),
    // the last word that is within, and the next, at which it is -4.35
    ("cos", 0xcbc9_0fdb, 0x3f80_0000),
    ("cos", 0xcbc9_0fdc, 0xc08b_3333),
    ("sin", 0xcbc9_0fda, 0x3f80_0000),
    ("sin", 0xcbc9_0fdb, 0xc08b_3333),
];

/// A kernel whose answers go one way as the words rise, from 0 to `last`.
struct Order {
    name: &'static str,
    goes: &'static str,
    last: u32,
    /// Whether the answers to a word and to a higher one go so, as words and as numbers.
    holds: fn([u64; 2], [f32; 2]) -> bool,
}

const ORDERS: [Order; 3] = [
    Order { name: "sqrt", goes: "never falls", last: INFINITY, holds: |[r, s], [x, y]| r <= s && x <= y },
    Order { name: "invsqrt", goes: "never rises", last: INFINITY, holds: |[r, s], [x, y]| r >= s && x >= y },
    Order { name: "inv", goes: "always falls", last: 0x7f00_0000, holds: |[r, s], [x, y]| r > s && x > y },
];

/// A kernel whose answers are from -`most` to `most`, for words of either sign and a size of no more than `last`.
struct Ends {
    name: &'static str,
    last: u32,
    most: f32,
    /// It is odd that far too.
    is_odd: bool,
}

const ENDS: [Ends; 4] = [
    Ends { name: "atan_norm", last: 0x5f7f_ffff, most: 1.0, is_odd: true },
    Ends { name: "atan", last: 0x5f7f_ffff, most: FRAC_PI_2, is_odd: true },
    Ends { name: "cos", last: 0x4bc9_0fdb, most: 1.0, is_odd: false },
    Ends { name: "sin", last: 0x4bc9_0fda, most: 1.0, is_odd: false },
];

/// A raw kernel on one side: ours, or the crate's.
struct Side {
    kernel: Kernel,
    is_ours: bool,
}

impl Side {
    fn both(name: &str) -> [Side; 2] {
        [true, false].map(|is_ours| Side { kernel: of_the_crate(name), is_ours })
    }

    fn label(&self) -> String {
        format!("{} {}", if self.is_ours { "our raw" } else { "the crate's" }, self.kernel.name)
    }

    /// What it gives: a word, and in ours a refusal in the high half, of which there has to be none.
    #[inline(always)]
    fn answer(&self, a: u32) -> u64 {
        if self.is_ours {
            self.kernel.ours(a, 0)
        } else {
            (self.kernel.theirs)(a, 0) as u64
        }
    }

    /// Tries a row that was worked out by hand. A NaN of the crate's has any bits.
    fn row(&self, count: &mut Count, a: u32, due: u32) {
        let answer = self.answer(a);
        let any_nan = !self.is_ours && due == NAN && is_nan(answer as u32);
        count.judge(Some(due as u64), if any_nan { NAN as u64 } else { answer }, || format!("{} of {a:08x}", self.label()));
    }

    /// Tries a word and a higher one.
    #[inline(always)]
    fn pair(&self, count: &mut Count, order: &Order, [w, v]: [u32; 2]) {
        let answers = [w, v].map(|word| self.answer(word));
        let holds = (order.holds)(answers, answers.map(number));
        count.judge(Some(1), holds as u64, || {
            let [r, s] = answers;
            format!("whether {} {} from {w:08x}, {r:08x}, to {v:08x}, {s:08x},", self.label(), order.goes)
        });
    }

    /// Tries that a word with its sign turned has the answer with its sign turned, and no other bit.
    #[inline(always)]
    fn turned(&self, count: &mut Count, a: u32) {
        let due = self.answer(a) ^ SIGN as u64;
        count.judge(Some(due), self.answer(a ^ SIGN), || format!("{} of {:08x}", self.label(), a ^ SIGN));
    }

    /// Tries that the answer is from -`most` to `most`, by its size and as a number.
    #[inline(always)]
    fn within(&self, count: &mut Count, a: u32, most: f32) {
        let answer = self.answer(a);
        let holds = answer & !(SIGN as u64) <= most.to_bits() as u64 && (-most..=most).contains(&number(answer));
        count.judge(Some(1), holds as u64, || format!("whether {} of {a:08x}, {answer:08x}, is from -{most} to {most}", self.label()));
    }

    /// Tries sqrt at each normal power of two: where it is an even one the answer is its root, and only there is the answer's square,
    /// for which a double has room, the power. Gives how many are not exact, and how many are.
    fn powers(&self, count: &mut Count) -> [u32; 2] {
        let mut powers = [0; 2];
        for n in -126..=127 {
            let (power, is_even) = (2f64.powi(n), n % 2 == 0);
            let answer = self.answer((power as f32).to_bits());
            let root = f64::from(number(answer));
            let is_exact = root * root == power;
            powers[is_exact as usize] += 1;
            count.judge(Some(is_even as u64), is_exact as u64, || format!("whether {} of 2^{n}, {answer:08x}, is exact", self.label()));
            if is_even {
                count.judge(Some(2f32.powi(n / 2).to_bits() as u64), answer, || format!("{} of 2^{n}", self.label()));
            }
        }
        powers
    }
}

/// The number of an answer. A refusal has none.
#[inline(always)]
fn number(answer: u64) -> f32 {
    u32::try_from(answer).map_or(f32::NAN, f32::from_bits)
}

/// The words from 0 to `last` that are tried, by their numbers: each, or those next to both ends, edges, strides and random ones.
struct Plan {
    every: bool,
    last: u32,
    chosen: Vec<u32>,
}

impl Plan {
    fn new(every: bool, last: u32) -> Plan {
        const NEXT: u32 = 4_096;
        const STRIDE: usize = 4_093;
        let ends = (0..NEXT).chain(last - NEXT..=last);
        let words = ends.chain(edges()).chain((0..last).step_by(STRIDE)).filter(|word| *word <= last);
        let mut chosen: Vec<u32> = if every { Vec::new() } else { words.collect() };
        chosen.sort_unstable();
        chosen.dedup();
        Plan { every, last, chosen }
    }

    fn len(&self) -> u64 {
        const RANDOM: u64 = 1_000_000;
        if self.every {
            self.last as u64 + 1
        } else {
            self.chosen.len() as u64 + RANDOM
        }
    }

    fn at(&self, i: u64, random: &mut Random) -> u32 {
        match self.chosen.get(i as usize) {
            _ if self.every => i as u32,
            Some(word) => *word,
            None => random.below(self.last as usize + 1) as u32,
        }
    }

    /// Tries the words on all cores.
    fn run(&self, label: &str, try_word: impl Fn(&mut Count, u32, &mut Random) + Sync) -> Count {
        const BLOCK: u64 = 1 << 20;
        let run = |from: u64, to: u64| {
            let (mut count, mut random) = (Count::default(), Random::new(from + 1));
            for i in from..to {
                let word = self.at(i, &mut random);
                try_word(&mut count, word, &mut random);
            }
            count
        };
        let mut sum = Count::default();
        blocks(label, self.len(), BLOCK, run).iter().for_each(|count| sum.add(count));
        sum
    }
}

/// The answers of either side in their order: each word beside the next, and in a short run beside any higher one too.
fn orders(every: bool, report: &mut impl FnMut(&str, Count)) {
    for order in &ORDERS {
        let plan = Plan::new(every, order.last - 1);
        for side in Side::both(order.name) {
            let label = format!("order, {} {} up to {:08x}", side.label(), order.goes, order.last);
            let count = plan.run(&label, |count, w, random| {
                side.pair(count, order, [w, w + 1]);
                if !every {
                    side.pair(count, order, [w, w + 1 + random.below((order.last - w) as usize) as u32]);
                }
            });
            report(&label, count);
        }
    }
}

/// The answers of either side for words of either sign: whether they are odd, and within their ends.
fn ends(every: bool, report: &mut impl FnMut(&str, Count)) {
    for Ends { name, last, most, is_odd } in ENDS {
        let plan = Plan::new(every, last);
        for side in Side::both(name) {
            if is_odd {
                let label = format!("order, {} is odd up to {last:08x}", side.label());
                report(&label, plan.run(&label, |count, a, _| side.turned(count, a)));
            }
            let label = format!("order, {} is from -{most} to {most} up to {last:08x} of either sign", side.label());
            report(&label, plan.run(&label, |count, a, _| [a, a | SIGN].into_iter().for_each(|a| side.within(count, a, most))));
        }
    }
}

/// Tries all of this, and reports each count with its label; with `every`, on each word.
pub fn order(every: bool, report: &mut impl FnMut(&str, Count)) {
    let mut by_hand = <[Count; 2]>::default();
    for (name, a, due) in BY_HAND {
        by_hand.iter_mut().zip(Side::both(name)).for_each(|(count, side)| side.row(count, a, due));
    }
    for (who, count) in ["ours", "the crate's"].into_iter().zip(by_hand) {
        report(&format!("order, by hand, {who}"), count);
    }
    for side in Side::both("sqrt") {
        let mut count = Count::default();
        let [others, exact] = side.powers(&mut count);
        report(&format!("order, {} at the normal powers of two ({exact} exact, {others} not)", side.label()), count);
    }
    orders(every, report);
    ends(every, report);
}
