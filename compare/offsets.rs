//! A word at every offset of a block. The strip call may do the words of a block together, or one by one where one of them is
//! special: no place may hang on where in its block it stands, nor on what stands beside it. Each is held to the single call.

use crate::kernels::{strip, Kernel, Takes, NAN};
use crate::speed::clean;
use crate::strips::Lists;
use crate::sweep::{blocks, Count};
use crate::words::Random;
use std::ops::Range;

/// The words of a block, and the numbers of the operations that are done in blocks: those whose steps are quick beside their tests,
/// which a block of clean words is spared. Raw abs, invsqrt and inv have no test, and so no blocks.
const BLOCK: usize = 32;
const IN_BLOCKS: [u32; 15] = [0x06, 0x09, 0x0a, 0x0b, 0x11, 0x12, 0x13, 0x14, 0x15, 0x89, 0x91, 0x92, 0x93, 0x94, 0x95];

/// The kernels of one operand, raw and guarded, of which a run with `every` tries each word at each offset, which takes 32 times as
/// long as at one; the others have each word at one offset.
const AT_EACH_OFFSET: [&str; 2] = ["sqrt", "cos"];

/// The longest strip that a special word is put into, and the longest in which it stands at each place.
const LONGEST: usize = 130;
const AT_EACH_PLACE: usize = 70;

/// The first and the last words, without a sign, that a block may do without a test, guarded unless it says raw.
const ENDS: [u32; 10] = [
    0x0000_0000, // raw sqrt from here
    0x0080_0000, // sqrt, invsqrt and inv from the smallest normal number
    0x2180_0000, // atan2, raw atan2 and hypot from 2^-60 in one of the two
    0x4380_0000, // cos, sin and raw sin to 256
    0x4480_0000, // raw cos to 1024
    0x5e80_0000, // atan2, raw atan2 and hypot to 2^62
    0x5f7f_ffff, // atan and raw atan to the word below 2^64
    0x7e80_0000, // inv to 2^126
    0x7f7f_ffff, // abs, sqrt and invsqrt to the last finite number
    0x7f80_0000, // raw sqrt and raw hypot to the infinity
];

/// These ends and the words next to them, and a quiet NaN, each of either sign.
fn specials() -> Vec<u32> {
    let about = ENDS.iter().flat_map(|end| [end.wrapping_sub(1), *end, end + 1]);
    let mut words: Vec<u32> = about.chain([NAN]).flat_map(|word| [word, word ^ 0x8000_0000]).collect();
    words.sort_unstable();
    words.dedup();
    words
}

/// What becomes of the words at a place, given a special word and another.
type Put = fn((u32, u32), u32, u32) -> (u32, u32);

/// The special word for the first, for the second, and the two for both.
const PUTS: [Put; 3] = [|(_, b), special, _| (special, b), |(a, _), special, _| (a, special), |_, special, other| (special, other)];

/// Those for a kernel that takes these: a second word stays as it is where it is not used, or a power in two's complement.
pub fn puts(takes: Takes) -> &'static [Put] {
    match takes {
        Takes::One | Takes::Power => &PUTS[..1],
        Takes::Two | Takes::FloatPower | Takes::Divisor => &PUTS,
    }
}

/// What the single call gives for the words at a place.
fn alone(kernel: &Kernel, (a, b): (u32, u32)) -> u64 {
    kernel.ours(a, kernel.used(b))
}

/// A short strip, with what the single call gives for each place.
#[derive(Clone)]
struct Short<'a> {
    op: u32,
    kernel: &'a Kernel,
    words: Vec<(u32, u32)>,
    due: Vec<u64>,
}

impl Short<'_> {
    fn put(&mut self, place: usize, words: (u32, u32)) {
        self.words[place] = words;
        self.due[place] = alone(self.kernel, words);
    }

    fn judge(&self, count: &mut Count) {
        Lists::new(&self.words, false).call(count, self.op, 0, [self.words.len(); 4], Ok(&self.due));
    }
}

/// A strip of so many clean words: as it is, then with each special word at each place, or in a longer one at the first and the
/// last of each block, and then with a second one at any place.
fn among_clean((op, kernel): &(u32, Kernel), length: usize) -> Count {
    let (mut count, mut random, specials) = (Count::default(), Random::new(length as u64), specials());
    let puts = puts(kernel.takes);
    let words = clean(kernel.name, length);
    let due = words.iter().map(|words| alone(kernel, *words)).collect();
    let clean = Short { op: *op, kernel, words, due };
    clean.judge(&mut count);
    let is_tried = |place: &usize| length <= AT_EACH_PLACE || [0, BLOCK - 1].contains(&(place % BLOCK)) || place + 1 == length;
    for place in (0..length).filter(is_tried) {
        for put in puts {
            for special in &specials {
                let (mut strip, other, second) = (clean.clone(), random.one_of(&specials), random.below(length));
                strip.put(place, put(clean.words[place], *special, other));
                strip.judge(&mut count);
                strip.put(second, random.one_of(puts)(clean.words[second], other, *special));
                strip.judge(&mut count);
            }
        }
    }
    count
}

/// The words of a long strip that are judged. A block of others stands before them and one after them, so that from whichever
/// offset on the strip is lent, each of them is in a whole block.
const JUDGED: usize = 4_096;

/// A long strip: its first and its second words, the answers and the refusals of single calls, and those of the last strip call.
struct Long<'a> {
    op: u32,
    kernel: &'a Kernel,
    words: [Vec<u32>; 2],
    due: [Vec<u32>; 2],
    given: [Vec<u32>; 2],
}

impl Long<'_> {
    fn new((op, kernel): &(u32, Kernel), words: impl Iterator<Item = (u32, u32)>) -> Long<'_> {
        let (first, second): (Vec<u32>, Vec<u32>) = words.unzip();
        let due = first.iter().zip(&second).map(|(a, b)| alone(kernel, (*a, *b)));
        let (answers, refusals): (Vec<u32>, Vec<u32>) = due.map(|due| (due as u32, (due >> 32) as u32)).unzip();
        Long { op: *op, kernel, given: [answers.clone(), refusals.clone()], words: [first, second], due: [answers, refusals] }
    }

    /// The places that are judged.
    fn places() -> Range<usize> {
        BLOCK..BLOCK + JUDGED
    }

    /// A place of these answers and refusals: its refusal in the high half, its word in the low.
    fn place([answers, refusals]: &[Vec<u32>; 2], place: usize) -> u64 {
        (refusals[place] as u64) << 32 | answers[place] as u64
    }

    fn asked(&self, place: usize) -> String {
        self.kernel.asked(self.words[0][place], self.words[1][place])
    }

    /// One call for whole blocks, from an offset on, beside the single calls.
    fn at_offset(&mut self, count: &mut Count, offset: usize) {
        // what is no answer and no refusal
        self.given.iter_mut().for_each(|list| list.fill(!0));
        let ([first, second], [answers, refusals]) = (&self.words, &mut self.given);
        let lent = || offset..offset + BLOCK + JUDGED;
        strip(self.op, &first[lent()], &second[lent()], &mut answers[lent()], &mut refusals[lent()]);
        if self.given.iter().zip(&self.due).all(|(given, due)| given[Self::places()] == due[Self::places()]) {
            count.tried += JUDGED as u64;
            return;
        }
        for place in Self::places() {
            let asked = || format!("{} at offset {} of a block", self.asked(place), (place - offset) % BLOCK);
            count.judge(Some(Self::place(&self.due, place)), Self::place(&self.given, place), asked);
        }
    }

    /// What the last call gave, beside the crate.
    fn beside_the_crate(&self, count: &mut Count) {
        for place in Self::places() {
            let expected = self.kernel.expected(self.words[0][place], self.words[1][place]);
            count.judge(expected, Self::place(&self.given, place), || self.asked(place) + " in a strip");
        }
    }
}

/// Tries numbered words on all cores, in long strips. A strip is tried at so many offsets, and the next one begins an offset further.
/// Pairs are held to the crate too.
fn sweep(label: &str, known: &(u32, Kernel), len: u64, offsets: u64, at: impl Fn(u64, &mut Random) -> (u32, u32) + Sync) -> Count {
    const STRIPS: u64 = 256;
    let run = |from: u64, to: u64| {
        let (mut count, mut random) = (Count::default(), Random::new(from + 1));
        for number in from..to {
            // before the first words stand the last
            let start = (number * JUDGED as u64).wrapping_sub(BLOCK as u64);
            let mut strip = Long::new(known, (0..(JUDGED + 2 * BLOCK) as u64).map(|place| at(start.wrapping_add(place), &mut random)));
            (number..number + offsets).for_each(|offset| strip.at_offset(&mut count, offset as usize % BLOCK));
            if known.1.takes == Takes::Two {
                strip.beside_the_crate(&mut count);
            }
        }
        count
    };
    let mut all = Count::default();
    blocks(label, len.div_ceil(JUDGED as u64), STRIPS, run).iter().for_each(|count| all.add(count));
    all
}

/// Every word of a kernel of one operand: of sqrt and cos in order, so that nearly each block is all clean or all special; then with
/// words from all over in its block, so that many have both; and then some of them, each as the only one in its block that may be
/// special.
fn words(known: &(u32, Kernel), report: &mut impl FnMut(&str, Count)) {
    const ALL: u64 = 1 << 32;
    const STRIDE: u64 = 61;
    let (clean, block) = (clean(known.1.name, JUDGED), BLOCK as u64);
    let mut done = |what: &str, len: u64, offsets: u64, at: &(dyn Fn(u64) -> u32 + Sync)| {
        let label = format!("strips, {} of {what}", known.1.label());
        // a second word is not used, and is any
        report(&label, sweep(&label, known, len, offsets, |number, random| (at(number), random.word())));
    };
    if AT_EACH_OFFSET.contains(&known.1.name) {
        done("every word at every offset of a block", ALL, block, &|number| number as u32);
    }
    // times an odd number, so that each word comes once
    let from_all_over = |number: u64| (number as u32).wrapping_mul(0x9e37_79b1);
    done("every word with words from all over in its block, at one offset after another", ALL, 1, &from_all_over);
    let among_clean = |number: u64| if number % block == 0 { (number / block * STRIDE) as u32 } else { clean[number as usize % JUDGED].0 };
    let label = format!("one word in {STRIDE} with clean words in its block, at one offset after another");
    done(&label, (ALL / STRIDE + 1) * block, 1, &among_clean);
}

/// Pairs of a kernel of two operands: of fifty one has a special word in it, or two, one is any, and the others are clean.
fn pairs(known: &(u32, Kernel), report: &mut impl FnMut(&str, Count)) {
    const PAIRS: u64 = 100_000_000;
    let label = format!("strips, {} of {PAIRS} pairs at every offset of a block, and beside the crate", known.1.label());
    let at = |_, random: &mut Random| {
        let clean = (random.near_one(), random.near_one());
        match random.below(50) {
            0 => random.one_of(puts(known.1.takes))(clean, random.special(), random.special()),
            1 => random.pair(),
            _ => clean,
        }
    };
    report(&label, sweep(&label, known, PAIRS, BLOCK as u64, at));
}

/// Tries the operations that are done in blocks, and reports each count with its label; with `every`, on each of the 2^32 words, or
/// on 10^8 pairs.
pub fn offsets(every: bool, known: &[(u32, Kernel)], mut report: impl FnMut(&str, Count)) {
    let in_blocks: Vec<&(u32, Kernel)> = known.iter().filter(|(op, _)| IN_BLOCKS.contains(op)).collect();
    let keys: Vec<String> = in_blocks.iter().map(|(_, kernel)| kernel.key()).collect();
    let label = format!("strips of {}, special words among clean ones at every offset of a block", keys.join(", "));
    // a length of one operation at a time
    let run = |number: u64, _| among_clean(in_blocks[number as usize % in_blocks.len()], number as usize / in_blocks.len());
    let mut count = Count::default();
    blocks(&label, ((LONGEST + 1) * in_blocks.len()) as u64, 1, run).iter().for_each(|more| count.add(more));
    report(&label, count);
    for known in in_blocks.into_iter().filter(|_| every) {
        match known.1.takes {
            Takes::One => words(known, &mut report),
            _ => pairs(known, &mut report),
        }
    }
}
