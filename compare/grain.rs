//! Grain statistics: each offer of a sample beside the specification's rules, over histories, and over records that no history
//! gives. Nothing here is taken from the library. A sample is refused by its value, and what is left by one that is taken is
//! worked out twice, in floats and in doubles: the library has to agree with both.

use crate::kernels::{is_nan, Agree, Call, Kernel, Takes, NAN};
use crate::speed::median;
use crate::sweep::{sweep, Count};
use crate::words::{self, Random};
use std::hint::black_box;
use std::time::Instant;

/// What `--only` calls all of this.
pub const KEY: &str = "grain";

/// A record as C lays it out, with the words of its two floats.
#[repr(C)]
#[derive(Clone, Copy, PartialEq)]
struct Grain {
    count: u32,
    refused: u32,
    mean: u32,
    sum: u32,
}

#[link(name = "dampmeadow", kind = "static")]
extern "C" {
    fn dampmeadow_grain_offer(grain: *mut Grain, sample: u32) -> u32;
}

const FRESH: Grain = Grain::new(0, 0, 0, 0);

const MOST_OFFERS: u64 = 4_294_967_295;
const MOST_SAMPLES: u32 = 65_536;
const LARGEST: f32 = 1_048_576.0;

impl Grain {
    const fn new(count: u32, refused: u32, mean: u32, sum: u32) -> Grain {
        Grain { count, refused, mean, sum }
    }

    /// The refusal of a sample, or 0.
    #[inline(always)]
    fn refusal(&self, sample: u32) -> u32 {
        let x = f32::from_bits(sample);
        if self.count as u64 + self.refused as u64 >= MOST_OFFERS {
            12
        } else if !x.is_finite() {
            1
        } else if x.abs() > LARGEST {
            4
        } else if self.count >= MOST_SAMPLES {
            11
        } else {
            0
        }
    }

    /// Offers a sample by the rules. The steps are given the raised count, mean and sum as they were, and the sample.
    #[inline(always)]
    fn offer(&mut self, sample: u32, steps: impl Fn(u32, [f32; 3]) -> [f32; 2]) -> u32 {
        let refusal = self.refusal(sample);
        match refusal {
            0 => {
                self.count += 1;
                let statistics = steps(self.count, [self.mean, self.sum, sample].map(f32::from_bits));
                [self.mean, self.sum] = statistics.map(f32::to_bits);
            }
            12 => {}
            _ => self.refused += 1,
        }
        refusal
    }

    /// Whether mean and sum are both finite, and the sum has no sign.
    fn is_sound(&self) -> bool {
        [self.mean, self.sum].iter().all(|word| f32::from_bits(*word).is_finite()) && self.sum & SIGN == 0
    }
}

/// The steps in floats.
#[inline(always)]
fn in_floats(n: u32, [mean, sum, x]: [f32; 3]) -> [f32; 2] {
    let d = x - mean;
    let mean = mean + d / n as f32;
    [mean, sum + d * (x - mean)]
}

/// The steps in doubles, each rounded to a float. A double has twice the digits of a float and more than two besides, so that
/// the two roundings of a step come to one.
fn in_doubles(n: u32, operands: [f32; 3]) -> [f32; 2] {
    let [mean, sum, x] = operands.map(f64::from);
    // the compiler, which knows that too, would make a step in floats of it
    let rounded = |double: f64| f64::from(black_box(double) as f32);
    let d = rounded(x - mean);
    let mean = rounded(mean + rounded(d / f64::from(n)));
    let sum = rounded(sum + rounded(d * rounded(x - mean)));
    [mean as f32, sum as f32]
}

/// A record with guard words about it. It stands where C may put it, at a multiple of four bytes and of no more.
#[repr(C, align(16))]
struct Lent {
    before: [u32; 5],
    grain: Grain,
    after: [u32; 3],
}

/// Offers a sample to the library. Gives the refusal, and whether the guard words are as they were.
#[inline(always)]
fn call(grain: &mut Grain, sample: u32) -> (u32, bool) {
    const GUARD: u32 = 0xffa5_a5ff;
    let mut lent = Lent { before: [GUARD; 5], grain: *grain, after: [GUARD; 3] };
    let refusal = unsafe { dampmeadow_grain_offer(&mut lent.grain, sample) };
    *grain = lent.grain;
    (refusal, lent.before == [GUARD; 5] && lent.after == [GUARD; 3])
}

/// Counts an offer as one trial of all that is told of it, each thing as it should be and as it is.
fn judge(count: &mut Count, before: Grain, sample: u32, told: &[(&str, [u64; 2])]) {
    let (name, [should, is]) = told.iter().find(|(_, [should, is])| should != is).unwrap_or(&told[0]);
    count.judge(Some(*should), *is, || {
        let Grain { count, refused, mean, sum } = before;
        format!("{sample:08x} offered to {count} + {refused}, mean {mean:08x}, sum {sum:08x}: the {name}")
    });
}

/// What a fresh record is once this sample was taken so often, no other was taken, and so many were refused.
fn of_one_word(sample: u32, count: u32, refused: u32) -> Grain {
    // the mean was +0, and -0 more leaves that
    Grain { count, refused, mean: if count == 0 || sample == SIGN { 0 } else { sample }, sum: 0 }
}

/// A record that is offered one sample after another.
struct History<'a> {
    count: &'a mut Count,
    grain: Grain,
    /// The samples that were taken and those that were refused, as the answers have it, with what the record began with.
    taken: u32,
    refused: u32,
    /// It began with a fresh record, so that mean and sum have to stay finite, and the sum not below 0.
    fresh: bool,
    /// The first sample that was taken, and whether no other was since the record was fresh.
    first: Option<u32>,
    one: bool,
}

impl History<'_> {
    fn new(count: &mut Count, grain: Grain) -> History<'_> {
        let fresh = grain == FRESH;
        History { count, grain, taken: grain.count, refused: grain.refused, fresh, first: None, one: fresh }
    }

    /// Offers a sample, as a trial of the refusal and of all that is then in the record.
    fn offer(&mut self, sample: u32) {
        let before = self.grain;
        let (refusal, kept) = call(&mut self.grain, sample);
        let (mut floats, mut doubles) = (before, before);
        let should = floats.offer(sample, in_floats);
        doubles.offer(sample, in_doubles);
        match refusal {
            0 => {
                self.taken += 1;
                self.one &= *self.first.get_or_insert(sample) == sample;
            }
            12 => {}
            _ => self.refused += 1,
        }
        let is = self.grain;
        let one = if self.one { of_one_word(self.first.unwrap_or(0), self.taken, self.refused) } else { is };
        // a NaN that a step makes has any bits, and one that was there and stays has its own
        let word = |word: u32| if should == 0 && is_nan(word) { NAN as u64 } else { word as u64 };
        let told = [
            ("refusal", [should, refusal].map(|n| (n as u64) << 32)),
            ("count", [floats.count, is.count].map(u64::from)),
            ("tally", [floats.refused, is.refused].map(u64::from)),
            ("mean", [floats.mean, is.mean].map(word)),
            ("sum", [floats.sum, is.sum].map(word)),
            ("mean by doubles", [doubles.mean, is.mean].map(word)),
            ("sum by doubles", [doubles.sum, is.sum].map(word)),
            ("mean of one word", [one.mean, is.mean].map(word)),
            ("sum of one word", [one.sum, is.sum].map(word)),
            ("count of what was taken", [self.taken, is.count].map(u64::from)),
            ("tally of what was refused", [self.refused, is.refused].map(u64::from)),
            ("flag of a finite mean and sum, not below 0", [self.fresh, self.fresh && is.is_sound()].map(u64::from)),
            ("flag of guard words as they were", [true, kept].map(u64::from)),
        ];
        judge(self.count, before, sample, &told);
    }
}

const SIGN: u32 = 0x8000_0000;

/// Both sides of each end, without a sign.
const SIZES: [u32; 12] = [
    // zero, and the numbers too small to be normal
    0x0000_0000,
    0x0000_0001,
    0x007f_ffff,
    0x0080_0000,
    // 2^20
    0x497f_ffff,
    0x4980_0000,
    0x4980_0001,
    // the finite numbers, and what is none
    0x7f7f_ffff,
    0x7f80_0000,
    0x7f80_0001,
    0x7fc0_0000,
    0x7fff_ffff,
];

/// These words, of either sign.
fn ends() -> impl Iterator<Item = u32> {
    SIZES.into_iter().flat_map(|size| [size, size | SIGN])
}

/// One of them.
fn end(random: &mut Random) -> u32 {
    random.one_of(&SIZES) | random.word() & SIGN
}

/// Samples of one kind, all of a size to 2^20.
type Kind = fn(&mut Random) -> u32;

const KINDS: [Kind; 8] = [
    // grey levels from 0 to 1, of a byte, and of two bytes
    |random| (random.below(65_536) as f32 / 65_535.0).to_bits(),
    |random| (random.below(256) as f32).to_bits(),
    |random| (random.below(65_536) as f32).to_bits(),
    // of a size from 2^-15 to 2^17, any, and those that are small or just not
    Random::near_one,
    |random| random.word() & SIGN | random.below(0x4980_0001) as u32,
    |random| random.word() & 0x80ff_ffff,
    // with squares that are small or just not
    |random| random.word() & 0x83ff_ffff | 0x1c00_0000,
    // as far from each other as can be, or nearly
    |random| random.word() & SIGN | 0x4980_0000 - random.below(4) as u32,
];

/// A record, a sample, its refusal or 0, and the record afterwards, written by hand apart from the rules above.
const BY_HAND: [(Grain, u32, u32, Grain); 30] = [
    // of 1, 3 and 5 the mean is 1, 2 and 3, and the sum 0, 2 and 8
    (FRESH, 0x3f80_0000, 0, Grain::new(1, 0, 0x3f80_0000, 0)),
    (Grain::new(1, 0, 0x3f80_0000, 0), 0x4040_0000, 0, Grain::new(2, 0, 0x4000_0000, 0x4000_0000)),
    (Grain::new(2, 0, 0x4000_0000, 0x4000_0000), 0x40a0_0000, 0, Grain::new(3, 0, 0x4040_0000, 0x4100_0000)),
    // the zeros, and the smallest number
    (FRESH, 0x0000_0000, 0, Grain::new(1, 0, 0, 0)),
    (FRESH, 0x8000_0000, 0, Grain::new(1, 0, 0, 0)),
    (FRESH, 0x0000_0001, 0, Grain::new(1, 0, 0x0000_0001, 0)),
    (FRESH, 0x8000_0001, 0, Grain::new(1, 0, 0x8000_0001, 0)),
    // 4: above 2^20 in size
    (FRESH, 0x4980_0000, 0, Grain::new(1, 0, 0x4980_0000, 0)),
    (FRESH, 0xc980_0000, 0, Grain::new(1, 0, 0xc980_0000, 0)),
    (FRESH, 0x4980_0001, 4, Grain::new(0, 1, 0, 0)),
    (FRESH, 0xc980_0001, 4, Grain::new(0, 1, 0, 0)),
    (FRESH, 0x7f7f_ffff, 4, Grain::new(0, 1, 0, 0)),
    (FRESH, 0xff7f_ffff, 4, Grain::new(0, 1, 0, 0)),
    // 1: infinities and NaN
    (FRESH, 0x7f80_0000, 1, Grain::new(0, 1, 0, 0)),
    (FRESH, 0xff80_0000, 1, Grain::new(0, 1, 0, 0)),
    (FRESH, 0x7f80_0001, 1, Grain::new(0, 1, 0, 0)),
    (FRESH, 0xffff_ffff, 1, Grain::new(0, 1, 0, 0)),
    // 11: 65,536 are taken, after 1 and 4
    (Grain::new(65_535, 7, 0x3f80_0000, 0x4000_0000), 0x3f80_0000, 0, Grain::new(65_536, 7, 0x3f80_0000, 0x4000_0000)),
    (Grain::new(65_536, 7, 0x3f80_0000, 0x4000_0000), 0x3f80_0000, 11, Grain::new(65_536, 8, 0x3f80_0000, 0x4000_0000)),
    (Grain::new(65_536, 7, 0x3f80_0000, 0x4000_0000), 0x4980_0001, 4, Grain::new(65_536, 8, 0x3f80_0000, 0x4000_0000)),
    (Grain::new(65_536, 7, 0x3f80_0000, 0x4000_0000), 0x7fc0_0000, 1, Grain::new(65_536, 8, 0x3f80_0000, 0x4000_0000)),
    // 12: 4,294,967,295 were offered, before 1, 4 and 11
    (Grain::new(0, 4_294_967_294, 0, 0), 0x3f80_0000, 0, Grain::new(1, 4_294_967_294, 0x3f80_0000, 0)),
    (Grain::new(1, 4_294_967_294, 0x3f80_0000, 0), 0x3f80_0000, 12, Grain::new(1, 4_294_967_294, 0x3f80_0000, 0)),
    (Grain::new(0, 4_294_967_294, 0, 0), 0x7fc0_0000, 1, Grain::new(0, 4_294_967_295, 0, 0)),
    (Grain::new(0, 4_294_967_295, 0, 0), 0x7fc0_0000, 12, Grain::new(0, 4_294_967_295, 0, 0)),
    (Grain::new(0, 4_294_967_295, 0, 0), 0x4980_0001, 12, Grain::new(0, 4_294_967_295, 0, 0)),
    (Grain::new(65_536, 4_294_901_758, 0x3f80_0000, 0), 0x3f80_0000, 11, Grain::new(65_536, 4_294_901_759, 0x3f80_0000, 0)),
    (Grain::new(65_536, 4_294_901_759, 0x3f80_0000, 0), 0x3f80_0000, 12, Grain::new(65_536, 4_294_901_759, 0x3f80_0000, 0)),
    // ... or more, as no history has it
    (Grain::new(1, 4_294_967_295, 0, 0), 0x3f80_0000, 12, Grain::new(1, 4_294_967_295, 0, 0)),
    (Grain::new(1 << 31, 1 << 31, 0, 0), 0x3f80_0000, 12, Grain::new(1 << 31, 1 << 31, 0, 0)),
];

fn by_hand() -> Count {
    let mut count = Count::default();
    for (before, sample, refusal, after) in BY_HAND {
        let mut grain = before;
        let (is, _) = call(&mut grain, sample);
        let told = [
            ("refusal", [refusal, is].map(|n| (n as u64) << 32)),
            ("count", [after.count, grain.count].map(u64::from)),
            ("tally", [after.refused, grain.refused].map(u64::from)),
            ("mean", [after.mean, grain.mean].map(u64::from)),
            ("sum", [after.sum, grain.sum].map(u64::from)),
        ];
        judge(&mut count, before, sample, &told);
    }
    count
}

/// Fresh records and some hundreds of samples at most, of every kind.
fn histories() -> Count {
    let (mut count, mut random) = (Count::default(), Random::new(7));
    for _ in 0..10_000 {
        let mut history = History::new(&mut count, FRESH);
        let kind = random.one_of(&KINDS);
        let (one, is_one) = (kind(&mut random), random.below(4) == 0);
        let (length, mixed) = (1 + random.below(400), random.one_of(&[6, 12, 100]));
        let mut last = one;
        for _ in 0..length {
            last = match random.below(mixed) {
                0 => end(&mut random),
                1 => random.word(),
                2 => random.one_of(&KINDS)(&mut random),
                3 | 4 => last,
                _ if is_one => one,
                _ => kind(&mut random),
            };
            history.offer(last);
        }
    }
    count
}

/// As many samples as a record takes, of one kind each time, with and without refused ones between them, and then more.
fn full() -> Count {
    let (mut count, mut random) = (Count::default(), Random::new(7));
    for (kind, between) in KINDS.into_iter().flat_map(|kind| [(kind, 0), (kind, 1)]) {
        let mut history = History::new(&mut count, FRESH);
        for place in 0..MOST_SAMPLES {
            history.offer(kind(&mut random));
            if between > 0 && place % 16 == 0 {
                history.offer(random.one_of(&[0x4980_0001, 0xff7f_ffff, 0x7f80_0000, 0xffc0_0000]));
            }
        }
        let taken = history.grain.count as u64;
        history.count.judge(Some(MOST_SAMPLES as u64), taken, || "the count after as many samples".to_string());
        for more in ends() {
            history.offer(more);
            history.offer(kind(&mut random));
        }
    }
    count
}

/// Records that have counted nearly as many offers as they can, or as many, or more, each end offered four times in a row.
fn limits() -> Count {
    const COUNTS: [u32; 10] = [0, 1, 65_534, 65_535, 65_536, 65_537, 1 << 31, 0xffff_0000, u32::MAX - 1, u32::MAX];
    const STATISTICS: [[u32; 2]; 4] = [[0, 0], [0x3f80_0000, 0x4000_0000], [SIGN, SIGN + 1], [0x7f80_0001, 0xff80_0000]];
    let mut count = Count::default();
    for taken in COUNTS {
        let left = u32::MAX - taken;
        let about = (0..4).flat_map(|n| [left.saturating_sub(n), left.saturating_add(n)]);
        for refused in about.chain([0, 1, 0x7fff_ffff, 0x8000_0000, u32::MAX - 1, u32::MAX]) {
            for [mean, sum] in STATISTICS {
                for sample in ends().chain([0x3f80_0000, 0xc2f6_e979]) {
                    let mut history = History::new(&mut count, Grain { count: taken, refused, mean, sum });
                    (0..4).for_each(|_| history.offer(sample));
                }
            }
        }
    }
    count
}

/// Any record, whether a history gives it or not.
fn any() -> Count {
    let (mut count, mut random, edges) = (Count::default(), Random::new(7), words::edges());
    let word = |random: &mut Random| match random.below(4) {
        0 => random.word(),
        1 => random.one_of(&edges),
        2 => end(random),
        _ => random.one_of(&KINDS)(random),
    };
    for _ in 0..1_000_000 {
        let taken = match random.below(8) {
            0 => random.word(),
            1 => 1 << random.below(32),
            2 => 65_530 + random.below(12) as u32,
            3 => random.below(4) as u32,
            _ => random.below(65_536) as u32,
        };
        let refused = match random.below(8) {
            0 => random.word(),
            1 => 1 << random.below(32),
            2 => (u32::MAX - taken).wrapping_add(2).wrapping_sub(random.below(6) as u32),
            3 => random.below(4) as u32,
            _ => random.word() >> (1 + random.below(31)),
        };
        let (mean, sum) = (word(&mut random), word(&mut random));
        let mut history = History::new(&mut count, Grain { count: taken, refused, mean, sum });
        (0..2).for_each(|_| history.offer(word(&mut random)));
    }
    count
}

/// A word offered to a fresh record three times, with refused ones between: the place of the first offer that does not go as it
/// should, counted from 1, or 0. The steps are left out: the mean has to be that word, and the sum a zero.
fn first_wrong(a: u32) -> u64 {
    let refusal = FRESH.refusal(a);
    let (mut grain, mut should) = (FRESH, FRESH);
    let offers = [(a, refusal), (0x7fc0_0000, 1), (a, refusal), (0x4980_0001, 4), (a, refusal)];
    for (place, (sample, refusal)) in (1..).zip(offers) {
        let accepted = (refusal == 0) as u32;
        should = of_one_word(a, should.count + accepted, should.refused + 1 - accepted);
        if call(&mut grain, sample) != (refusal, true) || grain != should {
            return place;
        }
    }
    0
}

/// These offers as a kernel of one operand, to be tried as the others are.
fn one_word() -> Kernel {
    Kernel {
        name: "grain, the first wrong offer of one word again and again",
        call: Call::Own(|a, _| first_wrong(a)),
        takes: Takes::One,
        agree: Agree::Exact,
        skips: |_, _| false,
        builds: |_, _| false,
        theirs: |_, _| 0,
        loops: |_, _, _| {},
    }
}

/// One word until the record is full, and once more.
fn one_word_until_full() -> Count {
    const OTHERS: [u32; 7] = [0x3f80_0000, 0x3dcc_cccd, 0xbeaa_aaab, 0x437f_0000, 0xc2f6_e979, 0x477f_ff00, 0x1cff_ffff];
    let mut count = Count::default();
    for sample in ends().filter(|end| FRESH.refusal(*end) == 0).chain(OTHERS) {
        let mut history = History::new(&mut count, FRESH);
        (0..=MOST_SAMPLES).for_each(|_| history.offer(sample));
    }
    count
}

/// What is tried of grain statistics, each count with its label; with `every`, each word again and again.
pub fn grain(every: bool) -> [(&'static str, Count); 7] {
    [
        ("grain, by hand", by_hand()),
        ("grain, random histories", histories()),
        ("grain, until the record is full and on", full()),
        ("grain, about the last offer", limits()),
        ("grain, any record", any()),
        ("grain, one word again and again", sweep(&one_word(), every)),
        ("grain, one word until the record is full", one_word_until_full()),
    ]
}

/// The rules as plain Rust, to be called as the library is.
#[inline(never)]
extern "C" fn called(grain: &mut Grain, sample: u32) -> u32 {
    grain.offer(sample, in_floats)
}

/// How long an offer takes that is taken: by the rules in plain Rust, in their loop and by a call, and by the library.
pub fn speed() -> String {
    const RUNS: usize = 31;
    let mut random = Random::new(7);
    let samples: Vec<u32> = (0..MOST_SAMPLES).map(|_| random.near_one()).collect();
    fn time(samples: &[u32], offer: impl Fn(&mut Grain, u32) -> u32) -> f64 {
        let mut grain = FRESH;
        let start = Instant::now();
        for sample in black_box(samples) {
            black_box(offer(&mut grain, *sample));
        }
        let time = start.elapsed().as_nanos() as f64 / samples.len() as f64;
        assert_eq!(black_box(grain).count, MOST_SAMPLES);
        time
    }
    let mut times = <[Vec<f64>; 3]>::default();
    for _ in 0..RUNS {
        times[0].push(time(&samples, |grain, sample| grain.offer(sample, in_floats)));
        times[1].push(time(&samples, |grain, sample| called(grain, sample)));
        times[2].push(time(&samples, |grain, sample| unsafe { dampmeadow_grain_offer(grain, sample) }));
    }
    let [inline, call, ours] = times.map(median);
    let rust = format!("plain Rust in its loop {inline:.2} ns, plain Rust by a call {call:.2} ns");
    let ours = format!("ours {ours:.2} ns ({:.2} times the loop, {:.2} times the call)", ours / inline, ours / call);
    format!("grain, a sample of {MOST_SAMPLES} that are taken, medians of {RUNS} runs of each side in turn: {rust}, {ours}")
}
