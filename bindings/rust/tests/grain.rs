//! Grain statistics: known records, histories beside a judge, the ends of both counts, and one sample over and over.

mod words;

use dampmeadow::*;
use words::words;

/// Count, refused, and the words of mean and sum.
type Record = (u32, u32, u32, u32);

const FRESH: Record = (0, 0, 0, 0);
const NAN: u32 = 0x7fc0_0000;
const HALF: u32 = 0x3f00_0000;
const QUARTER: u32 = 0x3e80_0000;
const ONE: u32 = 0x3f80_0000;
/// 2^20, and the first above it.
const LARGE: u32 = 0x4980_0000;
const ABOVE: u32 = 0x4980_0001;
const FULL: u32 = Grain::MOST_SAMPLES;
const END: u32 = Grain::MOST_OFFERS;

fn grain((count, refused, mean, sum): Record) -> Grain {
    Grain::of(count, refused, f32::from_bits(mean), f32::from_bits(sum))
}

fn record(grain: &Grain) -> Record {
    (grain.count(), grain.refused(), grain.mean().to_bits(), grain.sum().to_bits())
}

/// An offer, and the number of its refusal, 0 for none.
fn offered(grain: &mut Grain, word: u32) -> u32 {
    grain.offer(f32::from_bits(word)).err().map_or(0, Refusal::number)
}

/// What an offer is to answer and to leave, by numbers where the library goes by words.
fn judged((count, refused, mean, sum): Record, word: u32) -> (u32, Record) {
    let (x, before) = (f32::from_bits(word), f32::from_bits(mean));
    let refusal = if u64::from(count) + u64::from(refused) >= 4_294_967_295 {
        return (12, (count, refused, mean, sum));
    } else if x.is_nan() || x.is_infinite() {
        1
    } else if !(-1_048_576.0..=1_048_576.0).contains(&x) {
        4
    } else if count >= 65_536 {
        11
    } else {
        let n = count + 1;
        let d = x - before;
        let share = d / n as f32;
        let after = before + share;
        let rest = x - after;
        let square = d * rest;
        return (0, (n, refused, after.to_bits(), (f32::from_bits(sum) + square).to_bits()));
    };
    (refusal, (count, refused + 1, mean, sum))
}

/// Samples offered to a fresh record, their refusals, and what they leave.
const HISTORIES: [(&[u32], &[u32], Record); 13] = [
    (&[], &[], FRESH),
    // 1, 2, 3, 4
    (&[ONE, 0x4000_0000, 0x4040_0000, 0x4080_0000], &[0; 4], (4, 0, 0x4020_0000, 0x40a0_0000)),
    // 2, 4, 4, 4, 5, 5, 7, 9
    (
        &[0x4000_0000, 0x4080_0000, 0x4080_0000, 0x4080_0000, 0x40a0_0000, 0x40a0_0000, 0x40e0_0000, 0x4110_0000],
        &[0; 8],
        (8, 0, 0x40a0_0000, 0x4200_0000),
    ),
    // 0.5, 0.8, 0.2, 0.9, and 0.1 thrice and 0.6
    (&[HALF, 0x3f4c_cccd, 0x3e4c_cccd, 0x3f66_6666], &[0; 4], (4, 0, 0x3f19_999a, 0x3e99_999a)),
    (&[0x3dcc_cccd, 0x3dcc_cccd, 0x3dcc_cccd, 0x3f19_999a], &[0; 4], (4, 0, 0x3e66_6666, 0x3e40_0001)),
    // both ends of what is taken, and past them
    (&[LARGE, NAN, 0xc980_0001, 0xc980_0000], &[0, 1, 4, 0], (2, 2, 0, 0x5400_0000)),
    (&[ABOVE, LARGE, 0x7f7f_ffff, 0xff7f_ffff], &[4, 0, 4, 4], (1, 3, LARGE, 0)),
    // infinities and NaN of every kind
    (&[0x7f80_0000, 0xff80_0000, 0x7f80_0001, 0xffc0_0001, 0xffff_ffff], &[1; 5], (0, 5, 0, 0)),
    // zeros: the mean of -0 is +0
    (&[0x8000_0000], &[0], (1, 0, 0, 0)),
    (&[0x8000_0000, 0, 0x8000_0000], &[0; 3], (3, 0, 0, 0)),
    // numbers too small to be normal, and the first that is normal
    (&[1, 0x8000_0001, 3], &[0; 3], (3, 0, 1, 0)),
    (&[0x807f_ffff, 0x0080_0000], &[0; 2], (2, 0, 1, 0)),
    (&[1, 1], &[0; 2], (2, 0, 1, 0)),
];

#[test]
fn known_histories_leave_known_records() {
    for (samples, refusals, due) in HISTORIES {
        let mut grain = Grain::new();
        let given: Vec<u32> = samples.iter().map(|&sample| offered(&mut grain, sample)).collect();
        assert_eq!(given, refusals, "{samples:08x?}");
        assert_eq!(record(&grain), due, "{samples:08x?}");
    }
}

/// A record, a sample, its refusal, and the record afterwards.
const OFFERS: [(Record, u32, u32, Record); 32] = [
    ((3, 2, HALF, QUARTER), LARGE, 0, (4, 2, 0x4880_000c, 0x533f_fff4)),
    ((3, 2, HALF, QUARTER), 0xc980_0000, 0, (4, 2, 0xc87f_ffe8, 0x5340_000c)),
    ((3, 2, HALF, QUARTER), ABOVE, 4, (3, 3, HALF, QUARTER)),
    ((3, 2, HALF, QUARTER), 0xc980_0001, 4, (3, 3, HALF, QUARTER)),
    ((3, 2, HALF, QUARTER), 0x7f7f_ffff, 4, (3, 3, HALF, QUARTER)),
    ((3, 2, HALF, QUARTER), 0x7f80_0000, 1, (3, 3, HALF, QUARTER)),
    ((3, 2, HALF, QUARTER), NAN, 1, (3, 3, HALF, QUARTER)),
    // about 65,536 samples: 1 and 4 come before 11
    ((FULL - 1, 0, HALF, QUARTER), ONE, 0, (FULL, 0, 0x3f00_0080, 0x3eff_ff80)),
    ((FULL - 1, 0, HALF, QUARTER), ABOVE, 4, (FULL - 1, 1, HALF, QUARTER)),
    ((FULL, 0, HALF, QUARTER), ONE, 11, (FULL, 1, HALF, QUARTER)),
    ((FULL, 0, HALF, QUARTER), LARGE, 11, (FULL, 1, HALF, QUARTER)),
    ((FULL, 0, HALF, QUARTER), 0, 11, (FULL, 1, HALF, QUARTER)),
    ((FULL, 0, HALF, QUARTER), ABOVE, 4, (FULL, 1, HALF, QUARTER)),
    ((FULL, 0, HALF, QUARTER), 0x7f80_0000, 1, (FULL, 1, HALF, QUARTER)),
    ((FULL, 0, HALF, QUARTER), NAN, 1, (FULL, 1, HALF, QUARTER)),
    ((70_000, 7, HALF, QUARTER), ONE, 11, (70_000, 8, HALF, QUARTER)),
    // about 4,294,967,295 offers: 12 comes before all
    ((0, END - 1, 0, 0), ONE, 0, (1, END - 1, ONE, 0)),
    ((0, END - 1, 0, 0), NAN, 1, (0, END, 0, 0)),
    ((0, END - 1, 0, 0), ABOVE, 4, (0, END, 0, 0)),
    ((0, END, 0, 0), ONE, 12, (0, END, 0, 0)),
    ((0, END, 0, 0), NAN, 12, (0, END, 0, 0)),
    ((0, END, 0, 0), ABOVE, 12, (0, END, 0, 0)),
    ((1, END - 1, HALF, QUARTER), ONE, 12, (1, END - 1, HALF, QUARTER)),
    ((FULL, END - FULL - 1, HALF, QUARTER), NAN, 1, (FULL, END - FULL, HALF, QUARTER)),
    ((FULL, END - FULL, HALF, QUARTER), ONE, 12, (FULL, END - FULL, HALF, QUARTER)),
    ((FULL, END - FULL, HALF, QUARTER), NAN, 12, (FULL, END - FULL, HALF, QUARTER)),
    // counts that no offers leave; the sum of the two may be past 32 bits
    ((END - 1, 0, HALF, QUARTER), ONE, 11, (END - 1, 1, HALF, QUARTER)),
    ((END, 0, HALF, QUARTER), ONE, 12, (END, 0, HALF, QUARTER)),
    ((1, END, HALF, QUARTER), ONE, 12, (1, END, HALF, QUARTER)),
    ((2, END, HALF, QUARTER), NAN, 12, (2, END, HALF, QUARTER)),
    ((FULL, END, HALF, QUARTER), ONE, 12, (FULL, END, HALF, QUARTER)),
    ((END, END, HALF, QUARTER), ABOVE, 12, (END, END, HALF, QUARTER)),
];

#[test]
fn an_offer_is_taken_or_refused_in_the_order_12_1_4_11() {
    for (before, sample, refusal, after) in OFFERS {
        let mut grain = grain(before);
        assert_eq!(offered(&mut grain, sample), refusal, "{before:x?} {sample:08x}");
        assert_eq!(record(&grain), after, "{before:x?} {sample:08x}");
    }
}

/// Numbers by chance, the same in every run.
struct Chance(u64);

impl Chance {
    fn next(&mut self) -> u64 {
        self.0 = self.0.wrapping_add(0x9e37_79b9_7f4a_7c15);
        let mixed = (self.0 ^ self.0 >> 30).wrapping_mul(0xbf58_476d_1ce4_e5b9);
        let mixed = (mixed ^ mixed >> 27).wrapping_mul(0x94d0_49bb_1331_11eb);
        mixed ^ mixed >> 31
    }

    fn below(&mut self, end: u32) -> u32 {
        (self.next() % u64::from(end)) as u32
    }

    /// A sample: of a scan, a whole number, of any size that is taken, an edge, or any word.
    fn sample(&mut self, edges: &[u32]) -> u32 {
        match self.below(16) {
            0..=6 => (self.below(1 << 24) as f32 / (1 << 24) as f32).to_bits(),
            7..=8 => (self.below(41) as f32 - 20.0).to_bits(),
            9..=11 => self.below(LARGE + 1) | self.below(2) << 31,
            12..=14 => edges[self.below(edges.len() as u32) as usize],
            _ => self.next() as u32,
        }
    }

    /// A record to begin with: a fresh one, one that is soon full, or one that has soon counted all its offers.
    fn start(&mut self) -> Record {
        let (mean, sum) = (self.below(LARGE + 1) | self.below(2) << 31, self.below(0x5b80_0000));
        match self.below(8) {
            0 => (FULL - self.below(100), self.below(1000), mean, sum),
            1 => {
                let count = FULL - self.below(FULL + 1);
                (count, END - count - self.below(200), mean, sum)
            }
            _ => FRESH,
        }
    }
}

#[test]
fn a_history_leaves_what_the_judge_says_after_each_offer() {
    let edges: Vec<u32> = words().chain([LARGE - 1, LARGE, ABOVE].into_iter().flat_map(|w| [w, w | 1 << 31])).collect();
    let mut chance = Chance(7);
    let mut given = [0; 13];
    for history in 0..2000 {
        let start = chance.start();
        let (mut grain, mut due) = (grain(start), start);
        for offer in 0..chance.below(201) {
            let sample = chance.sample(&edges);
            let (refusal, after) = judged(due, sample);
            assert_eq!(offered(&mut grain, sample), refusal, "history {history}, offer {offer}: {due:x?} {sample:08x}");
            assert_eq!(record(&grain), after, "history {history}, offer {offer}: {due:x?} {sample:08x}");
            if start == FRESH {
                assert!(grain.mean().is_finite() && grain.sum().is_finite() && grain.sum() >= 0.0, "{due:x?} {sample:08x}");
                assert_eq!(grain.count() + grain.refused(), offer + 1, "history {history}");
            }
            given[refusal as usize] += 1;
            due = after;
        }
    }
    for refusal in [0, 1, 4, 11, 12] {
        assert!(given[refusal] > 1000, "only {} offers had {refusal}", given[refusal]);
    }
}

#[test]
fn a_record_takes_65536_samples_and_no_more() {
    let (mut grain, mut due, mut chance) = (Grain::new(), FRESH, Chance(11));
    for _ in 0..FULL {
        let sample = chance.below(LARGE + 1) | chance.below(2) << 31;
        due = judged(due, sample).1;
        assert_eq!(grain.offer(f32::from_bits(sample)), Ok(()));
        assert_eq!(record(&grain), due);
    }
    assert_eq!((grain.count(), grain.refused()), (65_536, 0));
    for refused in 1..=3 {
        assert_eq!(grain.offer(0.5), Err(Refusal::Full));
        assert_eq!(record(&grain), (65_536, refused, due.2, due.3));
    }
}

#[test]
fn a_record_counts_its_last_offer_and_no_other() {
    let mut full = grain((65_536, 4_294_901_758, HALF, QUARTER));
    assert_eq!(full.offer(0.5), Err(Refusal::Full));
    for _ in 0..2 {
        assert_eq!(record(&full), (65_536, 4_294_901_759, HALF, QUARTER));
        assert_eq!(full.offer(0.5), Err(Refusal::WornOut));
    }
    assert_eq!(record(&full), (65_536, 4_294_901_759, HALF, QUARTER));

    let mut last = grain((1, 4_294_967_293, HALF, QUARTER));
    assert_eq!(last.offer(0.5), Ok(()));
    for sample in [0.5, f32::NAN, f32::INFINITY, f32::MAX] {
        assert_eq!(record(&last), (2, 4_294_967_293, HALF, QUARTER));
        assert_eq!(last.offer(sample), Err(Refusal::WornOut));
    }
    assert_eq!(record(&last), (2, 4_294_967_293, HALF, QUARTER));
}

#[test]
fn one_sample_over_and_over_is_the_mean_and_has_no_spread() {
    // zeros, numbers too small to be normal and the first that is, a tenth, the ends of what is taken, and others
    let samples = [
        0x00000000, 0x80000000, 0x00000001, 0x80000001, 0x807fffff, 0x00800000, 0x3dcccccd, 0xbf7fffff, 0x3fc90fdb, 0x497fffff,
        0x49800000, 0xc9800000,
    ];
    for sample in samples {
        let mut grain = Grain::new();
        let mean = if sample == 0x8000_0000 { 0 } else { sample };
        for count in 1..=FULL {
            assert_eq!(offered(&mut grain, sample), 0, "{sample:08x}");
            // what is refused in between changes neither
            assert_eq!(offered(&mut grain, NAN), 1, "{sample:08x}");
            assert_eq!(record(&grain), (count, count, mean, 0), "{sample:08x}");
        }
    }
}

#[test]
fn a_record_with_a_nan_or_an_infinity_goes_through_the_steps() {
    let (nan, endless) = (f32::NAN, f32::INFINITY);
    let same = |a: f32, b: f32| a == b || a.is_nan() && b.is_nan();
    for (mean, sum, mean_after, sum_after) in [
        (endless, 0.0, nan, nan),
        (-endless, 0.0, nan, nan),
        (nan, 0.0, nan, nan),
        (0.0, nan, 0.5, nan),
        (0.0, endless, 0.5, endless),
        (0.0, -endless, 0.5, -endless),
        // a square that is too large
        (f32::MAX, 0.0, f32::MAX / 2.0, endless),
    ] {
        let mut grain = Grain::of(1, 0, mean, sum);
        assert_eq!(grain.offer(1.0), Ok(()), "{mean} {sum}");
        assert_eq!((grain.count(), grain.refused()), (2, 0), "{mean} {sum}");
        assert!(same(grain.mean(), mean_after) && same(grain.sum(), sum_after), "{mean} {sum}: {grain:?}");
    }
}

#[test]
fn a_record_is_sixteen_bytes_and_its_neighbours_stay() {
    const NEW: Grain = Grain::new();
    assert_eq!((size_of::<Grain>(), align_of::<Grain>()), (16, 4));
    assert_eq!((record(&NEW), record(&Grain::default())), (FRESH, FRESH));
    assert_eq!((Grain::MOST_SAMPLES, Grain::MOST_OFFERS, Grain::LARGEST.to_bits()), (65_536, 4_294_967_295, LARGE));

    let kept = Grain::of(1, 2, 3.0, 4.0);
    let mut row = [kept; 3];
    assert_eq!((row[1].count(), row[1].refused(), row[1].mean(), row[1].sum()), (1, 2, 3.0, 4.0));
    assert_eq!(row[1].offer(5.0), Ok(()));
    assert_eq!(row, [kept, Grain::of(2, 2, 4.0, 6.0), kept]);
    // a copy goes its own way
    let mut copy = row[1];
    assert_eq!(copy.offer(f32::NAN), Err(Refusal::NotFinite));
    assert_eq!((copy, row[1]), (Grain::of(2, 3, 4.0, 6.0), Grain::of(2, 2, 4.0, 6.0)));
}

#[test]
fn the_two_refusals_of_a_record_say_what_they_are() {
    assert_eq!((Refusal::Full.number(), Refusal::WornOut.number()), (11, 12));
    assert_eq!(Refusal::Full.to_string(), "refusal 11: the record holds 65536 samples");
    assert_eq!(Refusal::WornOut.to_string(), "refusal 12: the record has counted 4294967295 offers");
}
