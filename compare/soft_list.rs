//! The recorded list for the engine without floats: lines of a call, its operands and the word that is due, to be replayed on a
//! controller. It is the same bytes whenever it is made. The words are the machine's own, which have to be those in whole numbers
//! too, and for the kernels the crate's, with a NaN as 7fc00000.

use crate::kernels::NAN;
use crate::soft_judge::Operation::{self, Add, Div, Mul, Sub};
use crate::soft_judge::{INFINITY, OPERATIONS, SIGN};
use crate::soft_pairs::{edges, pair, turns, STEPS};
use crate::soft_rows::{by_hand, Row, NAMES};
use crate::words::Random;
use std::collections::HashSet;
use std::io;
use std::path::Path;

/// Every two of these are operands of every operation.
const EDGES: [u32; 24] = [
    0x0000_0000,
    0x8000_0000,
    0x0000_0001,
    0x8000_0001,
    0x0000_0003,
    0x007f_ffff,
    0x807f_ffff,
    0x0080_0000,
    0x8080_0000,
    0x00ff_ffff,
    0x3300_0001,
    0xb380_0000,
    0x3f00_0000,
    0x3f7f_ffff,
    0x3f80_0000,
    0xbf80_0000,
    0x3f80_0001,
    0x4000_0000,
    0x4b80_0001,
    0x7300_0000,
    0x7f7f_ffff,
    0xff7f_ffff,
    INFINITY,
    0xff80_0000,
];

const NANS: [u32; 5] = [NAN, 0xffc0_0000, 0x7f80_0001, 0xffbf_ffff, 0xffff_ffff];

fn both<'a>(first: &'a [u32], second: &'a [u32]) -> impl Iterator<Item = (u32, u32)> + 'a {
    first.iter().flat_map(|a| second.iter().map(|b| (*a, *b)))
}

/// All of these pairs in one operation.
fn of(operation: Operation, pairs: impl Iterator<Item = (u32, u32)>) -> impl Iterator<Item = Row> {
    pairs.map(move |(a, b)| Row::Pair(operation, a, b))
}

/// Every two edges, and each NaN beside some. Finite numbers are added and multiplied in one order only.
fn edge_pairs() -> Vec<Row> {
    const BESIDE_NAN: [u32; 4] = [0x0000_0000, 0x8000_0001, 0xbf80_0000, INFINITY];
    let is_end = |w: u32| [0, INFINITY].contains(&(w & !SIGN));
    let nans = || both(&NANS, &BESIDE_NAN).chain(both(&BESIDE_NAN, &NANS)).chain(NANS.map(|nan| (nan, nan)));
    let rows = OPERATIONS.into_iter().flat_map(|operation| {
        let once = [Add, Mul].contains(&operation);
        of(operation, both(&EDGES, &EDGES).filter(move |&(a, b)| !once || a <= b || is_end(a) || is_end(b)).chain(nans()))
    });
    rows.collect()
}

/// 2 to so many, counted in the smallest number there is.
fn power(k: u32) -> u32 {
    if k < 23 {
        1 << k
    } else {
        (k - 22) << 23
    }
}

/// Sums that are half a step beside a word, or nearly.
fn half_steps() -> Vec<Row> {
    let beside = |a: u32, half: u32| [half - 1, half, half + 1].into_iter().flat_map(move |b| [(Add, a, b), (Add, b | SIGN, a | SIGN), (Add, a, b | SIGN), (Sub, a, b), (Sub, b, a)]);
    let above = both(&[2, 3, 24, 127, 254], &[0, 1, 0x7f_fffe, 0x7f_ffff]).flat_map(|(field, fraction)| beside(field << 23 | fraction, power(field - 2)));
    // below a power of two a step is half as long
    let below = [3, 24, 127, 254].into_iter().flat_map(|field| beside(field << 23, power(field - 3)));
    above.chain(below).map(|(operation, a, b)| Row::Pair(operation, a, b)).collect()
}

/// Sums of numbers that are far apart, and of those that are nearly or just the same.
fn far_and_near() -> Vec<Row> {
    const NEIGHBOURS: [(u32, u32); 8] = [
        (0x0080_0000, 0x007f_ffff),
        (0x0080_0001, 0x0080_0000),
        (0x0100_0000, 0x00ff_ffff),
        (0x3f80_0000, 0x3f7f_ffff),
        (0x3f80_0001, 0x3f80_0000),
        (0x4b80_0000, 0x4b7f_ffff),
        (0x7f00_0000, 0x7eff_ffff),
        (0x7f7f_ffff, 0x7f7f_fffe),
    ];
    const EQUAL: [u32; 6] = [0x0000_0001, 0x007f_ffff, 0x0080_0000, 0x3f80_0000, 0x3fc9_0fdb, 0x7f7f_ffff];
    const ENDS: [u32; 2] = [0, 0x7f_ffff];
    let fractions = |apart: u32| both(&ENDS, &ENDS).map(move |(x, y)| (127 << 23 | x, (127 - apart) << 23 | y));
    let far = (20..=27).chain(36..=40).chain(62..=65).flat_map(fractions).flat_map(|(a, b)| [(Add, a, b), (Add, b | SIGN, a), (Sub, b, a)]);
    let near = NEIGHBOURS.into_iter().chain(EQUAL.map(|x| (x, x))).flat_map(|(a, b)| [(Sub, a, b), (Sub, b | SIGN, a | SIGN), (Add, a, b | SIGN), (Add, a | SIGN, b)]);
    far.chain(near).map(|(operation, a, b)| Row::Pair(operation, a, b)).collect()
}

/// Few small numbers and the first normal ones, and the last numbers there are.
const SMALL: [u32; 13] = [1, 2, 3, 5, 6, 7, 0x7f_fffe, 0x7f_ffff, 0x80_0001, 0xff_fffd, 0xff_ffff, 0x100_0001, 0x8100_0003];
const LARGE: [u32; 6] = [0x7eff_ffff, 0x7f00_0000, 0x7f7f_fffc, 0xff7f_fffd, 0x7f7f_fffe, 0x7f7f_ffff];

/// Products about the end of small numbers and the end of all.
fn products() -> Vec<Row> {
    const PARTS: [u32; 7] = [0x3e80_0000, 0x3ec0_0000, 0x3eff_ffff, 0xbf00_0000, 0x3f00_0001, 0x3f40_0000, 0x3f7f_ffff];
    const ONES: [u32; 7] = [0x3f7f_fffe, 0x3f7f_ffff, 0x3f80_0000, 0xbf80_0001, 0x3f80_0002, 0x3fff_ffff, 0x4000_0000];
    const LOW: [u32; 7] = [0x19ff_ffff, 0x1a00_0000, 0x9a00_0001, 0x1a35_04f3, 0x1fff_fffe, 0x1fff_ffff, 0x2000_0000];
    const HIGH: [u32; 7] = [0x5f00_0000, 0x5f7f_fffe, 0x5f7f_ffff, 0x5f80_0000, 0xdf80_0001, 0x5f91_8e00, 0x5f61_2000];
    const TIES: [u32; 4] = [0x3f80_0001, 0x3f80_0003, 0xbf80_0005, 0x3fff_ffff];
    let ends = both(&SMALL, &PARTS).chain(both(&ONES, &LARGE)).chain(both(&LOW, &LOW)).chain(both(&HIGH, &HIGH));
    of(Mul, ends.chain(both(&TIES, &[0x3fc0_0000, 0x4040_0000, 0x4020_0000]))).collect()
}

/// Quotients about the same ends, with small operands, and such that only what is left tells them from a tie.
fn quotients() -> Vec<Row> {
    const BY: [u32; 8] = [0x3f00_0001, 0x3f80_0001, 0x3fff_ffff, 0xc000_0000, 0x4000_0001, 0x4040_0000, 0x4080_0000, 0x4b00_0000];
    const PARTS: [u32; 7] = [0x3eff_ffff, 0x3f00_0000, 0x3f00_0001, 0x3f7f_fffe, 0xbf7f_ffff, 0x3f80_0000, 0x3f80_0001];
    const SIZES: [u32; 7] = [0x0000_0001, 0x0000_0003, 0x0040_0000, 0x007f_ffff, 0x0080_0000, 0xb400_0000, 0x3f80_0000];
    const DIVISORS: [u32; 10] = [2, 3, 5, 0x8000_0007, 0x40_0000, 0x7f_fffe, 0x80_0001, 0x3f80_0003, 0x7e80_0001, 0x7f7f_ffff];
    of(Div, both(&SMALL, &BY).chain(both(&LARGE, &PARTS)).chain(both(&SIZES, &DIVISORS)).chain(beside_ties())).collect()
}

/// Two numbers of 24 digits whose quotient is more or less than a tie, but by less than 2^-17 of a step. The word below is even
/// where it is more, and odd where it is less.
fn beside_ties() -> impl Iterator<Item = (u32, u32)> {
    let mut random = Random::new(10);
    let mut beside = move |more: bool| loop {
        let (by, even) = (1 << 23 | random.below(1 << 23) as u64, (random.below(1 << 22) as u64) << 2);
        let tie = by * (1 << 24 | even | if more { 1 } else { 3 });
        let up = tie.ilog2() - 23;
        let dividend = (tie >> up) + more as u64;
        if (dividend << up).abs_diff(tie) < 64 && dividend < 1 << 24 {
            break [dividend, by].map(|digits| 127 << 23 | digits as u32 & 0x7f_ffff).into();
        }
    };
    (0..24).map(move |place| beside(place % 2 == 0))
}

/// Pairs at random, as a run tries them.
fn random_pairs(count: usize) -> Vec<Row> {
    let (mut random, edges) = (Random::new(10), edges());
    let rows = OPERATIONS.into_iter().cycle().map(|operation| {
        let (a, b) = pair(&mut random, &edges);
        Row::Pair(operation, a, b)
    });
    rows.take(count).collect()
}

/// Words for each kernel: about quarter turns and where a step ends, edges, and words at random, small ones among them.
fn kernel_words() -> Vec<Row> {
    // the quotient within atan_norm is more than a tie, or less, but by less than 2^-17 of a step
    const BESIDE_TIES: [u32; 6] = [0x3619_b18d, 0x4106_898b, 0x47d0_765b, 0x3b9c_825d, 0x3da2_ee2b, 0x42a0_fd89];
    let mut random = Random::new(10);
    let turns = turns((0..=16).chain([41, 100, 163, 652, 1_000, 10_000, 100_000, 1 << 23, 1 << 31]));
    let about = turns.chain(STEPS).flat_map(|size| [size.saturating_sub(1), size, size + 1]).flat_map(|size| [size, size | SIGN]);
    let mut words: Vec<u32> = about.chain(EDGES).chain(NANS).chain(BESIDE_TIES).collect();
    words.extend((0..60).flat_map(|_| [random.word(), random.near_one()]));
    words.extend((0..24).map(|_| random.word() & 0x80ff_ffff));
    NAMES.into_iter().flat_map(|name| words.iter().map(move |a| Row::Word(name, *a))).collect()
}

/// The whole list, each row once, where it first comes.
pub fn list() -> Vec<Row> {
    let by_hand = by_hand().map(|(row, _)| row).collect();
    let made = [by_hand, edge_pairs(), half_steps(), far_and_near(), products(), quotients(), random_pairs(800), kernel_words()];
    let mut before = HashSet::new();
    made.into_iter().flatten().filter(|row| before.insert(*row)).collect()
}

/// Writes the list to a folder, with the word that is due at the end of each line; but not if the machine and whole numbers, or
/// what was worked out by hand, part.
pub fn write(folder: &Path) -> io::Result<()> {
    let agreed = |row: &Row, how: &str, due: u32| match row.dues()[0] {
        own if own == due => Ok(()),
        own => Err(io::Error::other(format!("{row} is {due:08x} {how} and {own:08x} here, and nothing was written"))),
    };
    by_hand().try_for_each(|(row, due)| agreed(&row, "by hand", due))?;
    let mut lines = String::new();
    for row in list() {
        let [due, whole] = row.dues();
        agreed(&row, "by whole numbers", whole)?;
        lines += &format!("{row} {due:08x}\n");
    }
    std::fs::create_dir_all(folder)?;
    std::fs::write(folder.join("words.txt"), &lines)?;
    println!("{}: {} lines, {} bytes in words.txt", folder.display(), lines.lines().count(), lines.len());
    Ok(())
}
