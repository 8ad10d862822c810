//! How many products powi forms, guarded and raw, beside a count that a copy of the crate's own loop keeps, and beside the bits
//! of the power. Nothing here is taken from the library.

use crate::gates::Gate;
use crate::kernels::{is_nan, NAN};
use crate::sweep::{blocks, Count};
use crate::words::{edges, Random};
use micromath::F32;

/// What `--only` calls all of this.
pub const KEY: &str = "products";

#[link(name = "dampmeadow", kind = "static")]
extern "C" {
    fn dampmeadow_powi_products(a: u32, n: i32) -> u32;
}

#[link(name = "probe", kind = "static")]
extern "C" {
    fn probe_powi_products(a: u32, n: i32) -> u32;
}

/// The specification's most for a power that the gate takes, and the one size of a power that has them.
const MOST: u32 = 39;
const MOST_AT: u32 = (1 << 20) - 1;

/// 1.0000001 and -0.5, which are multiplied to the end whatever the power, and 3, which gives up from 128 and from -150 on.
const BASES: [u32; 3] = [0x3f80_0001, 0xbf00_0000, 0x4040_0000];

/// Bases and powers with the counts that are due, worked out by hand, and whether the guarded call is refused.
const BY_HAND: [(u32, i32, u32, bool); 26] = [
    (0x3f80_0000, 0, 0, false),
    (0x3f80_0000, 1, 1, false),
    (0x3f80_0000, -1, 1, false),
    (0x4040_0000, 2, 2, false),
    (0x4040_0000, 3, 3, false),
    (0xc040_0000, -3, 3, false),
    (0x4040_0000, 4, 3, false),
    // given up early: an infinity, 0, and the last before either
    (0x4040_0000, 128, 0, false),
    (0x4000_0000, 127, 13, false),
    (0x4000_0000, -149, 11, false),
    (0x4000_0000, -150, 0, false),
    (0x3ecc_cccd, 75, 0, false),
    (0x3f00_0000, 75, 10, false),
    // the ends of the power
    (0x3f80_0000, 1_048_575, 39, false),
    (0xbfff_ffff, -1_048_575, 39, false),
    (0x3f00_0000, 1_048_576, 21, false),
    (0x3f80_0000, -1_048_576, 21, false),
    (0x3f80_0000, 1_048_577, 22, true),
    (0x3f80_0000, -1_048_577, 22, true),
    (0x3f80_0000, i32::MAX, 61, true),
    (0x3f80_0000, i32::MIN, 0, true),
    // no base for the guarded call: a zero, a small number, an infinity, a NaN
    (0x0000_0000, 1, 0, true),
    (0x8000_0000, -1, 1, true),
    (0x007f_ffff, 1, 1, true),
    (0x7f80_0000, -1, 1, true),
    (0x7fc0_0000, -1, 1, true),
];

/// As many as a power of this size has if it is multiplied to the end: a squaring for each bit but the highest, and a product
/// into the result for each that is set.
fn by_bits(size: u32) -> u32 {
    31 - size.leading_zeros() + size.count_ones()
}

/// One word for all NaN.
fn same_nan(word: u32) -> u32 {
    if is_nan(word) {
        NAN
    } else {
        word
    }
}

/// Tries a base and a power, guarded and raw. With the least power the crate's loop need not end: it has none to count.
fn try_pair(count: &mut Count, gate: &Gate, a: u32, n: i32) {
    let refused = gate.refusal(a, n as u32) != 0;
    if n == i32::MIN {
        return judge_pair(count, a, n, 0, refused);
    }
    let (word, products) = counted::powi(a, n);
    // the judge is judged: the copy is the crate's powi still, it forms all products or none, and no more than is allowed
    let due = F32::from_bits(a).powi(n).to_bits();
    if same_nan(word) != same_nan(due) {
        count.judge(Some(due as u64), word as u64, || format!("the counted copy of the crate's powi of {a:08x} to {n}"));
    }
    let all = by_bits(n.unsigned_abs());
    if products != 0 && products != all {
        count.judge(Some(all as u64), products as u64, || format!("the count by the crate's loop of {a:08x} to {n}"));
    }
    if !refused && products > MOST {
        count.judge(Some(MOST as u64), products as u64, || format!("the most by the crate's loop of {a:08x} to {n}"));
    }
    judge_pair(count, a, n, products, refused);
}

fn judge_pair(count: &mut Count, a: u32, n: i32, products: u32, refused: bool) {
    let (guarded, raw) = unsafe { (dampmeadow_powi_products(a, n), probe_powi_products(a, n)) };
    let due = if refused { 0 } else { products };
    count.judge(Some(due as u64), guarded as u64, || format!("guarded products of {a:08x} to {n}"));
    count.judge(Some(products as u64), raw as u64, || format!("raw products of {a:08x} to {n}"));
}

/// Tries the pairs that have these numbers, on all cores.
fn over(label: &str, len: u64, pair: impl Fn(u64, &mut Random) -> (u32, i32) + Sync) -> Count {
    const BLOCK: u64 = 1 << 20;
    let gate = Gate::of("powi");
    let mut sum = Count::default();
    let run = |from: u64, to: u64| {
        let mut random = Random::new(from + 1);
        let mut count = Count::default();
        for i in from..to {
            let (a, n) = pair(i, &mut random);
            try_pair(&mut count, &gate, a, n);
        }
        count
    };
    blocks(label, len, BLOCK, run).iter().for_each(|count| sum.add(count));
    sum
}

/// That of the sizes that the gate takes one alone has the most.
fn most_once() -> Count {
    let mut count = Count::default();
    for size in 1..=1 << 20 {
        let products = unsafe { dampmeadow_powi_products(BASES[0], size as i32) };
        count.judge(Some((size == MOST_AT) as u64), (products == MOST) as u64, || format!("whether the power {size} takes {MOST}"));
    }
    count
}

pub fn products(every: bool, report: &mut impl FnMut(&str, Count)) {
    let mut by_hand = Count::default();
    for (a, n, products, refused) in BY_HAND {
        judge_pair(&mut by_hand, a, n, products, refused);
    }
    report("products of powi, by hand", by_hand);

    let edges = edges();
    let sides = edges.len() as u64;
    let label = "products of powi, edges";
    report(label, over(label, sides * sides, |i, _| (edges[(i / sides) as usize], edges[(i % sides) as usize] as i32)));

    // and three past each end
    const POWERS: u64 = 2 * ((1 << 20) + 3) + 1;
    let label = "products of powi, three bases to every power";
    let power = |i: u64| (i % POWERS) as i32 - ((1 << 20) + 3);
    report(label, over(label, BASES.len() as u64 * POWERS, |i, _| (BASES[(i / POWERS) as usize], power(i))));
    report("products of powi, where they are most", most_once());

    let label = "products of powi, random pairs";
    let pairs = if every { 1_000_000_000 } else { 10_000_000 };
    let drawn = |_: u64, random: &mut Random| {
        let (a, b) = random.power_or_end();
        (a, b as i32)
    };
    report(label, over(label, pairs, drawn));
}
