//! How long a word of a strip takes, ours beside two loops of the crate's kernel: one with the crate as a crate of its own, as
//! cargo builds it, and one in one crate with the kernel, so that all of it can be put into the loop. Over words that the guarded
//! form answers, over the same with one place in a hundred special, and with each, and over the first few of them. It measures and
//! judges nothing.

use crate::kernels::{Kernel, Takes};
use crate::offsets::puts;
use crate::speed::{at_once, clean, median, strips, times, Side, WORDS};
use crate::words::Random;
use std::env::consts::ARCH;
use std::fmt::Display;
use std::fs;

const TURNS: usize = 16;
const ROUNDS: usize = 101;

/// One place in so many of mixed words is special.
const SPECIAL: usize = 100;

/// The lengths of short strips: of the first two no word is in a block, and of the last each.
const SHORT: [usize; 3] = [8, 31, 32];

/// The processor's name, or its kind where it has none.
fn processor() -> String {
    let told = fs::read_to_string("/proc/cpuinfo").unwrap_or_default();
    let name = told.lines().find_map(|line| line.strip_prefix("model name")?.split_once(": "));
    name.map_or(ARCH, |(_, name)| name).to_string()
}

/// What the run is, to stand above its rows, and the names of their columns.
pub fn heading() -> String {
    let clean = format!("clean: strips of {WORDS} random words of size 2^-15 to 2^17 that the guarded call answers, the same for all sides");
    let which = "one operand, or of two floats the first, the second or both with the same kind, a third each at random";
    let kinds = "a special word is a zero, a small number, an infinity or a NaN, each kind as likely, of either sign; powi's powers stay";
    let mixed = format!("mixed: of these one place in {SPECIAL}, at random, is special: {which}; {kinds}");
    let others = format!("special: each place is; {SHORT:?}: strips of so many clean words");
    let runs = format!("{TURNS} turns to a run, or as many more as the strip is shorter, {ROUNDS} rounds of a run of each side in turn");
    let medians = "medians of a word's time and, in times, of the ratio of ours to the crate's in a round";
    let flags = "the crate by rustc -C opt-level=3 -C overflow-checks=off, no processor named, the library by rt, -O3 for the base processor";
    let columns = ["number", "kernel", "words", "the crate inlined, ns", "the crate in a loop, ns", "ours, ns", "times inlined", "times in a loop"];
    let table = [row(columns), row(columns.map(|_| "---"))].join("\n");
    format!("{clean}\n{mixed}\n{others}\n{runs}; {medians}\non {}; {flags}\n\n{table}", processor())
}

/// A row of a table.
fn row(cells: impl IntoIterator<Item = impl Display>) -> String {
    cells.into_iter().map(|cell| format!("| {cell} ")).chain(["|".to_string()]).collect()
}

/// These words with one place in so many, at random, special: one operand, or of two floats the first, the second or both with the
/// same kind, a third each at random. A power in two's complement stays as it is.
fn mixed(takes: Takes, words: &[(u32, u32)], one_in: usize) -> Vec<(u32, u32)> {
    let (mut random, mut mixed, mut order) = (Random::new(8), words.to_vec(), Vec::from_iter(0..words.len()));
    // the first places of an order at random, so that there are neither more nor fewer
    for n in 0..words.len() / one_in {
        order.swap(n, n + random.below(words.len() - n));
        let (place, [special, other]) = (order[n], random.specials());
        mixed[place] = random.one_of(puts(takes))(words[place], special, other);
    }
    mixed
}

/// A row of these words for a kernel that has a number.
fn over(kernel: &Kernel, number: u32, name: &str, words: &[(u32, u32)]) -> String {
    let loops = inlined::loops(number).expect("the same kernels are inlined");
    let mut sides = vec![Side::new("the crate inlined", true, at_once(words, move |first, second, answers, _| loops(first, second, answers)))];
    sides.extend(strips(kernel, &[("ours", kernel)], words));
    let times = times(&mut sides, TURNS * WORDS / words.len(), ROUNDS);
    let ratio = |theirs: &Vec<f64>| format!("{:.2}", median(times[2].iter().zip(theirs).map(|(ours, theirs)| ours / theirs).collect()));
    let medians = times.iter().map(|times| format!("{:.3}", median(times.clone()) / words.len() as f64));
    row([format!("{number:02x}"), kernel.name.to_string(), name.to_string()].into_iter().chain(medians).chain(times[..2].iter().map(ratio)))
}

/// The rows of a kernel, if it has a number: clean words, mixed ones, special ones, and a few clean ones. Its raw form and its
/// guarded one have the same.
pub fn rows(kernel: &Kernel) -> Option<Vec<String>> {
    let number = kernel.number()?;
    let clean = clean(kernel.name, WORDS);
    let [mixed, special] = [SPECIAL, 1].map(|one_in| mixed(kernel.takes, &clean, one_in));
    let long = [("clean", &clean), ("mixed", &mixed), ("special", &special)].map(|(name, words)| over(kernel, number, name, words));
    let short = SHORT.map(|length| over(kernel, number, &length.to_string(), &clean[..length]));
    Some(long.into_iter().chain(short).collect())
}
