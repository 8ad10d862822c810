//! The engine without floats: its four operations beside the machine's own and, on a part of the pairs, beside the judge in whole
//! numbers, and its kernels beside the library's first engine and beside the crate's. And how long a call takes.

use crate::kernels::{is_nan, words, Agree, Call, Kernel};
use crate::soft_judge::{Operation, INFINITY, KINDS, OPERATIONS, SIGN};
use crate::soft_list::list;
use crate::soft_pairs::{edges, for_kernels, pair, Grid};
use crate::soft_rows::{by_hand, of_the_crate, Row};
use crate::speed::{singly, timed, Side, RUNS, TURNS, WORDS};
use crate::sweep::{blocks, each, sweep, Count};
use crate::words::Random;

/// What `--only` calls all of this.
pub const KEY: &str = "soft";

#[link(name = "dampmeadow", kind = "static")]
extern "C" {
    fn dampmeadow_soft_add(a: u32, b: u32) -> u32;
    fn dampmeadow_soft_sub(a: u32, b: u32) -> u32;
    fn dampmeadow_soft_mul(a: u32, b: u32) -> u32;
    fn dampmeadow_soft_div(a: u32, b: u32) -> u32;
    fn dampmeadow_soft_cos(a: u32) -> u32;
    fn dampmeadow_soft_sin(a: u32) -> u32;
    fn dampmeadow_soft_atan_norm(a: u32) -> u32;
    fn dampmeadow_soft_atan(a: u32) -> u32;
    fn dampmeadow_atan_norm(a: u32) -> u32;
}

#[inline(always)]
fn call(operation: Operation, a: u32, b: u32) -> u32 {
    unsafe {
        match operation {
            Operation::Add => dampmeadow_soft_add(a, b),
            Operation::Sub => dampmeadow_soft_sub(a, b),
            Operation::Mul => dampmeadow_soft_mul(a, b),
            Operation::Div => dampmeadow_soft_div(a, b),
        }
    }
}

/// A kernel on this engine and on the library's first.
struct Soft {
    name: &'static str,
    /// What it is called beside the first engine, and beside the crate.
    labels: [&'static str; 2],
    ours: fn(u32, u32) -> u64,
    first: fn(u32, u32) -> u32,
    /// The kinds of answers that it has.
    has: &'static [&'static str],
}

macro_rules! soft {
    ($name:literal, $ours:ident, $first:expr, $has:expr) => {
        Soft {
            name: $name,
            labels: [concat!("soft ", $name, " beside the first engine"), concat!("soft ", $name, " beside the crate")],
            ours: |a, _| unsafe { $ours(a) as u64 },
            first: $first,
            has: $has,
        }
    };
}

/// The kinds of answers that the cosine and the sine have, and the arctangents.
const OF_WAVES: &[&str] = &["NaN", "infinite", "-infinite", "+0", "normal"];
const OF_ARCS: &[&str] = &["NaN", "+0", "-0", "small", "normal"];

const KERNELS: [Soft; 4] = [
    soft!("cos", dampmeadow_soft_cos, |a, _| words(0x93, a, 0) as u32, OF_WAVES),
    soft!("sin", dampmeadow_soft_sin, |a, _| words(0x94, a, 0) as u32, OF_WAVES),
    soft!("atan_norm", dampmeadow_soft_atan_norm, |a, _| unsafe { dampmeadow_atan_norm(a) }, OF_ARCS),
    soft!("atan", dampmeadow_soft_atan, |a, _| words(0x91, a, 0) as u32, OF_ARCS),
];

impl Soft {
    /// This call beside the first engine, bit for bit, and beside the crate, to be tried as the others are.
    fn beside(&self) -> [Kernel; 2] {
        let theirs = || Kernel { call: Call::Own(self.ours), ..of_the_crate(self.name) };
        [Kernel { name: self.labels[0], agree: Agree::Exact, theirs: self.first, ..theirs() }, Kernel { name: self.labels[1], ..theirs() }]
    }
}

/// What was tried of the operations, and how many answers of each were of each kind, of those judged in whole numbers.
#[derive(Default)]
struct Tried {
    count: Count,
    kinds: [[u64; KINDS.len()]; 4],
}

impl Tried {
    /// Tries every operation on a pair, beside the machine and, if `whole`, beside whole numbers too.
    #[inline(always)]
    fn pair(&mut self, (a, b): (u32, u32), whole: bool) {
        for operation in OPERATIONS {
            let ours = call(operation, a, b) as u64;
            let asked = |how: &str| format!("soft {} of {a:08x} {b:08x} {how}", operation.name());
            self.count.judge(Some(operation.by_machine(a, b) as u64), ours, || asked("beside the machine"));
            if whole {
                let (due, kind) = operation.by_whole_numbers(a, b);
                self.kinds[operation as usize][kind as usize] += 1;
                self.count.judge(Some(due as u64), ours, || asked("by whole numbers"));
            }
        }
    }

    fn add(&mut self, other: &Tried) {
        self.count.add(&other.count);
        let kinds = self.kinds.as_flattened_mut().iter_mut().zip(other.kinds.as_flattened());
        kinds.for_each(|(answers, more)| *answers += more);
    }

    /// The kinds of an operation's answers.
    fn each(&self, operation: Operation) -> (String, Count) {
        let kinds = KINDS.iter().map(|(kind, name, has)| (*name, has.contains(&operation), self.kinds[operation as usize][*kind as usize]));
        each(&format!("soft {}", operation.name()), kinds)
    }
}

/// Tries so many numbered pairs, one in `part` of them in whole numbers too. Those of a block may be drawn at random.
fn pairs(label: &str, len: u64, part: u64, at: impl Fn(u64, &mut Random) -> (u32, u32) + Sync) -> Tried {
    let run = |from: u64, to: u64| {
        let (mut tried, mut random) = (Tried::default(), Random::new(from + 1));
        (from..to).for_each(|i| tried.pair(at(i, &mut random), i % part == 0));
        tried
    };
    let mut all = Tried::default();
    blocks(label, len, 1 << 18, run).iter().for_each(|tried| all.add(tried));
    all
}

/// The operations on edges, on a grid of exponents and on pairs at random, and then the kinds of the answers.
fn operations(every: bool, report: &mut impl FnMut(&str, Count)) {
    let (edges, grid, mut all) = (edges(), Grid::new(every), Tried::default());
    let n = edges.len() as u64;
    // primes, so that every kind of pair is among those of a part
    let [grid_part, random_part] = if every { [7, 61] } else { [1, 5] };
    let random = if every { 1_000_000_000 } else { 4_000_000 };
    let mut done = |label: &str, tried: Tried| {
        all.add(&tried);
        report(label, tried.count);
    };
    let label = "soft operations, edges";
    done(label, pairs(label, n * n, 1, |i, _| (edges[(i / n) as usize], edges[(i % n) as usize])));
    let label = format!("soft operations, pairs of {} exponents", grid.fields());
    done(&label, pairs(&label, grid.len(), grid_part, |i, _| grid.at(i)));
    let label = "soft operations, pairs at random";
    done(label, pairs(label, random, random_part, |_, random| pair(random, &edges)));
    for (label, count) in OPERATIONS.map(|operation| all.each(operation)) {
        report(&label, count);
    }
}

/// The kinds of answers that a kernel may have.
const ANSWERS: [&str; 7] = ["NaN", "infinite", "-infinite", "+0", "-0", "small", "normal"];

/// Which of these a word is.
fn answer(word: u32) -> usize {
    match word {
        _ if is_nan(word) => 0,
        INFINITY => 1,
        0xff80_0000 => 2,
        0 => 3,
        SIGN => 4,
        _ if word & INFINITY == 0 => 5,
        _ => 6,
    }
}

/// One word in 1,021 of all, on all cores.
fn strides(kernel: &Kernel) -> Count {
    const STRIDE: u64 = 1_021;
    let run = |from: u64, to: u64| {
        let mut count = Count::default();
        for a in (from..to).map(|i| (i * STRIDE) as u32) {
            count.judge(kernel.expected(a, 0), kernel.ours(a, 0), || kernel.asked(a, 0));
        }
        count
    };
    let mut all = Count::default();
    blocks(kernel.name, (1 << 32) / STRIDE + 1, 1 << 16, run).iter().for_each(|count| all.add(count));
    all
}

/// A kernel beside the first engine on each word, or on edges, strides and random ones, and beside the crate on more strides; and
/// beside both on words about its own ends, with the kinds of answers.
fn kernel(soft: &Soft, every: bool, report: &mut impl FnMut(&str, Count)) {
    let beside = soft.beside();
    let (mut count, mut answers) = (Count::default(), [0; ANSWERS.len()]);
    for a in for_kernels() {
        for kernel in &beside {
            count.judge(kernel.expected(a, 0), kernel.ours(a, 0), || kernel.asked(a, 0));
        }
        answers[answer((soft.ours)(a, 0) as u32)] += 1;
    }
    let [first, theirs] = &beside;
    report(first.name, sweep(first, every));
    report(theirs.name, strides(theirs));
    report(&format!("soft {} about quarter turns and ends", soft.name), count);
    let (label, count) = each(&format!("soft {}", soft.name), (0..).zip(ANSWERS).map(|(place, kind)| (kind, soft.has.contains(&kind), answers[place])));
    report(&label, count);
}

/// What the library gives for a row of the recorded list.
fn answered(row: &Row) -> u64 {
    match *row {
        Row::Pair(operation, a, b) => call(operation, a, b) as u64,
        Row::Word(name, a) => KERNELS.iter().find(|kernel| kernel.name == name).map_or(u64::MAX, |kernel| (kernel.ours)(a, 0)),
    }
}

/// Tries the eight calls, and reports each count with its label; with `every`, on every pair of exponents, 10^9 pairs at random
/// and each of the 2^32 words.
pub fn soft(every: bool, mut report: impl FnMut(&str, Count)) {
    let [mut hand, mut recorded] = <[Count; 2]>::default();
    for (row, due) in by_hand() {
        hand.judge(Some(due as u64), answered(&row), || format!("soft {row}"));
    }
    for row in list() {
        for due in row.dues() {
            recorded.judge(Some(due as u64), answered(&row), || format!("soft {row}"));
        }
    }
    report("soft, by hand", hand);
    report("soft, the recorded list", recorded);
    operations(every, &mut report);
    KERNELS.iter().for_each(|soft| kernel(soft, every, &mut report));
}

/// The machine's own operation, to be called as ours is.
macro_rules! machine {
    ($operator:tt) => {{
        #[inline(never)]
        extern "C" fn called(a: u32, b: u32) -> u32 {
            (f32::from_bits(a) $operator f32::from_bits(b)).to_bits()
        }
        called
    }};
}

/// How long each call takes: an operation beside the machine's own by a call, a kernel beside the crate's and ours on the first
/// engine.
pub fn speed() -> Vec<String> {
    let mut random = Random::new(7);
    let pairs: Vec<(u32, u32)> = (0..WORDS).map(|_| (random.near_one(), random.near_one())).collect();
    let line = |name: &str, sides: Vec<Side>| format!("soft {name}: {}", timed(sides, TURNS, WORDS as f64, "ns"));
    let machine: [extern "C" fn(u32, u32) -> u32; 4] = [machine!(+), machine!(-), machine!(*), machine!(/)];
    let operation = |(operation, machine): (Operation, extern "C" fn(u32, u32) -> u32)| {
        let machine = Side::new("the machine by a call", true, singly(&pairs, move |(a, b)| machine(a, b) as u64));
        line(operation.name(), vec![machine, Side::new("soft", false, singly(&pairs, move |(a, b)| call(operation, a, b) as u64))])
    };
    let kernel = |soft: &Soft| {
        let (theirs, first, ours) = (of_the_crate(soft.name).theirs, soft.first, soft.ours);
        let sides = vec![
            Side::new("the crate", true, singly(&pairs, move |(a, _)| theirs(a, 0) as u64)),
            Side::new("the first engine", true, singly(&pairs, move |(a, _)| first(a, 0) as u64)),
            Side::new("soft", false, singly(&pairs, move |(a, _)| ours(a, 0))),
        ];
        line(soft.name, sides)
    };
    let heading = format!("soft, {WORDS} random words or pairs of size 2^-15 to 2^17, {TURNS} turns to a run, medians of {RUNS} runs of each side in turn");
    [heading].into_iter().chain(OPERATIONS.into_iter().zip(machine).map(operation)).chain(KERNELS.iter().map(kernel)).collect()
}
