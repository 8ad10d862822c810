//! How long a word takes, ours beside the crate's, over the same strip of words: by single calls, and by one call for the strip
//! beside a loop of the crate's kernel. A guarded call has the raw one between. It measures and judges nothing.

use crate::kernels::{guarded, strip, Kernel, Takes};
use crate::words::Random;
use std::hint::black_box;
use std::time::Instant;

pub const WORDS: usize = 4_096;
pub const TURNS: usize = 64;
pub const RUNS: usize = 31;

/// The words of a long strip, which is a run by itself, and the kernels that are timed over one.
const LONG: usize = 1_000_000;
const OVER_LONG: [&str; 4] = ["sqrt", "atan2", "cos", "hypot"];

/// What the run is, to stand above its lines.
pub fn heading() -> String {
    format!("strips of {WORDS} random words of size 2^-15 to 2^17, for a guarded call answered ones, {TURNS} turns to a run, medians of {RUNS} runs of each side in turn; a strip of {LONG} is one turn")
}

/// What is timed: its name, whether it is the crate's or another beside which ours stands, and a turn over all words.
pub struct Side<'a> {
    name: String,
    theirs: bool,
    turn: Box<dyn FnMut() + 'a>,
}

impl<'a> Side<'a> {
    pub fn new(name: &str, theirs: bool, turn: impl FnMut() + 'a) -> Side<'a> {
        Side { name: name.to_string(), theirs, turn: Box::new(turn) }
    }
}

/// A turn that makes a call for each word, pair or whatever else a call takes.
pub fn singly<'a, T: Copy>(words: &'a [T], call: impl Fn(T) -> u64 + 'a) -> impl FnMut() + 'a {
    move || {
        for &word in black_box(words) {
            black_box(call(word));
        }
    }
}

/// A turn that makes one call, with the first words, the second, and lists for answers and refusals.
pub fn at_once<'a>(words: &[(u32, u32)], call: impl Fn(&[u32], &[u32], &mut [u32], &mut [u32]) + 'a) -> impl FnMut() + 'a {
    let (first, second): (Vec<u32>, Vec<u32>) = words.iter().copied().unzip();
    let (mut answers, mut refusals) = (vec![0; words.len()], vec![0; words.len()]);
    move || {
        call(black_box(&first), black_box(&second), &mut answers, &mut refusals);
        black_box((&answers, &refusals));
    }
}

/// A strip at once, where the kernel has a number: the crate's kernel in a loop, and the strip call for each form of ours.
pub fn strips<'a>(kernel: &'a Kernel, forms: &[(&str, &'a Kernel)], words: &[(u32, u32)]) -> Vec<Side<'a>> {
    let theirs = |_| Side::new("the crate in a loop", true, at_once(words, |first, second, answers, _| (kernel.loops)(first, second, answers)));
    let ours = |&(name, form): &(&str, &Kernel)| {
        let op = form.number()?;
        let turn = at_once(words, move |first, second, answers, refusals| assert_eq!(strip(op, first, second, answers, refusals), 0));
        Some(Side::new(&format!("{name} in a strip"), false, turn))
    };
    kernel.number().map(theirs).into_iter().chain(forms.iter().filter_map(ours)).collect()
}

pub fn median(mut times: Vec<f64>) -> f64 {
    times.sort_by(f64::total_cmp);
    times[times.len() / 2]
}

/// A turn's nanoseconds in so many runs of each side, the sides in turn: a list for each side.
pub fn times(sides: &mut [Side], turns: usize, runs: usize) -> Vec<Vec<f64>> {
    let mut times = vec![Vec::new(); sides.len()];
    for _ in 0..runs {
        for (side, times) in sides.iter_mut().zip(&mut times) {
            let start = Instant::now();
            (0..turns).for_each(|_| (side.turn)());
            times.push(start.elapsed().as_nanos() as f64 / turns as f64);
        }
    }
    times
}

/// The time of each side: the median of a turn's nanoseconds, divided so that the unit is this one, and with ours how many times
/// that is of the last side before it that is not ours.
pub fn timed(mut sides: Vec<Side>, turns: usize, divided: f64, unit: &str) -> String {
    let times = times(&mut sides, turns, RUNS);
    let mut theirs = 0.0;
    let told = sides.iter().zip(times).map(|(side, times)| {
        let time = median(times);
        if side.theirs {
            theirs = time;
        }
        let ratio = if side.theirs { String::new() } else { format!(" ({:.2} times)", time / theirs) };
        format!("{} {:.2} {unit}{ratio}", side.name, time / divided)
    });
    told.collect::<Vec<_>>().join(", ")
}

/// Words of size 2^-15 to 2^17; the second is 0 where it is not used.
pub fn usual(takes: Takes, random: &mut Random) -> (u32, u32) {
    match takes {
        Takes::One => (random.near_one(), 0),
        Takes::Two | Takes::FloatPower | Takes::Divisor => (random.near_one(), random.near_one()),
        Takes::Power => random.power(),
    }
}

/// So many words that the kernel is compared on and does not refuse.
fn answered(kernel: &Kernel, length: usize) -> Vec<(u32, u32)> {
    let mut random = Random::new(7);
    let words = std::iter::repeat_with(|| usual(kernel.takes, &mut random));
    words.filter(|&(a, b)| !(kernel.skips)(a, b) && kernel.refusal(a, b) == 0).take(length).collect()
}

/// So many words that the guarded kernel of this name answers.
pub fn clean(name: &str, length: usize) -> Vec<(u32, u32)> {
    guarded().iter().find(|kernel| kernel.name == name).map_or(Vec::new(), |kernel| answered(kernel, length))
}

/// One line: the kernel, the crate's time for a call, ours, and how many times the crate's that is; then the same for a word of a
/// strip. A guarded kernel comes with its raw form, which then stands before it.
pub fn line(kernel: &Kernel, raw: Option<&Kernel>) -> String {
    let words = answered(kernel, WORDS);
    let forms = match raw {
        Some(raw) => vec![("raw", raw), ("guarded", kernel)],
        None => vec![("ours", kernel)],
    };
    let mut sides = vec![Side::new("the crate", true, singly(&words, |(a, b)| (kernel.theirs)(a, b) as u64))];
    sides.extend(forms.iter().map(|&(name, form)| Side::new(name, false, singly(&words, |(a, b)| form.ours(a, b)))));
    sides.extend(strips(kernel, &forms, &words));
    format!("{}: {}", kernel.label(), timed(sides, TURNS, WORDS as f64, "ns"))
}

/// One line for a guarded kernel that is timed over a long strip, with its raw form: what the whole strip takes.
pub fn long(kernel: &Kernel, raw: Option<&Kernel>) -> Option<String> {
    let raw = raw.filter(|raw| OVER_LONG.contains(&raw.name))?;
    let sides = strips(kernel, &[("raw", raw), ("guarded", kernel)], &answered(kernel, LONG));
    Some(format!("{} over {LONG} words: {}", kernel.label(), timed(sides, 1, 1e6, "ms")))
}
