//! Recipe lines: the library's call beside the judge of `recipe.rs`, over every short line, over trees that are written out and
//! damaged, and about the ends of length and depth. A line of a tree has to be read as that tree, and two ways of judging have to
//! agree. And a program that answers such lines, held to the judge, and how long a call takes.

use crate::frames::{endings, hold, short, shown, Feed};
use crate::kernels::NAN;
use crate::lines::joined;
use crate::reader::{answers_to, number};
use crate::recipe::{alphabet, read, reading, Judge, Reading, MOST_BYTES, MOST_DEPTH};
use crate::recipe_lines::{closed_and_opened, edges, filled, line, of_depth, of_length, without_newlines, Recipes};
use crate::recipe_list::{by_hand, list, text};
use crate::speed::{timed, Side, RUNS};
use crate::sweep::{blocks, Count};
use crate::vectors::store;
use std::fmt;
use std::hint::black_box;
use std::io;
use std::path::Path;

/// What `--only` calls all of this.
pub const KEY: &str = "recipes";

#[link(name = "dampmeadow", kind = "static")]
extern "C" {
    fn dampmeadow_recipe(line: *const u8, length: usize, x: u32) -> u64;
}

fn call(line: &[u8], x: u32) -> u64 {
    unsafe { dampmeadow_recipe(line.as_ptr(), line.len(), x) }
}

/// The refusals that a recipe can have.
const REFUSALS: [usize; 8] = [1, 2, 9, 3, 4, 13, 14, 15];

/// How many lines have a value, how many of those a NaN, and how many each refusal.
#[derive(Default)]
struct Answers {
    nan: u64,
    refused: [u64; 16],
}

impl Answers {
    fn note(&mut self, answer: u64) {
        self.refused[(answer >> 32) as usize] += 1;
        self.nan += (answer == NAN as u64) as u64;
    }

    fn add(&mut self, other: &Answers) {
        self.nan += other.nan;
        for (lines, more) in self.refused.iter_mut().zip(other.refused) {
            *lines += more;
        }
    }

    /// A trial for each kind of answer: there has to be one of it.
    fn each(&self) -> Count {
        let mut count = Count::default();
        let kinds = [("a value", self.refused[0] - self.nan), ("a NaN", self.nan)].map(|(kind, lines)| (kind.to_string(), lines));
        for (kind, lines) in kinds.into_iter().chain(REFUSALS.map(|refusal| (format!("refusal {refusal}"), self.refused[refusal]))) {
            count.judge(Some(1), lines.min(1), || format!("the flag of lines with {kind}"));
        }
        count
    }
}

impl fmt::Display for Answers {
    fn fmt(&self, out: &mut fmt::Formatter) -> fmt::Result {
        write!(out, "{} values, {} of them NaN", self.refused[0], self.nan)?;
        REFUSALS.iter().try_for_each(|refusal| write!(out, ", {} refused with {refusal}", self.refused[*refusal]))
    }
}

/// What was tried, and how the judge answered it.
#[derive(Default)]
struct Tried {
    count: Count,
    answers: Answers,
    /// A line with other bytes about it.
    lent: Vec<u8>,
}

impl Tried {
    /// Tries a line at these words.
    fn line(&mut self, judge: &Judge, line: &[u8], words: &[u32]) {
        self.as_read(judge, line, &reading(line), words);
    }

    /// Tries a line that is known to be read so.
    fn as_read(&mut self, judge: &Judge, line: &[u8], reading: &Reading, words: &[u32]) {
        // what the library must not read: any of these could be a part of the recipe
        const BEFORE: &[u8] = b"x+(";
        const BEHIND: [&[u8]; 5] = [b")", b"+x", b"x", b"0", b"(x)"];
        for &x in words {
            self.lent.clear();
            self.lent.extend([BEFORE, line, BEHIND[self.count.tried as usize % BEHIND.len()]].into_iter().flatten());
            let expected = judge.at(reading, x);
            let asked = || format!("{} at {x:08x}", shown(line, 300));
            assert_eq!(judge.straight(line, x), expected, "the judge in one pass and by a tree: {}", asked());
            self.answers.note(expected);
            self.count.judge(Some(expected), call(&self.lent[BEFORE.len()..][..line.len()], x), asked);
        }
    }

    fn add(&mut self, other: &Tried) {
        self.count.add(&other.count);
        self.answers.add(&other.answers);
    }

    fn all(parts: impl IntoIterator<Item = Tried>) -> Tried {
        let mut all = Tried::default();
        parts.into_iter().for_each(|part| all.add(&part));
        all
    }
}

/// Words at which every short line is tried.
const FEW: [u32; 3] = [0x3fc0_0000, 0xc080_0000, 0xff80_0001];

fn answered_by_hand(judge: &Judge) -> Tried {
    let mut tried = Tried::default();
    by_hand(judge).for_each(|(line, x)| tried.line(judge, line, &[x]));
    tried
}

/// Each line of the recorded list at its own word and at every edge.
fn recorded(judge: &Judge) -> Tried {
    let (list, edges) = (list(judge), edges());
    let run = |from: u64, to: u64| {
        let mut tried = Tried::default();
        for text in &list[from as usize..to as usize] {
            if let Some((x, [_, line @ ..])) = text.split_at_checked(8) {
                tried.line(judge, line, &number(x).into_iter().chain(edges.iter().copied()).collect::<Vec<_>>());
            }
        }
        tried
    };
    Tried::all(blocks("recipes of the recorded list", list.len() as u64, 64, run))
}

/// Every line of up to so many of these.
fn every_line(judge: &Judge, label: &str, tokens: &[&[u8]], most: u32) -> Tried {
    let number = tokens.len() as u64;
    let of_length = |length: u32| {
        let run = move |from: u64, to: u64| {
            let (mut tried, mut line) = (Tried::default(), Vec::new());
            for i in from..to {
                line.clear();
                (0..length).for_each(|place| line.extend(tokens[(i / number.pow(place) % number) as usize]));
                tried.line(judge, &line, &FEW);
            }
            tried
        };
        Tried::all(blocks(label, number.pow(length), 1 << 16, run))
    };
    Tried::all((0..=most).map(of_length))
}

/// Lines about the ends of length and depth.
fn ends(judge: &Judge) -> Tried {
    let lengths = [40, 64, 127, 128, 129, 255, 256, 257, 300, 495, 496, 497, 1_000, 65_536, 65_537, 65_551, 65_776, 70_000];
    let mut lines: Vec<Vec<u8>> = (236..=244).chain(lengths).flat_map(of_length).collect();
    lines.extend((14..=20).flat_map(|depth| of_depth(depth, 0..depth)));
    let run = |from: u64, to: u64| {
        let mut tried = Tried::default();
        lines[from as usize..to as usize].iter().for_each(|line| tried.line(judge, line, &FEW));
        tried
    };
    let mut tried = Tried::all(blocks("recipes about the ends", lines.len() as u64, 64, run));
    for closed in 0..=MOST_BYTES {
        for line in (0..=MOST_BYTES - closed).flat_map(|opened| closed_and_opened(closed, opened)) {
            tried.line(judge, &line, &FEW[..1]);
        }
    }
    for [opened, closed, again] in (0..21usize.pow(3)).map(|n| [n / 441, n / 21 % 21, n % 21]) {
        let line = ["(".repeat(opened), ")".repeat(closed), "(".repeat(again)].concat();
        tried.line(judge, line.as_bytes(), &FEW[..1]);
    }
    tried
}

/// Trees at random, written out: each line has to be read as its tree and answered as that is. And the lines damaged.
fn trees(judge: &Judge, count: u64) -> [Tried; 2] {
    let run = |from: u64, to: u64| {
        let mut recipes = Recipes::new(from + 1);
        let [mut whole, mut damaged] = <[Tried; 2]>::default();
        for _ in from..to {
            let tree = recipes.any_tree();
            let line = line(&tree);
            assert!(read(&line).as_ref() == Some(&tree), "the tree that is read of {}", shown(&line, 300));
            let own = match (line.len(), tree.depth()) {
                (bytes, _) if bytes > MOST_BYTES => Err(13),
                (_, depth) if depth > MOST_DEPTH => Err(14),
                _ => Ok(tree),
            };
            assert!(reading(&line) == own, "the refusal of {}", shown(&line, 300));
            let words = [recipes.word(), recipes.random.word()];
            whole.as_read(judge, &line, &own, &words);
            damaged.line(judge, &recipes.damaged(&line), &words[..1]);
        }
        [whole, damaged]
    };
    let (whole, damaged): (Vec<Tried>, Vec<Tried>) = blocks("recipes, trees at random", count, 1 << 12, run).into_iter().map(|[whole, damaged]| (whole, damaged)).unzip();
    [Tried::all(whole), Tried::all(damaged)]
}

/// Tries recipes, and reports each count with its label; with `every`, longer lines and more trees.
pub fn recipes(every: bool, mut report: impl FnMut(&str, Count)) {
    const TOKENS: [&[u8]; 10] = [b"x", b"00000000", b"+", b"-", b"*", b"/", b"(", b")", b"ln(", b"sqrt("];
    let judge = Judge::new();
    let mut answers = Answers::default();
    let mut done = |label: &str, tried: Tried| {
        answers.add(&tried.answers);
        report(label, tried.count);
    };
    let bytes = alphabet();
    let bytes: Vec<&[u8]> = bytes.chunks(1).collect();
    done("recipes, by hand", answered_by_hand(&judge));
    done("recipes of the recorded list, at its words and at edges", recorded(&judge));
    done("recipes about the ends of length and depth", ends(&judge));
    let most = if every { 5 } else { 4 };
    let label = format!("recipes, every line of up to {most} bytes of the grammar");
    done(&label, every_line(&judge, &label, &bytes, most));
    let most = if every { 7 } else { 6 };
    let label = format!("recipes, every line of up to {most} of {} tokens", TOKENS.len());
    done(&label, every_line(&judge, &label, &TOKENS, most));
    let [whole, damaged] = trees(&judge, if every { 10_000_000 } else { 100_000 });
    done("recipes, trees at random", whole);
    done("recipes, their lines with a byte damaged", damaged);
    report(&format!("recipes by their answers ({answers})"), answers.each());
}

/// Lines of text at random, recipes and damaged ones, with no x, empty and, one in 20,000, of megabytes. The last has no newline.
fn lines(seed: u64, count: usize) -> Vec<u8> {
    let mut recipes = Recipes::new(seed);
    let mut all: Vec<Vec<u8>> = Vec::new();
    for i in 1..=count {
        let (good, x) = (line(&recipes.any_tree()), recipes.word());
        all.push(match recipes.random.below(16) {
            _ if i % 20_000 == 10_000 => text(x, &good).into_iter().chain(b"+x".repeat((1 + i / 20_000 % 4) << 19)).collect(),
            0..=6 => text(x, &good),
            7..=10 => text(x, &recipes.damaged(&good)),
            11 => recipes.damaged(&text(x, &good)),
            12 => recipes.damaged(&text(x, &good[..1])),
            13 => {
                let length = recipes.random.below(30);
                recipes.bytes(length)
            }
            14 => Vec::new(),
            _ => text(x, b"x"),
        });
    }
    all.push(text(0x4080_0000, b"sqrt(x)"));
    joined(&without_newlines(all))
}

/// Holds a program that answers lines of text to the judge; says whether they agree.
pub fn compare(program: &str) -> io::Result<bool> {
    const GOOD: &str = "40800000 sqrt(x)";
    let judge = Judge::new();
    let sets = [
        ("the recorded list", vec![joined(&list(&judge))], Feed::Whole),
        ("as fast as it reads", vec![lines(1, 200_000)], Feed::Whole),
        ("inputs of a few lines", endings(GOOD), Feed::Whole),
        ("short lines", short(GOOD), Feed::Whole),
        ("one byte at a time", vec![lines(2, 500)], Feed::Pieces(&[1])),
        ("in odd pieces", vec![lines(3, 12_000)], Feed::Pieces(&[1, 2, 3, 7, 8, 9, 10, 37, 248, 249, 250, 255, 1_021, 4_095, 4_096, 4_097])),
    ];
    hold("recipes", program, &sets, |input| answers_to(|line| judge.answer(line), input))
}

/// Writes the recorded list and its answers to a folder.
pub fn write(folder: &Path) -> io::Result<()> {
    let judge = Judge::new();
    store(folder, "recipes", &list(&judge), |input| answers_to(|line| judge.answer(line), input))
}

/// How long a call takes for a line as long as can be: by the judge's tree, by its one pass, and by the library, a line to each
/// kind of line.
pub fn speed() -> Vec<String> {
    const TURNS: usize = 1_000;
    const X: u32 = 0x3fc0_0000;
    const ITEMS: [&str; 6] = ["x", "40490fdb", "((((((((((((((((x))))))))))))))))", "sqrt(x)", "cos(x)", "sqrt(cos(exp(x))*x+x)/x"];
    let judge = Judge::new();
    let timed = |item: &str| {
        let line = filled(item, MOST_BYTES);
        assert_eq!(judge.straight(&line, X) >> 32, 0, "a recipe of {item} is answered");
        let sides = vec![
            Side::new("Rust by a tree", true, || _ = black_box(judge.at(&reading(black_box(&line)), X))),
            Side::new("Rust in one pass", true, || _ = black_box(judge.straight(black_box(&line), X))),
            Side::new("ours", false, || _ = black_box(call(black_box(&line), X))),
        ];
        format!("recipes, {MOST_BYTES} bytes of {item}: {}", timed(sides, TURNS, 1.0, "ns"))
    };
    let heading =
        format!("recipes of {MOST_BYTES} bytes, answered ones, {TURNS} turns to a run, medians of {RUNS} runs of each side in turn, ours beside Rust in one pass");
    [heading].into_iter().chain(ITEMS.map(timed)).collect()
}
