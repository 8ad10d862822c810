//! Going over the words, on every core, with a line of progress.

use crate::kernels::{places, Kernel, Takes, NAN};
use crate::marks::Tally;
use crate::words::{edges, Random};
use std::fmt;
use std::io::{IsTerminal, Write};
use std::sync::atomic::{AtomicU64, Ordering};
use std::sync::Mutex;
use std::time::{Duration, Instant};

/// One call of ours, with what it gives and what it should, for a reader.
#[derive(Clone)]
pub struct Trial {
    /// The call and its words.
    asked: String,
    expected: String,
    ours: String,
}

impl fmt::Display for Trial {
    fn fmt(&self, out: &mut fmt::Formatter) -> fmt::Result {
        write!(out, "{} should be {} and is {}", self.asked, self.expected, self.ours)
    }
}

/// How many that differ are told of each count.
const TOLD: usize = 10;

#[derive(Default)]
pub struct Count {
    pub tried: u64,
    pub skipped: u64,
    pub differ: u64,
    /// The first that differ, up to `TOLD`.
    wrong: Vec<Trial>,
    /// NaN of the crate's that it built from bits, and that are 7fc00000 in ours by rule.
    pub built: u64,
    /// The first of these: the call, its words, and the crate's word.
    pub first_built: Option<(Trial, u32)>,
    /// The marks that ours gave, where the high half of an answer is one.
    pub marks: Option<Tally>,
}

impl Count {
    /// Nothing tried yet of this kernel.
    fn of(kernel: &Kernel) -> Count {
        Count { marks: kernel.is_marked().then(Tally::default), ..Count::default() }
    }

    /// Counts a trial. What was asked is told only of the first that differ.
    #[inline(always)]
    pub fn judge(&mut self, expected: Option<u64>, ours: u64, asked: impl FnOnce() -> String) {
        self.tried += 1;
        if let Some(marks) = &mut self.marks {
            marks.note(ours);
        }
        if expected != Some(ours) {
            self.tell(|count| count.trial(asked(), expected, ours));
        }
    }

    /// Counts a trial of what is written otherwise than a word with its refusal or mark.
    #[inline(always)]
    pub fn judge_shown<T: PartialEq + fmt::Display>(&mut self, expected: T, ours: T, asked: impl FnOnce() -> String) {
        self.tried += 1;
        if expected != ours {
            self.tell(|_| Trial { asked: asked(), expected: expected.to_string(), ours: ours.to_string() });
        }
    }

    /// Counts one that differs, and keeps it if it is among the first.
    fn tell(&mut self, trial: impl FnOnce(&Count) -> Trial) {
        self.differ += 1;
        if self.wrong.len() < TOLD {
            self.wrong.push(trial(self));
        }
    }

    /// Nothing is expected where the crate's word is a NaN and the call may give none.
    fn trial(&self, asked: String, expected: Option<u64>, ours: u64) -> Trial {
        let written = if self.marks.is_some() { with_mark } else { written };
        Trial { asked, expected: expected.map_or("no NaN".to_string(), written), ours: written(ours) }
    }

    /// Once every word was tried: that not as many were given each mark as have it is a difference by itself.
    fn judge_marks(&mut self, label: &str) {
        if let Some(marks) = self.marks.filter(|marks| *marks != Tally::OF_ALL) {
            self.differ += 1;
            self.wrong.truncate(TOLD - 1);
            self.wrong.push(Trial { asked: format!("{label} of every word"), expected: Tally::OF_ALL.to_string(), ours: marks.to_string() });
        }
    }

    pub fn add(&mut self, other: &Count) {
        self.tried += other.tried;
        self.skipped += other.skipped;
        self.differ += other.differ;
        self.wrong.extend(other.wrong.iter().take(TOLD.saturating_sub(self.wrong.len())).cloned());
        self.built += other.built;
        self.first_built = self.first_built.take().or_else(|| other.first_built.clone());
        if let (Some(marks), Some(more)) = (&mut self.marks, &other.marks) {
            marks.add(more);
        }
    }
}

pub fn line(label: &str, count: &Count) -> String {
    let mut line = format!("{label}: {} words tried, {} differ", count.tried, count.differ);
    if count.skipped > 0 {
        line += &format!(", {} skipped", count.skipped);
    }
    if let Some((t, theirs)) = &count.first_built {
        line += &format!(", {} where the crate built a NaN from bits (the first: {} is {theirs:08x} there and {} here)", count.built, t.asked, t.ours);
    }
    if let Some(marks) = &count.marks {
        line += &format!(", by their marks {marks}");
    }
    if let Some(first) = count.wrong.first() {
        line += &format!("; the first: {first}");
    }
    line
}

/// The others that are told of those that differ, a line to each.
pub fn others(count: &Count) -> impl Iterator<Item = String> + '_ {
    count.wrong.iter().skip(1).map(|trial| format!("  another: {trial}"))
}

/// An answer for a reader: a word, or the refusal's number.
fn written(answer: u64) -> String {
    match answer >> 32 {
        0 => format!("{answer:08x}"),
        refusal => format!("refusal {refusal} with {:08x}", answer as u32),
    }
}

/// An answer that has a mark.
fn with_mark(answer: u64) -> String {
    format!("mark {} with {:08x}", answer >> 32, answer as u32)
}

/// A trial for each kind of answer: whether there was one of it has to be as it is here.
pub fn each<'a>(name: &str, kinds: impl Iterator<Item = (&'a str, bool, u64)>) -> (String, Count) {
    let (mut count, mut told) = (Count::default(), Vec::new());
    for (kind, has, answers) in kinds {
        count.judge(Some(has as u64), answers.min(1), || format!("the flag of answers of {name} that are {kind}"));
        if has {
            told.push(format!("{answers} {kind}"));
        }
    }
    (format!("{name} by its answers ({})", told.join(", ")), count)
}

/// What is tried, as numbered pairs of words: number `i` below `len` is tried as `at(i)`.
struct Plan {
    edges: Vec<u32>,
    takes: Takes,
    every: bool,
    random: u64,
    strides: u64,
}

const STRIDE: u32 = 65_521;

impl Plan {
    fn new(kernel: &Kernel, every: bool) -> Plan {
        Plan {
            edges: edges(),
            takes: kernel.takes,
            every: every && kernel.takes == Takes::One,
            random: if every { 100_000_000 } else { 2_000_000 },
            strides: u32::MAX as u64 / STRIDE as u64,
        }
    }

    fn len(&self) -> u64 {
        let n = self.edges.len() as u64;
        match self.takes {
            Takes::One if self.every => 1 << 32,
            Takes::One => n + self.strides + self.random,
            Takes::Two | Takes::Power | Takes::FloatPower | Takes::Divisor => n * n + self.random,
        }
    }

    fn at(&self, i: u64, random: &mut Random) -> (u32, u32) {
        let n = self.edges.len() as u64;
        match self.takes {
            Takes::One if self.every => (i as u32, 0),
            Takes::One if i < n => (self.edges[i as usize], 0),
            Takes::One if i < n + self.strides => ((i - n) as u32 * STRIDE, 0),
            Takes::One => (random.word(), 0),
            _ if i < n * n => (self.edges[(i / n) as usize], self.edges[(i % n) as usize]),
            Takes::Two => random.pair(),
            Takes::Power => random.power_or_end(),
            Takes::FloatPower => random.float_power(),
            Takes::Divisor => random.divisor(),
        }
    }

    /// Tries the numbers from `from` to `to`.
    fn run(&self, kernel: &Kernel, from: u64, to: u64) -> Count {
        const STRIP: usize = 4_096;
        let mut random = Random::new(from + 1);
        let mut count = Count::of(kernel);
        let mut numbers = from..to;
        while !numbers.is_empty() {
            let words: Vec<(u32, u32)> = numbers.by_ref().take(STRIP).map(|i| self.at(i, &mut random)).collect();
            try_words(kernel, &words, &mut count);
        }
        count
    }
}

/// Tries each pair of words by itself and, where the kernel has a number, at its place in a strip of them all.
fn try_words(kernel: &Kernel, words: &[(u32, u32)], count: &mut Count) {
    let places = kernel.number().map(|op| places(op, words));
    for (i, &(a, b)) in words.iter().enumerate() {
        if (kernel.skips)(a, b) {
            count.skipped += 1;
            continue;
        }
        let (expected, alone) = (kernel.expected(a, b), kernel.ours(a, b));
        let (ours, how) = match &places {
            Some(places) if expected == Some(alone) => (places[i], " in a strip"),
            _ => (alone, ""),
        };
        count.judge(expected, ours, || kernel.asked(a, b) + how);
        if expected == Some(NAN as u64) {
            if let Some(theirs) = kernel.built(a, b) {
                count.built += 1;
                if count.first_built.is_none() {
                    count.first_built = Some((count.trial(kernel.asked(a, b), expected, ours), theirs));
                }
            }
        }
    }
}

/// Goes over the numbers below `len` on all cores, a block at a time, and gives what comes of each block, in order.
pub fn blocks<T: Send>(label: &str, len: u64, block: u64, run: impl Fn(u64, u64) -> T + Sync) -> Vec<T> {
    let next = AtomicU64::new(0);
    let done = AtomicU64::new(0);
    let found: Mutex<Vec<(u64, T)>> = Mutex::new(Vec::new());
    let cores = std::thread::available_parallelism().map_or(1, |n| n.get());
    std::thread::scope(|scope| {
        for _ in 0..cores {
            scope.spawn(|| loop {
                let from = next.fetch_add(block, Ordering::Relaxed);
                if from >= len {
                    break;
                }
                let to = len.min(from + block);
                // before the lock is taken, which the other cores would wait for
                let what = run(from, to);
                found.lock().unwrap().push((from, what));
                done.fetch_add(to - from, Ordering::Relaxed);
            });
        }
        scope.spawn(|| progress(label, &done, len));
    });
    let mut blocks = found.into_inner().unwrap();
    blocks.sort_unstable_by_key(|(from, _)| *from);
    blocks.into_iter().map(|(_, what)| what).collect()
}

/// Tries a kernel on all cores. The first difference is that of the lowest number.
pub fn sweep(kernel: &Kernel, every: bool) -> Count {
    const BLOCK: u64 = 1 << 20;
    let plan = Plan::new(kernel, every);
    let mut sum = Count::of(kernel);
    blocks(&kernel.label(), plan.len(), BLOCK, |from, to| plan.run(kernel, from, to)).iter().for_each(|count| sum.add(count));
    if plan.every {
        sum.judge_marks(&kernel.label());
    }
    sum
}

/// A line that is written over on a terminal, and now and then a new one elsewhere; a run of a moment has none.
fn progress(label: &str, done: &AtomicU64, len: u64) {
    let terminal = std::io::stderr().is_terminal();
    let pause = Duration::from_secs(if terminal { 1 } else { 15 });
    let mut last = Instant::now();
    let mut written = false;
    loop {
        std::thread::sleep(Duration::from_millis(20));
        let now = done.load(Ordering::Relaxed);
        if now >= len {
            break;
        }
        if last.elapsed() >= pause {
            last = Instant::now();
            written = true;
            let text = format!("{label}: {now} of {len}, {}%", now * 100 / len);
            if terminal {
                eprint!("\r{text}");
                let _ = std::io::stderr().flush();
            } else {
                eprintln!("{text}");
            }
        }
    }
    if terminal && written {
        eprint!("\r\x1b[K");
    }
}
