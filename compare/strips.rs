//! The strip call: each place beside the single call and beside the crate, a strip beside its pieces, what is refused as a whole,
//! and words at every offset of a block.

use crate::edges;
use crate::kernels::{all, strip, Kernel, Takes};
use crate::offsets::offsets;
use crate::refusals::numbers;
use crate::steps;
use crate::sweep::Count;
use crate::words::{self, Random};

/// What `--only` calls all of this.
pub const KEY: &str = "strips";

/// The lists that a strip call is lent, in order.
const NAMES: [&str; 4] = ["first", "second", "answers", "refusals"];

/// How many guard words stand before a list, and after it.
const GUARDS: usize = 8;

pub struct Lists {
    /// Each list with its guard words.
    lent: [Vec<u32>; 4],
    /// What they should hold.
    should: [Vec<u32>; 4],
    /// The first list is lent for the second too.
    twice: bool,
}

impl Lists {
    /// Lists for the strip of these words, nothing written yet. A guard word, and one that is yet to be written, is a NaN of its
    /// own at each place.
    pub fn new(words: &[(u32, u32)], twice: bool) -> Lists {
        let unwritten: Vec<u32> = (0..words.len() + 2 * GUARDS).map(|place| 0xffa5_0000 ^ place as u32).collect();
        let mut lent = NAMES.map(|_| unwritten.clone());
        for (place, &(a, b)) in (GUARDS..).zip(words) {
            (lent[0][place], lent[1][place]) = (a, b);
        }
        Lists { should: lent.clone(), lent, twice }
    }

    /// A place as it was left: its refusal in the high half, its word in the low.
    fn place(&self, place: usize) -> u64 {
        (self.lent[3][GUARDS + place] as u64) << 32 | self.lent[2][GUARDS + place] as u64
    }

    /// Calls with so many words of each list, from a place on. Each place that it should give is a trial, and one more is the
    /// refusal of the whole with all that the lists then hold.
    pub fn call(&mut self, count: &mut Count, op: u32, from: usize, lengths: [usize; 4], gives: Result<&[u64], u64>) {
        // what an earlier call left wrong has been told
        self.lent.clone_from(&self.should);
        let places = gives.unwrap_or_default();
        for (place, held) in (GUARDS + from..).zip(places) {
            (self.should[2][place], self.should[3][place]) = (*held as u32, (*held >> 32) as u32);
        }
        let [first, second, answers, refusals] = &mut self.lent;
        let second = if self.twice { &*first } else { &*second };
        let [a, b, c, d] = lengths.map(|length| GUARDS + from..GUARDS + from + length);
        let refusal = strip(op, &first[a], &second[b], &mut answers[c], &mut refusals[d]) as u64;

        let asked = || format!("{op:02x} over lists of {lengths:?}");
        for (place, held) in (from..).zip(places) {
            let word = |list: usize| self.should[list][GUARDS + place];
            count.judge(Some(*held), self.place(place), || format!("{}, place {place} of {:08x} {:08x}", asked(), word(0), word(1)));
        }
        let whole = gives.err().unwrap_or(0);
        let wrong = |list: usize| self.lent[list].iter().zip(&self.should[list]).position(|(is, should)| is != should);
        match (0..NAMES.len()).find_map(|list| Some((list, wrong(list)?))) {
            Some((list, place)) if refusal == whole => {
                let asked = || format!("{}, {}[{}]", asked(), NAMES[list], place as isize - GUARDS as isize);
                count.judge(Some(self.should[list][place] as u64), self.lent[list][place] as u64, asked);
            }
            _ => count.judge(Some(whole << 32), refusal << 32, asked),
        }
    }
}

/// The strip in one call, each place beside the single call and, where runs do not skip it, beside the crate. Gives the places.
fn whole([single, theirs]: [&mut Count; 2], op: u32, kernel: &Kernel, words: &[(u32, u32)], twice: bool) -> Vec<u64> {
    let used = |&(a, b): &(u32, u32)| (a, kernel.used(b));
    let gives: Vec<u64> = words.iter().map(used).map(|(a, b)| kernel.ours(a, b)).collect();
    let mut lists = Lists::new(words, twice);
    lists.call(single, op, 0, [words.len(); 4], Ok(&gives));
    let places: Vec<u64> = (0..words.len()).map(|place| lists.place(place)).collect();
    for ((a, b), place) in words.iter().map(used).zip(&places) {
        if (kernel.skips)(a, b) {
            theirs.skipped += 1;
        } else {
            theirs.judge(kernel.expected(a, b), *place, || format!("{} in a strip of {}", kernel.asked(a, b), words.len()));
        }
    }
    places
}

/// The strip in pieces that end at these places and at its end, beside the whole.
fn pieces(count: &mut Count, op: u32, words: &[(u32, u32)], whole: &[u64], ends: impl Iterator<Item = usize>) {
    let mut lists = Lists::new(words, false);
    let mut from = 0;
    for end in ends.chain([words.len()]) {
        lists.call(count, op, from, [end - from; 4], Ok(&whole[from..end]));
        from = end;
    }
}

/// Strips for a kernel: of these lengths with words of every kind, of the words that the lists by hand have for it, and of each
/// edge with any other. A second word that is not used is any.
fn strips_of(kernel: &Kernel, lengths: &[usize], edges: &[u32], random: &mut Random) -> Vec<Vec<(u32, u32)>> {
    let mut of_length = |length: &usize| (0..*length).map(|_| random.operands(kernel.takes, edges)).collect();
    let mut strips: Vec<Vec<(u32, u32)>> = lengths.iter().map(&mut of_length).collect();
    strips.push(edges::words_of(kernel.name).into_iter().chain(steps::words_of(kernel.name)).collect());
    strips.push(edges.iter().map(|edge| (*edge, random.one_of(edges))).collect());
    if kernel.takes == Takes::One {
        strips.iter_mut().flatten().for_each(|(_, b)| *b = random.word());
    }
    strips
}

/// Lists whose lengths do not all agree, and numbers without an operation.
fn refused([lengths, unknown]: [&mut Count; 2], known: &[(u32, Kernel)]) {
    const LENGTHS: [usize; 6] = [0, 1, 2, 63, 64, 65];
    let mut lists = Lists::new(&[(0x3f80_0000, 0x3f80_0000); 65], false);
    for op in numbers() {
        for n in 0..LENGTHS.len().pow(4) {
            let of = [3, 2, 1, 0].map(|digit| LENGTHS[n / LENGTHS.len().pow(digit) % LENGTHS.len()]);
            if of != [of[0]; 4] {
                lists.call(lengths, op, 0, of, Err(10));
            } else if known.iter().all(|(n, _)| *n != op) {
                lists.call(unknown, op, 0, of, Err(6));
            }
        }
    }
}

/// Tries strips, and reports each count with its label; with `every`, each of the 2^32 words in a block, or 10^8 pairs.
pub fn strips(every: bool, mut report: impl FnMut(&str, Count)) {
    let known: Vec<(u32, Kernel)> = all().into_iter().filter_map(|kernel| Some((kernel.number()?, kernel))).collect();
    let (edges, mut random) = (words::edges(), Random::new(7));
    let [mut single, mut theirs, mut cut, mut lengths, mut unknown] = <[Count; 5]>::default();
    for (op, kernel) in &known {
        let longest = if ["sqrt", "atan2"].contains(&kernel.name) { 1_000_000 } else { 10_000 };
        for words in strips_of(kernel, &[0, 1, 2, 3, 63, 64, 4_096, longest], &edges, &mut random) {
            let places = whole([&mut single, &mut theirs], *op, kernel, &words, false);
            let same: Vec<(u32, u32)> = words.iter().map(|(a, _)| (*a, *a)).collect();
            whole([&mut single, &mut theirs], *op, kernel, &same, true);
            match words.len() {
                0..=64 => (0..=words.len()).for_each(|end| pieces(&mut cut, *op, &words, &places, [end].into_iter())),
                // pieces of 0 words, 1, 2, 3 and so on
                65..=10_000 => pieces(&mut cut, *op, &words, &places, (0..).map(|n| n * (n + 1) / 2).take_while(|end| *end < words.len())),
                _ => {}
            }
        }
    }
    refused([&mut lengths, &mut unknown], &known);
    report("strips, each place beside the single call", single);
    report("strips, each place beside the crate", theirs);
    report("strips in pieces", cut);
    report("strips of lists whose lengths do not agree", lengths);
    report("strips of unknown operations", unknown);
    offsets(every, &known, report);
}
