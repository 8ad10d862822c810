//! Doubles: the library's call beside the judge of `double_judge.rs`, in both of its ways, over every exponent, edges and words at
//! random; the laws of the answers, asked of ours and of the judge's; the constants; and the row on screen.

use crate::columns::columns;
use crate::double_judge::{by_fields, by_machine, known, Answer, OPERATIONS};
use crate::double_laws::{powers, Side, LAWS};
use crate::double_list::{list, numbers};
use crate::double_rows::{by_hand, edges, word, Grid};
use crate::refusals;
use crate::sweep::{blocks, each, Count};
use crate::words::Random;
use std::mem::take;

/// What `--only` calls all of this.
pub const KEY: &str = "doubles";

#[link(name = "dampmeadow", kind = "static")]
extern "C" {
    fn dampmeadow_double(op: u32, a: u64, value: &mut u64) -> u32;
}

#[link(name = "probe", kind = "static")]
extern "C" {
    fn probe_double_constant(place: u32) -> u64;
}

/// The library's call. A word that is not written shows.
#[inline(always)]
pub fn call(op: u32, a: u64) -> Answer {
    let mut word = 0xfff5_a5a5_a5a5_a5a5;
    let refusal = unsafe { dampmeadow_double(op, a, &mut word) };
    Answer { refusal, word }
}

/// Ours, and the judge's own answers, which the laws have to hold of too.
const SIDES: [Side; 2] = [Side { name: "ours", call }, Side { name: "the judge's", call: by_machine }];

/// The refusals that a call can have, and 0 for none.
const REFUSALS: [(u32, &str); 7] =
    [(0, "answered"), (1, "refused with 1"), (2, "refused with 2"), (9, "refused with 9"), (3, "refused with 3"), (4, "refused with 4"), (6, "refused with 6")];

/// What was tried: calls, the laws of each side, and how many calls of each operation, guarded and raw, and of none, had each
/// refusal.
#[derive(Default)]
struct Tried {
    count: Count,
    laws: [[Count; LAWS.len()]; 2],
    refused: [[u64; 10]; 9],
}

impl Tried {
    /// Tries a call beside both ways of the judge.
    #[inline(always)]
    fn call(&mut self, op: u32, a: u64) {
        let (ours, due) = (call(op, a), by_machine(op, a));
        let asked = |how: &str| format!("{op:02x} of {a:016x} {how}");
        self.count.judge_shown(due, ours, || asked("by the machine"));
        self.count.judge_shown(by_fields(op, a), ours, || asked("by its fields"));
        self.refused[place(op)][due.refusal as usize] += 1;
    }

    /// Tries every call on a word, and each law with another word.
    #[inline(always)]
    fn word(&mut self, a: u64, other: u64) {
        numbers().for_each(|op| self.call(op, a));
        for (side, counts) in SIDES.iter().zip(&mut self.laws) {
            LAWS.iter().zip(counts).for_each(|(law, count)| law.judge(count, side, a, other));
        }
    }

    fn add(&mut self, other: &Tried) {
        self.count.add(&other.count);
        self.laws.as_flattened_mut().iter_mut().zip(other.laws.as_flattened()).for_each(|(count, more)| count.add(more));
        let refused = self.refused.as_flattened_mut().iter_mut().zip(other.refused.as_flattened());
        refused.for_each(|(calls, more)| *calls += more);
    }

    /// The refusals of the calls with this number, or of those that have no kernel.
    fn each(&self, op: u32) -> (String, Count) {
        let (name, has): (String, &[u32]) = match known(op) {
            None => ("doubles, a number without a kernel".to_string(), &[6]),
            Some((operation, guarded)) => (format!("doubles, {op:02x} {}", operation.name()), if guarded { operation.refusals() } else { &[] }),
        };
        let occurs = |refusal: u32| has.contains(&refusal) || refusal == 0 && known(op).is_some();
        each(&name, REFUSALS.iter().map(|&(refusal, kind)| (kind, occurs(refusal), self.refused[place(op)][refusal as usize])))
    }
}

/// Which of the calls a number has, the last for all that have no kernel.
#[inline(always)]
fn place(op: u32) -> usize {
    known(op).map_or(2 * OPERATIONS.len(), |(operation, guarded)| 2 * operation as usize + !guarded as usize)
}

/// Tries so many numbered words on all cores, each with the one before it. Those of a block may be drawn at random.
fn words(label: &str, len: u64, at: impl Fn(u64, &mut Random) -> u64 + Sync) -> Tried {
    let run = |from: u64, to: u64| {
        let (mut tried, mut random, mut before) = (Tried::default(), Random::new(from + 1), 0);
        for i in from..to {
            let a = at(i, &mut random);
            tried.word(a, before);
            before = a;
        }
        tried
    };
    let mut all = Tried::default();
    blocks(label, len, 1 << 16, run).iter().for_each(|tried| all.add(tried));
    all
}

/// Every row that was worked out by hand: ours and the judge's.
fn rows() -> Count {
    let mut count = Count::default();
    for (op, a, due) in by_hand() {
        for (answer, who) in [(call(op, a), "ours"), (by_machine(op, a), "the judge's by the machine"), (by_fields(op, a), "the judge's by its fields")] {
            count.judge_shown(due, answer, || format!("{op:02x} of {a:016x}, {who},"));
        }
    }
    count
}

/// Numbers with a kernel and without, among them all to 3ff and those that have a kernel's last digits.
fn by_number() -> Tried {
    let mut tried = Tried::default();
    let far = (8..32).flat_map(|k| numbers().map(move |op| op | 1 << k));
    for op in refusals::numbers().chain(far) {
        for a in [0, 1, 0x3ff8_0000_0000_0000, 0x43f0_0000_0000_0000, 0x7ff8_0000_0000_0000, 0x8000_0000_0000_0000, 0xbff0_0000_0000_0000, u64::MAX] {
            tried.call(op, a);
        }
    }
    tried
}

/// The constants in their order, as Rust's own have them.
const CONSTANTS: [u64; 11] = [
    0f64.to_bits(),
    1f64.to_bits(),
    f64::EPSILON.to_bits(),
    f64::NAN.to_bits(),
    f64::INFINITY.to_bits(),
    f64::NEG_INFINITY.to_bits(),
    (-0f64).to_bits(),
    f64::INFINITY.to_bits(),
    f64::MIN_POSITIVE.to_bits() - 1,
    f64::MAX_EXP as u64 - 1,
    f64::MANTISSA_DIGITS as u64 - 1,
];

/// Each constant, and a 0 past the last.
fn constants() -> Count {
    let mut count = Count::default();
    for place in (0..64).chain((0..11).map(|k| 1 << 31 | k)).chain([u32::MAX]) {
        let due = CONSTANTS.get(place as usize).copied().unwrap_or(0);
        let [due, ours] = [due, unsafe { probe_double_constant(place) }].map(|word| Answer { refusal: 0, word });
        count.judge_shown(due, ours, || format!("constant {place}"));
    }
    count
}

/// Tries the call on doubles and the row on screen, and reports each count with its label; with `every`, on 10^8 words at random.
pub fn doubles(every: bool, mut report: impl FnMut(&str, Count)) {
    report("doubles, by hand, ours and the judge's", rows());
    report("doubles, the constants", constants());
    let (mut all, mut recorded) = (Tried::default(), Tried::default());
    let mut done = |label: &str, mut tried: Tried| {
        all.add(&tried);
        report(label, take(&mut tried.count));
    };
    list().into_iter().for_each(|(op, a)| recorded.call(op, a));
    done("doubles, the recorded list", recorded);
    done("doubles, numbers with a kernel and without", by_number());
    let (grid, edges) = (Grid::new(), edges().collect::<Vec<_>>());
    let label = "doubles, edges";
    done(label, words(label, edges.len() as u64, |i, _| edges[i as usize]));
    let label = format!("doubles, every exponent with {} fractions", grid.fractions());
    done(&label, words(&label, grid.len(), |i, _| grid.at(i)));
    let label = "doubles, words at random";
    done(label, words(label, if every { 100_000_000 } else { 1_000_000 }, |_, random| word(random)));
    for (side, counts) in SIDES.iter().zip(take(&mut all.laws)) {
        LAWS.iter().zip(counts).for_each(|(law, count)| report(&format!("doubles, {}: {}", side.name, law.name), count));
        let mut count = Count::default();
        let [others, exact] = powers(&mut count, side);
        report(&format!("doubles, {}: sqrt at the normal powers of two ({exact} exact, {others} not)", side.name), count);
    }
    for (label, count) in numbers().chain([0]).map(|op| all.each(op)) {
        report(&label, count);
    }
    columns(every, &mut report);
}
