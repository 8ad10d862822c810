//! The recorded list of calls on doubles and its answers, to be replayed in the gate. It is the same bytes whenever it is made. The
//! answers are the judge's, by the machine and by the fields alike.

use crate::double_judge::{by_fields, by_machine, known, Answer, BIAS, FRACTION_BITS, LAST_FIELD, OPERATIONS, SIGN};
use crate::double_rows::{by_hand, edges, word};
use crate::vectors::keep;
use crate::words::Random;
use std::collections::HashSet;
use std::io;
use std::path::Path;

/// A call: its number and its word.
type Call = (u32, u64);

/// The numbers of all calls, guarded and raw.
pub fn numbers() -> impl Iterator<Item = u32> + Clone {
    OPERATIONS.into_iter().flat_map(|operation| operation.numbers())
}

/// Each of these words for each call.
fn of_all(words: impl Iterator<Item = u64>) -> Vec<Call> {
    words.flat_map(|a| numbers().map(move |op| (op, a))).collect()
}

/// Both parts of numbers with each count of places, from half a unit on, of either sign: the bit below the point alone, all bits
/// below it, the bit above it, and all bits.
fn places() -> Vec<Call> {
    let of_field = |field: u64| {
        let count = (field.saturating_sub(BIAS) % 64).min(51) as u32;
        let half = 1u64 << (FRACTION_BITS - 1 - count);
        [half, 2 * half - 1, 2 * half, (1 << FRACTION_BITS) - 1].map(|fraction| field << FRACTION_BITS | fraction % (1 << FRACTION_BITS))
    };
    let words = (BIAS - 1..BIAS + 67).flat_map(of_field).zip([0, SIGN, SIGN, 0, SIGN, 0, 0, SIGN].into_iter().cycle());
    words.flat_map(|(size, sign)| [0x01, 0x02, 0x81, 0x82].map(|op| (op, size | sign))).collect()
}

/// Each exponent with each sign and a fraction at random, for the calls in turn.
fn exponents() -> Vec<Call> {
    let mut random = Random::new(11);
    let words = (0..=LAST_FIELD).flat_map(|field| [field << FRACTION_BITS, SIGN | field << FRACTION_BITS]);
    words.zip(numbers().cycle()).map(|(a, op)| (op, a | random.wide() >> (64 - FRACTION_BITS))).collect()
}

/// Each number of two digits that has no kernel, with a word that the others answer and with one that they refuse.
fn unknown() -> Vec<Call> {
    let numbers = (0..0x100).filter(|op| known(*op).is_none());
    numbers.flat_map(|op| [(op, 0x3ff8_0000_0000_0000), (op, 0xfff8_0000_0000_0000)]).collect()
}

fn random_words(count: usize) -> Vec<Call> {
    let mut random = Random::new(13);
    numbers().cycle().take(count).map(|op| (op, word(&mut random))).collect()
}

/// The whole list, each call once, where it first comes.
pub fn list() -> Vec<Call> {
    let by_hand = by_hand().map(|(op, a, _)| (op, a)).collect();
    let made = [by_hand, of_all(edges()), places(), exponents(), unknown(), random_words(1_600)];
    let mut before = HashSet::new();
    made.into_iter().flatten().filter(|call| before.insert(*call)).collect()
}

/// Writes the list to `stdin` and its answers to `stdout` in a folder, each line of twenty bytes; but not if the two ways to judge,
/// or what was worked out by hand, part.
pub fn write(folder: &Path) -> io::Result<()> {
    let agreed = |op: u32, a: u64, how: &str, due: Answer| match by_machine(op, a) {
        own if own == due => Ok(()),
        own => Err(io::Error::other(format!("{op:02x} of {a:016x} is {due} {how} and {own} by the machine, and nothing was written"))),
    };
    by_hand().try_for_each(|(op, a, due)| agreed(op, a, "by hand", due))?;
    let (mut input, mut answers) = (String::new(), String::new());
    let list = list();
    for &(op, a) in &list {
        let Answer { refusal, word } = by_machine(op, a);
        agreed(op, a, "by its fields", by_fields(op, a))?;
        input += &format!("{op:02x} {a:016x}\n");
        answers += &format!("{refusal:02x} {word:016x}\n");
    }
    keep(folder, &format!("{} calls on doubles", list.len()), input.as_bytes(), answers.as_bytes())
}
