//! The stored list of frames and their answers, to be replayed where there is no Rust. It is the same bytes whenever it is
//! made.

use crate::edges;
use crate::kernels::{Kernel, Takes};
use crate::lines::{frame, joined, Lines, BAD};
use crate::reader::{written, Reader};
use crate::steps;
use std::io;
use std::ops::RangeInclusive;
use std::path::Path;

/// The first frames of the list. They stay as they are and where they are, so that a change of an answer shows as one.
const FRAMES: usize = 26_500;

/// Frames of zeros and small numbers that stand behind them. The edges that came later follow.
const LOW: usize = 318;

/// The operations that the list began with, guarded; raw they are 80 higher. Those that were added have a part of their own,
/// behind all these.
const FIRST: RangeInclusive<u32> = 0x01..=0x15;

/// Frames of random words in that part, and of zeros and small numbers.
const ADDED: usize = 806;
const ADDED_LOW: usize = 100;

/// More short lines in a row than a program has room for the answers to, and so few bytes that one read brings them all.
const SHORT: usize = 6_500;

/// So many lines that are each longer than a read, spread over the list: it takes many reads, and none ends where a line does.
const LONG: usize = 16;

/// The specification's whole run, its worked examples of the raw form, and what it pins where runs skip the crate: each line
/// with its answer as it is given there.
const EXAMPLES: &[(&str, &str)] = &[
    // the whole run
    ("094080000000000000", "0040000000"),
    ("898000000000000000", "005fc00000"),
    ("09bf80000000000000", "0300000000"),
    ("1f0000000000000000", "0600000000"),
    ("", "0700000000"),
    // the numbers to hold it to
    ("894080000000000000", "0040000000"),
    ("894000000000000000", "003fc00000"),
    ("893f80000100000000", "003f800000"),
    ("890000000000000000", "001fc00000"),
    ("897f80000000000000", "005f800000"),
    ("8b3fc0000000000000", "003f400000"),
    ("8bbf80000000000000", "00bf800000"),
    ("8a3f80000000000000", "003f775a86"),
    ("81c020000000000000", "00c0000000"),
    ("82c020000000000000", "00bf000000"),
    ("817fc0000000000000", "007f800000"),
    ("827fc0000000000000", "003f000000"),
    ("814f80000100000000", "004f800000"),
    ("83bf00000000000000", "00bf800000"),
    ("838000000000000000", "0000000000"),
    ("838000000100000000", "00bf800000"),
    ("840000000000000000", "0080000000"),
    ("834f32d05e00000000", "004f000000"),
    ("853effffff00000000", "003f800000"),
    ("854b00000100000000", "004b000002"),
    ("888000000000000000", "00bf800000"),
    ("8d0000000000000000", "003f800000"),
    ("8d3f80000000000000", "00402df854"),
    ("8e3f7fffff00000000", "0000000000"),
    ("8f4040000000000003", "0041d80000"),
    ("8f4040000000000080", "007f800000"),
    ("930000000000000000", "003f800000"),
    ("920000000000000000", "007fc00000"),
    // exp of any NaN
    ("8d7fc0000000000000", "007f800000"),
    ("8d7f80000100000000", "007f800000"),
    ("8dffffffff00000000", "007f800000"),
    // powf where a NaN reaches exp: a NaN and -infinity to 1 and 2, 1 and -1 to infinity, 1 to a NaN
    ("907fc000003f800000", "00ff800000"),
    ("907fc0000040000000", "007f800000"),
    ("90ff8000003f800000", "00ff800000"),
    ("90ff80000040000000", "007f800000"),
    ("903f8000007f800000", "007f800000"),
    ("90bf8000007f800000", "007f800000"),
    ("903f8000007fc00000", "007f800000"),
    // ... and where none does, since the power is not whole: a NaN to 0.3, -1 to a NaN
    ("907fc000003e99999a", "007fc00000"),
    ("90bf8000007fc00000", "007fc00000"),
    // powi to -2^31
    ("8f3f80000080000000", "007fc00000"),
    ("8f4000000080000000", "007fc00000"),
    ("8f0000000080000000", "007fc00000"),
    ("8f7fc0000080000000", "007fc00000"),
];

/// The corners of asin, acos, tan and the two euclids, raw, each worked out from its steps.
const CORNERS: &[(&str, &str)] = &[
    // asin of 1 and of the words about it: invsqrt of 0, and of numbers below 0, whose word wraps
    ("963f80000000000000", "003fc90fdb"),
    ("96bf80000000000000", "00bfc90fdb"),
    ("963f80000100000000", "0004e7a8cb"),
    ("96bf80000100000000", "0084e7a8cb"),
    ("964000000000000000", "007fc00000"),
    ("96c000000000000000", "007fc00000"),
    ("967f80000000000000", "007fc00000"),
    ("96ff80000000000000", "007fc00000"),
    ("967fc0000000000000", "007fc00000"),
    ("967f80000100000000", "007fc00000"),
    ("96ffffffff00000000", "007fc00000"),
    ("960000000000000000", "0000000000"),
    ("968000000000000000", "0080000000"),
    // acos of zeros, of numbers whose reciprocal has an infinite square, and of the last that has none
    ("970000000000000000", "003fc90fdb"),
    ("978000000000000000", "003fc90fdb"),
    ("970000000100000000", "007fc00000"),
    ("978000000100000000", "007fc00000"),
    ("971f80000000000000", "007fc00000"),
    ("979f80000000000000", "007fc00000"),
    ("971f80000100000000", "003fc90fdb"),
    ("97217fffff00000000", "003fc90fdb"),
    ("97a17fffff00000000", "003fc90fdb"),
    // ... of the words about 1, where sqrt of 0 is 1fc00000 and sqrt below 0 is a NaN
    ("973f7fffff00000000", "0039b3d987"),
    ("97bf7fffff00000000", "0040490a3c"),
    ("973f80000000000000", "001fb3d15e"),
    ("97bf80000000000000", "0040490fdb"),
    ("973f80000100000000", "007fc00000"),
    ("97bf80000100000000", "007fc00000"),
    ("977f80000000000000", "007fc00000"),
    ("97ff80000000000000", "007fc00000"),
    ("977fc0000000000000", "007fc00000"),
    ("977f80000100000000", "007fc00000"),
    ("97ffffffff00000000", "007fc00000"),
    // tan where the cosine is a zero, and where the sine is one
    ("983fc90fda00000000", "004b25294a"),
    ("98bfc90fda00000000", "00ff800000"),
    ("983fc90fdb00000000", "007f800000"),
    ("98bfc90fdb00000000", "00ff800000"),
    ("984096cbe400000000", "00ff800000"),
    ("980000000000000000", "0000000000"),
    ("988000000000000000", "0000000000"),
    ("980000000100000000", "0000000000"),
    ("9840490fdb00000000", "0080000000"),
    // both are the same infinity, or a NaN
    ("987f80000000000000", "007fc00000"),
    ("98ff80000000000000", "007fc00000"),
    ("987fc0000000000000", "007fc00000"),
    ("987f80000100000000", "007fc00000"),
    // rem_euclid of -0, and of the nearest number below it, by 1; by zeros, of and by infinities, and of and by a NaN
    ("99800000003f800000", "0080000000"),
    ("99800000013f800000", "003f800000"),
    ("993f80000000000000", "007fc00000"),
    ("993f80000080000000", "007fc00000"),
    ("990000000000000000", "007fc00000"),
    ("997f8000003f800000", "007fc00000"),
    ("99ff8000003f800000", "007fc00000"),
    ("997f8000007f800000", "007fc00000"),
    ("993f8000007f800000", "003f800000"),
    ("99bf8000007f800000", "007f800000"),
    ("99bf800000ff800000", "007f800000"),
    ("99800000007f800000", "0080000000"),
    ("997fc000003f800000", "007fc00000"),
    ("997f8000013f800000", "007fc00000"),
    ("993f8000007fc00000", "007fc00000"),
    ("993f800000ff800001", "007fc00000"),
    // div_euclid by zeros, and where the quotient overflows: trunc leaves an infinity, and so does 1 more or less
    ("9a3f80000000000000", "007f800000"),
    ("9abf80000000000000", "00ff800000"),
    ("9a3f80000080000000", "00ff800000"),
    ("9abf80000080000000", "007f800000"),
    ("9a3f80000000000001", "007f800000"),
    ("9abf80000000000001", "00ff800000"),
    ("9a7f8000003f800000", "007f800000"),
    ("9a7f800000bf800000", "00ff800000"),
    ("9aff8000003f800000", "00ff800000"),
    // ... by infinities
    ("9a000000007f800000", "0000000000"),
    ("9a3f8000007f800000", "0000000000"),
    ("9abf8000007f800000", "00bf800000"),
    ("9abf800000ff800000", "003f800000"),
    // ... from 2^32 on, where trunc wraps, and about 2^23
    ("9a4f8000013f800000", "004f800000"),
    ("9a4affffff3f800000", "004afffffe"),
    ("9a4b0000003f800000", "004b000000"),
    // ... where the quotient is a NaN, which runs skip
    ("9a0000000000000000", "007f800000"),
    ("9a0000000080000000", "007f800000"),
    ("9a8000000000000000", "007f800000"),
    ("9a7fc000003f800000", "007f800000"),
    ("9affffffffbf800000", "007f800000"),
    ("9a7f8000013f800000", "007f800000"),
    ("9a3f8000007fc00000", "007f800000"),
    ("9abf800000ff800001", "007f800000"),
    ("9a7fc000007fc00000", "007f800000"),
    ("9a7fc0000000000000", "007f800000"),
    ("9a7f8000007f800000", "007f800000"),
    ("9aff8000007f800000", "007f800000"),
];

/// Malformed lines of each kind, beside well-formed ones, made of a frame of a known operation and one of an unknown one.
fn malformed() -> Vec<Vec<u8>> {
    let mut lines = Vec::new();
    for good in [frame(0x07, 0x3fc0_ffee, 0xabcd_ef12), frame(0x1f, 0xdead_beef, 0)] {
        lines.push(good.clone());
        for place in 0..good.len() {
            for bad in BAD {
                let mut line = good.clone();
                line[place] = *bad;
                lines.push(line);
            }
            lines.push(good[..place].to_vec());
            lines.push([&good[..place], &good[place + 1..]].concat());
            lines.push([&good[..place], b"0", &good[place..]].concat());
        }
        lines.push(good.to_ascii_uppercase());
        for rest in [&b"\r"[..], b"\0", b" ", b"0", b"00000000"] {
            lines.push([&good, rest].concat());
        }
        lines.extend([2, 3, 15, 100].map(|times| good.repeat(times)));
        // a length of 18 modulo 256
        lines.push(good.iter().cycle().take(18 + 256).copied().collect());
        lines.extend([Vec::new(), b"\r".to_vec(), b"\0".to_vec(), b" ".to_vec(), vec![0; 18], vec![b'\r'; 18], vec![]]);
    }
    lines
}

/// A known operation with its number.
type Known<'a> = (u32, &'a Kernel);

/// Whether the list began with the operation of this number, guarded or raw.
fn is_first(op: u32) -> bool {
    FIRST.contains(&(op & 0x7f))
}

/// Every number that had no operation when the list began, with a second word of zero and with another.
fn unknown() -> Vec<Vec<u8>> {
    let numbers = (0..256).filter(|op| !is_first(*op));
    numbers.flat_map(|op| [frame(op, 0x3f80_0000, 0), frame(op, 0x7fc0_0000, 0x8000_0000)]).collect()
}

/// Second words that are not used and not zero, raw and guarded, where the first would be refused too and where it would not.
fn unused(known: &[Known]) -> Vec<Vec<u8>> {
    let one_operand = known.iter().filter(|(_, kernel)| kernel.takes == Takes::One);
    let words = [(0x3f80_0000, 1), (0x3f80_0000, 0x8000_0000), (0x7fc0_0000, 0x0000_0010), (0x8000_0000, 0x0100_0000)];
    one_operand.flat_map(|(op, _)| words.map(|(a, b)| frame(*op, a, b))).collect()
}

/// Both sides of each edge of a gate, as the first list has them, and of each test within a kernel, guarded and raw.
fn edges(known: &[Known]) -> Vec<Vec<u8>> {
    let words = |name| edges::first_of(name).into_iter().chain(steps::words_of(name));
    known.iter().flat_map(|(op, kernel)| words(kernel.name).map(|(a, b)| frame(*op, a, b))).collect()
}

/// So many zeros and small numbers, for every operation in turn.
fn low(known: &[Known], mut random: Lines, count: usize) -> Vec<Vec<u8>> {
    known.iter().cycle().take(count).map(|(op, kernel)| random.low(*op, kernel.takes)).collect()
}

/// Edges a row at a time, guarded and raw.
fn in_rows(reader: &Reader, rows: impl Iterator<Item = (&'static str, u32, u32)>) -> Vec<Vec<u8>> {
    let known = reader.known();
    rows.flat_map(|(name, a, b)| known.iter().filter(move |known| known.1.name == name).map(move |known| frame(known.0, a, b))).collect()
}

/// Lines of no byte or one, in a row.
fn short() -> Vec<Vec<u8>> {
    (0..SHORT).map(|i| if i % 7 == 3 { b"0".to_vec() } else { Vec::new() }).collect()
}

/// A line that begins as a frame does and is longer than a read.
fn long(i: usize) -> Vec<u8> {
    const READ: usize = 65_536;
    frame(0x09, 0x4080_0000, 0).iter().cycle().take(READ + 37 * i).copied().collect()
}

/// Lines whose answers are given with them: the reader has to give these.
fn given(reader: &Reader, examples: &[(&str, &str)]) -> Vec<Vec<u8>> {
    for (line, answer) in examples {
        assert_eq!(written(reader.answer(line.as_bytes())), format!("{answer}\n").as_bytes(), "the reader at {line:?}");
    }
    examples.iter().map(|(line, _)| line.as_bytes().to_vec()).collect()
}

/// The whole list. Random words of every operation in turn fill its first part.
fn list(reader: &Reader) -> Vec<Vec<u8>> {
    let (first, added): (Vec<Known>, Vec<Known>) = reader.known().into_iter().partition(|known| is_first(known.0));
    let mut list = [given(reader, EXAMPLES), short(), malformed(), unknown(), unused(&first), edges(&first)].concat();
    let mut random = Lines::new(reader, 11);
    let left = FRAMES - list.len() - LONG;
    for (i, (op, kernel)) in first.iter().cycle().take(left).enumerate() {
        if i % (left / LONG) == 0 && i / (left / LONG) < LONG {
            list.push(long(i / (left / LONG)));
        }
        list.push(random.of(*op, kernel.takes));
    }
    list.extend([low(&first, Lines::new(reader, 13), LOW), in_rows(reader, edges::later())].concat());

    list.extend([given(reader, CORNERS), unused(&added), edges(&added)].concat());
    let mut random = Lines::new(reader, 17);
    list.extend(added.iter().cycle().take(ADDED).map(|(op, kernel)| random.of(*op, kernel.takes)));
    // the rows of edges come last: to these new ones are added
    list.extend([low(&added, Lines::new(reader, 19), ADDED_LOW), in_rows(reader, edges::last())].concat());
    list
}

/// Writes the list to `stdin` and its answers to `stdout` in a folder.
pub fn write(reader: &Reader, folder: &Path) -> io::Result<()> {
    store(folder, "frames", &list(reader), |input| reader.answers_to(input))
}

/// Writes lines to `stdin` and the answers to them to `stdout` in a folder.
pub fn store(folder: &Path, what: &str, lines: &[Vec<u8>], answers_to: impl Fn(&[u8]) -> Vec<u8>) -> io::Result<()> {
    let input = joined(lines);
    keep(folder, &format!("{} {what}", lines.len()), &input, &answers_to(&input))
}

/// Writes an input to `stdin` and the answers to it to `stdout` in a folder, and says what was written.
pub fn keep(folder: &Path, what: &str, input: &[u8], answers: &[u8]) -> io::Result<()> {
    std::fs::create_dir_all(folder)?;
    std::fs::write(folder.join("stdin"), input)?;
    std::fs::write(folder.join("stdout"), answers)?;
    println!("{}: {what}, {} bytes in stdin, {} in stdout", folder.display(), input.len(), answers.len());
    Ok(())
}
