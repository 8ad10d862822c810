//! Frames read and answered: lines in, answers out. Nothing here is taken from the library. The raw words are the crate's, the
//! refusals are those of `gates.rs`, and what runs skip is answered by the rules of docs/DIFFERENCES.md.

use crate::kernels::{all, Kernel, Takes};
use std::io::{self, BufRead, Write};

pub struct Reader {
    /// The known operations, each at its number.
    kernels: Vec<Option<Kernel>>,
}

impl Reader {
    pub fn new() -> Reader {
        let mut kernels: Vec<Option<Kernel>> = (0..256).map(|_| None).collect();
        for kernel in all() {
            if let Some(n) = kernel.number() {
                kernels[n as usize] = Some(kernel);
            }
        }
        Reader { kernels }
    }

    /// The known operations with their numbers, guarded and raw.
    pub fn known(&self) -> Vec<(u32, &Kernel)> {
        (0..).zip(&self.kernels).filter_map(|(n, kernel)| Some((n, kernel.as_ref()?))).collect()
    }

    /// The answer to a line without its newline: a refusal in the high half, a word in the low.
    pub fn answer(&self, line: &[u8]) -> u64 {
        const UNKNOWN: u64 = 6 << 32;
        const MALFORMED: u64 = 7 << 32;
        let Some((op, a, b)) = read(line) else { return MALFORMED };
        let Some(kernel) = &self.kernels[op as usize] else { return UNKNOWN };
        if kernel.takes == Takes::One && b != 0 {
            MALFORMED
        } else if (kernel.skips)(a, b) {
            pinned(kernel.name, a, b) as u64
        } else {
            kernel.expected(a, b).expect("no guarded answer is a NaN")
        }
    }

    /// Answers each line of the input, in order.
    pub fn answers(&self, input: impl BufRead, output: impl Write) -> io::Result<()> {
        answers(|line| self.answer(line), input, output)
    }

    /// The answers to an input that is at hand as a whole.
    pub fn answers_to(&self, input: &[u8]) -> Vec<u8> {
        answers_to(|line| self.answer(line), input)
    }
}

/// Answers each line of the input, in order. A last line without its newline counts, and an empty input has no line.
fn answers(answer: impl Fn(&[u8]) -> u64, mut input: impl BufRead, mut output: impl Write) -> io::Result<()> {
    let mut line = Vec::new();
    while input.read_until(b'\n', &mut line)? > 0 {
        output.write_all(&written(answer(line.strip_suffix(b"\n").unwrap_or(&line))))?;
        line.clear();
    }
    output.flush()
}

/// The answers to the lines of an input that is at hand as a whole.
pub fn answers_to(answer: impl Fn(&[u8]) -> u64, input: &[u8]) -> Vec<u8> {
    let mut output = Vec::new();
    answers(answer, input, &mut output).expect("bytes at hand are read and written");
    output
}

/// How many bytes an answer has.
pub const ANSWER: usize = 11;

/// An answer as a line: two digits of refusal, eight of value, and a newline.
pub fn written(answer: u64) -> [u8; ANSWER] {
    let mut line = [b'\n'; ANSWER];
    for (place, digit) in line[..10].iter_mut().enumerate() {
        *digit = b"0123456789abcdef"[(answer >> (36 - 4 * place) & 15) as usize];
    }
    line
}

/// The operation and the two words of a line of 18 lower-case hex digits.
fn read(line: &[u8]) -> Option<(u32, u32, u32)> {
    if line.len() != 18 {
        return None;
    }
    Some((number(&line[..2])?, number(&line[2..10])?, number(&line[10..])?))
}

/// The number that these lower-case hex digits are.
pub fn number(digits: &[u8]) -> Option<u32> {
    digits.iter().try_fold(0, |n, digit| match digit {
        b'0'..=b'9' => Some(n << 4 | (digit - b'0') as u32),
        b'a'..=b'f' => Some(n << 4 | (digit - b'a' + 10) as u32),
        _ => None,
    })
}

/// The raw words where runs skip the crate.
fn pinned(name: &str, a: u32, b: u32) -> u32 {
    const INFINITY: u32 = 0x7f80_0000;
    const MINUS_INFINITY: u32 = 0xff80_0000;
    const NAN: u32 = 0x7fc0_0000;
    let (x, n) = (f32::from_bits(a), f32::from_bits(b));
    match name {
        // a NaN is 7fc00000 by the time exp reads its bits, and exp of that is +infinity
        "exp" => INFINITY,
        // so it is within powf, whose last branch, for a base not from 0 up and an odd power, negates what exp gives
        "powf" if x >= 0.0 || !is_odd(n) => INFINITY,
        "powf" => MINUS_INFINITY,
        // the power -2^31, whatever the base
        "powi" => NAN,
        // trunc reads 7fc00000 in the quotient's place, which gives +infinity, and 1 more or less leaves that
        "div_euclid" => INFINITY,
        _ => unreachable!("runs skip nothing of {name}"),
    }
}

/// Whether a power is odd once its fraction is gone. From 2^31 on every number is even, and a NaN is too.
fn is_odd(n: f32) -> bool {
    n.abs() < 2_147_483_648.0 && n as i32 % 2 != 0
}
