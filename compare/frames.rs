//! A program that answers lines, held to the answers byte for byte: for frames, to those of the reader of `reader.rs`.

use crate::lines::{joined, Lines};
use crate::reader::{Reader, ANSWER};
use crate::words::Random;
use std::ffi::{c_int, c_ulong};
use std::io::{self, Read, Write};
use std::os::fd::AsRawFd;
use std::process::{ChildStdin, Command, ExitStatus, Stdio};
use std::time::{Duration, Instant};

/// How many bytes of a line are shown.
const SHOWN: usize = 40;

/// How an input reaches the program.
#[derive(Clone, Copy)]
pub enum Feed {
    /// As fast as it is taken.
    Whole,
    /// In pieces of these lengths at random, each once the one before has been read.
    Pieces(&'static [usize]),
}

/// Some lines, at random; every 2,000th is long, and one in 100,000 is of megabytes. The last has no newline.
fn lines(reader: &Reader, seed: u64, count: usize) -> Vec<u8> {
    let mut lines = Lines::new(reader, seed);
    let of = |i: usize| {
        if i % 100_000 == 50_000 {
            lines.long(((1 + i / 100_000 % 4) << 20) + 18)
        } else if i % 2_000 == 1_000 {
            let length = lines.some_length();
            lines.long(length)
        } else {
            lines.any()
        }
    };
    let mut all: Vec<Vec<u8>> = (1..count).map(of).collect();
    all.push(lines.known());
    joined(&all)
}

/// Short lines, and this one: what is read at once has more of them than there is room for answers to.
pub fn short(good: &str) -> Vec<Vec<u8>> {
    let line = format!("{good}\n");
    let mut random = Random::new(7);
    let mixed = (0..200_000).flat_map(|_| line.as_bytes()[good.len() - [0, 0, 0, 1, 2, good.len()][random.below(6)]..].to_vec()).collect();
    vec!["\n".repeat(200_000).into_bytes(), format!("{}{line}", "\n".repeat(5_957)).into_bytes(), format!("{}{line}", "\n".repeat(5_958)).into_bytes(), mixed]
}

/// Whole inputs of this line that differ in how they end.
pub fn endings(good: &str) -> Vec<Vec<u8>> {
    let ends = ["", "\n", "\n\n", "\r", "\r\n", "\0", "\0\n", "0", &good[..good.len() - 1], good, "\n\n\n\n"];
    let mut inputs: Vec<Vec<u8>> = ends.iter().flat_map(|end| [end.to_string(), format!("{good}{end}"), format!("{good}\n{end}")]).map(String::into_bytes).collect();
    inputs.push(good.repeat(200_000).into_bytes());
    inputs.push(format!("{}\n{good}", "0".repeat(5_000_000)).into_bytes());
    inputs
}

// Linux's, of the C library that Rust links anyway
extern "C" {
    fn ioctl(file: c_int, request: c_ulong, ...) -> c_int;
}

/// Waits until nothing of what was written is left unread, for a minute at most; says whether nothing is.
fn is_read(pipe: &ChildStdin) -> bool {
    const FIONREAD: c_ulong = 0x541b;
    let start = Instant::now();
    while start.elapsed() < Duration::from_secs(60) {
        let mut unread: c_int = 0;
        let status = unsafe { ioctl(pipe.as_raw_fd(), FIONREAD, &mut unread) };
        assert_eq!(status, 0, "a pipe tells how much of it is unread");
        if unread == 0 {
            return true;
        }
        std::thread::yield_now();
    }
    false
}

/// A program that stops reading is not fed further: its answers tell.
fn feed(mut pipe: ChildStdin, mut input: &[u8], how: Feed) {
    let mut random = Random::new(5);
    while !input.is_empty() {
        let length = match how {
            Feed::Whole => input.len(),
            Feed::Pieces(lengths) => random.one_of(lengths).min(input.len()),
        };
        let (piece, rest) = input.split_at(length);
        if pipe.write_all(piece).is_err() || matches!(how, Feed::Pieces(_)) && !is_read(&pipe) {
            return;
        }
        input = rest;
    }
}

/// What the program writes, and how it ends.
fn run(program: &str, input: &[u8], how: Feed) -> io::Result<(Vec<u8>, ExitStatus)> {
    let mut child = Command::new(program).stdin(Stdio::piped()).stdout(Stdio::piped()).spawn()?;
    let (pipe, mut from) = (child.stdin.take().expect("it is piped"), child.stdout.take().expect("it is piped"));
    let mut answers = Vec::new();
    std::thread::scope(|scope| {
        scope.spawn(|| feed(pipe, input, how));
        from.read_to_end(&mut answers)
    })?;
    Ok((answers, child.wait()?))
}

/// Bytes for a reader's eyes, up to so many of them.
pub fn shown(bytes: &[u8], most: usize) -> String {
    format!("\"{}\"{}", bytes[..bytes.len().min(most)].escape_ascii(), if bytes.len() > most { "..." } else { "" })
}

/// The line that begins at a place in the answers, or what there is of it.
fn line_at(answers: &[u8], from: usize) -> String {
    match answers.get(from..) {
        None | Some([]) => "nothing".to_string(),
        Some(rest) => shown(rest.split(|byte| *byte == b'\n').next().unwrap_or(rest), SHOWN),
    }
}

/// The first line whose answer is not the one that it should be.
pub fn first_difference(input: &[u8], expected: &[u8], answers: &[u8]) -> Option<String> {
    if expected == answers {
        return None;
    }
    let same = expected.iter().zip(answers).take_while(|(a, b)| a == b).count();
    let number = same / ANSWER;
    let line = input.split(|byte| *byte == b'\n').nth(number).filter(|_| number * ANSWER < expected.len());
    let line = line.map_or("past the last".to_string(), |line| shown(line, SHOWN));
    let (should, is) = (line_at(expected, number * ANSWER), line_at(answers, number * ANSWER));
    Some(format!("line {}, {line}, should give {should} and gives {is}", number + 1))
}

/// Holds the program to the reader and says so, a line to each way of feeding it; says whether they agree.
pub fn compare(reader: &Reader, program: &str) -> io::Result<bool> {
    const GOOD: &str = "094080000000000000";
    let sets = [
        ("as fast as it reads", vec![lines(reader, 1, 1_000_000)], Feed::Whole),
        ("inputs of a few lines", endings(GOOD), Feed::Whole),
        ("short lines", short(GOOD), Feed::Whole),
        ("one byte at a time", vec![lines(reader, 2, 1_500)], Feed::Pieces(&[1])),
        ("in odd pieces", vec![lines(reader, 3, 60_000)], Feed::Pieces(&[1, 2, 3, 7, 17, 18, 19, 20, 37, 255, 1_021, 4_095, 4_096, 4_097])),
    ];
    hold("frames", program, &sets, |input| reader.answers_to(input))
}

/// Some inputs with a label, and how they are fed.
pub type Set = (&'static str, Vec<Vec<u8>>, Feed);

/// Holds the program to the answers to these inputs and says so, a line to each set; says whether they agree.
pub fn hold(what: &str, program: &str, sets: &[Set], answers_to: impl Fn(&[u8]) -> Vec<u8>) -> io::Result<bool> {
    let (mut tried, mut agree) = (0, true);
    for (label, inputs, how) in sets {
        let (mut count, mut first) = (0, None);
        for input in inputs {
            let expected = answers_to(input);
            let (answers, status) = run(program, input, *how)?;
            count += expected.len() / ANSWER;
            let ended = || (!status.success()).then(|| status.to_string());
            let differs = first_difference(input, &expected, &answers).or_else(ended);
            let which = if inputs.len() > 1 { format!("of {}, ", shown(input, SHOWN)) } else { String::new() };
            first = first.or(differs.map(|what| which + &what));
        }
        tried += count;
        agree &= first.is_none();
        println!("{what}, {label}: {count} lines tried, {}", first.map_or("none differs".to_string(), |first| format!("some differ; the first: {first}")));
    }
    println!("{what} in all: {tried} lines tried, {}", if agree { "none differs" } else { "some differ" });
    Ok(agree)
}
