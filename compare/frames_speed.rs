//! How long a program takes to answer frames, beside the reader of `reader.rs`.

use crate::frames::first_difference;
use crate::lines::{frame, joined};
use crate::reader::Reader;
use crate::speed::{median, usual};
use crate::words::Random;
use std::fs::{self, File};
use std::io;
use std::path::Path;
use std::process::Command;
use std::time::Instant;

/// The time of one run over a file, in milliseconds, with the answers in another.
fn time(program: &Path, args: &[&str], input: &Path, output: &Path) -> io::Result<f64> {
    let mut command = Command::new(program);
    command.args(args).stdin(File::open(input)?).stdout(File::create(output)?);
    let start = Instant::now();
    command.status()?;
    Ok(start.elapsed().as_secs_f64() * 1e3)
}

/// Times the program and this reader, each a process from a file to a file, in turn; says whether the answers agree.
pub fn speed(reader: &Reader, program: &str) -> io::Result<bool> {
    const FRAMES: usize = 1_000_000;
    const RUNS: usize = 9;
    let own = std::env::current_exe()?;
    let (input, output) = (own.with_extension("stdin"), own.with_extension("stdout"));
    let mut random = Random::new(7);
    let known = reader.known();
    let frames = std::iter::repeat_with(|| {
        let (op, kernel) = random.one_of(&known);
        let (a, b) = usual(kernel.takes, &mut random);
        frame(op, a, b)
    });
    let frames = joined(&frames.take(FRAMES).collect::<Vec<_>>());
    let expected = reader.answers_to(&frames);
    fs::write(&input, &frames)?;
    let (mut theirs, mut ours, mut differs) = (Vec::new(), Vec::new(), None);
    for _ in 0..RUNS {
        theirs.push(time(&own, &["--read"], &input, &output)?);
        ours.push(time(Path::new(program), &[], &input, &output)?);
        differs = differs.or(first_difference(&frames, &expected, &fs::read(&output)?));
    }
    fs::remove_file(&input)?;
    fs::remove_file(&output)?;
    let (theirs, ours) = (median(theirs), median(ours));
    println!("{FRAMES} well-formed frames of known operations, words of size 2^-15 to 2^17, from a file to a file, medians of {RUNS} runs of each side in turn");
    println!("frames: the reader {theirs:.0} ms, the program {ours:.0} ms ({:.2} times)", ours / theirs);
    if let Some(first) = &differs {
        println!("frames: the answers differ; the first: {first}");
    }
    Ok(differs.is_none())
}
