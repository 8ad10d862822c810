//! The reader of frames by itself, with no library: it answers standard input. `compare/slips` lays it out beside a copy of the
//! crate's `float` module and of what the reader is made of.
#![allow(warnings)]

extern crate self as micromath;

// not ours to lay out
#[rustfmt::skip]
mod float;
mod gates;
pub mod kernels;
mod marks;
mod reader;
mod remainder;
pub mod sweep;
mod words;

pub use float::mul_add::helpers;
pub use float::F32;

use std::io::{stdin, stdout, BufReader, BufWriter};

fn main() {
    reader::Reader::new().answers(BufReader::new(stdin()), BufWriter::new(stdout())).expect("frames are read and answered");
}
