//! The crate's kernels in one crate with their loops, so that all of a kernel can be put into its loop: the table of `kernels.rs`
//! over the crate's own source. `compare/run` lays it out beside the crate's `float` module and what the table is made of.
#![allow(dead_code)]

extern crate self as micromath;

// its modules stand beside it
#[path = "frame.rs"]
mod frame;
mod gates;
mod kernels;
mod marks;
mod remainder;

pub use frame::{helpers, F32};

/// A kernel's loop over two lists, with the answers in a third.
pub type Loop = fn(&[u32], &[u32], &mut [u32]);

/// The loop of the kernel that has this number.
pub fn loops(number: u32) -> Option<Loop> {
    kernels::all().iter().find(|kernel| kernel.number() == Some(number)).map(|kernel| kernel.loops)
}
