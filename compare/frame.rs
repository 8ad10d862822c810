//! The frame in which the crate's float kernels compile by themselves: its `float` module stands beside this file once
//! `compare/run` has laid both out.
#![allow(warnings)]

// not ours to lay out
#[rustfmt::skip]
mod float;

pub use float::mul_add::helpers;
pub use float::F32;
