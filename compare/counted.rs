//! The crate's powi with its products counted. `compare/run` lays this out beside the crate's `float` module, in which a copy of
//! powi's file calls `product` behind each product of its loop.

use std::cell::Cell;

// its modules stand beside it
#[path = "frame.rs"]
mod frame;

thread_local! {
    static PRODUCTS: Cell<u32> = const { Cell::new(0) };
}

/// Counts a product.
fn product() {
    PRODUCTS.set(PRODUCTS.get() + 1);
}

/// The word of the crate's powi, and how many products its loop formed for it.
pub fn powi(a: u32, n: i32) -> (u32, u32) {
    PRODUCTS.set(0);
    let word = frame::F32::from_bits(a).powi(n).to_bits();
    (word, PRODUCTS.get())
}
