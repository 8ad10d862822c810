//! The call by number where it refuses before it looks at the words' values: 6 for every number that has no operation, and 7
//! for a second word that a known operation does not use and that is not zero. Each refusal's word is zero.

use crate::kernels::{all, words, Takes};
use crate::sweep::Count;

/// The numbers that are tried, with an operation and without: each below 400, the powers of two, and some whose last digits are
/// an operation's.
pub fn numbers() -> impl Iterator<Item = u32> {
    (0..0x400).chain((0..32).map(|k| 1 << k)).chain([0x106, 0x186, 0x1_0009, 0x8000_0006, 0x8000_0009, 0x8000_0086, u32::MAX])
}

pub fn refusals() -> Count {
    let known = all();
    let mut count = Count::default();
    let mut expect = |op: u32, a: u32, b: u32, refusal: u64| {
        count.judge(Some(refusal << 32), words(op, a, b), || format!("{op:02x} of {a:08x} {b:08x}"));
    };
    let samples = [0, 1, 0x3f80_0000, 0x7fc0_0000, 0x8000_0000, 0xffff_ffff];
    for op in numbers() {
        let kernel = known.iter().find(|k| k.number() == Some(op));
        for a in samples {
            for b in samples {
                match kernel {
                    None => expect(op, a, b, 6),
                    Some(k) if k.takes == Takes::One && b != 0 => expect(op, a, b, 7),
                    Some(_) => {}
                }
            }
        }
    }
    count
}
