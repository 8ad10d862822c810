//! Words for the tests.

/// Words of every kind: zeros, the ends of the normal numbers, small and large ones, pi/2, infinities and NaN.
const WORDS: [u32; 25] = [
    0x00000000, 0x00000001, 0x007fffff, 0x00800000, 0x217fffff, 0x21800000, 0x3effffff, 0x3f000000, 0x3f7fffff, 0x3f800000,
    0x3fc90fdb, 0x40200000, 0x42b00000, 0x43800000, 0x43800001, 0x4b000000, 0x4f000000, 0x5d800000, 0x5e800000, 0x5e800001,
    0x7e800000, 0x7e800001, 0x7f7fffff, 0x7f800000, 0x7fc00001,
];

/// Each of them with either sign.
pub fn words() -> impl Iterator<Item = u32> {
    WORDS.into_iter().flat_map(|word| [word, word | 0x8000_0000])
}
