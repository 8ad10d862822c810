//! Calls on doubles with their answers, worked out by hand, and the words that doubles are tried on: edges, a grid of all
//! exponents, and words at random.

use crate::double_judge::{Answer, BIAS, FRACTION_BITS, LAST_FIELD, SIGN};
use crate::words::Random;

/// A number and a word, with the refusal and the word that are due.
type Row = (u32, u64, u32, u64);

const TRUNC: [Row; 44] = [
    // zeros and what is below 1
    (0x01, 0x0000_0000_0000_0000, 0, 0x0000_0000_0000_0000),
    (0x01, 0x8000_0000_0000_0000, 0, 0x8000_0000_0000_0000),
    (0x01, 0x0000_0000_0000_0001, 0, 0x0000_0000_0000_0000),
    (0x01, 0x800f_ffff_ffff_ffff, 0, 0x8000_0000_0000_0000),
    (0x01, 0x0010_0000_0000_0000, 0, 0x0000_0000_0000_0000),
    (0x01, 0x3fef_ffff_ffff_ffff, 0, 0x0000_0000_0000_0000),
    (0x01, 0xbfef_ffff_ffff_ffff, 0, 0x8000_0000_0000_0000),
    (0x81, 0x8000_0000_0000_0000, 0, 0x8000_0000_0000_0000),
    (0x81, 0x3fef_ffff_ffff_ffff, 0, 0x0000_0000_0000_0000),
    (0x81, 0xbfef_ffff_ffff_ffff, 0, 0x8000_0000_0000_0000),
    // 1, the last below 2, 2.5 and 2^40 + 1/2
    (0x01, 0x3ff0_0000_0000_0000, 0, 0x3ff0_0000_0000_0000),
    (0x01, 0xbff0_0000_0000_0000, 0, 0xbff0_0000_0000_0000),
    (0x01, 0x3ff0_0000_0000_0001, 0, 0x3ff0_0000_0000_0000),
    (0x01, 0x3fff_ffff_ffff_ffff, 0, 0x3ff0_0000_0000_0000),
    (0x01, 0xbfff_ffff_ffff_ffff, 0, 0xbff0_0000_0000_0000),
    (0x01, 0x4004_0000_0000_0000, 0, 0x4000_0000_0000_0000),
    (0x01, 0xc004_0000_0000_0000, 0, 0xc000_0000_0000_0000),
    (0x01, 0x4270_0000_0000_0800, 0, 0x4270_0000_0000_0000),
    (0x01, 0xc270_0000_0000_0800, 0, 0xc270_0000_0000_0000),
    (0x81, 0x4270_0000_0000_0800, 0, 0x4270_0000_0000_0000),
    // the last with a bit below the point, and the first with none
    (0x01, 0x432f_ffff_ffff_ffff, 0, 0x432f_ffff_ffff_fffe),
    (0x01, 0x4330_0000_0000_0001, 0, 0x4330_0000_0000_0001),
    (0x01, 0xc33f_ffff_ffff_ffff, 0, 0xc33f_ffff_ffff_ffff),
    // 2^64 and what is just below it; raw the places are none again from there
    (0x01, 0x43ef_ffff_ffff_ffff, 0, 0x43ef_ffff_ffff_ffff),
    (0x01, 0xc3ef_ffff_ffff_ffff, 0, 0xc3ef_ffff_ffff_ffff),
    (0x01, 0x43f0_0000_0000_0000, 4, 0),
    (0x01, 0xc3f0_0000_0000_0000, 4, 0),
    (0x81, 0x43ef_ffff_ffff_ffff, 0, 0x43ef_ffff_ffff_ffff),
    (0x81, 0x43f0_0000_0000_0000, 0, 0x43f0_0000_0000_0000),
    (0x81, 0x43f8_0000_0000_0000, 0, 0x43f0_0000_0000_0000),
    (0x81, 0xc3ff_ffff_ffff_ffff, 0, 0xc3f0_0000_0000_0000),
    (0x81, 0x440f_ffff_ffff_ffff, 0, 0x4408_0000_0000_0000),
    // the largest, infinities and NaN
    (0x01, 0x7fef_ffff_ffff_ffff, 4, 0),
    (0x81, 0x7fef_ffff_ffff_ffff, 0, 0x7fef_ffff_ffff_ffff),
    (0x01, 0x7ff0_0000_0000_0000, 1, 0),
    (0x01, 0xfff0_0000_0000_0000, 1, 0),
    (0x01, 0x7ff0_0000_0000_0001, 1, 0),
    (0x01, 0xffff_ffff_ffff_ffff, 1, 0),
    (0x81, 0x7ff0_0000_0000_0000, 0, 0x7ff0_0000_0000_0000),
    (0x81, 0xfff0_0000_0000_0000, 0, 0xfff0_0000_0000_0000),
    (0x81, 0x7ff0_0000_0000_0001, 0, 0x7ff0_0000_0000_0000),
    (0x81, 0x7ff8_0000_0000_0000, 0, 0x7ff0_0000_0000_0000),
    (0x81, 0xfff8_0000_0000_0001, 0, 0xfff0_0000_0000_0000),
    (0x81, 0xffff_ffff_ffff_ffff, 0, 0xfff0_0000_0000_0000),
];

const FRACT: [Row; 44] = [
    // what is below 1 is its own fraction
    (0x02, 0x0000_0000_0000_0000, 0, 0x0000_0000_0000_0000),
    (0x02, 0x8000_0000_0000_0000, 0, 0x8000_0000_0000_0000),
    (0x02, 0x0000_0000_0000_0001, 0, 0x0000_0000_0000_0001),
    (0x02, 0x800f_ffff_ffff_ffff, 0, 0x800f_ffff_ffff_ffff),
    (0x02, 0x3fef_ffff_ffff_ffff, 0, 0x3fef_ffff_ffff_ffff),
    (0x02, 0xbfef_ffff_ffff_ffff, 0, 0xbfef_ffff_ffff_ffff),
    (0x82, 0x8000_0000_0000_0000, 0, 0x8000_0000_0000_0000),
    (0x82, 0x3fef_ffff_ffff_ffff, 0, 0x3fef_ffff_ffff_ffff),
    // 1 and its neighbour, the last below 2, 2.5, the last below 4, and 2^40 + 1/2
    (0x02, 0x3ff0_0000_0000_0000, 0, 0x0000_0000_0000_0000),
    (0x02, 0xbff0_0000_0000_0000, 0, 0x8000_0000_0000_0000),
    (0x02, 0x3ff0_0000_0000_0001, 0, 0x3cb0_0000_0000_0000),
    (0x02, 0xbff0_0000_0000_0001, 0, 0xbcb0_0000_0000_0000),
    (0x02, 0x3fff_ffff_ffff_ffff, 0, 0x3fef_ffff_ffff_fffe),
    (0x02, 0xbfff_ffff_ffff_ffff, 0, 0xbfef_ffff_ffff_fffe),
    (0x02, 0x4004_0000_0000_0000, 0, 0x3fe0_0000_0000_0000),
    (0x02, 0xc004_0000_0000_0000, 0, 0xbfe0_0000_0000_0000),
    (0x02, 0x400f_ffff_ffff_ffff, 0, 0x3fef_ffff_ffff_fffc),
    (0x02, 0x4270_0000_0000_0800, 0, 0x3fe0_0000_0000_0000),
    (0x02, 0xc270_0000_0000_0800, 0, 0xbfe0_0000_0000_0000),
    (0x82, 0xbff0_0000_0000_0000, 0, 0x8000_0000_0000_0000),
    (0x82, 0xc270_0000_0000_0800, 0, 0xbfe0_0000_0000_0000),
    // the last with a bit below the point, and the first with none
    (0x02, 0x432f_ffff_ffff_ffff, 0, 0x3fe0_0000_0000_0000),
    (0x02, 0x4330_0000_0000_0001, 0, 0x0000_0000_0000_0000),
    (0x02, 0xc33f_ffff_ffff_ffff, 0, 0x8000_0000_0000_0000),
    // 2^64 and what is just below it; raw the places are none again from there
    (0x02, 0x43ef_ffff_ffff_ffff, 0, 0x0000_0000_0000_0000),
    (0x02, 0xc3ef_ffff_ffff_ffff, 0, 0x8000_0000_0000_0000),
    (0x02, 0x43f0_0000_0000_0000, 4, 0),
    (0x02, 0xc3f0_0000_0000_0000, 4, 0),
    (0x82, 0x43ef_ffff_ffff_ffff, 0, 0x0000_0000_0000_0000),
    (0x82, 0xc3f0_0000_0000_0000, 0, 0x8000_0000_0000_0000),
    (0x82, 0x43f8_0000_0000_0000, 0, 0x3fe0_0000_0000_0000),
    (0x82, 0xc3f0_0000_0000_0001, 0, 0xbcb0_0000_0000_0000),
    // the largest, infinities and NaN
    (0x02, 0xffef_ffff_ffff_ffff, 4, 0),
    (0x82, 0xffef_ffff_ffff_ffff, 0, 0x8000_0000_0000_0000),
    (0x02, 0x7ff0_0000_0000_0000, 1, 0),
    (0x02, 0xfff0_0000_0000_0000, 1, 0),
    (0x02, 0x7ff8_0000_0000_0000, 1, 0),
    (0x02, 0xfff0_0000_0000_0001, 1, 0),
    (0x82, 0x7ff0_0000_0000_0000, 0, 0x0000_0000_0000_0000),
    (0x82, 0xfff0_0000_0000_0000, 0, 0x8000_0000_0000_0000),
    (0x82, 0x7ff8_0000_0000_0000, 0, 0x3fe0_0000_0000_0000),
    (0x82, 0x7ff0_0000_0000_0001, 0, 0x3cb0_0000_0000_0000),
    (0x82, 0xfff8_0000_0000_0001, 0, 0xbfe0_0000_0000_0002),
    (0x82, 0xffff_ffff_ffff_ffff, 0, 0xbfef_ffff_ffff_fffe),
];

const SQRT: [Row; 51] = [
    // a zero is its own root, but not raw
    (0x09, 0x0000_0000_0000_0000, 0, 0x0000_0000_0000_0000),
    (0x09, 0x8000_0000_0000_0000, 0, 0x8000_0000_0000_0000),
    (0x89, 0x0000_0000_0000_0000, 0, 0x1ff8_0000_0000_0000),
    (0x89, 0x8000_0000_0000_0000, 0, 0x5ff8_0000_0000_0000),
    // small numbers, of which those below 0 are small first
    (0x09, 0x0000_0000_0000_0001, 9, 0),
    (0x09, 0x000f_ffff_ffff_ffff, 9, 0),
    (0x09, 0x8000_0000_0000_0001, 9, 0),
    (0x09, 0x800f_ffff_ffff_ffff, 9, 0),
    (0x89, 0x0000_0000_0000_0001, 0, 0x1ff8_0000_0000_0000),
    (0x89, 0x0000_0000_0000_0002, 0, 0x1ff8_0000_0000_0001),
    (0x89, 0x000f_ffff_ffff_ffff, 0, 0x1fff_ffff_ffff_ffff),
    (0x89, 0x8000_0000_0000_0001, 0, 0x7ff8_0000_0000_0000),
    // the smallest normal number, 2^-1022, and below 0
    (0x09, 0x0010_0000_0000_0000, 0, 0x2000_0000_0000_0000),
    (0x89, 0x0010_0000_0000_0000, 0, 0x2000_0000_0000_0000),
    (0x09, 0x8010_0000_0000_0000, 3, 0),
    (0x89, 0x8010_0000_0000_0000, 0, 0x7ff8_0000_0000_0000),
    (0x09, 0xbff0_0000_0000_0000, 3, 0),
    (0x89, 0xbff0_0000_0000_0000, 0, 0x7ff8_0000_0000_0000),
    (0x09, 0xffef_ffff_ffff_ffff, 3, 0),
    (0x89, 0xffef_ffff_ffff_ffff, 0, 0x7ff8_0000_0000_0000),
    // about 1, and 2, 4 and 9
    (0x09, 0x3fef_ffff_ffff_ffff, 0, 0x3fef_ffff_ffff_ffff),
    (0x09, 0x3ff0_0000_0000_0000, 0, 0x3ff0_0000_0000_0000),
    (0x09, 0x3ff0_0000_0000_0001, 0, 0x3ff0_0000_0000_0000),
    (0x09, 0x3ff0_0000_0000_0003, 0, 0x3ff0_0000_0000_0001),
    (0x09, 0x4000_0000_0000_0000, 0, 0x3ff8_0000_0000_0000),
    (0x09, 0x4010_0000_0000_0000, 0, 0x4000_0000_0000_0000),
    (0x09, 0x4022_0000_0000_0000, 0, 0x4009_0000_0000_0000),
    (0x89, 0x3ff0_0000_0000_0000, 0, 0x3ff0_0000_0000_0000),
    (0x89, 0x4022_0000_0000_0000, 0, 0x4009_0000_0000_0000),
    // 2^40 + 1/2 and the ends of other gates
    (0x09, 0x4270_0000_0000_0800, 0, 0x4130_0000_0000_0400),
    (0x09, 0x43ef_ffff_ffff_ffff, 0, 0x41ef_ffff_ffff_ffff),
    (0x09, 0x43f0_0000_0000_0000, 0, 0x41f0_0000_0000_0000),
    (0x09, 0x7fd0_0000_0000_0000, 0, 0x5fe0_0000_0000_0000),
    (0x09, 0x7fd0_0000_0000_0001, 0, 0x5fe0_0000_0000_0000),
    (0x09, 0x7fe0_0000_0000_0000, 0, 0x5fe8_0000_0000_0000),
    (0x09, 0x7fef_ffff_ffff_ffff, 0, 0x5fef_ffff_ffff_ffff),
    (0x89, 0x7fef_ffff_ffff_ffff, 0, 0x5fef_ffff_ffff_ffff),
    // infinities and NaN
    (0x09, 0x7ff0_0000_0000_0000, 1, 0),
    (0x09, 0xfff0_0000_0000_0000, 1, 0),
    (0x09, 0x7ff0_0000_0000_0001, 1, 0),
    (0x09, 0x7ff8_0000_0000_0000, 1, 0),
    (0x09, 0xfff0_0000_0000_0001, 1, 0),
    (0x09, 0xffff_ffff_ffff_ffff, 1, 0),
    (0x89, 0x7ff0_0000_0000_0000, 0, 0x5ff0_0000_0000_0000),
    (0x89, 0xfff0_0000_0000_0000, 0, 0x7ff8_0000_0000_0000),
    (0x89, 0x7ff0_0000_0000_0001, 0, 0x7ff8_0000_0000_0000),
    (0x89, 0x7ff8_0000_0000_0000, 0, 0x7ff8_0000_0000_0000),
    (0x89, 0x7fff_ffff_ffff_ffff, 0, 0x7ff8_0000_0000_0000),
    (0x89, 0xfff8_0000_0000_0000, 0, 0x7ff8_0000_0000_0000),
    (0x89, 0xfff0_0000_0000_0001, 0, 0x7ff8_0000_0000_0000),
    (0x89, 0xffff_ffff_ffff_ffff, 0, 0x7ff8_0000_0000_0000),
];

const INV: [Row; 54] = [
    // zeros, then small numbers
    (0x0b, 0x0000_0000_0000_0000, 2, 0),
    (0x0b, 0x8000_0000_0000_0000, 2, 0),
    (0x8b, 0x0000_0000_0000_0000, 0, 0x7fe0_0000_0000_0000),
    (0x8b, 0x8000_0000_0000_0000, 0, 0xffe0_0000_0000_0000),
    (0x0b, 0x0000_0000_0000_0001, 9, 0),
    (0x0b, 0x8000_0000_0000_0001, 9, 0),
    (0x0b, 0x000f_ffff_ffff_ffff, 9, 0),
    (0x0b, 0x800f_ffff_ffff_ffff, 9, 0),
    (0x8b, 0x0000_0000_0000_0001, 0, 0x7fdf_ffff_ffff_ffff),
    (0x8b, 0x8000_0000_0000_0001, 0, 0xffdf_ffff_ffff_ffff),
    (0x8b, 0x000f_ffff_ffff_ffff, 0, 0x7fd0_0000_0000_0001),
    // the smallest normal number, 2^-1022
    (0x0b, 0x0010_0000_0000_0000, 0, 0x7fd0_0000_0000_0000),
    (0x0b, 0x8010_0000_0000_0000, 0, 0xffd0_0000_0000_0000),
    (0x8b, 0x0010_0000_0000_0000, 0, 0x7fd0_0000_0000_0000),
    // about 1, and 2, 3 and 2^40 + 1/2
    (0x0b, 0x3fef_ffff_ffff_ffff, 0, 0x3ff0_0000_0000_0001),
    (0x0b, 0x3ff0_0000_0000_0000, 0, 0x3ff0_0000_0000_0000),
    (0x0b, 0xbff0_0000_0000_0000, 0, 0xbff0_0000_0000_0000),
    (0x0b, 0x3ff0_0000_0000_0001, 0, 0x3fef_ffff_ffff_ffff),
    (0x0b, 0x4000_0000_0000_0000, 0, 0x3fe0_0000_0000_0000),
    (0x0b, 0xc000_0000_0000_0000, 0, 0xbfe0_0000_0000_0000),
    (0x0b, 0x4008_0000_0000_0000, 0, 0x3fd8_0000_0000_0000),
    (0x0b, 0x4270_0000_0000_0800, 0, 0x3d6f_ffff_ffff_f800),
    (0x8b, 0xbff0_0000_0000_0000, 0, 0xbff0_0000_0000_0000),
    (0x8b, 0x4008_0000_0000_0000, 0, 0x3fd8_0000_0000_0000),
    // 2^64 is no end here
    (0x0b, 0x43ef_ffff_ffff_ffff, 0, 0x3bf0_0000_0000_0001),
    (0x0b, 0x43f0_0000_0000_0000, 0, 0x3bf0_0000_0000_0000),
    // 2^1022 and the next; raw the answers are small from there
    (0x0b, 0x7fd0_0000_0000_0000, 0, 0x0010_0000_0000_0000),
    (0x0b, 0xffd0_0000_0000_0000, 0, 0x8010_0000_0000_0000),
    (0x0b, 0x7fd0_0000_0000_0001, 4, 0),
    (0x0b, 0xffd0_0000_0000_0001, 4, 0),
    (0x8b, 0x7fd0_0000_0000_0001, 0, 0x000f_ffff_ffff_ffff),
    (0x8b, 0xffd0_0000_0000_0001, 0, 0x800f_ffff_ffff_ffff),
    // 2^1023, where raw answers come to 0 and wrap, and the largest
    (0x0b, 0x7fe0_0000_0000_0000, 4, 0),
    (0x0b, 0x7fef_ffff_ffff_ffff, 4, 0),
    (0x0b, 0xffef_ffff_ffff_ffff, 4, 0),
    (0x8b, 0x7fdf_ffff_ffff_ffff, 0, 0x0000_0000_0000_0001),
    (0x8b, 0x7fe0_0000_0000_0000, 0, 0x0000_0000_0000_0000),
    (0x8b, 0x7fe0_0000_0000_0001, 0, 0xffff_ffff_ffff_ffff),
    (0x8b, 0xffe0_0000_0000_0000, 0, 0x8000_0000_0000_0000),
    (0x8b, 0xffe0_0000_0000_0001, 0, 0x7fff_ffff_ffff_ffff),
    (0x8b, 0x7fef_ffff_ffff_ffff, 0, 0xfff0_0000_0000_0001),
    // infinities and NaN
    (0x0b, 0x7ff0_0000_0000_0000, 1, 0),
    (0x0b, 0xfff0_0000_0000_0000, 1, 0),
    (0x0b, 0x7ff0_0000_0000_0001, 1, 0),
    (0x0b, 0x7ff8_0000_0000_0000, 1, 0),
    (0x0b, 0xfff8_0000_0000_0000, 1, 0),
    (0x0b, 0xffff_ffff_ffff_ffff, 1, 0),
    (0x8b, 0x7ff0_0000_0000_0000, 0, 0xfff0_0000_0000_0000),
    (0x8b, 0xfff0_0000_0000_0000, 0, 0x7ff0_0000_0000_0000),
    (0x8b, 0x7ff8_0000_0000_0000, 0, 0xffe8_0000_0000_0000),
    (0x8b, 0xfff8_0000_0000_0000, 0, 0x7fe8_0000_0000_0000),
    (0x8b, 0x7ff0_0000_0000_0001, 0, 0xffef_ffff_ffff_ffff),
    (0x8b, 0x7fff_ffff_ffff_ffff, 0, 0xffe0_0000_0000_0001),
    (0x8b, 0xffff_ffff_ffff_ffff, 0, 0x7fe0_0000_0000_0001),
];

/// Numbers beside those of the kernels, some of which have one for words of 32 bits, and words that would be refused otherwise.
const UNKNOWN: [Row; 14] = [
    (0x00, 0x3ff0_0000_0000_0000, 6, 0),
    (0x03, 0x4004_0000_0000_0000, 6, 0),
    (0x08, 0x3ff0_0000_0000_0000, 6, 0),
    (0x0a, 0x4010_0000_0000_0000, 6, 0),
    (0x0a, 0x7ff8_0000_0000_0000, 6, 0),
    (0x0c, 0x0000_0000_0000_0000, 6, 0),
    (0x41, 0x3ff0_0000_0000_0000, 6, 0),
    (0x80, 0x3ff0_0000_0000_0000, 6, 0),
    (0x83, 0xffff_ffff_ffff_ffff, 6, 0),
    (0x88, 0x8000_0000_0000_0001, 6, 0),
    (0x8a, 0x4010_0000_0000_0000, 6, 0),
    (0x8c, 0x0000_0000_0000_0001, 6, 0),
    (0xc9, 0x3ff0_0000_0000_0000, 6, 0),
    (0xff, 0x7ff0_0000_0000_0000, 6, 0),
];

/// The rows that were worked out by hand: a number, a word, and the answer.
pub fn by_hand() -> impl Iterator<Item = (u32, u64, Answer)> {
    let rows = TRUNC.into_iter().chain(FRACT).chain(SQRT).chain(INV).chain(UNKNOWN);
    rows.map(|(op, a, refusal, word)| (op, a, Answer { refusal, word }))
}

/// Sizes at which something ends: a class of numbers, a gate, the places of a number, a sign of the answer.
const ENDS: [u64; 18] = [
    0x0000_0000_0000_0002,
    0x0008_0000_0000_0000,
    0x0010_0000_0000_0000,
    0x0020_0000_0000_0000,
    0x3fe0_0000_0000_0000,
    0x3ff0_0000_0000_0000,
    0x4000_0000_0000_0000,
    0x4270_0000_0000_0800,
    0x4330_0000_0000_0000,
    0x4340_0000_0000_0000,
    0x43e0_0000_0000_0000,
    0x43f0_0000_0000_0000,
    0x4400_0000_0000_0000,
    0x7fd0_0000_0000_0000,
    0x7fe0_0000_0000_0000,
    0x7ff0_0000_0000_0000,
    0x7ff8_0000_0000_0000,
    0x7fff_ffff_ffff_fffd,
];

/// The words within two of these, of either sign.
pub fn edges() -> impl Iterator<Item = u64> {
    ENDS.into_iter().flat_map(|end| end - 2..=end + 2).flat_map(|size| [size, size | SIGN])
}

/// Every exponent with the fractions at its edges, and either sign.
pub struct Grid(Vec<u64>);

impl Grid {
    /// The fractions are each power of two with its neighbours, 0, and the last.
    pub fn new() -> Grid {
        let about = (0..=FRACTION_BITS).map(|k| 1u64 << k).flat_map(|power| power - 1..=power + 1);
        let mut fractions: Vec<u64> = about.filter(|fraction| fraction >> FRACTION_BITS == 0).collect();
        fractions.sort_unstable();
        fractions.dedup();
        Grid(fractions)
    }

    pub fn fractions(&self) -> usize {
        self.0.len()
    }

    pub fn len(&self) -> u64 {
        2 * (LAST_FIELD + 1) * self.0.len() as u64
    }

    /// The sign turns first, then the fraction goes on.
    pub fn at(&self, i: u64) -> u64 {
        let (place, n) = (i / 2, self.0.len() as u64);
        i % 2 << 63 | place / n << FRACTION_BITS | self.0[(place % n) as usize]
    }
}

/// Any word, or one whose exponent is from 70 below that of 1 to 140 above it, some of which end in zeros and some in ones, or one
/// whose exponent is at an end.
pub fn word(random: &mut Random) -> u64 {
    const ENDS: [u64; 10] = [0, 1, BIAS - 1, BIAS, BIAS + 63, BIAS + 64, LAST_FIELD - 3, LAST_FIELD - 2, LAST_FIELD - 1, LAST_FIELD];
    let (any, near, end) = (random.wide(), BIAS - 70 + random.below(211) as u64, random.one_of(&ENDS));
    let tail = (1u64 << random.below(FRACTION_BITS as usize + 1)) - 1;
    let with_field = |field: u64| any & (SIGN | ((1 << FRACTION_BITS) - 1)) | field << FRACTION_BITS;
    match random.below(8) {
        0..=3 => any,
        4 => with_field(near),
        5 => with_field(near) & !tail,
        6 => with_field(near) | tail,
        _ => with_field(end),
    }
}
