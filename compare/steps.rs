//! Both sides of each test within the kernels, and words at which a constant one unit off shows: what the edges of the gates
//! leave open of the crate's own text. `compare/slips` says whether one is missing.

/// Kernels and their two words.
const STEPS: &[(&str, &[(u32, u32)])] = &[
    // 0, and less than 2^-23 from 1 and from -1
    ("exp", &[(0x0000_0001, 0), (0x8000_0001, 0)]),
    ("exp", &[(0x3f7f_fffe, 0), (0x3f7f_ffff, 0), (0x3f80_0000, 0), (0x3f80_0001, 0)]),
    ("exp", &[(0xbf7f_fffe, 0), (0xbf7f_ffff, 0), (0xbf80_0000, 0), (0xbf80_0001, 0)]),
    // the exponent 127 and 128, without a fraction and with one, and 129
    ("exp", &[(0x42b1_7217, 0), (0x42b1_7218, 0), (0x42b1_7219, 0), (0x42b2_d4fb, 0), (0x42b2_d4fc, 0)]),
    // the exponent -126, -127 and -128
    ("exp", &[(0xc2b0_0f33, 0), (0xc2b0_0f34, 0), (0xc2b0_0f35, 0)]),
    // less than 2^-23 from 1
    ("ln", &[(0x3f7f_fffe, 0), (0x3f7f_ffff, 0), (0x3f80_0000, 0), (0x3f80_0001, 0)]),
    // a zero and its neighbours, to 1, 2, 3 and -1, and to a power with which the product of exponents wraps
    ("powi", &[(0x0000_0000, 1), (0x8000_0000, 1), (0x8000_0000, 2), (0x8000_0000, 3), (0x0000_0001, 2), (0x8000_0001, 2)]),
    ("powi", &[(0x0000_0000, 0xffff_ffff), (0x8000_0000, 0xffff_ffff), (0x0000_0000, 0xfefd_fbf7), (0x8000_0000, 0xfefd_fbf7)]),
    // about 0.5 and 2, to powers that underflow, where an early answer is +0; and between them, where none is early
    ("powi", &[(0xbf00_0000, 151), (0xbeff_ffff, 151), (0x3eff_ffff, 75)]),
    ("powi", &[(0xc000_0000, 0xffff_ff69), (0xbfff_ffff, 0xffff_ff69), (0xc000_0001, 0xffff_ff69)]),
    ("powi", &[(0x3f7f_ffff, 150), (0x3f7f_ffff, 0xffff_ff80)]),
    // the product of exponents 127 and 128
    ("powi", &[(0x4000_0000, 127), (0x4000_0000, 128), (0x7f00_0000, 1), (0x3eff_ffff, 0xffff_ffc0), (0xbeff_ffff, 0xffff_ffbf)]),
    // ... -149 and -150
    ("powi", &[(0x4000_0000, 0xffff_ff6b), (0x4000_0000, 0xffff_ff6a), (0x3e7f_ffff, 49), (0x3e7f_ffff, 50)]),
    // a NaN that no early answer takes
    ("powi", &[(0x7fc0_0001, 0xffff_ffff), (0xffc0_0000, 0x0200_0000)]),
    // a base below 0: the nearest, and 2^31 and 2^30 for the power
    ("powf", &[(0x8000_0001, 0x3f80_0000), (0x8000_0001, 0x4000_0000), (0xbf80_0000, 0x4f00_0000), (0xbf80_0000, 0x4e80_0000)]),
    // the logarithm 1 times the power makes a NaN of exp
    ("powf", &[(0x402d_f5db, 0x42b1_7218), (0x402d_f5db, 0x42b1_7219)]),
    // a NaN to odd and even powers
    ("powf", &[(0x7fc0_0000, 0x4f00_0000), (0x7fc0_0000, 0xbf80_0000), (0x7fc0_0000, 0xcf00_0000)]),
    // a quarter makes the turns whole, or just does not
    ("cos", &[(0xbfc9_0fdb, 0), (0xbfc9_0fdc, 0), (0xcbc9_0fdb, 0), (0xcbc9_0fdc, 0)]),
    // every other constant, one unit up and one down
    ("recip", &[(0xc622_ce00, 0), (0x4001_0000, 0), (0xc001_0000, 0)]),
    ("exp", &[(0x3d6c_54c0, 0), (0xc0c4_e61e, 0), (0xc0c6_0000, 0)]),
    ("ln", &[(0x3d94_0000, 0), (0x40cc_0000, 0)]),
    ("atan", &[(0xbd80_0000, 0)]),
    ("atan2", &[(0xc140_0000, 0x41eb_0000)]),
    ("cos", &[(0x3fd1_0000, 0)]),
    ("sin", &[(0xbe00_0000, 0)]),
    ("asin", &[(0x3f7e_0000, 0), (0xbf7e_0000, 0)]),
    ("acos", &[(0x3f7e_0000, 0), (0xbf7e_0000, 0)]),
    // either sign of the sine and of the cosine
    ("tan", &[(0x3f80_0000, 0), (0xbf80_0000, 0), (0x4000_0000, 0), (0xc000_0000, 0)]),
    // just past twice the divisor, where nearly nothing is left, and just before
    ("rem_euclid", &[(0x40c0_0001, 0x4040_0000), (0xc0c0_0001, 0x4040_0000), (0xc0c0_0001, 0xc040_0000), (0xc0bf_ffff, 0xc040_0000)]),
    ("div_euclid", &[(0x40c0_0001, 0x4040_0000), (0xc0c0_0001, 0x4040_0000), (0xc0c0_0001, 0xc040_0000), (0xc0bf_ffff, 0xc040_0000)]),
    // a quotient between 0 and 1, or -1
    ("div_euclid", &[(0xbf00_0000, 0x3f80_0000), (0xbf00_0000, 0xbf80_0000), (0x3f00_0000, 0xbf80_0000)]),
];

/// The words that the list has for the kernel of this name.
pub fn words_of(name: &str) -> impl Iterator<Item = (u32, u32)> + '_ {
    STEPS.iter().filter(move |row| row.0 == name).flat_map(|row| row.1.iter().copied())
}
