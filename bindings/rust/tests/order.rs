//! Order, oddness and ends: what is told of the estimates and the angles, on the words that all tests try and on strides.

mod words;

use dampmeadow::*;
use std::f32::consts::FRAC_PI_2;
use words::words;

const SIGN: u32 = 1 << 31;

/// The words with a clear sign up to a last one, in order.
fn up_to(last: u32) -> Vec<u32> {
    const STRIDE: usize = 65_521;
    let mut up: Vec<u32> =
        words().chain([last]).chain((0..last).step_by(STRIDE).flat_map(|a| [a, a + 1])).filter(|a| *a <= last).collect();
    up.sort_unstable();
    up.dedup();
    up
}

fn raw_number(op: Operation, a: u32) -> f32 {
    f32::from_bits(raw(op, a, 0).unwrap())
}

#[test]
fn raw_sqrt_never_falls_and_the_inverses_never_rise() {
    for pair in up_to(f32::INFINITY.to_bits()).windows(2) {
        let root = |a| raw(Operation::Sqrt, a, 0).unwrap();
        assert!(root(pair[0]) <= root(pair[1]), "sqrt {pair:08x?}");
        assert!(raw_number(Operation::Sqrt, pair[0]) <= raw_number(Operation::Sqrt, pair[1]), "sqrt {pair:08x?}");
        assert!(raw_number(Operation::Invsqrt, pair[0]) >= raw_number(Operation::Invsqrt, pair[1]), "invsqrt {pair:08x?}");
    }
    for pair in up_to(0x7f00_0000).windows(2) {
        assert!(raw_number(Operation::Inv, pair[0]) > raw_number(Operation::Inv, pair[1]), "inv {pair:08x?}");
    }
    // past the infinity, and where the inverse wraps
    assert_eq!(raw(Operation::Sqrt, 0x7f80_0001, 0), Ok(0x7fc0_0000));
    assert_eq!(raw(Operation::Sqrt, SIGN, 0), Ok(0x5fc0_0000));
    assert_eq!(raw(Operation::Inv, 0x7f00_0001, 0), Ok(0xffff_ffff));
}

#[test]
fn sqrt_is_exact_at_the_even_powers_of_two() {
    for k in -63..=63 {
        assert_eq!(sqrt(2f32.powi(2 * k)), Ok(2f32.powi(k)), "2^{}", 2 * k);
    }
    // of the others, which have no root that a float holds, and of one too small to be normal
    assert_eq!([2.0, 2f32.powi(127)].map(sqrt), [Ok(1.5), Ok(1.5 * 2f32.powi(63))]);
    assert_eq!(raw(Operation::Sqrt, 0x0020_0000, 0), Ok(0x1fd0_0000));
}

#[test]
fn the_arctangents_are_odd_and_within_their_ends() {
    for a in up_to(0x5f7f_ffff) {
        let (x, turned) = (f32::from_bits(a), f32::from_bits(a ^ SIGN));
        let (share, angle) = (atan_norm(x).unwrap(), atan(x).unwrap());
        assert!((-1.0..=1.0).contains(&share) && (-FRAC_PI_2..=FRAC_PI_2).contains(&angle), "{a:08x}");
        assert_eq!(atan_norm(turned).map(f32::to_bits), Ok(share.to_bits() ^ SIGN), "{a:08x}");
        assert_eq!(atan(turned).map(f32::to_bits), Ok(angle.to_bits() ^ SIGN), "{a:08x}");
        assert_eq!([soft::atan_norm(a), soft::atan(a)], [share, angle].map(f32::to_bits), "{a:08x}");
    }
    assert_eq!((atan_norm(f32::from_bits(0xdf7f_ffff)), atan(f32::from_bits(0x5f7f_ffff))), (Ok(-1.0), Ok(FRAC_PI_2)));
    assert_eq!([0x5f80_0000, 0xdf80_0000].map(raw_atan_norm), [0x7fc0_0000; 2]);
}

#[test]
fn cos_and_sin_are_within_one_to_two_to_22_turns() {
    for (op, last) in [(Operation::Cos, 0x4bc9_0fdb), (Operation::Sin, 0x4bc9_0fda)] {
        for a in up_to(last).into_iter().flat_map(|a| [a, a ^ SIGN]) {
            assert!((-1.0..=1.0).contains(&raw_number(op, a)), "{op:?} {a:08x}");
        }
        assert_eq!(raw(op, (last + 1) ^ SIGN, 0), Ok(0xc08b_3333), "{op:?}");
    }
    assert_eq!((cos(0.0), sin(-FRAC_PI_2)), (Ok(1.0), Ok(-1.0)));
}
