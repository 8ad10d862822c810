//! The calls together: numbers, edges of the gates, and what a space holds after an answer.

mod words;

use dampmeadow::*;
use std::error::Error;
use words::words;

#[test]
fn a_guarded_answer_is_the_raw_one_and_no_nan_but_for_the_root_of_a_zero() {
    let mut answered = 0;
    for op in Operation::ALL {
        for a in words() {
            for b in words().filter(|&b| op.takes_two() || b == 0) {
                if let Ok(number) = guarded(op, a, b) {
                    let due = if op == Operation::Sqrt && f32::from_bits(a) == 0.0 { Ok(a) } else { raw(op, a, b) };
                    assert_eq!(due, Ok(number.to_bits()), "{op:?} {a:08x} {b:08x}");
                    assert!(!number.is_nan(), "{op:?} {a:08x} {b:08x}");
                    answered += 1;
                }
            }
        }
    }
    assert!(answered > 500, "only {answered} answered");
}

#[test]
fn every_raw_operation_answers_every_word() {
    for op in Operation::ALL {
        for a in words() {
            for b in words() {
                let refused = b != 0 && !op.takes_two();
                assert_eq!(raw(op, a, b).err(), refused.then_some(Refusal::Malformed), "{op:?} {a:08x} {b:08x}");
            }
        }
    }
}

#[test]
fn the_operations_have_their_numbers_and_no_others_exist() {
    for (place, op) in (1..).zip(Operation::ALL) {
        assert_eq!(op.number(), place);
    }
    for op in (0..0x200).chain([0x100, 0x109, 0x8000_0009, u32::MAX]) {
        let exists = (0x01..=0x1a).contains(&op) || (0x81..=0x9a).contains(&op);
        assert_eq!(call(op, 0x3f80_0000, 0) != Err(Refusal::NoSuchOperation), exists, "{op:02x}");
    }
}

#[test]
fn the_two_parts_are_trunc_and_fract() {
    for x in words().map(f32::from_bits) {
        let apart = trunc(x).and_then(|whole| Ok((whole.to_bits(), fract(x)?.to_bits())));
        assert_eq!(parts(x).map(|(whole, rest)| (whole.to_bits(), rest.to_bits())), apart, "{x}");
    }
    let kept = parts(-0.75).map(|(whole, rest)| (whole.to_bits(), rest));
    assert_eq!(kept, Ok((0x8000_0000, -0.75)));
}

#[test]
fn both_sides_of_the_gates() {
    let edges = [
        (Operation::Trunc, 0x4f7f_ffff, 0x4f80_0000),
        (Operation::Fract, 0xcf7f_ffff, 0xcf80_0000),
        (Operation::Floor, 0x4f00_0000, 0x4f00_0001),
        (Operation::Ceil, 0xcf00_0000, 0xcf00_0001),
        (Operation::Round, 0x4aff_ffff, 0x4b00_0000),
        (Operation::Round, 0x3eff_fffe, 0x3eff_ffff),
        (Operation::Inv, 0x7e80_0000, 0x7e80_0001),
        (Operation::Inv, 0xfe80_0000, 0xfe80_0001),
        (Operation::Recip, 0x7e00_0000, 0x7e00_0001),
        (Operation::Exp, 0x42b0_0000, 0x42b0_0001),
        (Operation::Exp, 0xc2ae_0000, 0xc2ae_0001),
        (Operation::Atan, 0x5f7f_ffff, 0x5f80_0000),
        (Operation::Cos, 0x4380_0000, 0x4380_0001),
        (Operation::Cos, 0xc380_0000, 0xc380_0001),
        (Operation::Sin, 0x4380_0000, 0x4380_0001),
        (Operation::Sin, 0xc380_0000, 0xc380_0001),
        (Operation::Asin, 0x3f7f_ffff, 0x3f80_0000),
        (Operation::Asin, 0xbf7f_ffff, 0xbf80_0000),
        (Operation::Acos, 0x3f7f_ffff, 0x3f80_0000),
        (Operation::Acos, 0xbf7f_ffff, 0xbf80_0000),
        (Operation::Acos, 0x2180_0000, 0x217f_ffff),
        (Operation::Acos, 0xa180_0000, 0xa17f_ffff),
        (Operation::Acos, 0x0000_0000, 0x0000_0001),
        (Operation::Acos, 0x8000_0000, 0x8000_0001),
        (Operation::Tan, 0x4380_0000, 0x4380_0001),
        (Operation::Tan, 0xc380_0000, 0xc380_0001),
        (Operation::Tan, 0x3fc9_0fda, 0x3fc9_0fdb),
        (Operation::Tan, 0x3fc9_0fdc, 0x3fc9_0fdb),
        (Operation::Tan, 0xbfc9_0fd9, 0xbfc9_0fda),
        (Operation::Tan, 0xbfc9_0fdc, 0xbfc9_0fdb),
    ];
    for (op, takes, refuses) in edges {
        assert!(guarded(op, takes, 0).is_ok(), "{op:?} {takes:08x}");
        assert_eq!(guarded(op, refuses, 0), Err(Refusal::Outside), "{op:?} {refuses:08x}");
    }
    assert_eq!(atan_norm(f32::from_bits(0x5f80_0000)), Err(Refusal::Outside));
    assert!(powi(3.0, 1_048_576).is_ok() && powi(3.0, -1_048_576).is_ok());
    assert_eq!(powi(3.0, -1_048_577), Err(Refusal::PowerOutside));
}

/// What the squaring loop forms for a power of this size, bit by bit.
fn formed(mut size: u32) -> u32 {
    let mut products = 0;
    while size > 0 {
        products += size % 2;
        size /= 2;
        products += (size > 0) as u32;
    }
    products
}

#[test]
fn a_power_takes_as_many_products_as_its_bits_and_none_where_none_is_formed() {
    let mut most = 0;
    for n in (-1_048_576..=1_048_576).step_by(31).chain([1, 2, 3, 4, 1_048_575, 1_048_576]) {
        for (x, y) in [(1.5, n), (-0.5, -n)] {
            assert_eq!(powi_products(x, y), formed(y.unsigned_abs()), "{x} {y}");
            most = most.max(powi_products(x, y));
        }
    }
    assert_eq!(most, 39);
    // of words of every kind: none beside a refusal, and none to the power 0
    for a in words() {
        let x = f32::from_bits(a);
        for n in words().map(|b| b as i32).chain([-3, 0, 1, 1_048_577, i32::MIN]) {
            let products = powi_products(x, n);
            assert!(products <= 39, "{a:08x} {n}");
            match powi(x, n) {
                Err(_) => assert_eq!(products, 0, "{a:08x} {n}"),
                // a finite answer that is no zero was multiplied to the end
                Ok(power) if power != 0.0 && power.is_finite() => assert_eq!(products, formed(n.unsigned_abs()), "{a:08x} {n}"),
                Ok(_) => assert!([0, formed(n.unsigned_abs())].contains(&products), "{a:08x} {n}"),
            }
        }
    }
}

#[test]
fn the_larger_of_a_pair_is_from_two_to_minus_60_to_two_to_62() {
    let (low, first, last, past) = (0x217f_ffff, 0x2180_0000, 0x5e80_0000, 0x5e80_0001);
    for op in [Operation::Atan2, Operation::Hypot] {
        for (sign, other) in [(0, 0), (1 << 31, 0), (0, 1 << 31), (1 << 31, 1 << 31)] {
            let asked = |a: u32, b: u32| guarded(op, a | sign, b | other);
            for (a, b) in [(first, 0), (0, first), (first, low), (last, 0), (0, last), (last, last), (low, last)] {
                assert!(asked(a, b).is_ok(), "{op:?} {a:08x} {b:08x} {sign:x} {other:x}");
            }
            for (a, b) in [(0, 0), (low, 0), (0, low), (low, low), (past, 0), (0, past), (past, last), (last, past)] {
                assert_eq!(asked(a, b), Err(Refusal::Outside), "{op:?} {a:08x} {b:08x} {sign:x} {other:x}");
            }
        }
    }
    let end = f32::from_bits(last);
    assert_eq!(atan2(end, -end), Ok(2.35619449));
    assert_eq!((hypot(-end, 0.0), hypot(end, end)), (Ok(end), Ok(1.5 * end)));
}

#[test]
fn turning_the_sign_of_x_turns_that_of_inv_and_nothing_else() {
    const SIGN: u32 = 1 << 31;
    for a in words() {
        let (x, turned) = (f32::from_bits(a), f32::from_bits(a ^ SIGN));
        // a refusal is the same for either sign
        assert_eq!(inv(turned).map(f32::to_bits), inv(x).map(|v| v.to_bits() ^ SIGN), "{a:08x}");
        assert_eq!(raw(Operation::Inv, a ^ SIGN, 0), raw(Operation::Inv, a, 0).map(|v| v ^ SIGN), "{a:08x}");
        if let Ok(v) = inv(x) {
            let product = f64::from(x) * f64::from(v); // exact
            assert!((1.0..=1.125).contains(&product), "{a:08x} {product}");
        }
    }
    for (a, due) in [
        (0xbf80_0000, Ok(0xbf80_0000)),
        (0xfe80_0000, Ok(0x8080_0000)),
        (0x8080_0000, Ok(0xfe80_0000)),
        (0xfe80_0001, Err(Refusal::Outside)),
        (0xff7f_ffff, Err(Refusal::Outside)),
        (0x807f_ffff, Err(Refusal::Small)),
        (0x8000_0001, Err(Refusal::Small)),
        (0x8000_0000, Err(Refusal::Zero)),
        (0xff80_0000, Err(Refusal::NotFinite)),
        (0xffc0_0001, Err(Refusal::NotFinite)),
    ] {
        assert_eq!(inv(f32::from_bits(a)).map(f32::to_bits), due, "{a:08x}");
    }
}

#[test]
fn the_euclids_take_a_quotient_under_two_to_23() {
    let (last, past, one) = (0x4aff_ffff, 0x4b00_0000, 0x3f80_0000);
    for op in [Operation::RemEuclid, Operation::DivEuclid] {
        for (sign, other) in [(0, 0), (1 << 31, 0), (0, 1 << 31), (1 << 31, 1 << 31)] {
            let asked = |a: u32, b: u32| guarded(op, a | sign, b | other);
            for (a, b) in [(last, one), (0x007f_ffff, 1), (0, 1), (1, 0x7f7f_ffff)] {
                assert!(asked(a, b).is_ok(), "{op:?} {a:08x} {b:08x} {sign:x} {other:x}");
            }
            // past the end, a quotient that is infinite, and divisors that are 0
            for (a, b) in [(past, one), (0x0080_0000, 1), (one, 1), (0x7f7f_ffff, 1), (one, 0), (1, 0), (0, 0)] {
                assert_eq!(asked(a, b), Err(Refusal::Outside), "{op:?} {a:08x} {b:08x} {sign:x} {other:x}");
            }
            // before that, either operand
            for (a, b) in [(0x7f80_0000, one), (one, 0x7f80_0000), (0x7fc0_0000, 0), (0, 0x7fc0_0000), (0x7f80_0000, 0)] {
                assert_eq!(asked(a, b), Err(Refusal::NotFinite), "{op:?} {a:08x} {b:08x} {sign:x} {other:x}");
            }
        }
    }
}

#[test]
fn what_is_left_and_the_whole_steps_make_the_number() {
    for x in (-60..=60).chain([-16_777_216, -16_777_215, 16_777_215, 16_777_216]) {
        for y in (-20..=20i32).filter(|&y| y != 0 && (x / y).abs() < 1 << 23) {
            let (rest, steps) = (i32::rem_euclid(x, y), i32::div_euclid(x, y));
            assert_eq!(rem_euclid(x as f32, y as f32), Ok(rest as f32), "{x} {y}");
            assert_eq!(div_euclid(x as f32, y as f32), Ok(steps as f32), "{x} {y}");
        }
    }
    // the quotient is rounded up to a whole number, and so one divisor too many is counted
    for (x, y, rest, steps) in [
        (1.0, 0.1, 0x3dcc_cccb, 10.0),
        (-1.0, 0.1, 0x3280_0000, -11.0),
        (1.0, -0.1, 0x3dcc_cccb, -10.0),
        (-1.0, -0.1, 0x3280_0000, 11.0),
        (20_971_524.0, 5.0, 0x4080_0000, 4_194_305.0),
    ] {
        assert_eq!(rem_euclid(x, y).map(f32::to_bits), Ok(rest), "{x} {y}");
        assert_eq!(div_euclid(x, y), Ok(steps), "{x} {y}");
    }
    // the divisor itself, and the zeros that keep a sign
    assert_eq!(rem_euclid(-f32::from_bits(1), 1.0), Ok(1.0));
    for (x, y, rest, steps) in [(-0.0, 1.0, 1 << 31, 1 << 31), (-0.0, -1.0, 1 << 31, 0), (-3.0, 3.0, 1 << 31, 0xbf80_0000)] {
        assert_eq!(rem_euclid(x, y).map(f32::to_bits), Ok(rest), "{x} {y}");
        assert_eq!(div_euclid(x, y).map(f32::to_bits), Ok(steps), "{x} {y}");
    }
}

#[test]
fn raw_angles_and_remainders_have_the_bits_of_the_crate() {
    use Operation::{Acos, Asin, DivEuclid, RemEuclid, Tan};
    let (one, minus, nan, infinite) = (0x3f80_0000, 0xbf80_0000, 0x7fc0_0000, 0x7f80_0000);
    for (op, a, b, due) in [
        (Asin, one, 0, 0x3fc9_0fdb),
        (Asin, minus, 0, 0xbfc9_0fdb),
        (Asin, 0x3f80_0001, 0, 0x04e7_a8cb),
        (Asin, 0x4000_0000, 0, nan),
        (Asin, 0xffc0_0001, 0, nan),
        (Acos, one, 0, 0x1fb3_d15e),
        (Acos, minus, 0, 0x4049_0fdb),
        (Acos, 0x217f_ffff, 0, 0x3fc9_0fdb),
        (Acos, 0x1f80_0000, 0, nan),
        (Acos, 0x0000_0001, 0, nan),
        (Tan, 0x3fc9_0fdb, 0, infinite),
        (Tan, 0xbfc9_0fda, 0, 0xff80_0000),
        (Tan, infinite, 0, nan),
        (RemEuclid, one, 0, nan),
        (RemEuclid, minus, infinite, infinite),
        (DivEuclid, one, 0, infinite),
        (DivEuclid, minus, 0, 0xff80_0000),
        (DivEuclid, minus, 1 << 31, infinite),
        (DivEuclid, 0x4f80_0001, one, 0x4f80_0000),
        // settled by this library: the quotient is a NaN
        (DivEuclid, 0, 0, infinite),
        (DivEuclid, infinite, infinite, infinite),
        (DivEuclid, 0xffc0_0001, one, infinite),
        (DivEuclid, minus, 0xffc0_0001, infinite),
    ] {
        assert_eq!(raw(op, a, b), Ok(due), "{op:?} {a:08x} {b:08x}");
    }
}

#[test]
fn a_zero_is_not_a_small_number() {
    use Operation::{Inv, Invsqrt, Ln, Powf, Powi, Recip, Sqrt};
    let one = 0x3f80_0000;
    for op in [Sqrt, Invsqrt, Inv, Recip, Ln, Powi, Powf] {
        let second = if op == Powf { one } else { op.takes_two() as u32 };
        for zero in [0, 0x8000_0000] {
            let due = if op == Sqrt { Ok(zero) } else { Err(Refusal::Zero) };
            assert_eq!(guarded(op, zero, second).map(f32::to_bits), due, "{op:?} {zero:08x}");
        }
        for small in [1, 0x007f_ffff, 0x8000_0001, 0x807f_ffff] {
            assert_eq!(guarded(op, small, second), Err(Refusal::Small), "{op:?} {small:08x}");
        }
        assert!(guarded(op, 0x0080_0000, if op == Powf { 0 } else { second }).is_ok(), "{op:?}");
        let below = if matches!(op, Inv | Recip | Powi) { None } else { Some(Refusal::Negative) };
        assert_eq!(guarded(op, 0x8080_0000, second).err(), below, "{op:?}");
    }
    // the answer to -0 is -0, which compares equal to 0
    assert_eq!(sqrt(-0.0).map(f32::to_bits), Ok(0x8000_0000));
    assert_eq!(raw(Sqrt, 0x8000_0000, 0), Ok(0x5fc0_0000));
    // before the power and the gate
    assert_eq!(powi(0.0, 1_048_577), Err(Refusal::Zero));
    assert_eq!(powi(f32::from_bits(1), 1_048_577), Err(Refusal::Small));
    assert_eq!(powf(-f32::from_bits(1), f32::MAX), Err(Refusal::Small));
    assert_eq!(powf(-f32::from_bits(1), f32::INFINITY), Err(Refusal::NotFinite));
    // elsewhere they are numbers like others
    assert_eq!(floor(-f32::from_bits(1)), Ok(-1.0));
    assert_eq!(asin(f32::from_bits(1)), Ok(f32::from_bits(2)));
    assert_eq!(div_euclid(-f32::from_bits(1), f32::from_bits(3)), Ok(-1.0));
    for (zero, angle) in [(0.0, 0), (-0.0, 1 << 31)] {
        assert_eq!(asin(zero).map(f32::to_bits), Ok(angle));
        assert_eq!(acos(zero).map(f32::to_bits), Ok(0x3fc9_0fdb));
        assert_eq!(tan(zero).map(f32::to_bits), Ok(0));
    }
}

#[test]
fn a_small_angle_has_no_tangent_but_zero() {
    for angle in [0x3440_0000, 0xb37f_ffff, 0x8080_0000, 0x8000_0001] {
        assert_eq!(tan(f32::from_bits(angle)).map(f32::to_bits), Ok(0), "{angle:08x}");
    }
    assert_eq!(tan(f32::from_bits(0x3440_0001)).map(f32::to_bits), Ok(0x34c6_6667));
    assert_eq!(tan(f32::from_bits(0xb380_0000)).map(f32::to_bits), Ok(0xb446_6667));
}

#[test]
fn a_space_has_eleven_bytes_changed_and_no_other() {
    for room in 0..40 {
        let mut space = vec![b'.'; room];
        let refusal = answer(b"12000000003f800000", &mut space);
        if room < ANSWER_LENGTH {
            assert_eq!(refusal, Err(Refusal::NoRoom));
            assert!(space.iter().all(|&byte| byte == b'.'));
        } else {
            assert_eq!(refusal, Ok(()));
            assert_eq!(&space[..ANSWER_LENGTH], b"0000000000\n");
            assert!(space[ANSWER_LENGTH..].iter().all(|&byte| byte == b'.'));
        }
    }
}

#[test]
fn a_line_that_is_no_frame_is_malformed() {
    let mut space = [0; ANSWER_LENGTH];
    let long = vec![b'0'; 100_000];
    for line in [&b""[..], b"09408000000000000", b"0940800000000000000", b"09408000000000000G", b"0A4080000000000000", &long] {
        assert_eq!(answer(line, &mut space), Err(Refusal::Malformed));
        assert_eq!(&space, b"0700000000\n");
    }
}

#[test]
fn a_frame_and_a_call_agree() {
    let mut space = [0; ANSWER_LENGTH];
    for op in (0..0x20).chain(0x80..0xa0) {
        for a in words() {
            for b in [0, 1, 0x3f80_0000, 0xffc0_0000] {
                let by_number = call(op, a, b);
                let by_line = answer(format!("{op:02x}{a:08x}{b:08x}").as_bytes(), &mut space);
                assert_eq!(by_line, by_number.map(|_| ()));
                let refusal = by_number.err().map_or(0, Refusal::number);
                let due = format!("{refusal:02x}{:08x}\n", by_number.unwrap_or(0));
                assert_eq!(space, due.as_bytes());
            }
        }
    }
}

#[test]
fn a_refusal_is_an_error_with_its_number() {
    let numbers: Vec<u32> = Refusal::ALL.iter().map(|refusal| refusal.number()).collect();
    assert_eq!(numbers, [1, 2, 3, 4, 5, 6, 7, 8, 9, 10, 11, 12, 13, 14, 15]);
    for &refusal in Refusal::ALL {
        assert_eq!(Refusal::from_number(refusal.number()), Some(refusal));
        assert!(refusal.to_string().starts_with(&format!("refusal {}: ", refusal.number())));
    }
    for number in 0..=20 {
        assert_eq!(Refusal::from_number(number).map_or(0, Refusal::number), number);
    }
    let asked: Result<f32, Box<dyn Error>> = exp(f32::NAN).map_err(Box::from);
    assert_eq!(asked.unwrap_err().to_string(), "refusal 1: an operand or a sample is an infinity or a NaN");
}

#[test]
fn a_number_that_is_not_known_yet_is_a_refusal_too() {
    assert_eq!(Refusal::from_number(0), None);
    for number in (16..300).chain([u32::MAX]) {
        let refusal = Refusal::from_number(number).unwrap();
        assert!(matches!(refusal, Refusal::Unknown { number: n, .. } if n == number));
        assert_eq!(refusal.number(), number);
        assert_eq!(refusal.to_string(), format!("refusal {number}: not known to this version of the binding"));
    }
}
