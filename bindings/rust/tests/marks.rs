//! Floor and ceil with the marks of their casts: the edges, a judge in doubles, and what each mark says of the answer.

mod words;

use dampmeadow::*;
use words::words;

type Marked = (u32, Mark);

/// A word, and what floor and ceil give for it, each with its mark.
const MARKED: [(u32, Marked, Marked); 28] = [
    // both zeros; floor's zero is +0 and ceil's -0
    (0x0000_0000, (0x0000_0000, Mark::Exact), (0x8000_0000, Mark::Exact)),
    (0x8000_0000, (0x0000_0000, Mark::Exact), (0x8000_0000, Mark::Exact)),
    // fractions, the smallest too
    (0x0000_0001, (0x0000_0000, Mark::Dropped), (0x3f80_0000, Mark::Dropped)),
    (0x8000_0001, (0xbf80_0000, Mark::Dropped), (0x8000_0000, Mark::Dropped)),
    (0x3f00_0000, (0x0000_0000, Mark::Dropped), (0x3f80_0000, Mark::Dropped)),
    (0xbf00_0000, (0xbf80_0000, Mark::Dropped), (0x8000_0000, Mark::Dropped)),
    (0x3f7f_ffff, (0x0000_0000, Mark::Dropped), (0x3f80_0000, Mark::Dropped)),
    (0x3f80_0000, (0x3f80_0000, Mark::Exact), (0x3f80_0000, Mark::Exact)),
    (0x4020_0000, (0x4000_0000, Mark::Dropped), (0x4040_0000, Mark::Dropped)),
    (0xc020_0000, (0xc040_0000, Mark::Dropped), (0xc000_0000, Mark::Dropped)),
    (0xc040_0000, (0xc040_0000, Mark::Exact), (0xc040_0000, Mark::Exact)),
    // the last with a fraction, and the first from which all are whole
    (0x4aff_ffff, (0x4aff_fffe, Mark::Dropped), (0x4b00_0000, Mark::Dropped)),
    (0xcaff_ffff, (0xcb00_0000, Mark::Dropped), (0xcaff_fffe, Mark::Dropped)),
    (0x4b00_0000, (0x4b00_0000, Mark::Exact), (0x4b00_0000, Mark::Exact)),
    // about 2^31 and -2^31
    (0x4eff_ffff, (0x4eff_ffff, Mark::Exact), (0x4eff_ffff, Mark::Exact)),
    (0xceff_ffff, (0xceff_ffff, Mark::Exact), (0xceff_ffff, Mark::Exact)),
    (0x4f00_0000, (0x4f00_0000, Mark::High), (0x4f00_0000, Mark::Exact)),
    (0xcf00_0000, (0xcf00_0000, Mark::Exact), (0xcf00_0000, Mark::High)),
    (0x4f00_0001, (0x4f00_0000, Mark::High), (0x4f00_0000, Mark::Low)),
    (0xcf00_0001, (0xcf00_0000, Mark::Low), (0xcf00_0000, Mark::High)),
    // 3e9, the infinities and NaN
    (0x4f32_d05e, (0x4f00_0000, Mark::High), (0x4f00_0000, Mark::Low)),
    (0xcf32_d05e, (0xcf00_0000, Mark::Low), (0xcf00_0000, Mark::High)),
    (0x7f80_0000, (0x4f00_0000, Mark::High), (0x4f00_0000, Mark::Low)),
    (0xff80_0000, (0xcf00_0000, Mark::Low), (0xcf00_0000, Mark::High)),
    (0x7f80_0001, (0x0000_0000, Mark::NotANumber), (0x8000_0000, Mark::NotANumber)),
    (0x7fc0_0000, (0x0000_0000, Mark::NotANumber), (0x8000_0000, Mark::NotANumber)),
    (0xffc0_0001, (0x0000_0000, Mark::NotANumber), (0x8000_0000, Mark::NotANumber)),
    (0xffff_ffff, (0x0000_0000, Mark::NotANumber), (0x8000_0000, Mark::NotANumber)),
];

#[test]
fn the_edges_have_their_marks() {
    for (a, down, up) in MARKED {
        assert_eq!(raw_floor_marked(a), down, "{a:08x}");
        assert_eq!(raw_ceil_marked(a), up, "{a:08x}");
    }
}

/// The mark of a cast, judged in doubles, where every float and its fraction are exact.
fn judged(a: u32) -> Mark {
    let (x, end) = (f64::from(f32::from_bits(a)), 2_147_483_648.0);
    if x.is_nan() {
        Mark::NotANumber
    } else if x >= end {
        Mark::High
    } else if x < -end {
        Mark::Low
    } else if x.fract() == 0.0 {
        Mark::Exact
    } else {
        Mark::Dropped
    }
}

#[test]
fn a_mark_is_that_of_the_cast_and_ceil_casts_the_number_with_its_sign_turned() {
    const SIGN: u32 = 1 << 31;
    for a in words().chain(MARKED.map(|(a, ..)| a)) {
        let ((down, floor_mark), (up, ceil_mark)) = (raw_floor_marked(a), raw_ceil_marked(a));
        assert_eq!((raw(Operation::Floor, a, 0), raw(Operation::Ceil, a, 0)), (Ok(down), Ok(up)), "{a:08x}");
        assert_eq!((floor_mark, ceil_mark), (judged(a), judged(a ^ SIGN)), "{a:08x}");
        assert_eq!(raw_floor_marked(a ^ SIGN), (up ^ SIGN, ceil_mark), "{a:08x}");
    }
}

#[test]
fn an_answer_is_true_where_nothing_was_clipped_and_at_two_to_31() {
    for a in words().chain(MARKED.map(|(a, ..)| a)) {
        let x = f32::from_bits(a);
        for ((word, mark), truth, zero) in [(raw_floor_marked(a), x.floor(), 0), (raw_ceil_marked(a), x.ceil(), 1 << 31)] {
            // 0 and -0 compare equal here
            let due = matches!(mark, Mark::Exact | Mark::Dropped) || x.abs() == 2_147_483_648.0;
            assert_eq!(f32::from_bits(word) == truth, due, "{a:08x} {mark}");
            assert!(f32::from_bits(word) != 0.0 || word == zero, "{a:08x} {mark}");
        }
    }
}

#[test]
fn the_marks_have_their_numbers_and_no_others_exist() {
    for (place, mark) in (0..).zip(Mark::ALL) {
        assert_eq!((mark.number(), Mark::from_number(place)), (place, Some(mark)));
    }
    for number in (5..300).chain([1 << 31, u32::MAX]) {
        assert_eq!(Mark::from_number(number), None, "{number}");
    }
    let said = Mark::ALL.map(|mark| mark.to_string());
    assert_eq!(said, ["exact", "fraction dropped", "clipped high", "clipped low", "not a number"]);
}
