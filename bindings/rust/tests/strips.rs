//! Strips: each place beside the single call, lists that have to stay as they were, and lists lent as words.

mod words;

use dampmeadow::*;
use words::words;

/// What a place holds before a strip; no answer and no refusal here is this.
const BEFORE: u32 = 0x5555_5555;

/// A strip into two new lists.
fn stripped(op: u32, first: &[u32], second: &[u32]) -> (Vec<u32>, Vec<u32>) {
    let (mut answers, mut refusals) = (vec![BEFORE; first.len()], vec![BEFORE; first.len()]);
    assert_eq!(strip(op, first, second, &mut answers, &mut refusals), Ok(()), "{op:02x}");
    (answers, refusals)
}

/// Whether an operation has this number, as the single call says.
fn known(op: u32) -> Result<(), Refusal> {
    match call(op, 0x3f80_0000, 0) {
        Err(Refusal::NoSuchOperation) => Err(Refusal::NoSuchOperation),
        _ => Ok(()),
    }
}

/// Every pair of words, as a list of the first ones and a list of the second. For powi the second are powers, the ends of what
/// it takes among them.
fn pairs(op: Operation) -> (Vec<u32>, Vec<u32>) {
    let powers = [-1_048_577, -1_048_576, -3, -1, 0, 1, 2, 3, 1_048_576, 1_048_577].map(|power| power as u32);
    let seconds: Vec<u32> = if op == Operation::Powi { powers.into() } else { words().collect() };
    words().flat_map(|a| seconds.iter().map(move |&b| (a, b))).unzip()
}

#[test]
fn each_place_is_the_single_call() {
    for op in Operation::ALL {
        let (first, second) = pairs(op);
        for number in [op.number(), op.raw_number()] {
            let (answers, refusals) = stripped(number, &first, &second);
            for (i, (&a, &b)) in first.iter().zip(&second).enumerate() {
                let due = call(number, a, if op.takes_two() { b } else { 0 });
                let got = Refusal::from_number(refusals[i]).map_or(Ok(answers[i]), Err);
                assert_eq!(got, due, "{number:02x} {a:08x} {b:08x}");
                assert!(due.is_ok() || answers[i] == 0, "{number:02x} {a:08x} {b:08x}");
            }
            let raw = number == op.raw_number();
            assert_eq!(refusals.iter().all(|&refusal| refusal == 0), raw, "{number:02x}");
        }
    }
}

#[test]
fn one_operand_needs_one_list() {
    for op in Operation::ALL.into_iter().filter(|op| !op.takes_two()) {
        let (first, second) = pairs(op);
        assert_eq!(stripped(op.number(), &first, &first), stripped(op.number(), &first, &second), "{op:?}");
    }
}

#[test]
fn a_strip_may_be_cut_anywhere() {
    let first: Vec<u32> = words().collect();
    let second: Vec<u32> = words().map(|word| word.rotate_left(9)).collect();
    for op in Operation::ALL.into_iter().flat_map(|op| [op.number(), op.raw_number()]) {
        let whole = stripped(op, &first, &second);
        for cut in 0..=first.len() {
            let (mut answers, mut refusals) = stripped(op, &first[..cut], &second[..cut]);
            let rest = stripped(op, &first[cut..], &second[cut..]);
            answers.extend(rest.0);
            refusals.extend(rest.1);
            assert_eq!((answers, refusals), whole, "{op:02x} cut at {cut}");
        }
    }
}

#[test]
fn lengths_come_before_the_operation_and_a_refused_strip_writes_nothing() {
    let list = [0x3f80_0000; 2];
    for op in [0x09, 0x89, 0x1a, 0x9a, 0x00, 0x1b, 0x1f, 0x80, 0x9b, 0x109, u32::MAX] {
        for lengths in 0..81 {
            let [a, b, c, d] = [1, 3, 9, 27].map(|place| lengths / place % 3);
            let (mut answers, mut refusals) = ([BEFORE; 3], [BEFORE; 3]);
            let due = if [b, c, d] != [a; 3] { Err(Refusal::Lengths) } else { known(op) };
            let returned = strip(op, &list[..a], &list[..b], &mut answers[..c], &mut refusals[..d]);
            assert_eq!(returned, due, "{op:02x} {a} {b} {c} {d}");
            let written = if due.is_ok() { a } else { 0 };
            for (i, place) in answers.into_iter().zip(refusals).enumerate() {
                assert_eq!(place == (BEFORE, BEFORE), i >= written, "{op:02x} {a} {b} {c} {d}");
            }
        }
    }
}

#[test]
fn a_strip_and_a_call_know_the_same_operations() {
    for op in (0..0x200).chain([0x8000_0009, u32::MAX]) {
        let (mut answer, mut refusal) = ([BEFORE], [BEFORE]);
        let due = known(op);
        assert_eq!(strip(op, &[0x3f80_0000], &[0], &mut answer, &mut refusal), due, "{op:02x}");
        assert_eq!(strip(op, &[], &[], &mut [], &mut []), due, "{op:02x}");
        assert_eq!((answer, refusal) == ([BEFORE], [BEFORE]), due.is_err(), "{op:02x}");
    }
}

#[test]
fn floats_and_powers_are_lent_where_they_lie() {
    let mut numbers: Vec<f32> = words().map(f32::from_bits).collect();
    assert!(bits(&numbers).iter().copied().eq(words()));
    assert_eq!(bits(&numbers).as_ptr().cast(), numbers.as_ptr());
    for word in bits_mut(&mut numbers) {
        *word ^= 0x8000_0000;
    }
    assert!(numbers.iter().map(|number| number.to_bits()).eq(words().map(|word| word ^ 0x8000_0000)));
    assert_eq!(powers(&[3, -3, i32::MIN, i32::MAX]), [3, 0xffff_fffd, 0x8000_0000, 0x7fff_ffff]);
    assert!(bits(&[]).is_empty() && bits_mut(&mut []).is_empty() && powers(&[]).is_empty());
}

#[test]
fn a_nan_passes_with_its_own_bits() {
    let (mut nans, mut sizes, mut refusals) = ([0.0; 4], [0.0; 4], [BEFORE; 4]);
    bits_mut(&mut nans).copy_from_slice(&[0xff80_0001, 0x7f80_0001, 0xffc1_2345, 0xffff_ffff]);
    let abs = Operation::Abs;
    assert_eq!(strip(abs.raw_number(), bits(&nans), bits(&nans), bits_mut(&mut sizes), &mut refusals), Ok(()));
    assert_eq!(bits(&sizes), [0x7f80_0001, 0x7f80_0001, 0x7fc1_2345, 0x7fff_ffff]);
    assert_eq!(refusals, [0; 4]);
    assert_eq!(strip(abs.number(), bits(&nans), bits(&nans), bits_mut(&mut sizes), &mut refusals), Ok(()));
    assert_eq!((bits(&sizes), refusals), (&[0; 4][..], [1; 4]));
}
