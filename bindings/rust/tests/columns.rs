//! The row on screen: every part of small rows, where it lies in memory, and how long it is lent.

use dampmeadow::columns;
use std::ptr;

/// Every number that is asked for of a row of five columns at most.
fn asked() -> impl Iterator<Item = usize> {
    (0..=7).chain([usize::MAX - 1, usize::MAX])
}

#[test]
fn every_part_of_small_rows_is_the_rows_own_memory() {
    let (scanned, retouched) = ([10u16, 11, 12, 13, 14], [20u16, 21, 22, 23, 24]);
    let (mut given, mut nothing) = (0, 0);
    for lengths in 0..36 {
        let (scan, retouch) = (&scanned[..lengths / 6], &retouched[..lengths % 6]);
        for (chosen, of_retouch, level) in [(scan, false, 10), (retouch, true, 20)] {
            for from in asked() {
                for to in asked() {
                    let part = columns(scan, retouch, of_retouch, from, to);
                    let what = format!("{} {} {of_retouch} {from} {to}", scan.len(), retouch.len());
                    if from <= to && to <= chosen.len() {
                        assert_eq!(part.as_ptr(), chosen.as_ptr().wrapping_add(from), "{what}");
                        assert_eq!(part.len(), to - from, "{what}");
                        for (column, &sample) in (from..).zip(part) {
                            assert_eq!(usize::from(sample), level + column, "{what}");
                        }
                        given += 1;
                    } else {
                        assert_eq!((part.as_ptr(), part.len()), (scan.as_ptr(), 0), "{what}");
                        nothing += 1;
                    }
                }
            }
        }
    }
    // of a row of n columns there are (n + 1)(n + 2)/2 parts, together 56 for n from 0 to 5, beside 6 lengths of the other row
    assert_eq!((given, nothing), (2 * 6 * 56, 2 * (36 * 100 - 6 * 56)));
}

#[test]
fn an_empty_part_that_is_asked_for_stands_where_it_was_asked_for() {
    let (scan, retouch) = ([1u8, 2, 3], [4u8, 5, 6]);
    for at in 0..=3 {
        assert_eq!(columns(&scan, &retouch, true, at, at).as_ptr(), retouch.as_ptr().wrapping_add(at));
        assert_eq!(columns(&scan, &retouch, false, at, at).as_ptr(), scan.as_ptr().wrapping_add(at));
    }
    // one past the end is refused, and nothing of the scanned row is given, whichever row was chosen
    for retouched in [false, true] {
        assert_eq!(columns(&scan, &retouch, retouched, 4, 4).as_ptr(), scan.as_ptr());
        assert!(columns(&scan, &retouch, retouched, 4, 4).is_empty());
    }
}

#[test]
fn the_columns_may_hold_anything() {
    // as long as a row can be: its columns take no memory
    let (scan, retouch) = ([(); usize::MAX], [(); 3]);
    assert_eq!(columns(&scan, &retouch, false, 1, usize::MAX).len(), usize::MAX - 1);
    assert_eq!(columns(&scan, &retouch, false, usize::MAX, usize::MAX).len(), 0);
    assert_eq!(columns(&scan, &retouch, true, 1, usize::MAX).len(), 0);
    assert_eq!(columns(&scan, &retouch, true, 1, 3).len(), 2);
    let (scan, retouch) = ([118.5f32, f32::NAN], [118.5f32, 119.0]);
    assert!(columns(&scan, &retouch, false, 1, 2)[0].is_nan());
    // what cannot be copied is lent all the same
    let (scan, retouch) = ([String::from("dust")], [String::from("clean"), String::from("wall")]);
    assert!(ptr::eq(&columns(&scan, &retouch, true, 1, 2)[0], &retouch[1]));
    assert!(ptr::eq(&columns(&scan, &retouch, false, 0, 1)[0], &scan[0]));
}

/// By its type a part is lent from both rows, and for no less; a comment of `columns` has what the compiler does not take.
type Lends = for<'a> fn(&'a [u16], &'a [u16], bool, usize, usize) -> &'a [u16];

/// A view of two rows, which keeps what the call gave.
struct View<'a> {
    part: &'a [u16],
}

impl<'a> View<'a> {
    fn of(scan: &'a [u16], retouch: &'a [u16], retouched: bool) -> View<'a> {
        let (from, to) = (1, 3);
        View { part: columns(scan, retouch, retouched, from, to) }
    }
}

#[test]
fn a_part_is_lent_for_as_long_as_both_rows_are() {
    let lends: Lends = columns;
    let retouch = vec![120, 121, 122, 123];
    let mut shown = Vec::new();
    let scan = vec![118, 250, 119];
    for retouched in [false, true] {
        // the view is gone at the end of this, and the part is not
        let view = View::of(&scan, &retouch, retouched);
        shown.push(view.part);
    }
    shown.push(lends(&scan, &retouch, true, 3, 4));
    assert_eq!(shown, [&scan[1..3], &retouch[1..3], &retouch[3..]]);
    // one row may be lent as both
    assert!(ptr::eq(columns(&scan, &scan, true, 0, 3), &*scan));
}
