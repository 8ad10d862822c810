//! The row on screen: columns of the scanned row or of the retouched one.

use crate::exported;

/// The columns of a row that are on screen, from the first up to the last, which is not among them: a part of the retouched row
/// where that is chosen, and else of the scanned one. It is the row itself, lent for as long as both rows are, with no copying.
/// The two may have different lengths.
///
/// ```
/// use dampmeadow::columns;
/// let (scan, retouch) = ([118, 121, 250, 119], [118, 121, 120, 119]);
/// assert_eq!(columns(&scan, &retouch, false, 1, 3), [121, 250]);
/// assert_eq!(columns(&scan, &retouch, true, 1, 3), [121, 120]);
/// // the same place in memory
/// assert_eq!(columns(&scan, &retouch, true, 1, 3).as_ptr(), &retouch[1]);
/// ```
///
/// Where the columns are out of order, or past the end of the row that is chosen, there is nothing to show: an empty part of
/// the scanned row, at its beginning. Any numbers may be asked for, and none makes it panic.
///
/// ```
/// use dampmeadow::columns;
/// let (scan, retouch) = ([118, 121, 250, 119], [118, 121]);
/// assert_eq!(columns(&scan, &retouch, true, 1, 3), []);
/// assert_eq!(columns(&scan, &retouch, true, 1, 3).as_ptr(), scan.as_ptr());
/// assert_eq!(columns(&scan, &retouch, false, 3, 1), []);
/// assert_eq!(columns(&scan, &retouch, false, 0, usize::MAX), []);
/// ```
///
/// Which row it is and which columns of it are worked out by the library, from the rows' lengths alone, and proved; so the
/// columns may hold anything. The part may be of either row, and neither can be given away while it is in use:
///
/// ```compile_fail,E0505
/// use dampmeadow::columns;
/// let (scan, retouch) = (vec![118, 121, 250], vec![118, 121, 120]);
/// let part = columns(&scan, &retouch, false, 1, 3);
/// drop(retouch);
/// assert_eq!(part, [121, 250]);
/// ```
pub fn columns<'a, T>(scan: &'a [T], retouch: &'a [T], retouched: bool, from: usize, to: usize) -> &'a [T] {
    let (mut first, mut last) = (0, 0);
    // SAFETY: the two places are this function's own and apart; the call writes a number to each, and keeps neither.
    let of_retouch =
        unsafe { exported::dampmeadow_columns(scan.len(), retouch.len(), retouched, from, to, &mut first, &mut last) };
    let row = if of_retouch { retouch } else { scan };
    // it is proved that first <= last <= row.len(), so there is such a part; of other numbers `get` would give none, and every
    // row has the part up to 0: nothing here can panic, whatever the call gives
    row.get(first..last).unwrap_or(&scan[..0])
}
