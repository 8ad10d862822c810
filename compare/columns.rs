//! The row on screen: which columns of which row, by the lengths of the two, and the words of the part that is lent, beside Rust's
//! own slices.

use crate::sweep::{blocks, each, Count};
use crate::words::Random;
use std::fmt;
use std::mem::take;

#[link(name = "dampmeadow", kind = "static")]
extern "C" {
    fn dampmeadow_columns(scan: usize, retouch: usize, retouched: bool, from: usize, to: usize, first: &mut usize, last: &mut usize) -> bool;
}

#[link(name = "probe", kind = "static")]
extern "C" {
    fn probe_columns(scan: *const u32, n: usize, retouch: *const u32, m: usize, retouched: bool, from: usize, to: usize, place: usize) -> u32;
}

/// What is asked for: columns of the scanned row or of the retouched one, by the lengths of both.
#[derive(Clone, Copy)]
pub struct View {
    pub lengths: [usize; 2],
    pub retouched: bool,
    pub from: usize,
    pub to: usize,
}

impl fmt::Display for View {
    fn fmt(&self, out: &mut fmt::Formatter) -> fmt::Result {
        let ([scan, retouch], which) = (self.lengths, if self.retouched { "the second" } else { "the first" });
        write!(out, "columns {} to {} of {which} of rows of {scan} and {retouch}", self.from, self.to)
    }
}

/// What is given: the row, the first of its columns, and the one past the last.
#[derive(Clone, Copy, PartialEq)]
pub struct Span {
    pub retouched: bool,
    pub first: usize,
    pub last: usize,
}

impl fmt::Display for Span {
    fn fmt(&self, out: &mut fmt::Formatter) -> fmt::Result {
        write!(out, "{}..{} of {}", self.first, self.last, if self.retouched { "the second" } else { "the first" })
    }
}

/// The kinds of what is given, each of which has to occur.
const KINDS: [&str; 5] = ["of the scanned row", "of the retouched row", "empty in the scanned row", "empty in the retouched row", "refused"];

impl View {
    /// The library's call. A column that is not written shows.
    #[inline(always)]
    pub fn ours(&self) -> Span {
        const UNWRITTEN: usize = 0xa5a5_a5a5_a5a5_a5a5;
        let (View { lengths: [scan, retouch], retouched, from, to }, mut first, mut last) = (*self, UNWRITTEN, UNWRITTEN);
        let retouched = unsafe { dampmeadow_columns(scan, retouch, retouched, from, to, &mut first, &mut last) };
        Span { retouched, first, last }
    }

    /// What is due, by a slice of a row that has the length and holds nothing; and which kind that is.
    fn due(&self) -> (Span, usize) {
        const ROW: &[()] = &[(); usize::MAX];
        let &View { lengths, retouched, from, to } = self;
        match ROW[..lengths[retouched as usize]].get(from..to) {
            Some(part) => (Span { retouched, first: from, last: to }, retouched as usize + 2 * part.is_empty() as usize),
            None => (Span { retouched: false, first: 0, last: 0 }, 4),
        }
    }
}

/// Each view of rows of these lengths, with columns to 9 and columns as far as can be.
fn views(lengths: &[usize]) -> Vec<View> {
    let columns: Vec<usize> = (0..=9).chain(FAR).collect();
    let mut views = Vec::new();
    for retouched in [false, true] {
        for [scan, retouch] in pairs(lengths) {
            views.extend(pairs(&columns).map(|[from, to]| View { lengths: [scan, retouch], retouched, from, to }));
        }
    }
    views
}

const FAR: [usize; 3] = [1 << 63, usize::MAX - 1, usize::MAX];

fn pairs(of: &[usize]) -> impl Iterator<Item = [usize; 2]> + '_ {
    of.iter().flat_map(|a| of.iter().map(|b| [*a, *b]))
}

/// Any lengths and columns, or columns about the end of a row.
fn view(random: &mut Random) -> View {
    let mut any = || random.wide() as usize >> random.below(64);
    let (lengths, columns) = ([any(), any()], [any(), any()]);
    let mut about = |column: usize| match random.below(4) {
        0 => column,
        1 => lengths[random.below(2)].wrapping_add(random.below(5)).wrapping_sub(2),
        _ => column % lengths[random.below(2)].max(1),
    };
    let [from, to] = columns.map(&mut about);
    View { lengths, retouched: random.below(2) == 1, from, to }
}

/// What was tried, and of which kinds it was.
#[derive(Default)]
struct Tried {
    count: Count,
    kinds: [u64; KINDS.len()],
}

impl Tried {
    fn view(&mut self, view: View) {
        let (due, kind) = view.due();
        self.count.judge_shown(due, view.ours(), || view.to_string());
        self.kinds[kind] += 1;
    }

    fn add(&mut self, other: &Tried) {
        self.count.add(&other.count);
        self.kinds.iter_mut().zip(other.kinds).for_each(|(views, more)| *views += more);
    }
}

/// Two rows in one list, with words before them, between them and behind. Each word is another, and none is 0.
struct Rows(Vec<u32>);

impl Rows {
    const STARTS: [usize; 2] = [12, 36];

    fn new() -> Rows {
        Rows((0..64).map(|place| 0x5ca1_0001 + 0x0001_0101 * place).collect())
    }

    fn of(&self, lengths: [usize; 2]) -> [&[u32]; 2] {
        [0, 1].map(|row| &self.0[Self::STARTS[row]..][..lengths[row]])
    }
}

/// The part by its span beside the one that Rust cuts out itself: where it begins, and how long it is.
fn parts(rows: &Rows, view: &View, count: &mut Count) {
    let (both @ [scan, _], span) = (rows.of(view.lengths), view.ours());
    let row = both[view.retouched as usize];
    let (begins, length) = match row.get(view.from..view.to) {
        Some(part) => (row.as_ptr().wrapping_add(view.from), part.len()),
        None => (scan.as_ptr(), 0),
    };
    let ours = both[span.retouched as usize].get(span.first..span.last);
    count.judge(Some(begins as u64), ours.map_or(0, |part| part.as_ptr() as u64), || format!("where the part begins, {view},"));
    count.judge(Some(length as u64), ours.map_or(u64::MAX, |part| part.len() as u64), || format!("how long the part is, {view},"));
}

/// The words of the part that is lent, place by place, and a 0 past its end.
fn lent(rows: &Rows, view: &View, count: &mut Count) {
    let ([scan, retouch], &View { retouched, from, to, .. }) = (rows.of(view.lengths), view);
    let part = [scan, retouch][retouched as usize].get(from..to).unwrap_or_default();
    for place in (0..=9).chain([1 << 30, 1 << 62]).chain(FAR) {
        let due = part.get(place).copied().unwrap_or(0);
        let ours = unsafe { probe_columns(scan.as_ptr(), scan.len(), retouch.as_ptr(), retouch.len(), retouched, from, to, place) };
        count.judge(Some(due as u64), ours as u64, || format!("place {place} of {view}"));
    }
}

/// Tries the row on screen, and reports each count with its label; with `every`, on more views at random.
pub fn columns(every: bool, report: &mut impl FnMut(&str, Count)) {
    let mut all = Tried::default();
    let mut done = |label: &str, mut tried: Tried| {
        all.add(&tried);
        report(label, take(&mut tried.count));
    };
    let short: Vec<usize> = (0..=6).collect();
    let mut tried = Tried::default();
    views(&[&short[..], &FAR].concat()).into_iter().for_each(|view| tried.view(view));
    done("columns, each of short rows, and far ones", tried);
    let label = "columns, rows and columns at random";
    let run = |from: u64, to: u64| {
        let (mut tried, mut random) = (Tried::default(), Random::new(from + 1));
        (from..to).for_each(|_| tried.view(view(&mut random)));
        tried
    };
    let mut tried = Tried::default();
    blocks(label, if every { 100_000_000 } else { 1_000_000 }, 1 << 16, run).iter().for_each(|block| tried.add(block));
    done(label, tried);
    let (label, count) = each("columns, a view", KINDS.into_iter().zip(all.kinds).map(|(kind, views)| (kind, true, views)));
    report(&label, count);
    let (rows, [mut places, mut words]) = (Rows::new(), <[Count; 2]>::default());
    for view in views(&short) {
        parts(&rows, &view, &mut places);
        lent(&rows, &view, &mut words);
    }
    report("columns, where the part of a row is", places);
    report("columns, the words of the part that is lent", words);
}
