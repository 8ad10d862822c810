//! What is compared: each kernel of ours, raw and guarded, beside the crate's, with the rule by which two words agree.

use crate::gates::Gate;
use crate::marks;
use crate::remainder;
use micromath::{helpers, F32};
use std::f32::consts;

#[link(name = "dampmeadow", kind = "static")]
extern "C" {
    fn dampmeadow_words(op: u32, a: u32, b: u32) -> u64;
    fn dampmeadow_atan_norm(a: u32) -> u32;
    fn dampmeadow_atan_norm_guarded(a: u32) -> u64;
    fn dampmeadow_parts(a: u32, whole: &mut u32, rest: &mut u32) -> u32;
    fn dampmeadow_floor_marked(a: u32) -> u64;
    fn dampmeadow_ceil_marked(a: u32) -> u64;
    fn dampmeadow_strip(op: u32, first: *const u32, n: usize, second: *const u32, m: usize, answers: *mut u32, k: usize, refusals: *mut u32, l: usize) -> u32;
}

#[link(name = "probe", kind = "static")]
extern "C" {
    fn probe_to_i32(a: u32) -> i32;
    fn probe_cast_marked(a: u32) -> u64;
    fn probe_from_i32(n: i32) -> u32;
    fn probe_from_u32(n: u32) -> u32;
    fn probe_value(a: u32) -> u32;
    fn probe_exponent_bits(a: u32) -> u32;
    fn probe_exponent_value(a: u32) -> i32;
    fn probe_without_sign(a: u32) -> u32;
    fn probe_set_exponent(a: u32, n: i32) -> u32;
    fn probe_is_integer(a: u32) -> bool;
    fn probe_is_even(a: u32) -> bool;
    fn probe_constant(place: u32) -> u32;
}

/// The call by number, with its refusal still in the high half.
pub fn words(op: u32, a: u32, b: u32) -> u64 {
    unsafe { dampmeadow_words(op, a, b) }
}

/// The strip call, with the refusal of the whole strip.
pub fn strip(op: u32, first: &[u32], second: &[u32], answers: &mut [u32], refusals: &mut [u32]) -> u32 {
    let [a, b, c, d] = [first.len(), second.len(), answers.len(), refusals.len()];
    unsafe { dampmeadow_strip(op, first.as_ptr(), a, second.as_ptr(), b, answers.as_mut_ptr(), c, refusals.as_mut_ptr(), d) }
}

/// The places that one strip call gives for these words, each with its refusal in the high half.
pub fn places(op: u32, words: &[(u32, u32)]) -> Vec<u64> {
    let (first, second): (Vec<u32>, Vec<u32>) = words.iter().copied().unzip();
    let (mut answers, mut refusals) = (vec![!0; words.len()], vec![!0; words.len()]);
    strip(op, &first, &second, &mut answers, &mut refusals);
    refusals.iter().zip(&answers).map(|(refusal, word)| (*refusal as u64) << 32 | *word as u64).collect()
}

/// trunc and fract together: the refusal with the whole part, and the refusal with the rest. A word that is not set shows.
fn parts(a: u32) -> [u64; 2] {
    let (mut whole, mut rest) = (!0, !0);
    let refusal = unsafe { dampmeadow_parts(a, &mut whole, &mut rest) } as u64;
    [refusal << 32 | whole as u64, refusal << 32 | rest as u64]
}

/// Which operands a kernel takes, and so which words are tried.
#[derive(Clone, Copy, PartialEq)]
pub enum Takes {
    One,
    Two,
    /// A number and a power in two's complement.
    Power,
    /// A number and a power that is a number too.
    FloatPower,
    /// A number and what it is divided by.
    Divisor,
}

/// When the crate's word and ours agree.
#[derive(Clone, Copy)]
pub enum Agree {
    /// Bit for bit.
    Exact,
    /// Bit for bit, but that where the crate gives any NaN ours is 7fc00000.
    Nan,
    /// Behind a gate: ours refuses what the gate does, and its answers are the crate's bit for bit and no NaN, but that sqrt's of a
    /// zero is that zero.
    Guarded(Gate),
    /// Bit for bit, and ours has this mark of the first word in its high half.
    Marked(fn(u32) -> u32),
}

/// How a kernel of ours is called: by its number among the operations, or by an export of its own.
#[derive(Clone, Copy)]
pub enum Call {
    Number(u32),
    Own(fn(u32, u32) -> u64),
}

pub struct Kernel {
    pub name: &'static str,
    pub call: Call,
    pub takes: Takes,
    pub agree: Agree,
    /// The words that a run skips: the crate's answer depends on the machine, or does not come.
    pub skips: fn(u32, u32) -> bool,
    /// Whether a NaN that the crate answers with was put together from bits, as `set_exponent` does, and made by no arithmetic.
    pub builds: fn(u32, u32) -> bool,
    pub theirs: fn(u32, u32) -> u32,
    /// The crate's kernel in a loop over two lists, with the answers in a third.
    pub loops: fn(&[u32], &[u32], &mut [u32]),
}

impl Kernel {
    pub fn label(&self) -> String {
        match self.call {
            Call::Number(_) => format!("{} {}", self.key(), self.name),
            Call::Own(_) => self.key(),
        }
    }

    /// What `--only` calls it: its number, or its name where it has none.
    pub fn key(&self) -> String {
        match self.call {
            Call::Number(n) => format!("{n:02x}"),
            Call::Own(_) if self.is_guarded() => format!("{} guarded", self.name),
            Call::Own(_) => self.name.to_string(),
        }
    }

    /// Its number among the operations, if it has one.
    pub fn number(&self) -> Option<u32> {
        match self.call {
            Call::Number(n) => Some(n),
            Call::Own(_) => None,
        }
    }

    pub fn is_guarded(&self) -> bool {
        matches!(self.agree, Agree::Guarded(_))
    }

    /// Whether the high half of an answer is a mark, and no refusal.
    pub fn is_marked(&self) -> bool {
        matches!(self.agree, Agree::Marked(_))
    }

    /// The refusal that the gate gives for these words, or 0; only a guarded kernel has any.
    #[inline(always)]
    pub fn refusal(&self, a: u32, b: u32) -> u64 {
        match self.agree {
            Agree::Guarded(gate) => gate.refusal(a, b),
            Agree::Exact | Agree::Nan | Agree::Marked(_) => 0,
        }
    }

    /// The word that ours has to answer with, if any will do, and its mark.
    #[inline(always)]
    pub fn answer(&self, a: u32, b: u32) -> Option<u64> {
        let theirs = (self.theirs)(a, b);
        match self.agree {
            Agree::Nan if is_nan(theirs) => Some(NAN as u64),
            Agree::Guarded(gate) if gate.keeps(a) => Some(a as u64),
            Agree::Guarded(_) if is_nan(theirs) => None,
            Agree::Marked(mark) => Some(marks::over(mark(a), theirs)),
            _ => Some(theirs as u64),
        }
    }

    /// What ours has to give, if anything will do. The crate is not called where the gate refuses.
    #[inline(always)]
    pub fn expected(&self, a: u32, b: u32) -> Option<u64> {
        match self.refusal(a, b) {
            0 => self.answer(a, b),
            refusal => Some(refusal << 32),
        }
    }

    /// The crate's word, where it is a NaN that the crate built from bits and ours is another. A signalling NaN is built, whatever
    /// kernel it is from: arithmetic makes none.
    pub fn built(&self, a: u32, b: u32) -> Option<u32> {
        let theirs = (self.theirs)(a, b);
        let is_built = matches!(self.agree, Agree::Nan) && is_nan(theirs) && (theirs & QUIET == 0 || (self.builds)(a, b));
        (is_built && theirs != NAN).then_some(theirs)
    }

    /// What ours gives: a refusal or a mark in the high half, a word in the low.
    #[inline(always)]
    pub fn ours(&self, a: u32, b: u32) -> u64 {
        match self.call {
            Call::Number(n) => words(n, a, b),
            Call::Own(call) => call(a, b),
        }
    }

    /// The second word of a place in a strip, as the single call takes it: 0 where it is not used.
    pub fn used(&self, b: u32) -> u32 {
        if self.takes == Takes::One {
            0
        } else {
            b
        }
    }

    /// The call with the words that it takes.
    pub fn asked(&self, a: u32, b: u32) -> String {
        let second = if self.takes == Takes::One { String::new() } else { format!(" {b:08x}") };
        format!("{} of {a:08x}{second}", self.label())
    }
}

/// The NaN that ours is, whatever NaN the crate's arithmetic made.
pub const NAN: u32 = 0x7fc0_0000;

/// The digit that a signalling NaN does not have.
const QUIET: u32 = 0x0040_0000;

pub fn is_nan(w: u32) -> bool {
    w & 0x7fff_ffff > 0x7f80_0000
}

fn f(w: u32) -> F32 {
    F32::from_bits(w)
}

/// What powf hands to exp, the product of the power and the logarithm, if it calls exp at all.
fn reaches_exp(a: u32, b: u32) -> Option<f32> {
    let (x, n) = (f(a), f(b));
    let base = if x.0 >= 0.0 {
        x
    } else if helpers::is_integer(n) {
        helpers::without_sign(x)
    } else {
        return None;
    };
    Some(n.0 * base.ln().0)
}

/// A loop as a user of the crate has it, compiled for each kernel by itself, so that the kernel can be inlined.
fn over(theirs: impl Fn(u32, u32) -> u32, first: &[u32], second: &[u32], answers: &mut [u32]) {
    for ((answer, a), b) in answers.iter_mut().zip(first).zip(second) {
        *answer = theirs(*a, *b);
    }
}

/// A kernel of ours and the crate's beside it; nothing is skipped, and no NaN of it is built from bits.
macro_rules! kernel {
    ($call:expr, $name:literal, $takes:ident, $agree:expr, $theirs:expr) => {
        Kernel {
            name: $name,
            call: $call,
            takes: Takes::$takes,
            agree: $agree,
            skips: |_, _| false,
            builds: |_, _| false,
            theirs: $theirs,
            loops: |first, second, answers| over($theirs, first, second, answers),
        }
    };
}

/// A raw kernel: ours is the call by number, which must not refuse. Then come the rules that are its own.
macro_rules! raw {
    ($number:literal, $name:literal, $takes:ident, $agree:ident, $theirs:expr $(, $field:ident: $rule:expr)*) => {
        Kernel { $($field: $rule,)* ..kernel!(Call::Number($number), $name, $takes, Agree::$agree, $theirs) }
    };
}

/// What has no number, by its own exported call.
macro_rules! own {
    ($name:literal, $takes:ident, $agree:ident $(($mark:expr))?, $theirs:expr, $ours:expr) => {
        kernel!(Call::Own($ours), $name, $takes, Agree::$agree $(($mark))?, $theirs)
    };
}

/// The same behind the gate of the kernel that is named second.
macro_rules! guarded {
    ($name:literal, $gate:literal, $theirs:expr, $ours:expr) => {
        kernel!(Call::Own($ours), $name, One, Agree::Guarded(Gate::of($gate)), $theirs)
    };
}

/// The raw kernels. A NaN that reaches exp is skipped, so each NaN that exp then gives is one that `set_exponent` built. Where
/// div_euclid's quotient is a NaN it is skipped too: trunc reads its bits.
fn raw() -> Vec<Kernel> {
    vec![
        raw!(0x81, "trunc", One, Nan, |a, _| f(a).trunc().to_bits()),
        raw!(0x82, "fract", One, Nan, |a, _| f(a).fract().to_bits()),
        raw!(0x83, "floor", One, Nan, |a, _| f(a).floor().to_bits()),
        raw!(0x84, "ceil", One, Nan, |a, _| f(a).ceil().to_bits()),
        raw!(0x85, "round", One, Nan, |a, _| f(a).round().to_bits()),
        raw!(0x86, "abs", One, Exact, |a, _| f(a).abs().to_bits()),
        raw!(0x87, "copysign", Two, Exact, |a, b| f(a).copysign(f(b)).to_bits()),
        raw!(0x88, "signum", One, Nan, |a, _| f(a).signum().to_bits()),
        raw!(0x89, "sqrt", One, Nan, |a, _| f(a).sqrt().to_bits()),
        raw!(0x8a, "invsqrt", One, Exact, |a, _| f(a).invsqrt().to_bits()),
        raw!(0x8b, "inv", One, Exact, |a, _| f(a).inv().to_bits()),
        raw!(0x8c, "recip", One, Nan, |a, _| f(a).recip().to_bits()),
        raw!(0x8d, "exp", One, Nan, |a, _| f(a).exp().to_bits(), skips: |a, _| is_nan(a), builds: |_, _| true),
        raw!(0x8e, "ln", One, Nan, |a, _| f(a).ln().to_bits()),
        raw!(0x8f, "powi", Power, Nan, |a, b| f(a).powi(b as i32).to_bits(), skips: |_, b| b as i32 == i32::MIN),
        raw!(0x90, "powf", FloatPower, Nan, |a, b| f(a).powf(f(b)).to_bits(),
            skips: |a, b| reaches_exp(a, b).is_some_and(f32::is_nan), builds: |a, b| reaches_exp(a, b).is_some()),
        raw!(0x91, "atan", One, Nan, |a, _| f(a).atan().to_bits()),
        raw!(0x92, "atan2", Two, Nan, |a, b| f(a).atan2(f(b)).to_bits()),
        raw!(0x93, "cos", One, Nan, |a, _| f(a).cos().to_bits()),
        raw!(0x94, "sin", One, Nan, |a, _| f(a).sin().to_bits()),
        raw!(0x95, "hypot", Two, Nan, |a, b| f(a).hypot(f(b)).to_bits()),
        raw!(0x96, "asin", One, Nan, |a, _| f(a).asin().to_bits()),
        raw!(0x97, "acos", One, Nan, |a, _| helpers::acos(f(a)).to_bits()),
        raw!(0x98, "tan", One, Nan, |a, _| f(a).tan().to_bits()),
        raw!(0x99, "rem_euclid", Divisor, Nan, |a, b| f(a).rem_euclid(f(b)).to_bits()),
        raw!(0x9a, "div_euclid", Divisor, Nan, |a, b| f(a).div_euclid(f(b)).to_bits(), skips: |a, b| (f(a) / f(b)).is_nan()),
        own!("atan_norm", One, Nan, |a, _| f(a).atan_norm().to_bits(), |a, _| unsafe { dampmeadow_atan_norm(a) as u64 }),
    ]
}

/// The guarded form of each raw kernel that has a number: its number is 80 less, and no word is skipped. Then those without one:
/// atan_norm, and trunc and fract together, each part held to its own kernel.
pub fn guarded() -> Vec<Kernel> {
    let by_number = |k: Kernel| match k.call {
        Call::Number(n) => Some(Kernel { call: Call::Number(n - 0x80), agree: Agree::Guarded(Gate::of(k.name)), skips: |_, _| false, ..k }),
        Call::Own(_) => None,
    };
    let mut all: Vec<Kernel> = raw().into_iter().filter_map(by_number).collect();
    all.extend([
        guarded!("atan_norm", "atan_norm", |a, _| f(a).atan_norm().to_bits(), |a, _| unsafe { dampmeadow_atan_norm_guarded(a) }),
        guarded!("parts whole", "trunc", |a, _| f(a).trunc().to_bits(), |a, _| parts(a)[0]),
        guarded!("parts rest", "fract", |a, _| f(a).fract().to_bits(), |a, _| parts(a)[1]),
    ]);
    all
}

/// Each place of the probe's constants with its word: Rust's own constant where there is one; pi/2, and cos's half of 1/pi, by
/// a rounded division; past the end a 0.
const CONSTANTS: [(u32, u32); 20] = [
    (0, 0.0f32.to_bits()),
    (1, 1.0f32.to_bits()),
    (2, f32::EPSILON.to_bits()),
    (3, f32::NAN.to_bits()),
    (4, f32::INFINITY.to_bits()),
    (5, f32::NEG_INFINITY.to_bits()),
    (6, consts::FRAC_1_PI.to_bits()),
    (7, consts::LN_2.to_bits()),
    (8, consts::LOG2_E.to_bits()),
    (9, consts::E.to_bits()),
    (10, consts::PI.to_bits()),
    (11, consts::FRAC_PI_2.to_bits()),
    (11, (consts::PI / 2.0).to_bits()),
    (12, 1 << 31),
    (13, 0xff << 23),
    (14, (1 << 23) - 1),
    (15, 127),
    (16, 23),
    (17, (consts::FRAC_1_PI / 2.0).to_bits()),
    (18, 0),
];

fn constant(a: u32) -> (u32, u32) {
    CONSTANTS[a as usize % CONSTANTS.len()]
}

/// The casts, the helpers and the constants.
fn helpers() -> Vec<Kernel> {
    vec![
        own!("cast to i32", One, Exact, |a, _| f(a).0 as i32 as u32, |a, _| unsafe { probe_to_i32(a) as u32 as u64 }),
        own!("cast from i32", One, Exact, |a, _| (a as i32 as f32).to_bits(), |a, _| unsafe { probe_from_i32(a as i32) as u64 }),
        own!("cast from u32", One, Exact, |a, _| (a as f32).to_bits(), |a, _| unsafe { probe_from_u32(a) as u64 }),
        own!("value and back", One, Exact, |a, _| if is_nan(a) { NAN } else { a }, |a, _| unsafe { probe_value(a) as u64 }),
        own!("exponent bits", One, Exact, |a, _| helpers::exponent_bits(f(a)), |a, _| unsafe { probe_exponent_bits(a) as u64 }),
        own!("exponent value", One, Exact, |a, _| helpers::exponent_value(f(a)) as u32, |a, _| unsafe { probe_exponent_value(a) as u32 as u64 }),
        own!("without sign", One, Exact, |a, _| helpers::without_sign(f(a)).to_bits(), |a, _| unsafe { probe_without_sign(a) as u64 }),
        own!("set exponent", Two, Exact, |a, b| helpers::set_exponent(f(a), b as i32).to_bits(), |a, b| unsafe { probe_set_exponent(a, b as i32) as u64 }),
        own!("is integer", One, Exact, |a, _| helpers::is_integer(f(a)) as u32, |a, _| unsafe { probe_is_integer(a) as u64 }),
        own!("is even", One, Exact, |a, _| helpers::is_even(f(a)) as u32, |a, _| unsafe { probe_is_even(a) as u64 }),
        own!("constants", One, Exact, |a, _| constant(a).1, |a, _| unsafe { probe_constant(constant(a).0) as u64 }),
    ]
}

/// The cast to i32, floor and ceil again, each with the mark of the cast that it makes.
fn marked() -> Vec<Kernel> {
    vec![
        own!("cast marked", One, Marked(marks::of), |a, _| f(a).0 as i32 as u32, |a, _| unsafe { probe_cast_marked(a) }),
        own!("floor marked", One, Marked(marks::of), |a, _| f(a).floor().to_bits(), |a, _| unsafe { dampmeadow_floor_marked(a) }),
        own!("ceil marked", One, Marked(marks::of_turned), |a, _| f(a).ceil().to_bits(), |a, _| unsafe { dampmeadow_ceil_marked(a) }),
    ]
}

/// Raw rem_euclid and div_euclid again, with the steps over `remainder.rs` in the crate's place. Nothing is skipped.
fn by_whole_numbers() -> Vec<Kernel> {
    vec![
        own!("rem_euclid by whole numbers", Divisor, Exact, remainder::rem_euclid, |a, b| words(0x99, a, b)),
        own!("div_euclid by whole numbers", Divisor, Exact, remainder::div_euclid, |a, b| words(0x9a, a, b)),
    ]
}

/// What stands beside the crate itself.
pub fn beside_the_crate() -> Vec<Kernel> {
    guarded().into_iter().chain(raw()).chain(helpers()).chain(marked()).collect()
}

pub fn all() -> Vec<Kernel> {
    beside_the_crate().into_iter().chain(by_whole_numbers()).collect()
}
