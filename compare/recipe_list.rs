//! The recorded list of recipe lines and their answers, to be replayed where there is no Rust. It is the same bytes whenever it
//! is made, and its answers are the judge's.

use crate::edges::{first_of, last, later};
use crate::kernels;
use crate::lines::BAD;
use crate::recipe::{names, reading, Judge, OPENINGS, RANKS};
use crate::recipe_lines::{closed_and_opened, line, of_depth, of_length, without_newlines, Recipes};

const ONE: u32 = 0x3f80_0000;
const TWO: u32 = 0x4000_0000;
const INFINITY: u32 = 0x7f80_0000;
const NAN: u64 = kernels::NAN as u64;

const fn refused(number: u64) -> u64 {
    number << 32
}

/// Lines, each with a word for x and the answer, worked out by hand.
const BY_HAND: &[(&str, u32, u64)] = &[
    // x and numbers, whose NaN is one
    ("x", ONE, 0x3f80_0000),
    ("x", 0x8000_0000, 0x8000_0000),
    ("x", 0x0000_0001, 0x0000_0001),
    ("x", 0xff80_0000, 0xff80_0000),
    ("x", 0x7fc0_0000, NAN),
    ("x", 0x7f80_0001, NAN),
    ("x", 0xffc0_0000, NAN),
    ("x", 0xff80_0001, NAN),
    ("((x))", 0xffff_ffff, NAN),
    ("40490fdb", 0, 0x4049_0fdb),
    ("80000000", 0, 0x8000_0000),
    ("7f800000", 0, 0x7f80_0000),
    ("7f800001", 0, NAN),
    ("ffffffff", 0, NAN),
    // kernels, and what they refuse
    ("sqrt(40800000)", 0, 0x4000_0000),
    ("inv(3fc00000)", 0, 0x3f40_0000),
    ("inv(x)", 0xbf80_0000, 0xbf80_0000),
    ("invsqrt(3f800000)", 0, 0x3f77_5a86),
    ("exp(00000000)", 0, 0x3f80_0000),
    ("exp(x)", ONE, 0x402d_f854),
    ("ln(3f7fffff)", 0, 0x0000_0000),
    ("floor(80000001)", 0, 0xbf80_0000),
    ("cos(43800000)", 0, 0xbd21_2dba),
    ("sin(43800000)", 0, 0xbf7f_cc70),
    ("sqrt(x)", 0x0000_0000, 0x0000_0000),
    ("sqrt(x)", 0x8000_0000, 0x8000_0000),
    ("sqrt(x)", 0x007f_ffff, refused(9)),
    ("sqrt(x)", 0xbf80_0000, refused(3)),
    ("sqrt(x)", INFINITY, refused(1)),
    ("sqrt(x)", 0xffff_ffff, refused(1)),
    ("inv(x)", 0x8000_0000, refused(2)),
    ("cos(43800001)", 0, refused(4)),
    ("sin(c3800001)", 0, refused(4)),
    // ranks, and equal ones to the left
    ("x-x-x", ONE, 0xbf80_0000),
    ("x-(x-x)", ONE, 0x3f80_0000),
    ("x/x*x", TWO, 0x4000_0000),
    ("x/(x*x)", TWO, 0x3f00_0000),
    ("x+x*x", TWO, 0x40c0_0000),
    ("x*x+x", TWO, 0x40c0_0000),
    ("(x+x)*x", TWO, 0x4100_0000),
    ("x-x*x", TWO, 0xc000_0000),
    ("40e00000/40000000/40000000", 0, 0x3fe0_0000),
    ("3f800000+sqrt(x)*x", 0x4080_0000, 0x4110_0000),
    // each operation rounds once, to the even one of two as near
    ("3f800000+33800000+33800000", 0, 0x3f80_0000),
    ("33800000+33800000+3f800000", 0, 0x3f80_0001),
    ("3f800001+33800000", 0, 0x3f80_0002),
    ("x*x-3f801000", 0x3f80_0800, 0x0000_0000),
    ("00000003/40000000", 0, 0x0000_0002),
    ("7f7fffff+7f7fffff", 0, 0x7f80_0000),
    // ... and refuses nothing
    ("3f800000/00000000", 0, 0x7f80_0000),
    ("3f800000/80000000", 0, 0xff80_0000),
    ("00000000/00000000", 0, NAN),
    ("x-x", INFINITY, NAN),
    ("00000000*x", INFINITY, NAN),
    ("sqrt(3f800000/00000000)", 0, refused(1)),
    ("sqrt(x-x)", INFINITY, refused(1)),
    // the first refusal from the left, and an argument before its kernel
    ("ln(00000000)+sqrt(bf800000)", 0, refused(2)),
    ("sqrt(bf800000)+ln(00000000)", 0, refused(3)),
    ("sqrt(bf800000)*ln(00000000)", 0, refused(3)),
    ("x-x*(ln(00000000)/cos(44800000))", ONE, refused(2)),
    ("sqrt(ln(00000000))", 0, refused(2)),
    ("ln(sqrt(bf800000))", 0, refused(3)),
    ("sqrt(00000000*ln(00000000))", 0, refused(2)),
    // no recipes: a fault behind a refusal, and any other
    ("sqrt(bf800000)+", 0, refused(15)),
    ("sqrt(bf800000))", 0, refused(15)),
    ("(sqrt(bf800000)", 0, refused(15)),
    ("ln(00000000)+sqrt(bf800000", 0, refused(15)),
    ("", ONE, refused(15)),
    (" ", ONE, refused(15)),
    (" x", ONE, refused(15)),
    ("x ", ONE, refused(15)),
    ("x\r", ONE, refused(15)),
    ("x\0", ONE, refused(15)),
    ("x + x", ONE, refused(15)),
    ("X", ONE, refused(15)),
    ("xx", ONE, refused(15)),
    ("-x", ONE, refused(15)),
    ("+x", ONE, refused(15)),
    ("x+", ONE, refused(15)),
    ("x++x", ONE, refused(15)),
    ("x*-x", ONE, refused(15)),
    ("(x)(x)", ONE, refused(15)),
    ("(x)x", ONE, refused(15)),
    ("x(x)", ONE, refused(15)),
    ("()", ONE, refused(15)),
    ("(x", ONE, refused(15)),
    ("x)", ONE, refused(15)),
    (")x(", ONE, refused(15)),
    ("3f800000x", ONE, refused(15)),
    ("x3f800000", ONE, refused(15)),
    ("3f8000003f800000", ONE, refused(15)),
    ("3f80000", ONE, refused(15)),
    ("3f8000000", ONE, refused(15)),
    ("3F800000", ONE, refused(15)),
    ("3f80_0000", ONE, refused(15)),
    ("0x3f800000", ONE, refused(15)),
    ("1.0", ONE, refused(15)),
    ("sqrt", ONE, refused(15)),
    ("sqrtx", ONE, refused(15)),
    ("sqrt()", ONE, refused(15)),
    ("sqrt (x)", ONE, refused(15)),
    ("invsqr(x)", ONE, refused(15)),
    ("tan(x)", ONE, refused(15)),
    // as deep as can be, and deeper; ) takes off what ( adds, and the line need be no recipe
    ("((((((((((((((((x))))))))))))))))", ONE, 0x3f80_0000),
    ("(((((((((((((((((x)))))))))))))))))", ONE, refused(14)),
    ("(((((((((((((((((", ONE, refused(14)),
    ("((((((((((((((((", ONE, refused(15)),
    (")((((((((((((((((((", ONE, refused(14)),
    (")(((((((((((((((((", ONE, refused(15)),
    ("))))))))))))))))))", ONE, refused(15)),
    ("((((((((((((((((x))))))))))))))))+((((((((((((((((x))))))))))))))))", ONE, 0x4000_0000),
    ("((((((((((((((((x))))))))))))))))+(((((((((((((((((x)))))))))))))))))", ONE, refused(14)),
    ("((((((((sqrt(sqrt(sqrt(sqrt(sqrt(sqrt(sqrt(sqrt(x))))))))))))))))", ONE, 0x3f80_0000),
    ("((((((((sqrt(sqrt(sqrt(sqrt(sqrt(sqrt(sqrt(sqrt((x)))))))))))))))))", ONE, refused(14)),
    ("ln(00000000)+(((((((((((((((((x)))))))))))))))))", ONE, refused(14)),
    ("no recipe (((((((((((((((((", ONE, refused(14)),
];

/// Factors that are refused with 1, 2, 9, 3 and 4.
const REFUSED: [&str; 5] = ["sqrt(7f800000)", "ln(00000000)", "inv(00000001)", "sqrt(bf800000)", "cos(43800001)"];

/// x and a recipe as a line of text.
pub fn text(x: u32, line: &[u8]) -> Vec<u8> {
    [format!("{x:08x} ").as_bytes(), line].concat()
}

fn operators() -> impl Iterator<Item = char> {
    RANKS.into_iter().flatten().map(char::from)
}

/// Every byte but a newline, alone and behind x.
fn bytes() -> Vec<Vec<u8>> {
    (0..=255).filter(|byte| *byte != b'\n').flat_map(|byte| [vec![byte], vec![b'x', byte]]).collect()
}

/// Every line of one to three of these.
fn tokens() -> Vec<String> {
    const TOKENS: [&str; 8] = ["x", "40400000", "-", "/", "(", ")", "ln(", "floor("];
    let one = TOKENS.map(String::from).to_vec();
    let more = |lines: &[String]| -> Vec<String> { lines.iter().flat_map(|line| TOKENS.map(|token| format!("{line}{token}"))).collect() };
    let two = more(&one);
    let three = more(&two);
    [one, two, three].concat()
}

/// Each name with a letter changed or left out, with one more, in upper case and without what has to follow it, and the names of
/// kernels that no recipe has.
fn misnamed() -> Vec<String> {
    const OTHERS: &str = "trunc fract ceil round abs copysign signum powi powf atan2 atan_norm hypot asin acos tan rem_euclid div_euclid log";
    let mut lines: Vec<String> = OTHERS.split(' ').map(|name| format!("{name}(x)")).collect();
    for name in names() {
        for (place, letter) in name.char_indices() {
            let (before, after) = (&name[..place], &name[place + 1..]);
            let next = (letter as u8 ^ 1) as char;
            lines.extend([format!("{before}{next}{after}(x)"), format!("{before}{after}(x)"), format!("{before}{letter}{letter}{after}(x)")]);
        }
        lines.extend([name.to_string(), format!("{name}x"), format!("{name}(x"), format!("{name}x)"), format!("{name}((x)"), format!("{name}()"), format!("{name}[x]")]);
        lines.extend([
            format!("{}(x)", name.to_uppercase()),
            format!("{name} (x)"),
            format!("{name}(x)x"),
            format!("x{name}(x)"),
            format!("{name}3f800000"),
            format!("{name}{name}(x)"),
        ]);
        lines.extend([format!("{name}(x)"), format!("(({name}((x))))"), format!("x*{name}(x+x)-x")]);
    }
    lines
}

/// Numbers with a byte at each place that is no digit, and of other lengths.
fn digits() -> Vec<Vec<u8>> {
    let good = b"3fedcba9";
    let bad = |place: usize| BAD.iter().chain(b"ABCDEFx)").map(move |byte| [&good[..place], &[*byte], &good[place + 1..]].concat());
    let lengths = (1..=17).map(|length| good.iter().cycle().take(length).copied().collect());
    (0..good.len()).flat_map(bad).chain(lengths).chain((1..=10).map(|length| vec![b'0'; length])).collect()
}

/// Three numbers by every two operators, grouped by themselves and by parentheses; and every two refusals by every operator, and
/// within a kernel that refuses too.
fn groups() -> Vec<String> {
    let mut lines = Vec::new();
    for one in operators() {
        for other in operators() {
            let [a, b, c] = ["41100000", "40400000", "40a00000"];
            lines.extend([format!("{a}{one}{b}{other}{c}"), format!("({a}{one}{b}){other}{c}"), format!("{a}{one}({b}{other}{c})")]);
        }
        for (first, second) in REFUSED.iter().flat_map(|first| REFUSED.map(|second| (first, second))) {
            lines.extend([format!("{first}{one}{second}"), format!("x{one}({second}*x){one}{first}")]);
        }
    }
    let kernels = |refused| OPENINGS.map(|name| format!("{name}({refused}+x)"));
    lines.extend(REFUSED.into_iter().flat_map(kernels));
    lines
}

/// Lines at words for x that are no usual numbers.
fn unusual() -> Vec<(u32, String)> {
    const WORDS: [u32; 10] = [0, 0x8000_0000, 1, 0x807f_ffff, INFINITY, 0xff80_0000, 0x7fc0_0000, 0x7f80_0001, 0xffc0_1234, 0xffff_ffff];
    let joined = operators().flat_map(|operator| [format!("x{operator}x"), format!("3f800000{operator}x"), format!("x{operator}00000000")]);
    let lines: Vec<String> = joined.chain(OPENINGS.map(|name| format!("{name}(x)"))).collect();
    WORDS.into_iter().flat_map(|x| lines.iter().map(move |line| (x, line.clone()))).collect()
}

/// Lines of text that have no x, or have something else where it should be.
fn malformed() -> Vec<Vec<u8>> {
    let good = text(ONE, b"x+x");
    let mut lines: Vec<Vec<u8>> = (0..=good.len()).map(|length| good[..length].to_vec()).collect();
    for place in 0..9 {
        let bad = BAD.iter().step_by(2).map(|byte| [&good[..place], &[*byte], &good[place + 1..]].concat());
        lines.extend(bad.chain([[&good[..place], &good[place + 1..]].concat(), [&good[..place], b"0", &good[place..]].concat()]));
    }
    lines.extend(
        [&b""[..], b"", b" ", b"x", b"\r", b"\0", b"3f800000\tx", b"3f800000  x", b"3F800000 x", b" 3f800000 x", b"3f800000x", b"3f800000+x"].map(<[u8]>::to_vec),
    );
    // with no x, and longer than a recipe can be
    lines.extend([vec![b'x'; 300], vec![b'0'; 300], vec![b'('; 300]]);
    lines
}

/// Both sides of the ends of length and depth.
fn ends() -> Vec<Vec<u8>> {
    let mut lines: Vec<Vec<u8>> = [239, 240, 241, 242].into_iter().flat_map(of_length).collect();
    lines.extend([256, 300, 1_000].into_iter().flat_map(|bytes| of_length(bytes).into_iter().take(2)));
    // longer than a read, and of a length that is small enough modulo 65,536
    lines.extend(of_length(65_775).into_iter().take(1));
    for (depth, step) in [(15, 11), (16, 2), (17, 2), (18, 11)] {
        lines.extend(of_depth(depth, std::iter::once(depth / 2)).into_iter().step_by(step));
    }
    lines.extend((0..=20).flat_map(|closed| [16, 17].into_iter().flat_map(move |more| closed_and_opened(closed, closed + more))));
    lines.extend(
        [[100, 116], [100, 117], [112, 128], [111, 128], [111, 129], [240, 0], [0, 240]].into_iter().flat_map(|[closed, opened]| closed_and_opened(closed, opened)),
    );
    lines
}

/// Trees at random, two of three short, each beside what damage makes of it, and any bytes.
fn random(count: usize) -> Vec<Vec<u8>> {
    let mut recipes = Recipes::new(11);
    let mut lines = Vec::new();
    for place in 0..count {
        let tree = if place % 3 == 0 {
            recipes.any_tree()
        } else {
            let (bytes, depth) = (1 + recipes.random.below(50), recipes.random.below(4));
            recipes.tree(bytes, depth)
        };
        let (good, x) = (line(&tree), recipes.word());
        lines.extend([text(x, &good), text(x, &recipes.damaged(&good))]);
        if place % 8 == 0 {
            let length = recipes.random.below(12);
            lines.push(text(x, &recipes.bytes(length)));
        }
    }
    without_newlines(lines)
}

/// Both sides of the ends of each kernel's gate, by x. New rows are added to those that came last.
fn gates() -> Vec<Vec<u8>> {
    let first = names().iter().flat_map(|name| first_of(name).into_iter().map(move |(a, b)| (*name, a, b)));
    let rows = first.chain(later()).chain(last()).filter(|row| names().contains(&row.0));
    rows.map(|(name, x, _)| text(x, format!("{name}(x)").as_bytes())).collect()
}

/// The lines that were answered by hand, each with its word. The judge has to answer them so.
pub fn by_hand(judge: &Judge) -> impl Iterator<Item = (&'static [u8], u32)> + '_ {
    BY_HAND.iter().map(|(line, x, answer)| {
        assert_eq!(judge.at(&reading(line.as_bytes()), *x), *answer, "the judge at {line:?} and {x:08x}");
        (line.as_bytes(), *x)
    })
}

/// The whole list.
pub fn list(judge: &Judge) -> Vec<Vec<u8>> {
    let at_two = |lines: Vec<Vec<u8>>| lines.into_iter().map(|line| text(TWO, &line)).collect::<Vec<_>>();
    let strings = |lines: Vec<String>| at_two(lines.into_iter().map(String::into_bytes).collect());
    let by_hand = by_hand(judge).map(|(line, x)| text(x, line)).collect();
    let unusual = unusual().into_iter().map(|(x, line)| text(x, line.as_bytes())).collect();
    let made = [by_hand, malformed(), at_two(bytes()), strings(tokens()), strings(misnamed()), at_two(digits()), strings(groups()), unusual, at_two(ends())];
    [made.concat(), random(300), gates()].concat()
}
