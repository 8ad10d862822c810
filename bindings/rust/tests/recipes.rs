//! Recipes: known answers, each name and each sign beside what it stands for, both sides of each limit, and what is no recipe.

mod words;

use dampmeadow::*;
use std::collections::BTreeSet;
use words::words;

const NAN: u32 = 0x7fc0_0000;
const INFINITE: u32 = 0x7f80_0000;
const ONE: u32 = 0x3f80_0000;
const SIGN: u32 = 1 << 31;

/// The word of a line's value, or the number of its refusal.
fn answered(line: impl AsRef<[u8]>, x: u32) -> Result<u32, u32> {
    recipe_words(line.as_ref(), x).map_err(Refusal::number)
}

/// A recipe, a word for x, and what is answered.
const KNOWN: [(&str, u32, Result<u32, u32>); 66] = [
    // each kernel
    ("sqrt(40800000)", 0, Ok(0x4000_0000)),
    ("invsqrt(3f800000)", 0, Ok(0x3f77_5a86)),
    ("inv(3fc00000)", 0, Ok(0x3f40_0000)),
    ("recip(40400000)", 0, Ok(0x3eaa_aa8f)),
    ("exp(00000000)", 0, Ok(ONE)),
    ("ln(3f400000)", 0, Ok(0xbecf_96e8)),
    ("atan(3f000000)", 0, Ok(0x3eee_c47c)),
    ("cos(00000000)", 0, Ok(ONE)),
    ("sin(3f800000)", 0, Ok(0x3f57_984f)),
    ("floor(bf000000)", 0, Ok(0xbf80_0000)),
    // several together, and x in its places
    ("sqrt(sqrt(41800000))*x", 0x4040_0000, Ok(0x40c0_0000)),
    ("3f800000+sqrt(x)*x", 0x4080_0000, Ok(0x4110_0000)),
    ("(3f800000+sqrt(x))*x", 0x4080_0000, Ok(0x4140_0000)),
    ("x-x-x", ONE, Ok(0xbf80_0000)),
    ("x-(x-x)", ONE, Ok(ONE)),
    ("x/x*x", 0x4000_0000, Ok(0x4000_0000)),
    ("x/(x*x)", 0x4000_0000, Ok(0x3f00_0000)),
    // a step is rounded once, and x*x is one step
    ("3f800000/40400000", 0, Ok(0x3eaa_aaab)),
    ("4b800000+3f800000", 0, Ok(0x4b80_0000)),
    ("x*x-3f800002", 0x3f80_0001, Ok(0)),
    ("00800000-00000001", 0, Ok(0x007f_ffff)),
    ("7f7fffff+7f7fffff", 0, Ok(INFINITE)),
    // zeros keep their signs
    ("x", SIGN, Ok(SIGN)),
    ("80000000-x", 0, Ok(SIGN)),
    ("80000000-x", SIGN, Ok(0)),
    ("00000000-x", 0, Ok(0)),
    ("sqrt(80000000)", 0, Ok(SIGN)),
    // infinities and NaN, given and made
    ("x", INFINITE, Ok(INFINITE)),
    ("x", SIGN | INFINITE, Ok(SIGN | INFINITE)),
    ("x", NAN, Ok(NAN)),
    ("x", 0xff80_0001, Ok(NAN)),
    ("(x)", 0xffff_ffff, Ok(NAN)),
    ("7f800001", 0, Ok(NAN)),
    ("3f800000/00000000", 0, Ok(INFINITE)),
    ("3f800000/80000000", 0, Ok(SIGN | INFINITE)),
    ("00000000/00000000", 0, Ok(NAN)),
    ("x-x", INFINITE, Ok(NAN)),
    ("00000000*x", INFINITE, Ok(NAN)),
    // each refusal of a kernel, and the last before it
    ("sqrt(x)", INFINITE, Err(1)),
    ("sqrt(x)", NAN, Err(1)),
    ("floor(x/x)", 0, Err(1)),
    ("ln(80000000)", 0, Err(2)),
    ("recip(00000001)", 0, Err(9)),
    ("sqrt(807fffff)", 0, Err(9)),
    ("sqrt(bf800000)", 0, Err(3)),
    ("inv(bf800000)", 0, Ok(0xbf80_0000)),
    ("cos(43800000)", 0, Ok(0xbd21_2dba)),
    ("cos(43800001)", 0, Err(4)),
    // the first of them, from left to right and from within
    ("ln(00000000)+sqrt(bf800000)", 0, Err(2)),
    ("sqrt(bf800000)+ln(00000000)", 0, Err(3)),
    ("ln(00000000)-sqrt(bf800000)", 0, Err(2)),
    ("sqrt(bf800000)*ln(00000000)", 0, Err(3)),
    ("ln(00000000)/sqrt(bf800000)", 0, Err(2)),
    ("x+cos(43800001)*x-ln(00000000)", 0, Err(4)),
    ("x-(ln(x)-sqrt(bf800000))", 0, Err(2)),
    ("sqrt(ln(00000000))", 0, Err(2)),
    ("ln(sqrt(bf800000))", 0, Err(3)),
    ("sqrt(bf800000)*00000000", 0, Err(3)),
    ("00000000*sqrt(bf800000)", 0, Err(3)),
    // a fault comes before it, wherever it is
    ("sqrt(bf800000)+", 0, Err(15)),
    ("sqrt(bf800000)*ln(00000000", 0, Err(15)),
    ("sqrt(bf800000))", 0, Err(15)),
    ("sqrt(sqrt(bf800000)x)", 0, Err(15)),
    ("sqrt(x)x", NAN, Err(15)),
    (" sqrt(x)", NAN, Err(15)),
    ("", NAN, Err(15)),
];

#[test]
fn known_recipes_have_known_answers() {
    for (line, x, due) in KNOWN {
        assert_eq!(answered(line, x), due, "{line} at {x:08x}");
        let by_float = recipe(line, f32::from_bits(x)).map(f32::to_bits);
        assert_eq!(by_float.map_err(Refusal::number), due, "{line} at {x:08x}");
    }
}

const NAMES: [(&str, Operation); 10] = [
    ("sqrt", Operation::Sqrt),
    ("invsqrt", Operation::Invsqrt),
    ("inv", Operation::Inv),
    ("recip", Operation::Recip),
    ("exp", Operation::Exp),
    ("ln", Operation::Ln),
    ("atan", Operation::Atan),
    ("cos", Operation::Cos),
    ("sin", Operation::Sin),
    ("floor", Operation::Floor),
];

#[test]
fn a_name_is_the_guarded_kernel() {
    for (name, op) in NAMES {
        for word in words() {
            let due = call(op.number(), word, 0).map_err(Refusal::number);
            assert_eq!(answered(format!("{name}(x)"), word), due, "{name} {word:08x}");
            assert_eq!(answered(format!("{name}({word:08x})"), 0), due, "{name} {word:08x}");
        }
        let capital = name.to_uppercase();
        for line in [name.into(), format!("{name}x"), format!("{name}()"), format!("{name} (x)"), format!("{capital}(x)")] {
            assert_eq!(answered(&line, ONE), Err(15), "{line}");
        }
        assert_eq!(answered(format!("{}(x)", &name[1..]), ONE), Err(15), "{name} without its first letter");
        assert_eq!(answered(format!("{}(x)", &name[..name.len() - 1]), ONE), Err(15), "{name} without its last letter");
    }
}

const SIGNS: [char; 4] = ['+', '-', '*', '/'];

/// One step, rounded as the language's own operators are.
fn step(a: f32, sign: char, b: f32) -> f32 {
    match sign {
        '+' => a + b,
        '-' => a - b,
        '*' => a * b,
        _ => a / b,
    }
}

/// A value as an answer.
fn value(number: f32) -> Result<u32, u32> {
    Ok(if number.is_nan() { NAN } else { number.to_bits() })
}

#[test]
fn a_sign_is_one_rounded_step() {
    for (a, b) in words().flat_map(|a| words().map(move |b| (a, b))) {
        for sign in SIGNS {
            let due = value(step(f32::from_bits(a), sign, f32::from_bits(b)));
            assert_eq!(answered(format!("x{sign}{b:08x}"), a), due, "{a:08x} {sign} {b:08x}");
            assert_eq!(answered(format!("{a:08x}{sign}(x)"), b), due, "{a:08x} {sign} {b:08x}");
        }
    }
}

#[test]
fn products_come_before_sums_and_the_left_before_the_right() {
    let numbers = [3.0f32, 0.1, -7.0, 1.0e8];
    for (first, second) in SIGNS.into_iter().flat_map(|first| SIGNS.map(|second| (first, second))) {
        for (a, b, c) in numbers.iter().flat_map(|a| numbers.iter().flat_map(move |b| numbers.map(move |c| (*a, *b, c)))) {
            let right_first = "+-".contains(first) && "*/".contains(second);
            let due = if right_first { step(a, first, step(b, second, c)) } else { step(step(a, first, b), second, c) };
            let line = format!("{:08x}{first}x{second}{:08x}", a.to_bits(), c.to_bits());
            assert_eq!(answered(&line, b.to_bits()), value(due), "{line} at {b}");
        }
    }
}

#[test]
fn a_line_has_240_bytes_at_most() {
    for more in 0..200u16 {
        // an odd number of bytes and an even one
        for (start, number) in [("x", more + 1), ("00000000", more)] {
            let line = start.to_string() + &"+x".repeat(more.into());
            let due = if line.len() > 240 { Err(13) } else { value(number.into()) };
            assert_eq!(answered(&line, ONE), due, "{} bytes", line.len());
        }
    }
    // whatever they are; they are counted, and not the letters
    for (bytes, due) in [(b"(", 14), (b")", 15), (b"x", 15), (b"\0", 15), (b"\xff", 15)] {
        assert_eq!(answered(bytes.repeat(240), ONE), Err(due), "{bytes:x?}");
        assert_eq!(answered(bytes.repeat(241), ONE), Err(13), "{bytes:x?}");
        assert_eq!(answered(bytes.repeat(100_000), ONE), Err(13), "{bytes:x?}");
    }
    assert_eq!(recipe(&"é".repeat(120), 1.0), Err(Refusal::NotARecipe));
    assert_eq!(recipe(&"é".repeat(121), 1.0), Err(Refusal::TooLong));
}

#[test]
fn parentheses_go_16_deep_at_most() {
    let nested = |open: &str, deep: usize| open.repeat(deep) + "x" + &")".repeat(deep);
    for deep in 0..=100 {
        assert_eq!(answered(nested("(", deep), SIGN), if deep > 16 { Err(14) } else { Ok(SIGN) }, "{deep} deep");
    }
    for (name, op) in NAMES {
        let open = format!("{name}(");
        let due = (0..16).try_fold(ONE, |x, _| call(op.number(), x, 0)).map_err(Refusal::number);
        assert_eq!(answered(nested(&open, 16), ONE), due, "{name}");
        assert_eq!(answered(nested(&open, 17), ONE), Err(14), "{name}");
    }
    // side by side they are no deeper
    assert_eq!(answered(format!("(x){}", "+((x))".repeat(30)), ONE), value(31.0));
    // by their bytes, in a recipe or not, and over the beginnings alone
    for (start, opens, end, due) in [
        ("", 16, "", 15),
        ("", 17, "", 14),
        (")", 17, "", 15),
        (")", 18, "", 14),
        ("))))", 20, "", 15),
        ("))))", 21, "", 14),
        ("x", 17, "", 14),
        (" \0", 17, ")", 14),
        ("sqrt(bf800000)+", 16, "y", 15),
        ("sqrt(bf800000)+", 17, "y", 14),
        ("", 17, ")))))))))))))))))", 14),
        ("(x)", 16, "", 15),
        ("(x)", 17, "", 14),
        ("((((((((x))))))))", 16, "", 15),
        ("((((((((x)))))))", 16, "", 14),
    ] {
        assert_eq!(answered(format!("{start}{}{end}", "(".repeat(opens)), ONE), Err(due), "{start:?} {opens} {end:?}");
    }
}

/// Lines that are not of the grammar, each beside one that is.
const WRONG: [(&str, &str); 34] = [
    ("xx", "x"),
    ("x(x)", "x*(x)"),
    ("(x)(x)", "(x)*(x)"),
    ("(x", "(x)"),
    ("x)", "(x)"),
    ("()", "(x)"),
    (")x(", "(x)"),
    ("+x", "x+x"),
    ("-x", "x-x"),
    ("*x", "x*x"),
    ("x/", "x/x"),
    ("x+-x", "x+(x-x)"),
    ("x*-x", "x*(x-x)"),
    ("x**x", "x*x"),
    ("(x+)x", "(x+x)"),
    ("x +x", "x+x"),
    ("x\t", "x"),
    ("x\r", "x"),
    ("x\n", "x"),
    ("x\nx", "x"),
    ("x\0", "x"),
    ("X", "x"),
    ("x,x", "x-x"),
    ("3f80000", "3f800000"),
    ("3f8000000", "3f800000"),
    ("3f8000003f800000", "3f800000+3f800000"),
    ("3F800000", "3f800000"),
    ("3f80000g", "3f80000f"),
    ("0x3f800000", "3f800000"),
    ("3f800000x", "3f800000*x"),
    ("x3f800000", "x*3f800000"),
    ("invinv(x)", "inv(inv(x))"),
    ("inv(x)sqrt(x)", "invsqrt(x)"),
    ("tan(x)", "atan(x)"),
];

#[test]
fn what_is_not_of_the_grammar_is_no_recipe() {
    for (wrong, right) in WRONG {
        assert_eq!(answered(wrong, ONE), Err(15), "{wrong:?}");
        assert!(answered(right, ONE).is_ok(), "{right:?}");
    }
    let others = "trunc fract ceil round abs copysign signum powi powf atan2 hypot asin acos tan rem_euclid div_euclid";
    for other in others.split(' ') {
        assert_eq!(answered(format!("{other}(x)"), 0x3f00_0000), Err(15), "{other}");
    }
}

/// A recipe with every byte of the grammar.
const EVERY: &[u8] = b"(sqrt(x)+invsqrt(x)-inv(x))*recip(x)/exp(x)+ln(x)-atan(x)*cos(x)/sin(x)+floor(x)-01234567*89abcdef";

#[test]
fn no_other_byte_stands_anywhere() {
    for byte in (0..=255).filter(|byte| !EVERY.contains(byte)) {
        for at in 0..EVERY.len() {
            let (before, after) = EVERY.split_at(at);
            for rest in [after, &after[1..]] {
                assert_eq!(answered([before, &[byte], rest].concat(), ONE), Err(15), "{byte:02x} at {at}");
            }
        }
        assert_eq!(answered([EVERY, &[byte]].concat(), ONE), Err(15), "{byte:02x} at the end");
    }
}

#[test]
fn what_stands_behind_a_line_is_not_read() {
    let count = |part: &[u8], byte: u8| part.iter().filter(|&&b| b == byte).count();
    for end in 0..=EVERY.len() {
        let part = &EVERY[..end];
        let ended = [&b")"[..], b"01234567", b"89abcdef"].iter().any(|factor| part.ends_with(factor));
        let due = ended && count(part, b'(') == count(part, b')');
        assert_eq!(answered(part, ONE).is_ok(), due, "the first {end} bytes");
    }
}

#[test]
fn of_up_to_three_bytes_six_lines_are_recipes() {
    let bytes: BTreeSet<u8> = EVERY.iter().copied().collect();
    let (mut lines, mut recipes) = (vec![String::new()], Vec::new());
    for _ in 0..3 {
        lines = lines.iter().flat_map(|line| bytes.iter().map(move |&byte| format!("{line}{}", byte as char))).collect();
        recipes.extend(lines.iter().filter(|line| answered(line, ONE) != Err(15)).cloned());
    }
    assert_eq!(recipes, ["x", "(x)", "x*x", "x+x", "x-x", "x/x"]);
}

#[test]
fn the_three_refusals_of_a_recipe_say_what_they_are() {
    let said = [Refusal::TooLong, Refusal::TooDeep, Refusal::NotARecipe].map(|refusal| (refusal.number(), refusal.to_string()));
    assert_eq!(said[0], (13, "refusal 13: the recipe has more than 240 bytes".into()));
    assert_eq!(said[1], (14, "refusal 14: the recipe's parentheses go more than 16 deep".into()));
    assert_eq!(said[2], (15, "refusal 15: the line is no recipe".into()));
}
