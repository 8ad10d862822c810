//! The specification's refusals 1, 2, 9, 3, 4 and 5, from its words and by the values of the operands. Nothing here is taken from
//! the library, whose own table has the gates as bit patterns.

use micromath::F32;

/// What the guarded form of one kernel refuses, and where its answer is not the crate's.
#[derive(Clone, Copy)]
pub struct Gate {
    /// The second operand is a float too.
    two_floats: bool,
    /// A first operand that is a zero is refused.
    no_zero: bool,
    /// A first operand is refused that is no zero and nearer to it than every normal number.
    no_small: bool,
    /// A first operand below 0 is refused.
    no_sign: bool,
    /// A first operand that is a zero is its own answer.
    keeps_zero: bool,
    /// Whether two finite operands are within the operation's gate.
    within: fn(f32, f32) -> bool,
    /// The second operand is powi's power.
    power: bool,
}

const fn two_to(k: i32) -> f32 {
    if k < 0 {
        1.0 / two_to(-k)
    } else {
        (1u128 << k) as f32
    }
}

fn exp_takes(x: f32) -> bool {
    (-87.0..=88.0).contains(&x)
}

/// powi's powers reach from -`MOST_POWER` to `MOST_POWER`.
const MOST_POWER: i32 = 1_048_576;

/// The magnitudes about which a refusal begins or ends, for one kernel or another. The stored list's random words are made from
/// them, so that they stay as they are: atan2 and hypot once ended at 2^60, and cos, sin and tan at 1024. 2^62 and 256, at which
/// these end now, and 1, at which asin and acos end, are edges anyway.
pub const ENDS: [f32; 15] =
    [0.0, f32::MIN_POSITIVE, two_to(-60), 0.5, 87.0, 88.0, 1024.0, two_to(23), two_to(31), two_to(32), two_to(60), two_to(64), two_to(125), two_to(126), f32::INFINITY];

/// The powers about which refusal 5 begins or ends, and 0.
pub const POWER_ENDS: [i32; 4] = [0, MOST_POWER, -MOST_POWER, i32::MIN];

impl Gate {
    /// The gate of the kernel with this name.
    pub fn of(name: &str) -> Gate {
        Gate {
            two_floats: ["copysign", "powf", "atan2", "hypot", "rem_euclid", "div_euclid"].contains(&name),
            no_zero: ["invsqrt", "inv", "recip", "ln", "powi", "powf"].contains(&name),
            no_small: ["sqrt", "invsqrt", "inv", "recip", "ln", "powi", "powf"].contains(&name),
            no_sign: ["sqrt", "invsqrt", "ln", "powf"].contains(&name),
            keeps_zero: name == "sqrt",
            within: match name {
                "trunc" | "fract" => |x, _| x.abs() < two_to(32),
                "floor" | "ceil" => |x, _| x.abs() <= two_to(31),
                "round" => |x, _| x.abs() < two_to(23) && x.abs().to_bits() != 0x3eff_ffff,
                "inv" => |x, _| x.abs() <= two_to(126),
                "recip" => |x, _| x.abs() <= two_to(125),
                "exp" => |x, _| exp_takes(x),
                "powf" => |x, n| exp_takes(n * F32(x).ln().0),
                "atan" | "atan_norm" => |x, _| x.abs() < two_to(64),
                "atan2" | "hypot" => |y, x| (two_to(-60)..=two_to(62)).contains(&y.abs().max(x.abs())),
                "cos" | "sin" => |x, _| x.abs() <= 256.0,
                "asin" => |x, _| x.abs() < 1.0,
                "acos" => |x, _| x == 0.0 || (two_to(-60)..1.0).contains(&x.abs()),
                // the cosine of the operand and not of its magnitude: it is 0 at bfc90fda and not at 3fc90fda
                "tan" => |x, _| x.abs() <= 256.0 && F32(x).cos().0 != 0.0,
                "rem_euclid" | "div_euclid" => |x, y| y != 0.0 && (x / y).abs() < two_to(23),
                _ => |_, _| true,
            },
            power: name == "powi",
        }
    }

    /// The first of the refusals that holds of these words, or 0.
    #[inline(always)]
    pub fn refusal(&self, a: u32, b: u32) -> u64 {
        let (x, y) = (f32::from_bits(a), f32::from_bits(b));
        if !x.is_finite() || self.two_floats && !y.is_finite() {
            1
        } else if self.no_zero && x == 0.0 {
            2
        } else if self.no_small && x.is_subnormal() {
            9
        } else if self.no_sign && x < 0.0 {
            3
        } else if !(self.within)(x, y) {
            4
        } else if self.power && !(-MOST_POWER..=MOST_POWER).contains(&(b as i32)) {
            5
        } else {
            0
        }
    }

    /// Whether the answer to this first word is the word itself, and not the crate's.
    #[inline(always)]
    pub fn keeps(&self, a: u32) -> bool {
        self.keeps_zero && f32::from_bits(a) == 0.0
    }
}
