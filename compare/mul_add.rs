//! In the place of the crate's `mul_add`, which no kernel here needs. As a module below `float` it can also hand out the
//! helpers that the crate keeps to itself, and acos, which it keeps too.

pub mod helpers {
    use super::super::F32;

    pub fn exponent_bits(x: F32) -> u32 {
        x.extract_exponent_bits()
    }

    pub fn exponent_value(x: F32) -> i32 {
        x.extract_exponent_value()
    }

    pub fn without_sign(x: F32) -> F32 {
        x.without_sign()
    }

    pub fn set_exponent(x: F32, exponent: i32) -> F32 {
        x.set_exponent(exponent)
    }

    pub fn is_integer(x: F32) -> bool {
        x.is_integer()
    }

    pub fn is_even(x: F32) -> bool {
        x.is_even()
    }

    pub fn acos(x: F32) -> F32 {
        x.acos()
    }
}
