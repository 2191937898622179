//! The names that the Rust takes from num-traits.
#![no_std]

pub trait Zero: Sized {
    fn zero() -> Self;
}

pub trait One: Sized {
    fn one() -> Self;
}

#[allow(non_snake_case)]
pub trait FloatConst {
    fn PI() -> Self;
    fn FRAC_PI_2() -> Self;
}

impl Zero for f32 {
    fn zero() -> f32 {
        0.0
    }
}

impl One for f32 {
    fn one() -> f32 {
        1.0
    }
}

impl FloatConst for f32 {
    fn PI() -> f32 {
        f32::from_bits(0x4049_0FDB)
    }
    fn FRAC_PI_2() -> f32 {
        f32::from_bits(0x3FC9_0FDB)
    }
}
