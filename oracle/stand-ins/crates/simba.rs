//! The scalar traits that the Rust takes from simba: f32 by document 01's stand-ins, and a lane
//! type that only has to exist. The Rust's lane branches compile over it and are never run: each
//! of its operations stops the program.
#![no_std]

pub mod simd {
    use core::fmt::Debug;
    use core::ops::{
        Add, AddAssign, BitAnd, BitOr, Div, DivAssign, Mul, MulAssign, Neg, Not, Sub, SubAssign,
    };
    use num_traits::{One, Zero};

    pub trait SimdValue: Sized {
        const LANES: usize;
        type Element;
        type SimdBool: Copy
            + BitAnd<Output = Self::SimdBool>
            + BitOr<Output = Self::SimdBool>
            + Not<Output = Self::SimdBool>;
        fn splat(value: Self::Element) -> Self;
        fn extract(&self, lane: usize) -> Self::Element;
        fn replace(&mut self, lane: usize, value: Self::Element);
        /// This where `condition` holds, else `other`.
        fn select(self, condition: Self::SimdBool, other: Self) -> Self;
    }

    pub trait SimdPartialOrd: SimdValue {
        fn simd_gt(self, other: Self) -> Self::SimdBool;
        fn simd_ge(self, other: Self) -> Self::SimdBool;
        fn simd_lt(self, other: Self) -> Self::SimdBool;
        fn simd_le(self, other: Self) -> Self::SimdBool;
        fn simd_eq(self, other: Self) -> Self::SimdBool;
        fn simd_ne(self, other: Self) -> Self::SimdBool;
        fn simd_max(self, other: Self) -> Self;
        fn simd_min(self, other: Self) -> Self;
        fn simd_clamp(self, min: Self, max: Self) -> Self;
    }

    pub trait SimdRealField:
        SimdPartialOrd
        + Debug
        + PartialEq
        + Zero
        + One
        + Neg<Output = Self>
        + Add<Output = Self>
        + Sub<Output = Self>
        + Mul<Output = Self>
        + Div<Output = Self>
        + AddAssign
        + SubAssign
        + MulAssign
        + DivAssign
    {
        fn simd_abs(self) -> Self;
        fn simd_signum(self) -> Self;
        fn simd_two_pi() -> Self;
        /// The correctly rounded root.
        fn simd_sqrt(self) -> Self;
        /// `im.simd_atan2(re)`: the angle of (re, im).
        fn simd_atan2(self, other: Self) -> Self;
        fn simd_copysign(self, sign: Self) -> Self;
        /// Asked for by angular motors in space, which no joint has.
        fn simd_asin(self) -> Self;
    }

    impl SimdValue for f32 {
        const LANES: usize = 1;
        type Element = f32;
        type SimdBool = bool;
        fn splat(value: f32) -> f32 {
            value
        }
        fn extract(&self, _: usize) -> f32 {
            *self
        }
        fn replace(&mut self, _: usize, value: f32) {
            *self = value
        }
        fn select(self, condition: bool, other: f32) -> f32 {
            if condition { self } else { other }
        }
    }

    impl SimdPartialOrd for f32 {
        fn simd_gt(self, other: f32) -> bool {
            self > other
        }
        fn simd_ge(self, other: f32) -> bool {
            self >= other
        }
        fn simd_lt(self, other: f32) -> bool {
            self < other
        }
        fn simd_le(self, other: f32) -> bool {
            self <= other
        }
        fn simd_eq(self, other: f32) -> bool {
            self == other
        }
        fn simd_ne(self, other: f32) -> bool {
            self != other
        }
        fn simd_max(self, other: f32) -> f32 {
            leaf::max(self, other)
        }
        fn simd_min(self, other: f32) -> f32 {
            leaf::min(self, other)
        }
        fn simd_clamp(self, min: f32, max: f32) -> f32 {
            leaf::clamp(self, min, max)
        }
    }

    impl SimdRealField for f32 {
        fn simd_abs(self) -> f32 {
            leaf::abs(self)
        }
        fn simd_signum(self) -> f32 {
            leaf::signum(self)
        }
        fn simd_two_pi() -> f32 {
            f32::from_bits(0x40C9_0FDB)
        }
        fn simd_sqrt(self) -> f32 {
            leaf::sqrt(self)
        }
        fn simd_atan2(self, other: f32) -> f32 {
            leaf::angle(other, self)
        }
        fn simd_copysign(self, sign: f32) -> f32 {
            leaf::copysign(self, sign)
        }
        fn simd_asin(self) -> f32 {
            unreachable!("no spatial joint has an angular motor")
        }
    }

    fn left_out() -> ! {
        unreachable!("the lane form is left out")
    }

    #[repr(transparent)]
    #[derive(Copy, Clone, Debug, Default, PartialEq)]
    pub struct WideF32x4(pub wide::f32x4);

    #[derive(Copy, Clone, Debug)]
    pub struct WideBoolF32x4;

    impl BitAnd for WideBoolF32x4 {
        type Output = Self;
        fn bitand(self, _: Self) -> Self {
            left_out()
        }
    }

    impl BitOr for WideBoolF32x4 {
        type Output = Self;
        fn bitor(self, _: Self) -> Self {
            left_out()
        }
    }

    impl Not for WideBoolF32x4 {
        type Output = Self;
        fn not(self) -> Self {
            left_out()
        }
    }

    macro_rules! lane_operator(
        ($($Trait: ident $method: ident $Assign: ident $assign: ident,)*) => {$(
            impl $Trait for WideF32x4 {
                type Output = Self;
                fn $method(self, _: Self) -> Self {
                    left_out()
                }
            }
            impl $Assign for WideF32x4 {
                fn $assign(&mut self, _: Self) {
                    left_out()
                }
            }
        )*}
    );
    lane_operator!(
        Add add AddAssign add_assign,
        Sub sub SubAssign sub_assign,
        Mul mul MulAssign mul_assign,
        Div div DivAssign div_assign,
    );

    impl Neg for WideF32x4 {
        type Output = Self;
        fn neg(self) -> Self {
            left_out()
        }
    }

    impl Zero for WideF32x4 {
        fn zero() -> Self {
            left_out()
        }
    }

    impl One for WideF32x4 {
        fn one() -> Self {
            left_out()
        }
    }

    impl From<[f32; 4]> for WideF32x4 {
        fn from(_: [f32; 4]) -> Self {
            left_out()
        }
    }

    impl From<WideF32x4> for [f32; 4] {
        fn from(_: WideF32x4) -> Self {
            left_out()
        }
    }

    impl SimdValue for WideF32x4 {
        const LANES: usize = 4;
        type Element = f32;
        type SimdBool = WideBoolF32x4;
        fn splat(_: f32) -> Self {
            left_out()
        }
        fn extract(&self, _: usize) -> f32 {
            left_out()
        }
        fn replace(&mut self, _: usize, _: f32) {
            left_out()
        }
        fn select(self, _: WideBoolF32x4, _: Self) -> Self {
            left_out()
        }
    }

    macro_rules! lane_method(
        ($($name: ident ($($parameter: ty),*) -> $Result: ty,)*) => {$(
            fn $name(self $(, _: $parameter)*) -> $Result {
                left_out()
            }
        )*}
    );

    impl SimdPartialOrd for WideF32x4 {
        lane_method!(
            simd_gt(Self) -> WideBoolF32x4,
            simd_ge(Self) -> WideBoolF32x4,
            simd_lt(Self) -> WideBoolF32x4,
            simd_le(Self) -> WideBoolF32x4,
            simd_eq(Self) -> WideBoolF32x4,
            simd_ne(Self) -> WideBoolF32x4,
            simd_max(Self) -> Self,
            simd_min(Self) -> Self,
            simd_clamp(Self, Self) -> Self,
        );
    }

    impl SimdRealField for WideF32x4 {
        lane_method!(
            simd_abs() -> Self,
            simd_signum() -> Self,
            simd_sqrt() -> Self,
            simd_atan2(Self) -> Self,
            simd_copysign(Self) -> Self,
            simd_asin() -> Self,
        );
        fn simd_two_pi() -> Self {
            left_out()
        }
    }
}

pub mod scalar {
    use core::sync::atomic::{AtomicU64, Ordering};

    /// No centre has been handed over.
    const NONE: u64 = u64::MAX;
    static CENTRE: AtomicU64 = AtomicU64::new(NONE);

    /// Hands over the caller's centre (cosine, sine) for the next `sin_cos`.
    pub fn hand_over_centre(cosine: f32, sine: f32) {
        CENTRE.store(
            (cosine.to_bits() as u64) << 32 | sine.to_bits() as u64,
            Ordering::SeqCst,
        );
    }

    /// Takes back a centre that no `sin_cos` has used; says whether there was one.
    pub fn take_back_centre() -> bool {
        CENTRE.swap(NONE, Ordering::SeqCst) != NONE
    }

    pub trait ComplexField: Sized {
        /// (sine, cosine). `AngularLimitParams::new` is the one place that asks; it gets the
        /// centre that the caller handed over, once, whatever angle it asks for.
        fn sin_cos(self) -> (Self, Self);
    }

    impl ComplexField for f32 {
        fn sin_cos(self) -> (f32, f32) {
            let centre = CENTRE.swap(NONE, Ordering::SeqCst);
            assert!(centre != NONE, "no centre was handed over");
            (
                f32::from_bits(centre as u32),
                f32::from_bits((centre >> 32) as u32),
            )
        }
    }
}
