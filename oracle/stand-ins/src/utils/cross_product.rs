//! The cross products are asked for by `ScalarType`'s bounds alone.

use crate::math::{AngVector, Real, SimdAngVector, SimdReal, SimdVector, Vector};

/// The cross product.
pub trait CrossProduct<Rhs> {
    type Result;
    fn gcross(&self, rhs: Rhs) -> Self::Result;
}

macro_rules! unused(
    ($($Left: ty, $Right: ty, $Result: ty;)*) => {$(
        impl CrossProduct<$Right> for $Left {
            type Result = $Result;
            fn gcross(&self, _: $Right) -> $Result {
                unreachable!("no row takes a cross product")
            }
        }
    )*}
);
unused!(
    Real, Vector, Vector;
    Vector, Vector, AngVector;
    SimdReal, SimdVector<SimdReal>, SimdVector<SimdReal>;
    SimdVector<SimdReal>, SimdVector<SimdReal>, SimdAngVector<SimdReal>;
);
