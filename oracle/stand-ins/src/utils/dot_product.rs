//! Dot products and lengths.

use crate::math::{Real, SimdReal, SimdVector, Vector};
use simba::simd::SimdRealField;

/// The dot product.
pub trait DotProduct<Rhs>: Sized + Copy {
    type Result;
    fn gdot(&self, rhs: Rhs) -> Self::Result;
}

/// A vector's length.
pub trait SimdLength {
    type Result;
    fn simd_length(&self) -> Self::Result;
}

/// A product for each component, summed from the left.
impl DotProduct<Vector> for Vector {
    type Result = Real;
    fn gdot(&self, rhs: Vector) -> Real {
        self.dot(rhs)
    }
}

/// Planar angular vectors are single numbers: one product.
impl DotProduct<Real> for Real {
    type Result = Real;
    fn gdot(&self, rhs: Real) -> Real {
        *self * rhs
    }
}

impl DotProduct<SimdVector<SimdReal>> for SimdVector<SimdReal> {
    type Result = SimdReal;
    fn gdot(&self, _: Self) -> SimdReal {
        unreachable!("the lane form is left out")
    }
}

impl DotProduct<SimdReal> for SimdReal {
    type Result = SimdReal;
    fn gdot(&self, _: SimdReal) -> SimdReal {
        unreachable!("the lane form is left out")
    }
}

/// The root of the dot with itself.
impl<N: SimdRealField, V: DotProduct<V, Result = N>> SimdLength for V {
    type Result = N;
    fn simd_length(&self) -> N {
        self.gdot(*self).simd_sqrt()
    }
}
