//! Bases are asked for by `ScalarType`'s bounds and by the joint constructors alone.

use crate::math::{SimdReal, SimdVector, Vector};
use crate::utils::DIM_MINUS_ONE;

/// A basis of what is orthogonal to a vector.
pub trait OrthonormalBasis: Sized {
    type Basis;
    fn orthonormal_basis(self) -> Self::Basis;
}

impl OrthonormalBasis for Vector {
    type Basis = [Vector; DIM_MINUS_ONE];
    fn orthonormal_basis(self) -> [Vector; DIM_MINUS_ONE] {
        unreachable!("no row completes a basis")
    }
}

impl OrthonormalBasis for SimdVector<SimdReal> {
    type Basis = [Self; DIM_MINUS_ONE];
    fn orthonormal_basis(self) -> [Self; DIM_MINUS_ONE] {
        unreachable!("the lane form is left out")
    }
}
