//! The cross matrix of a vector; of a planar one it is itself a vector.

#[cfg(feature = "dim3")]
use crate::math::Matrix;
use crate::math::{SimdReal, SimdVector, Vector};

/// The matrix of the cross product with a vector.
pub trait CrossProductMatrix {
    type CrossMat;
    type CrossMatTr;
    fn gcross_matrix(self) -> Self::CrossMat;
}

#[cfg(feature = "dim2")]
type Cross = Vector;
#[cfg(feature = "dim3")]
type Cross = Matrix;

impl CrossProductMatrix for Vector {
    type CrossMat = Cross;
    type CrossMatTr = Cross;
    fn gcross_matrix(self) -> Cross {
        self.cross_matrix()
    }
}

#[cfg(feature = "dim2")]
type LaneCross = SimdVector<SimdReal>;
#[cfg(feature = "dim3")]
type LaneCross = crate::math::SimdMatrix<SimdReal>;

impl CrossProductMatrix for SimdVector<SimdReal> {
    type CrossMat = LaneCross;
    type CrossMatTr = LaneCross;
    fn gcross_matrix(self) -> LaneCross {
        unreachable!("the lane form is left out")
    }
}
