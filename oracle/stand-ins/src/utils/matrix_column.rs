//! The columns of a matrix.

use crate::math::{Matrix, SimdMatrix, SimdReal, SimdVector, Vector};

/// The columns of a matrix.
pub trait MatrixColumn {
    type Column;
    fn column(&self, i: usize) -> Self::Column;
}

impl MatrixColumn for Matrix {
    type Column = Vector;
    fn column(&self, i: usize) -> Vector {
        self.col(i)
    }
}

impl MatrixColumn for SimdMatrix<SimdReal> {
    type Column = SimdVector<SimdReal>;
    fn column(&self, _: usize) -> SimdVector<SimdReal> {
        unreachable!("the lane form is left out")
    }
}
