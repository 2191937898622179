//! The product of two vectors, component by component.

use crate::math::{SimdReal, SimdVector, Vector};

/// The product component by component.
pub trait ComponentMul {
    fn component_mul(&self, rhs: &Self) -> Self;
}

impl ComponentMul for Vector {
    fn component_mul(&self, rhs: &Vector) -> Vector {
        self.each(*rhs)
    }
}

impl ComponentMul for SimdVector<SimdReal> {
    fn component_mul(&self, _: &Self) -> Self {
        unreachable!("the lane form is left out")
    }
}
