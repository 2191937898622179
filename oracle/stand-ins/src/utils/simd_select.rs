//! Whole vectors are selected by the lane form alone.

use crate::math::{Real, SimdReal, SimdVector, Vector};

/// Named by the Rust, used by no scalar row.
pub trait SimdSelect<N> {}

impl SimdSelect<Real> for Vector {}
impl SimdSelect<SimdReal> for SimdVector<SimdReal> {}
