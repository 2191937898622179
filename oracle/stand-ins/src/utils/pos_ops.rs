//! The two parts of a pose.

use crate::math::{Pose, Real, Rotation, SimdPose, SimdReal, SimdRotation, SimdVector, Vector};
use crate::utils::ScalarType;

/// The two parts of a pose.
pub trait PoseOps<N: ScalarType> {
    fn rotation(&self) -> N::Rotation;
    fn translation(&self) -> N::Vector;
    fn set_translation(&mut self, translation: N::Vector);
}

impl PoseOps<Real> for Pose {
    fn rotation(&self) -> Rotation {
        self.rotation
    }
    fn translation(&self) -> Vector {
        self.translation
    }
    fn set_translation(&mut self, translation: Vector) {
        self.translation = translation
    }
}

impl PoseOps<SimdReal> for SimdPose<SimdReal> {
    fn rotation(&self) -> SimdRotation<SimdReal> {
        unreachable!("the lane form is left out")
    }
    fn translation(&self) -> SimdVector<SimdReal> {
        unreachable!("the lane form is left out")
    }
    fn set_translation(&mut self, _: SimdVector<SimdReal>) {
        unreachable!("the lane form is left out")
    }
}
