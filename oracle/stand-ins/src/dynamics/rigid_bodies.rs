//! What the joint files name of rigid bodies. Frames arrive relative to each centre of mass, so
//! every body here has its centre of mass at its origin and is not fixed: `generate` then takes
//! zero from a frame's translation, which leaves each number as it is.

use crate::math::{AngVector, AngularInertia, Pose, Vector};

/// Any handle finds the same body.
#[derive(Copy, Clone, Debug, PartialEq)]
pub struct RigidBodyHandle;

pub struct RigidBodySet(pub RigidBody);

impl core::ops::Index<RigidBodyHandle> for RigidBodySet {
    type Output = RigidBody;
    fn index(&self, _: RigidBodyHandle) -> &RigidBody {
        &self.0
    }
}

pub struct RigidBody {
    pub(crate) pos: RigidBodyPosition,
    pub(crate) mprops: RigidBodyMassProps,
    pub(crate) vels: RigidBodyVelocity,
    pub(crate) ccd: RigidBodyCcd,
}

pub struct RigidBodyPosition {
    pub position: Pose,
}

#[derive(Default)]
pub struct RigidBodyMassProps {
    pub local_mprops: MassProperties,
    pub effective_inv_mass: Vector,
    pub effective_world_inv_inertia: AngularInertia,
}

#[derive(Default)]
pub struct MassProperties {
    pub local_com: Vector,
}

#[derive(Default)]
pub struct RigidBodyVelocity {
    pub linvel: Vector,
    pub angvel: AngVector,
}

#[derive(Default)]
pub struct RigidBodyCcd {
    pub allow_fast_rotation: bool,
}

impl RigidBody {
    pub fn is_fixed(&self) -> bool {
        false
    }

    pub fn is_dynamic_or_kinematic(&self) -> bool {
        unreachable!("solver bodies are given by their numbers")
    }

    pub fn is_sleeping(&self) -> bool {
        unreachable!("solver bodies are given by their numbers")
    }

    pub fn angvel(&self) -> AngVector {
        unreachable!("solver bodies are given by their numbers")
    }
}

impl Default for RigidBody {
    fn default() -> RigidBody {
        RigidBody {
            pos: RigidBodyPosition {
                position: Pose::IDENTITY,
            },
            mprops: Default::default(),
            vels: Default::default(),
            ccd: Default::default(),
        }
    }
}
