//! One joint's rows: how many they are, and what soft bodies would take from them.

mod joint_constraint_builder;
mod joint_constraint_helper;
mod joint_velocity_constraint;

pub(crate) use joint_constraint_builder::JointConstraintBuilder;
pub(crate) use joint_constraint_helper::{AngularLimitParams, JointConstraintHelper};
pub(crate) use joint_velocity_constraint::{
    JointConstraint, JointSolverBody, MotorParameters, WritebackId,
};

use crate::dynamics::{GenericJoint, ImpulseJoint, IntegrationParameters, RigidBody};
use crate::math::{ANG_DIM, Pose, Real};

/// The most rows that one joint makes: in space without coupled axes, and with limits and motors on linear axes alone.
#[cfg(feature = "dim2")]
pub(crate) const MAX_ROWS: usize = 6;
#[cfg(feature = "dim3")]
pub(crate) const MAX_ROWS: usize = 9;

/// A row before anything is built in it.
pub(crate) fn blank() -> JointConstraint<Real, 1> {
    JointConstraint {
        solver_vel1: [u32::MAX],
        solver_vel2: [u32::MAX],
        joint_id: [0],
        impulse: 0.0,
        impulse_bounds: [0.0; 2],
        lin_jac: Default::default(),
        ang_jac1: Default::default(),
        ang_jac2: Default::default(),
        ii_ang_jac1: Default::default(),
        ii_ang_jac2: Default::default(),
        inv_lhs: 0.0,
        rhs: 0.0,
        rhs_wo_bias: 0.0,
        cfm_gain: 0.0,
        cfm_coeff: 0.0,
        im1: Default::default(),
        im2: Default::default(),
        writeback_id: WritebackId::Friction(0),
    }
}

/// `update` on the joint, between two bodies at the origin: the rows that it makes, and their
/// count.
pub(crate) fn tried(joint: &GenericJoint) -> ([JointConstraint<Real, 1>; MAX_ROWS], usize) {
    let limit = AngularLimitParams {
        center: [1.0, 0.0],
        half_range: 10.0,
    };
    let mut rows = [blank(); MAX_ROWS];
    let count = JointConstraint::<Real, 1>::update(
        &IntegrationParameters::default(),
        0,
        &JointSolverBody::invalid(),
        &JointSolverBody::invalid(),
        &Pose::IDENTITY,
        &Pose::IDENTITY,
        joint,
        &[limit; ANG_DIM],
        &mut rows,
    );
    (rows, count)
}

/// The count that `update` returns.
pub(crate) fn joint_data_num_constraints(joint: &GenericJoint) -> usize {
    tried(joint).1
}

/// The lane form's name for it.
pub(crate) fn joint_num_constraints(joint: &ImpulseJoint) -> usize {
    joint_data_num_constraints(&joint.data)
}

/// Soft bodies are left out, so no axis is taken from a joint.
pub(crate) fn strip_soft_frame_angular_axes(_: &mut GenericJoint, _: &RigidBody, _: &RigidBody) {}
