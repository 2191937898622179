//! The flat records of numbers that the programs hand over, as the Rust's structs and back.

use crate::dynamics::solver::joint_constraint::{JointConstraint, WritebackId, blank};
use crate::dynamics::solver::solver_body::{SolverPose, SolverVel};
use crate::dynamics::{
    GenericJoint, ImpulseJoint, ImpulseJointHandle, IntegrationParameters, JointAxesMask,
    JointEnabled, JointGraphEdge, JointLimits, JointMotor, MotorModel, RigidBodyHandle,
    SpringCoefficients,
};
use crate::math::{Pose, Real, Rotation, SpatialVector, Vector};

/// dt, `length_unit`, `normalized_max_corrective_velocity`.
pub const SETTINGS: usize = 3;
/// Pose re, im, x, y; inverse inertia; inverse mass x, y.
pub const BODY: usize = 7;
/// Locked, limit, motor and coupled mask; motor models of axes 0, 1, 2.
pub const JOINT_WORDS: usize = 7;
/// Of a joint of a model: two bodies before these; after them `JointEnabled`, then how its centre is typed, which is not looked at here (the
/// centre comes as cosine and sine), and its first row, which is not looked at either (the Rust counts its own).
pub const MODEL_WORDS: usize = 2 + JOINT_WORDS + 3;
/// Frames 1 and 2 (re, im, x, y each); limits of axes 0, 1, 2 (min, max, impulse each); motors
/// of axes 0, 1, 2 (`target_vel`, `target_pos`, stiffness, damping, `max_force`, impulse each);
/// `natural_frequency`, `damping_ratio`; Dof impulses 0, 1, 2; centre (cosine, sine).
pub const JOINT: usize = 42;
/// Linear x, y, angular.
pub const VEL: usize = 3;
/// `JointConstraint`'s numbers in the order of their declaration.
pub const ROW: usize = 18;

/// The world: identity pose, inverse masses and inertia zero.
pub const WORLD: [Real; BODY] = [1.0, 0.0, 0.0, 0.0, 0.0, 0.0, 0.0];

pub(crate) fn settings(n: &[Real]) -> IntegrationParameters {
    IntegrationParameters {
        dt: n[0],
        length_unit: n[1],
        normalized_max_corrective_velocity: n[2],
        ..Default::default()
    }
}

fn pose(n: &[Real]) -> Pose {
    Pose::from_parts(Vector::new(n[2], n[3]), Rotation { re: n[0], im: n[1] })
}

pub(crate) fn body(n: &[Real]) -> SolverPose<Real> {
    let at = pose(n);
    SolverPose {
        rotation: at.rotation,
        translation: at.translation,
        ii: n[4],
        im: Vector::new(n[5], n[6]),
        padding: [0.0],
    }
}

pub(crate) fn vel(n: &[Real]) -> SolverVel<Real> {
    let mut vel = SolverVel::zero();
    vel.linear = Vector::new(n[0], n[1]);
    vel.angular = n[2];
    vel
}

pub(crate) fn put_vel(vel: &SolverVel<Real>, n: &mut [Real]) {
    n.copy_from_slice(&[vel.linear.x, vel.linear.y, vel.angular]);
}

/// The joint without its centre, which has no place in the Rust's struct. `bodies` are the
/// solver bodies' numbers, u32::MAX for the world.
pub(crate) fn joint(words: &[u32], n: &[Real], bodies: [u32; 2]) -> JointGraphEdge {
    let mask = |i: usize| JointAxesMask::from_bits(words[i] as u8).unwrap();
    let limit = |i: usize| JointLimits {
        min: n[8 + 3 * i],
        max: n[9 + 3 * i],
        impulse: n[10 + 3 * i],
    };
    let motor = |i: usize| JointMotor {
        target_vel: n[17 + 6 * i],
        target_pos: n[18 + 6 * i],
        stiffness: n[19 + 6 * i],
        damping: n[20 + 6 * i],
        max_force: n[21 + 6 * i],
        impulse: n[22 + 6 * i],
        model: model(words[4 + i]),
    };
    let data = GenericJoint {
        local_frame1: pose(&n[0..4]),
        local_frame2: pose(&n[4..8]),
        locked_axes: mask(0),
        limit_axes: mask(1),
        motor_axes: mask(2),
        coupled_axes: mask(3),
        limits: core::array::from_fn(limit),
        motors: core::array::from_fn(motor),
        softness: SpringCoefficients {
            natural_frequency: n[35],
            damping_ratio: n[36],
        },
        ..Default::default()
    };
    JointGraphEdge {
        weight: ImpulseJoint {
            body1: RigidBodyHandle,
            body2: RigidBodyHandle,
            data,
            impulses: SpatialVector([n[37], n[38], n[39]]),
            handle: ImpulseJointHandle,
            solver_body_ids: bodies,
            solver_color: 0,
        },
    }
}

/// The Rust's `JointEnabled` in the order of its declaration; every other word is `Disabled`.
pub(crate) fn enabled(word: u32) -> JointEnabled {
    match word {
        0 => JointEnabled::Enabled,
        1 => JointEnabled::DisabledByAttachedBody,
        _ => JointEnabled::Disabled,
    }
}

/// The stored impulses back into the joint's numbers.
pub(crate) fn put_impulses(edge: &JointGraphEdge, n: &mut [Real]) {
    for i in 0..3 {
        n[10 + 3 * i] = edge.weight.data.limits[i].impulse;
        n[22 + 6 * i] = edge.weight.data.motors[i].impulse;
        n[37 + i] = edge.weight.impulses[i];
    }
}

/// (cosine, sine)
pub(crate) fn centre(n: &[Real]) -> (Real, Real) {
    (n[40], n[41])
}

pub(crate) fn model(word: u32) -> MotorModel {
    match word {
        0 => MotorModel::AccelerationBased,
        _ => MotorModel::ForceBased,
    }
}

/// The row that the numbers say; its bodies, joint and id are blank.
pub(crate) fn row(n: &[Real]) -> JointConstraint<Real, 1> {
    JointConstraint {
        impulse: n[0],
        impulse_bounds: [n[1], n[2]],
        lin_jac: Vector::new(n[3], n[4]),
        ang_jac1: n[5],
        ang_jac2: n[6],
        ii_ang_jac1: n[7],
        ii_ang_jac2: n[8],
        inv_lhs: n[9],
        rhs: n[10],
        rhs_wo_bias: n[11],
        cfm_gain: n[12],
        cfm_coeff: n[13],
        im1: Vector::new(n[14], n[15]),
        im2: Vector::new(n[16], n[17]),
        ..blank()
    }
}

pub(crate) fn put_row(row: &JointConstraint<Real, 1>, n: &mut [Real]) {
    n.copy_from_slice(&[
        row.impulse,
        row.impulse_bounds[0],
        row.impulse_bounds[1],
        row.lin_jac.x,
        row.lin_jac.y,
        row.ang_jac1,
        row.ang_jac2,
        row.ii_ang_jac1,
        row.ii_ang_jac2,
        row.inv_lhs,
        row.rhs,
        row.rhs_wo_bias,
        row.cfm_gain,
        row.cfm_coeff,
        row.im1.x,
        row.im1.y,
        row.im2.x,
        row.im2.y,
    ]);
}

/// 4·kind + axis; kind 0 is Dof, 1 Limit, 2 Motor.
pub(crate) fn id(word: u32) -> WritebackId {
    let axis = (word % 4) as usize;
    match word / 4 {
        0 => WritebackId::Dof(axis),
        1 => WritebackId::Limit(axis),
        2 => WritebackId::Motor(axis),
        _ => panic!("no such id"),
    }
}

pub(crate) fn id_word(id: WritebackId) -> u32 {
    match id {
        WritebackId::Dof(axis) => axis as u32,
        WritebackId::Limit(axis) => 4 + axis as u32,
        WritebackId::Motor(axis) => 8 + axis as u32,
        WritebackId::Friction(_) => panic!("friction rows are no joint's"),
    }
}
