//! The flat records of numbers that the programs hand over, as the Rust's structs and back: in space.

use crate::dynamics::solver::joint_constraint::{JointConstraint, WritebackId, blank};
use crate::dynamics::solver::solver_body::{SolverPose, SolverVel};
use crate::dynamics::{
    GenericJoint, ImpulseJoint, ImpulseJointHandle, IntegrationParameters, JointAxesMask,
    JointEnabled, JointGraphEdge, JointLimits, JointMotor, MotorModel, RigidBodyHandle,
    SpringCoefficients,
};
use crate::math::{AngularInertia, DIM, Pose, Real, Rotation, SPATIAL_DIM, SpatialVector, Vector};

/// dt, `length_unit`, `normalized_max_corrective_velocity`.
pub const SETTINGS: usize = 3;
/// Rotation x, y, z, w; translation; inverse inertia m11, m12, m13, m22, m23, m33; inverse masses.
pub const BODY: usize = 16;
/// Locked, limit, motor and coupled mask; motor models of axes 0, 1, 2.
pub const JOINT_WORDS: usize = 7;
/// Of a joint of a model: two bodies before these, `JointEnabled` after them.
pub const MODEL_WORDS: usize = 2 + JOINT_WORDS + 1;
/// Frames 1 and 2 (rotation x, y, z, w, then translation); limits of axes 0, 1, 2 (min, max, impulse each); motors of
/// axes 0, 1, 2 (`target_vel`, `target_pos`, stiffness, damping, `max_force`, impulse each); `natural_frequency`, `damping_ratio`; Dof impulses 0 to 5.
pub const JOINT: usize = 49;
/// Linear, angular.
pub const VEL: usize = 6;
/// `JointConstraint`'s numbers in the order of their declaration.
pub const ROW: usize = 29;

/// The world: identity pose, inverse masses and inertia zero.
pub const WORLD: [Real; BODY] = [
    0.0, 0.0, 0.0, 1.0, 0.0, 0.0, 0.0, 0.0, 0.0, 0.0, 0.0, 0.0, 0.0, 0.0, 0.0, 0.0,
];

pub(crate) fn settings(n: &[Real]) -> IntegrationParameters {
    IntegrationParameters {
        dt: n[0],
        length_unit: n[1],
        normalized_max_corrective_velocity: n[2],
        ..Default::default()
    }
}

pub(crate) fn vector(n: &[Real]) -> Vector {
    Vector::new(n[0], n[1], n[2])
}

pub(crate) fn rotation(n: &[Real]) -> Rotation {
    Rotation {
        x: n[0],
        y: n[1],
        z: n[2],
        w: n[3],
    }
}

pub(crate) fn inertia(n: &[Real]) -> AngularInertia {
    AngularInertia {
        m11: n[0],
        m12: n[1],
        m13: n[2],
        m22: n[3],
        m23: n[4],
        m33: n[5],
    }
}

fn pose(n: &[Real]) -> Pose {
    Pose::from_parts(vector(&n[4..]), rotation(n))
}

pub(crate) fn body(n: &[Real]) -> SolverPose<Real> {
    let at = pose(n);
    SolverPose {
        rotation: at.rotation,
        translation: at.translation,
        ii: inertia(&n[7..]),
        im: vector(&n[13..]),
    }
}

pub(crate) fn vel(n: &[Real]) -> SolverVel<Real> {
    let mut vel = SolverVel::zero();
    vel.linear = vector(n);
    vel.angular = vector(&n[3..]);
    vel
}

fn three(v: Vector) -> [Real; 3] {
    [v.x, v.y, v.z]
}

pub(crate) fn put_vel(vel: &SolverVel<Real>, n: &mut [Real]) {
    n[..3].copy_from_slice(&three(vel.linear));
    n[3..].copy_from_slice(&three(vel.angular));
}

/// The joint; its angular axes have the Rust's default limits and motors, which no mask names. `bodies` are the
/// solver bodies' numbers, u32::MAX for the world.
pub(crate) fn joint(words: &[u32], n: &[Real], bodies: [u32; 2]) -> JointGraphEdge {
    let mask = |i: usize| JointAxesMask::from_bits(words[i] as u8).unwrap();
    let limit = |i: usize| match i < DIM {
        true => JointLimits {
            min: n[14 + 3 * i],
            max: n[15 + 3 * i],
            impulse: n[16 + 3 * i],
        },
        false => Default::default(),
    };
    let motor = |i: usize| match i < DIM {
        true => JointMotor {
            target_vel: n[23 + 6 * i],
            target_pos: n[24 + 6 * i],
            stiffness: n[25 + 6 * i],
            damping: n[26 + 6 * i],
            max_force: n[27 + 6 * i],
            impulse: n[28 + 6 * i],
            model: model(words[4 + i]),
        },
        false => Default::default(),
    };
    let data = GenericJoint {
        local_frame1: pose(&n[0..7]),
        local_frame2: pose(&n[7..14]),
        locked_axes: mask(0),
        limit_axes: mask(1),
        motor_axes: mask(2),
        coupled_axes: mask(3),
        limits: core::array::from_fn(limit),
        motors: core::array::from_fn(motor),
        softness: SpringCoefficients {
            natural_frequency: n[41],
            damping_ratio: n[42],
        },
        ..Default::default()
    };
    JointGraphEdge {
        weight: ImpulseJoint {
            body1: RigidBodyHandle,
            body2: RigidBodyHandle,
            data,
            impulses: SpatialVector(core::array::from_fn(|i| n[43 + i])),
            handle: ImpulseJointHandle,
            solver_body_ids: bodies,
            solver_color: 0,
        },
    }
}

/// The Rust's `JointEnabled` in the order of its declaration; every other word is `Disabled`.
pub(crate) fn enabled(word: u32) -> JointEnabled {
    match word {
        0 => JointEnabled::Enabled,
        1 => JointEnabled::DisabledByAttachedBody,
        _ => JointEnabled::Disabled,
    }
}

/// The stored impulses back into the joint's numbers.
pub(crate) fn put_impulses(edge: &JointGraphEdge, n: &mut [Real]) {
    for i in 0..DIM {
        n[16 + 3 * i] = edge.weight.data.limits[i].impulse;
        n[28 + 6 * i] = edge.weight.data.motors[i].impulse;
    }
    for i in 0..SPATIAL_DIM {
        n[43 + i] = edge.weight.impulses[i];
    }
}

pub(crate) fn model(word: u32) -> MotorModel {
    match word {
        0 => MotorModel::AccelerationBased,
        _ => MotorModel::ForceBased,
    }
}

/// The row that the numbers say; its bodies, joint and id are blank.
pub(crate) fn row(n: &[Real]) -> JointConstraint<Real, 1> {
    JointConstraint {
        impulse: n[0],
        impulse_bounds: [n[1], n[2]],
        lin_jac: vector(&n[3..]),
        ang_jac1: vector(&n[6..]),
        ang_jac2: vector(&n[9..]),
        ii_ang_jac1: vector(&n[12..]),
        ii_ang_jac2: vector(&n[15..]),
        inv_lhs: n[18],
        rhs: n[19],
        rhs_wo_bias: n[20],
        cfm_gain: n[21],
        cfm_coeff: n[22],
        im1: vector(&n[23..]),
        im2: vector(&n[26..]),
        ..blank()
    }
}

pub(crate) fn put_row(row: &JointConstraint<Real, 1>, n: &mut [Real]) {
    n[..3].copy_from_slice(&[row.impulse, row.impulse_bounds[0], row.impulse_bounds[1]]);
    let vectors = [
        row.lin_jac,
        row.ang_jac1,
        row.ang_jac2,
        row.ii_ang_jac1,
        row.ii_ang_jac2,
    ];
    n[3..18].copy_from_slice(vectors.map(three).as_flattened());
    n[18..23].copy_from_slice(&[
        row.inv_lhs,
        row.rhs,
        row.rhs_wo_bias,
        row.cfm_gain,
        row.cfm_coeff,
    ]);
    n[23..29].copy_from_slice([row.im1, row.im2].map(three).as_flattened());
}

/// 8·kind + axis; kind 0 is Dof, 1 Limit, 2 Motor.
pub(crate) fn id(word: u32) -> WritebackId {
    let axis = (word % 8) as usize;
    match word / 8 {
        0 => WritebackId::Dof(axis),
        1 => WritebackId::Limit(axis),
        2 => WritebackId::Motor(axis),
        _ => panic!("no such id"),
    }
}

pub(crate) fn id_word(id: WritebackId) -> u32 {
    match id {
        WritebackId::Dof(axis) => axis as u32,
        WritebackId::Limit(axis) => 8 + axis as u32,
        WritebackId::Motor(axis) => 16 + axis as u32,
        WritebackId::Friction(_) => panic!("friction rows are no joint's"),
    }
}
