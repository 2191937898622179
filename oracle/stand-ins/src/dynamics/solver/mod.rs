//! The rows and the bodies that they act on.

pub(crate) mod joint_constraint;
pub(crate) mod solver_body;

pub(crate) use joint_constraint::{
    MotorParameters, joint_data_num_constraints, joint_num_constraints,
};
pub(crate) use solver_body::SolverVel;
