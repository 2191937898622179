//! The generic joint, and the joint types that it can be seen as.

mod generic_joint;
mod impulse_joint;
mod motor_model;

pub use generic_joint::*;
pub use impulse_joint::*;
pub use motor_model::MotorModel;

macro_rules! seen_as(
    ($($Joint: ident)*) => {$(
        /// Named by `GenericJoint`'s conversions alone.
        #[repr(transparent)]
        pub struct $Joint(GenericJoint);
    )*}
);
seen_as!(FixedJoint PrismaticJoint RevoluteJoint RopeJoint SphericalJoint);
