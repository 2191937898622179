//! The joint between two bodies, and the edge that holds it.

mod impulse_joint;

pub use impulse_joint::ImpulseJoint;

/// Which edge of the list is the joint's.
pub(crate) type JointIndex = usize;

#[derive(Copy, Clone, Debug, PartialEq)]
pub struct ImpulseJointHandle;

/// Of the joint graph, the edges are a plain list.
pub(crate) struct JointGraphEdge {
    pub weight: ImpulseJoint,
}
