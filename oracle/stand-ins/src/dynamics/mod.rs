//! The modules about the joint rows. Bodies, graph and soft bodies have only what these name.

mod integration_parameters;
mod joint;
mod rigid_bodies;
pub(crate) mod solver;

pub use integration_parameters::{IntegrationParameters, SpringCoefficients};
pub use joint::*;
pub use rigid_bodies::*;

/// Soft bodies are left out.
#[derive(Copy, Clone, Debug, Default, PartialEq)]
pub struct SoftBodiesSettings;
