//! What the programs of the oracle reach: the Rust's crate-private functions, opened to them.

#[cfg_attr(feature = "dim2", path = "planar/leaves.rs")]
#[cfg_attr(feature = "dim3", path = "spatial/leaves.rs")]
pub mod leaves;
pub mod model;
#[cfg_attr(feature = "dim2", path = "planar/records.rs")]
#[cfg_attr(feature = "dim3", path = "spatial/records.rs")]
pub mod records;
pub mod rows;
