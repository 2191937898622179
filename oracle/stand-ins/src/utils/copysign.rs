//! The rows copy a sign by simba's `simd_copysign`, in the dim3 branches alone.

/// Named by the Rust, used by no row.
pub trait CopySign {}
