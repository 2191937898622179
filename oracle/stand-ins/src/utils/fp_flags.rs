//! Named by the Rust, used by no joint row.

pub(crate) struct DisableFloatingPointExceptionsFlags;
