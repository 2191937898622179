//! Named by the Rust, used by no joint row.

pub(crate) fn prefetch_read<T>(_: &[T], _: usize) {}
