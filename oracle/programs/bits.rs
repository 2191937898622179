//! Bits to compare and to show.

/// All NaNs are one.
pub fn bits(x: f32) -> u32 {
    if x.is_nan() { 0x7FC0_0000 } else { x.to_bits() }
}

pub fn hex(xs: &[f32]) -> String {
    xs.iter()
        .map(|x| format!("{:08X}", x.to_bits()))
        .collect::<Vec<_>>()
        .join(" ")
}
