//! Four lanes as a type. The lane form is left out, so it has no arithmetic.
#![no_std]
#![allow(non_camel_case_types)]

#[repr(C, align(16))]
#[derive(Copy, Clone, Debug, Default, PartialEq)]
pub struct f32x4(pub [f32; 4]);

impl f32x4 {
    pub fn transpose(_: [f32x4; 4]) -> [f32x4; 4] {
        unreachable!("the lane form is left out")
    }
}
