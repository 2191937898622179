//! The type names that the Rust takes from nalgebra. Only the lane form computes with them, so
//! they hold their fields and each of their operations stops the program.
#![no_std]

use core::marker::PhantomData;
use core::ops::{Add, AddAssign, Deref, DivAssign, Index, Mul, MulAssign, Neg, Sub, SubAssign};

pub use simba::simd::{SimdRealField, SimdValue};

fn left_out() -> ! {
    unreachable!("the lane form is left out")
}

pub fn zero<T: num_traits::Zero>() -> T {
    T::zero()
}

#[macro_export]
macro_rules! vector(($($tokens: tt)*) => { unreachable!() });
#[macro_export]
macro_rules! point(($($tokens: tt)*) => { unreachable!() });

#[derive(Copy, Clone, Debug)]
pub struct U1;
#[derive(Copy, Clone, Debug)]
pub struct U2;
#[derive(Copy, Clone, Debug)]
pub struct U3;

#[repr(C)]
#[derive(Copy, Clone, Debug, Default, PartialEq)]
pub struct Vector1<N> {
    pub x: N,
}

#[repr(C)]
#[derive(Copy, Clone, Debug, Default, PartialEq)]
pub struct Vector2<N> {
    pub x: N,
    pub y: N,
}

#[repr(C)]
#[derive(Copy, Clone, Debug, Default, PartialEq)]
pub struct Vector3<N> {
    pub x: N,
    pub y: N,
    pub z: N,
}

impl<N> Vector3<N> {
    pub fn new(x: N, y: N, z: N) -> Self {
        Vector3 { x, y, z }
    }
    pub fn transpose(&self) -> RowVector3<N> {
        left_out()
    }
    pub fn cross_matrix(&self) -> Matrix3<N> {
        left_out()
    }
}

/// A row, as `Vector3::transpose` gives it.
pub struct RowVector3<N>(PhantomData<N>);

#[repr(C)]
#[derive(Copy, Clone, Debug, Default, PartialEq)]
pub struct Vector4<N> {
    pub x: N,
    pub y: N,
    pub z: N,
    pub w: N,
}

impl<N> Vector4<N> {
    pub fn dot(&self, _: &Self) -> N {
        left_out()
    }
}

#[repr(C)]
#[derive(Copy, Clone, Debug, Default, PartialEq)]
pub struct Point2<N> {
    pub coords: Vector2<N>,
}

#[repr(C)]
#[derive(Copy, Clone, Debug, Default, PartialEq)]
pub struct Point3<N> {
    pub coords: Vector3<N>,
}

#[repr(C)]
#[derive(Copy, Clone, Debug)]
pub struct Quaternion<N> {
    pub coords: Vector4<N>,
}

impl<N> Deref for Quaternion<N> {
    type Target = Vector4<N>;
    fn deref(&self) -> &Vector4<N> {
        &self.coords
    }
}

impl<N> Quaternion<N> {
    pub fn imag(&self) -> Vector3<N> {
        left_out()
    }
}

#[repr(C)]
#[derive(Copy, Clone, Debug)]
pub struct UnitQuaternion<N> {
    quaternion: Quaternion<N>,
}

impl<N> Deref for UnitQuaternion<N> {
    type Target = Quaternion<N>;
    fn deref(&self) -> &Quaternion<N> {
        &self.quaternion
    }
}

impl<N> UnitQuaternion<N> {
    pub fn to_rotation_matrix(self) -> Rotation3<N> {
        left_out()
    }
    pub fn conjugate(&self) -> Self {
        left_out()
    }
    pub fn as_mut_unchecked(&mut self) -> &mut Quaternion<N> {
        left_out()
    }
}

/// What `UnitQuaternion::to_rotation_matrix` gives.
pub struct Rotation3<N>(PhantomData<N>);

impl<N> Rotation3<N> {
    pub fn into_inner(self) -> Matrix3<N> {
        left_out()
    }
}

#[repr(C)]
#[derive(Copy, Clone, Debug)]
pub struct Isometry3<N> {
    pub rotation: UnitQuaternion<N>,
    pub translation: Translation3<N>,
}

#[repr(C)]
#[derive(Copy, Clone, Debug)]
pub struct Translation3<N> {
    pub vector: Vector3<N>,
}

impl<N> Isometry3<N> {
    pub fn from_parts(translation: Translation3<N>, rotation: UnitQuaternion<N>) -> Self {
        Isometry3 {
            rotation,
            translation,
        }
    }
}

impl<N> From<Vector3<N>> for Translation3<N> {
    fn from(vector: Vector3<N>) -> Self {
        Translation3 { vector }
    }
}

#[repr(C)]
#[derive(Copy, Clone, Debug)]
pub struct UnitComplex<N> {
    pub re: N,
    pub im: N,
}

#[repr(C)]
#[derive(Copy, Clone, Debug)]
pub struct Isometry2<N> {
    pub rotation: UnitComplex<N>,
    pub translation: Translation2<N>,
}

#[repr(C)]
#[derive(Copy, Clone, Debug)]
pub struct Translation2<N> {
    pub vector: Vector2<N>,
}

#[repr(C)]
#[derive(Copy, Clone, Debug)]
pub struct Matrix2<N> {
    pub columns: [Vector2<N>; 2],
}

#[repr(C)]
#[derive(Copy, Clone, Debug)]
pub struct Matrix3<N> {
    pub columns: [Vector3<N>; 3],
}

/// What `UnitComplex::to_rotation_matrix` gives.
pub struct Rotation2<N>(PhantomData<N>);

pub struct DVector<N>(PhantomData<N>);
pub struct DMatrix<N>(PhantomData<N>);
pub struct Matrix3xX<N>(PhantomData<N>);
pub struct Matrix6xX<N>(PhantomData<N>);
pub struct MatrixView6xX<'a, N>(PhantomData<&'a N>);
pub struct MatrixViewMut6xX<'a, N>(PhantomData<&'a mut N>);
pub struct MatrixView3xX<'a, N>(PhantomData<&'a N>);
pub struct MatrixViewMut3xX<'a, N>(PhantomData<&'a mut N>);
pub struct DVectorView<'a, N>(PhantomData<&'a N>);
pub struct DVectorViewMut<'a, N>(PhantomData<&'a mut N>);

impl<'a, N> DVectorView<'a, N> {
    pub fn from_slice(_: &'a [N], _: usize) -> Self {
        left_out()
    }
}

impl<'a, N> DVectorViewMut<'a, N> {
    pub fn from_slice(_: &'a mut [N], _: usize) -> Self {
        left_out()
    }
}

impl<N> Matrix3<N> {
    #[allow(clippy::too_many_arguments)]
    pub fn new(_: N, _: N, _: N, _: N, _: N, _: N, _: N, _: N, _: N) -> Self {
        left_out()
    }
    pub fn from_diagonal_element(_: N) -> Self {
        left_out()
    }
    pub fn transpose(&self) -> Self {
        left_out()
    }
}

impl<N> UnitComplex<N> {
    pub fn to_rotation_matrix(self) -> Rotation2<N> {
        left_out()
    }
    pub fn conjugate(&self) -> Self {
        left_out()
    }
    pub fn angle(&self) -> N {
        left_out()
    }
}

impl<N> Rotation2<N> {
    pub fn into_inner(self) -> Matrix2<N> {
        left_out()
    }
}

impl<N> Isometry2<N> {
    pub fn from_parts(translation: Translation2<N>, rotation: UnitComplex<N>) -> Self {
        Isometry2 {
            rotation,
            translation,
        }
    }
}

impl<N> From<Vector2<N>> for Translation2<N> {
    fn from(vector: Vector2<N>) -> Self {
        Translation2 { vector }
    }
}

macro_rules! lane_operator(
    ($($Trait: ident $method: ident: $Left: ident, $Right: ty, $Output: ident;)*) => {$(
        impl<N> $Trait<$Right> for $Left<N> {
            type Output = $Output<N>;
            fn $method(self, _: $Right) -> $Output<N> {
                left_out()
            }
        }
    )*}
);
lane_operator!(
    Add add: Vector2, Vector2<N>, Vector2;
    Sub sub: Vector2, Vector2<N>, Vector2;
    Mul mul: Vector2, N, Vector2;
    Mul mul: UnitComplex, Vector2<N>, Vector2;
    Mul mul: UnitComplex, UnitComplex<N>, UnitComplex;
    Mul mul: Isometry2, Vector2<N>, Vector2;
    Mul mul: Isometry2, Isometry2<N>, Isometry2;
    Mul mul: Matrix2, Matrix2<N>, Matrix2;
    Add add: Vector3, Vector3<N>, Vector3;
    Sub sub: Vector3, Vector3<N>, Vector3;
    Mul mul: Vector3, N, Vector3;
    Mul mul: Vector3, RowVector3<N>, Matrix3;
    Mul mul: UnitQuaternion, Vector3<N>, Vector3;
    Mul mul: UnitQuaternion, UnitQuaternion<N>, UnitQuaternion;
    Mul mul: Isometry3, Vector3<N>, Vector3;
    Mul mul: Isometry3, Isometry3<N>, Isometry3;
    Add add: Matrix3, Matrix3<N>, Matrix3;
    Sub sub: Matrix3, Matrix3<N>, Matrix3;
    Mul mul: Matrix3, Matrix3<N>, Matrix3;
    Mul mul: Matrix3, N, Matrix3;
);

macro_rules! lane_assignment(
    ($($Trait: ident $method: ident: $Left: ident, $Right: ty;)*) => {$(
        impl<N> $Trait<$Right> for $Left<N> {
            fn $method(&mut self, _: $Right) {
                left_out()
            }
        }
    )*}
);
lane_assignment!(
    AddAssign add_assign: Vector2, Vector2<N>;
    SubAssign sub_assign: Vector2, Vector2<N>;
    MulAssign mul_assign: Vector2, N;
    DivAssign div_assign: Vector2, N;
    MulAssign mul_assign: Matrix2, N;
    AddAssign add_assign: Vector3, Vector3<N>;
    SubAssign sub_assign: Vector3, Vector3<N>;
    MulAssign mul_assign: Vector3, N;
    DivAssign div_assign: Vector3, N;
    MulAssign mul_assign: Matrix3, N;
    MulAssign mul_assign: Quaternion, N;
);

macro_rules! of_each_dimension(
    ($($Vector: ident $Isometry: ident;)*) => {$(
        impl<N> Neg for $Vector<N> {
            type Output = Self;
            fn neg(self) -> Self {
                left_out()
            }
        }

        impl<N> Index<usize> for $Vector<N> {
            type Output = N;
            fn index(&self, _: usize) -> &N {
                left_out()
            }
        }

        impl From<[$Isometry<f32>; 4]> for $Isometry<simba::simd::WideF32x4> {
            fn from(_: [$Isometry<f32>; 4]) -> Self {
                left_out()
            }
        }
    )*}
);
of_each_dimension!(
    Vector2 Isometry2;
    Vector3 Isometry3;
);
