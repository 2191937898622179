//! The spatial vector, rotation, pose and matrix that the Rust takes from parry3d, by the stand-ins of request R-14: binary32, one
//! rounding an operation, from the left. No product with a zero is left out, and nothing is normalised.
#![no_std]

pub mod glamx {}

pub mod math {
    use core::ops::{
        Add, AddAssign, Div, DivAssign, Index, IndexMut, Mul, MulAssign, Neg, Sub, SubAssign,
    };

    pub type Real = f32;
    pub type Vector = Vec3;
    pub type AngVector = Vec3;
    pub type AngularInertia = crate::utils::SdpMatrix3<Real>;
    pub type Rotation = Rot3;
    pub type Pose = Pose3;
    pub type Matrix = Mat3;
    pub type SimdReal = simba::simd::WideF32x4;
    pub const SIMD_WIDTH: usize = 4;
    pub const DIM: usize = 3;

    #[repr(C)]
    #[derive(Copy, Clone, Debug, Default, PartialEq)]
    pub struct Vec3 {
        pub x: f32,
        pub y: f32,
        pub z: f32,
    }

    impl Vec3 {
        pub const ZERO: Vec3 = Vec3::new(0.0, 0.0, 0.0);
        pub const X: Vec3 = Vec3::new(1.0, 0.0, 0.0);
        pub const Y: Vec3 = Vec3::new(0.0, 1.0, 0.0);
        pub const Z: Vec3 = Vec3::new(0.0, 0.0, 1.0);

        pub const fn new(x: f32, y: f32, z: f32) -> Vec3 {
            Vec3 { x, y, z }
        }

        pub const fn splat(s: f32) -> Vec3 {
            Vec3::new(s, s, s)
        }

        /// The dot runs x, y, z.
        pub fn dot(self, rhs: Vec3) -> f32 {
            self.x * rhs.x + self.y * rhs.y + self.z * rhs.z
        }

        /// The product component by component.
        pub fn each(self, rhs: Vec3) -> Vec3 {
            Vec3::new(self.x * rhs.x, self.y * rhs.y, self.z * rhs.z)
        }

        /// Rows (0, −z, y), (z, 0, −x), (−y, x, 0).
        pub fn cross_matrix(self) -> Mat3 {
            Mat3::from_cols(
                Vec3::new(0.0, self.z, -self.y),
                Vec3::new(-self.z, 0.0, self.x),
                Vec3::new(self.y, -self.x, 0.0),
            )
        }

        pub fn length(self) -> f32 {
            leaf::sqrt(self.dot(self))
        }
    }

    /// Named by the Rust's own body of the derivative alone.
    pub trait VectorExt {
        /// The outer product: entry (i, j) is component i times the other's component j.
        fn kronecker(self, rhs: Self) -> Mat3;
    }

    impl VectorExt for Vec3 {
        fn kronecker(self, rhs: Vec3) -> Mat3 {
            Mat3::from_cols(self * rhs.x, self * rhs.y, self * rhs.z)
        }
    }

    impl Neg for Vec3 {
        type Output = Vec3;
        fn neg(self) -> Vec3 {
            Vec3::new(-self.x, -self.y, -self.z)
        }
    }

    impl Add for Vec3 {
        type Output = Vec3;
        fn add(self, rhs: Vec3) -> Vec3 {
            Vec3::new(self.x + rhs.x, self.y + rhs.y, self.z + rhs.z)
        }
    }

    impl Sub for Vec3 {
        type Output = Vec3;
        fn sub(self, rhs: Vec3) -> Vec3 {
            Vec3::new(self.x - rhs.x, self.y - rhs.y, self.z - rhs.z)
        }
    }

    impl Mul<f32> for Vec3 {
        type Output = Vec3;
        fn mul(self, rhs: f32) -> Vec3 {
            Vec3::new(self.x * rhs, self.y * rhs, self.z * rhs)
        }
    }

    impl Div<f32> for Vec3 {
        type Output = Vec3;
        fn div(self, rhs: f32) -> Vec3 {
            Vec3::new(self.x / rhs, self.y / rhs, self.z / rhs)
        }
    }

    impl AddAssign for Vec3 {
        fn add_assign(&mut self, rhs: Vec3) {
            *self = *self + rhs
        }
    }

    impl SubAssign for Vec3 {
        fn sub_assign(&mut self, rhs: Vec3) {
            *self = *self - rhs
        }
    }

    impl MulAssign<f32> for Vec3 {
        fn mul_assign(&mut self, rhs: f32) {
            *self = *self * rhs
        }
    }

    impl DivAssign<f32> for Vec3 {
        fn div_assign(&mut self, rhs: f32) {
            *self = *self / rhs
        }
    }

    impl Index<usize> for Vec3 {
        type Output = f32;
        fn index(&self, i: usize) -> &f32 {
            match i {
                0 => &self.x,
                1 => &self.y,
                2 => &self.z,
                _ => panic!("a vector has three components"),
            }
        }
    }

    /// One number for each degree of freedom: three linear, then the angular ones.
    #[derive(Copy, Clone, Debug, Default, PartialEq)]
    pub struct SpatialVector(pub [f32; 6]);

    impl Index<usize> for SpatialVector {
        type Output = f32;
        fn index(&self, i: usize) -> &f32 {
            &self.0[i]
        }
    }

    impl IndexMut<usize> for SpatialVector {
        fn index_mut(&mut self, i: usize) -> &mut f32 {
            &mut self.0[i]
        }
    }

    /// A quaternion.
    #[repr(C)]
    #[derive(Copy, Clone, Debug, PartialEq)]
    pub struct Rot3 {
        pub x: f32,
        pub y: f32,
        pub z: f32,
        pub w: f32,
    }

    impl Rot3 {
        pub const IDENTITY: Rot3 = Rot3 {
            x: 0.0,
            y: 0.0,
            z: 0.0,
            w: 1.0,
        };

        /// Rotations arrive as their four numbers; none is ever made from something else.
        pub fn from_scaled_axis(_: Vec3) -> Rot3 {
            unreachable!("a rotation is given by its x, y, z and w")
        }

        pub fn from_rotation_arc(_: Vec3, _: Vec3) -> Rot3 {
            unreachable!("no coupled angular axis, no completed frame")
        }

        pub fn to_axis_angle(self) -> (Vec3, f32) {
            unreachable!("no coupled angular axis")
        }

        pub fn inverse(self) -> Rot3 {
            Rot3 {
                x: -self.x,
                y: -self.y,
                z: -self.z,
                w: self.w,
            }
        }

        /// The dot runs x, y, z, w.
        pub fn dot(self, rhs: Rot3) -> f32 {
            self.x * rhs.x + self.y * rhs.y + self.z * rhs.z + self.w * rhs.w
        }

        pub fn xyz(self) -> Vec3 {
            Vec3::new(self.x, self.y, self.z)
        }

        /// A vector as a quaternion: its w is 0.
        fn pure(v: Vec3) -> Rot3 {
            Rot3 {
                x: v.x,
                y: v.y,
                z: v.z,
                w: 0.0,
            }
        }

        /// The derivative of (inverse q1)·q2 in request R-14's words: columns (inverse q1)·axis·q2, then halved.
        ///
        /// rotation_ops.rs has a scalar body of this name in its trait `RotationOps`, and calls it as `self.diff_conj1_2(rhs)` from
        /// `diff_conj1_2_tr`, which the row helper takes. There a method of the type itself comes before one of a trait, as it does for `inverse`: so
        /// the unchanged file takes this one. Without it (`--cfg own_derivative`) the same call finds the Rust's own body.
        #[cfg(not(own_derivative))]
        pub fn diff_conj1_2(&self, rhs: &Rot3) -> Mat3 {
            let column = |axis: Vec3| (self.inverse() * Rot3::pure(axis) * *rhs).xyz();
            Mat3::from_cols(column(Vec3::X), column(Vec3::Y), column(Vec3::Z)) * 0.5
        }
    }

    /// w1w2 − x1x2 − y1y2 − z1z2; w1x2 + x1w2 + y1z2 − z1y2, and so on round x, y, z.
    impl Mul for Rot3 {
        type Output = Rot3;
        fn mul(self, rhs: Rot3) -> Rot3 {
            let (
                Rot3 {
                    x: x1,
                    y: y1,
                    z: z1,
                    w: w1,
                },
                Rot3 {
                    x: x2,
                    y: y2,
                    z: z2,
                    w: w2,
                },
            ) = (self, rhs);
            Rot3 {
                x: w1 * x2 + x1 * w2 + y1 * z2 - z1 * y2,
                y: w1 * y2 + y1 * w2 + z1 * x2 - x1 * z2,
                z: w1 * z2 + z1 * w2 + x1 * y2 - y1 * x2,
                w: w1 * w2 - x1 * x2 - y1 * y2 - z1 * z2,
            }
        }
    }

    /// q·p·inverse turns p, whose w is 0.
    impl Mul<Vec3> for Rot3 {
        type Output = Vec3;
        fn mul(self, rhs: Vec3) -> Vec3 {
            (self * Rot3::pure(rhs) * self.inverse()).xyz()
        }
    }

    impl MulAssign<f32> for Rot3 {
        fn mul_assign(&mut self, rhs: f32) {
            *self = Rot3 {
                x: self.x * rhs,
                y: self.y * rhs,
                z: self.z * rhs,
                w: self.w * rhs,
            }
        }
    }

    #[repr(C)]
    #[derive(Copy, Clone, Debug, PartialEq)]
    pub struct Pose3 {
        pub rotation: Rot3,
        pub translation: Vec3,
    }

    impl Pose3 {
        pub const IDENTITY: Pose3 = Pose3 {
            rotation: Rot3::IDENTITY,
            translation: Vec3::ZERO,
        };

        pub fn from_parts(translation: Vec3, rotation: Rot3) -> Pose3 {
            Pose3 {
                rotation,
                translation,
            }
        }

        /// Frames arrive relative to each centre of mass, so none is ever moved there.
        pub fn append_translation(self, _: Vec3) -> Pose3 {
            unreachable!("frames arrive relative to each centre of mass")
        }

        pub fn prepend_translation(self, _: Vec3) -> Pose3 {
            unreachable!("frames arrive relative to each centre of mass")
        }
    }

    /// Rotate, then add.
    impl Mul<Vec3> for Pose3 {
        type Output = Vec3;
        fn mul(self, rhs: Vec3) -> Vec3 {
            self.rotation * rhs + self.translation
        }
    }

    impl Mul for Pose3 {
        type Output = Pose3;
        fn mul(self, rhs: Pose3) -> Pose3 {
            Pose3 {
                rotation: self.rotation * rhs.rotation,
                translation: self * rhs.translation,
            }
        }
    }

    /// A matrix by its columns.
    #[repr(C)]
    #[derive(Copy, Clone, Debug)]
    pub struct Mat3 {
        pub x_axis: Vec3,
        pub y_axis: Vec3,
        pub z_axis: Vec3,
    }

    impl Mat3 {
        pub fn from_cols(x_axis: Vec3, y_axis: Vec3, z_axis: Vec3) -> Mat3 {
            Mat3 {
                x_axis,
                y_axis,
                z_axis,
            }
        }

        pub fn col(&self, i: usize) -> Vec3 {
            match i {
                0 => self.x_axis,
                1 => self.y_axis,
                2 => self.z_axis,
                _ => panic!("a matrix has three columns"),
            }
        }

        /// The turned axes are a rotation's columns.
        pub fn from_quat(q: Rot3) -> Mat3 {
            Mat3::from_cols(q * Vec3::X, q * Vec3::Y, q * Vec3::Z)
        }

        pub fn transpose(self) -> Mat3 {
            let row = |i: usize| Vec3::new(self.x_axis[i], self.y_axis[i], self.z_axis[i]);
            Mat3::from_cols(row(0), row(1), row(2))
        }

        /// Named by the Rust's own body of the derivative alone.
        pub fn from_diagonal(v: Vec3) -> Mat3 {
            Mat3::from_cols(
                Vec3::new(v.x, 0.0, 0.0),
                Vec3::new(0.0, v.y, 0.0),
                Vec3::new(0.0, 0.0, v.z),
            )
        }

        pub fn from_cols_array(_: &[f32; 9]) -> Mat3 {
            unreachable!("no row turns an inertia into a matrix")
        }
    }

    /// Matrices multiply by dots: entry (i, j) is the dot of row i and column j.
    impl Mul for Mat3 {
        type Output = Mat3;
        fn mul(self, rhs: Mat3) -> Mat3 {
            let rows = self.transpose();
            let column =
                |c: Vec3| Vec3::new(rows.x_axis.dot(c), rows.y_axis.dot(c), rows.z_axis.dot(c));
            Mat3::from_cols(column(rhs.x_axis), column(rhs.y_axis), column(rhs.z_axis))
        }
    }

    impl Mul<f32> for Mat3 {
        type Output = Mat3;
        fn mul(self, rhs: f32) -> Mat3 {
            Mat3::from_cols(self.x_axis * rhs, self.y_axis * rhs, self.z_axis * rhs)
        }
    }

    impl MulAssign<f32> for Mat3 {
        fn mul_assign(&mut self, rhs: f32) {
            *self = *self * rhs
        }
    }

    /// Named by the Rust's own body of the derivative alone.
    impl Add for Mat3 {
        type Output = Mat3;
        fn add(self, rhs: Mat3) -> Mat3 {
            Mat3::from_cols(
                self.x_axis + rhs.x_axis,
                self.y_axis + rhs.y_axis,
                self.z_axis + rhs.z_axis,
            )
        }
    }

    /// Named by the Rust's own body of the derivative alone.
    impl Sub for Mat3 {
        type Output = Mat3;
        fn sub(self, rhs: Mat3) -> Mat3 {
            Mat3::from_cols(
                self.x_axis - rhs.x_axis,
                self.y_axis - rhs.y_axis,
                self.z_axis - rhs.z_axis,
            )
        }
    }

    impl From<Vec3> for nalgebra::Vector3<f32> {
        fn from(v: Vec3) -> Self {
            nalgebra::Vector3 {
                x: v.x,
                y: v.y,
                z: v.z,
            }
        }
    }

    impl From<Pose3> for nalgebra::Isometry3<f32> {
        fn from(_: Pose3) -> Self {
            unreachable!("the lane form is left out")
        }
    }
}

pub mod utils {
    /// A symmetric matrix by its six numbers; `transform_vector` is the Rust's.
    #[repr(C)]
    #[derive(Copy, Clone, Debug, Default, PartialEq)]
    pub struct SdpMatrix3<N> {
        pub m11: N,
        pub m12: N,
        pub m13: N,
        pub m22: N,
        pub m23: N,
        pub m33: N,
    }

    impl<N> SdpMatrix3<N> {
        pub fn zero() -> Self {
            unreachable!("no row inverts an inertia")
        }

        pub fn inverse_unchecked(&self) -> Self {
            unreachable!("the lane form is left out")
        }
    }

    pub mod hashmap {
        use core::marker::PhantomData;

        pub struct HashMap<K, V>(PhantomData<(K, V)>);

        impl<K, V> HashMap<K, V> {
            pub fn remove(&mut self, _: &K) -> Option<V> {
                unreachable!("no joint row looks into a map")
            }
        }
    }
}
