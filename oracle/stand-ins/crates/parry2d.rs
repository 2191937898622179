//! The planar vector, rotation, pose and matrix that the Rust takes from parry2d, by document 01's
//! stand-ins.
#![no_std]

pub mod glamx {}

pub mod math {
    use core::ops::{
        Add, AddAssign, Div, DivAssign, Index, IndexMut, Mul, MulAssign, Neg, Sub, SubAssign,
    };

    pub type Real = f32;
    pub type Vector = Vec2;
    pub type AngVector = Real;
    pub type AngularInertia = Real;
    pub type Rotation = Rot2;
    pub type Pose = Pose2;
    pub type Matrix = Mat2;
    pub type SimdReal = simba::simd::WideF32x4;
    pub const SIMD_WIDTH: usize = 4;
    pub const DIM: usize = 2;

    #[repr(C)]
    #[derive(Copy, Clone, Debug, Default, PartialEq)]
    pub struct Vec2 {
        pub x: f32,
        pub y: f32,
    }

    impl Vec2 {
        pub const ZERO: Vec2 = Vec2::new(0.0, 0.0);
        pub const X: Vec2 = Vec2::new(1.0, 0.0);
        pub const Y: Vec2 = Vec2::new(0.0, 1.0);

        pub const fn new(x: f32, y: f32) -> Vec2 {
            Vec2 { x, y }
        }

        /// Two products, one sum.
        pub fn dot(self, rhs: Vec2) -> f32 {
            self.x * rhs.x + self.y * rhs.y
        }

        /// The product component by component.
        pub fn each(self, rhs: Vec2) -> Vec2 {
            Vec2::new(self.x * rhs.x, self.y * rhs.y)
        }

        /// The cross matrix of a planar vector, itself a vector: (p, q) gives (−q, p).
        pub fn cross_matrix(self) -> Vec2 {
            Vec2::new(-self.y, self.x)
        }

        pub fn length(self) -> f32 {
            leaf::sqrt(self.dot(self))
        }
    }

    impl Neg for Vec2 {
        type Output = Vec2;
        fn neg(self) -> Vec2 {
            Vec2::new(-self.x, -self.y)
        }
    }

    impl Add for Vec2 {
        type Output = Vec2;
        fn add(self, rhs: Vec2) -> Vec2 {
            Vec2::new(self.x + rhs.x, self.y + rhs.y)
        }
    }

    impl Sub for Vec2 {
        type Output = Vec2;
        fn sub(self, rhs: Vec2) -> Vec2 {
            Vec2::new(self.x - rhs.x, self.y - rhs.y)
        }
    }

    impl Mul<f32> for Vec2 {
        type Output = Vec2;
        fn mul(self, rhs: f32) -> Vec2 {
            Vec2::new(self.x * rhs, self.y * rhs)
        }
    }

    impl Div<f32> for Vec2 {
        type Output = Vec2;
        fn div(self, rhs: f32) -> Vec2 {
            Vec2::new(self.x / rhs, self.y / rhs)
        }
    }

    impl AddAssign for Vec2 {
        fn add_assign(&mut self, rhs: Vec2) {
            *self = *self + rhs
        }
    }

    impl SubAssign for Vec2 {
        fn sub_assign(&mut self, rhs: Vec2) {
            *self = *self - rhs
        }
    }

    impl MulAssign<f32> for Vec2 {
        fn mul_assign(&mut self, rhs: f32) {
            *self = *self * rhs
        }
    }

    impl DivAssign<f32> for Vec2 {
        fn div_assign(&mut self, rhs: f32) {
            *self = *self / rhs
        }
    }

    impl Index<usize> for Vec2 {
        type Output = f32;
        fn index(&self, i: usize) -> &f32 {
            match i {
                0 => &self.x,
                1 => &self.y,
                _ => panic!("a vector has two components"),
            }
        }
    }

    /// One number for each degree of freedom: two linear, then the angular one.
    #[derive(Copy, Clone, Debug, Default, PartialEq)]
    pub struct SpatialVector(pub [f32; 3]);

    impl Index<usize> for SpatialVector {
        type Output = f32;
        fn index(&self, i: usize) -> &f32 {
            &self.0[i]
        }
    }

    impl IndexMut<usize> for SpatialVector {
        fn index_mut(&mut self, i: usize) -> &mut f32 {
            &mut self.0[i]
        }
    }

    #[repr(C)]
    #[derive(Copy, Clone, Debug, PartialEq)]
    pub struct Rot2 {
        pub re: f32,
        pub im: f32,
    }

    impl Rot2 {
        pub const IDENTITY: Rot2 = Rot2 { re: 1.0, im: 0.0 };

        /// Rotations arrive as (re, im); no angle is ever turned into one.
        pub fn new(_: f32) -> Rot2 {
            unreachable!("a rotation is given by its re and im")
        }

        pub fn from_matrix_unchecked(_: Mat2) -> Rot2 {
            unreachable!("a rotation is given by its re and im")
        }

        pub fn inverse(self) -> Rot2 {
            Rot2 {
                re: self.re,
                im: -self.im,
            }
        }

        pub fn angle(self) -> f32 {
            leaf::angle(self.re, self.im)
        }
    }

    /// (ac − bd, ad + bc)
    impl Mul for Rot2 {
        type Output = Rot2;
        fn mul(self, rhs: Rot2) -> Rot2 {
            let (a, b, c, d) = (self.re, self.im, rhs.re, rhs.im);
            Rot2 {
                re: a * c - b * d,
                im: a * d + b * c,
            }
        }
    }

    /// (ax − by, bx + ay)
    impl Mul<Vec2> for Rot2 {
        type Output = Vec2;
        fn mul(self, rhs: Vec2) -> Vec2 {
            let (a, b) = (self.re, self.im);
            Vec2::new(a * rhs.x - b * rhs.y, b * rhs.x + a * rhs.y)
        }
    }

    #[repr(C)]
    #[derive(Copy, Clone, Debug, PartialEq)]
    pub struct Pose2 {
        pub rotation: Rot2,
        pub translation: Vec2,
    }

    impl Pose2 {
        pub const IDENTITY: Pose2 = Pose2 {
            rotation: Rot2::IDENTITY,
            translation: Vec2::ZERO,
        };

        pub fn from_parts(translation: Vec2, rotation: Rot2) -> Pose2 {
            Pose2 {
                rotation,
                translation,
            }
        }

        /// Frames arrive relative to each centre of mass, so none is ever moved there.
        pub fn append_translation(self, _: Vec2) -> Pose2 {
            unreachable!("frames arrive relative to each centre of mass")
        }

        pub fn prepend_translation(self, _: Vec2) -> Pose2 {
            unreachable!("frames arrive relative to each centre of mass")
        }
    }

    /// Rotate, then add.
    impl Mul<Vec2> for Pose2 {
        type Output = Vec2;
        fn mul(self, rhs: Vec2) -> Vec2 {
            self.rotation * rhs + self.translation
        }
    }

    impl Mul for Pose2 {
        type Output = Pose2;
        fn mul(self, rhs: Pose2) -> Pose2 {
            Pose2 {
                rotation: self.rotation * rhs.rotation,
                translation: self * rhs.translation,
            }
        }
    }

    #[repr(C)]
    #[derive(Copy, Clone, Debug)]
    pub struct Mat2 {
        pub x_axis: Vec2,
        pub y_axis: Vec2,
    }

    impl Mat2 {
        pub fn from_cols(x_axis: Vec2, y_axis: Vec2) -> Mat2 {
            Mat2 { x_axis, y_axis }
        }

        pub fn col(&self, i: usize) -> Vec2 {
            match i {
                0 => self.x_axis,
                1 => self.y_axis,
                _ => panic!("a matrix has two columns"),
            }
        }
    }

    /// Asked for by a trait's bounds alone.
    impl MulAssign<f32> for Mat2 {
        fn mul_assign(&mut self, _: f32) {
            unreachable!("no planar row scales a matrix")
        }
    }

    /// Asked for by a trait's bounds alone.
    impl Mul for Mat2 {
        type Output = Mat2;
        fn mul(self, _: Mat2) -> Mat2 {
            unreachable!("no planar row multiplies matrices")
        }
    }

    impl From<Vec2> for nalgebra::Vector2<f32> {
        fn from(v: Vec2) -> Self {
            nalgebra::Vector2 { x: v.x, y: v.y }
        }
    }

    impl From<Mat2> for nalgebra::Matrix2<f32> {
        fn from(m: Mat2) -> Self {
            nalgebra::Matrix2 {
                columns: [m.x_axis.into(), m.y_axis.into()],
            }
        }
    }

    impl From<Pose2> for nalgebra::Isometry2<f32> {
        fn from(_: Pose2) -> Self {
            unreachable!("the lane form is left out")
        }
    }
}

pub mod utils {
    /// The three-dimensional inertia, named by the lane form alone.
    #[derive(Copy, Clone, Debug, Default)]
    pub struct SdpMatrix3<N> {
        pub m11: N,
        pub m12: N,
        pub m13: N,
        pub m22: N,
        pub m23: N,
        pub m33: N,
    }

    impl<N> SdpMatrix3<N> {
        pub fn inverse_unchecked(&self) -> Self {
            unreachable!("the lane form is left out")
        }
    }

    pub mod hashmap {
        use core::marker::PhantomData;

        pub struct HashMap<K, V>(PhantomData<(K, V)>);

        impl<K, V> HashMap<K, V> {
            pub fn remove(&mut self, _: &K) -> Option<V> {
                unreachable!("no joint row looks into a map")
            }
        }
    }
}
