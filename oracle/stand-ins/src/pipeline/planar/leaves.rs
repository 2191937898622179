//! The float leaves and the stand-ins on vectors, rotations and poses, each called as the rows
//! call it.

use crate::math::{Pose, Real, Rotation, Vector};
use crate::utils::{
    AngularInertiaOps, ComponentMul, CrossProductMatrix, DotProduct, MatrixColumn, PoseOps,
    RotationOps, ScalarType, SimdLength,
};
use simba::simd::{SimdPartialOrd, SimdRealField};

pub fn inv(val: Real) -> Real {
    crate::utils::inv(val)
}

pub fn simd_inv(val: Real) -> Real {
    crate::utils::simd_inv(val)
}

pub fn smallest_abs_diff_between_angles(a: Real, b: Real) -> Real {
    crate::utils::smallest_abs_diff_between_angles(a, b)
}

pub fn signum(x: Real) -> Real {
    x.simd_signum()
}

pub fn max(a: Real, b: Real) -> Real {
    a.simd_max(b)
}

pub fn min(a: Real, b: Real) -> Real {
    a.simd_min(b)
}

pub fn clamp(x: Real, low: Real, high: Real) -> Real {
    x.simd_clamp(low, high)
}

pub fn is_finite(x: Real) -> bool {
    leaf::is_finite(x)
}

pub fn sqrt(x: Real) -> Real {
    leaf::sqrt(x)
}

/// As `recentered_angle` asks for it.
pub fn angle(re: Real, im: Real) -> Real {
    im.simd_atan2(re)
}

pub fn series(w: u64) -> u64 {
    leaf::series(w)
}

pub fn series_terms(w: u64) -> u64 {
    leaf::series_terms(w)
}

pub fn micro_report(x: Real) -> i64 {
    leaf::micro_report(x)
}

/// How many numbers each function on vectors reads.
pub const INPUTS: usize = 13;

/// The 13 numbers, in order: vector v, vector w, number s, rotations a and b (re, im each), and
/// two more vectors, p and q. Pose P is (a, p) and pose Q is (b, q).
struct Input {
    v: Vector,
    w: Vector,
    s: Real,
    a: Rotation,
    b: Rotation,
    p: Vector,
    q: Vector,
}

fn read(x: &[Real; INPUTS]) -> Input {
    Input {
        v: Vector::new(x[0], x[1]),
        w: Vector::new(x[2], x[3]),
        s: x[4],
        a: Rotation { re: x[5], im: x[6] },
        b: Rotation { re: x[7], im: x[8] },
        p: Vector::new(x[9], x[10]),
        q: Vector::new(x[11], x[12]),
    }
}

/// v·w; length of v; cross matrix of v; component product of v and w.
pub fn vector_products(x: &[Real; INPUTS]) -> [Real; 6] {
    let Input { v, w, .. } = read(x);
    let (c, m) = (v.gcross_matrix(), v.component_mul(&w));
    [v.gdot(w), v.simd_length(), c.x, c.y, m.x, m.y]
}

/// v + w; v − w; v·s.
pub fn vector_sums(x: &[Real; INPUTS]) -> [Real; 6] {
    let Input { v, w, s, .. } = read(x);
    let (sum, difference, scaled) = (v + w, v - w, v * s);
    [sum.x, sum.y, difference.x, difference.y, scaled.x, scaled.y]
}

/// a·b; inverse of a; v rotated by a.
pub fn rotation_products(x: &[Real; INPUTS]) -> [Real; 6] {
    let Input { v, a, b, .. } = read(x);
    fn inverse_of<N: ScalarType<Rotation = R>, R: RotationOps<N>>(r: R) -> R {
        r.inverse()
    }
    let (product, inverse, rotated) = (a * b, inverse_of::<Real, Rotation>(a), a * v);
    [
        product.re, product.im, inverse.re, inverse.im, rotated.x, rotated.y,
    ]
}

/// The two columns of a's matrix; a's angle; inertia s times the angular number v.x.
pub fn rotation_columns(x: &[Real; INPUTS]) -> [Real; 6] {
    let Input { v, s, a, .. } = read(x);
    let basis = RotationOps::<Real>::to_mat(a);
    let (first, second) = (basis.column(0), basis.column(1));
    let angle = RotationOps::<Real>::angle(&a);
    let moved = AngularInertiaOps::<Real>::transform_vector(&s, v.x);
    [first.x, first.y, second.x, second.y, angle, moved]
}

/// P·Q: re, im, x, y.
pub fn pose_product(x: &[Real; INPUTS]) -> [Real; 4] {
    let Input { a, b, p, q, .. } = read(x);
    let product = Pose::from_parts(p, a) * Pose::from_parts(q, b);
    let (rotation, translation) = (
        PoseOps::<Real>::rotation(&product),
        PoseOps::<Real>::translation(&product),
    );
    [rotation.re, rotation.im, translation.x, translation.y]
}
