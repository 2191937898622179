//! The stand-ins on vectors, rotations, matrices and poses of space, each called as the rows call it.

use super::records::{inertia, rotation, vector};
use crate::math::{AngularInertia, Matrix, Pose, Real, Rotation, Vector};
use crate::utils::{
    AngularInertiaOps, ComponentMul, CrossProductMatrix, DotProduct, PoseOps, RotationOps,
    ScalarType,
};
use simba::simd::SimdRealField;

/// How many numbers each function reads.
pub const INPUTS: usize = 27;

/// The 27 numbers, in order: vectors v and w, number s, rotations a and b (x, y, z, w each), vectors p and q, and an inertia. Pose P is
/// (a, p) and pose Q is (b, q).
struct Input {
    v: Vector,
    w: Vector,
    s: Real,
    a: Rotation,
    b: Rotation,
    p: Vector,
    q: Vector,
    ii: AngularInertia,
}

fn read(x: &[Real; INPUTS]) -> Input {
    Input {
        v: vector(&x[0..]),
        w: vector(&x[3..]),
        s: x[6],
        a: rotation(&x[7..]),
        b: rotation(&x[11..]),
        p: vector(&x[15..]),
        q: vector(&x[18..]),
        ii: inertia(&x[21..]),
    }
}

fn three(v: Vector) -> [Real; 3] {
    [v.x, v.y, v.z]
}

fn nine(vectors: [Vector; 3]) -> [Real; 9] {
    let mut out = [0.0; 9];
    out.copy_from_slice(vectors.map(three).as_flattened());
    out
}

fn columns(m: Matrix) -> [Real; 9] {
    nine([m.x_axis, m.y_axis, m.z_axis])
}

/// v + w; v − w; v·s.
pub fn vector_sums(x: &[Real; INPUTS]) -> [Real; 9] {
    let Input { v, w, s, .. } = read(x);
    nine([v + w, v - w, v * s])
}

/// The component product of v and w; the inertia on v; v·w, a·b, and 1 with the sign of s.
pub fn vector_products(x: &[Real; INPUTS]) -> [Real; 9] {
    let Input {
        v, w, s, a, b, ii, ..
    } = read(x);
    let dot = RotationOps::<Real>::dot(&a, &b);
    let moved = AngularInertiaOps::<Real>::transform_vector(&ii, v);
    let single = Vector::new(v.gdot(w), dot, 1.0f32.simd_copysign(s));
    nine([v.component_mul(&w), moved, single])
}

/// The columns of the cross matrix of v.
pub fn cross_matrix(x: &[Real; INPUTS]) -> [Real; 9] {
    columns(read(x).v.gcross_matrix())
}

/// a·b; the inverse of a; v turned by a.
pub fn rotation_products(x: &[Real; INPUTS]) -> [Real; 11] {
    let Input { v, a, b, .. } = read(x);
    fn inverse_of<N: ScalarType<Rotation = R>, R: RotationOps<N>>(r: R) -> R {
        r.inverse()
    }
    let (product, inverse, turned) = (a * b, inverse_of::<Real, Rotation>(a), a * v);
    let [i, j] = [product, inverse].map(|q| [q.x, q.y, q.z, q.w]);
    let mut out = [0.0; 11];
    out[..4].copy_from_slice(&i);
    out[4..8].copy_from_slice(&j);
    out[8..].copy_from_slice(&three(turned));
    out
}

/// The columns of a's matrix.
pub fn rotation_columns(x: &[Real; INPUTS]) -> [Real; 9] {
    columns(RotationOps::<Real>::to_mat(read(x).a))
}

/// The columns of the derivative of (inverse a)·b: those of the transpose that the row helper takes.
pub fn derivative(x: &[Real; INPUTS]) -> [Real; 9] {
    let Input { a, b, .. } = read(x);
    columns(RotationOps::<Real>::diff_conj1_2_tr(&a, &b).transpose())
}

/// The same by the body that rotation_ops.rs has.
pub fn own_derivative(x: &[Real; INPUTS]) -> [Real; 9] {
    let Input { a, b, .. } = read(x);
    columns(RotationOps::<Real>::diff_conj1_2(&a, &b))
}

/// The columns of a's matrix times b's.
pub fn matrix_product(x: &[Real; INPUTS]) -> [Real; 9] {
    let Input { a, b, .. } = read(x);
    columns(RotationOps::<Real>::to_mat(a) * RotationOps::<Real>::to_mat(b))
}

/// P·Q: rotation x, y, z, w, then translation.
pub fn pose_product(x: &[Real; INPUTS]) -> [Real; 7] {
    let Input { a, b, p, q, .. } = read(x);
    let product = Pose::from_parts(p, a) * Pose::from_parts(q, b);
    let (r, t) = (
        PoseOps::<Real>::rotation(&product),
        PoseOps::<Real>::translation(&product),
    );
    [r.x, r.y, r.z, r.w, t.x, t.y, t.z]
}
