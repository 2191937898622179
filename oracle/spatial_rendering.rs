//! A second rendering of the rows in space, from request R-14, document 01 and the Rust, in flat numbers. It shares no code with the oracle, and it
//! can carry one fault of `FAULTS` at a time: with them the comparison shows that it sees faults.

use std::sync::atomic::{AtomicU32, Ordering};

static FAULT: AtomicU32 = AtomicU32::new(0);

/// Carries fault `number` from here on; 0 is none.
pub fn carry(number: u32) {
    FAULT.store(number, Ordering::Relaxed)
}

/// Fault k is entry k − 1.
pub const FAULTS: [&str; 112] = [
    // Numbers that have no dimension.
    "inv_dt is 1/dt at dt = 0 as well",
    "max_impulse is max_force·dt at dt = 0 as well",
    "max_corrective_velocity multiplies f32 MAX as well",
    "motor models exchanged",
    "simd_inv for inv in combine_coefficients",
    "dt·(dt·stiffness) for (dt·dt)·stiffness",
    "the spring's undamped case left out",
    "the spring's zero erp left out",
    "(1 + i)·4·(ratio·ratio) for ((1 + i)·4·ratio)·ratio in the spring",
    // Vectors, quaternions, matrices.
    "dot: x + (y + z)",
    "dot: fused products",
    "quaternions: the textbook order of the parts y and z",
    "quaternions: w from the right",
    "turn: products with the turned vector's w left out",
    "turn: q·(p·inverse)",
    "turn: by v + 2·(w·(q×v) + q×(q×v))",
    "turn: inverse·p·q",
    "matrix of a quaternion: products with zeros of the axes left out",
    "matrix of a quaternion: the textbook one",
    "matrix of a quaternion: transposed",
    "dot of quaternions: w first",
    "dot of quaternions: w left out",
    "sign: a NaN's is minus",
    "sign: by comparison with 0, so that of −0 is plus",
    "sign: of the other rotation's w alone",
    "sign: always plus",
    "sign: not on the angular error",
    "sign: not on the derivative",
    "derivative: not transposed",
    "derivative: by the Rust's own body",
    "derivative: halved first",
    "derivative: not halved",
    "derivative: (inverse q1)·(axis·q2)",
    "derivative: products with zeros of the axes left out",
    "derivative: q1 for its inverse",
    "derivative: of (inverse q2)·q1",
    "cross matrix: transposed",
    "cross matrix: products with its zeros left out",
    "cross matrix: times the basis from the other side",
    "inertia: m13 and m22 exchanged",
    "inertia: m22 and m33 exchanged",
    "inertia: its diagonal alone",
    "inertia: sums from the right",
    "inertia: turned by the body's rotation",
    "inertia: body 1's for body 2's",
    // Frames.
    "a pose's translation is added before the rotation",
    "a frame's rotation times the body's",
    "a frame's rotation is normalised",
    "w is a rotation's first number",
    "free axes are snapped, locked ones are not",
    "no axis is snapped",
    "snap: by the angular bits of the mask",
    "snap: by any bit of an axis, linear or angular",
    "snap: axes 0 and 1 alone",
    "snap: the distance from the snapped point",
    "the error is taken after the snap",
    "the arm of body 2 from body 1's centre",
    "the error of the rotation: frame 2's inverse times frame 1's",
    // Rows.
    "linear limit: < for ≤ at the low end",
    "linear limit: < for ≤ at the high end",
    "linear limit: bias without cap",
    "linear limit: limits[0] for limits[1] in the bias",
    "linear limit: no row strictly inside the limits",
    "axis 2: taken for an angular one",
    "motor: the error counts at erp_inv_dt = 0 as well",
    "motor: starts at −target_vel, not at 0 + (−target_vel)",
    "motor: the limits clamp with the high end first",
    "motor: the limits are not taken times inv_dt",
    "motor: a limit on axis 2 does not clamp it",
    "motor: a limit clamps it where the axis has none",
    "angular lock: twice the component",
    "angular lock: the error's next component",
    "angular lock: a column of the basis for one of the derivative",
    "angular lock: ang_jac2 by the opposite sign",
    "angular lock: its linear part −0",
    "lock: rhs is the bias, not 0 + bias",
    "lock: bounds infinite for ±f32 MAX",
    // Order and groups.
    "locks before motors",
    "linear locks before angular ones",
    "limits before locks",
    "limits between angular and linear locks",
    "angular locks in descending order",
    "motors on locked axes",
    "limits on locked axes",
    "motors and locks orthogonalised as one group",
    "angular locks in a group of their own",
    // finalize_constraints.
    "inv for simd_inv in inv_lhs",
    "inv for simd_inv in inv_dot_jj",
    "im1 for im1 + im2",
    "each row's own im1 + im2 for the first row's",
    "infinite bounds count as a lock",
    "a motor never counts as a lock",
    "an angular lock never counts as a lock",
    "cfm_gain replaced, not added to",
    "inv_lhs without cfm_gain",
    "dot_jj adds its two angular parts first",
    "rhs for rhs_wo_bias in the reduction",
    "ii_ang_jac is not reduced",
    "dot_ij with the rows as they came (classical Gram-Schmidt)",
    // The calls on rows.
    "step: dlinvel + (dangvel + rhs)",
    "step: high tried before low",
    "step: the impulse before the clamp moves the bodies",
    "step: (lin_jac·im)·impulse for (lin_jac·impulse)·im",
    "step: z of the angular velocity is not moved",
    "warm start: left out at impulse zero",
    "bias removal: rhs_wo_bias set to rhs",
    "seeds: Dof(3) to Dof(5) left out",
    "write-back: Dof(3) to Dof(5) left out",
    "write-back and seeds: Dof(3) to Dof(5) at Dof(0) to Dof(2)",
    "write-back: Limit's impulse into the motor",
    "stored and last impulse exchanged between substep 0 and later ones",
    "no warm coefficient keeps the row's last impulse",
];

/// Whether fault `number` is carried.
fn fault(number: u32) -> bool {
    FAULT.load(Ordering::Relaxed) == number
}

/// The right one, or the wrong one where fault `number` is carried.
macro_rules! or(
    ($number: expr, $right: expr, $wrong: expr) => { if fault($number) { $wrong } else { $right } }
);

const E: f32 = f32::from_bits(0x1E3C_E508);
const TWO_PI: f32 = f32::from_bits(0x40C9_0FDB);
const INFINITY: f32 = f32::INFINITY;
/// Numbers of a row, of a body without its velocity, of a joint.
const ROW: usize = 29;
const BODY: usize = 16;
const JOINT: usize = 49;

type V = [f32; 3];
/// x, y, z, w.
type Q = [f32; 4];
/// Columns.
type M = [V; 3];

fn inv(x: f32) -> f32 {
    if -E <= x && x <= E { 0.0 } else { 1.0 / x }
}

fn simd_inv(x: f32) -> f32 {
    if -E < x && x < E { 0.0 } else { 1.0 / x }
}

fn max(a: f32, b: f32) -> f32 {
    if a >= b { a } else { b }
}

fn clamp(x: f32, low: f32, high: f32) -> f32 {
    if x < low {
        low
    } else if x > high {
        high
    } else {
        x
    }
}

fn clamp_high_first(x: f32, low: f32, high: f32) -> f32 {
    if x > high {
        high
    } else if x < low {
        low
    } else {
        x
    }
}

/// A number for each component.
fn by(f: impl Fn(usize) -> f32) -> V {
    [f(0), f(1), f(2)]
}

fn v3(n: &[f32]) -> V {
    by(|i| n[i])
}

pub fn dot(a: V, b: V) -> f32 {
    if fault(11) {
        return a[2].mul_add(b[2], a[1].mul_add(b[1], a[0] * b[0]));
    }
    let [x, y, z] = each(a, b);
    or!(10, x + y + z, x + (y + z))
}

fn add(a: V, b: V) -> V {
    by(|i| a[i] + b[i])
}

fn sub(a: V, b: V) -> V {
    by(|i| a[i] - b[i])
}

fn scale(a: V, s: f32) -> V {
    by(|i| a[i] * s)
}

fn each(a: V, b: V) -> V {
    by(|i| a[i] * b[i])
}

/// The plain cross product, for faults alone.
fn cross(a: V, b: V) -> V {
    by(|i| {
        let (j, k) = ((i + 1) % 3, (i + 2) % 3);
        a[j] * b[k] - a[k] * b[j]
    })
}

/// The product of two quaternions.
pub fn product([x1, y1, z1, w1]: Q, [x2, y2, z2, w2]: Q) -> Q {
    let x = w1 * x2 + x1 * w2 + y1 * z2 - z1 * y2;
    let y = or!(
        12,
        w1 * y2 + y1 * w2 + z1 * x2 - x1 * z2,
        w1 * y2 - x1 * z2 + y1 * w2 + z1 * x2
    );
    let z = or!(
        12,
        w1 * z2 + z1 * w2 + x1 * y2 - y1 * x2,
        w1 * z2 + x1 * y2 - y1 * x2 + z1 * w2
    );
    let w = or!(
        13,
        w1 * w2 - x1 * x2 - y1 * y2 - z1 * z2,
        w1 * w2 - (x1 * x2 + (y1 * y2 + z1 * z2))
    );
    [x, y, z, w]
}

pub fn inverse([x, y, z, w]: Q) -> Q {
    [-x, -y, -z, w]
}

fn pure([x, y, z]: V) -> Q {
    [x, y, z, 0.0]
}

fn xyz(q: Q) -> V {
    v3(&q)
}

/// A quaternion times a vector without the products that the vector's w has.
fn times_pure([x, y, z, w]: Q, [a, b, c]: V) -> Q {
    [
        w * a + y * c - z * b,
        w * b + z * a - x * c,
        w * c + x * b - y * a,
        -(x * a) - y * b - z * c,
    ]
}

/// A quaternion times axis i without the products with the axis's zeros.
fn times_axis(q: Q, i: usize) -> Q {
    let [x, y, z, w] = q;
    match i {
        0 => [w, z, -y, -x],
        1 => [-z, w, x, -y],
        _ => [y, -x, w, -z],
    }
}

/// The vector turned.
pub fn turn(q: Q, v: V) -> V {
    if fault(16) {
        let u = xyz(q);
        let twice = add(scale(cross(u, v), q[3]), cross(u, cross(u, v)));
        return add(v, scale(twice, 2.0));
    }
    let (left, right) = or!(17, (q, inverse(q)), (inverse(q), q));
    if fault(15) {
        return xyz(product(left, product(pure(v), right)));
    }
    let first = or!(14, product(left, pure(v)), times_pure(left, v));
    xyz(product(first, right))
}

fn transpose(m: M) -> M {
    [0, 1, 2].map(|i| [0, 1, 2].map(|j| m[j][i]))
}

/// The turned axes.
pub fn matrix(q: Q) -> M {
    if fault(19) {
        let [x, y, z, w] = q;
        return [
            [
                1.0 - 2.0 * (y * y + z * z),
                2.0 * (x * y + w * z),
                2.0 * (x * z - w * y),
            ],
            [
                2.0 * (x * y - w * z),
                1.0 - 2.0 * (x * x + z * z),
                2.0 * (y * z + w * x),
            ],
            [
                2.0 * (x * z + w * y),
                2.0 * (y * z - w * x),
                1.0 - 2.0 * (x * x + y * y),
            ],
        ];
    }
    let made = [0, 1, 2].map(|i| {
        if fault(18) {
            xyz(product(times_axis(q, i), inverse(q)))
        } else {
            turn(q, axis(i))
        }
    });
    or!(20, made, transpose(made))
}

fn axis(i: usize) -> V {
    by(|j| if i == j { 1.0 } else { 0.0 })
}

pub fn dot4(p: Q, q: Q) -> f32 {
    let [x, y, z, w] = [0, 1, 2, 3].map(|i| p[i] * q[i]);
    if fault(21) {
        w + x + y + z
    } else {
        or!(22, x + y + z + w, x + y + z)
    }
}

/// 1 with the sign of x.
pub fn sign(x: f32) -> f32 {
    let minus = if x.is_nan() {
        fault(23)
    } else {
        or!(24, x.is_sign_negative(), x < 0.0)
    };
    if minus { -1.0 } else { 1.0 }
}

/// The derivative of (inverse p)·q as rotation_ops.rs has it.
fn own_derivative(p: Q, q: Q) -> M {
    let (u, v) = (xyz(p), xyz(q));
    let mixed = cross_matrix(add(scale(u, q[3]), scale(v, p[3])));
    let both = times(cross_matrix(u), cross_matrix(v));
    let outer = [0, 1, 2].map(|j| scale(u, v[j]));
    let diagonal = [0, 1, 2].map(|j| scale(axis(j), p[3] * q[3]));
    let entry =
        |j: usize, i: usize| (outer[j][i] + diagonal[j][i] - mixed[j][i] + both[j][i]) * 0.5;
    [0, 1, 2].map(|j| by(|i| entry(j, i)))
}

/// The columns of the derivative of (inverse p)·q.
pub fn derivative(p: Q, q: Q) -> M {
    if fault(30) {
        return own_derivative(p, q);
    }
    let (p, q) = or!(36, (p, q), (q, p));
    let left = or!(35, inverse(p), p);
    [0, 1, 2].map(|i| {
        if fault(31) {
            return xyz(product(product(left, pure(scale(axis(i), 0.5))), q));
        }
        let made = if fault(33) {
            product(left, product(pure(axis(i)), q))
        } else if fault(34) {
            product(times_axis(left, i), q)
        } else {
            product(product(left, pure(axis(i))), q)
        };
        scale(xyz(made), or!(32, 0.5, 1.0))
    })
}

/// Rows (0, −z, y), (z, 0, −x), (−y, x, 0).
pub fn cross_matrix([x, y, z]: V) -> M {
    let rows = [[0.0, -z, y], [z, 0.0, -x], [-y, x, 0.0]];
    or!(37, transpose(rows), rows)
}

/// Matrices multiply by dots.
pub fn times(a: M, b: M) -> M {
    let rows = transpose(a);
    b.map(|column| rows.map(|row| dot(row, column)))
}

/// The inertia in six numbers, times a vector.
pub fn inertia(n: &[f32], v: V) -> V {
    let [a, b, c, d, e, f] = n[..6] else {
        unreachable!()
    };
    let (c, d) = or!(40, (c, d), (d, c));
    let (d, f) = or!(41, (d, f), (f, d));
    let (b, c, e) = or!(42, (b, c, e), (0.0, 0.0, 0.0));
    let rows = [[a, b, c], [b, d, e], [c, e, f]];
    rows.map(|row| {
        let [x, y, z] = each(row, v);
        or!(43, x + y + z, x + (y + z))
    })
}

fn inv_dt(dt: f32) -> f32 {
    if dt == 0.0 && !fault(1) {
        0.0
    } else {
        1.0 / dt
    }
}

fn max_impulse(max_force: f32, dt: f32) -> f32 {
    if dt == 0.0 && !fault(2) {
        0.0
    } else {
        max_force * dt
    }
}

fn max_corrective_velocity(length_unit: f32, normalized: f32) -> f32 {
    if normalized == f32::MAX && !fault(3) {
        f32::MAX
    } else {
        normalized * length_unit
    }
}

/// `erp_inv_dt`, `cfm_coeff`, `cfm_gain`.
fn combine_coefficients(model: u32, dt: f32, stiffness: f32, damping: f32) -> V {
    let inv = or!(5, inv, simd_inv);
    let erp_inv_dt = stiffness * inv(dt * stiffness + damping);
    let square = or!(6, dt * dt * stiffness, dt * (dt * stiffness));
    let cfm = inv(square + dt * damping);
    if (model == 0) != fault(4) {
        [erp_inv_dt, cfm, 0.0]
    } else {
        [erp_inv_dt, 0.0, cfm]
    }
}

/// `erp_inv_dt`, `cfm_coeff`.
fn spring(frequency: f32, ratio: f32, dt: f32) -> [f32; 2] {
    let omega = frequency * TWO_PI;
    let erp_inv_dt = omega / (dt * omega + 2.0 * ratio);
    let erp = dt * erp_inv_dt;
    let cfm_coeff = if erp == 0.0 && !fault(8) {
        0.0
    } else if ratio == 0.0 && !fault(7) {
        1.0 / (dt * omega * (dt * omega + 2.0 * ratio))
    } else {
        let i = 1.0 / erp - 1.0;
        let below = (1.0 + i) * 4.0;
        i * i / or!(9, below * ratio * ratio, below * (ratio * ratio))
    };
    [erp_inv_dt, cfm_coeff]
}

#[derive(Copy, Clone, PartialEq)]
enum Kind {
    Dof,
    Limit,
    Motor,
}

use Kind::{Dof, Limit, Motor};

/// A row's id.
#[derive(Copy, Clone)]
struct Id {
    kind: Kind,
    axis: usize,
}

impl Id {
    /// 8·kind + axis.
    fn word(self) -> u32 {
        8 * self.kind as u32 + self.axis as u32
    }
}

/// The ids of both groups: motors; locks and limits.
fn row_ids(words: &[u32]) -> [Vec<Id>; 2] {
    let l = words[0];
    let t = words[1] & or!(84, !l, !0);
    let m = words[2] & or!(83, !l, !0);
    let of = |kind, mask: u32, axes: Vec<usize>| -> Vec<Id> {
        let there = axes.into_iter().filter(move |a| mask >> a & 1 == 1);
        there.map(|axis| Id { kind, axis }).collect()
    };
    let one = of(Motor, m, vec![0, 1, 2]);
    let angular = of(Dof, l, or!(82, vec![3, 4, 5], vec![5, 4, 3]));
    let linear = of(Dof, l, vec![0, 1, 2]);
    let limits = of(Limit, t, vec![0, 1, 2]);
    let two = if fault(79) {
        [linear, angular, limits]
    } else if fault(80) {
        [limits, angular, linear]
    } else if fault(81) {
        [angular, limits, linear]
    } else {
        [angular, linear, limits]
    };
    let two = two.concat();
    or!(78, [one, two], [two, one])
}

/// The ids of a joint's rows by its four masks, 8·kind + axis each.
pub fn ids(masks: &[u32]) -> Vec<u32> {
    row_ids(masks).concat().into_iter().map(Id::word).collect()
}

#[derive(Copy, Clone)]
struct Row {
    impulse: f32,
    bounds: [f32; 2],
    lin_jac: V,
    ang_jac: [V; 2],
    ii_ang_jac: [V; 2],
    inv_lhs: f32,
    rhs: f32,
    rhs_wo_bias: f32,
    cfm_gain: f32,
    cfm_coeff: f32,
    im: [V; 2],
}

fn row(n: &[f32]) -> Row {
    Row {
        impulse: n[0],
        bounds: [n[1], n[2]],
        lin_jac: v3(&n[3..]),
        ang_jac: [v3(&n[6..]), v3(&n[9..])],
        ii_ang_jac: [v3(&n[12..]), v3(&n[15..])],
        inv_lhs: n[18],
        rhs: n[19],
        rhs_wo_bias: n[20],
        cfm_gain: n[21],
        cfm_coeff: n[22],
        im: [v3(&n[23..]), v3(&n[26..])],
    }
}

fn put(r: &Row, n: &mut [f32]) {
    let [low, high] = r.bounds;
    let [a1, a2] = r.ang_jac;
    let [i1, i2] = r.ii_ang_jac;
    let [m1, m2] = r.im;
    let all: Vec<f32> = [[r.impulse, low, high], r.lin_jac, a1, a2, i1, i2]
        .concat()
        .into_iter()
        .chain([r.inv_lhs, r.rhs, r.rhs_wo_bias, r.cfm_gain, r.cfm_coeff])
        .chain(m1)
        .chain(m2)
        .collect();
    n.copy_from_slice(&all);
}

/// All that a joint's rows are made from.
struct Joint<'a> {
    words: &'a [u32],
    dt: f32,
    max_bias: f32,
    erp_inv_dt: f32,
    cfm_coeff: f32,
    /// The joint's 49 numbers.
    n: &'a [f32],
    /// The directions of frame 1.
    basis: M,
    /// The cross matrix of each body's arm, times the basis.
    arms: [M; 2],
    /// The derivative of the angular error: row i is what axis 3 + i turns about.
    ang_basis: M,
    lin_err: V,
    ang_err: Q,
    /// Inverse inertia, six numbers each.
    ii: [&'a [f32]; 2],
    im: [V; 2],
}

/// The four numbers of a rotation.
fn rotation(n: &[f32]) -> Q {
    or!(49, [n[0], n[1], n[2], n[3]], [n[1], n[2], n[3], n[0]])
}

/// A body's numbers with a frame on it: rotation and translation in the world.
fn placed(body: &[f32], frame: &[f32]) -> (Q, V) {
    let (q, from) = (rotation(body), v3(&body[4..]));
    let (p, to) = (rotation(frame), v3(&frame[4..]));
    let mut turned = or!(47, product(q, p), product(p, q));
    if fault(48) {
        let length = dot4(turned, turned).sqrt();
        turned = turned.map(|x| x / length);
    }
    (
        turned,
        or!(46, add(turn(q, to), from), turn(q, add(to, from))),
    )
}

impl<'a> Joint<'a> {
    fn new(words: &'a [u32], numbers: &'a [f32]) -> Self {
        let (settings, rest) = numbers.split_at(3);
        let (body1, rest) = rest.split_at(BODY);
        let (body2, rest) = rest.split_at(BODY);
        let n = &rest[..JOINT];
        let dt = settings[0];
        let [erp_inv_dt, cfm_coeff] = spring(n[41], n[42], dt);

        let (q1, t1) = placed(body1, &n[..7]);
        let (q2, t2) = placed(body2, &n[7..14]);
        let basis = matrix(q1);
        let mut lin_err = sub(t2, t1);
        let mut at = t2;
        for i in 0..or!(54, 3, 2) {
            let own = words[0] >> i & 1 == 1;
            let angular = words[0] >> (i + 3) & 1 == 1;
            let locked = if fault(53) {
                own || angular
            } else {
                or!(52, own, angular)
            };
            if locked != fault(50) && !fault(51) {
                let err = or!(55, lin_err, sub(at, t1));
                at = sub(at, scale(basis[i], dot(err, basis[i])));
            }
        }
        if fault(56) {
            lin_err = sub(t2, at);
        }
        let (com1, com2) = (v3(&body1[4..]), v3(&body2[4..]));
        let arms = [sub(at, com1), sub(t2, or!(57, com2, com1))].map(|arm| {
            if fault(38) {
                basis.map(|b| cross(arm, b))
            } else {
                let cmat = cross_matrix(arm);
                or!(39, times(cmat, basis), times(basis, cmat))
            }
        });

        let s = sign(or!(25, dot4(q1, q2), q2[3]));
        let s = or!(26, s, 1.0);
        let change = derivative(q1, q2);
        let ang_basis = or!(29, change, transpose(change)).map(|c| scale(c, or!(28, s, 1.0)));
        let error = or!(58, product(inverse(q1), q2), product(inverse(q2), q1));
        Joint {
            words,
            dt,
            max_bias: max_corrective_velocity(settings[1], settings[2]),
            erp_inv_dt,
            cfm_coeff,
            n,
            basis,
            arms,
            ang_basis,
            lin_err,
            ang_err: error.map(|x| x * or!(27, s, 1.0)),
            ii: [&body1[7..13], or!(45, &body2[7..13], &body1[7..13])],
            im: [v3(&body1[13..]), v3(&body2[13..])],
        }
    }

    /// Axis i's limit ends.
    fn limit(&self, i: usize) -> [f32; 2] {
        [self.n[14 + 3 * i], self.n[15 + 3 * i]]
    }

    /// A row with these jacobians and nothing wanted of it.
    fn along(&self, lin_jac: V, ang_jac: [V; 2], bounds: [f32; 2]) -> Row {
        let ii = |k: usize| {
            if fault(44) {
                let q = rotation(&self.n[7 * k..]);
                turn(q, inertia(self.ii[k], turn(inverse(q), ang_jac[k])))
            } else {
                inertia(self.ii[k], ang_jac[k])
            }
        };
        Row {
            impulse: 0.0,
            bounds,
            lin_jac,
            ang_jac,
            ii_ang_jac: [ii(0), ii(1)],
            inv_lhs: 0.0,
            rhs: 0.0,
            rhs_wo_bias: 0.0,
            cfm_gain: 0.0,
            cfm_coeff: self.cfm_coeff,
            im: self.im,
        }
    }

    /// A row along linear axis i, or about angular axis i − 3.
    fn along_axis(&self, i: usize, bounds: [f32; 2]) -> Row {
        if i < or!(64, 3, 2) {
            return self.along(self.basis[i], self.arms.map(|m| m[i]), bounds);
        }
        let i = if i == 2 { 0 } else { i - 3 };
        // The derivative's columns stand in ang_basis: row i is their i-th components.
        let about = or!(73, by(|a| self.ang_basis[a][i]), self.basis[i]);
        let zero = or!(75, 0.0, -0.0);
        let other = or!(74, about, scale(about, -1.0));
        self.along([zero; 3], [about, other], bounds)
    }

    fn row(&self, id: Id) -> Row {
        match id.kind {
            Motor => self.motor(id.axis),
            Dof => self.lock(id.axis),
            Limit => self.linear_limit(id.axis),
        }
    }

    fn lock(&self, i: usize) -> Row {
        let bound = or!(77, f32::MAX, INFINITY);
        let mut row = self.along_axis(i, [-bound, bound]);
        let error = if i < 3 {
            dot(row.lin_jac, self.lin_err)
        } else {
            let of = or!(72, i - 3, (i - 2) % 3);
            self.ang_err[of] * or!(71, 1.0, 2.0)
        };
        let bias = error * self.erp_inv_dt;
        row.rhs = or!(76, 0.0 + bias, bias);
        row
    }

    fn linear_limit(&self, i: usize) -> Row {
        let [low, high] = self.limit(i);
        let at = dot(self.lin_err, self.basis[i]);
        let below = or!(59, at <= low, at < low);
        let above = or!(60, high <= at, high < at);
        let bounds = [
            if below { -INFINITY } else { 0.0 },
            if above { INFINITY } else { 0.0 },
        ];
        let mut row = self.along_axis(i, bounds);
        let over = at - or!(62, high, low);
        let bias = (max(over, 0.0) - max(low - at, 0.0)) * self.erp_inv_dt;
        row.rhs = 0.0 + or!(61, clamp(bias, -self.max_bias, self.max_bias), bias);
        row
    }

    fn motor(&self, i: usize) -> Row {
        let [target_vel, target_pos, stiffness, damping, max_force] = self.n[23 + 6 * i..][..5]
        else {
            unreachable!()
        };
        let model = self.words[4 + i];
        let [erp_inv_dt, cfm_coeff, cfm_gain] =
            combine_coefficients(model, self.dt, stiffness, damping);
        let most = max_impulse(max_force, self.dt);
        let mut row = self.along_axis(i, [-most, most]);
        let dist = dot(self.lin_err, self.basis[i]);

        let mut wanted = 0.0;
        if erp_inv_dt != 0.0 || fault(65) {
            wanted += (dist - target_pos) * erp_inv_dt;
        }
        let limited = self.words[1] & !self.words[0] & or!(69, 7, 3);
        let mut target_vel = target_vel;
        if limited >> i & 1 == 1 || fault(70) {
            let [low, high] = self.limit(i);
            let by = or!(68, inv_dt(self.dt), 1.0);
            let clamp = or!(67, clamp, clamp_high_first);
            target_vel = clamp(target_vel, (low - dist) * by, (high - dist) * by);
        }
        wanted = if fault(66) && wanted == 0.0 {
            -target_vel
        } else {
            wanted + -target_vel
        };
        row.cfm_coeff = cfm_coeff;
        row.cfm_gain = cfm_gain;
        row.rhs = wanted;
        row.rhs_wo_bias = wanted;
        row
    }
}

/// The product of two rows, by the masses of both bodies.
fn row_dot(imsum: V, ci: &Row, cj: &Row) -> f32 {
    let linear = dot(ci.lin_jac, each(imsum, cj.lin_jac));
    let [first, second] = [0, 1].map(|k| dot(ci.ii_ang_jac[k], cj.ang_jac[k]));
    or!(96, linear + first + second, linear + (first + second))
}

/// `finalize_constraints`; `kinds` says what the rows are.
fn orthogonalise(rows: &mut [Row], kinds: &[Option<Id>]) {
    let came = rows.to_vec();
    for j in 0..rows.len() {
        let of = or!(90, rows[0].im, rows[j].im);
        let imsum = add(of[0], or!(89, of[1], [0.0; 3]));
        let cj = rows[j];
        let dot_jj = row_dot(imsum, &cj, &cj);
        let gain = dot_jj * cj.cfm_coeff + or!(94, cj.cfm_gain, 0.0);
        let inv_dot_jj = or!(88, simd_inv, inv)(dot_jj);
        rows[j].inv_lhs = or!(87, simd_inv, inv)(or!(95, dot_jj + gain, dot_jj));
        rows[j].cfm_gain = gain;

        let lock =
            cj.bounds == [-f32::MAX, f32::MAX] || fault(91) && cj.bounds == [-INFINITY, INFINITY];
        let never = kinds[j].is_some_and(|id| {
            fault(92) && id.kind == Motor || fault(93) && id.kind == Dof && id.axis > 2
        });
        if !lock || never {
            continue;
        }
        for i in j + 1..rows.len() {
            let coeff = row_dot(imsum, &or!(99, rows[i], came[i]), &cj) * inv_dot_jj;
            let ci = &mut rows[i];
            ci.lin_jac = sub(ci.lin_jac, scale(cj.lin_jac, coeff));
            for k in 0..2 {
                ci.ang_jac[k] = sub(ci.ang_jac[k], scale(cj.ang_jac[k], coeff));
                if !fault(98) {
                    ci.ii_ang_jac[k] = sub(ci.ii_ang_jac[k], scale(cj.ii_ang_jac[k], coeff));
                }
            }
            ci.rhs_wo_bias -= or!(97, cj.rhs_wo_bias, cj.rhs) * coeff;
            ci.rhs -= cj.rhs * coeff;
        }
    }
}

/// Builds the rows of the joint: 9 words and 85 numbers, into storage of nine rows. Returns their count.
pub fn build(words: &[u32], numbers: &[f32], rows: &mut [f32], ids: &mut [u32]) -> usize {
    let joint = Joint::new(words, numbers);
    let [one, mut two] = row_ids(words);
    if fault(63) {
        let inside = |id: &Id| id.kind == Limit && joint.row(*id).bounds == [0.0, 0.0];
        two.retain(|id| !inside(id));
    }
    let all: Vec<Id> = one.iter().chain(&two).copied().collect();
    let kinds: Vec<Option<Id>> = all.iter().copied().map(Some).collect();
    let mut made: Vec<Row> = all.iter().map(|id| joint.row(*id)).collect();
    let cut = one.len();
    let angular = two
        .iter()
        .filter(|id| id.kind == Dof && id.axis > 2)
        .count();
    let mut ends = vec![cut, made.len()];
    if fault(85) {
        ends = vec![made.len()];
    }
    if fault(86) {
        ends = vec![cut, cut + angular, made.len()];
    }
    let mut start = 0;
    for end in ends {
        orthogonalise(&mut made[start..end], &kinds[start..end]);
        start = end;
    }

    let (warm, substep, coeff) = (words[7] != 0, words[8], numbers[84]);
    let lasts: Vec<f32> = (0..9).map(|k| rows[ROW * k]).collect();
    for (k, (mut row, id)) in made.into_iter().zip(&all).enumerate() {
        let unseeded = fault(107) && id.kind == Dof && id.axis > 2;
        let stored = if unseeded {
            0.0
        } else {
            joint.n[stored_at(id.word())]
        };
        let seeded = (substep == 0) != fault(111);
        if warm {
            row.impulse = if seeded { stored } else { lasts[k] } * coeff;
        } else if fault(112) {
            row.impulse = lasts[k];
        }
        put(&row, &mut rows[ROW * k..][..ROW]);
        ids[k] = id.word();
    }
    all.len()
}

/// Where a joint's 49 numbers hold an id's stored impulse.
fn stored_at(id: u32) -> usize {
    let axis = (id % 8) as usize;
    match id / 8 {
        0 => 43 + or!(109, axis, axis % 3),
        1 => 16 + 3 * axis,
        _ => 28 + 6 * axis,
    }
}

/// What an impulse does to the two velocities.
fn moved(row: &Row, impulse: f32, vels: &mut [f32]) {
    for k in 0..2 {
        let linear = or!(
            103,
            each(scale(row.lin_jac, impulse), row.im[k]),
            scale(each(row.lin_jac, row.im[k]), impulse)
        );
        let angular = scale(row.ii_ang_jac[k], impulse);
        let signed = |old: f32, by: f32| if k == 0 { old + by } else { old - by };
        let own = &mut vels[6 * k..][..6];
        for i in 0..3 {
            own[i] = signed(own[i], linear[i]);
            if i < or!(104, 3, 2) {
                own[3 + i] = signed(own[3 + i], angular[i]);
            }
        }
    }
}

/// The impulse that a row wants, before its bounds.
pub fn wanted(n: &[f32], vels: &[f32]) -> f32 {
    let r = row(n);
    let [v1, w1, v2, w2] = [0, 3, 6, 9].map(|at| v3(&vels[at..]));
    let dlinvel = dot(r.lin_jac, sub(v2, v1));
    let dangvel = dot(r.ang_jac[1], w2) - dot(r.ang_jac[0], w1);
    let rhs = or!(100, dlinvel + dangvel + r.rhs, dlinvel + (dangvel + r.rhs));
    r.impulse + r.inv_lhs * (rhs - r.cfm_gain * r.impulse)
}

/// Which bound a step meets.
pub fn side(n: &[f32], vels: &[f32]) -> usize {
    let wanted = wanted(n, vels);
    if wanted < n[1] {
        1
    } else if wanted > n[2] {
        2
    } else {
        0
    }
}

pub fn step(n: &mut [f32], vels: &mut [f32]) {
    let mut r = row(n);
    let wanted = wanted(n, vels);
    let total = or!(101, clamp, clamp_high_first)(wanted, r.bounds[0], r.bounds[1]);
    let delta = or!(102, total, wanted) - r.impulse;
    r.impulse = total;
    moved(&r, delta, vels);
    put(&r, n);
}

pub fn warmstart(n: &mut [f32], vels: &mut [f32]) {
    let r = row(n);
    if r.impulse != 0.0 || !fault(105) {
        moved(&r, r.impulse, vels);
    }
}

pub fn remove_bias(n: &mut [f32]) {
    if fault(106) {
        n[20] = n[19]
    } else {
        n[19] = n[20]
    }
}

pub fn writeback(id: u32, impulse: f32, joint: &mut [f32]) {
    let id = or!(110, id, if id / 8 == 1 { id + 8 } else { id });
    if !(fault(108) && (3..8).contains(&id)) {
        joint[stored_at(id)] = impulse
    }
}

pub fn finalize(count: usize, n: &mut [f32]) {
    let mut rows: Vec<Row> = n.chunks(ROW).take(count).map(row).collect();
    orthogonalise(&mut rows, &vec![None; count]);
    for (r, n) in rows.iter().zip(n.chunks_mut(ROW)) {
        put(r, n)
    }
}
