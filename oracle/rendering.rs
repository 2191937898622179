//! A second rendering of the rows, from document 01 and the Rust, in flat numbers. It shares no
//! code with the oracle, and it can carry one fault of `FAULTS` at a time: with them the
//! comparison shows that it sees faults.

use std::sync::atomic::{AtomicU32, Ordering};

static FAULT: AtomicU32 = AtomicU32::new(0);

/// Carries fault `number` from here on; 0 is none.
pub fn carry(number: u32) {
    FAULT.store(number, Ordering::Relaxed)
}

/// Fault k is entry k − 1.
pub const FAULTS: [&str; 93] = [
    // Leaves of the rows.
    "inv_dt is 1/dt at dt = 0 as well",
    "max_impulse is max_force·dt at dt = 0 as well",
    "max_corrective_velocity multiplies f32 MAX as well",
    "motor models exchanged",
    "simd_inv for inv in combine_coefficients",
    "dt·(dt·stiffness) for (dt·dt)·stiffness",
    "the spring's undamped case left out",
    "the spring's zero erp left out",
    "(1 + i)·4·(ratio·ratio) for ((1 + i)·4·ratio)·ratio in the spring",
    "(frequency·2)·π for frequency·2π",
    "half range > π for ≥ π",
    "a NaN half range goes on",
    "max/2 − min/2 for (max − min)/2",
    "angle difference: signum(−0) is 1",
    "angle difference: ≤ for < between the sizes",
    // Frames.
    "a pose's translation is added before the rotation",
    "the inverse of frame 2's rotation for frame 1's",
    "free axes are snapped, locked ones are not",
    "no axis is snapped",
    "the second snap takes the distance from the snapped point",
    "the cross matrix is (q, −p)",
    "the arm of body 2 from body 1's centre",
    "fused products in the dot",
    // Rows.
    "the wrong sign at the centre's sine",
    "re and im of the recentred angle exchanged",
    "angular limit: < for ≤ at the low end",
    "angular limit: < for ≤ at the high end",
    "angular limit: bias without cap",
    "linear limit: < for ≤ at the low end",
    "linear limit: < for ≤ at the high end",
    "linear limit: bias without cap",
    "linear limit: limits[0] for limits[1] in the bias",
    "linear limit: no row strictly inside the limits",
    "coupled limit: bias without cap",
    "coupled limit: limits[0] for limits[1]",
    "coupled limit: bounds [0, f32 MAX]",
    "coupled limit: max for min in rhs_wo_bias",
    "coupled limit: rhs_wo_bias times erp_inv_dt for inv_dt",
    "coupled rows: dist taken after the scaling",
    "coupled rows: inv for simd_inv of dist",
    "coupled rows: the angular parts are not scaled",
    "coupled rows: read from axis 0 for axis F",
    "coupled motor: made only if M holds F",
    "coupled limit: made if T and C share any linear bit",
    "coupled motor: its limits by T without regard to L",
    "coupled angular motor makes a row",
    "motor: the error counts at erp_inv_dt = 0 as well",
    "motor: starts at −target_vel, not at 0 + (−target_vel)",
    "motor: the limits clamp with the high end first",
    "motor: the limits are not taken times inv_dt",
    "motor: an angular error that is not wrapped",
    "angular lock: the angle for its sine",
    "lock: rhs is the bias, not 0 + bias",
    "lock: bounds infinite for ±f32 MAX",
    "inertia 1 for inertia 2",
    // Order and groups.
    "locks before motors",
    "linear locks before angular ones",
    "linear limits before angular ones",
    "limits before locks",
    "motors and locks orthogonalised as one group",
    // finalize_constraints.
    "inv for simd_inv in inv_lhs",
    "inv for simd_inv in inv_dot_jj",
    "im1 for im1 + im2",
    "each row's own im1 + im2 for the first row's",
    "infinite bounds count as a lock",
    "a motor never counts as a lock",
    "cfm_gain replaced, not added to",
    "inv_lhs without cfm_gain",
    "dot_jj adds its two angular parts first",
    "rhs for rhs_wo_bias in the reduction",
    "ii_ang_jac is not reduced",
    "dot_ij with the rows as they came (classical Gram-Schmidt)",
    // The calls on rows.
    "step: dlinvel + (dangvel + rhs)",
    "step: inv_lhs·rhs − inv_lhs·(cfm_gain·impulse)",
    "step: high tried before low",
    "step: the impulse before the clamp moves the bodies",
    "step: (lin_jac·im)·impulse for (lin_jac·impulse)·im",
    "warm start: left out at impulse zero",
    "bias removal: rhs_wo_bias set to rhs",
    "write-back: Limit's impulse into the motor",
    "warm coefficient applied twice",
    "substep 0 starts from the row's last impulse",
    "a later substep starts from the stored impulse",
    "no warm coefficient keeps the row's last impulse",
    // The angle near zero.
    "angle near zero: by the recipe",
    "angle near zero: re's sign bit not asked for",
    // Reactions and residuals.
    "reaction: ang_jac2 for ang_jac1",
    "reaction: the last row left out",
    "reaction: body 2 gets what body 1 gets",
    "reaction: the sums start from −0",
    "reaction: along body 1's axes for the joint's",
    "reaction: the moment at frame 1's place",
    "residual: past the row's bounds",
];

/// Whether fault `number` is carried.
fn fault(number: u32) -> bool {
    FAULT.load(Ordering::Relaxed) == number
}

/// The right one, or the wrong one where fault `number` is carried.
macro_rules! or(
    ($number: expr, $right: expr, $wrong: expr) => { if fault($number) { $wrong } else { $right } }
);

const E: f32 = f32::from_bits(0x1E3C_E508);
const PI: f32 = f32::from_bits(0x4049_0FDB);
const TWO_PI: f32 = f32::from_bits(0x40C9_0FDB);
const INFINITY: f32 = f32::INFINITY;

type Pair = [f32; 2];

fn inv(x: f32) -> f32 {
    if -E <= x && x <= E { 0.0 } else { 1.0 / x }
}

fn simd_inv(x: f32) -> f32 {
    if -E < x && x < E { 0.0 } else { 1.0 / x }
}

fn max(a: f32, b: f32) -> f32 {
    if a >= b { a } else { b }
}

fn min(a: f32, b: f32) -> f32 {
    if a <= b { a } else { b }
}

fn clamp(x: f32, low: f32, high: f32) -> f32 {
    if x < low {
        low
    } else if x > high {
        high
    } else {
        x
    }
}

fn clamp_high_first(x: f32, low: f32, high: f32) -> f32 {
    if x > high {
        high
    } else if x < low {
        low
    } else {
        x
    }
}

fn dot(a: Pair, b: Pair) -> f32 {
    or!(
        23,
        a[0] * b[0] + a[1] * b[1],
        a[0].mul_add(b[0], a[1] * b[1])
    )
}

fn add(a: Pair, b: Pair) -> Pair {
    [a[0] + b[0], a[1] + b[1]]
}

fn sub(a: Pair, b: Pair) -> Pair {
    [a[0] - b[0], a[1] - b[1]]
}

fn scale(a: Pair, s: f32) -> Pair {
    [a[0] * s, a[1] * s]
}

fn each(a: Pair, b: Pair) -> Pair {
    [a[0] * b[0], a[1] * b[1]]
}

/// Rotation times rotation.
fn product([a, b]: Pair, [c, d]: Pair) -> Pair {
    [a * c - b * d, a * d + b * c]
}

/// Rotation times vector.
fn turn([a, b]: Pair, [x, y]: Pair) -> Pair {
    [a * x - b * y, b * x + a * y]
}

fn inverse([a, b]: Pair) -> Pair {
    [a, -b]
}

fn angle(re: f32, im: f32) -> f32 {
    if !re.is_finite() || !im.is_finite() {
        return f32::NAN;
    }
    let (x, y) = (re.abs(), im.abs());
    let t = if x == 0.0 && y == 0.0 {
        0.0
    } else if y > x {
        x / y
    } else {
        y / x
    };
    // Request R-7.
    let right = or!(86, !re.is_sign_negative(), true);
    if or!(85, right && y < x && t < 1.0 / 4096.0, false) {
        return t.copysign(im);
    }
    let one = 1i128 << 30;
    // f64 holds t·2^30 and A/2^30 exactly.
    let t = (t as f64 * one as f64).floor() as i128;
    let series = |w: i128| {
        let u = w * w / one;
        let (mut p, mut sum) = (w, 0);
        for k in 0..15 {
            sum += (1 - 2 * (k % 2)) * (p / (2 * k + 1));
            p = p * u / one;
        }
        sum
    };
    let mut a = if t < one / 2 {
        series(t)
    } else {
        843314857 - series((one - t) * one / (one + t))
    };
    if y > x {
        a = 1686629713 - a;
    }
    if re.is_sign_negative() {
        a = 3373259426 - a;
    }
    ((a as f64 / one as f64) as f32).copysign(im)
}

fn angle_difference(a: f32, b: f32) -> f32 {
    let s = a - b;
    let signum = or!(14, s.signum(), if s == 0.0 { 1.0 } else { s.signum() });
    let c = s - signum * TWO_PI;
    if or!(15, s.abs() < c.abs(), s.abs() <= c.abs()) {
        s
    } else {
        c
    }
}

pub fn inv_dt(dt: f32) -> f32 {
    if dt == 0.0 && !fault(1) {
        0.0
    } else {
        1.0 / dt
    }
}

pub fn max_impulse(max_force: f32, dt: f32) -> f32 {
    if dt == 0.0 && !fault(2) {
        0.0
    } else {
        max_force * dt
    }
}

pub fn max_corrective_velocity(length_unit: f32, normalized: f32) -> f32 {
    if normalized == f32::MAX && !fault(3) {
        f32::MAX
    } else {
        normalized * length_unit
    }
}

pub fn combine_coefficients(model: u32, dt: f32, stiffness: f32, damping: f32) -> [f32; 3] {
    let inv = or!(5, inv, simd_inv);
    let erp_inv_dt = stiffness * inv(dt * stiffness + damping);
    let square = or!(6, dt * dt * stiffness, dt * (dt * stiffness));
    let cfm = inv(square + dt * damping);
    if (model == 0) != fault(4) {
        [erp_inv_dt, cfm, 0.0]
    } else {
        [erp_inv_dt, 0.0, cfm]
    }
}

/// `erp_inv_dt`, `cfm_coeff`.
pub fn spring(frequency: f32, ratio: f32, dt: f32) -> [f32; 2] {
    let omega = or!(10, frequency * TWO_PI, frequency * 2.0 * PI);
    let erp_inv_dt = omega / (dt * omega + 2.0 * ratio);
    let erp = dt * erp_inv_dt;
    let cfm_coeff = if erp == 0.0 && !fault(8) {
        0.0
    } else if ratio == 0.0 && !fault(7) {
        1.0 / (dt * omega * (dt * omega + 2.0 * ratio))
    } else {
        let i = 1.0 / erp - 1.0;
        let below = (1.0 + i) * 4.0;
        i * i / or!(9, below * ratio * ratio, below * (ratio * ratio))
    };
    [erp_inv_dt, cfm_coeff]
}

/// Centre's cosine and sine, half range.
pub fn angular_limit(low: f32, high: f32, cosine: f32, sine: f32) -> [f32; 3] {
    let half = or!(13, (high - low) * 0.5, high * 0.5 - low * 0.5);
    if or!(11, half >= PI, half > PI) || half.is_nan() && !fault(12) {
        [1.0, 0.0, 10.0]
    } else {
        [cosine, sine, half]
    }
}

#[derive(Copy, Clone, PartialEq)]
enum Kind {
    Dof,
    Limit,
    Motor,
}

use Kind::{Dof, Limit, Motor};

/// A row's id; `coupled` where it stands for all coupled linear axes.
#[derive(Copy, Clone)]
struct Id {
    kind: Kind,
    axis: usize,
    coupled: bool,
}

/// The ids of both groups.
fn row_ids(words: &[u32]) -> [Vec<Id>; 2] {
    let (l, m, t, c) = (
        words[0],
        words[2] & !words[0],
        words[1] & !words[0],
        words[3],
    );
    let f = (c & 3).trailing_zeros() as usize;
    let of = |kind, mask: u32, axes: [usize; 3]| {
        let id = move |axis| Id {
            kind,
            axis,
            coupled: false,
        };
        axes.into_iter().filter(move |a| mask >> a & 1 == 1).map(id)
    };
    let one_coupled = |kind| Id {
        kind,
        axis: f,
        coupled: true,
    };

    let alone = or!(46, m & !c, m & !(c & 3));
    let mut one: Vec<Id> = of(Motor, alone, [2, 0, 1]).collect();
    if m & c & 3 != 0 && or!(43, true, m >> f & 1 == 1) {
        one.push(one_coupled(Motor));
    }
    let locks = of(Dof, l, or!(57, [2, 0, 1], [0, 1, 2]));
    let limits = of(Limit, t & !c, or!(58, [2, 0, 1], [0, 1, 2]));
    let mut two: Vec<Id> = if fault(59) {
        limits.chain(locks).collect()
    } else {
        locks.chain(limits).collect()
    };
    if c & 3 != 0 && or!(44, t >> f & 1 == 1, t & c & 3 != 0) {
        two.push(one_coupled(Limit));
    }
    or!(56, [one, two], [two, one])
}

impl Id {
    /// 4·kind + axis.
    fn word(self) -> u32 {
        4 * self.kind as u32 + self.axis as u32
    }
}

/// The ids of a joint's rows by its four masks.
pub fn ids(masks: &[u32]) -> Vec<u32> {
    row_ids(masks).concat().into_iter().map(Id::word).collect()
}

#[derive(Copy, Clone)]
struct Row {
    impulse: f32,
    bounds: Pair,
    lin_jac: Pair,
    ang_jac: Pair,
    ii_ang_jac: Pair,
    inv_lhs: f32,
    rhs: f32,
    rhs_wo_bias: f32,
    cfm_gain: f32,
    cfm_coeff: f32,
    im: [Pair; 2],
}

fn row(n: &[f32]) -> Row {
    Row {
        impulse: n[0],
        bounds: [n[1], n[2]],
        lin_jac: [n[3], n[4]],
        ang_jac: [n[5], n[6]],
        ii_ang_jac: [n[7], n[8]],
        inv_lhs: n[9],
        rhs: n[10],
        rhs_wo_bias: n[11],
        cfm_gain: n[12],
        cfm_coeff: n[13],
        im: [[n[14], n[15]], [n[16], n[17]]],
    }
}

fn put(r: &Row, n: &mut [f32]) {
    let [[a, b], [c, d]] = r.im;
    n[..3].copy_from_slice(&[r.impulse, r.bounds[0], r.bounds[1]]);
    n[3..7].copy_from_slice(&[r.lin_jac[0], r.lin_jac[1], r.ang_jac[0], r.ang_jac[1]]);
    n[7..11].copy_from_slice(&[r.ii_ang_jac[0], r.ii_ang_jac[1], r.inv_lhs, r.rhs]);
    n[11..].copy_from_slice(&[r.rhs_wo_bias, r.cfm_gain, r.cfm_coeff, a, b, c, d]);
}

/// All that a joint's rows are made from.
struct Joint<'a> {
    words: &'a [u32],
    dt: f32,
    max_bias: f32,
    erp_inv_dt: f32,
    cfm_coeff: f32,
    /// The joint's 42 numbers.
    n: &'a [f32],
    axis: [Pair; 2],
    /// arm[b][i]: the cross matrix of body b's arm, times axis i.
    arm: [Pair; 2],
    lin_err: Pair,
    ang_err: Pair,
    ii: Pair,
    im: [Pair; 2],
}

impl<'a> Joint<'a> {
    fn new(words: &'a [u32], numbers: &'a [f32]) -> Self {
        let n = &numbers[17..59];
        let dt = numbers[0];
        let [erp_inv_dt, cfm_coeff] = spring(n[35], n[36], dt);

        // A body's numbers with a frame on it: rotation and translation in the world.
        let placed = |body: &[f32], frame: &[f32]| {
            let (by, from) = ([body[0], body[1]], [body[2], body[3]]);
            let to = [frame[2], frame[3]];
            (
                product(by, [frame[0], frame[1]]),
                or!(16, add(turn(by, to), from), turn(by, add(to, from))),
            )
        };
        let (body1, body2) = (&numbers[3..10], &numbers[10..17]);
        let (r1, t1) = placed(body1, &n[0..4]);
        let (r2, t2) = placed(body2, &n[4..8]);

        let axis = [r1, [-r1[1], r1[0]]];
        let lin_err = sub(t2, t1);
        let mut at = t2;
        for i in 0..2 {
            if (words[0] >> i & 1 == 1) != fault(18) && !fault(19) {
                let err = or!(20, lin_err, sub(at, t1));
                at = sub(at, scale(axis[i], dot(err, axis[i])));
            }
        }
        let com = [[body1[2], body1[3]], [body2[2], body2[3]]];
        let arms = [sub(at, com[0]), sub(t2, or!(22, com[1], com[0]))];
        let arm = arms.map(|[p, q]| {
            let matrix = or!(21, [-q, p], [q, -p]);
            [dot(matrix, axis[0]), dot(matrix, axis[1])]
        });
        Joint {
            words,
            dt,
            max_bias: max_corrective_velocity(numbers[1], numbers[2]),
            erp_inv_dt,
            cfm_coeff,
            n,
            axis,
            arm,
            lin_err,
            ang_err: or!(17, product(inverse(r1), r2), product(r1, inverse(r2))),
            ii: [body1[4], or!(55, body2[4], body1[4])],
            im: [[body1[5], body1[6]], [body2[5], body2[6]]],
        }
    }

    /// Axis i's limit ends.
    fn limit(&self, i: usize) -> Pair {
        [self.n[8 + 3 * i], self.n[9 + 3 * i]]
    }

    /// A row with these jacobians and nothing wanted of it.
    fn along(&self, lin_jac: Pair, ang_jac: Pair, bounds: Pair) -> Row {
        Row {
            impulse: 0.0,
            bounds,
            lin_jac,
            ang_jac,
            ii_ang_jac: each(ang_jac, self.ii),
            inv_lhs: 0.0,
            rhs: 0.0,
            rhs_wo_bias: 0.0,
            cfm_gain: 0.0,
            cfm_coeff: self.cfm_coeff,
            im: self.im,
        }
    }

    fn along_axis(&self, i: usize, bounds: Pair) -> Row {
        match i {
            2 => self.along([0.0; 2], [1.0; 2], bounds),
            _ => self.along(self.axis[i], [self.arm[0][i], self.arm[1][i]], bounds),
        }
    }

    /// The jacobians of the coupled linear axes, and the distance.
    fn coupled(&self) -> (Pair, Pair, f32) {
        let (mut lin_jac, mut ang_jac) = ([0.0; 2], [0.0; 2]);
        for i in 0..2 {
            if self.words[3] >> i & 1 == 1 {
                let coeff = dot(self.axis[i], self.lin_err);
                lin_jac = add(lin_jac, scale(self.axis[i], coeff));
                ang_jac = add(ang_jac, scale([self.arm[0][i], self.arm[1][i]], coeff));
            }
        }
        let mut dist = dot(lin_jac, lin_jac).sqrt();
        let by = or!(40, simd_inv(dist), inv(dist));
        lin_jac = scale(lin_jac, by);
        if fault(39) {
            dist = dot(lin_jac, lin_jac).sqrt();
        }
        (lin_jac, or!(41, scale(ang_jac, by), ang_jac), dist)
    }

    fn row(&self, id: Id) -> Row {
        match id {
            Id {
                kind: Motor,
                axis,
                coupled,
            } => self.motor(axis, coupled),
            Id {
                kind: Dof, axis, ..
            } => self.lock(axis),
            Id {
                kind: Limit,
                axis,
                coupled: true,
            } => self.coupled_limit(axis),
            Id {
                kind: Limit, axis, ..
            } => self.simple_limit(axis),
        }
    }

    fn lock(&self, i: usize) -> Row {
        let bound = or!(54, f32::MAX, INFINITY);
        let mut row = self.along_axis(i, [-bound, bound]);
        let error = match i {
            2 => or!(52, self.ang_err[1], angle(self.ang_err[0], self.ang_err[1])),
            _ => dot(row.lin_jac, self.lin_err),
        };
        let bias = error * self.erp_inv_dt;
        row.rhs = or!(53, 0.0 + bias, bias);
        row
    }

    /// A limit on one axis: where the joint is, and between which ends it may be.
    fn simple_limit(&self, i: usize) -> Row {
        let [low, high] = self.limit(i);
        let (at, low, high) = if i == 2 {
            let [c, s, half] = angular_limit(low, high, self.n[40], self.n[41]);
            let [re, im] = self.ang_err;
            let re_from = or!(24, c * re + s * im, c * re - s * im);
            let im_from = c * im - s * re;
            (
                or!(25, angle(re_from, im_from), angle(im_from, re_from)),
                -half,
                half,
            )
        } else {
            (dot(self.lin_err, self.axis[i]), low, high)
        };
        let below = if fault(if i == 2 { 26 } else { 29 }) {
            at < low
        } else {
            at <= low
        };
        let above = if fault(if i == 2 { 27 } else { 30 }) {
            high < at
        } else {
            high <= at
        };
        let bounds = [
            if below { -INFINITY } else { 0.0 },
            if above { INFINITY } else { 0.0 },
        ];
        let mut row = self.along_axis(i, bounds);
        let over = at - or!(32, high, if i == 2 { high } else { low });
        let bias = (max(over, 0.0) - max(low - at, 0.0)) * self.erp_inv_dt;
        row.rhs = 0.0
            + if fault(if i == 2 { 28 } else { 31 }) {
                bias
            } else {
                clamp(bias, -self.max_bias, self.max_bias)
            };
        row
    }

    fn coupled_limit(&self, f: usize) -> Row {
        let (lin_jac, ang_jac, dist) = self.coupled();
        let high = self.limit(or!(42, f, 0))[or!(35, 1, 0)];
        let mut row = self.along(lin_jac, ang_jac, [0.0, or!(36, INFINITY, f32::MAX)]);
        let by = or!(38, inv_dt(self.dt), self.erp_inv_dt);
        row.rhs_wo_bias = or!(37, min(dist - high, 0.0), max(dist - high, 0.0)) * by;
        let bias = max(dist - high, 0.0) * self.erp_inv_dt;
        row.rhs = row.rhs_wo_bias + or!(34, clamp(bias, -self.max_bias, self.max_bias), bias);
        row
    }

    fn motor(&self, axis: usize, coupled: bool) -> Row {
        let read = if coupled { or!(42, axis, 0) } else { axis };
        let motor = &self.n[17 + 6 * read..][..6];
        let [target_vel, target_pos, stiffness, damping, max_force] = motor[..5] else {
            unreachable!()
        };
        let model = self.words[4 + read];
        let [erp_inv_dt, cfm_coeff, cfm_gain] =
            combine_coefficients(model, self.dt, stiffness, damping);
        let most = max_impulse(max_force, self.dt);
        let bounds = [-most, most];

        let (mut row, dist) = if coupled {
            let (lin_jac, ang_jac, dist) = self.coupled();
            (self.along(lin_jac, ang_jac, bounds), dist)
        } else if axis == 2 {
            let [re, im] = self.ang_err;
            (self.along_axis(2, bounds), angle(re, im))
        } else {
            let row = self.along_axis(axis, bounds);
            (row, dot(self.lin_err, row.lin_jac))
        };

        let mut wanted = 0.0;
        if erp_inv_dt != 0.0 || fault(47) {
            let error = if axis == 2 && !fault(51) {
                angle_difference(dist, target_pos)
            } else {
                dist - target_pos
            };
            wanted += error * erp_inv_dt;
        }
        let limited = self.words[1] & or!(45, !self.words[0], !0) & !4;
        let mut target_vel = target_vel;
        if limited >> read & 1 == 1 {
            let [low, high] = self.limit(read);
            let by = or!(50, inv_dt(self.dt), 1.0);
            let clamp = or!(49, clamp, clamp_high_first);
            target_vel = clamp(target_vel, (low - dist) * by, (high - dist) * by);
        }
        wanted = if fault(48) && wanted == 0.0 {
            -target_vel
        } else {
            wanted + -target_vel
        };
        row.cfm_coeff = cfm_coeff;
        row.cfm_gain = cfm_gain;
        row.rhs = wanted;
        row.rhs_wo_bias = wanted;
        row
    }
}

/// `finalize_constraints`; `motors` says which rows are motors.
fn orthogonalise(rows: &mut [Row], motors: &[bool]) {
    let came = rows.to_vec();
    for j in 0..rows.len() {
        let of = or!(64, rows[0].im, rows[j].im);
        let imsum = add(of[0], or!(63, of[1], [0.0; 2]));
        let cj = rows[j];
        let linear = dot(cj.lin_jac, each(imsum, cj.lin_jac));
        let [first, second] = each(cj.ii_ang_jac, cj.ang_jac);
        let dot_jj = or!(69, linear + first + second, linear + (first + second));
        let gain = dot_jj * cj.cfm_coeff + or!(67, cj.cfm_gain, 0.0);
        let inv_dot_jj = or!(62, simd_inv, inv)(dot_jj);
        rows[j].inv_lhs = or!(61, simd_inv, inv)(or!(68, dot_jj + gain, dot_jj));
        rows[j].cfm_gain = gain;

        let lock =
            cj.bounds == [-f32::MAX, f32::MAX] || fault(65) && cj.bounds == [-INFINITY, INFINITY];
        if !lock || fault(66) && motors[j] {
            continue;
        }
        for i in j + 1..rows.len() {
            let ci = &mut rows[i];
            let seen = or!(72, *ci, came[i]);
            let [first, second] = each(seen.ii_ang_jac, cj.ang_jac);
            let coeff = (dot(seen.lin_jac, each(imsum, cj.lin_jac)) + first + second) * inv_dot_jj;
            ci.lin_jac = sub(ci.lin_jac, scale(cj.lin_jac, coeff));
            ci.ang_jac = sub(ci.ang_jac, scale(cj.ang_jac, coeff));
            if !fault(71) {
                ci.ii_ang_jac = sub(ci.ii_ang_jac, scale(cj.ii_ang_jac, coeff));
            }
            ci.rhs_wo_bias -= or!(70, cj.rhs_wo_bias, cj.rhs) * coeff;
            ci.rhs -= cj.rhs * coeff;
        }
    }
}

pub fn build(words: &[u32], numbers: &[f32], rows: &mut [f32], ids: &mut [u32]) -> usize {
    let joint = Joint::new(words, numbers);
    let [one, mut two] = row_ids(words);
    if fault(33) {
        let inside = |id: &Id| {
            id.kind == Limit && !id.coupled && id.axis < 2 && joint.row(*id).bounds == [0.0, 0.0]
        };
        two.retain(|id| !inside(id));
    }
    let all: Vec<Id> = one.iter().chain(&two).copied().collect();
    let motors: Vec<bool> = all.iter().map(|id| id.kind == Motor).collect();
    let mut made: Vec<Row> = all.iter().map(|id| joint.row(*id)).collect();
    let cut = one.len();
    if fault(60) {
        orthogonalise(&mut made, &motors);
    } else {
        orthogonalise(&mut made[..cut], &motors[..cut]);
        orthogonalise(&mut made[cut..], &motors[cut..]);
    }

    let (warm, substep, coeff) = (words[7] != 0, words[8], numbers[59]);
    for (k, (mut row, id)) in made.into_iter().zip(all).enumerate() {
        let word = id.word();
        let last = rows[18 * k];
        let stored = joint.n[stored_at(word)];
        if warm {
            let from = if substep == 0 {
                or!(82, stored, last)
            } else {
                or!(83, last, stored)
            };
            row.impulse = or!(81, from * coeff, from * coeff * coeff);
        } else if fault(84) {
            row.impulse = last;
        }
        put(&row, &mut rows[18 * k..][..18]);
        ids[k] = word;
    }
    cut + two.len()
}

/// Where a joint's 42 numbers hold an id's stored impulse.
fn stored_at(id: u32) -> usize {
    let axis = (id % 4) as usize;
    match id / 4 {
        0 => 37 + axis,
        1 => 10 + 3 * axis,
        _ => 22 + 6 * axis,
    }
}

/// What an impulse does to the two velocities.
fn moved(row: &Row, impulse: f32, vels: &mut [f32]) {
    let linear = |im: Pair| {
        or!(
            77,
            each(scale(row.lin_jac, impulse), im),
            scale(each(row.lin_jac, im), impulse)
        )
    };
    let (first, second) = (linear(row.im[0]), linear(row.im[1]));
    vels[0] += first[0];
    vels[1] += first[1];
    vels[2] += row.ii_ang_jac[0] * impulse;
    vels[3] -= second[0];
    vels[4] -= second[1];
    vels[5] -= row.ii_ang_jac[1] * impulse;
}

/// The impulse that a row wants, before its bounds.
pub fn wanted(n: &[f32], vels: &[f32]) -> f32 {
    let r = row(n);
    let dlinvel = dot(r.lin_jac, [vels[3] - vels[0], vels[4] - vels[1]]);
    let dangvel = r.ang_jac[1] * vels[5] - r.ang_jac[0] * vels[2];
    let rhs = or!(73, dlinvel + dangvel + r.rhs, dlinvel + (dangvel + r.rhs));
    let held = r.cfm_gain * r.impulse;
    r.impulse
        + or!(
            74,
            r.inv_lhs * (rhs - held),
            r.inv_lhs * rhs - r.inv_lhs * held
        )
}

/// Which bound a step meets.
pub fn side(n: &[f32], vels: &[f32]) -> usize {
    let wanted = wanted(n, vels);
    usize::from(wanted < n[1]).max(2 * usize::from(!(wanted < n[1]) && wanted > n[2]))
}

pub fn step(n: &mut [f32], vels: &mut [f32]) {
    let mut r = row(n);
    let wanted = wanted(n, vels);
    let total = or!(75, clamp, clamp_high_first)(wanted, r.bounds[0], r.bounds[1]);
    let delta = or!(76, total, wanted) - r.impulse;
    r.impulse = total;
    moved(&r, delta, vels);
    put(&r, n);
}

/// The change that one more step makes to the row's impulse.
pub fn residual(n: &[f32], vels: &[f32]) -> f32 {
    let wanted = wanted(n, vels);
    or!(93, clamp(wanted, n[1], n[2]), wanted) - n[0]
}

/// What a joint's rows gave its two bodies, body 1's linear part along frame 1's directions, and the moment at frame 2's place.
pub fn reaction(body1: &[f32], body2: &[f32], joint: &[f32], rows: &[f32]) -> [f32; 9] {
    let zero = or!(90, 0.0, -0.0);
    let mut linear = [[zero; 2]; 2];
    let mut angular = [zero; 2];
    let all = rows.len() / 18;
    for r in rows.chunks_exact(18).take(or!(88, all, all.max(1) - 1)).map(row) {
        let by = scale(r.lin_jac, r.impulse);
        let turns = [or!(87, r.ang_jac[0], r.ang_jac[1]), r.ang_jac[1]].map(|jac| jac * r.impulse);
        linear[0] = add(linear[0], by);
        linear[1] = or!(89, sub, add)(linear[1], by);
        angular[0] += turns[0];
        angular[1] = or!(89, angular[1] - turns[1], angular[1] + turns[1]);
    }
    let pair = |n: &[f32], i: usize| [n[i], n[i + 1]];
    let axis = or!(91, product(pair(body1, 0), pair(joint, 0)), pair(body1, 0));
    let along = [dot(axis, linear[0]), dot([-axis[1], axis[0]], linear[0])];
    let place = |body: &[f32], frame: usize| add(turn(pair(body, 0), pair(joint, frame + 2)), pair(body, 2));
    let point = or!(92, place(body2, 4), place(body1, 0));
    let arm = sub(point, pair(body2, 2));
    let moment = dot([-arm[1], arm[0]], linear[1]) - angular[1];
    let [[x1, y1], [x2, y2]] = linear;
    [x1, y1, angular[0], x2, y2, angular[1], along[0], along[1], moment]
}

pub fn warmstart(n: &mut [f32], vels: &mut [f32]) {
    let r = row(n);
    if r.impulse != 0.0 || !fault(78) {
        moved(&r, r.impulse, vels);
    }
}

pub fn remove_bias(n: &mut [f32]) {
    if fault(79) {
        n[11] = n[10]
    } else {
        n[10] = n[11]
    }
}

pub fn writeback(id: u32, impulse: f32, joint: &mut [f32]) {
    let id = or!(80, id, if id / 4 == 1 { id + 4 } else { id });
    joint[stored_at(id)] = impulse
}

pub fn finalize(count: usize, n: &mut [f32]) {
    let mut rows: Vec<Row> = n.chunks(18).take(count).map(row).collect();
    orthogonalise(&mut rows, &vec![false; count]);
    for (r, n) in rows.iter().zip(n.chunks_mut(18)) {
        put(r, n)
    }
}
