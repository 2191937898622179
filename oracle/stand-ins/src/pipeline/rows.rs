//! One joint's rows: building, warm start, step, bias removal, write-back, and their leaves.

use super::records::{self, BODY, JOINT, JOINT_WORDS, ROW, SETTINGS, VEL, WORLD};
#[cfg(feature = "dim2")]
use crate::dynamics::solver::joint_constraint::AngularLimitParams;
use crate::dynamics::solver::joint_constraint::{
    JointConstraint, JointConstraintBuilder, JointConstraintHelper, MAX_ROWS, blank,
};
use crate::dynamics::solver::solver_body::{SolverBodies, SolverVel};
use crate::dynamics::{JointMotor, RigidBodySet, SpringCoefficients};
use crate::math::{Real, SPATIAL_DIM};
#[cfg(feature = "dim2")]
use crate::utils::MatrixColumn;

/// A joint's words, then whether a warm coefficient is given, then the substep.
pub const WORDS: usize = JOINT_WORDS + 2;
/// Settings, both bodies, the joint, the warm coefficient.
pub const NUMBERS: usize = SETTINGS + 2 * BODY + JOINT + 1;
pub const ROWS: usize = MAX_ROWS * ROW;

/// Two bodies' linear x, y and angular; along x, y; moment.
#[cfg(feature = "dim2")]
pub const REACTION: usize = 9;

const JOINT_AT: usize = SETTINGS + 2 * BODY;

/// A builder as `generate` makes it from a joint whose stored impulses are all zero, so that the
/// seeds can only come by `update_warmstart_seeds`. Its rows begin at `next_row` of the storage,
/// which `generate` moves past them.
pub(crate) fn generated(
    words: &[u32],
    n: &[Real],
    bodies: [u32; 2],
    joint_id: usize,
    next_row: &mut usize,
) -> JointConstraintBuilder {
    // Each field of the struct has zero bits among its values; `generate` writes them all.
    let mut builder: JointConstraintBuilder = unsafe { core::mem::zeroed() };
    let mut edge = records::joint(words, n, bodies);
    for i in 0..SPATIAL_DIM {
        edge.weight.data.limits[i].impulse = 0.0;
        edge.weight.data.motors[i].impulse = 0.0;
        edge.weight.impulses[i] = 0.0;
    }
    #[cfg(feature = "dim2")]
    {
        let (cosine, sine) = records::centre(n);
        simba::scalar::hand_over_centre(cosine, sine);
    }
    JointConstraintBuilder::generate(
        &edge.weight,
        &RigidBodySet(Default::default()),
        joint_id,
        &mut builder,
        next_row,
    );
    #[cfg(feature = "dim2")]
    simba::scalar::take_back_centre();
    builder
}

fn is_world(n: &[Real]) -> bool {
    (0..BODY).all(|i| n[i].to_bits() == WORLD[i].to_bits())
}

/// `update_warmstart_seeds`, then `JointConstraintBuilder::update`. Returns the rows' number. A
/// body whose numbers are the world's is handed over as world-attached.
pub fn build(words: &[u32], n: &[Real], rows: &mut [Real], ids: &mut [u32]) -> usize {
    let (body1, body2) = (&n[SETTINGS..SETTINGS + BODY], &n[SETTINGS + BODY..JOINT_AT]);
    let id_of = |i: u32, body: &[Real]| if is_world(body) { u32::MAX } else { i };
    let bodies = [id_of(0, body1), id_of(1, body2)];
    let mut solver_bodies = SolverBodies::default();
    solver_bodies.resize(2);
    solver_bodies.poses[0] = records::body(body1);
    solver_bodies.poses[1] = records::body(body2);

    let joint = &n[JOINT_AT..JOINT_AT + JOINT];
    let mut builder = generated(words, joint, bodies, 0, &mut 0);
    builder.update_warmstart_seeds(&[records::joint(words, joint, bodies)]);

    let mut out: [_; MAX_ROWS] = core::array::from_fn(|i| records::row(&rows[i * ROW..]));
    let warmstart = (words[JOINT_WORDS] != 0).then_some(n[NUMBERS - 1]);
    builder.update(
        &records::settings(n),
        words[JOINT_WORDS + 1] as usize,
        warmstart,
        &solver_bodies,
        &mut out,
    );
    let mut count = 0;
    for (i, row) in out.iter().enumerate() {
        records::put_row(row, &mut rows[i * ROW..][..ROW]);
        // A row that was built has a joint's id.
        if row.writeback_id != blank().writeback_id {
            assert!(count == i, "the built rows are the first ones");
            ids[i] = records::id_word(row.writeback_id);
            count += 1;
        }
    }
    count
}

/// Which bound a step meets: 1 where the impulse that it wants is below the lower one, else 2 where it is
/// above the upper one, else 0. What is wanted is what the Rust's own step leaves where the bounds stop nothing.
pub fn side(n: &[Real], vels: &[Real]) -> usize {
    let (mut free, mut moved_vels) = (n.to_vec(), vels.to_vec());
    free[1..3].copy_from_slice(&[Real::NEG_INFINITY, Real::INFINITY]);
    step(&mut free, &mut moved_vels);
    match free[0] {
        wanted if wanted < n[1] => 1,
        wanted if wanted > n[2] => 2,
        _ => 0,
    }
}

pub fn step(n: &mut [Real], vels: &mut [Real]) {
    moved(n, vels, JointConstraint::solve_generic)
}

/// The change that one more step makes to the row's impulse: the Rust's own step.
pub fn residual(n: &[Real], vels: &[Real]) -> Real {
    let (mut row, mut moved_vels) = (n.to_vec(), vels.to_vec());
    step(&mut row, &mut moved_vels);
    row[0] - n[0]
}

/// What a joint's rows gave its two bodies (linear x, y and angular, of body 1 and then of body 2), body 1's linear part along
/// the Rust's basis, and the moment at frame 2's place. The bodies' numbers begin with their poses, and the joint's with its frames.
#[cfg(feature = "dim2")]
pub fn reaction(body1: &[Real], body2: &[Real], joint: &[Real], rows: &[Real]) -> [Real; REACTION] {
    let (pose1, pose2) = (records::body(body1), records::body(body2));
    let data = records::joint(&[0; JOINT_WORDS], joint, [0, 1]).weight.data;
    let frame1 = pose1.pose() * data.local_frame1;
    let frame2 = pose2.pose() * data.local_frame2;
    let (com1, com2) = (pose1.translation, pose2.translation);
    let basis = JointConstraintHelper::<Real>::new(&frame1, &frame2, &com1, &com2, 0).basis;
    let mut given = [0.0; 6];
    for row in rows.chunks_exact(ROW).map(records::row) {
        let linear = row.lin_jac * row.impulse;
        given[0] += linear.x;
        given[1] += linear.y;
        given[2] += row.ang_jac1 * row.impulse;
        given[3] -= linear.x;
        given[4] -= linear.y;
        given[5] -= row.ang_jac2 * row.impulse;
    }
    let [x, y, angular1, x2, y2, angular2] = given;
    let along = [0, 1].map(|i| {
        let axis = basis.column(i);
        axis.x * x + axis.y * y
    });
    let arm = frame2.translation - com2;
    let moment = -arm.y * x2 + arm.x * y2 - angular2;
    [x, y, angular1, x2, y2, angular2, along[0], along[1], moment]
}

pub fn warmstart(n: &mut [Real], vels: &mut [Real]) {
    moved(n, vels, JointConstraint::warmstart_generic)
}

fn moved(
    n: &mut [Real],
    vels: &mut [Real],
    by: fn(&mut JointConstraint<Real, 1>, &mut SolverVel<Real>, &mut SolverVel<Real>),
) {
    let mut row = records::row(n);
    let (mut vel1, mut vel2) = (records::vel(&vels[..VEL]), records::vel(&vels[VEL..]));
    by(&mut row, &mut vel1, &mut vel2);
    records::put_row(&row, n);
    records::put_vel(&vel1, &mut vels[..VEL]);
    records::put_vel(&vel2, &mut vels[VEL..]);
}

pub fn remove_bias(n: &mut [Real]) {
    let mut row = records::row(n);
    row.remove_bias_from_rhs();
    records::put_row(&row, n);
}

/// `writeback_impulses` of a row that has this id and this impulse.
pub fn writeback(id: u32, impulse: Real, joint: &mut [Real]) {
    let mut row = records::row(&[0.0; ROW]);
    row.writeback_id = records::id(id);
    row.impulse = impulse;
    let mut edges = [records::joint(&[0; JOINT_WORDS], joint, [0, 1])];
    row.writeback_impulses(&mut edges);
    records::put_impulses(&edges[0], joint);
}

/// `finalize_constraints` over the first rows as one group.
pub fn finalize(count: usize, n: &mut [Real]) {
    let mut rows: [_; MAX_ROWS] = core::array::from_fn(|i| records::row(&n[i * ROW..]));
    JointConstraintHelper::<Real>::finalize_constraints(&mut rows[..count]);
    for (i, row) in rows.iter().enumerate() {
        records::put_row(row, &mut n[i * ROW..][..ROW]);
    }
}

/// `erp_inv_dt`, `cfm_coeff`, `cfm_gain`.
pub fn combine_coefficients(model: u32, dt: Real, stiffness: Real, damping: Real) -> [Real; 3] {
    records::model(model)
        .combine_coefficients(dt, stiffness, damping)
        .into()
}

/// `erp_inv_dt`, `cfm_coeff`.
pub fn spring(natural_frequency: Real, damping_ratio: Real, dt: Real) -> [Real; 2] {
    let spring = SpringCoefficients {
        natural_frequency,
        damping_ratio,
    };
    [spring.erp_inv_dt(dt), spring.cfm_coeff(dt)]
}

pub fn inv_dt(dt: Real) -> Real {
    records::settings(&[dt, 1.0, 1.0]).inv_dt()
}

pub fn max_corrective_velocity(length_unit: Real, normalized: Real) -> Real {
    records::settings(&[1.0, length_unit, normalized]).max_corrective_velocity()
}

pub fn max_impulse(max_force: Real, dt: Real) -> Real {
    JointMotor::max_impulse(max_force, dt)
}

/// Centre's cosine and sine, half range.
#[cfg(feature = "dim2")]
pub fn angular_limit(min: Real, max: Real, cosine: Real, sine: Real) -> [Real; 3] {
    simba::scalar::hand_over_centre(cosine, sine);
    let limit = AngularLimitParams::new(min, max);
    simba::scalar::take_back_centre();
    [limit.center[0], limit.center[1], limit.half_range]
}
