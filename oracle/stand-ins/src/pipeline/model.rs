//! Several joints: their builders over one row storage, and the Rust's own rows on many bodies.
//! Slices hold whole records, and the storage all rows; nothing here refuses.

use super::records::{self, JOINT, JOINT_WORDS, ROW, VEL};
use super::rows::generated;
use crate::alloc_prelude::*;
use crate::dynamics::JointGraphEdge;
use crate::dynamics::solver::joint_constraint::{
    JointConstraint, JointConstraintBuilder, WritebackId, tried,
};
use crate::dynamics::solver::solver_body::SolverBodies;
#[cfg(feature = "dim2")]
use crate::dynamics::solver::solver_body::{SolverPose, SolverVel};
use crate::math::Real;
#[cfg(feature = "dim2")]
use crate::math::{Rotation, Vector};
#[cfg(feature = "dim2")]
use crate::utils::SimdLength;

/// A body's numbers as in `records`, then its velocity.
pub const BODY: usize = records::BODY + VEL;
/// The numbers of a joint's two bodies, u32::MAX for the world, its words as in `records`, its `JointEnabled`, and in the plane two more.
pub const WORDS: usize = records::MODEL_WORDS;

fn solver_bodies(bodies: &[Real]) -> SolverBodies {
    let mut all = SolverBodies::default();
    all.resize(bodies.len() / BODY);
    for (i, n) in bodies.chunks_exact(BODY).enumerate() {
        all.poses[i] = records::body(n);
        all.vels[i] = records::vel(&n[records::BODY..]);
    }
    all
}

fn put_vels(all: &SolverBodies, bodies: &mut [Real]) {
    for (vel, n) in all.vels.iter().zip(bodies.chunks_exact_mut(BODY)) {
        records::put_vel(vel, &mut n[records::BODY..]);
    }
}

fn edge(w: &[u32], n: &[Real]) -> JointGraphEdge {
    let mut edge = records::joint(&w[2..], n, [w[0], w[1]]);
    edge.weight.data.enabled = records::enabled(w[2 + JOINT_WORDS]);
    edge
}

fn edges(words: &[u32], numbers: &[Real]) -> Vec<JointGraphEdge> {
    let joints = words.chunks_exact(WORDS).zip(numbers.chunks_exact(JOINT));
    joints.map(|(w, n)| edge(w, n)).collect()
}

/// The ids that `update` gives a joint's rows, as `records` numbers them. A joint that is not enabled is
/// not among those that the Rust hands to its solver.
pub fn row_ids(words: &[u32]) -> Vec<u32> {
    let data = edge(words, &[0.0; JOINT]).weight.data;
    if !data.is_enabled() {
        return Vec::new();
    }
    let (rows, count) = tried(&data);
    let made = rows[..count].iter();
    made.map(|row| records::id_word(row.writeback_id)).collect()
}

/// The stored rows; their bodies, joints and ids come from the joints.
fn stored(words: &[u32], rows: &[Real]) -> Vec<JointConstraint<Real, 1>> {
    let mut at = rows.chunks_exact(ROW);
    let mut all = Vec::new();
    for (j, w) in words.chunks_exact(WORDS).enumerate() {
        for id in row_ids(w) {
            let mut row = records::row(at.next().unwrap());
            row.solver_vel1 = [w[0]];
            row.solver_vel2 = [w[1]];
            row.joint_id = [j];
            row.writeback_id = records::id(id);
            all.push(row);
        }
    }
    all
}

fn put_rows(all: &[JointConstraint<Real, 1>], rows: &mut [Real]) {
    for (row, n) in all.iter().zip(rows.chunks_exact_mut(ROW)) {
        records::put_row(row, n);
    }
}

/// `generate` for each joint, then `update_warmstart_seeds` and `update`. Returns the place past
/// the last joint's rows.
pub fn build(
    settings: &[Real],
    bodies: &[Real],
    words: &[u32],
    numbers: &[Real],
    rows: &mut [Real],
    warmstart: Option<Real>,
    substep: u32,
) -> usize {
    let solver_bodies = solver_bodies(bodies);
    let joints_all = edges(words, numbers);
    let mut out: Vec<_> = rows.chunks_exact(ROW).map(records::row).collect();
    let mut next_row = 0;
    let joints = words.chunks_exact(WORDS).zip(numbers.chunks_exact(JOINT));
    for (j, (w, n)) in joints.enumerate() {
        if !joints_all[j].weight.data.is_enabled() {
            continue;
        }
        let mut builder = generated(&w[2..], n, [w[0], w[1]], j, &mut next_row);
        builder.update_warmstart_seeds(&joints_all);
        builder.update(
            &records::settings(settings),
            substep as usize,
            warmstart,
            &solver_bodies,
            &mut out,
        );
    }
    put_rows(&out, rows);
    next_row
}

pub fn warmstart(bodies: &mut [Real], words: &[u32], rows: &[Real]) {
    let mut all = solver_bodies(bodies);
    for row in &mut stored(words, rows) {
        row.warmstart(&mut all);
    }
    put_vels(&all, bodies);
}

/// The impulse that the Rust wants of a row: its own step on copies, with bounds that stop nothing.
fn wanted(row: &JointConstraint<Real, 1>, all: &SolverBodies) -> Real {
    let mut free = *row;
    free.impulse_bounds = [Real::NEG_INFINITY, Real::INFINITY];
    let mut bodies = SolverBodies::default();
    bodies.resize(all.vels.len());
    bodies.vels.copy_from_slice(&all.vels);
    free.solve(&mut bodies);
    free.impulse
}

/// Returns for each joint how many of its motor rows the last round found below or above their bounds.
pub fn solve(bodies: &mut [Real], words: &[u32], rows: &mut [Real], rounds: u32) -> Vec<u32> {
    let mut all = solver_bodies(bodies);
    let mut own = stored(words, rows);
    let mut counts = alloc::vec![0; words.len() / WORDS];
    for round in 0..rounds {
        for row in &mut own {
            if round + 1 == rounds && matches!(row.writeback_id, WritebackId::Motor(_)) {
                let impulse = wanted(row, &all);
                let [low, high] = row.impulse_bounds;
                counts[row.joint_id[0]] += u32::from(impulse < low || impulse > high);
            }
            row.solve(&mut all);
        }
    }
    put_rows(&own, rows);
    put_vels(&all, bodies);
    counts
}

/// A body's pose after a time h, by the stand-ins for vectors; the old rotation where the new one has no length.
#[cfg(feature = "dim2")]
fn advance_one(pose: &mut SolverPose<Real>, vel: &SolverVel<Real>, h: Real) {
    let a = vel.angular * h;
    let Rotation { re, im } = pose.rotation;
    let turned = Vector::new(re - im * a, im + re * a);
    let length = turned.simd_length();
    if length != 0.0 {
        let turned = turned / length;
        pose.rotation = Rotation {
            re: turned.x,
            im: turned.y,
        };
    }
    pose.translation = pose.translation + vel.linear * h;
}

#[cfg(feature = "dim2")]
fn place_of(pose: &SolverPose<Real>) -> [Real; 4] {
    let (rotation, translation) = (pose.rotation, pose.translation);
    [rotation.re, rotation.im, translation.x, translation.y]
}

/// Every body's new pose after a time h, in ascending order; false at the first that is not finite, which ends it.
#[cfg(feature = "dim2")]
pub fn advance(bodies: &mut [Real], h: Real) -> bool {
    for n in bodies.chunks_exact_mut(BODY) {
        let mut pose = records::body(n);
        advance_one(&mut pose, &records::vel(&n[records::BODY..]), h);
        let new = place_of(&pose);
        if !new.iter().all(|x| x.is_finite()) {
            return false;
        }
        n[..4].copy_from_slice(&new);
    }
    true
}

pub fn remove_bias(words: &[u32], rows: &mut [Real]) {
    let mut own = stored(words, rows);
    for row in &mut own {
        row.remove_bias_from_rhs();
    }
    put_rows(&own, rows);
}

pub fn writeback(words: &[u32], numbers: &mut [Real], rows: &[Real]) {
    let mut joints_all = edges(words, numbers);
    for row in stored(words, rows) {
        row.writeback_impulses(&mut joints_all);
    }
    for (edge, n) in joints_all.iter().zip(numbers.chunks_exact_mut(JOINT)) {
        records::put_impulses(edge, n);
    }
}

/// A model in the Rust's own structs, its builders made beforehand: what the Rust holds between
/// frames, so that a measurement of its work counts no conversion.
pub struct Prepared {
    settings: [Real; 3],
    bodies: SolverBodies,
    joints: Vec<JointGraphEdge>,
    builders: Vec<JointConstraintBuilder>,
    rows: Vec<JointConstraint<Real, 1>>,
}

impl Prepared {
    pub fn new(
        settings: [Real; 3],
        bodies: &[Real],
        words: &[u32],
        numbers: &[Real],
        rows: &[Real],
    ) -> Prepared {
        let mut next_row = 0;
        let joints = words.chunks_exact(WORDS).zip(numbers.chunks_exact(JOINT));
        Prepared {
            settings,
            bodies: solver_bodies(bodies),
            joints: edges(words, numbers),
            builders: joints
                .enumerate()
                .filter(|(_, (w, n))| edge(w, n).weight.data.is_enabled())
                .map(|(j, (w, n))| generated(&w[2..], n, [w[0], w[1]], j, &mut next_row))
                .collect(),
            rows: rows.chunks_exact(ROW).map(records::row).collect(),
        }
    }

    pub fn build(&mut self, warmstart: Option<Real>, substep: u32) {
        let settings = records::settings(&self.settings);
        for builder in &mut self.builders {
            builder.update_warmstart_seeds(&self.joints);
            builder.update(
                &settings,
                substep as usize,
                warmstart,
                &self.bodies,
                &mut self.rows,
            );
        }
    }

    pub fn warmstart(&mut self) {
        for row in &mut self.rows {
            row.warmstart(&mut self.bodies);
        }
    }

    pub fn solve(&mut self, rounds: u32) {
        for _ in 0..rounds {
            for row in &mut self.rows {
                row.solve(&mut self.bodies);
            }
        }
    }

    pub fn remove_bias(&mut self) {
        for row in &mut self.rows {
            row.remove_bias_from_rhs();
        }
    }

    pub fn writeback(&mut self) {
        for row in &self.rows {
            row.writeback_impulses(&mut self.joints);
        }
    }

    /// A frame whose new poses are finite.
    #[cfg(feature = "dim2")]
    pub fn frame(&mut self, warmstart: Option<Real>, rounds: u32, substeps: u32) {
        let dt = self.settings[0];
        let h = dt / substeps as Real;
        self.settings[0] = h;
        for substep in 0..substeps {
            self.build(warmstart, substep);
            self.warmstart();
            self.solve(rounds);
            let SolverBodies { poses, vels, .. } = &mut self.bodies;
            for (pose, vel) in poses.iter_mut().zip(vels) {
                advance_one(pose, vel, h);
            }
            self.remove_bias();
            self.solve(rounds);
        }
        self.writeback();
        self.settings[0] = dt;
    }

    /// As the model's storage has them.
    pub fn left(&self, bodies: &mut [Real], numbers: &mut [Real], rows: &mut [Real]) {
        #[cfg(feature = "dim2")]
        for (pose, n) in self.bodies.poses.iter().zip(bodies.chunks_exact_mut(BODY)) {
            n[..4].copy_from_slice(&place_of(pose));
        }
        put_vels(&self.bodies, bodies);
        for (edge, n) in self.joints.iter().zip(numbers.chunks_exact_mut(JOINT)) {
            records::put_impulses(edge, n);
        }
        put_rows(&self.rows, rows);
    }
}
