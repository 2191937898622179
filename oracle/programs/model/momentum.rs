//! Request R-13 over a sweep, measured: how far a granted sweep moves the exact momentum sum of the bodies that its rows name,
//! beside its steps' bounds together. The sweep is the oracle's, and the Rattle library's beside it; its steps are made once
//! more, one by one, by the unchanged Rust, and must leave what the sweep left.

use crate::draw::Draw;
use crate::library::{ORACLE, RATTLE, same, same_answer, same_study};
use crate::model::{BODY, Call, ENABLED, ROW, Study, WORDS, WORLD};
use crate::reactions;
use crate::studies;
use crate::wide::{Wide, power, spacing};
use rapier2d::pipeline::rows::step;
use std::process::exit;

/// A study of two to eight bodies and of joints between them, with inverse masses from 2^-20 to 2^20; some joints switched off.
fn study(d: &mut Draw, k: u64) -> Study {
    let mut s = reactions::study(d, k);
    while s.body_count() < 2 {
        s = reactions::study(d, k);
    }
    let bodies = s.body_count() as u32;
    let (least, choices) = if d.one_in(4) { (-20, 41) } else { (-3, 7) };
    let scale = if d.one_in(4) { power(d.below(81) as i32 - 40) } else { 1.0 };
    for body in s.bodies.chunks_mut(BODY) {
        body[5] = power(least + d.below(choices) as i32);
        body[6] = body[5];
        for v in &mut body[7..] {
            *v *= scale;
        }
    }
    for words in s.words.chunks_mut(WORDS) {
        if words[1] == WORLD {
            words[1] = (words[0] + 1) % bodies;
        }
        words[ENABLED] = d.one_in(8) as u32;
    }
    s
}

/// The calls before the sweep: a load, often a mask change, a build and what may follow it.
fn calls(d: &mut Draw, s: &Study) -> Vec<Call> {
    let mut all = vec![Call::Load];
    if d.one_in(2) {
        let joint = d.below(s.joint_count() as u64) as u32;
        all.push(Call::SetMasks { joint, masks: studies::masks(d.below(4096) as u32) });
    }
    let cold = Call::Build { warm: false, coefficient: 0.0, substep: 0 };
    all.push(cold);
    match d.below(4) {
        0 => all.push(Call::RemoveBias),
        1 => all.extend([
            Call::Sweep(1 + d.below(4) as u32),
            Call::WriteBack,
            Call::Build { warm: true, coefficient: 0.5, substep: 0 },
            Call::WarmStart,
        ]),
        _ => {}
    }
    all
}

/// w, where the inverse mass is 2^(20 - w).
fn mass_power(m: f32) -> u32 {
    147 - (m.to_bits() >> 23)
}

/// Velocity `axis` of body i as a momentum, in units of 2^-169.
fn momentum(s: &[f32], i: usize, axis: usize) -> Wide {
    let body = &s[i * BODY..][..BODY];
    Wide::of(body[7 + axis]).times(1 << mass_power(body[5]))
}

/// What a sweep's steps come to.
struct Walk {
    bodies: Vec<f32>,
    rows: Vec<f32>,
    steps: u64,
    /// The bounds together, doubled, on each axis.
    bound: [Wide; 2],
    /// Every step meets what R-13 asks.
    meets: bool,
}

/// The steps of `rounds` rounds from a built study, in order.
fn walked(s: &Study, rounds: u32) -> Walk {
    let nothing = Wide::shifted(0, 0);
    let mut walk = Walk { bodies: s.bodies.clone(), rows: s.rows.clone(), steps: 0, bound: [nothing; 2], meets: true };
    for _ in 0..rounds {
        for j in 0..s.joint_count() {
            let ends = [0, 1].map(|k| s.joint(j)[k] as usize * BODY);
            for r in s.first_row(j)..s.first_row(j + 1) {
                let row = &mut walk.rows[r * ROW..][..ROW];
                let mut vels = ends.map(|at| &walk.bodies[at + 7..at + 10]).concat();
                let before = row[0];
                step(row, &mut vels);
                let p = row[0] - before;
                for axis in 0..2 {
                    for k in 0..2 {
                        let m = row[14 + 2 * k + axis];
                        let (q, new) = (row[3 + axis] * p, vels[3 * k + axis]);
                        if !new.is_finite() {
                            walk.meets = false;
                            return walk;
                        }
                        // the product in units of 2^-169, of which 2^43 are 2^-126
                        let product = Wide::of(q).size().times(1 << (40 - mass_power(m)));
                        walk.meets &= q == 0.0 || product.compared(Wide::shifted(1, 43)).is_ge();
                        walk.bound[axis] = walk.bound[axis].plus(spacing(new, false).times(1 << mass_power(m)));
                    }
                }
                for (k, at) in ends.into_iter().enumerate() {
                    walk.bodies[at + 7..at + 10].copy_from_slice(&vels[3 * k..][..3]);
                }
                walk.steps += 1;
            }
        }
    }
    walk
}

/// The bodies that the study's rows name, each once.
fn named(s: &Study) -> Vec<usize> {
    let with_rows = (0..s.joint_count()).filter(|j| !s.ids(*j).is_empty());
    let mut all: Vec<usize> = with_rows.flat_map(|j| [s.joint(j)[0] as usize, s.joint(j)[1] as usize]).collect();
    all.sort();
    all.dedup();
    all
}

fn stop(what: &str, seed: u64, k: u64) -> ! {
    println!("momentum: {what}, study {k}, seed {seed}");
    exit(1)
}

pub fn measure(seed: u64, count: u64) {
    let d = &mut Draw::new(seed);
    let (mut met, mut drawn, mut steps, mut masks) = (0, 0, 0, 0);
    let (mut moved, mut still, mut largest) = (0u64, 0u64, 0f64);
    let mut shares = [0u64; 4];
    while met < count {
        drawn += 1;
        let mut s = study(d, drawn);
        let before = calls(d, &s);
        for call in &before {
            // a mask change may ask for more rows
            if let Call::SetMasks { joint, masks } = call {
                let mut other = s.clone();
                other.words[*joint as usize * WORDS + 2..][..4].copy_from_slice(masks);
                s.rows = vec![0.0; other.total() * ROW];
            }
            if !ORACLE(&mut s, call).granted() {
                stop("a call before the sweep is refused", seed, drawn);
            }
        }
        let rounds = 1 + d.below(8) as u32;
        let walk = walked(&s, rounds);
        if !walk.meets {
            continue;
        }
        let mut after = s.clone();
        let answer = ORACLE(&mut after, &Call::Sweep(rounds));
        if let Some(rattle) = RATTLE {
            let mut other = s.clone();
            if !same_answer(&answer, &rattle(&mut other, &Call::Sweep(rounds))) || !same_study(&after, &other) {
                stop("the library's sweep is another", seed, drawn);
            }
        }
        if !same(&walk.bodies, &after.bodies) || !same(&walk.rows, &after.rows) {
            stop("a sweep is not its steps", seed, drawn);
        }
        met += 1;
        steps += walk.steps;
        masks += before.iter().any(|c| matches!(c, Call::SetMasks { .. })) as u64;
        let named = named(&s);
        for axis in 0..2 {
            let sum = |bodies: &[f32]| {
                named.iter().fold(Wide::shifted(0, 0), |sum, i| sum.plus(momentum(bodies, *i, axis)))
            };
            let drift = sum(&after.bodies).minus(sum(&s.bodies)).size();
            let drift = drift.plus(drift);
            if drift.compared(walk.bound[axis]).is_gt() {
                stop("a sweep drifts further than its steps' bounds together", seed, drawn);
            }
            if drift.is_zero() {
                still += 1;
                continue;
            }
            moved += 1;
            let share = drift.about() / walk.bound[axis].about();
            largest = largest.max(share);
            shares[((share * 4.0) as usize).min(3)] += 1;
        }
    }
    let by = if RATTLE.is_some() { "the oracle and the library alike" } else { "the oracle alone" };
    println!("{met} sweeps of 1 to 8 rounds whose every step meets what R-13 asks, of {drawn} drawn, by {by}, {steps} steps, {masks} after a mask change, none beyond the bounds, seed {seed}");
    println!("on {still} axes no drift; on {moved} by the share of the bounds together: up to 1/4 {}, 1/2 {}, 3/4 {}, above {}; the largest share {largest:.4}", shares[0], shares[1], shares[2], shares[3]);
}
