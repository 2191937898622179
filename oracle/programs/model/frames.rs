//! Frames against the lists of calls that they are: builds, warm starts, sweeps, bias removals and one write-back by the side's
//! calls, with dt/n among the settings and each new pose, worked out here, given by `place`.

use crate::generator::Generator;
use crate::library::{Side, same_study};
use crate::model::{Answer, BODY, Call, Study, refusal};
use crate::run::show_study;
use std::process::exit;

/// The f32 nearest to a value that was worked out in f64 from f32 operands: one operation rounded twice so is rounded as once.
fn near(x: f64) -> f64 {
    f64::from(x as f32)
}

/// Rotation and position after a time h.
fn new_pose(body: &[f32], h: f32) -> [f32; 4] {
    let n: Vec<f64> = body.iter().map(|x| f64::from(*x)).collect();
    let h = f64::from(h);
    let a = near(n[9] * h);
    let re = near(n[0] - near(n[1] * a));
    let im = near(n[1] + near(n[0] * a));
    let length = near(near(near(re * re) + near(im * im)).sqrt());
    let rotation = if length == 0.0 {
        [n[0], n[1]]
    } else {
        [re / length, im / length]
    };
    let position = [n[2] + near(n[7] * h), n[3] + near(n[8] * h)];
    [rotation[0], rotation[1], position[0], position[1]].map(|x| x as f32)
}

/// The frame as a list; the last sweep's answer, or none where a new pose is refused.
fn by_hand(side: Side, s: &mut Study, call: &Call) -> Option<Answer> {
    let Call::Frame {
        warm,
        coefficient,
        sweeps,
        substeps,
    } = *call
    else {
        unreachable!()
    };
    let dt = s.settings[0];
    let h = (f64::from(dt) / f64::from(substeps)) as f32;
    s.settings[0] = h;
    let granted = |s: &mut Study, call: Call| {
        let answer = side(s, &call);
        if !answer.granted() {
            println!("{call:?} within a frame is refused by {}", answer.code);
            exit(1)
        }
        answer
    };
    let mut last = None;
    for substep in 0..substeps {
        let build = Call::Build {
            warm,
            coefficient,
            substep,
        };
        for call in [build, Call::WarmStart, Call::Sweep(sweeps)] {
            granted(s, call);
        }
        for i in 0..s.body_count() {
            let place = Call::Place {
                body: i as u32,
                pose: new_pose(&s.bodies[i * BODY..][..BODY], h),
            };
            if side(s, &place).code == 6 {
                return None;
            }
        }
        granted(s, Call::RemoveBias);
        last = Some(granted(s, Call::Sweep(sweeps)));
    }
    granted(s, Call::WriteBack);
    s.settings[0] = dt;
    last
}

pub fn by_hands(side: Side, by: &str, seed: u64, count: u64) {
    let g = &mut Generator::new(seed);
    let (mut granted, mut refused, mut substeps) = (0u64, 0u64, 0u64);
    while granted + refused < count {
        let mut s = g.study();
        if g.d.one_in(2) {
            let call = g.build(s.built);
            side(&mut s, &call);
        }
        for _ in 0..1 + g.d.below(4) {
            let call = g.frame();
            g.throw(&mut s, &call);
            if refusal(&s, &call) != 0 {
                continue;
            }
            let (before, mut hand) = (s.clone(), s.clone());
            let answer = side(&mut s, &call);
            let alike = match by_hand(side, &mut hand, &call) {
                Some(last) => {
                    granted += 1;
                    answer.code == 0 && answer.ids == last.ids && same_study(&s, &hand)
                }
                None => {
                    refused += 1;
                    answer.code == 6 && same_study(&s, &before)
                }
            };
            if !alike || answer.outside {
                println!("{call:?} by {by} answers {} and is not its list. Before:", answer.code);
                show_study(&before);
                println!("after the frame:");
                show_study(&s);
                println!("after the list:");
                show_study(&hand);
                exit(1)
            }
            if let Call::Frame { substeps: n, .. } = call {
                substeps += u64::from(n);
            }
        }
    }
    println!(
        "{} frames of {substeps} substeps by {by} are their lists of calls: {granted} granted, {refused} refused by a new pose, seed {seed}",
        granted + refused
    );
}
