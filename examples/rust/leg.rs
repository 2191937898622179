//! A leg in Rust: thigh, shank and foot hang from the world by hip, knee and ankle. The hip has a motor, the straight knee rests at its stop, the ankle has
//! both. It prints how many motors ran out of force, the impulse of every row and the velocity of every body, in millionths.
//!
//!     rustc --edition 2024 -O examples/rust/leg.rs -L target/lib -l static=katydidzinc -o target/leg && target/leg
#![allow(dead_code)]

mod katydidzinc;
use katydidzinc::*;

/// A body upright at (x, y).
fn body(s: &mut Study, x: f32, y: f32, inverse_inertia: f32, inverse_mass: f32, velocity: [f32; 3]) {
    let b = s.body();
    (b[POSE + POSE_X], b[POSE + POSE_Y], b[INERTIA]) = (x, y, inverse_inertia);
    (b[MASS_X], b[MASS_Y]) = (inverse_mass, inverse_mass);
    b[VELOCITY_X..].copy_from_slice(&velocity);
}

/// A joint locked in the plane: where it is, seen from the centre of mass of each of its bodies.
fn joint(s: &mut Study, body1: u32, body2: u32, at1: [f32; 2], at2: [f32; 2]) -> (&mut [u32], &mut [f32]) {
    let (w, n) = s.joint(body1, body2);
    w[LOCKED_AXES] = LIN_X | LIN_Y;
    n[FRAME1 + POSE_X..=FRAME1 + POSE_Y].copy_from_slice(&at1);
    n[FRAME2 + POSE_X..=FRAME2 + POSE_Y].copy_from_slice(&at2);
    (w, n)
}

/// The ends of the angular limit. Its centre is their middle.
fn stop((w, n): (&mut [u32], &mut [f32]), min: f32, max: f32) {
    set_limits(w, n, 2, min, max);
}

fn motor((w, n): (&mut [u32], &mut [f32]), target_vel: f32, damping: f32, max_force: f32) {
    w[MOTOR_AXES] = ANG_X;
    let m = &mut n[MOTOR_ANGULAR..];
    (m[MOTOR_TARGET_VEL], m[MOTOR_DAMPING], m[MOTOR_MAX_FORCE]) = (target_vel, damping, max_force);
}

fn leg() -> Study {
    let mut s = Study::new();
    (s.dt, s.normalized_max_corrective_velocity) = (0.015625, 10.0);
    body(&mut s, 0.0, 0.75, 10.0, 0.125, [0.5, -0.25, 1.5]);
    body(&mut s, 0.0, 0.3, 20.0, 0.25, [0.25, -0.25, -2.0]);
    body(&mut s, 0.0625, 0.03125, 200.0, 1.0, [0.0, -0.25, 0.5]);
    motor(joint(&mut s, WORLD, 0, [0.0, 1.0], [0.0, 0.25]), 1.0, 10.0, 50.0);
    stop(joint(&mut s, 0, 1, [0.0, -0.25], [0.0, 0.2]), 0.0, 2.4);
    let (w, n) = joint(&mut s, 1, 2, [0.0, -0.2], [-0.0625, 0.06875]);
    stop((&mut *w, &mut *n), -0.5, 0.5);
    motor((w, n), 0.0, 5.0, 30.0);
    s
}

fn run() -> Result<(), Refused> {
    let mut s = leg();
    s.load()?;
    println!("rows = {}", s.build(None, 0)?);
    s.sweep(20)?;
    println!("sweep 20 = granted");
    s.remove_bias()?;
    println!("bias removal = granted");
    let counts = s.sweep(4)?;
    println!("sweep 4 = granted");
    println!("hip motors out of force = {}", counts[0]);
    println!("ankle motors out of force = {}", counts[2]);
    s.write_back()?;
    println!("write-back = granted");
    for (j, joint) in ["hip", "knee", "ankle"].iter().enumerate() {
        let (mut rows, mut ids) = ([0.0; READ_NUMBERS], [0; READ_IDS]);
        let n = s.read_rows(j as u32, &mut rows, &mut ids)?;
        for (row, id) in rows.chunks(ROW_WIDTH).zip(ids).take(n as usize) {
            let kind = match id {
                ID_MOTOR.. => "motor",
                ID_LIMIT.. => "stop",
                0 => "lock x",
                _ => "lock y",
            };
            println!("{joint} {kind}: {}", millionths(row[ROW_IMPULSE]));
        }
    }
    for (i, body) in ["thigh", "shank", "foot"].iter().enumerate() {
        let [x, y, angular] = s.read_velocity(i as u32)?.map(millionths);
        println!("{body} moves: {x} {y}, turns: {angular}");
    }
    Ok(())
}

fn main() {
    if let Err(Refused(number)) = run() {
        println!("refused {number}");
        std::process::exit(1);
    }
}
