//! A wrist in space, in Rust: examples/python/wrist.py says what it is and what it prints.
//!
//!     rustc --edition 2024 -O examples/rust/wrist.rs -L target/lib -l static=katydidzinc -o target/wrist && target/wrist
#![allow(dead_code)]

mod katydidzinc;
mod katydidzinc_space;
use katydidzinc::{MOTOR_DAMPING, MOTOR_MAX_FORCE, Refused, WORLD, millionths};
use katydidzinc_space::*;

/// A body at rest on the y axis.
fn body(s: &mut Study, y: f32, inverse_inertia: [f32; 6], inverse_mass: f32) -> &mut [f32] {
    let b = s.body();
    b[POSE + POSE_Y] = y;
    b[INERTIA..MASS_X].copy_from_slice(&inverse_inertia);
    b[MASS_X..VELOCITY].fill(inverse_mass);
    b
}

/// A joint with some axes locked: how far along y it is from the centre of mass of each of its bodies.
fn joint(s: &mut Study, body1: u32, body2: u32, locked_axes: u32, y1: f32, y2: f32) -> (&mut [u32], &mut [f32]) {
    let (w, n) = s.joint(body1, body2);
    w[LOCKED_AXES] = locked_axes;
    (n[FRAME1 + POSE_Y], n[FRAME2 + POSE_Y]) = (y1, y2);
    (w, n)
}

fn wrist() -> Study {
    let mut s = Study::new();
    (s.dt, s.normalized_max_corrective_velocity) = (0.015625, 10.0);
    body(&mut s, 0.125, [150.0, 0.0, 0.0, 1000.0, 0.0, 150.0], 0.75);
    let hand = body(&mut s, -0.065, [1200.0, 0.0, 100.0, 4000.0, 0.0, 1000.0], 2.5);
    hand[POSE..POSE + 4].copy_from_slice(&[0.02, -0.01, 0.1, 0.99]);
    hand[VELOCITY..].copy_from_slice(&[0.25, -0.5, 0.125, 1.0, -0.5, 2.0]);
    joint(&mut s, WORLD, 0, ALL_AXES, 0.25, 0.125);
    let (w, n) = joint(&mut s, 0, 1, LIN_X | ANG_X | ANG_Y, -0.125, 0.0625);
    set_limits(w, n, 1, -0.002, 0.002);
    w[MOTOR_AXES] = LIN_Z;
    (n[MOTOR_Z + MOTOR_DAMPING], n[MOTOR_Z + MOTOR_MAX_FORCE]) = (20.0, 0.125);
    s
}

/// A row's id, rule and definition (docs/RULES.md).
fn told(id: u32) -> (String, String, &'static str) {
    let axis = id % ID_LIMIT;
    match id {
        ID_MOTOR.. => (format!("Motor{axis}"), format!("S1.{}", axis + 1), "motorLinearOf"),
        ID_LIMIT.. => (format!("Limit{axis}"), format!("S2.{}", axis + 7), "limitLinearOf"),
        3.. => (format!("Dof{axis}"), format!("S2.{}", axis - 2), "lockAngularOf"),
        _ => (format!("Dof{axis}"), format!("S2.{}", axis + 4), "lockLinearOf"),
    }
}

fn all(numbers: &[f32]) -> String {
    numbers.iter().map(|x| millionths(*x)).collect::<Vec<_>>().join(" ")
}

fn run() -> Result<(), Refused> {
    let mut s = wrist();
    s.load()?;
    println!("rows = {}", s.build(None, 0)?);
    s.sweep(20)?;
    s.remove_bias()?;
    println!("wrist motors out of force = {}", s.sweep(4)?[1]);
    s.write_back()?;
    let mut reactions = vec![];
    for (j, joint, bodies) in [(0, "elbow", ["world", "forearm"]), (1, "wrist", ["forearm", "hand"])] {
        let (mut rows, mut ids) = ([0.0; READ_NUMBERS], [0; READ_IDS]);
        let n = s.read_rows(j, &mut rows, &mut ids)? as usize;
        for (row, id) in rows.chunks(ROW_WIDTH).zip(ids).take(n) {
            let (id, rule, definition) = told(id);
            println!("{joint} {id}: {}, rule {rule}, {definition}", millionths(row[ROW_IMPULSE]));
        }
        for (body, got) in bodies.iter().zip(reaction(&rows[..n * ROW_WIDTH])) {
            reactions.push(format!("{joint} on {body}: force {}, moment {}", all(&got[..3]), all(&got[3..])));
        }
    }
    println!("{}", reactions.join("\n"));
    for (i, body) in ["forearm", "hand"].iter().enumerate() {
        let v = s.read_velocity(i as u32)?;
        println!("{body} moves: {}, turns: {}", all(&v[..3]), all(&v[3..]));
    }
    Ok(())
}

fn main() {
    if let Err(Refused(number)) = run() {
        println!("refused {number}");
        std::process::exit(1);
    }
}
