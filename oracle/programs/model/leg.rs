//! The leg of `examples`, by the oracle: what its programs in C, Rust and Python must print.

use crate::model::{BODY, Call, JOINT, ROW, Study, WORDS, WORLD, call};
use rapier2d::pipeline::leaves::micro_report;

fn millionths(x: f32) -> String {
    match micro_report(x) {
        4294967296 => "over".to_string(),
        8589934592 => "nan".to_string(),
        whole => whole.to_string(),
    }
}

fn leg() -> Study {
    let mut s = Study {
        settings: [0.015625, 1.0, 10.0],
        built: false,
        bodies: vec![0.0; 3 * BODY],
        words: vec![0; 3 * WORDS],
        numbers: vec![0.0; 3 * JOINT],
        rows: vec![0.0; 10 * ROW],
    };
    s.bodies[..BODY].copy_from_slice(&[1.0, 0.0, 0.0, 0.75, 10.0, 0.125, 0.125, 0.5, -0.25, 1.5]);
    s.bodies[BODY..2 * BODY]
        .copy_from_slice(&[1.0, 0.0, 0.0, 0.3, 20.0, 0.25, 0.25, 0.25, -0.25, -2.0]);
    s.bodies[2 * BODY..]
        .copy_from_slice(&[1.0, 0.0, 0.0625, 0.03125, 200.0, 1.0, 1.0, 0.0, -0.25, 0.5]);
    s.words[..WORDS].copy_from_slice(&[WORLD, 0, 3, 0, 4, 0, 0, 0, 0, 0, 1, 0]);
    s.words[WORDS..2 * WORDS].copy_from_slice(&[0, 1, 3, 4, 0, 0, 0, 0, 0, 0, 1, 0]);
    s.words[2 * WORDS..].copy_from_slice(&[1, 2, 3, 4, 4, 0, 0, 0, 0, 0, 1, 0]);
    let joints = [
        ([0.0, 1.0], [0.0, 0.25], [0.0, 0.0], [1.0, 10.0, 50.0]),
        ([0.0, -0.25], [0.0, 0.2], [0.0, 2.4], [0.0; 3]),
        ([0.0, -0.2], [-0.0625, 0.06875], [-0.5, 0.5], [0.0, 5.0, 30.0]),
    ];
    for (n, (at1, at2, limits, motor)) in s.numbers.chunks_exact_mut(JOINT).zip(joints) {
        n[0] = 1.0;
        n[2..4].copy_from_slice(&at1);
        n[4] = 1.0;
        n[6..8].copy_from_slice(&at2);
        n[14..16].copy_from_slice(&limits);
        n[29] = motor[0];
        n[32..34].copy_from_slice(&motor[1..]);
        n[35..37].copy_from_slice(&[1.0e6, 1.0]);
        // No centre is given: the middle of the limits, as the Rust takes it, an angle.
        n[40] = (limits[0] + limits[1]) * 0.5;
    }
    s
}

pub fn print() {
    let mut s = leg();
    assert_eq!(call(&mut s, &Call::Load).code, 0);
    let cold = Call::Build {
        warm: false,
        coefficient: 0.0,
        substep: 0,
    };
    println!("rows = {}", call(&mut s, &cold).code as u32);
    for (name, work) in [
        ("sweep 20", Call::Sweep(20)),
        ("bias removal", Call::RemoveBias),
        ("sweep 4", Call::Sweep(4)),
        ("write-back", Call::WriteBack),
    ] {
        let answer = call(&mut s, &work);
        assert_eq!(answer.code, 0);
        println!("{name} = granted");
        if name == "sweep 4" {
            println!("hip motors out of force = {}", answer.ids[0]);
            println!("ankle motors out of force = {}", answer.ids[2]);
        }
    }
    for (j, name) in ["hip", "knee", "ankle"].iter().enumerate() {
        let read = call(&mut s, &Call::ReadRows(j as u32));
        for (row, id) in read.out.chunks_exact(ROW).zip(s.ids(j)) {
            let kind = match id {
                0 => "lock x",
                1..4 => "lock y",
                4..8 => "stop",
                _ => "motor",
            };
            println!("{name} {kind}: {}", millionths(row[0]));
        }
    }
    for (i, name) in ["thigh", "shank", "foot"].iter().enumerate() {
        let v = call(&mut s, &Call::ReadVelocity(i as u32)).out;
        let [x, y, angular] = [0, 1, 2].map(|c| millionths(v[c]));
        println!("{name} moves: {x} {y}, turns: {angular}");
    }
}
