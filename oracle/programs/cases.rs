//! Document 01's cases about rows.

use rapier2d::pipeline::{leaves, records, rows};
use std::process::exit;

/// Masks as handed over (locked, limit, motor, coupled), and the ids of the rows in order.
const MASKS: [([u32; 4], &[&str]); 8] = [
    ([3, 4, 4, 0], &["Motor2", "Dof0", "Dof1", "Limit2"]),
    (
        [0, 7, 7, 0],
        &["Motor2", "Motor0", "Motor1", "Limit2", "Limit0", "Limit1"],
    ),
    ([0, 1, 0, 3], &["Limit0"]),
    ([0, 2, 0, 3], &[]),
    ([0, 0, 2, 3], &["Motor0"]),
    ([0, 4, 4, 4], &[]),
    ([1, 3, 3, 3], &["Motor0", "Dof0"]),
    ([7, 7, 7, 0], &["Dof2", "Dof0", "Dof1"]),
];

/// Two bodies of mass and inertia 1, the second at (x, 0); identity frames; dt 1; all motors of
/// force `max_force`; all limits [low, high].
pub fn numbers(x: f32, [low, high]: [f32; 2], max_force: f32) -> [f32; rows::NUMBERS] {
    let mut n = [0.0; rows::NUMBERS];
    n[..3].copy_from_slice(&[1.0, 1.0, 3.0]);
    n[3..10].copy_from_slice(&[1.0, 0.0, 0.0, 0.0, 1.0, 1.0, 1.0]);
    n[10..17].copy_from_slice(&[1.0, 0.0, x, 0.0, 1.0, 1.0, 1.0]);
    let joint = &mut n[17..17 + records::JOINT];
    for i in 0..3 {
        joint[8 + 3 * i..][..2].copy_from_slice(&[low, high]);
        joint[17 + 6 * i + 4] = max_force;
    }
    joint[0] = 1.0;
    joint[4] = 1.0;
    joint[35..37].copy_from_slice(&[1.0e6, 1.0]);
    joint[40] = 1.0;
    n
}

/// The rows of a joint with these masks, and their ids.
pub fn built(masks: [u32; 4], n: &[f32]) -> (Vec<[f32; 18]>, Vec<String>) {
    let mut words = [0; rows::WORDS];
    words[..4].copy_from_slice(&masks);
    let (mut storage, mut ids) = ([0.0; rows::ROWS], [0; 6]);
    let count = rows::build(&words, n, &mut storage, &mut ids);
    let name = |id: &u32| format!("{}{}", ["Dof", "Limit", "Motor"][*id as usize / 4], id % 4);
    let row = |n: &[f32]| n.try_into().unwrap();
    (
        storage.chunks(18).take(count).map(row).collect(),
        ids[..count].iter().map(name).collect(),
    )
}

pub fn cases() {
    let mut count = 0;
    let mut expect = |what: &str, holds: bool| {
        count += 1;
        if !holds {
            println!("{what}: not so");
            exit(1)
        }
    };
    let inf = f32::INFINITY;
    let tame = numbers(2.0, [-1.0, 1.0], 1.0);

    for (masks, ids) in MASKS {
        expect(&format!("masks {masks:?}"), built(masks, &tame).1 == ids);
    }

    let bounds = |limits: [f32; 2], coupled: u32| {
        let (rows, _) = built([0, 1, 0, coupled], &numbers(2.0, limits, 1.0));
        [rows[0][1], rows[0][2]]
    };
    expect(
        "limits equal to the distance",
        bounds([2.0, 2.0], 0) == [-inf, inf],
    );
    expect("inside the limits", bounds([1.0, 3.0], 0) == [0.0, 0.0]);
    expect("at the low end", bounds([2.0, 3.0], 0) == [-inf, 0.0]);
    expect("at the high end", bounds([1.0, 2.0], 0) == [0.0, inf]);
    expect(
        "coupled, inside the limits",
        bounds([1.0, 3.0], 3) == [0.0, inf],
    );

    // Two motors on crossing axes: the first takes from the second only if it counts as a lock.
    let second = |max_force: f32| {
        let mut n = numbers(2.0, [-1.0, 1.0], max_force);
        n[17 + 7] = 1.0;
        let (rows, _) = built([0, 0, 6, 0], &n);
        (rows[0][2], rows[1][5])
    };
    expect(
        "a motor of force f32 MAX and dt 1",
        second(f32::MAX) == (f32::MAX, second(1.0).1 - 1.0),
    );
    expect(
        "a motor of infinite force",
        second(inf) == (inf, second(1.0).1),
    );

    let pi = f32::from_bits(0x4049_0FDB);
    let below = f32::from_bits(0x4049_0FDA);
    expect(
        "half range π",
        rows::angular_limit(-pi, pi, 0.6, 0.8) == [1.0, 0.0, 10.0],
    );
    expect(
        "half range below π",
        rows::angular_limit(-below, below, 0.6, 0.8) == [0.6, 0.8, below],
    );
    expect(
        "half range NaN",
        rows::angular_limit(inf, inf, 0.6, 0.8) == [1.0, 0.0, 10.0],
    );
    for dt in [0.0, -0.0] {
        expect("inv_dt of zero", rows::inv_dt(dt).to_bits() == 0);
        for force in [1.0, -1.0, inf] {
            expect(
                "max_impulse at dt 0",
                rows::max_impulse(force, dt).to_bits() == 0,
            );
        }
    }
    // No root is 1e-20, so `inv` and `simd_inv` of a distance are the same.
    let root = |bits: u32| leaves::sqrt(f32::from_bits(bits));
    expect(
        "roots about 1e-20",
        root(71362) < 1.0e-20 && 1.0e-20 < root(71363),
    );
    println!("{count} cases");
}
