//! The stand-ins of request R-14 on vectors, quaternions, matrices and poses: their cases, and the comparison of the oracle with the Rattle library
//! and with the second rendering.
//!
//!   spatial_leaves cases                   the cases in bits, by the oracle and by the second rendering
//!   spatial_leaves compare SEED COUNT      against the Rattle library (built with one)
//!   spatial_leaves has-library             whether it was built with one: the exit status
//!   spatial_leaves rendering SEED COUNT    against the second rendering
//!   spatial_leaves derivative SEED COUNT   R-14's derivative against the Rust's own body, over unit rotations: how many entries differ

mod bits;
mod draw;
#[path = "../spatial_rendering.rs"]
mod spatial_rendering;

use bits::{bits, hex};
use draw::Draw;
use rapier3d::pipeline::leaves as ours;
use spatial_rendering as second;
use std::process::exit;

const INPUTS: usize = ours::INPUTS;

/// The leaves by their names, and how many numbers each gives.
const LEAVES: [(&str, usize); 8] = [
    ("vector_sums", 9),
    ("vector_products", 9),
    ("cross_matrix", 9),
    ("rotation_products", 11),
    ("rotation_columns", 9),
    ("derivative", 9),
    ("matrix_product", 9),
    ("pose_product", 7),
];

/// What a side makes of the 27 numbers, by the number of the leaf in `LEAVES`.
type Side = fn(usize, &[f32; INPUTS]) -> Vec<f32>;

fn oracle(leaf: usize, x: &[f32; INPUTS]) -> Vec<f32> {
    match leaf {
        0 => ours::vector_sums(x).to_vec(),
        1 => ours::vector_products(x).to_vec(),
        2 => ours::cross_matrix(x).to_vec(),
        3 => ours::rotation_products(x).to_vec(),
        4 => ours::rotation_columns(x).to_vec(),
        5 => ours::derivative(x).to_vec(),
        6 => ours::matrix_product(x).to_vec(),
        _ => ours::pose_product(x).to_vec(),
    }
}

fn rendered(leaf: usize, x: &[f32; INPUTS]) -> Vec<f32> {
    let three = |at: usize| [x[at], x[at + 1], x[at + 2]];
    let four = |at: usize| [x[at], x[at + 1], x[at + 2], x[at + 3]];
    let (v, w, s, a, b, p, q) = (
        three(0),
        three(3),
        x[6],
        four(7),
        four(11),
        three(15),
        three(18),
    );
    let each = |f: fn(f32, f32) -> f32, v: [f32; 3], w: [f32; 3]| [0, 1, 2].map(|i| f(v[i], w[i]));
    match leaf {
        0 => [
            each(|a, b| a + b, v, w),
            each(|a, b| a - b, v, w),
            v.map(|x| x * s),
        ]
        .concat(),
        1 => {
            let single = [second::dot(v, w), second::dot4(a, b), second::sign(s)];
            [
                each(|a, b| a * b, v, w),
                second::inertia(&x[21..], v),
                single,
            ]
            .concat()
        }
        2 => second::cross_matrix(v).concat(),
        3 => {
            let (product, inverse) = (second::product(a, b), second::inverse(a));
            [&product[..], &inverse, &second::turn(a, v)].concat()
        }
        4 => second::matrix(a).concat(),
        5 => second::derivative(a, b).concat(),
        6 => second::times(second::matrix(a), second::matrix(b)).concat(),
        _ => {
            let moved = each(|a, b| a + b, second::turn(a, q), p);
            [&second::product(a, b)[..], &moved].concat()
        }
    }
}

/// The library's functions take and return structs of floats by value, as C passes them: a vector is three numbers, a rotation four, an inertia six, a
/// pose seven and a matrix nine, by its columns.
#[cfg(rattle)]
mod exported {
    #[repr(C)]
    #[derive(Copy, Clone)]
    pub struct Numbers<const N: usize>(pub [f32; N]);

    pub fn numbers<const N: usize>(x: &[f32], from: usize) -> Numbers<N> {
        Numbers(std::array::from_fn(|i| x[from + i]))
    }

    type Vector = Numbers<3>;
    type Rotation = Numbers<4>;
    type Inertia = Numbers<6>;
    type Pose = Numbers<7>;
    type Matrix = Numbers<9>;

    unsafe extern "C" {
        pub safe fn katydidzinc_space_vector_add(v: Vector, w: Vector) -> Vector;
        pub safe fn katydidzinc_space_vector_sub(v: Vector, w: Vector) -> Vector;
        pub safe fn katydidzinc_space_vector_mul(v: Vector, s: f32) -> Vector;
        pub safe fn katydidzinc_space_vector_gdot(v: Vector, w: Vector) -> f32;
        pub safe fn katydidzinc_space_vector_component_mul(v: Vector, w: Vector) -> Vector;
        pub safe fn katydidzinc_space_gcross_matrix(v: Vector) -> Matrix;
        pub safe fn katydidzinc_space_transform_vector(ii: Inertia, v: Vector) -> Vector;
        pub safe fn katydidzinc_space_rotation_mul(a: Rotation, b: Rotation) -> Rotation;
        pub safe fn katydidzinc_space_rotation_inverse(a: Rotation) -> Rotation;
        pub safe fn katydidzinc_space_rotation_dot(a: Rotation, b: Rotation) -> f32;
        pub safe fn katydidzinc_space_rotate(a: Rotation, v: Vector) -> Vector;
        pub safe fn katydidzinc_space_to_mat(a: Rotation) -> Matrix;
        pub safe fn katydidzinc_space_diff_conj1_2(a: Rotation, b: Rotation) -> Matrix;
        pub safe fn katydidzinc_space_matrix_mul(m: Matrix, n: Matrix) -> Matrix;
        pub safe fn katydidzinc_space_pose_mul(p: Pose, q: Pose) -> Pose;
        pub safe fn katydidzinc_space_sign_of(x: f32) -> f32;
    }
}

#[cfg(rattle)]
fn rattle(leaf: usize, x: &[f32; INPUTS]) -> Vec<f32> {
    use exported::*;
    let (v, w, s) = (numbers(x, 0), numbers(x, 3), x[6]);
    let (a, b) = (numbers(x, 7), numbers(x, 11));
    let pose = |rotation: Numbers<4>, from| {
        let mut p = Numbers([0.0; 7]);
        p.0[..4].copy_from_slice(&rotation.0);
        p.0[4..].copy_from_slice(&x[from..from + 3]);
        p
    };
    match leaf {
        0 => [
            katydidzinc_space_vector_add(v, w).0,
            katydidzinc_space_vector_sub(v, w).0,
            katydidzinc_space_vector_mul(v, s).0,
        ]
        .concat(),
        1 => [
            katydidzinc_space_vector_component_mul(v, w).0,
            katydidzinc_space_transform_vector(numbers(x, 21), v).0,
            [
                katydidzinc_space_vector_gdot(v, w),
                katydidzinc_space_rotation_dot(a, b),
                katydidzinc_space_sign_of(s),
            ],
        ]
        .concat(),
        2 => katydidzinc_space_gcross_matrix(v).0.to_vec(),
        3 => [
            &katydidzinc_space_rotation_mul(a, b).0[..],
            &katydidzinc_space_rotation_inverse(a).0,
            &katydidzinc_space_rotate(a, v).0,
        ]
        .concat(),
        4 => katydidzinc_space_to_mat(a).0.to_vec(),
        5 => katydidzinc_space_diff_conj1_2(a, b).0.to_vec(),
        6 => {
            let (m, n) = (katydidzinc_space_to_mat(a), katydidzinc_space_to_mat(b));
            katydidzinc_space_matrix_mul(m, n).0.to_vec()
        }
        _ => katydidzinc_space_pose_mul(pose(a, 15), pose(b, 18)).0.to_vec(),
    }
}

#[cfg(rattle)]
const RATTLE: Option<Side> = Some(rattle);
#[cfg(not(rattle))]
const RATTLE: Option<Side> = None;

/// Rotations a and b of the cases, (.1, .2, .3, .4) and (.5, −.6, .7, .8).
const A: [u32; 4] = [0x3DCC_CCCD, 0x3E4C_CCCD, 0x3E99_999A, 0x3ECC_CCCD];
const B: [u32; 4] = [0x3F00_0000, 0xBF19_999A, 0x3F33_3333, 0x3F4C_CCCD];
const ONE: u32 = 0x3F80_0000;
const TWO: u32 = 0x4000_0000;
const THREE: u32 = 0x4040_0000;
const HALF: u32 = 0x3F00_0000;
const MINUS: u32 = 0x8000_0000;
const NAN: u32 = 0x7FC0_0000;
const IDENTITY: [u32; 4] = [0, 0, 0, ONE];

/// What is asked: a leaf, its v, a, b and s, the first place of its results that is looked at, and the results.
struct Case {
    what: &'static str,
    leaf: &'static str,
    v: [u32; 3],
    a: [u32; 4],
    b: [u32; 4],
    s: u32,
    from: usize,
    results: &'static [u32],
}

const PLAIN: Case = Case {
    what: "",
    leaf: "",
    v: [ONE, TWO, THREE],
    a: A,
    b: B,
    s: ONE,
    from: 0,
    results: &[],
};

const UNIT_MATRIX: [u32; 9] = [ONE, 0, 0, 0, ONE, 0, 0, 0, ONE];

const CASES: &[Case] = &[
    Case {
        what: "a · b",
        leaf: "rotation_products",
        results: &[0x3F19_999A, 0x3200_0000, 0x3EB8_51EB, 0x3E38_51EC],
        ..PLAIN
    },
    Case {
        what: "dot of a and b",
        leaf: "vector_products",
        from: 7,
        results: &[0x3EEB_8520],
        ..PLAIN
    },
    Case {
        what: "(1, 2, 3) turned by a",
        leaf: "rotation_products",
        from: 8,
        results: &[0x3E99_999A, 0x3F19_999A, 0x3F66_6668],
        ..PLAIN
    },
    Case {
        what: "the matrix of a",
        leaf: "rotation_columns",
        results: &[
            0x3D23_D70D,
            0x3E8F_5C29,
            0xBDCC_CCCE,
            0xBE4C_CCCD,
            0x3DCC_CCCE,
            0x3E4C_CCCE,
            0x3E61_47B0,
            0x3D23_D70A,
            0x3E4C_CCCC,
        ],
        ..PLAIN
    },
    Case {
        what: "the derivative of a and b",
        leaf: "derivative",
        results: &[
            0x3E0F_5C2A,
            0xBE75_C290,
            0x3D8F_5C2A,
            0x3E8F_5C29,
            0xBCF5_C28C,
            0xBE23_D70B,
            0x3E19_999A,
            0x3DF5_C290,
            0x3E99_999A,
        ],
        ..PLAIN
    },
    Case {
        what: "minus zeros turned by the identity",
        leaf: "rotation_products",
        v: [MINUS; 3],
        a: IDENTITY,
        from: 8,
        results: &[0, 0, 0],
        ..PLAIN
    },
    Case {
        what: "the matrix of the identity",
        leaf: "rotation_columns",
        a: IDENTITY,
        results: &UNIT_MATRIX,
        ..PLAIN
    },
    Case {
        what: "the matrix of the negated identity",
        leaf: "rotation_columns",
        a: [0, 0, 0, ONE | MINUS],
        results: &UNIT_MATRIX,
        ..PLAIN
    },
    Case {
        what: "the matrix of the identity with minus zeros",
        leaf: "rotation_columns",
        a: [MINUS, MINUS, MINUS, ONE],
        results: &UNIT_MATRIX,
        ..PLAIN
    },
    Case {
        what: "the matrix of a third of a turn",
        leaf: "rotation_columns",
        a: [HALF; 4],
        results: &[0, ONE, 0, 0, 0, ONE, ONE, 0, 0],
        ..PLAIN
    },
    Case {
        what: "the matrix of half a turn about z",
        leaf: "rotation_columns",
        a: [0, 0, ONE, 0],
        results: &[ONE | MINUS, 0, 0, 0, ONE | MINUS, 0, 0, 0, ONE],
        ..PLAIN
    },
    Case {
        what: "the derivative of the identity with itself",
        leaf: "derivative",
        a: IDENTITY,
        b: IDENTITY,
        results: &[HALF, 0, 0, 0, HALF, 0, 0, 0, HALF],
        ..PLAIN
    },
    Case {
        what: "the cross matrix of (1, 2, 3)",
        leaf: "cross_matrix",
        results: &[
            0,
            THREE,
            TWO | MINUS,
            THREE | MINUS,
            0,
            ONE,
            TWO,
            ONE | MINUS,
            0,
        ],
        ..PLAIN
    },
    Case {
        what: "the sign of minus zero",
        leaf: "vector_products",
        s: MINUS,
        from: 8,
        results: &[ONE | MINUS],
        ..PLAIN
    },
    Case {
        what: "the sign of zero",
        leaf: "vector_products",
        s: 0,
        from: 8,
        results: &[ONE],
        ..PLAIN
    },
    Case {
        what: "the sign of NaN",
        leaf: "vector_products",
        s: NAN,
        from: 8,
        results: &[ONE],
        ..PLAIN
    },
    Case {
        what: "the sign of a NaN with its sign bit set",
        leaf: "vector_products",
        s: NAN | MINUS,
        from: 8,
        results: &[ONE],
        ..PLAIN
    },
    Case {
        what: "(1, 2, 3) turned by (0, 0, 0, 2)",
        leaf: "rotation_products",
        a: [0, 0, 0, TWO],
        from: 8,
        results: &[0x4080_0000, 0x4100_0000, 0x4140_0000],
        ..PLAIN
    },
];

/// The derivative of a and b by the body that rotation_ops.rs has.
const OWN_DERIVATIVE: [u32; 9] = [
    0x3E0F_5C2A,
    0xBE75_C28F,
    0x3D8F_5C2A,
    0x3E8F_5C29,
    0xBCF5_C290,
    0xBE23_D70A,
    0x3E19_999A,
    0x3DF5_C290,
    0x3E99_999A,
];

fn leaf_of(name: &str) -> usize {
    LEAVES.iter().position(|leaf| leaf.0 == name).unwrap()
}

fn input(v: [u32; 3], a: [u32; 4], b: [u32; 4], s: u32) -> [f32; INPUTS] {
    let mut x = [0.0; INPUTS];
    let mut put = |at: usize, of: &[u32]| {
        for (k, bits) in of.iter().enumerate() {
            x[at + k] = f32::from_bits(*bits)
        }
    };
    put(0, &v);
    put(6, &[s]);
    put(7, &a);
    put(11, &b);
    x
}

fn cases() {
    let mut sides: Vec<(&str, Side)> =
        vec![("the Rust", oracle), ("the second rendering", rendered)];
    sides.extend(RATTLE.map(|rattle| ("the library", rattle)));
    for (name, side) in &sides {
        for case in CASES {
            let x = input(case.v, case.a, case.b, case.s);
            let got: Vec<u32> = side(leaf_of(case.leaf), &x).into_iter().map(bits).collect();
            let got = &got[case.from..][..case.results.len()];
            if got != case.results {
                println!(
                    "{}, by {name}: {got:08X?}, not {:08X?}",
                    case.what, case.results
                );
                exit(1)
            }
        }
    }
    let own = ours::own_derivative(&input(PLAIN.v, A, B, ONE)).map(bits);
    let compiled = rapier3d_own::pipeline::leaves::derivative(&input(PLAIN.v, A, B, ONE)).map(bits);
    if own != OWN_DERIVATIVE || compiled != OWN_DERIVATIVE {
        println!("the derivative by the Rust's own body: {own:08X?} and {compiled:08X?}");
        exit(1)
    }
    println!(
        "{} cases about leaves in space, by {} sides",
        CASES.len() + 1,
        sides.len()
    );
}

/// The 27 numbers: each component any number, or one that has to do with another; rotations that are unit, made of few components, or anything.
fn draw(d: &mut Draw) -> [f32; INPUTS] {
    let mut x = [0.0; INPUTS];
    let calm = d.below(4);
    for i in 0..INPUTS {
        x[i] = match calm {
            0 | 1 => d.ordinary(),
            _ if i > 0 && d.below(3) == 0 => {
                let other = x[d.below(i as u64) as usize];
                d.related(other)
            }
            _ => d.number(),
        };
        if d.below(8) == 0 {
            x[i] = d.pick(&[0.0, -0.0, 1.0, -1.0]);
        }
    }
    for at in [7, 11] {
        match d.below(6) {
            0 => x[at..at + 4].fill(0.0),
            1 => x[at..at + 4].copy_from_slice(&unit(d)),
            _ => {}
        }
        if d.below(6) == 0 {
            x[at + d.below(4) as usize] = d.pick(&[1.0, -1.0, 0.5, 2.0]);
        }
    }
    if d.below(8) == 0 {
        for i in 0..4 {
            x[11 + i] = -x[7 + i];
        }
    }
    x
}

fn unit(d: &mut Draw) -> [f32; 4] {
    let q = [0.0; 4].map(|_: f64| d.below(2_000_001) as f64 / 1.0e6 - 1.0);
    let length = q.iter().map(|x| x * x).sum::<f64>().sqrt().max(1.0e-9);
    q.map(|x| (x / length) as f32)
}

fn compare(other: Side, seed: u64, count: u64) {
    for (leaf, (name, numbers)) in LEAVES.iter().enumerate() {
        let d = &mut Draw::new(seed.wrapping_mul(8).wrapping_add(leaf as u64));
        let (mut nans, mut infinite, mut zeros) = (0u64, 0u64, 0u64);
        for _ in 0..count {
            let x = draw(d);
            let (here, there) = (oracle(leaf, &x), other(leaf, &x));
            if !here
                .iter()
                .map(|x| bits(*x))
                .eq(there.iter().map(|x| bits(*x)))
            {
                println!(
                    "{name} of {}: {} here, {} there",
                    hex(&x),
                    hex(&here),
                    hex(&there)
                );
                exit(1)
            }
            for r in here {
                nans += r.is_nan() as u64;
                infinite += r.is_infinite() as u64;
                zeros += (r == 0.0) as u64;
            }
        }
        let all = count * *numbers as u64;
        let share = |part: u64| 100.0 * part as f64 / all.max(1) as f64;
        println!(
            "{name} in space: {all} results, NaN {:.1} %, infinite {:.1} %, zero {:.1} %",
            share(nans),
            share(infinite),
            share(zeros)
        );
    }
    println!("{count} draws of each leaf in space, no difference, seed {seed}");
}

/// How many entries of the derivative differ between R-14's words and the Rust's own body, over unit rotations, and by how much.
fn derivative(seed: u64, count: u64) {
    let d = &mut Draw::new(seed);
    let (mut entries, mut matrices, mut largest) = (0u64, 0u64, 0.0f64);
    for _ in 0..count {
        let mut x = [0.0; INPUTS];
        x[7..11].copy_from_slice(&unit(d));
        x[11..15].copy_from_slice(&unit(d));
        let (here, there) = (ours::derivative(&x), ours::own_derivative(&x));
        let differ = (0..9).filter(|i| bits(here[*i]) != bits(there[*i])).count() as u64;
        entries += differ;
        matrices += (differ > 0) as u64;
        for i in 0..9 {
            largest = largest.max((here[i] as f64 - there[i] as f64).abs());
        }
    }
    println!(
        "{entries} of {} entries ({:.1} %) and {matrices} of {count} matrices differ, by at most {largest:e}, seed {seed}",
        9 * count,
        100.0 * entries as f64 / (9 * count).max(1) as f64
    );
}

fn main() {
    let arguments: Vec<String> = std::env::args().skip(1).collect();
    let number = |i: usize, default: u64| match arguments.get(i) {
        None => default,
        Some(text) => text.parse().unwrap_or_else(|_| {
            eprintln!("spatial_leaves: {text} is not a number");
            exit(2)
        }),
    };
    let count = 100_000;
    match arguments.first().map(String::as_str) {
        Some("cases") => cases(),
        Some("compare") => match RATTLE {
            Some(rattle) => compare(rattle, number(1, 1), number(2, count)),
            None => {
                println!(
                    "built without a library that has the leaves in space: nothing to compare with"
                );
                exit(2)
            }
        },
        Some("has-library") => exit(RATTLE.is_none() as i32),
        Some("rendering") => compare(rendered, number(1, 1), number(2, count)),
        Some("derivative") => derivative(number(1, 1), number(2, count)),
        _ => {
            eprintln!(
                "spatial_leaves: cases | compare SEED COUNT | has-library | rendering SEED COUNT | derivative SEED COUNT"
            );
            exit(2)
        }
    }
}
