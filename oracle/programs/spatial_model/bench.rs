//! The same work in space by the Rust and by the Rattle library, one after the other in one run. The Rust keeps its own structs between calls; the
//! library is called as a laboratory calls it, so that it also checks what it is handed, each time.

use crate::library::{direct, same};
use crate::spatial_model::{BODY, Call, JOINT, KINDS, ROW, Study, WORDS, WORLD};
use rapier3d::pipeline::model::Prepared;
use std::time::Instant;

/// Locked, limit and motor masks: each joint of a chain takes the next of these.
const WRISTS: &[[u32; 3]] = &[[7, 0, 0], [62, 1, 1], [63, 0, 0], [56, 7, 7]];
const BALLS: &[[u32; 3]] = &[[7, 0, 0]];
const FIXED: &[[u32; 3]] = &[[63, 0, 0]];
const NINE_ROWS: &[[u32; 3]] = &[[56, 7, 7]];

/// A chain of n links that hangs from the world.
fn chain(n: usize, kinds: &[[u32; 3]]) -> Study {
    let mut s = Study {
        settings: [1.0 / 60.0, 1.0, 10.0],
        built: false,
        bodies: vec![],
        words: vec![],
        numbers: vec![],
        rows: vec![],
    };
    for i in 0..n {
        let half = 0.01 * i as f32;
        let mut body = [0.0; BODY];
        body[..4].copy_from_slice(&[0.6 * half.sin(), 0.0, 0.8 * half.sin(), half.cos()]);
        body[4..7].copy_from_slice(&[i as f32, -0.25 * (i % 3) as f32, 0.125 * (i % 2) as f32]);
        body[7..16].copy_from_slice(&[2.0, 0.25, 0.0, 2.0, -0.25, 4.0, 1.0, 1.0, 1.0]);
        body[16..].copy_from_slice(&[0.125, -0.5, 0.25, 0.0625 * (i % 5) as f32, 0.5, -0.25]);
        s.bodies.extend(body);
        let before = if i == 0 { WORLD } else { i as u32 - 1 };
        let [locked, limit, motor] = kinds[i % kinds.len()];
        let words: [u32; WORDS] = [
            before,
            i as u32,
            locked,
            limit,
            motor,
            0,
            0,
            1,
            i as u32 % 2,
            0,
        ];
        s.words.extend(words);
        let mut joint = [0.0; JOINT];
        joint[3] = 1.0;
        joint[4] = 0.5;
        joint[10] = 1.0;
        joint[11] = -0.5;
        for axis in 0..3 {
            joint[14 + 3 * axis..][..2].copy_from_slice(&[-0.5, 0.5]);
            joint[23 + 6 * axis..][..5].copy_from_slice(&[1.0, 0.25, 40.0, 4.0, 100.0]);
        }
        joint[41..43].copy_from_slice(&[1.0e6, 1.0]);
        s.numbers.extend(joint);
    }
    s.rows = vec![0.0; s.total() * ROW];
    s
}

/// A build's impulses start at half of the stored ones.
const COEFFICIENT: f32 = 0.5;

const BUILD: Call = Call::Build {
    warm: true,
    coefficient: COEFFICIENT,
    substep: 0,
};

/// A step as a laboratory makes it: rows made, warm started, swept, freed of their bias, swept once more, and their impulses stored.
const STEP: [Call; 6] = [
    BUILD,
    Call::WarmStart,
    Call::Sweep(4),
    Call::RemoveBias,
    Call::Sweep(1),
    Call::WriteBack,
];

/// The model on both sides.
struct Sides {
    rust: Prepared,
    rattle: Study,
}

impl Sides {
    fn new(rattle: Study) -> Sides {
        let s = &rattle;
        Sides {
            rust: Prepared::new(s.settings, &s.bodies, &s.words, &s.numbers, &s.rows),
            rattle,
        }
    }

    fn by_rust(&mut self, call: &Call) {
        match *call {
            Call::Build { .. } => self.rust.build(Some(COEFFICIENT), 0),
            Call::WarmStart => self.rust.warmstart(),
            Call::Sweep(rounds) => self.rust.solve(rounds),
            Call::RemoveBias => self.rust.remove_bias(),
            Call::WriteBack => self.rust.writeback(),
            _ => unreachable!(),
        }
    }

    fn by_rattle(&mut self, call: &Call) {
        let code = direct(&mut self.rattle, call);
        match call {
            Call::Build { .. } => assert!(code >= 1 << 32),
            _ => assert_eq!(code, 0),
        }
        self.rattle.built = true;
    }

    /// The shortest time of some calls by each side, in nanoseconds: the sides take turns of about a tenth of a millisecond, so that most turns run
    /// undisturbed on a machine that does other work too.
    fn times(&mut self, calls: &[Call]) -> [f64; 2] {
        let rounds = |c: &Call| match c {
            Call::Sweep(n) => *n as usize,
            _ => 4,
        };
        let each = self.rattle.total() * calls.iter().map(rounds).sum::<usize>();
        let repeat = 3000 / each + 1;
        let mut best = [f64::INFINITY; 2];
        for _ in 0..400 {
            let start = Instant::now();
            for _ in 0..repeat {
                calls.iter().for_each(|call| self.by_rust(call));
            }
            let between = Instant::now();
            for _ in 0..repeat {
                calls.iter().for_each(|call| self.by_rattle(call));
            }
            let took = [between - start, between.elapsed()];
            for (b, t) in best.iter_mut().zip(took) {
                *b = b.min(t.as_nanos() as f64 / repeat as f64);
            }
        }
        best
    }

    /// Both sides hold the same velocities, stored impulses and rows, in bits.
    fn agree(&self) -> bool {
        let s = &self.rattle;
        let (mut bodies, mut numbers, mut rows) =
            (s.bodies.clone(), s.numbers.clone(), s.rows.clone());
        self.rust.left(&mut bodies, &mut numbers, &mut rows);
        same(&bodies, &s.bodies) && same(&numbers, &s.numbers) && same(&rows, &s.rows)
    }
}

pub fn bench() {
    println!("in space: nanoseconds a joint (for a sweep: a joint and a round)");
    println!("chain       joints  rows  work                Rust     Rattle   ratio");
    for (name, kinds) in [
        ("wrists", WRISTS),
        ("balls", BALLS),
        ("fixed", FIXED),
        ("nine rows", NINE_ROWS),
    ] {
        for joints in [4, 16, 128] {
            let mut both = Sides::new(chain(joints, kinds));
            let rows = both.rattle.total();
            let mut work = |what: &str, turns: f64, calls: &[Call]| {
                let [rust, rattle] = both.times(calls);
                let ratio = rattle / rust;
                let each = turns * joints as f64;
                let (rust, rattle) = (rust / each, rattle / each);
                println!(
                    "{name:10} {joints:7} {rows:5}  {what:14} {rust:10.1} {rattle:10.1} {ratio:7.2}"
                );
            };
            work("build", 1.0, &[BUILD]);
            work("sweep 4", 4.0, &[Call::Sweep(4)]);
            work("sweep 64", 64.0, &[Call::Sweep(64)]);
            if name == "wrists" {
                for call in [Call::WarmStart, Call::RemoveBias, Call::WriteBack] {
                    work(KINDS[call.kind()], 1.0, &[call]);
                }
            }
            work("a whole step", 1.0, &STEP);
            assert!(both.agree());
        }
    }
    println!("velocities, stored impulses and rows in space are equal in bits after all of it");
}
