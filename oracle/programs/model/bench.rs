//! The same work by the Rust and by the Rattle library, one after the other in one run. The Rust
//! keeps its own structs between calls; the library is called as a laboratory calls it, so that it
//! also checks what it is handed, each time.

use crate::library::{direct, same};
use crate::model::{Call, JOINT, KINDS, ROW, Study, WORLD};
use crate::seeded_rendering::seeded;
use rapier2d::pipeline::model::Prepared;
use std::time::Instant;

/// A joint's limit and motor masks: each joint of a chain takes the next of these.
const STOPS_AND_MOTORS: &[[u32; 2]] = &[[4, 0], [0, 4], [4, 4]];
const PINS: &[[u32; 2]] = &[[0, 0]];

/// A chain of n links that hangs from the world: each joint is locked in the plane, and may have an
/// angular limit, an angular motor, or both.
fn chain(n: usize, kinds: &[[u32; 2]]) -> Study {
    let mut s = Study {
        settings: [1.0 / 60.0, 1.0, 10.0],
        built: false,
        bodies: vec![],
        words: vec![],
        numbers: vec![],
        rows: vec![],
    };
    for i in 0..n {
        let angle = 0.01 * i as f32;
        let body = [
            angle.cos(),
            angle.sin(),
            i as f32,
            -0.25 * (i % 3) as f32,
            2.0,
            1.0,
            1.0,
            0.125,
            -0.5,
            0.0625 * (i % 5) as f32,
        ];
        s.bodies.extend(body);
        let before = if i == 0 { WORLD } else { i as u32 - 1 };
        let [limit, motor] = kinds[i % kinds.len()];
        s.words
            .extend([before, i as u32, 3, limit, motor, 0, 0, 0, i as u32 % 2, 0, 0, 0]);
        let mut joint = [0.0; JOINT];
        joint[0] = 1.0;
        joint[2] = 0.5;
        joint[4] = 1.0;
        joint[6] = -0.5;
        joint[14..16].copy_from_slice(&[-0.5, 0.5]);
        joint[29..34].copy_from_slice(&[1.0, 0.25, 40.0, 4.0, 100.0]);
        joint[35..37].copy_from_slice(&[1.0e6, 1.0]);
        joint[40] = 1.0;
        s.numbers.extend(joint);
    }
    s.rows = vec![0.0; s.total() * ROW];
    s
}

/// A build's impulses start at half of the stored ones.
const COEFFICIENT: f32 = 0.5;

const BUILD: Call = Call::Build {
    warm: true,
    coefficient: COEFFICIENT,
    substep: 0,
};

/// A step as a laboratory makes it: rows made, warm started, swept, freed of their bias, swept once
/// more, and their impulses stored.
const STEP: [Call; 6] = [
    BUILD,
    Call::WarmStart,
    Call::Sweep(4),
    Call::RemoveBias,
    Call::Sweep(1),
    Call::WriteBack,
];

const FRAME: Call = Call::Frame {
    warm: true,
    coefficient: COEFFICIENT,
    sweeps: 4,
    substeps: 4,
};

/// The model on both sides.
struct Sides {
    rust: Prepared,
    rattle: Study,
}

impl Sides {
    fn new(rattle: Study) -> Sides {
        let s = &rattle;
        Sides {
            rust: Prepared::new(s.settings, &s.bodies, &s.words, &s.numbers, &s.rows),
            rattle,
        }
    }

    fn by_rust(&mut self, call: &Call) {
        match *call {
            Call::Build { .. } => self.rust.build(Some(COEFFICIENT), 0),
            Call::WarmStart => self.rust.warmstart(),
            Call::Sweep(rounds) => self.rust.solve(rounds),
            Call::RemoveBias => self.rust.remove_bias(),
            Call::WriteBack => self.rust.writeback(),
            Call::Frame {
                sweeps, substeps, ..
            } => self.rust.frame(Some(COEFFICIENT), sweeps, substeps),
            _ => unreachable!(),
        }
    }

    fn by_rattle(&mut self, call: &Call) {
        let code = direct(&mut self.rattle, call);
        match call {
            Call::Build { .. } => assert!(code >= 1 << 32),
            _ => assert_eq!(code, 0),
        }
        self.rattle.built = true;
    }

    /// The shortest time of some calls by each side, in nanoseconds: the sides take turns of about a
    /// tenth of a millisecond, so that most turns run undisturbed on a machine that does other work too.
    fn times(&mut self, calls: &[Call]) -> [f64; 2] {
        let rounds = |c: &Call| match c {
            Call::Sweep(n) => *n as usize,
            Call::Frame {
                sweeps, substeps, ..
            } => ((2 * sweeps + 6) * substeps) as usize,
            _ => 4,
        };
        let each = self.rattle.total() * calls.iter().map(rounds).sum::<usize>();
        let repeat = 4000 / each + 1;
        let mut best = [f64::INFINITY; 2];
        for _ in 0..400 {
            let start = Instant::now();
            for _ in 0..repeat {
                calls.iter().for_each(|call| self.by_rust(call));
            }
            let between = Instant::now();
            for _ in 0..repeat {
                calls.iter().for_each(|call| self.by_rattle(call));
            }
            let took = [between - start, between.elapsed()];
            for (b, t) in best.iter_mut().zip(took) {
                *b = b.min(t.as_nanos() as f64 / repeat as f64);
            }
        }
        best
    }

    /// Both sides hold the same poses, velocities, stored impulses and rows, in bits.
    fn agree(&self) -> bool {
        let s = &self.rattle;
        let (mut bodies, mut numbers, mut rows) =
            (s.bodies.clone(), s.numbers.clone(), s.rows.clone());
        self.rust.left(&mut bodies, &mut numbers, &mut rows);
        same(&bodies, &s.bodies) && same(&numbers, &s.numbers) && same(&rows, &s.rows)
    }
}

fn show(joints: usize, rows: usize, work: &str, turns: f64, [rust, rattle]: [f64; 2]) {
    let ratio = rattle / rust;
    let each = turns * joints as f64;
    let (rust, rattle) = (rust / each, rattle / each);
    println!("{joints:6} {rows:5}  {work:28} {rust:10.1} {rattle:10.1} {ratio:7.2}");
}

/// The models that seeds draw, each figure with its seed: anyone can time the same load.
fn bench_seeds(seeds: &[u32]) {
    println!("models drawn from seeds: nanoseconds a model (for a sweep: a round)");
    println!("      seed bodies joints  rows  work                               Rust     Rattle   ratio");
    for seed in seeds {
        // storage of just its rows, since the Rust's side steps each row that it is given
        let mut s = seeded(*seed, 48);
        let (bodies, joints, rows) = (s.body_count(), s.joint_count(), s.total());
        s.rows.truncate(rows * ROW);
        let mut both = Sides::new(s);
        if rows == 0 {
            println!("{seed:10} {bodies:6} {joints:6} {rows:5}  makes no row");
            continue;
        }
        let works: [(&str, f64, &[Call]); 4] = [
            ("build", 1.0, &[BUILD]),
            ("sweep 1", 1.0, &[Call::Sweep(1)]),
            ("sweep 64", 64.0, &[Call::Sweep(64)]),
            ("a whole step", 1.0, &STEP),
        ];
        for (work, turns, calls) in works {
            let [rust, rattle] = both.times(calls).map(|t| t / turns);
            let ratio = rattle / rust;
            println!("{seed:10} {bodies:6} {joints:6} {rows:5}  {work:28} {rust:10.1} {rattle:10.1} {ratio:7.2}");
        }
        assert!(both.agree());
    }
}

pub fn bench(seeds: &[u32]) {
    println!("nanoseconds a joint (for a sweep: a joint and a round)");
    println!("joints  rows  work                               Rust     Rattle   ratio");
    for joints in [1, 2, 4, 16, 64, 128] {
        let mut both = Sides::new(chain(joints, STOPS_AND_MOTORS));
        let rows = both.rattle.total();
        let mut work = |what: &str, turns: f64, calls: &[Call]| {
            let times = both.times(calls);
            show(joints, rows, what, turns, times);
        };
        work("build", 1.0, &[BUILD]);
        work("sweep 1", 1.0, &[Call::Sweep(1)]);
        work("sweep 4", 4.0, &[Call::Sweep(4)]);
        work("sweep 64", 64.0, &[Call::Sweep(64)]);
        let long: [Call; 16] = std::array::from_fn(|_| Call::Sweep(64));
        work("sweep 64, 16 times", 1024.0, &long);
        if joints == 4 || joints == 128 {
            for call in [Call::WarmStart, Call::RemoveBias, Call::WriteBack] {
                work(KINDS[call.kind()], 1.0, &[call]);
            }
            work("a whole step", 1.0, &STEP);
        }
        if [1, 4, 16, 128].contains(&joints) {
            work("a frame of 4 substeps", 1.0, &[FRAME]);
        }
        assert!(both.agree());
    }
    for joints in [4, 16, 128] {
        let mut both = Sides::new(chain(joints, PINS));
        both.times(&[BUILD]);
        let times = both.times(&[Call::Sweep(64)]);
        show(joints, both.rattle.total(), "pin joints, sweep 64", 64.0, times);
        assert!(both.agree());
    }
    bench_seeds(seeds);
    println!("poses, velocities, stored impulses and rows are equal in bits after all of it");
}
