//! How far a body's momentum is from its joints' reactions: m·Δv and I·Δω of every body over a cold build's sweeps, by the oracle, against the sum of what
//! its joints' reactions give it. All in f64 from the f32 numbers; the distance is counted in spacings of f32 at the largest number that takes part: the
//! body's momenta and the parts of its joints' rows, before the first round and after each.

use crate::draw::Draw;
use crate::generator::body_of;
use crate::model::{BODY, Call, JOINT, ROW, Study, WORLD, call};
use crate::studies;
use rapier2d::pipeline::rows::reaction;

/// Linear x and y, angular.
const PARTS: usize = 3;

/// The distance from |x| to the next f32.
fn spacing(x: f64) -> f64 {
    let x = x.abs().max(f64::from(f32::MIN_POSITIVE));
    2f64.powi(x.log2().floor() as i32 - 23)
}

/// A number between −most and most.
fn within(d: &mut Draw, most: f32) -> f32 {
    (d.below(2_000_001) as f32 / 1.0e6 - 1.0) * most
}

/// A pose within two metres.
fn pose(d: &mut Draw) -> [f32; 4] {
    let (sine, cosine) = f64::from(within(d, 3.2)).sin_cos();
    [cosine as f32, sine as f32, within(d, 2.0), within(d, 2.0)]
}

/// A joint's numbers: frames, limits in order, motors, softness, centre.
fn joint(d: &mut Draw) -> [f32; JOINT] {
    let mut n = [0.0; JOINT];
    n[..4].copy_from_slice(&pose(d));
    n[4..8].copy_from_slice(&pose(d));
    for i in 0..3 {
        let (a, b) = (within(d, 3.0), within(d, 3.0));
        n[8 + 3 * i..][..2].copy_from_slice(&[a.min(b), a.max(b)]);
        let force = within(d, 100.0).abs();
        let springs = [within(d, 100.0).abs(), within(d, 10.0).abs()];
        let motor = [within(d, 4.0), within(d, 3.0), springs[0], springs[1], d.pick(&[f32::MAX, force])];
        n[17 + 6 * i..][..5].copy_from_slice(&motor);
    }
    let soft = [30.0 + within(d, 29.0), 1.0 + within(d, 1.0)];
    n[35..37].copy_from_slice(&d.pick(&[[1.0e6, 1.0], soft]));
    n[40..42].copy_from_slice(&pose(d)[..2]);
    n
}

/// One to eight bodies of 50 grams to 20 kilograms, one to nine joints of all masks along the chain of them or to the world.
pub fn study(d: &mut Draw, k: u64) -> Study {
    let bodies = 1 + d.below(8) as usize;
    let mut s = Study {
        settings: [1.0 / 64.0, 1.0, 3.0],
        built: false,
        bodies: Vec::new(),
        words: Vec::new(),
        numbers: Vec::new(),
        rows: Vec::new(),
    };
    for _ in 0..bodies {
        let (inertia, mass) = (1.0 / (1.01 + within(d, 1.0)), 1.0 / (10.025 + within(d, 9.975)));
        s.bodies.extend(pose(d));
        s.bodies.extend([inertia, mass, mass]);
        s.bodies.extend([within(d, 4.0), within(d, 4.0), within(d, 4.0)]);
    }
    for j in 0..1 + d.below(9) as usize {
        let world = bodies == 1 || d.one_in(5);
        let two = if world { WORLD } else { ((j + 1) % bodies) as u32 };
        let masks = studies::masks(((9 * k + j as u64) * 1597 % 4096) as u32);
        let models = [0; 3].map(|_| d.below(2) as u32);
        s.words.extend([(j % bodies) as u32, two]);
        s.words.extend(masks);
        s.words.extend(models);
        s.words.extend([0, 0, 0]);
        s.numbers.extend(joint(d));
    }
    s.rows = vec![0.0; s.total() * ROW];
    s
}

/// What one body got, by its joints' reactions, and the largest row's part of it.
#[derive(Copy, Clone, Default)]
struct Got {
    sum: [f64; PARTS],
    most: [f64; PARTS],
}

fn got(s: &Study) -> Vec<Got> {
    let mut all = vec![Got::default(); s.body_count()];
    for j in 0..s.joint_count() {
        let rows = &s.rows[s.first_row(j) * ROW..][..s.ids(j).len() * ROW];
        let bodies = [0, 1].map(|k| s.joint(j)[k]);
        let [one, two] = bodies.map(|i| body_of(s, i));
        let shares = reaction(&one, &two, &s.numbers[j * JOINT..][..JOINT], rows);
        for (k, i) in bodies.into_iter().enumerate().filter(|(_, i)| *i != WORLD) {
            let body = &mut all[i as usize];
            for c in 0..PARTS {
                body.sum[c] += f64::from(shares[PARTS * k + c]);
                for row in rows.chunks_exact(ROW) {
                    let jacobian = [row[3], row[4], row[5 + k]][c];
                    body.most[c] = body.most[c].max((f64::from(jacobian) * f64::from(row[0])).abs());
                }
            }
        }
    }
    all
}

/// The distances of one kind of part, linear or angular; and how many numbers were no number.
#[derive(Default)]
struct Distances {
    all: Vec<f64>,
    none: usize,
}

impl Distances {
    fn add(&mut self, inverse: f32, before: f32, after: f32, got: f64, most: f64) {
        let mass = 1.0 / f64::from(inverse);
        let (p, q) = (mass * f64::from(before), mass * f64::from(after));
        let distance = (q - p - got).abs() / spacing(p.abs().max(q.abs()).max(most));
        if distance.is_finite() {
            self.all.push(distance)
        } else {
            self.none += 1
        }
    }

    fn print(&mut self, name: &str) {
        self.all.sort_by(f64::total_cmp);
        let at = |part: f64| self.all[((self.all.len() - 1) as f64 * part) as usize];
        println!(
            "{name}: {} numbers, at most {:.1} in half of them, {:.1} in 99 %, {:.1} in 99.99 %, {:.1} in all; {} more were no numbers",
            self.all.len(),
            at(0.5),
            at(0.99),
            at(0.9999),
            at(1.0),
            self.none
        );
    }
}

/// What the rows of a study gave its bodies, and the largest momenta and parts of rows that a round left.
fn swept(s: &mut Study, rounds: u64) -> Vec<Got> {
    let mut most = vec![[0f64; PARTS]; s.body_count()];
    for _ in 0..rounds {
        assert!(call(s, &Call::Sweep(1)).granted());
        for ((most, got), body) in most.iter_mut().zip(got(s)).zip(s.bodies.chunks(BODY)) {
            for c in 0..PARTS {
                let momentum = f64::from(body[7 + c]) / f64::from([body[5], body[6], body[4]][c]);
                most[c] = most[c].max(got.most[c]).max(momentum.abs());
            }
        }
    }
    let last = got(s).into_iter().zip(most);
    last.map(|(got, most)| Got { most, ..got }).collect()
}

pub fn measure(seed: u64, count: u64) {
    let d = &mut Draw::new(seed);
    let (mut linear, mut angular) = (Distances::default(), Distances::default());
    for k in 0..count {
        let mut s = study(d, k);
        let before = s.bodies.clone();
        let cold = Call::Build {
            warm: false,
            coefficient: 0.0,
            substep: 0,
        };
        assert!(call(&mut s, &cold).granted());
        let got = swept(&mut s, 1 + d.below(16));
        for ((was, is), got) in before.chunks(BODY).zip(s.bodies.chunks(BODY)).zip(got) {
            for c in 0..2 {
                linear.add(was[5 + c], was[7 + c], is[7 + c], got.sum[c], got.most[c]);
            }
            angular.add(was[4], was[9], is[9], got.sum[2], got.most[2]);
        }
    }
    println!("{count} studies from cold builds, 1 to 16 rounds, seed {seed}; spacings of f32 from the reactions:");
    linear.print("m·Δv");
    angular.print("I·Δω");
}
