//! Draws one joint between two bodies, with all that its rows are made from. Most numbers are
//! tame, so that most rows are numbers; the places where rows change their mind are met on
//! purpose.

use crate::draw::Draw;
use crate::tame::{self, E, motor, upset};
pub use crate::tame::{coefficient, settings};
use rapier2d::pipeline::leaves;

const PI: f32 = f32::from_bits(0x4049_0FDB);

/// The words and numbers of `katydidzinc_rows_build`.
pub struct Study {
    pub words: [u32; 9],
    pub numbers: [f32; 60],
}

/// Where the joint's numbers begin.
pub const JOINT: usize = 17;

/// The masks of choice 0 to 4095: locked, limit, motor, coupled.
pub fn masks(choice: u32) -> [u32; 4] {
    [
        choice >> 9 & 7,
        choice >> 6 & 7,
        choice >> 3 & 7,
        choice & 7,
    ]
}

impl Draw {
    pub fn right_angle(&mut self) -> [f32; 2] {
        let (one, zero) = (self.pick(&[1.0, -1.0]), self.zero());
        self.pick(&[[one, zero], [zero, one]])
    }

    pub fn rotation(&mut self) -> [f32; 2] {
        match self.below(12) {
            0 | 1 | 2 => [1.0, 0.0],
            3 => self.right_angle(),
            4 => {
                let (x, y) = (self.pick(&[0.6, -0.6]), self.pick(&[0.8, -0.8]));
                self.pick(&[[x, y], [y, x]])
            }
            5 => [self.tame(), self.tame()],
            6 => [1.0, self.tame() / 4096.0],
            _ => {
                let (sine, cosine) = (self.below(6284) as f64 / 1000.0).sin_cos();
                [cosine as f32, sine as f32]
            }
        }
    }

    pub fn body(&mut self, straight: bool) -> [f32; 7] {
        if self.one_in(8) {
            return [1.0, 0.0, 0.0, 0.0, 0.0, 0.0, 0.0];
        }
        let [re, im] = if straight {
            self.right_angle()
        } else {
            self.rotation()
        };
        let x = self.inverse_mass();
        let y = if self.one_in(4) {
            self.inverse_mass()
        } else {
            x
        };
        let ii = match self.below(12) {
            0 => E,
            1 | 2 => 0.0,
            _ => self.inverse_mass(),
        };
        [re, im, self.tame(), self.tame(), ii, x, y]
    }

    /// The ends of a limit on an angle that stands at `at` from the limit's centre.
    fn angular_limit(&mut self, at: f32) -> [f32; 2] {
        let tau = 2.0 * PI;
        match self.below(12) {
            0 => [-at.abs(), at.abs()],
            1 => {
                let half = self.near(at.abs().to_bits(), 1);
                [-half, half]
            }
            2 => [-PI, PI],
            3 => [0.0, self.near(tau.to_bits(), 1)],
            4 => {
                let half = self.near(PI.to_bits(), 1);
                [-half, half]
            }
            5 => {
                let small =
                    |d: &mut Draw| f32::from_bits(d.below(64) as u32) * d.pick(&[1.0, -1.0]);
                [small(self), small(self)]
            }
            6 => self.limit(at),
            7 => [-1.0, -2.0],
            _ => {
                let a = self.below(3000) as f32 / 1000.0;
                [-a, self.below(3000) as f32 / 1000.0]
            }
        }
    }
}

/// Where the joint stands: along axes 0 and 1, along the coupled axes, its rotation's error.
struct Place {
    along: [f32; 2],
    coupled: f32,
    ang_err: [f32; 2],
}

fn place(body1: &[f32], body2: &[f32], joint: &[f32], coupled: u32) -> Place {
    let frame = |body: &[f32], frame: &[f32]| {
        let mut x = [0.0; leaves::INPUTS];
        x[5..9].copy_from_slice(&[body[0], body[1], frame[0], frame[1]]);
        x[9..13].copy_from_slice(&[body[2], body[3], frame[2], frame[3]]);
        leaves::pose_product(&x)
    };
    let one = frame(&body1[..4], &joint[..4]);
    let two = frame(&body2[..4], &joint[4..8]);
    let (x, y) = (two[2] - one[2], two[3] - one[3]);
    let axes = [[one[0], one[1]], [-one[1], one[0]]];
    let along = axes.map(|[p, q]| x * p + y * q);
    let mut jac = [0.0; 2];
    for i in 0..2 {
        if coupled >> i & 1 == 1 {
            jac[0] += axes[i][0] * along[i];
            jac[1] += axes[i][1] * along[i];
        }
    }
    let (a, b, c, d) = (one[0], -one[1], two[0], two[1]);
    Place {
        along,
        coupled: (jac[0] * jac[0] + jac[1] * jac[1]).sqrt(),
        ang_err: [a * c - b * d, a * d + b * c],
    }
}

/// A joint's numbers without its limit ends, which `aim` draws.
pub fn joint(d: &mut Draw, straight: bool) -> [f32; 42] {
    let mut joint = [0.0; 42];
    for at in [0, 4] {
        let [re, im] = if straight {
            d.right_angle()
        } else {
            d.rotation()
        };
        joint[at..at + 4].copy_from_slice(&[re, im, d.tame(), d.tame()]);
    }
    joint[35..37].copy_from_slice(&d.softness());
    for i in 0..3 {
        joint[10 + 3 * i] = d.free();
        joint[37 + i] = d.free();
        joint[17 + 6 * i..][..6].copy_from_slice(&motor(d));
    }
    let [re, im] = if straight {
        d.right_angle()
    } else {
        d.rotation()
    };
    joint[40] = re;
    joint[41] = im;
    joint
}

/// Limits and targets that lie where the joint stands.
pub fn aim(d: &mut Draw, body1: &[f32], body2: &[f32], joint: &mut [f32], coupled: u32) {
    let at = place(body1, body2, joint, coupled);
    let first = (coupled & 3).trailing_zeros();
    for i in 0..2 {
        let here = if i as u32 == first {
            at.coupled
        } else {
            at.along[i]
        };
        joint[8 + 3 * i..][..2].copy_from_slice(&d.limit(here));
        if d.one_in(4) {
            joint[18 + 6 * i] = here;
        }
    }
    let ([re, im], [c, s]) = (at.ang_err, [joint[40], joint[41]]);
    let from_centre = leaves::angle(c * re + s * im, c * im - s * re);
    joint[14..16].copy_from_slice(&d.angular_limit(from_centre));
    let angle = leaves::angle(re, im);
    if d.one_in(2) {
        joint[30] = d.pick(&[angle, angle - PI, angle + PI, 0.0, PI, -PI]);
    }
}

pub fn study(d: &mut Draw, choice: u32) -> Study {
    let [locked, limit, motor, coupled] = masks(choice);
    let models = [0; 3].map(|_| d.below(2) as u32);
    let warm = !d.one_in(3) as u32;
    let words = [
        locked, limit, motor, coupled, models[0], models[1], models[2], warm, 0,
    ];

    let mut n = [0.0; 60];
    n[..3].copy_from_slice(&settings(d));
    let straight = d.one_in(4);
    n[3..10].copy_from_slice(&d.body(straight));
    n[10..17].copy_from_slice(&d.body(straight));
    n[JOINT..JOINT + 42].copy_from_slice(&joint(d, straight));

    upset(d, &mut n);

    let (bodies, rest) = n.split_at_mut(JOINT);
    aim(d, &bodies[3..10], &bodies[10..17], &mut rest[..42], coupled);
    n[59] = coefficient(d);
    Study { words, numbers: n }
}

/// A row of no joint.
pub fn any_row(d: &mut Draw) -> [f32; 18] {
    tame::any_row(d, |d, row| {
        row[3..9].copy_from_slice(&[0.0, 0.0, 1.0, 1.0, E, 0.0]);
        row[13] = d.zero();
        row[12] = d.zero();
    })
}

pub fn vels(d: &mut Draw) -> [f32; 6] {
    tame::vels(d)
}
