//! Draws one joint between two bodies in space, with all that its rows are made from.

use crate::draw::Draw;
use crate::tame::{self, E, motor, upset};
pub use crate::tame::{coefficient, settings};
use rapier3d::pipeline::leaves;
use rapier3d::pipeline::records::{BODY, JOINT, ROW, WORLD};
use rapier3d::pipeline::rows::{NUMBERS, WORDS};

/// The words and numbers of `katydidzinc_space_rows_build`.
pub struct Study {
    pub words: [u32; WORDS],
    pub numbers: [f32; NUMBERS],
}

/// Where the bodies' and the joint's numbers begin.
pub const BODY1_AT: usize = 3;
pub const BODY2_AT: usize = 3 + BODY;
pub const JOINT_AT: usize = 3 + 2 * BODY;

/// The masks of choice 0 to 4095, which are all legal ones: locked, limit, motor, coupled.
pub fn masks(choice: u32) -> [u32; 4] {
    [choice >> 6 & 63, choice >> 3 & 7, choice & 7, 0]
}

impl Draw {
    fn signed(&mut self, x: f32) -> f32 {
        if self.one_in(2) { x } else { -x }
    }

    /// A rotation by quarter and half turns, its zeros of either sign.
    pub fn square_rotation(&mut self) -> [f32; 4] {
        let mut q = [0.0; 4].map(|_: f32| self.zero());
        match self.below(4) {
            0 => q = [0.5; 4].map(|x| self.signed(x)),
            1 => {
                let (i, j) = (self.below(4) as usize, self.below(3) as usize);
                let half = f32::from_bits(0x3F35_04F3);
                q[i] = self.signed(half);
                q[(i + 1 + j) % 4] = self.signed(half);
            }
            _ => q[self.below(4) as usize] = self.signed(1.0),
        }
        q
    }

    fn unit_rotation(&mut self) -> [f32; 4] {
        let q = [0.0; 4].map(|_: f64| self.below(20001) as f64 / 10000.0 - 1.0);
        let length = q.iter().map(|x| x * x).sum::<f64>().sqrt().max(1.0e-9);
        q.map(|x| (x / length) as f32)
    }

    pub fn rotation(&mut self) -> [f32; 4] {
        match self.below(32) {
            0 | 1 | 9 | 10 | 11 => [0.0, 0.0, 0.0, 1.0],
            2 => [0.0, 0.0, 0.0, -1.0],
            3 | 4 => self.square_rotation(),
            5 => [0.0; 4].map(|_| self.tame()),
            6 => {
                let [x, y, z] = [0.0; 3].map(|_: f32| self.tame() / 4096.0);
                [x, y, z, 1.0]
            }
            7 => {
                let size = self.pick(&[1.0e20, 1.0e10, 1.0e-20, 2.0, 1.0e-23]);
                self.unit_rotation().map(|x| x * size)
            }
            8 => {
                let size = self.pick(&[1.0e20, 1.0e-23, 2.0]);
                self.square_rotation().map(|x| x * size)
            }
            _ => self.unit_rotation(),
        }
    }

    /// Inverse inertia, its six numbers.
    fn inertia(&mut self) -> [f32; 6] {
        let [a, b, c] = [0.0; 3].map(|_: f32| self.inverse_mass());
        match self.below(12) {
            0 => [E, 0.0, 0.0, E, 0.0, E],
            1 => [0.0; 6],
            2 => [0.0; 6].map(|_| self.tame()),
            3 | 4 => [a, 0.0, 0.0, a, 0.0, a],
            5 | 6 => [a, 0.0, 0.0, b, 0.0, c],
            _ => {
                let [p, q, r] = [0.0; 3].map(|_: f32| self.tame() / 256.0);
                [a, p, q, b, r, c]
            }
        }
    }

    pub fn spatial_body(&mut self, straight: bool) -> [f32; BODY] {
        if self.one_in(8) {
            return WORLD;
        }
        let mut body = [0.0; BODY];
        let rotation = if straight {
            self.square_rotation()
        } else {
            self.rotation()
        };
        body[..4].copy_from_slice(&rotation);
        body[4..7].copy_from_slice(&[0.0; 3].map(|_| self.tame()));
        body[7..13].copy_from_slice(&self.inertia());
        let mass = self.inverse_mass();
        for x in &mut body[13..] {
            *x = if self.one_in(6) {
                self.inverse_mass()
            } else {
                mass
            };
        }
        body
    }
}

/// A joint's numbers without its limit ends, which `aim` draws.
pub fn joint(d: &mut Draw, straight: bool) -> [f32; JOINT] {
    let mut joint = [0.0; JOINT];
    for at in [0, 7] {
        let rotation = match straight {
            true => d.square_rotation(),
            false => d.rotation(),
        };
        joint[at..at + 4].copy_from_slice(&rotation);
        joint[at + 4..at + 7].copy_from_slice(&[0.0; 3].map(|_| d.tame()));
    }
    joint[41..43].copy_from_slice(&d.softness());
    for i in 0..3 {
        joint[16 + 3 * i] = d.free();
        joint[23 + 6 * i..][..6].copy_from_slice(&motor(d));
    }
    for i in 0..6 {
        joint[43 + i] = d.free();
    }
    joint
}

/// The bodies' rotations and frames now and then so that the two frames turn alike, or exactly opposite.
pub fn align(d: &mut Draw, body1: &[f32], body2: &mut [f32], joint: &mut [f32]) {
    let sign = d.pick(&[1.0, 1.0, -1.0]);
    match d.below(6) {
        0 => {
            for i in 0..4 {
                body2[i] = body1[i] * sign;
                joint[7 + i] = joint[i];
            }
        }
        1 => {
            let identity = [0.0, 0.0, 0.0, 1.0];
            joint[..4].copy_from_slice(&identity);
            joint[7..11].copy_from_slice(&identity.map(|x| x * sign));
        }
        _ => {}
    }
}

/// Where the joint stands along axes 0, 1, 2.
fn place(body1: &[f32], body2: &[f32], joint: &[f32]) -> [f32; 3] {
    let pair = |a: &[f32], b: &[f32]| {
        let mut x = [0.0; leaves::INPUTS];
        x[7..11].copy_from_slice(&a[..4]);
        x[11..15].copy_from_slice(&b[..4]);
        x[15..18].copy_from_slice(&a[4..7]);
        x[18..21].copy_from_slice(&b[4..7]);
        x
    };
    let one = leaves::pose_product(&pair(body1, joint));
    let two = leaves::pose_product(&pair(body2, &joint[7..]));
    let columns = leaves::rotation_columns(&pair(&one, &one));
    [0, 1, 2].map(|i| {
        let mut x = [0.0; leaves::INPUTS];
        for k in 0..3 {
            x[k] = two[4 + k] - one[4 + k];
            x[3 + k] = columns[3 * i + k];
        }
        leaves::vector_products(&x)[6]
    })
}

/// Limits and targets that lie where the joint stands.
pub fn aim(d: &mut Draw, body1: &[f32], body2: &[f32], joint: &mut [f32]) {
    let along = place(body1, body2, joint);
    for i in 0..3 {
        joint[14 + 3 * i..][..2].copy_from_slice(&d.limit(along[i]));
        if d.one_in(4) {
            joint[24 + 6 * i] = along[i];
        }
    }
}

pub fn study(d: &mut Draw, choice: u32) -> Study {
    let [locked, limit, motor, coupled] = masks(choice);
    let models = [0; 3].map(|_| d.below(2) as u32);
    let warm = !d.one_in(3) as u32;
    let words = [
        locked, limit, motor, coupled, models[0], models[1], models[2], warm, 0,
    ];

    let mut n = [0.0; NUMBERS];
    n[..3].copy_from_slice(&settings(d));
    let straight = d.one_in(4);
    let (body1, mut body2) = (d.spatial_body(straight), d.spatial_body(straight));
    let mut joint = joint(d, straight);
    align(d, &body1, &mut body2, &mut joint);
    n[BODY1_AT..BODY2_AT].copy_from_slice(&body1);
    n[BODY2_AT..JOINT_AT].copy_from_slice(&body2);
    n[JOINT_AT..][..JOINT].copy_from_slice(&joint);
    upset(d, &mut n);

    let (bodies, rest) = n.split_at_mut(JOINT_AT);
    aim(
        d,
        &bodies[BODY1_AT..BODY2_AT],
        &bodies[BODY2_AT..],
        &mut rest[..JOINT],
    );
    n[NUMBERS - 1] = coefficient(d);
    Study { words, numbers: n }
}

/// A row of no joint.
pub fn any_row(d: &mut Draw) -> [f32; ROW] {
    tame::any_row(d, |d, row| {
        let zero = d.zero();
        row[3..18].fill(zero);
        let i = d.below(3) as usize;
        row[6 + i] = 1.0;
        row[12 + i] = E;
        row[21] = d.zero();
        row[22] = d.zero();
    })
}

pub fn vels(d: &mut Draw) -> [f32; 12] {
    tame::vels(d)
}
