//! Request R-11 once more, written from its words and from the Rust's structs: one state that runs on from draw to draw, fields by their names, and records put together at the end.

use crate::model::{Study, WORLD};

/// The running state, and how it draws.
pub struct Draws(pub u32);

impl Draws {
    pub fn draw(&mut self) -> u32 {
        self.0 = self.0.wrapping_add(2654435769);
        let z = self.0 ^ (self.0 >> 15);
        z ^ (z << 7)
    }

    fn number(&mut self) -> f32 {
        ((self.draw() % 2001) as i32 - 1000) as f32 / 8.0
    }

    fn numbers<const N: usize>(&mut self) -> [f32; N] {
        std::array::from_fn(|_| self.number())
    }
}

/// A motor's numbers, in the order in which the Rust declares them; its model is not drawn.
struct Motor {
    target_vel: f32,
    target_pos: f32,
    stiffness: f32,
    damping: f32,
    max_force: f32,
    impulse: f32,
}

/// The model that a seed draws, with storage for so many rows.
pub fn seeded(seed: u32, rows: usize) -> Study {
    let mut d = Draws(seed);
    let bodies = 1 + d.draw() % 8;
    let joints = d.draw() % 9;
    let mut s = Study {
        settings: [0.0; 3],
        built: false,
        bodies: Vec::new(),
        words: Vec::new(),
        numbers: Vec::new(),
        rows: vec![0.0; rows * crate::model::ROW],
    };
    for _ in 0..joints {
        let [locked, limit, motor, coupled] = std::array::from_fn(|_| d.draw() % 8);
        let first = d.draw() % bodies;
        let drawn = d.draw() % (bodies + 1);
        let second = if drawn == bodies || drawn == first { WORLD } else { drawn };
        let (acceleration_based, enabled, cosine_sine, first_row) = (0, 0, 0, 0);
        s.words.extend([first, second, locked, limit, motor, coupled]);
        s.words.extend([acceleration_based; 3]);
        s.words.extend([enabled, cosine_sine, first_row]);
    }
    let [length_unit, most] = d.numbers();
    s.settings = [1.0 / 64.0, length_unit, most];
    for _ in 0..bodies {
        let [x, y] = d.numbers();
        let ii = d.number();
        let im: [f32; 2] = d.numbers();
        let linear: [f32; 2] = d.numbers();
        let angular = d.number();
        s.bodies.extend([1.0, 0.0, x, y, ii]);
        s.bodies.extend(im);
        s.bodies.extend(linear);
        s.bodies.push(angular);
    }
    for _ in 0..joints {
        let frames: [[f32; 2]; 2] = [d.numbers(), d.numbers()];
        // min, max, impulse
        let limits: [[f32; 3]; 3] = std::array::from_fn(|_| d.numbers());
        let motors: [Motor; 3] = std::array::from_fn(|_| Motor {
            target_vel: d.number(),
            target_pos: d.number(),
            stiffness: d.number(),
            damping: d.number(),
            max_force: d.number(),
            impulse: d.number(),
        });
        let softness: [f32; 2] = d.numbers();
        let dofs: [f32; 3] = d.numbers();
        let center: [f32; 2] = d.numbers();
        for [x, y] in frames {
            s.numbers.extend([1.0, 0.0, x, y]);
        }
        s.numbers.extend(limits.concat());
        for m in motors {
            s.numbers.extend([
                m.target_vel,
                m.target_pos,
                m.stiffness,
                m.damping,
                m.max_force,
                m.impulse,
            ]);
        }
        s.numbers.extend(softness);
        s.numbers.extend(dofs);
        s.numbers.extend(center);
    }
    s
}
