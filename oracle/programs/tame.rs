//! Draws the numbers of bodies and joints that have no dimension in them. Most are tame, so that most rows are numbers; the places where rows change
//! their mind are met on purpose.

use crate::draw::Draw;

pub const E: f32 = f32::from_bits(0x1E3C_E508);

impl Draw {
    pub fn one_in(&mut self, n: u64) -> bool {
        self.below(n) == 0
    }

    pub fn zero(&mut self) -> f32 {
        self.pick(&[0.0, -0.0])
    }

    /// Eighths up to 125, small whole numbers, anything of an ordinary size, now and then zero.
    pub fn tame(&mut self) -> f32 {
        match self.below(8) {
            0 => self.zero(),
            1 => self.below(9) as f32 - 4.0,
            2 | 3 | 4 => (self.below(2001) as f32 - 1000.0) / 8.0,
            5 => (self.below(2001) as f32 - 1000.0) / 1024.0,
            _ => self.ordinary(),
        }
    }

    /// Subnormal, tiny, near overflow, or plain bits, but a finite number.
    pub fn finite(&mut self) -> f32 {
        loop {
            let x = self.number();
            if x.is_finite() {
                return x;
            }
        }
    }

    /// Stored impulses and velocities: nothing is refused.
    pub fn free(&mut self) -> f32 {
        if self.one_in(16) {
            self.pick(&[
                f32::NAN,
                f32::INFINITY,
                f32::NEG_INFINITY,
                f32::MAX,
                1.0e-40,
            ])
        } else {
            self.tame()
        }
    }

    pub fn dt(&mut self) -> f32 {
        match self.below(16) {
            0 => 0.0,
            1 => -0.0,
            2 => self.pick(&[1.0e-40, 1.0e-30, 1.0e-20, 1.0e-10]),
            3 => self.pick(&[f32::MAX, 1.0e30, 1.0e10]),
            4 | 5 | 6 => 1.0,
            7 | 8 => self.ordinary().abs(),
            9 | 10 => 1.0 / 60.0,
            _ => 1.0 / 64.0,
        }
    }

    pub fn inverse_mass(&mut self) -> f32 {
        match self.below(8) {
            0 => 0.0,
            1 => self.tame(),
            2 | 3 => self.tame().abs(),
            _ => self.pick(&[1.0, 0.5, 0.25, 2.0, 8.0, 0.1]),
        }
    }

    pub fn max_force(&mut self) -> f32 {
        match self.below(12) {
            0 => f32::INFINITY,
            1 => f32::NEG_INFINITY,
            2 => self.zero(),
            3 => -self.tame().abs(),
            4 => self.pick(&[1.0e-40, -f32::MAX, 1.0e30]),
            5 | 6 | 7 => f32::MAX,
            _ => self.tame().abs(),
        }
    }

    /// Stiffness and damping.
    pub fn stiffness(&mut self) -> [f32; 2] {
        match self.below(12) {
            0 => [0.0, E],
            1 => [E, 0.0],
            2 => [0.0, 0.0],
            3 => [self.tame(), self.tame()],
            4 | 5 => [0.0, self.tame().abs()],
            6 => [self.tame().abs(), 0.0],
            _ => [self.tame().abs(), self.tame().abs()],
        }
    }

    pub fn softness(&mut self) -> [f32; 2] {
        match self.below(8) {
            0 => [self.tame(), self.tame()],
            1 => [0.0, 1.0],
            2 => [self.tame().abs(), 0.0],
            3 | 4 => [self.tame().abs(), self.tame().abs()],
            _ => [1.0e6, 1.0],
        }
    }

    /// The ends of a limit on a joint that stands at `at`.
    pub fn limit(&mut self, at: f32) -> [f32; 2] {
        let (a, b) = (self.tame(), self.tame());
        let (low, high) = if a < b { (a, b) } else { (b, a) };
        match self.below(16) {
            0 => [at, at],
            1 => [at, high.max(at)],
            2 => [low.min(at), at],
            3 => [self.near(at.to_bits(), 1), self.near(at.to_bits(), 1)],
            4 => [high, low],
            5 => [f32::NEG_INFINITY, f32::INFINITY],
            6 => [f32::NEG_INFINITY, b],
            7 => [a, f32::INFINITY],
            8 => {
                let end = [f32::INFINITY, f32::NEG_INFINITY, b];
                [self.pick(&end), self.pick(&end)]
            }
            9 => [-f32::MAX, f32::MAX],
            10 => [at - 1.0, at + 1.0],
            11 => [-1.0e-40 * self.tame(), 1.0e-40 * self.tame()],
            _ => [low, high],
        }
    }
}

/// dt, `length_unit`, `normalized_max_corrective_velocity`.
pub fn settings(d: &mut Draw) -> [f32; 3] {
    [
        d.dt(),
        d.pick(&[1.0, 1.0, 100.0, 0.01, 0.0, -1.0]),
        d.pick(&[3.0, 3.0, 0.0, -3.0, f32::MAX, 1.0e-3, 1.0e6]),
    ]
}

pub fn coefficient(d: &mut Draw) -> f32 {
    match d.below(4) {
        0 => d.tame(),
        _ => d.pick(&[1.0, 1.0, 0.5, 0.0, -0.0]),
    }
}

/// A motor's numbers.
pub fn motor(d: &mut Draw) -> [f32; 6] {
    let (target_vel, target_pos) = (d.tame(), d.tame());
    let [stiffness, damping] = d.stiffness();
    let max_force = d.max_force();
    [
        target_vel,
        target_pos,
        stiffness,
        damping,
        max_force,
        d.free(),
    ]
}

/// How wild a study is.
enum Mood {
    Tame,
    /// A few finite numbers, anywhere, are hostile.
    Few,
    /// One number in four is, and one study in eight of these has NaNs and infinities among them.
    Wild,
}

/// Five studies in eight stay tame.
pub fn upset(d: &mut Draw, n: &mut [f32]) {
    let mood = match d.below(8) {
        0 | 1 => Mood::Few,
        2 => Mood::Wild,
        _ => Mood::Tame,
    };
    match mood {
        Mood::Tame => {}
        Mood::Few => {
            for _ in 0..1 + d.below(3) {
                n[d.below(n.len() as u64) as usize] = d.finite();
            }
        }
        Mood::Wild => {
            let all = d.one_in(8);
            for x in n {
                if d.one_in(4) {
                    *x = if all { d.number() } else { d.finite() };
                }
            }
        }
    }
}

/// A row of no joint: tame or anything, with bounds that steps and locks look at. `flat` puts numbers whose dot with themselves is 1e-20.
pub fn any_row<const N: usize>(d: &mut Draw, flat: fn(&mut Draw, &mut [f32; N])) -> [f32; N] {
    let wild = d.one_in(4);
    let mut row = [0.0; N].map(|_| {
        if wild && d.one_in(3) {
            d.number()
        } else {
            d.tame()
        }
    });
    if d.one_in(8) {
        flat(d, &mut row);
    }
    let [low, high] = [d.tame(), d.tame()];
    let bounds = [
        [-f32::MAX, f32::MAX],
        [-f32::MAX, f32::MAX],
        [f32::NEG_INFINITY, f32::INFINITY],
        [0.0, f32::INFINITY],
        [0.0, 0.0],
        [-high.abs(), high.abs()],
        [low, high],
        [row[1], row[2]],
    ];
    row[1..3].copy_from_slice(&d.pick(&bounds));
    row
}

pub fn vels<const N: usize>(d: &mut Draw) -> [f32; N] {
    if d.one_in(8) {
        [0.0; N].map(|_| d.free())
    } else {
        [0.0; N].map(|_| d.tame())
    }
}
