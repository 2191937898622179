//! A seeded source of f32 inputs that lean towards the places where binary32 code goes wrong.

pub struct Draw(u64);

impl Draw {
    pub fn new(seed: u64) -> Draw {
        Draw(seed)
    }

    /// splitmix64
    pub fn word(&mut self) -> u64 {
        self.0 = self.0.wrapping_add(0x9E37_79B9_7F4A_7C15);
        let mut z = self.0;
        z = (z ^ (z >> 30)).wrapping_mul(0xBF58_476D_1CE4_E5B9);
        z = (z ^ (z >> 27)).wrapping_mul(0x94D0_49BB_1331_11EB);
        z ^ (z >> 31)
    }

    pub fn below(&mut self, n: u64) -> u64 {
        self.word() % n
    }

    pub fn pick<T: Copy>(&mut self, from: &[T]) -> T {
        from[self.below(from.len() as u64) as usize]
    }

    fn sign(&mut self) -> u32 {
        (self.word() as u32) & 0x8000_0000
    }

    fn mantissa(&mut self) -> u32 {
        match self.below(4) {
            0 => self.pick(&[
                0, 1, 2, 0x7F_FFFF, 0x7F_FFFE, 0x40_0000, 0x3F_FFFF, 0x40_0001,
            ]),
            _ => self.word() as u32 & 0x7F_FFFF,
        }
    }

    /// The bits moved by at most `reach` places, sign kept.
    pub fn near(&mut self, bits: u32, reach: u64) -> f32 {
        let step = self.below(2 * reach + 1) as i64 - reach as i64;
        let size = (bits & 0x7FFF_FFFF) as i64 + step;
        f32::from_bits(bits & 0x8000_0000 | size.clamp(0, 0x7FFF_FFFF) as u32)
    }

    /// A number whose exponent lies near that of 1.
    pub fn ordinary(&mut self) -> f32 {
        let field = 127 - 12 + self.below(24) as u32;
        f32::from_bits(self.sign() | field << 23 | self.mantissa())
    }

    /// Any bit pattern, the hostile ones often.
    pub fn number(&mut self) -> f32 {
        let sign = self.sign();
        let bits = match self.below(16) {
            0 => 0,
            1 => self.mantissa(),
            2 => self.pick(&[1, 2, 0x7F_FFFF, 0x80_0000, 0x80_0001, 0x7F_FFFE]),
            3 => (0xFD + self.below(2) as u32) << 23 | self.mantissa(),
            4 => 0x7F80_0000,
            5 => 0x7F80_0000 | 1 << self.below(23) | self.word() as u32 & 0x7F_FFFF,
            6 => 0x1E3C_E507 + self.below(3) as u32,
            7 => (self.below(255) as u32) << 23,
            8 => 1 << self.below(23),
            9 => {
                let of = self.pick(&[
                    0x4049_0FDB,
                    0x3FC9_0FDB,
                    0x40C9_0FDB,
                    0x3F80_0000,
                    0x3F00_0000,
                ]);
                self.near(of, 3).to_bits()
            }
            10 => (self.below(2001) as f32 / 8.0).to_bits(),
            11 | 12 => self.ordinary().to_bits() & 0x7FFF_FFFF,
            _ => self.word() as u32 & 0x7FFF_FFFF,
        };
        f32::from_bits(sign | bits)
    }

    /// A number that has something to do with `x`: the same, its opposite, a neighbour, one of
    /// the same exponent, a product with a power of two, or nothing at all.
    pub fn related(&mut self, x: f32) -> f32 {
        let bits = x.to_bits();
        match self.below(8) {
            0 => x,
            1 => -x,
            2 => self.near(bits, 2),
            3 => self.near(bits ^ 0x8000_0000, 2),
            4 => f32::from_bits(self.sign() | bits & 0x7F80_0000 | self.mantissa()),
            5 => x * self.pick(&[0.5, 2.0, 0.25, 4.0, -0.5, -2.0]),
            _ => self.number(),
        }
    }

    /// Two angles: half the time their difference is about π, where |s| and |c| nearly tie.
    pub fn angles(&mut self) -> (f32, f32) {
        let b = if self.below(2) == 0 {
            self.ordinary()
        } else {
            self.number()
        };
        if self.below(2) == 0 {
            let pi =
                f32::from_bits(self.pick(&[0x4049_0FDB, 0xC049_0FDB, 0x40C9_0FDB, 0xC0C9_0FDB]));
            let b = if self.below(4) == 0 {
                self.pick(&[0.0, -0.0])
            } else {
                b
            };
            (self.near((b + pi).to_bits(), 3), b)
        } else {
            (self.related(b), b)
        }
    }

    /// (re, im): unit vectors, quotients about 1/2 and 1, tiny quotients, and anything.
    pub fn direction(&mut self) -> (f32, f32) {
        let re = if self.below(2) == 0 {
            self.ordinary()
        } else {
            self.number()
        };
        let im = match self.below(6) {
            0 => self.near((re * 0.5).to_bits(), 3),
            1 => {
                let sign = self.sign();
                self.near(re.to_bits() ^ sign, 3)
            }
            2 => re * f32::from_bits((97 + self.below(31) as u32) << 23 | self.mantissa()),
            3 => self.related(re),
            4 => self.ordinary(),
            _ => self.number(),
        };
        if self.below(2) == 0 {
            (re, im)
        } else {
            (im, re)
        }
    }

    /// (re, im) about the conditions under which an angle is its tangent, one of `NEAR_ZERO` or any.
    /// The signs of both are free.
    pub fn near_zero(&mut self, about: Option<u64>) -> (f32, f32) {
        let re = if self.below(4) == 0 {
            self.number()
        } else {
            self.ordinary()
        };
        let sign = self.sign();
        // Of any, twice as often the first.
        match about.unwrap_or_else(|| self.below(8).saturating_sub(1)) {
            0 => (re, self.near((re / 4096.0).to_bits() ^ sign, 3)),
            1 => {
                let t = f32::from_bits((97 + self.below(20) as u32) << 23 | self.mantissa());
                (re, re * t)
            }
            2 => (re, self.near(re.to_bits() ^ sign, 2)),
            3 => (self.pick(&[0.0, -0.0]), self.number()),
            4 => {
                let low = self.mantissa();
                let high = f32::from_bits(self.sign() | self.mantissa());
                (high, f32::from_bits(sign | low >> self.below(24)))
            }
            5 => (re.abs(), f32::from_bits(sign | self.mantissa())),
            _ => (re, self.number()),
        }
    }

    /// What `near_zero` draws about.
    pub const NEAR_ZERO: [&str; 7] = [
        "t about 2^-12",
        "t of 2^-30 to 2^-11",
        "|im| about |re|",
        "re of either zero",
        "subnormal numbers",
        "im subnormal, t vanishing",
        "any im, finite or not",
    ];

    /// An argument of the angle's series, up to 2^30: any width, powers of two and where a power
    /// turns zero, with their neighbours.
    pub fn tangent(&mut self) -> u64 {
        let w = match self.below(4) {
            0 => self.word() >> (34 + self.below(31)),
            1 => 1 << self.below(31),
            // About the least w whose power k is not zero: w^(2k + 1) is 2^(60k).
            2 => {
                let k = self.below(15) as f64;
                (60.0 * k / (2.0 * k + 1.0)).exp2() as u64
            }
            _ => self.below((1 << 30) + 1),
        };
        (w + self.below(7)).saturating_sub(3).min(1 << 30)
    }

    /// An impulse for the report: odd 128ths, which are all the numbers whose millionths end in a
    /// half, their neighbours, the edge of Over, anything.
    pub fn impulse(&mut self) -> f32 {
        let half = (2 * self.below(1 << 17) + 1) as f32 / 128.0 * self.pick(&[1.0, -1.0]);
        match self.below(6) {
            0 => half,
            1 => self.near(half.to_bits(), 2),
            2 => {
                let edge = 2147.4836f32.to_bits() | self.sign();
                self.near(edge, 3)
            }
            3 => self.ordinary(),
            4 => self.ordinary() * 1.0e-5,
            _ => self.number(),
        }
    }
}
