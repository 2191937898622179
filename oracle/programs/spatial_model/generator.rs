//! Draws studies of several joints in space, calls on them, and what a caller may do to them in between.

use crate::draw::Draw;
use crate::spatial_model::{
    BODY, Call, ENABLED, FINITE, JOINT, NUMBER, POSE, POSED, ROW, STORED, Study, VELOCITY, WORDS,
    WORLD,
};
use crate::spatial_rendering;
use crate::studies;

pub struct Generator {
    pub d: Draw,
    /// Joints drawn so far: each takes the next mask choice.
    joints: u64,
}

/// How many bodies and joints.
pub struct Size {
    pub bodies: usize,
    pub joints: usize,
}

/// Which bodies the joints tie.
#[derive(Copy, Clone)]
enum Shape {
    Chain,
    Star,
    Any,
    /// Bodies whose numbers leave the same remainder.
    Components(usize),
}

/// The row count by the masks of the joints that are enabled; bits that no legal mask has are left out.
pub fn total(s: &Study) -> usize {
    let joints = s.words.chunks_exact(WORDS).take(s.joint_count());
    let enabled = joints.filter(|w| w[ENABLED] == 0);
    enabled
        .map(|w| spatial_rendering::ids(&[w[2] & 63, w[3] & 7, w[4] & 7, 0]).len())
        .sum()
}

pub fn body_of(s: &Study, i: u32) -> [f32; POSED] {
    let body = s.bodies.chunks_exact(BODY).nth(i as usize);
    body.map_or(rapier3d::pipeline::records::WORLD, |n| {
        n[..POSED].try_into().unwrap()
    })
}

impl Generator {
    pub fn new(seed: u64) -> Generator {
        Generator {
            d: Draw::new(seed),
            joints: 0,
        }
    }

    fn at(&mut self, n: usize) -> usize {
        self.d.below(n as u64) as usize
    }

    /// Mostly small studies.
    pub fn small(&mut self) -> Size {
        let bodies = 1 + self.at(8);
        Size {
            bodies,
            joints: self.at(9),
        }
    }

    fn size(&mut self) -> Size {
        let (bodies, joints) = match self.d.below(96) {
            0 => (127 + self.at(3), self.at(9)),
            1 => (1 + self.at(8), 127 + self.at(3)),
            2 => (128, 128),
            3 => (0, self.at(2)),
            4 => (0, 0),
            _ => return self.small(),
        };
        Size { bodies, joints }
    }

    pub fn body(&mut self, straight: bool) -> [f32; BODY] {
        let mut n = [0.0; BODY];
        n[..POSED].copy_from_slice(&self.d.spatial_body(straight));
        n[POSED..].copy_from_slice(&self.velocity());
        n
    }

    fn velocity(&mut self) -> [f32; VELOCITY] {
        let free = self.d.one_in(16);
        [0.0; VELOCITY].map(|_| if free { self.d.free() } else { self.d.tame() })
    }

    fn shape(&mut self) -> Shape {
        match self.d.below(6) {
            0 | 1 => Shape::Chain,
            2 => Shape::Star,
            3 => Shape::Any,
            _ => Shape::Components(2 + self.at(2)),
        }
    }

    /// The two ends of joint j: different ones, of which one may be the world.
    fn ends(&mut self, shape: Shape, bodies: usize, j: usize) -> [u32; 2] {
        if bodies == 0 {
            return [WORLD; 2];
        }
        let (one, two) = match shape {
            Shape::Chain => (j % bodies, (j + 1) % bodies),
            Shape::Star => (0, j % bodies),
            Shape::Any => (self.at(bodies), self.at(bodies)),
            Shape::Components(by) => {
                let remainder = self.at(by.min(bodies));
                let size = (bodies - remainder).div_ceil(by);
                let mut of = || remainder + by * self.at(size);
                (of(), of())
            }
        };
        let world = one == two || self.d.one_in(5);
        let ends = [one as u32, if world { WORLD } else { two as u32 }];
        if self.d.one_in(2) {
            ends
        } else {
            [ends[1], ends[0]]
        }
    }

    fn masks(&mut self) -> [u32; 4] {
        let choice = self.joints.wrapping_mul(1597) % 4096;
        self.joints += 1;
        studies::masks(choice as u32)
    }

    pub fn motor_model(&mut self) -> u32 {
        if self.d.one_in(16) {
            self.d.word() as u32
        } else {
            self.d.below(2) as u32
        }
    }

    /// A word of `JointEnabled`: mostly the one that is.
    pub fn enabled(&mut self) -> u32 {
        if self.d.one_in(5) { self.disabled() } else { 0 }
    }

    /// A word of one of the two kinds that are not.
    pub fn disabled(&mut self) -> u32 {
        let any = 1 | self.d.word() as u32;
        self.d.pick(&[1, 1, 2, 2, 3, u32::MAX, any])
    }

    /// A joint between two bodies that are there.
    pub fn joint(
        &mut self,
        s: &Study,
        ends: [u32; 2],
        straight: bool,
    ) -> ([u32; WORDS], [f32; JOINT]) {
        let mut words = [0; WORDS];
        words[..2].copy_from_slice(&ends);
        words[2..6].copy_from_slice(&self.masks());
        for word in &mut words[6..9] {
            *word = self.motor_model();
        }
        words[ENABLED] = self.enabled();
        let mut n = studies::joint(&mut self.d, straight);
        let [one, two] = ends.map(|i| body_of(s, i));
        // The bodies stay as they are: only the frames are made to turn alike.
        studies::align(&mut self.d, &one, &mut two.clone(), &mut n);
        studies::aim(&mut self.d, &one, &two, &mut n);
        (words, n)
    }

    /// Hostile numbers in some places; those that rule 6 looks at stay finite.
    fn spoil(&mut self, s: &mut Study) {
        let hostile = |d: &mut Draw, exempt: bool| if exempt { d.number() } else { d.finite() };
        match self.d.below(8) {
            0 | 1 => {
                for _ in 0..1 + self.d.below(3) {
                    if !s.bodies.is_empty() && self.d.one_in(2) {
                        let i = self.at(s.bodies.len());
                        s.bodies[i] = hostile(&mut self.d, i % BODY >= POSED);
                    } else if !s.numbers.is_empty() {
                        let i = self.at(s.numbers.len());
                        s.numbers[i] = self.d.number();
                    } else {
                        let i = self.at(3);
                        s.settings[i] = self.d.finite().abs();
                    }
                }
            }
            2 => {
                for (i, x) in s.bodies.iter_mut().enumerate() {
                    if self.d.one_in(12) {
                        *x = hostile(&mut self.d, i % BODY >= POSED);
                    }
                }
                for x in &mut s.numbers {
                    if self.d.one_in(12) {
                        *x = self.d.number();
                    }
                }
            }
            _ => {}
        }
    }

    /// Takes away what rule 6 would refuse.
    pub fn mend(&mut self, s: &mut Study) {
        for n in s.bodies.chunks_exact_mut(BODY) {
            for x in &mut n[..POSED] {
                if !x.is_finite() {
                    *x = self.d.tame();
                }
            }
        }
        for n in s.numbers.chunks_exact_mut(JOINT) {
            for i in FINITE {
                if !n[i].is_finite() {
                    n[i] = self.d.tame();
                }
            }
            for i in NUMBER {
                if n[i].is_nan() {
                    n[i] = self.d.tame();
                }
            }
        }
    }

    /// A study that load grants, but for its size or a joint from the world to the world. Its row storage is drawn by itself.
    pub fn study_of(&mut self, size: Size) -> Study {
        let shape = self.shape();
        self.shaped(size, shape)
    }

    /// One of several components.
    pub fn parted(&mut self, size: Size) -> Study {
        let shape = Shape::Components(2 + self.at(3));
        self.shaped(size, shape)
    }

    fn shaped(&mut self, size: Size, shape: Shape) -> Study {
        let straight = self.d.one_in(4);
        let mut s = Study {
            settings: studies::settings(&mut self.d),
            built: false,
            bodies: Vec::new(),
            words: Vec::new(),
            numbers: Vec::new(),
            rows: Vec::new(),
        };
        for _ in 0..size.bodies {
            let body = self.body(straight);
            s.bodies.extend(body);
        }
        for j in 0..size.joints {
            let ends = self.ends(shape, size.bodies, j);
            let (words, numbers) = self.joint(&s, ends, straight);
            s.words.extend(words);
            s.numbers.extend(numbers);
        }
        if !self.d.one_in(4) {
            for n in s.numbers.chunks_exact_mut(JOINT) {
                for i in STORED {
                    if !n[i].is_finite() {
                        n[i] = self.d.tame();
                    }
                }
            }
        }
        self.spoil(&mut s);
        self.mend(&mut s);
        s
    }

    pub fn study(&mut self) -> Study {
        let size = self.size();
        let mut s = self.study_of(size);
        s.rows = self.storage(total(&s));
        self.leftovers(&mut s);
        // A caller may lie.
        s.built = self.d.one_in(16);
        s
    }

    /// Numbers after the last whole record, and joints that only words or only numbers hold.
    pub fn leftovers(&mut self, s: &mut Study) {
        if self.d.one_in(4) {
            let n = self.at(BODY);
            s.bodies.extend((0..n).map(|_| self.d.number()));
        }
        let (words, numbers) = match self.d.below(8) {
            0 => (self.at(3 * WORDS), self.at(JOINT)),
            1 => (self.at(WORDS), self.at(3 * JOINT)),
            2 => (self.at(WORDS), self.at(JOINT)),
            _ => (0, 0),
        };
        s.words.extend((0..words).map(|_| self.d.word() as u32));
        s.numbers.extend((0..numbers).map(|_| self.d.number()));
    }

    /// Row storage for `total` rows or more, with hostile contents.
    pub fn storage(&mut self, total: usize) -> Vec<f32> {
        let (rows, more) = match self.d.below(8) {
            0 => (total + 1 + self.at(4), 0),
            1 => (total, self.at(ROW)),
            2 => (total + 1 + self.at(3), self.at(ROW)),
            _ => (total, 0),
        };
        let mut all = Vec::with_capacity(rows * ROW + more);
        for _ in 0..rows {
            all.extend(studies::any_row(&mut self.d));
        }
        all.extend((0..more).map(|_| self.d.number()));
        all
    }

    /// One of `count`, or now and then none of them.
    fn index(&mut self, count: usize) -> u32 {
        if count == 0 || self.d.one_in(10) {
            let near = [count as u32, count as u32 + 1, WORLD, WORLD - 1, 128];
            if self.d.one_in(4) {
                self.d.word() as u32
            } else {
                self.d.pick(&near)
            }
        } else {
            self.at(count) as u32
        }
    }

    fn pose(&mut self) -> [f32; POSE] {
        let [x, y, z, w] = self.d.rotation();
        [x, y, z, w, self.d.tame(), self.d.tame(), self.d.tame()]
    }

    pub fn place(&mut self, s: &Study) -> Call {
        let mut pose = self.pose();
        if self.d.one_in(8) {
            let i = self.at(POSE);
            pose[i] = self.d.finite();
        }
        if self.d.one_in(16) {
            let i = self.at(POSE);
            pose[i] = self.d.number();
        }
        Call::Place {
            body: self.index(s.body_count()),
            pose,
        }
    }

    pub fn build(&mut self, built: bool) -> Call {
        let warm = !self.d.one_in(3);
        let coefficient = if !warm || self.d.one_in(32) {
            self.d.number()
        } else {
            studies::coefficient(&mut self.d)
        };
        let substep = if !built && warm && !self.d.one_in(4) {
            0
        } else {
            self.d.pick(&[0, 0, 1, 1, 2, 7, u32::MAX])
        };
        Call::Build {
            warm,
            coefficient,
            substep,
        }
    }

    pub fn sweep(&mut self) -> Call {
        let n = match self.d.below(64) {
            0 => 64,
            1 => 65,
            2 => self.d.pick(&[1000, 1001, u32::MAX]),
            3 => self.d.below(70) as u32,
            4 => 63,
            _ => self.d.pick(&[0, 1, 1, 1, 2, 2, 5]),
        };
        Call::Sweep(n)
    }

    /// Any call on the study. A model that is not built is built half of the time.
    pub fn call(&mut self, s: &Study) -> Call {
        let kind = if !s.built && self.d.one_in(2) {
            2
        } else {
            self.d.pick(&[
                0, 1, 1, 1, 2, 2, 2, 2, 2, 3, 3, 3, 4, 4, 4, 4, 4, 5, 5, 6, 6, 6, 7, 7, 7, 8, 8,
            ])
        };
        match kind {
            0 => Call::Load,
            1 => self.place(s),
            2 => self.build(s.built),
            3 => Call::WarmStart,
            4 => self.sweep(),
            5 => Call::RemoveBias,
            6 => Call::WriteBack,
            7 => Call::ReadRows(self.index(s.joint_count())),
            _ => Call::ReadVelocity(self.index(s.body_count())),
        }
    }

    /// A mask that rule 3 refuses.
    fn wide_mask(&mut self) -> u32 {
        let any = 64 | self.d.word() as u32;
        self.d.pick(&[
            64,
            64,
            65,
            72,
            127,
            128,
            255,
            256,
            319,
            1 << 31,
            u32::MAX,
            any,
        ])
    }

    /// Masks that rule 17 refuses, and 3 does not: the joint's own with a coupled axis, or an angular bit of limit or motor.
    fn angular_masks(&mut self, masks: &mut [u32]) {
        let bits = self.d.pick(&[8, 16, 32, 56]) | self.d.below(64) as u32 & 7;
        match self.d.below(5) {
            0 | 1 => masks[1] = bits,
            2 | 3 => masks[2] = bits,
            _ => masks[3] = self.d.pick(&[1, 2, 4, 7, 8, 16, 32, 48, 56, 63]),
        }
        if self.d.one_in(3) {
            // On axes that are locked.
            masks[0] = 63;
        }
    }

    /// Breaks one to three rules.
    pub fn break_some(&mut self, s: &mut Study, call: &mut Call) {
        for _ in 0..1 + self.d.below(3) {
            let rule = self.d.pick(&[1, 2, 3, 17, 17, 4, 5, 6, 7, 8, 9, 10, 11]);
            self.break_rule(rule, s, call);
        }
    }

    /// Breaks the rule, where the study has something to break.
    pub fn break_rule(&mut self, rule: u64, s: &mut Study, call: &mut Call) {
        let (bodies, joints) = (s.body_count(), s.joint_count());
        match rule {
            1 => {
                let to = 129 + self.at(2);
                s.bodies.truncate(bodies * BODY);
                while s.bodies.len() < to * BODY {
                    let body = self.body(false);
                    s.bodies.extend(body);
                }
            }
            2 => {
                let to = 129 + self.at(2);
                s.words.truncate(joints * WORDS);
                s.numbers.truncate(joints * JOINT);
                let shape = self.shape();
                let masks = self.d.one_in(2);
                for j in joints..to {
                    let ends = self.ends(shape, bodies.min(128), j);
                    let (mut words, numbers) = self.joint(s, ends, false);
                    if masks {
                        words[2..6].fill(0);
                    }
                    s.words.extend(words);
                    s.numbers.extend(numbers);
                }
                if self.d.one_in(2) {
                    s.rows.resize(total(s) * ROW, 0.0);
                }
            }
            3 if joints > 0 => {
                let at = self.at(joints) * WORDS + 2 + self.at(4);
                s.words[at] = self.wide_mask();
            }
            17 if joints > 0 => {
                let at = self.at(joints) * WORDS;
                self.angular_masks(&mut s.words[at + 2..at + 6]);
                if self.d.one_in(4) {
                    s.words[at + ENABLED] = self.disabled();
                }
            }
            4 if joints > 0 => {
                let at = self.at(joints) * WORDS + self.at(2);
                let count = bodies as u32;
                let any = count.max(self.d.word() as u32 >> 1);
                s.words[at] = self.d.pick(&[count, count, count + 1, 128, WORLD - 1, any]);
            }
            5 if joints > 0 => {
                let at = self.at(joints) * WORDS;
                let twice = self.d.pick(&[s.words[at], s.words[at + 1], WORLD]);
                s.words[at] = twice;
                s.words[at + 1] = twice;
            }
            6 => self.break_six(s, call),
            7 => {
                s.settings[0] = self
                    .d
                    .pick(&[-1.0, -1.0e-40, -1.0e-45, -f32::MAX, -1.0 / 64.0]);
            }
            8 => {
                let whole = total(s) * ROW;
                if whole > 0 {
                    let any = self.at(whole);
                    let to = self
                        .d
                        .pick(&[whole - 1, whole - 1, whole - ROW, whole - ROW, 0, any]);
                    s.rows.truncate(to);
                }
            }
            9 => *call = Call::Sweep(self.d.pick(&[65, 65, 66, 1000, 1001, u32::MAX])),
            10 => {
                s.built = false;
                let joint = self.index(joints);
                *call = match self.d.below(7) {
                    0 => Call::WarmStart,
                    1 => self.sweep(),
                    2 => Call::RemoveBias,
                    3 => Call::WriteBack,
                    4 => Call::ReadRows(joint),
                    _ => Call::Build {
                        warm: true,
                        coefficient: studies::coefficient(&mut self.d),
                        substep: self.d.pick(&[1, 1, 2, 7, u32::MAX]),
                    },
                };
            }
            11 => {
                *call = match self.d.below(3) {
                    0 => Call::ReadRows(self.d.pick(&[joints as u32, joints as u32 + 1, WORLD])),
                    1 => Call::ReadVelocity(self.d.pick(&[bodies as u32, WORLD, 200])),
                    _ => Call::Place {
                        body: self.d.pick(&[bodies as u32, bodies as u32 + 1, WORLD]),
                        pose: self.pose(),
                    },
                }
            }
            _ => {}
        }
    }

    fn break_six(&mut self, s: &mut Study, call: &mut Call) {
        let (inf, nan) = (f32::INFINITY, f32::NAN);
        let bad = self.d.pick(&[nan, inf, -inf]);
        match self.d.below(16) {
            0 => s.settings[self.d.below(3) as usize] = bad,
            1 | 2 | 3 if s.body_count() > 0 => {
                let at = self.at(s.body_count()) * BODY + self.at(POSED);
                s.bodies[at] = bad;
            }
            4 | 5 => match call {
                Call::Place { pose, .. } => pose[self.d.below(POSE as u64) as usize] = bad,
                Call::Build {
                    warm, coefficient, ..
                } => {
                    *warm = true;
                    *coefficient = bad;
                }
                _ => {
                    let mut pose = [0.0, 0.0, 0.0, 1.0, 0.0, 0.0, 0.0];
                    pose[self.at(POSE)] = bad;
                    let body = self.index(s.body_count());
                    *call = Call::Place { body, pose }
                }
            },
            6 | 7 | 8 if s.joint_count() > 0 => {
                let at = self.at(s.joint_count()) * JOINT + self.d.pick(&NUMBER);
                s.numbers[at] = nan;
            }
            _ if s.joint_count() > 0 => {
                let at = self.at(s.joint_count()) * JOINT + self.d.pick(&FINITE);
                s.numbers[at] = bad;
            }
            _ => {}
        }
    }

    /// What a caller does to state or rows between calls.
    pub fn alter(&mut self, s: &mut Study) {
        let (bodies, joints) = (s.body_count(), s.joint_count());
        match self.d.below(16) {
            0 => s.built = !s.built,
            1 => s.rows = self.storage(total(s)),
            2 | 3 if !s.rows.is_empty() => {
                for _ in 0..1 + self.d.below(3) {
                    let at = self.at(s.rows.len());
                    s.rows[at] = self.d.number();
                }
            }
            4 | 5 | 6 if bodies > 0 => {
                for n in s.bodies.chunks_exact_mut(BODY) {
                    let velocity = self.velocity();
                    n[POSED..].copy_from_slice(&velocity);
                }
            }
            7 if bodies > 0 => {
                let at = self.at(bodies) * BODY;
                let body = self.body(false);
                s.bodies[at..at + BODY].copy_from_slice(&body);
            }
            8 | 9 if joints > 0 => {
                let j = self.at(joints);
                for (k, bound) in [64, 8, 8].into_iter().enumerate() {
                    if self.d.one_in(2) {
                        s.words[j * WORDS + 2 + k] = self.d.below(bound) as u32;
                    }
                }
                if self.d.one_in(2) {
                    s.words[j * WORDS + ENABLED] = self.enabled();
                }
                if !self.d.one_in(4) {
                    let whole = total(s) * ROW;
                    if s.rows.len() < whole {
                        s.rows.resize(whole, 0.0);
                    }
                }
            }
            10 if joints > 0 => {
                let at = self.at(joints) * WORDS;
                let shape = self.shape();
                let ends = self.ends(shape, bodies, 0);
                s.words[at..at + 2].copy_from_slice(&ends);
            }
            11 if joints > 0 => {
                let at = self.at(joints) * JOINT;
                let k = self.at(JOINT);
                s.numbers[at + k] = if FINITE.contains(&k) {
                    self.d.finite()
                } else if NUMBER.contains(&k) {
                    self.d.pick(&[f32::INFINITY, f32::NEG_INFINITY, 0.0, 1.0])
                } else {
                    self.d.number()
                };
            }
            12 => s.settings = studies::settings(&mut self.d),
            13 if bodies > 0 => s.bodies.truncate((bodies - 1) * BODY),
            14 if joints > 0 => {
                s.words.truncate((joints - 1) * WORDS);
                s.numbers.truncate((joints - 1) * JOINT);
            }
            _ => {
                let body = self.body(false);
                s.bodies.truncate(bodies * BODY);
                s.bodies.extend(body);
            }
        }
    }
}
