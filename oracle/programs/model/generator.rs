//! Draws studies of several joints, calls on them, and what a caller may do to them in between.

use crate::draw::Draw;
use crate::model::{
    BODY, CHOICE, Call, ENABLED, FINITE, FIRST, JOINT, NUMBER, ROW, Study, WORDS, WORLD, has_number,
};
use crate::rendering;
use crate::studies;

/// Places of the stored impulses: limits, motors, Dof.
pub const STORED: [usize; 9] = [10, 13, 16, 22, 28, 34, 37, 38, 39];

/// Typed angles that no rule refuses, with the largest and its neighbour.
pub const ANGLES: [f32; 12] = [
    0.0,
    -0.0,
    1.0e-42,
    -9.0e-10,
    0.5,
    -0.5,
    1.5707964,
    -3.1415927,
    1023.99994,
    -1023.99994,
    1024.0,
    -1024.0,
];
/// Typed angles that rule 12 refuses, with the smallest.
pub const LARGE: [f32; 8] = [
    1024.0001,
    -1024.0001,
    1025.0,
    -1025.0,
    1.0e9,
    -1.0e9,
    f32::MAX,
    -f32::MAX,
];

const WORLD_NUMBERS: [f32; 7] = [1.0, 0.0, 0.0, 0.0, 0.0, 0.0, 0.0];

pub struct Generator {
    pub d: Draw,
    /// Joints drawn so far: each takes the next mask choice.
    joints: u64,
}

/// How many bodies and joints.
pub struct Size {
    pub bodies: usize,
    pub joints: usize,
}

/// Which bodies the joints tie.
#[derive(Copy, Clone)]
enum Shape {
    Chain,
    Star,
    Any,
    /// Bodies whose numbers leave the same remainder.
    Components(usize),
}

/// The row count by the masks of the joints that are enabled; bits above 7 are left out.
pub fn total(s: &Study) -> usize {
    let joints = s.words.chunks_exact(WORDS).take(s.joint_count());
    let enabled = joints.filter(|w| w[ENABLED] == 0);
    enabled.map(|w| rendering::ids(&w[2..6]).len()).sum()
}

pub fn body_of(s: &Study, i: u32) -> [f32; 7] {
    let body = s.bodies.chunks_exact(BODY).nth(i as usize);
    body.map_or(WORLD_NUMBERS, |n| n[..7].try_into().unwrap())
}

impl Generator {
    pub fn new(seed: u64) -> Generator {
        Generator {
            d: Draw::new(seed),
            joints: 0,
        }
    }

    fn at(&mut self, n: usize) -> usize {
        self.d.below(n as u64) as usize
    }

    /// Mostly small studies.
    pub fn small(&mut self) -> Size {
        let bodies = 1 + self.at(8);
        Size {
            bodies,
            joints: self.at(9),
        }
    }

    fn size(&mut self) -> Size {
        let (bodies, joints) = match self.d.below(96) {
            0 => (127 + self.at(3), self.at(9)),
            1 => (1 + self.at(8), 127 + self.at(3)),
            2 => (128, 128),
            3 => (0, self.at(2)),
            4 => (0, 0),
            _ => return self.small(),
        };
        Size { bodies, joints }
    }

    pub fn body(&mut self, straight: bool) -> [f32; 10] {
        let mut n = [0.0; 10];
        n[..7].copy_from_slice(&self.d.body(straight));
        n[7..].copy_from_slice(&self.velocity());
        n
    }

    fn velocity(&mut self) -> [f32; 3] {
        let free = self.d.one_in(16);
        [0.0; 3].map(|_| if free { self.d.free() } else { self.d.tame() })
    }

    fn shape(&mut self) -> Shape {
        match self.d.below(6) {
            0 | 1 => Shape::Chain,
            2 => Shape::Star,
            3 => Shape::Any,
            _ => Shape::Components(2 + self.at(2)),
        }
    }

    /// The two ends of joint j: different ones, of which one may be the world.
    fn ends(&mut self, shape: Shape, bodies: usize, j: usize) -> [u32; 2] {
        if bodies == 0 {
            return [WORLD; 2];
        }
        let (one, two) = match shape {
            Shape::Chain => (j % bodies, (j + 1) % bodies),
            Shape::Star => (0, j % bodies),
            Shape::Any => (self.at(bodies), self.at(bodies)),
            Shape::Components(by) => {
                let remainder = self.at(by.min(bodies));
                let size = (bodies - remainder).div_ceil(by);
                let mut of = || remainder + by * self.at(size);
                (of(), of())
            }
        };
        let world = one == two || self.d.one_in(5);
        let ends = [one as u32, if world { WORLD } else { two as u32 }];
        if self.d.one_in(2) {
            ends
        } else {
            [ends[1], ends[0]]
        }
    }

    fn masks(&mut self) -> [u32; 4] {
        let choice = self.joints.wrapping_mul(1597) % 4096;
        self.joints += 1;
        studies::masks(choice as u32)
    }

    fn motor_model(&mut self) -> u32 {
        if self.d.one_in(16) {
            self.d.word() as u32
        } else {
            self.d.below(2) as u32
        }
    }

    /// A word of `JointEnabled`: mostly the one that is.
    pub fn enabled(&mut self) -> u32 {
        if self.d.one_in(5) { self.disabled() } else { 0 }
    }

    /// A word of one of the two kinds that are not.
    pub fn disabled(&mut self) -> u32 {
        let any = 1 | self.d.word() as u32;
        self.d.pick(&[1, 1, 2, 2, 3, u32::MAX, any])
    }

    /// A word where a first row stands: a caller may write any there.
    pub fn first(&mut self) -> u32 {
        let any = self.d.word() as u32;
        let row = self.d.below(24) as u32;
        self.d.pick(&[0, 0, row, row, u32::MAX, any])
    }

    /// A word for a centre that is typed as an angle.
    fn angle_word(&mut self) -> u32 {
        let any = 1 | self.d.word() as u32;
        self.d.pick(&[1, 1, 1, 2, 1 << 31, u32::MAX, any])
    }

    /// A typed angle that no rule refuses.
    pub fn angle(&mut self) -> f32 {
        let x = match self.d.below(8) {
            0 | 1 => self.d.pick(&ANGLES),
            2 | 3 => {
                // Eighths of turns and their neighbours.
                let eighth = self.d.below(41) as f32 - 20.0;
                let x = eighth * std::f32::consts::FRAC_PI_4;
                let more = self.d.below(3) as u32;
                f32::from_bits(x.to_bits().wrapping_add(more).wrapping_sub(1))
            }
            4 => self.d.finite(),
            5 => self.d.tame() * 100.0,
            _ => self.d.tame(),
        };
        if x.abs() <= 1024.0 { x } else { 0.75 }
    }

    /// How joint j's centre is typed, drawn anew: mostly as cosine and sine. Of an angle, the number
    /// beside it may be anything.
    pub fn choose(&mut self, words: &mut [u32], n: &mut [f32]) {
        if !self.d.one_in(3) {
            words[CHOICE] = 0;
            return;
        }
        words[CHOICE] = self.angle_word();
        // One near the centre that was aimed at, or any.
        let aimed = n[41].atan2(n[40]);
        n[40] = if aimed.is_finite() && self.d.one_in(2) {
            aimed + self.d.pick(&[0.0, 0.0, 6.2831855, -6.2831855, 628.3])
        } else {
            self.angle()
        };
        n[41] = self.d.number();
    }

    /// A joint between two bodies that are there.
    pub fn joint(
        &mut self,
        s: &Study,
        ends: [u32; 2],
        straight: bool,
    ) -> ([u32; WORDS], [f32; JOINT]) {
        let masks = self.masks();
        let mut words = [0; WORDS];
        words[..2].copy_from_slice(&ends);
        words[2..6].copy_from_slice(&masks);
        for word in &mut words[6..9] {
            *word = self.motor_model();
        }
        words[ENABLED] = self.enabled();
        words[FIRST] = self.first();
        let mut n = studies::joint(&mut self.d, straight);
        let [one, two] = ends.map(|i| body_of(s, i));
        studies::aim(&mut self.d, &one, &two, &mut n, masks[3]);
        self.choose(&mut words, &mut n);
        (words, n)
    }

    /// Hostile numbers in some places; those that rule 6 looks at stay finite.
    fn spoil(&mut self, s: &mut Study) {
        let hostile = |d: &mut Draw, exempt: bool| if exempt { d.number() } else { d.finite() };
        match self.d.below(8) {
            0 | 1 => {
                for _ in 0..1 + self.d.below(3) {
                    if !s.bodies.is_empty() && self.d.one_in(2) {
                        let i = self.at(s.bodies.len());
                        s.bodies[i] = hostile(&mut self.d, i % BODY >= 7);
                    } else if !s.numbers.is_empty() {
                        let i = self.at(s.numbers.len());
                        s.numbers[i] = self.d.number();
                    } else {
                        let i = self.at(3);
                        s.settings[i] = self.d.finite().abs();
                    }
                }
            }
            2 => {
                for (i, x) in s.bodies.iter_mut().enumerate() {
                    if self.d.one_in(8) {
                        *x = hostile(&mut self.d, i % BODY >= 7);
                    }
                }
                for x in &mut s.numbers {
                    if self.d.one_in(8) {
                        *x = self.d.number();
                    }
                }
            }
            _ => {}
        }
    }

    /// Takes away what rules 6 and 12 would refuse.
    pub fn mend(&mut self, s: &mut Study) {
        for n in s.bodies.chunks_exact_mut(BODY) {
            for x in &mut n[..7] {
                if !x.is_finite() {
                    *x = self.d.tame();
                }
            }
        }
        let words = s.words.chunks_exact(WORDS);
        for (w, n) in words.zip(s.numbers.chunks_exact_mut(JOINT)) {
            for i in FINITE {
                if !n[i].is_finite() && has_number(w, i) {
                    n[i] = self.d.tame();
                }
            }
            if w[CHOICE] != 0 && n[40].abs() > 1024.0 {
                n[40] = self.angle();
            }
            for i in NUMBER {
                if n[i].is_nan() {
                    n[i] = self.d.tame();
                }
            }
        }
    }

    /// A study that load grants, but for its size or a joint from the world to the world. Its
    /// row storage is drawn by itself.
    pub fn study_of(&mut self, size: Size) -> Study {
        let shape = self.shape();
        self.shaped(size, shape)
    }

    /// One of several components.
    pub fn parted(&mut self, size: Size) -> Study {
        let shape = Shape::Components(2 + self.at(3));
        self.shaped(size, shape)
    }

    fn shaped(&mut self, size: Size, shape: Shape) -> Study {
        let straight = self.d.one_in(4);
        let mut s = Study {
            settings: studies::settings(&mut self.d),
            built: false,
            bodies: Vec::new(),
            words: Vec::new(),
            numbers: Vec::new(),
            rows: Vec::new(),
        };
        for _ in 0..size.bodies {
            let body = self.body(straight);
            s.bodies.extend(body);
        }
        for j in 0..size.joints {
            let ends = self.ends(shape, size.bodies, j);
            let (words, numbers) = self.joint(&s, ends, straight);
            s.words.extend(words);
            s.numbers.extend(numbers);
        }
        if !self.d.one_in(4) {
            for n in s.numbers.chunks_exact_mut(JOINT) {
                for i in STORED {
                    if !n[i].is_finite() {
                        n[i] = self.d.tame();
                    }
                }
            }
        }
        self.spoil(&mut s);
        self.mend(&mut s);
        s
    }

    pub fn study(&mut self) -> Study {
        let size = self.size();
        let mut s = self.study_of(size);
        s.rows = self.storage(total(&s));
        self.leftovers(&mut s);
        // A caller may lie.
        s.built = self.d.one_in(16);
        s
    }

    /// Numbers after the last whole record, and joints that only words or only numbers hold.
    pub fn leftovers(&mut self, s: &mut Study) {
        if self.d.one_in(4) {
            let n = self.at(BODY);
            s.bodies.extend((0..n).map(|_| self.d.number()));
        }
        let (words, numbers) = match self.d.below(8) {
            0 => (self.at(3 * WORDS), self.at(JOINT)),
            1 => (self.at(WORDS), self.at(3 * JOINT)),
            2 => (self.at(WORDS), self.at(JOINT)),
            _ => (0, 0),
        };
        s.words.extend((0..words).map(|_| self.d.word() as u32));
        s.numbers.extend((0..numbers).map(|_| self.d.number()));
    }

    /// Row storage for `total` rows or more, with hostile contents.
    pub fn storage(&mut self, total: usize) -> Vec<f32> {
        let (rows, more) = match self.d.below(8) {
            0 => (total + 1 + self.at(4), 0),
            1 => (total, self.at(ROW)),
            2 => (total + 1 + self.at(3), self.at(ROW)),
            _ => (total, 0),
        };
        let mut all = Vec::with_capacity(rows * ROW + more);
        for _ in 0..rows {
            all.extend(studies::any_row(&mut self.d));
        }
        all.extend((0..more).map(|_| self.d.number()));
        all
    }

    /// One of `count`, or now and then none of them.
    fn index(&mut self, count: usize) -> u32 {
        if count == 0 || self.d.one_in(10) {
            let near = [count as u32, count as u32 + 1, WORLD, WORLD - 1, 128];
            if self.d.one_in(4) {
                self.d.word() as u32
            } else {
                self.d.pick(&near)
            }
        } else {
            self.at(count) as u32
        }
    }

    pub fn place(&mut self, s: &Study) -> Call {
        let [re, im] = self.d.rotation();
        let mut pose = [re, im, self.d.tame(), self.d.tame()];
        if self.d.one_in(8) {
            let i = self.at(4);
            pose[i] = self.d.finite();
        }
        if self.d.one_in(16) {
            let i = self.at(4);
            pose[i] = self.d.number();
        }
        Call::Place {
            body: self.index(s.body_count()),
            pose,
        }
    }

    pub fn build(&mut self, built: bool) -> Call {
        let warm = !self.d.one_in(3);
        let coefficient = if !warm || self.d.one_in(32) {
            self.d.number()
        } else {
            studies::coefficient(&mut self.d)
        };
        let substep = if !built && warm && !self.d.one_in(4) {
            0
        } else {
            self.d.pick(&[0, 0, 1, 1, 2, 7, u32::MAX])
        };
        Call::Build {
            warm,
            coefficient,
            substep,
        }
    }

    pub fn sweep(&mut self) -> Call {
        let n = match self.d.below(64) {
            0 => 64,
            1 => 65,
            2 => self.d.pick(&[1000, 1001, u32::MAX]),
            3 => self.d.below(70) as u32,
            4 => 63,
            _ => self.d.pick(&[0, 1, 1, 1, 2, 2, 5]),
        };
        Call::Sweep(n)
    }

    /// Any call on the study. A model that is not built is built half of the time.
    pub fn call(&mut self, s: &Study) -> Call {
        let kind = if !s.built && self.d.one_in(2) {
            2
        } else {
            self.d.pick(&[
                0, 1, 1, 1, 2, 2, 2, 2, 2, 3, 3, 3, 4, 4, 4, 4, 4, 5, 5, 6, 6, 6, 7, 7, 7, 8, 8, 9, 9, 9, 10, 10, 10,
            ])
        };
        match kind {
            0 => Call::Load,
            1 => self.place(s),
            2 => self.build(s.built),
            3 => Call::WarmStart,
            4 => self.sweep(),
            5 => Call::RemoveBias,
            6 => Call::WriteBack,
            7 => Call::ReadRows(self.index(s.joint_count())),
            8 => Call::ReadVelocity(self.index(s.body_count())),
            9 => self.table(s),
            _ => self.set_masks(s),
        }
    }

    /// Any call, one in nine a frame.
    pub fn any_call(&mut self, s: &Study) -> Call {
        if self.d.one_in(9) {
            self.frame()
        } else {
            self.call(s)
        }
    }

    /// Mostly few rounds and few substeps.
    pub fn frame(&mut self) -> Call {
        let warm = !self.d.one_in(3);
        let coefficient = if !warm || self.d.one_in(32) {
            self.d.number()
        } else {
            studies::coefficient(&mut self.d)
        };
        let sweeps = match self.d.below(64) {
            0 => 64,
            1 => 65,
            2 => self.d.pick(&[66, 1000, u32::MAX]),
            3 => self.d.below(66) as u32,
            _ => self.d.pick(&[0, 1, 1, 1, 2, 2, 4]),
        };
        let substeps = match self.d.below(32) {
            0 => 0,
            1 => 17,
            2 => self.d.pick(&[18, 32, 1000, 1 << 24, u32::MAX]),
            3 => 16,
            4 => self.d.below(18) as u32,
            _ => self.d.pick(&[1, 1, 1, 2, 2, 3, 3, 4, 5]),
        };
        Call::Frame {
            warm,
            coefficient,
            sweeps,
            substeps,
        }
    }

    /// What a caller may do before a frame: velocities that are numbers, rotations whose length is zero, infinite or nearly so,
    /// and a body that leaves the finite numbers in one of the substeps, where no joint holds it.
    pub fn throw(&mut self, s: &mut Study, call: &Call) {
        let Call::Frame { substeps, .. } = *call else {
            return;
        };
        let count = s.body_count();
        if count == 0 {
            return;
        }
        if s.bodies.iter().any(|x| !x.is_finite()) && !self.d.one_in(6) {
            for n in s.bodies.chunks_exact_mut(BODY) {
                n[7..].copy_from_slice(&[0.0; 3].map(|_| self.d.tame()));
            }
        }
        if self.d.one_in(8) {
            let at = self.at(count) * BODY;
            let rotation = self.d.pick(&[
                [0.0, 0.0],
                [-0.0, 0.0],
                [-0.0, 1.0],
                [1.0e-30, 0.0],
                [1.0e-23, -1.0e-23],
                [1.0e-45, 1.0e-45],
                [1.0e30, 0.0],
                [1.8e19, -1.0e19],
                [f32::MAX, f32::MAX],
            ]);
            s.bodies[at..at + 2].copy_from_slice(&rotation);
        }
        if self.d.one_in(6) && (1..=16).contains(&substeps) {
            let held = |i: usize| {
                let joints = s.words.chunks_exact(WORDS).take(s.joint_count());
                joints.flat_map(|w| &w[..2]).any(|b| *b == i as u32)
            };
            let free: Vec<usize> = (0..count).filter(|i| !held(*i)).collect();
            let i = if free.is_empty() { self.at(count) } else { self.d.pick(&free) };
            let axis = self.at(2);
            let velocity = self.d.pick(&[f32::MAX, -f32::MAX, 1.0e38, -1.0e38]);
            let step = velocity * (s.settings[0] / substeps as f32);
            let left = (self.d.below(substeps as u64) as f32 + 0.5) * step;
            let place = (f32::MAX.copysign(velocity) - left).clamp(-f32::MAX, f32::MAX);
            s.bodies[i * BODY + 2 + axis] = if place.is_nan() { 0.0 } else { place };
            s.bodies[i * BODY + 7 + axis] = velocity;
        }
    }

    /// New masks of a joint: any, or those that it has with some of them changed.
    pub fn set_masks(&mut self, s: &Study) -> Call {
        let joint = self.index(s.joint_count());
        let old = s.words.chunks_exact(WORDS).nth(joint as usize);
        let mut masks = match old {
            Some(w) if self.d.one_in(2) => w[2..6].try_into().unwrap(),
            _ => studies::masks(self.d.below(4096) as u32),
        };
        for mask in &mut masks {
            if self.d.one_in(3) {
                *mask = self.d.below(8) as u32;
            }
        }
        if self.d.one_in(12) {
            masks[self.at(4)] = self.wide_mask();
        }
        Call::SetMasks { joint, masks }
    }

    /// A mask that rule 3 refuses.
    fn wide_mask(&mut self) -> u32 {
        let any = 8 | self.d.word() as u32;
        self.d
            .pick(&[8, 8, 9, 15, 255, 256, 263, 1 << 31, u32::MAX, any])
    }

    /// Row storage about what rule 8 asks for where masks change: of the old total, of the new one, of one row or one
    /// number less, of something between.
    pub fn lend(&mut self, s: &mut Study, call: &Call) {
        let Call::SetMasks { joint, masks } = call else {
            return;
        };
        let old = total(s);
        let mut after = s.clone();
        if (*joint as usize) < s.joint_count() {
            after.words[*joint as usize * WORDS + 2..][..4].copy_from_slice(masks);
        }
        let new = total(&after);
        let between = old.min(new) + self.at(old.abs_diff(new) + 1);
        let length = match self.d.below(8) {
            0 => old * ROW,
            1 => new * ROW,
            2 => (new * ROW).saturating_sub(1),
            3 => (new * ROW).saturating_sub(ROW),
            4 => (old * ROW).saturating_sub(1),
            5 => (old + new) * ROW,
            _ => between * ROW + self.at(ROW),
        };
        while s.rows.len() < length {
            s.rows.extend(studies::any_row(&mut self.d));
        }
        s.rows.truncate(length);
    }

    /// A whole number in one of its spellings.
    fn spelling(&mut self, n: i64) -> String {
        let sign = match n {
            n if n < 0 => "-",
            0 => self.d.pick(&["", "", "", "+", "-"]),
            _ => self.d.pick(&["", "", "", "+"]),
        };
        let zeros = "0".repeat(if self.d.one_in(6) { 1 + self.at(9) } else { 0 });
        let text = format!("{sign}{zeros}{}", n.abs());
        if self.d.one_in(5) { format!("\"{text}\"") } else { text }
    }

    /// A motor table for the study: mostly a few records of joints and axes that are there, often the same ones.
    fn table(&mut self, s: &Study) -> Call {
        let joints = s.joint_count() as i64;
        let records = match self.d.below(200) {
            0 => 4095 + self.at(3),
            1..=9 => 0,
            _ => 1 + self.at(6),
        };
        let mut text = Vec::new();
        for k in 0..records {
            let mut joint = self.d.below(joints.max(1) as u64) as i64;
            let mut axis = self.d.below(3) as i64;
            let any = self.d.below(16_000_001) as i64 - 8_000_000;
            let thousandths = self.d.pick(&[any, any % 10_000, any % 100, 0, 1000, -1000, 8_000_000, -8_000_000]);
            if records < 100 && self.d.one_in(20) {
                joint = self.d.pick(&[joints, joints + 1, -1, 127, 128, 8_000_000]);
            }
            if records < 100 && self.d.one_in(30) {
                axis = self.d.pick(&[3, -1, 4, 8_000_000]);
            }
            let mut fields = [joint, axis, thousandths].map(|n| self.spelling(n)).to_vec();
            if records < 100 && self.d.one_in(24) {
                match self.d.below(4) {
                    0 => drop(fields.pop()),
                    1 => fields.push("0".into()),
                    2 => fields[2] = self.d.pick(&["", "8000001", "-8000001", "1.5", "\"1,2\"", "x", "-"]).into(),
                    _ => fields = vec![String::new()],
                }
            }
            text.extend(fields.join(",").bytes());
            if k + 1 < records || !self.d.one_in(3) {
                text.extend(b"\r\n");
            }
        }
        // A byte put in, changed or taken out.
        if self.d.one_in(8) && !text.is_empty() {
            let at = self.at(text.len());
            let byte = self.d.pick(b"\"\r\n, 019-+\x7F\x80\t");
            match self.d.below(3) {
                0 => text[at] = byte,
                1 => text.insert(at, byte),
                _ => drop(text.remove(at)),
            }
        }
        Call::SetTargets(text.leak())
    }

    /// Breaks one to three rules; of a frame 16 too.
    pub fn break_some(&mut self, s: &mut Study, call: &mut Call) {
        for _ in 0..1 + self.d.below(3) {
            let rule = if matches!(call, Call::Frame { .. }) && self.d.one_in(4) {
                16
            } else {
                1 + self.d.below(12)
            };
            self.break_rule(rule, s, call);
        }
    }

    /// Breaks the rule, where the study has something to break.
    pub fn break_rule(&mut self, rule: u64, s: &mut Study, call: &mut Call) {
        let (bodies, joints) = (s.body_count(), s.joint_count());
        match rule {
            1 => {
                let to = 129 + self.at(2);
                s.bodies.truncate(bodies * BODY);
                while s.bodies.len() < to * BODY {
                    let body = self.body(false);
                    s.bodies.extend(body);
                }
            }
            2 => {
                let to = 129 + self.at(2);
                s.words.truncate(joints * WORDS);
                s.numbers.truncate(joints * JOINT);
                let shape = self.shape();
                let masks = self.d.one_in(2);
                for j in joints..to {
                    let ends = self.ends(shape, bodies.min(128), j);
                    let (mut words, numbers) = self.joint(s, ends, false);
                    if masks {
                        words[2..6].fill(0);
                    }
                    s.words.extend(words);
                    s.numbers.extend(numbers);
                }
                if self.d.one_in(2) {
                    s.rows.resize(total(s) * ROW, 0.0);
                }
            }
            3 if joints > 0 => {
                let (mut j, mask) = (self.at(joints), self.at(4));
                let wide = self.wide_mask();
                if let Call::SetMasks { joint, masks } = call {
                    if self.d.one_in(2) {
                        masks[mask] = wide;
                        return;
                    }
                    // The very joint's, which the change would mend.
                    if (*joint as usize) < joints && self.d.one_in(2) {
                        j = *joint as usize;
                    }
                }
                s.words[j * WORDS + 2 + mask] = wide;
            }
            4 if joints > 0 => {
                let at = self.at(joints) * WORDS + self.at(2);
                let count = bodies as u32;
                let any = count.max(self.d.word() as u32 >> 1);
                s.words[at] = self.d.pick(&[count, count, count + 1, 128, WORLD - 1, any]);
            }
            5 if joints > 0 => {
                let at = self.at(joints) * WORDS;
                let twice = self.d.pick(&[s.words[at], s.words[at + 1], WORLD]);
                s.words[at] = twice;
                s.words[at + 1] = twice;
            }
            6 => self.break_six(s, call),
            7 => {
                s.settings[0] = self.d.pick(&[-1.0, -1.0e-40, -1.0e-45, -f32::MAX, -1.0 / 64.0]);
            }
            8 => {
                let whole = total(s) * ROW;
                if whole > 0 {
                    let any = self.at(whole);
                    let to = self
                        .d
                        .pick(&[whole - 1, whole - 1, whole - ROW, whole - ROW, 0, any]);
                    s.rows.truncate(to);
                }
            }
            9 => {
                let rounds = self.d.pick(&[65, 65, 66, 1000, 1001, u32::MAX]);
                match call {
                    Call::Frame { sweeps, .. } => *sweeps = rounds,
                    _ => *call = Call::Sweep(rounds),
                }
            }
            16 => {
                if let Call::Frame { substeps, .. } = call {
                    *substeps = self.d.pick(&[0, 0, 17, 17, 18, u32::MAX]);
                }
            }
            10 => {
                s.built = false;
                let joint = self.index(joints);
                *call = match self.d.below(7) {
                    0 => Call::WarmStart,
                    1 => self.sweep(),
                    2 => Call::RemoveBias,
                    3 => Call::WriteBack,
                    4 => Call::ReadRows(joint),
                    _ => Call::Build {
                        warm: true,
                        coefficient: studies::coefficient(&mut self.d),
                        substep: self.d.pick(&[1, 1, 2, 7, u32::MAX]),
                    },
                };
            }
            12 if joints > 0 => {
                let j = self.at(joints);
                s.words[j * WORDS + CHOICE] = self.angle_word();
                s.numbers[j * JOINT + 40] = self.d.pick(&LARGE);
                if self.d.one_in(2) {
                    s.numbers[j * JOINT + 41] = self.d.number();
                }
            }
            11 => {
                *call = match self.d.below(4) {
                    3 => Call::SetMasks {
                        joint: self.d.pick(&[joints as u32, joints as u32 + 1, WORLD]),
                        masks: studies::masks(self.d.below(4096) as u32),
                    },
                    0 => Call::ReadRows(self.d.pick(&[joints as u32, joints as u32 + 1, WORLD])),
                    1 => Call::ReadVelocity(self.d.pick(&[bodies as u32, WORLD, 200])),
                    _ => Call::Place {
                        body: self.d.pick(&[bodies as u32, bodies as u32 + 1, WORLD]),
                        pose: [1.0, 0.0, self.d.tame(), self.d.tame()],
                    },
                }
            }
            _ => {}
        }
    }

    fn break_six(&mut self, s: &mut Study, call: &mut Call) {
        let (inf, nan) = (f32::INFINITY, f32::NAN);
        let bad = self.d.pick(&[nan, inf, -inf]);
        match self.d.below(16) {
            0 => s.settings[self.d.below(3) as usize] = bad,
            1 | 2 | 3 if s.body_count() > 0 => {
                let at = self.at(s.body_count()) * BODY + self.at(7);
                s.bodies[at] = bad;
            }
            4 | 5 => match call {
                Call::Place { pose, .. } => pose[self.d.below(4) as usize] = bad,
                Call::Build {
                    warm, coefficient, ..
                }
                | Call::Frame {
                    warm, coefficient, ..
                } => {
                    *warm = true;
                    *coefficient = bad;
                }
                _ => {
                    *call = Call::Place {
                        body: self.index(s.body_count()),
                        pose: [1.0, 0.0, bad, 0.0],
                    }
                }
            },
            6 | 7 | 8 if s.joint_count() > 0 => {
                let at = self.at(s.joint_count()) * JOINT + self.d.pick(&NUMBER);
                s.numbers[at] = nan;
            }
            _ if s.joint_count() > 0 => {
                let at = self.at(s.joint_count()) * JOINT + self.d.pick(&FINITE);
                s.numbers[at] = bad;
            }
            _ => {}
        }
    }

    /// What a caller does to state or rows between calls.
    pub fn alter(&mut self, s: &mut Study) {
        let (bodies, joints) = (s.body_count(), s.joint_count());
        match self.d.below(18) {
            0 => s.built = !s.built,
            1 => s.rows = self.storage(total(s)),
            2 | 3 if !s.rows.is_empty() => {
                for _ in 0..1 + self.d.below(3) {
                    let at = self.at(s.rows.len());
                    s.rows[at] = self.d.number();
                }
            }
            4 | 5 | 6 if bodies > 0 => {
                for n in s.bodies.chunks_exact_mut(BODY) {
                    let velocity = self.velocity();
                    n[7..].copy_from_slice(&velocity);
                }
            }
            7 if bodies > 0 => {
                let at = self.at(bodies) * BODY;
                let body = self.body(false);
                s.bodies[at..at + BODY].copy_from_slice(&body);
            }
            8 | 9 if joints > 0 => {
                let j = self.at(joints);
                for k in 0..4 {
                    if self.d.one_in(2) {
                        s.words[j * WORDS + 2 + k] = self.d.below(8) as u32;
                    }
                }
                if self.d.one_in(2) {
                    s.words[j * WORDS + ENABLED] = self.enabled();
                }
                if self.d.one_in(2) {
                    let n = &mut s.numbers[j * JOINT..][..JOINT];
                    self.choose(&mut s.words[j * WORDS..][..WORDS], n);
                }
                if !self.d.one_in(4) {
                    let whole = total(s) * ROW;
                    if s.rows.len() < whole {
                        s.rows.resize(whole, 0.0);
                    }
                }
            }
            10 if joints > 0 => {
                let at = self.at(joints) * WORDS;
                let shape = self.shape();
                let ends = self.ends(shape, bodies, 0);
                s.words[at..at + 2].copy_from_slice(&ends);
            }
            11 if joints > 0 => {
                let at = self.at(joints) * JOINT;
                let k = self.at(JOINT);
                s.numbers[at + k] = if FINITE.contains(&k) {
                    self.d.finite()
                } else if NUMBER.contains(&k) {
                    self.d.pick(&[f32::INFINITY, f32::NEG_INFINITY, 0.0, 1.0])
                } else {
                    self.d.number()
                };
            }
            12 => s.settings = studies::settings(&mut self.d),
            13 if bodies > 0 => s.bodies.truncate((bodies - 1) * BODY),
            14 if joints > 0 => {
                s.words.truncate((joints - 1) * WORDS);
                s.numbers.truncate((joints - 1) * JOINT);
            }
            15 | 16 if joints > 0 => {
                for j in 0..joints {
                    if self.d.one_in(2) {
                        s.words[j * WORDS + FIRST] = self.first();
                    }
                }
            }
            _ => {
                let body = self.body(false);
                s.bodies.truncate(bodies * BODY);
                s.bodies.extend(body);
            }
        }
    }
}
