//! The model of several joints from document 01: the refusals and the calls here, the rows by the
//! unchanged Rust.

use crate::motor_table_rendering as tables;
use crate::sines;
use rapier2d::pipeline::model as rust;

pub const BODY: usize = 10;
pub const WORDS: usize = 12;
/// Place of a joint's `JointEnabled` in its words.
pub const ENABLED: usize = 9;
/// Place of the word that says how the centre is typed: 0 by cosine and sine (numbers 40 and 41),
/// every other word by an angle (number 40).
pub const CHOICE: usize = 10;
/// Place of a joint's first row in its words, which granted loads and mask changes store. Nothing reads it.
pub const FIRST: usize = 11;
pub const JOINT: usize = 42;
pub const ROW: usize = 18;
pub const WORLD: u32 = u32::MAX;
/// As many joints as a model may have: so long is the lent array of a sweep's counts.
pub const MOST_JOINTS: usize = 128;
/// A sweep has at most so many rounds.
pub const MOST_ROUNDS: u32 = 64;
/// A frame has 1 to so many substeps.
pub const MOST_SUBSTEPS: u32 = 16;

/// Places in a joint's numbers that rule 6 looks at: frames, softness, centre and the motors'
/// first four must be finite; limit ends and maximum forces may be infinite. The other nine are
/// the stored impulses. Where the centre is typed as an angle, 41 is nobody's.
pub const FINITE: [usize; 24] = [
    0, 1, 2, 3, 4, 5, 6, 7, 17, 18, 19, 20, 23, 24, 25, 26, 29, 30, 31, 32, 35, 36, 40, 41,
];
pub const NUMBER: [usize; 9] = [8, 9, 11, 12, 14, 15, 21, 27, 33];

/// Place of axis 0's target velocity in a joint's numbers, and how many numbers a motor has.
pub const TARGET: usize = 17;
pub const MOTOR: usize = 6;

/// Code of a call that grants a count: this plus the count.
pub const GRANTED: u64 = 1 << 32;

/// What a caller holds. The slices have any length: a body, joint or row is there if its record
/// is there whole, a joint in words and numbers both.
#[derive(Clone)]
pub struct Study {
    /// dt, `length_unit`, `normalized_max_corrective_velocity`.
    pub settings: [f32; 3],
    pub built: bool,
    /// Pose re, im, x, y; inverse inertia; inverse mass x, y; velocity x, y, angular.
    pub bodies: Vec<f32>,
    /// Body 1, body 2; locked, limit, motor and coupled mask; motor models of axes 0, 1, 2;
    /// `JointEnabled`; how the centre is typed; first row.
    pub words: Vec<u32>,
    pub numbers: Vec<f32>,
    pub rows: Vec<f32>,
}

#[derive(Copy, Clone, Debug, PartialEq)]
pub enum Call {
    Load,
    Place {
        body: u32,
        pose: [f32; 4],
    },
    /// The coefficient counts if `warm`.
    Build {
        warm: bool,
        coefficient: f32,
        substep: u32,
    },
    WarmStart,
    Sweep(u32),
    RemoveBias,
    WriteBack,
    ReadRows(u32),
    ReadVelocity(u32),
    /// The bytes of a motor table.
    SetTargets(&'static [u8]),
    /// Locked, limit, motor and coupled mask.
    SetMasks {
        joint: u32,
        masks: [u32; 4],
    },
    /// The coefficient counts if `warm`; both sweeps of a substep have `sweeps` rounds.
    Frame {
        warm: bool,
        coefficient: f32,
        sweeps: u32,
        substeps: u32,
    },
}

pub const KINDS: [&str; 12] = [
    "load",
    "place",
    "build",
    "warm start",
    "sweep",
    "bias removal",
    "write-back",
    "row read",
    "velocity read",
    "motor table",
    "mask change",
    "frame",
];

/// The refusals that a tally has columns for: none, then 1 to 16.
pub const COLUMNS: usize = 17;

impl Call {
    /// Its place in `KINDS`.
    pub fn kind(&self) -> usize {
        match self {
            Call::Load => 0,
            Call::Place { .. } => 1,
            Call::Build { .. } => 2,
            Call::WarmStart => 3,
            Call::Sweep(_) => 4,
            Call::RemoveBias => 5,
            Call::WriteBack => 6,
            Call::ReadRows(_) => 7,
            Call::ReadVelocity(_) => 8,
            Call::SetTargets(_) => 9,
            Call::SetMasks { .. } => 10,
            Call::Frame { .. } => 11,
        }
    }

    /// Whether the call is handed row storage.
    pub fn has_storage(&self) -> bool {
        !matches!(
            self,
            Call::Place { .. } | Call::ReadVelocity(_) | Call::SetTargets(_)
        )
    }
}

/// What a call answers, and what it leaves in the storage that it is lent for its answer.
#[derive(Clone)]
pub struct Answer {
    /// The refusal's number; where it is granted, 0, or `GRANTED` plus the number of rows.
    pub code: u64,
    pub out: Vec<f32>,
    /// A row read's ids; a sweep's or a frame's counts, zeros past the joints.
    pub ids: Vec<u32>,
    /// Whether something was written outside the lent storage.
    pub outside: bool,
}

impl Answer {
    /// No answer yet: the lent storage holds marks.
    pub fn none(call: &Call) -> Answer {
        let (out, ids) = match call {
            Call::ReadRows(_) => (6 * ROW, 6),
            Call::ReadVelocity(_) => (3, 0),
            Call::Sweep(_) | Call::Frame { .. } => (0, MOST_JOINTS),
            _ => (0, 0),
        };
        Answer {
            code: 0,
            out: vec![12345.678; out],
            ids: vec![0xDEAD_BEEF; ids],
            outside: false,
        }
    }

    pub fn granted(&self) -> bool {
        self.code == 0 || self.code >= GRANTED
    }
}

impl Study {
    pub fn body_count(&self) -> usize {
        self.bodies.len() / BODY
    }

    pub fn joint_count(&self) -> usize {
        (self.words.len() / WORDS).min(self.numbers.len() / JOINT)
    }

    pub fn row_capacity(&self) -> usize {
        self.rows.len() / ROW
    }

    /// Joint j's words.
    pub fn joint(&self, j: usize) -> &[u32] {
        &self.words[j * WORDS..][..WORDS]
    }

    fn joints(&self) -> impl Iterator<Item = (&[u32], &[f32])> {
        self.words
            .chunks_exact(WORDS)
            .zip(self.numbers.chunks_exact(JOINT))
    }

    /// The ids of joint j's rows. Its masks are at most 7.
    pub fn ids(&self, j: usize) -> Vec<u32> {
        rust::row_ids(self.joint(j))
    }

    /// Where joint j's rows begin; for the joint count, the total.
    pub fn first_row(&self, j: usize) -> usize {
        (0..j).map(|i| self.ids(i).len()).sum()
    }

    pub fn total(&self) -> usize {
        self.first_row(self.joint_count())
    }

    /// The total that rule 8 asks for: once a mask change is made, where its joint is there.
    fn needed(&self, call: &Call) -> usize {
        let Call::SetMasks { joint, masks } = call else {
            return self.total();
        };
        let mut after = self.clone();
        after.put_masks(*joint, masks);
        after.total()
    }

    fn put_masks(&mut self, joint: u32, masks: &[u32; 4]) {
        if (joint as usize) < self.joint_count() {
            self.words[joint as usize * WORDS + 2..][..4].copy_from_slice(masks);
        }
    }

    fn store_first_rows(&mut self) {
        let mut first = 0;
        for j in 0..self.joint_count() {
            self.words[j * WORDS + FIRST] = first;
            first += self.ids(j).len() as u32;
        }
    }
}

/// Whether rule 6 and the rows read number i of a joint with these words.
pub fn has_number(w: &[u32], i: usize) -> bool {
    i != 41 || w[CHOICE] == 0
}

/// The joints' numbers with the pair of each typed angle in its place, as the Rust gets them.
fn paired(words: &[u32], numbers: &[f32]) -> Vec<f32> {
    let mut all = numbers.to_vec();
    for (w, n) in words.chunks_exact(WORDS).zip(all.chunks_exact_mut(JOINT)) {
        if w[CHOICE] != 0 {
            let pair = sines::pair(n[40]);
            n[40..].copy_from_slice(&pair);
        }
    }
    all
}

/// Rules 1 to 8 and 12, one on the whole model before the next.
fn model_refusal(s: &Study, call: &Call) -> u64 {
    let bodies = s.body_count();
    if bodies > 128 {
        return 1;
    }
    if s.joint_count() > 128 {
        return 2;
    }
    let new_masks: &[u32] = match call {
        Call::SetMasks { masks, .. } => masks,
        _ => &[],
    };
    let too_wide = |masks: &[u32]| masks.iter().any(|mask| *mask > 7);
    if s.joints().any(|(w, _)| too_wide(&w[2..6])) || too_wide(new_masks) {
        return 3;
    }
    let known = |body: u32| (body as usize) < bodies || body == WORLD;
    if s.joints().any(|(w, _)| !known(w[0]) || !known(w[1])) {
        return 4;
    }
    if s.joints().any(|(w, _)| w[0] == w[1]) {
        return 5;
    }
    let all_finite = |n: &[f32]| n.iter().all(|x| x.is_finite());
    let body_ok = |n: &[f32]| all_finite(&n[..7]);
    let joint_ok = |w: &[u32], n: &[f32]| {
        let own = |i: &&usize| has_number(w, **i);
        FINITE.iter().filter(own).all(|i| n[*i].is_finite())
            && NUMBER.iter().all(|i| !n[*i].is_nan())
    };
    let argument_ok = match call {
        Call::Place { pose, .. } => all_finite(pose),
        Call::Build {
            warm: true,
            coefficient,
            ..
        }
        | Call::Frame {
            warm: true,
            coefficient,
            ..
        } => coefficient.is_finite(),
        _ => true,
    };
    if !(all_finite(&s.settings)
        && s.bodies.chunks_exact(BODY).all(body_ok)
        && s.joints().all(|(w, n)| joint_ok(w, n))
        && argument_ok)
    {
        return 6;
    }
    if s.joints()
        .any(|(w, n)| w[CHOICE] != 0 && sines::too_large(n[40]))
    {
        return 12;
    }
    if s.settings[0] < 0.0 {
        return 7;
    }
    if call.has_storage() && s.row_capacity() < s.needed(call) {
        return 8;
    }
    0
}

/// The first rule that refuses the call; 0 if none does. A frame may still meet a pose that is not finite.
pub fn refusal(s: &Study, call: &Call) -> u64 {
    let by_model = model_refusal(s, call);
    if by_model != 0 {
        return by_model;
    }
    let rounds = match call {
        Call::Sweep(n) => *n,
        Call::Frame { sweeps, .. } => *sweeps,
        _ => 0,
    };
    if rounds > MOST_ROUNDS {
        return 9;
    }
    if matches!(call, Call::Frame { substeps, .. } if !(1..=MOST_SUBSTEPS).contains(substeps)) {
        return 16;
    }
    let needs_built = match call {
        Call::Build { warm, substep, .. } => *warm && *substep > 0,
        Call::WarmStart
        | Call::Sweep(_)
        | Call::RemoveBias
        | Call::WriteBack
        | Call::ReadRows(_) => true,
        Call::Load
        | Call::Place { .. }
        | Call::ReadVelocity(_)
        | Call::SetTargets(_)
        | Call::SetMasks { .. }
        | Call::Frame { .. } => false,
    };
    if needs_built && !s.built {
        return 10;
    }
    let absent = match call {
        Call::Place { body, .. } | Call::ReadVelocity(body) => *body as usize >= s.body_count(),
        Call::ReadRows(joint) | Call::SetMasks { joint, .. } => {
            *joint as usize >= s.joint_count()
        }
        _ => false,
    };
    if absent {
        return 11;
    }
    match call {
        Call::SetTargets(table) => table_refusal(table, s.joint_count()),
        _ => 0,
    }
}

/// With which number a model of so many joints refuses a table; 0 if it does not.
pub fn table_refusal(table: &[u8], joints: usize) -> u64 {
    tables::read(table, joints as u32).map_or_else(u64::from, |_| 0)
}

/// The substeps of a frame that no rule refuses, and its write-back; the last sweep's counts. In which substep it meets a pose
/// that is not finite, where it does: all is then to be put back.
fn frame(s: &mut Study, warm: Option<f32>, sweeps: u32, substeps: u32) -> Result<Vec<u32>, u32> {
    let (words, numbers) = (s.joint_count() * WORDS, s.joint_count() * JOINT);
    let bodies = s.body_count() * BODY;
    let (bodies, words) = (&mut s.bodies[..bodies], &s.words[..words]);
    let numbers = &mut s.numbers[..numbers];
    let seeds = paired(words, numbers);
    let [dt, length_unit, normalized] = s.settings;
    let h = dt / substeps as f32;
    let settings = [h, length_unit, normalized];
    let mut counts = Vec::new();
    for substep in 0..substeps {
        rust::build(&settings, bodies, words, &seeds, &mut s.rows, warm, substep);
        rust::warmstart(bodies, words, &s.rows);
        rust::solve(bodies, words, &mut s.rows, sweeps);
        if !rust::advance(bodies, h) {
            return Err(substep);
        }
        rust::remove_bias(words, &mut s.rows);
        counts = rust::solve(bodies, words, &mut s.rows, sweeps);
    }
    rust::writeback(words, numbers, &s.rows);
    s.built = true;
    Ok(counts)
}

/// In which substep the frame meets a pose that is not finite; none where a rule before refuses it, or nothing.
pub fn stopped_in(s: &Study, call: &Call) -> Option<u32> {
    match *call {
        Call::Frame {
            warm,
            coefficient,
            sweeps,
            substeps,
        } if refusal(s, call) == 0 => {
            frame(&mut s.clone(), warm.then_some(coefficient), sweeps, substeps).err()
        }
        _ => None,
    }
}

/// Makes the call; a refused one changes nothing.
pub fn call(s: &mut Study, call: &Call) -> Answer {
    let mut answer = Answer::none(call);
    answer.code = refusal(s, call);
    if answer.code != 0 {
        return answer;
    }
    let bodies = s.body_count() * BODY;
    let (words, numbers) = (s.joint_count() * WORDS, s.joint_count() * JOINT);
    match *call {
        Call::Load => {
            s.store_first_rows();
            s.built = false;
        }
        Call::Place { body, pose } => {
            s.bodies[body as usize * BODY..][..4].copy_from_slice(&pose);
        }
        Call::Build {
            warm,
            coefficient,
            substep,
        } => {
            let total = rust::build(
                &s.settings,
                &s.bodies[..bodies],
                &s.words[..words],
                &paired(&s.words[..words], &s.numbers[..numbers]),
                &mut s.rows,
                warm.then_some(coefficient),
                substep,
            );
            answer.code = GRANTED + total as u64;
            s.built = true;
        }
        Call::WarmStart => {
            rust::warmstart(&mut s.bodies[..bodies], &s.words[..words], &s.rows);
        }
        Call::Sweep(n) => {
            let counts = rust::solve(&mut s.bodies[..bodies], &s.words[..words], &mut s.rows, n);
            answer.ids.fill(0);
            answer.ids[..counts.len()].copy_from_slice(&counts);
        }
        Call::RemoveBias => rust::remove_bias(&s.words[..words], &mut s.rows),
        Call::WriteBack => {
            rust::writeback(&s.words[..words], &mut s.numbers[..numbers], &s.rows);
        }
        Call::ReadRows(joint) => {
            let ids = s.ids(joint as usize);
            let first = s.first_row(joint as usize) * ROW;
            let length = ids.len() * ROW;
            answer.out[..length].copy_from_slice(&s.rows[first..first + length]);
            answer.ids[..ids.len()].copy_from_slice(&ids);
            answer.code = GRANTED + ids.len() as u64;
        }
        Call::ReadVelocity(body) => {
            answer
                .out
                .copy_from_slice(&s.bodies[body as usize * BODY + 7..][..3]);
        }
        Call::SetTargets(table) => {
            for ((joint, axis, thousandths), _) in tables::read(table, s.joint_count() as u32).unwrap() {
                let at = joint as usize * JOINT + TARGET + axis as usize * MOTOR;
                s.numbers[at] = tables::target(thousandths);
            }
        }
        Call::SetMasks { joint, masks } => {
            s.put_masks(joint, &masks);
            s.store_first_rows();
            s.built = false;
        }
        Call::Frame {
            warm,
            coefficient,
            sweeps,
            substeps,
        } => {
            let mut after = s.clone();
            match frame(&mut after, warm.then_some(coefficient), sweeps, substeps) {
                Ok(counts) => {
                    *s = after;
                    answer.ids.fill(0);
                    answer.ids[..counts.len()].copy_from_slice(&counts);
                }
                Err(_) => answer.code = 6,
            }
        }
    }
    answer
}
