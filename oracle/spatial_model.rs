//! The model of several joints in space (request R-14): the refusals and the calls of document 01 here, the rows by the unchanged Rust.

use rapier3d::pipeline::model as rust;

pub const BODY: usize = 22;
/// Of a body's numbers rule 6 looks at so many; the others are its velocity.
pub const POSED: usize = 16;
pub const POSE: usize = 7;
pub const VELOCITY: usize = 6;
pub const WORDS: usize = 10;
/// Place of a joint's `JointEnabled` in its words.
pub const ENABLED: usize = 9;
pub const JOINT: usize = 49;
pub const ROW: usize = 29;
pub const MOST_ROWS: usize = 9;
pub const WORLD: u32 = u32::MAX;
/// As many joints as a model may have: so long is the lent array of a sweep's counts.
pub const MOST_JOINTS: usize = 128;
/// A sweep has at most so many rounds.
pub const MOST_ROUNDS: u32 = 64;

/// Places in a joint's numbers that rule 6 looks at: frames, softness and the motors' first four must be finite; limit ends and maximum forces may be
/// infinite. The other twelve are the stored impulses.
pub const FINITE: [usize; 28] = [
    0, 1, 2, 3, 4, 5, 6, 7, 8, 9, 10, 11, 12, 13, 23, 24, 25, 26, 29, 30, 31, 32, 35, 36, 37, 38,
    41, 42,
];
pub const NUMBER: [usize; 9] = [14, 15, 17, 18, 20, 21, 27, 33, 39];
pub const STORED: [usize; 12] = [16, 19, 22, 28, 34, 40, 43, 44, 45, 46, 47, 48];

/// Code of a call that grants a count: this plus the count.
pub const GRANTED: u64 = 1 << 32;

/// What a caller holds. The slices have any length: a body, joint or row is there if its record is there whole, a joint in words and numbers both.
#[derive(Clone)]
pub struct Study {
    /// dt, `length_unit`, `normalized_max_corrective_velocity`.
    pub settings: [f32; 3],
    pub built: bool,
    /// Rotation x, y, z, w; translation; inverse inertia m11, m12, m13, m22, m23, m33; inverse masses; velocity linear, angular.
    pub bodies: Vec<f32>,
    /// Body 1, body 2; locked, limit, motor and coupled mask; motor models of axes 0, 1, 2; `JointEnabled`.
    pub words: Vec<u32>,
    pub numbers: Vec<f32>,
    pub rows: Vec<f32>,
}

#[derive(Copy, Clone, Debug, PartialEq)]
pub enum Call {
    Load,
    /// Rotation x, y, z, w, then translation.
    Place {
        body: u32,
        pose: [f32; POSE],
    },
    /// The coefficient counts if `warm`.
    Build {
        warm: bool,
        coefficient: f32,
        substep: u32,
    },
    WarmStart,
    Sweep(u32),
    RemoveBias,
    WriteBack,
    ReadRows(u32),
    ReadVelocity(u32),
}

pub const KINDS: [&str; 9] = [
    "load",
    "place",
    "build",
    "warm start",
    "sweep",
    "bias removal",
    "write-back",
    "row read",
    "velocity read",
];

/// The refusals that a tally has columns for: none, then these.
pub const REFUSALS: [u64; 12] = [1, 2, 3, 17, 4, 5, 6, 7, 8, 9, 10, 11];

impl Call {
    /// Its place in `KINDS`.
    pub fn kind(&self) -> usize {
        match self {
            Call::Load => 0,
            Call::Place { .. } => 1,
            Call::Build { .. } => 2,
            Call::WarmStart => 3,
            Call::Sweep(_) => 4,
            Call::RemoveBias => 5,
            Call::WriteBack => 6,
            Call::ReadRows(_) => 7,
            Call::ReadVelocity(_) => 8,
        }
    }

    /// Whether the call is handed row storage.
    fn has_storage(&self) -> bool {
        !matches!(self, Call::Place { .. } | Call::ReadVelocity(_))
    }
}

/// What a call answers, and what it leaves in the storage that it is lent for its answer.
#[derive(Clone)]
pub struct Answer {
    /// The refusal's number; where it is granted, 0, or `GRANTED` plus the number of rows.
    pub code: u64,
    pub out: Vec<f32>,
    /// A row read's ids; a sweep's counts, zeros past the joints.
    pub ids: Vec<u32>,
    /// Whether something was written outside the lent storage.
    pub outside: bool,
}

impl Answer {
    /// No answer yet: the lent storage holds marks.
    pub fn none(call: &Call) -> Answer {
        let (out, ids) = match call {
            Call::ReadRows(_) => (MOST_ROWS * ROW, MOST_ROWS),
            Call::ReadVelocity(_) => (VELOCITY, 0),
            Call::Sweep(_) => (0, MOST_JOINTS),
            _ => (0, 0),
        };
        Answer {
            code: 0,
            out: vec![12345.678; out],
            ids: vec![0xDEAD_BEEF; ids],
            outside: false,
        }
    }

    pub fn granted(&self) -> bool {
        self.code == 0 || self.code >= GRANTED
    }
}

impl Study {
    pub fn body_count(&self) -> usize {
        self.bodies.len() / BODY
    }

    pub fn joint_count(&self) -> usize {
        (self.words.len() / WORDS).min(self.numbers.len() / JOINT)
    }

    pub fn row_capacity(&self) -> usize {
        self.rows.len() / ROW
    }

    /// Joint j's words.
    pub fn joint(&self, j: usize) -> &[u32] {
        &self.words[j * WORDS..][..WORDS]
    }

    fn joints(&self) -> impl Iterator<Item = (&[u32], &[f32])> {
        let numbers = self.numbers.chunks_exact(JOINT);
        self.words.chunks_exact(WORDS).zip(numbers)
    }

    /// The ids of joint j's rows. Its masks are legal ones.
    pub fn ids(&self, j: usize) -> Vec<u32> {
        rust::row_ids(self.joint(j))
    }

    /// Where joint j's rows begin; for the joint count, the total.
    pub fn first_row(&self, j: usize) -> usize {
        (0..j).map(|i| self.ids(i).len()).sum()
    }

    pub fn total(&self) -> usize {
        self.first_row(self.joint_count())
    }
}

/// Rules 1 to 8 and 17, one on the whole model before the next.
fn model_refusal(s: &Study, call: &Call) -> u64 {
    let bodies = s.body_count();
    if bodies > 128 {
        return 1;
    }
    if s.joint_count() > 128 {
        return 2;
    }
    if s.joints()
        .any(|(w, _)| w[2..6].iter().any(|mask| *mask > 63))
    {
        return 3;
    }
    let [limit, motor, coupled] = [3, 4, 5];
    if s.joints()
        .any(|(w, _)| w[coupled] != 0 || w[limit] > 7 || w[motor] > 7)
    {
        return 17;
    }
    let known = |body: u32| (body as usize) < bodies || body == WORLD;
    if s.joints().any(|(w, _)| !known(w[0]) || !known(w[1])) {
        return 4;
    }
    if s.joints().any(|(w, _)| w[0] == w[1]) {
        return 5;
    }
    let all_finite = |n: &[f32]| n.iter().all(|x| x.is_finite());
    let joint_ok = |n: &[f32]| {
        FINITE.iter().all(|i| n[*i].is_finite()) && NUMBER.iter().all(|i| !n[*i].is_nan())
    };
    let argument_ok = match call {
        Call::Place { pose, .. } => all_finite(pose),
        Call::Build {
            warm: true,
            coefficient,
            ..
        } => coefficient.is_finite(),
        _ => true,
    };
    if !(all_finite(&s.settings)
        && s.bodies.chunks_exact(BODY).all(|n| all_finite(&n[..POSED]))
        && s.joints().all(|(_, n)| joint_ok(n))
        && argument_ok)
    {
        return 6;
    }
    if s.settings[0] < 0.0 {
        return 7;
    }
    if call.has_storage() && s.row_capacity() < s.total() {
        return 8;
    }
    0
}

/// The first rule that refuses the call; 0 if none does.
pub fn refusal(s: &Study, call: &Call) -> u64 {
    let by_model = model_refusal(s, call);
    if by_model != 0 {
        return by_model;
    }
    if matches!(call, Call::Sweep(n) if *n > MOST_ROUNDS) {
        return 9;
    }
    let needs_built = match call {
        Call::Build { warm, substep, .. } => *warm && *substep > 0,
        Call::WarmStart
        | Call::Sweep(_)
        | Call::RemoveBias
        | Call::WriteBack
        | Call::ReadRows(_) => true,
        Call::Load | Call::Place { .. } | Call::ReadVelocity(_) => false,
    };
    if needs_built && !s.built {
        return 10;
    }
    let absent = match call {
        Call::Place { body, .. } | Call::ReadVelocity(body) => *body as usize >= s.body_count(),
        Call::ReadRows(joint) => *joint as usize >= s.joint_count(),
        _ => false,
    };
    if absent { 11 } else { 0 }
}

/// Makes the call; a refused one changes nothing.
pub fn call(s: &mut Study, call: &Call) -> Answer {
    let mut answer = Answer::none(call);
    answer.code = refusal(s, call);
    if answer.code != 0 {
        return answer;
    }
    let bodies = s.body_count() * BODY;
    let (words, numbers) = (s.joint_count() * WORDS, s.joint_count() * JOINT);
    match *call {
        Call::Load => s.built = false,
        Call::Place { body, pose } => {
            s.bodies[body as usize * BODY..][..POSE].copy_from_slice(&pose);
        }
        Call::Build {
            warm,
            coefficient,
            substep,
        } => {
            let total = rust::build(
                &s.settings,
                &s.bodies[..bodies],
                &s.words[..words],
                &s.numbers[..numbers],
                &mut s.rows,
                warm.then_some(coefficient),
                substep,
            );
            answer.code = GRANTED + total as u64;
            s.built = true;
        }
        Call::WarmStart => {
            rust::warmstart(&mut s.bodies[..bodies], &s.words[..words], &s.rows);
        }
        Call::Sweep(n) => {
            let counts = rust::solve(&mut s.bodies[..bodies], &s.words[..words], &mut s.rows, n);
            answer.ids.fill(0);
            answer.ids[..counts.len()].copy_from_slice(&counts);
        }
        Call::RemoveBias => rust::remove_bias(&s.words[..words], &mut s.rows),
        Call::WriteBack => {
            rust::writeback(&s.words[..words], &mut s.numbers[..numbers], &s.rows);
        }
        Call::ReadRows(joint) => {
            let ids = s.ids(joint as usize);
            let first = s.first_row(joint as usize) * ROW;
            let length = ids.len() * ROW;
            answer.out[..length].copy_from_slice(&s.rows[first..first + length]);
            answer.ids[..ids.len()].copy_from_slice(&ids);
            answer.code = GRANTED + ids.len() as u64;
        }
        Call::ReadVelocity(body) => {
            let of = &s.bodies[body as usize * BODY..][POSED..BODY];
            answer.out.copy_from_slice(of);
        }
    }
    answer
}
