//! The library for Rust: include/katydidzinc.h's constants, and its calls as methods of a study that owns its slices. Slices that are owned and borrowed apart are
//! never NULL, misaligned or overlapping, so of the header's checks only that of the float mode is left.

use std::hint::black_box;

pub const WORLD: u32 = 4294967295;
pub const MOST_JOINTS: usize = 128;
pub const MOST_ROWS: usize = 6;
pub const POSE_RE: usize = 0;
pub const POSE_X: usize = 2;
pub const POSE_Y: usize = 3;
pub const BODY_WIDTH: usize = 10;
pub const POSE: usize = 0;
pub const INERTIA: usize = 4;
pub const MASS_X: usize = 5;
pub const MASS_Y: usize = 6;
pub const VELOCITY_X: usize = 7;
pub const WORDS_WIDTH: usize = 12;
pub const BODY1: usize = 0;
pub const BODY2: usize = 1;
pub const LOCKED_AXES: usize = 2;
pub const LIMIT_AXES: usize = 3;
pub const MOTOR_AXES: usize = 4;
pub const CENTER_CHOICE: usize = 10;
pub const LIN_X: u32 = 1;
pub const LIN_Y: u32 = 2;
pub const ANG_X: u32 = 4;
pub const CENTER_ANGLE: u32 = 1;
pub const NUMBERS_WIDTH: usize = 42;
pub const FRAME1: usize = 0;
pub const FRAME2: usize = 4;
pub const LIMITS_X: usize = 8;
pub const LIMITS_WIDTH: usize = 3;
pub const LIMIT_MIN: usize = 0;
pub const LIMIT_MAX: usize = 1;
pub const MOTOR_X: usize = 17;
pub const MOTOR_ANGULAR: usize = 29;
pub const MOTOR_WIDTH: usize = 6;
pub const MOTOR_TARGET_VEL: usize = 0;
pub const MOTOR_DAMPING: usize = 3;
pub const MOTOR_MAX_FORCE: usize = 4;
pub const NATURAL_FREQUENCY: usize = 35;
pub const DAMPING_RATIO: usize = 36;
pub const CENTER_RE: usize = 40;
pub const ROW_WIDTH: usize = 18;
pub const ROW_IMPULSE: usize = 0;
pub const ID_LIMIT: u32 = 4;
pub const ID_MOTOR: u32 = 8;
pub const READ_NUMBERS: usize = 108;
pub const READ_IDS: usize = 6;
pub const VELOCITY_NUMBERS: usize = 3;
pub const ROWS_GRANTED: u64 = 4294967296;
pub const SEEDED_GRANTED: u64 = 4294967296;
pub const SEEDED_SETTINGS: usize = 3;
pub const SEEDED_BODIES: usize = 80;
pub const SEEDED_WORDS: usize = 96;
pub const SEEDED_NUMBERS: usize = 336;
pub const SEEDED_ROWS: usize = 48;
pub const FLOAT_MODE: u64 = 1003;
pub const MICRO_OVER: i64 = 4294967296;
pub const MICRO_NAN: i64 = 8589934592;

/// Declares the calls: all take the settings, the mark and the model's three slices, each as pointer and length, and then what is listed.
macro_rules! calls {
    ($($name:ident($bodies:ty, $words:ty, $numbers:ty, $($argument:ident: $type:ty),*);)*) => {
        unsafe extern "C" {
            $(fn $name(
                dt: f32, length_unit: f32, normalized: f32, built: u32,
                bodies: $bodies, bodies_len: usize, words: $words, words_len: usize, numbers: $numbers, numbers_len: usize,
                $($argument: $type),*
            ) -> u64;)*
        }
    };
}

unsafe extern "C" {
    fn katydidzinc_micro_report(x: f32) -> i64;
    fn katydidzinc_seeded(
        seed: u32, settings: *mut f32, settings_len: usize,
        bodies: *mut f32, bodies_len: usize, words: *mut u32, words_len: usize, numbers: *mut f32, numbers_len: usize,
    ) -> u64;
}

calls! {
    katydidzinc_load(*const f32, *mut u32, *const f32, rows: *const f32, rows_len: usize);
    katydidzinc_set_masks(*const f32, *mut u32, *const f32, rows: *const f32, rows_len: usize, joint: u32, locked_axes: u32, limit_axes: u32, motor_axes: u32, coupled_axes: u32);
    katydidzinc_place(*mut f32, *const u32, *const f32, body: u32, re: f32, im: f32, x: f32, y: f32);
    katydidzinc_build(*const f32, *const u32, *const f32, rows: *mut f32, rows_len: usize, warm: u32, coefficient: f32, substep_id: u32);
    katydidzinc_warm_start(*mut f32, *const u32, *const f32, rows: *const f32, rows_len: usize);
    katydidzinc_sweep(*mut f32, *const u32, *const f32, rows: *mut f32, rows_len: usize, n: u32, counts: *mut u8, counts_len: usize);
    katydidzinc_remove_bias(*const f32, *const u32, *const f32, rows: *mut f32, rows_len: usize);
    katydidzinc_write_back(*const f32, *const u32, *mut f32, rows: *const f32, rows_len: usize);
    katydidzinc_read_rows(*const f32, *const u32, *const f32, rows: *const f32, rows_len: usize, joint: u32, out: *mut f32, out_len: usize, ids: *mut u32, ids_len: usize);
    katydidzinc_read_velocity(*const f32, *const u32, *const f32, body: u32, out: *mut f32, out_len: usize);
    katydidzinc_set_targets(*const f32, *const u32, *mut f32, table: *const u8, table_len: usize);
    katydidzinc_frame(*mut f32, *const u32, *mut f32, rows: *mut f32, rows_len: usize, warm: u32, coefficient: f32, sweeps: u32, n: u32, counts: *mut u8, counts_len: usize);
}

/// The number of the rule that refused a call; the header has its words.
#[derive(Clone, Copy, Debug, PartialEq, Eq)]
pub struct Refused(pub u64);

/// What a call answers: a number of rows, 0 where it has none to tell.
pub type Answer = Result<u32, Refused>;

pub fn answer(number: u64) -> Answer {
    match number {
        0 => Ok(0),
        ROWS_GRANTED.. => Ok((number - ROWS_GRANTED) as u32),
        _ => Err(Refused(number)),
    }
}

/// Whether the processor rounds to nearest and keeps subnormal numbers.
pub fn float_mode() -> bool {
    let [one, quarter, most, smallest, half] = black_box([1.0f32, 2.0f32.powi(-25), 3.0 * 2.0f32.powi(-25), f32::MIN_POSITIVE, 0.5]);
    let subnormal = black_box(smallest * half);
    one + quarter == one && -one - quarter == -one && one + most != one && subnormal != 0.0 && subnormal + subnormal == smallest
}

/// A number in millionths: whole, "over" or "nan".
pub fn millionths(x: f32) -> String {
    match unsafe { katydidzinc_micro_report(x) } {
        MICRO_OVER => "over".into(),
        MICRO_NAN => "nan".into(),
        n => n.to_string(),
    }
}

/// A model with its row storage and the mark, which load and a mask change clear, and build and frame set.
pub struct Study {
    pub dt: f32,
    pub length_unit: f32,
    pub normalized_max_corrective_velocity: f32,
    built: bool,
    pub bodies: Vec<f32>,
    pub words: Vec<u32>,
    pub numbers: Vec<f32>,
    pub rows: Vec<f32>,
}

/// A call on a study: `call!(self, name, [bodies], [words], [numbers], arguments)`, where a slice of the model is lent to be read or, as `mut`, to be written.
macro_rules! call {
    ($s:ident, $name:ident, $bodies:ident, $words:ident, $numbers:ident $(, $argument:expr)*) => {{
        if !float_mode() {
            return Err(Refused(FLOAT_MODE));
        }
        let (bodies, words, numbers) = ($s.bodies.$bodies(), $s.words.$words(), $s.numbers.$numbers());
        let settings = ($s.dt, $s.length_unit, $s.normalized_max_corrective_velocity, $s.built as u32);
        answer(unsafe {
            $name(
                settings.0, settings.1, settings.2, settings.3,
                bodies, $s.bodies.len(), words, $s.words.len(), numbers, $s.numbers.len() $(, $argument)*
            )
        })
    }};
}

/// For katydidzinc_space.rs too.
#[allow(unused_imports)]
pub(crate) use {call, calls};

/// The Rust's `set_limits`, of a joint's words and numbers: limits an axis, 0, 1 or 2. A centre of the angular limit that is not given is the middle of its ends, typed as an angle; where they are a
/// turn or more apart it stays.
pub fn set_limits(words: &mut [u32], numbers: &mut [f32], axis: usize, min: f32, max: f32) {
    words[LIMIT_AXES] |= 1 << axis;
    numbers[LIMITS_X + axis * LIMITS_WIDTH + LIMIT_MIN] = min;
    numbers[LIMITS_X + axis * LIMITS_WIDTH + LIMIT_MAX] = max;
    if axis == 2 && (max - min) * 0.5 < std::f32::consts::PI {
        words[CENTER_CHOICE] = CENTER_ANGLE;
        numbers[CENTER_RE] = (min + max) * 0.5;
    }
}

impl Study {
    /// With the Rust's defaults for the settings, and no body and no joint.
    pub fn new() -> Study {
        Study {
            dt: 1.0 / 60.0,
            length_unit: 1.0,
            normalized_max_corrective_velocity: 3.0,
            built: false,
            bodies: vec![],
            words: vec![],
            numbers: vec![],
            rows: vec![],
        }
    }

    /// The study that a seed draws, with storage for its rows: a load that others can repeat.
    pub fn seeded(seed: u32) -> Study {
        let mut settings = [0.0; SEEDED_SETTINGS];
        let (mut bodies, mut words, mut numbers) = (vec![0.0; SEEDED_BODIES], vec![0; SEEDED_WORDS], vec![0.0; SEEDED_NUMBERS]);
        let counts = unsafe {
            katydidzinc_seeded(
                seed, settings.as_mut_ptr(), SEEDED_SETTINGS,
                bodies.as_mut_ptr(), SEEDED_BODIES, words.as_mut_ptr(), SEEDED_WORDS, numbers.as_mut_ptr(), SEEDED_NUMBERS,
            )
        } - SEEDED_GRANTED;
        let (n, joints) = ((counts >> 16) as usize, (counts & 0xFFFF) as usize);
        bodies.truncate(n * BODY_WIDTH);
        words.truncate(joints * WORDS_WIDTH);
        numbers.truncate(joints * NUMBERS_WIDTH);
        let [dt, length_unit, normalized_max_corrective_velocity] = settings;
        Study { dt, length_unit, normalized_max_corrective_velocity, built: false, bodies, words, numbers, rows: vec![0.0; SEEDED_ROWS * ROW_WIDTH] }
    }

    /// One more body, at rest at the origin and moved by no impulse.
    pub fn body(&mut self) -> &mut [f32] {
        let at = self.bodies.len();
        self.bodies.resize(at + BODY_WIDTH, 0.0);
        self.bodies[at + POSE + POSE_RE] = 1.0;
        &mut self.bodies[at..]
    }

    /// One more joint, which makes no row, with room for its rows; its words and numbers.
    pub fn joint(&mut self, body1: u32, body2: u32) -> (&mut [u32], &mut [f32]) {
        let (words, numbers) = (self.words.len(), self.numbers.len());
        self.words.resize(words + WORDS_WIDTH, 0);
        self.numbers.resize(numbers + NUMBERS_WIDTH, 0.0);
        self.rows.resize(self.rows.len() + MOST_ROWS * ROW_WIDTH, 0.0);
        let (w, n) = (&mut self.words[words..], &mut self.numbers[numbers..]);
        (w[BODY1], w[BODY2]) = (body1, body2);
        (n[FRAME1 + POSE_RE], n[FRAME2 + POSE_RE]) = (1.0, 1.0);
        for axis in 0..3 {
            n[LIMITS_X + axis * LIMITS_WIDTH + LIMIT_MIN] = -f32::MAX;
            n[LIMITS_X + axis * LIMITS_WIDTH + LIMIT_MAX] = f32::MAX;
            n[MOTOR_X + axis * MOTOR_WIDTH + MOTOR_MAX_FORCE] = f32::MAX;
        }
        (n[NATURAL_FREQUENCY], n[DAMPING_RATIO], n[CENTER_RE]) = (1.0e6, 1.0, 1.0);
        (w, n)
    }

    pub fn load(&mut self) -> Answer {
        let a = call!(self, katydidzinc_load, as_ptr, as_mut_ptr, as_ptr, self.rows.as_ptr(), self.rows.len())?;
        self.built = false;
        Ok(a)
    }

    /// New masks of a joint: locked, limit, motor and coupled axes.
    pub fn set_masks(&mut self, joint: u32, [locked, limit, motor, coupled]: [u32; 4]) -> Answer {
        let rows = (self.rows.as_ptr(), self.rows.len());
        let a = call!(self, katydidzinc_set_masks, as_ptr, as_mut_ptr, as_ptr, rows.0, rows.1, joint, locked, limit, motor, coupled)?;
        self.built = false;
        Ok(a)
    }

    pub fn place(&mut self, body: u32, re: f32, im: f32, x: f32, y: f32) -> Answer {
        call!(self, katydidzinc_place, as_mut_ptr, as_ptr, as_ptr, body, re, im, x, y)
    }

    pub fn build(&mut self, warm: Option<f32>, substep_id: u32) -> Answer {
        let coefficient = warm.unwrap_or(0.0);
        let a = call!(self, katydidzinc_build, as_ptr, as_ptr, as_ptr, self.rows.as_mut_ptr(), self.rows.len(), warm.is_some() as u32, coefficient, substep_id)?;
        self.built = true;
        Ok(a)
    }

    pub fn warm_start(&mut self) -> Answer {
        call!(self, katydidzinc_warm_start, as_mut_ptr, as_ptr, as_ptr, self.rows.as_ptr(), self.rows.len())
    }

    /// How many motors of each joint were at a bound in the last round.
    pub fn sweep(&mut self, n: u32) -> Result<[u8; MOST_JOINTS], Refused> {
        let mut counts = [0; MOST_JOINTS];
        call!(self, katydidzinc_sweep, as_mut_ptr, as_ptr, as_ptr, self.rows.as_mut_ptr(), self.rows.len(), n, counts.as_mut_ptr(), counts.len())?;
        Ok(counts)
    }

    pub fn remove_bias(&mut self) -> Answer {
        call!(self, katydidzinc_remove_bias, as_ptr, as_ptr, as_ptr, self.rows.as_mut_ptr(), self.rows.len())
    }

    pub fn write_back(&mut self) -> Answer {
        call!(self, katydidzinc_write_back, as_ptr, as_ptr, as_mut_ptr, self.rows.as_ptr(), self.rows.len())
    }

    /// A joint's rows and their ids, stored from the starts of `out` and `ids`; how many they are.
    pub fn read_rows(&self, joint: u32, out: &mut [f32], ids: &mut [u32]) -> Answer {
        let rows = (self.rows.as_ptr(), self.rows.len());
        call!(self, katydidzinc_read_rows, as_ptr, as_ptr, as_ptr, rows.0, rows.1, joint, out.as_mut_ptr(), out.len(), ids.as_mut_ptr(), ids.len())
    }

    /// A body's velocity: x, y, angular.
    pub fn read_velocity(&self, body: u32) -> Result<[f32; VELOCITY_NUMBERS], Refused> {
        let mut v = [0.0; VELOCITY_NUMBERS];
        call!(self, katydidzinc_read_velocity, as_ptr, as_ptr, as_ptr, body, v.as_mut_ptr(), v.len())?;
        Ok(v)
    }

    /// A frame of n substeps, each with two sweeps of so many rounds; how many motors of each joint were at a bound in the last round.
    pub fn frame(&mut self, warm: Option<f32>, sweeps: u32, n: u32) -> Result<[u8; MOST_JOINTS], Refused> {
        let mut counts = [0; MOST_JOINTS];
        let coefficient = warm.unwrap_or(0.0);
        call!(self, katydidzinc_frame, as_mut_ptr, as_ptr, as_mut_ptr, self.rows.as_mut_ptr(), self.rows.len(), warm.is_some() as u32, coefficient, sweeps, n, counts.as_mut_ptr(), counts.len())?;
        self.built = true;
        Ok(counts)
    }

    /// The target velocities of a motor table's records.
    pub fn set_targets(&mut self, table: &[u8]) -> Answer {
        call!(self, katydidzinc_set_targets, as_ptr, as_ptr, as_mut_ptr, table.as_ptr(), table.len())
    }
}
