//! The library for Rust in space: include/katydidzinc_space.h's constants, and its calls as methods of a study that owns its slices, as katydidzinc.rs has them for the plane.

use crate::katydidzinc::*;

pub const MOST_ROWS: usize = 9;
pub const POSE_QW: usize = 3;
pub const POSE_X: usize = 4;
pub const POSE_Y: usize = 5;
pub const POSE_Z: usize = 6;
pub const BODY_WIDTH: usize = 22;
pub const POSE: usize = 0;
pub const INERTIA: usize = 7;
pub const MASS_X: usize = 13;
pub const VELOCITY: usize = 16;
pub const WORDS_WIDTH: usize = 10;
pub const BODY1: usize = 0;
pub const BODY2: usize = 1;
pub const LOCKED_AXES: usize = 2;
pub const LIMIT_AXES: usize = 3;
pub const MOTOR_AXES: usize = 4;
pub const LIN_X: u32 = 1;
pub const LIN_Y: u32 = 2;
pub const LIN_Z: u32 = 4;
pub const ANG_X: u32 = 8;
pub const ANG_Y: u32 = 16;
pub const ANG_Z: u32 = 32;
pub const ALL_AXES: u32 = 63;
pub const NUMBERS_WIDTH: usize = 49;
pub const FRAME1: usize = 0;
pub const FRAME2: usize = 7;
pub const LIMITS_X: usize = 14;
pub const MOTOR_X: usize = 23;
pub const MOTOR_Z: usize = 35;
pub const NATURAL_FREQUENCY: usize = 41;
pub const DAMPING_RATIO: usize = 42;
pub const ROW_WIDTH: usize = 29;
pub const ROW_IMPULSE: usize = 0;
pub const ROW_LIN_JAC: usize = 3;
pub const ROW_ANG_JAC1: usize = 6;
pub const ROW_ANG_JAC2: usize = 9;
pub const ID_LIMIT: u32 = 8;
pub const ID_MOTOR: u32 = 16;
pub const READ_NUMBERS: usize = 261;
pub const READ_IDS: usize = 9;
pub const VELOCITY_NUMBERS: usize = 6;

calls! {
    katydidzinc_space_load(*const f32, *const u32, *const f32, rows: *const f32, rows_len: usize);
    katydidzinc_space_place(*mut f32, *const u32, *const f32, body: u32, qx: f32, qy: f32, qz: f32, qw: f32, x: f32, y: f32, z: f32);
    katydidzinc_space_build(*const f32, *const u32, *const f32, rows: *mut f32, rows_len: usize, warm: u32, coefficient: f32, substep_id: u32);
    katydidzinc_space_warm_start(*mut f32, *const u32, *const f32, rows: *const f32, rows_len: usize);
    katydidzinc_space_sweep(*mut f32, *const u32, *const f32, rows: *mut f32, rows_len: usize, n: u32, counts: *mut u8, counts_len: usize);
    katydidzinc_space_remove_bias(*const f32, *const u32, *const f32, rows: *mut f32, rows_len: usize);
    katydidzinc_space_write_back(*const f32, *const u32, *mut f32, rows: *const f32, rows_len: usize);
    katydidzinc_space_read_rows(*const f32, *const u32, *const f32, rows: *const f32, rows_len: usize, joint: u32, out: *mut f32, out_len: usize, ids: *mut u32, ids_len: usize);
    katydidzinc_space_read_velocity(*const f32, *const u32, *const f32, body: u32, out: *mut f32, out_len: usize);
}

/// A model in space with its row storage and the mark, which load clears and build sets.
pub struct Study {
    pub dt: f32,
    pub length_unit: f32,
    pub normalized_max_corrective_velocity: f32,
    built: bool,
    pub bodies: Vec<f32>,
    pub words: Vec<u32>,
    pub numbers: Vec<f32>,
    pub rows: Vec<f32>,
}

/// The Rust's `set_limits`, of a joint's words and numbers: limits a linear axis, 0, 1 or 2.
pub fn set_limits(words: &mut [u32], numbers: &mut [f32], axis: usize, min: f32, max: f32) {
    words[LIMIT_AXES] |= 1 << axis;
    numbers[LIMITS_X + axis * LIMITS_WIDTH + LIMIT_MIN] = min;
    numbers[LIMITS_X + axis * LIMITS_WIDTH + LIMIT_MAX] = max;
}

/// What rows as read gave their two bodies: the impulse of the force, x, y, z, and that of the moment about the centre of mass, x, y, z, each. No proof stands behind these sums of f32, as one does behind a planar reaction.
pub fn reaction(rows: &[f32]) -> [[f32; 6]; 2] {
    let mut got = [[0.0; 6]; 2];
    for row in rows.chunks(ROW_WIDTH) {
        for i in 0..3 {
            let given = |at: usize| row[at + i] * row[ROW_IMPULSE];
            got[0][i] += given(ROW_LIN_JAC);
            got[0][3 + i] += given(ROW_ANG_JAC1);
            got[1][i] -= given(ROW_LIN_JAC);
            got[1][3 + i] -= given(ROW_ANG_JAC2);
        }
    }
    got
}

impl Study {
    /// With the Rust's defaults for the settings, and no body and no joint.
    pub fn new() -> Study {
        Study {
            dt: 1.0 / 60.0,
            length_unit: 1.0,
            normalized_max_corrective_velocity: 3.0,
            built: false,
            bodies: vec![],
            words: vec![],
            numbers: vec![],
            rows: vec![],
        }
    }

    /// One more body, at rest at the origin and moved by no impulse.
    pub fn body(&mut self) -> &mut [f32] {
        let at = self.bodies.len();
        self.bodies.resize(at + BODY_WIDTH, 0.0);
        self.bodies[at + POSE + POSE_QW] = 1.0;
        &mut self.bodies[at..]
    }

    /// One more joint, which makes no row, with room for its rows; its words and numbers.
    pub fn joint(&mut self, body1: u32, body2: u32) -> (&mut [u32], &mut [f32]) {
        let (words, numbers) = (self.words.len(), self.numbers.len());
        self.words.resize(words + WORDS_WIDTH, 0);
        self.numbers.resize(numbers + NUMBERS_WIDTH, 0.0);
        self.rows.resize(self.rows.len() + MOST_ROWS * ROW_WIDTH, 0.0);
        let (w, n) = (&mut self.words[words..], &mut self.numbers[numbers..]);
        (w[BODY1], w[BODY2]) = (body1, body2);
        (n[FRAME1 + POSE_QW], n[FRAME2 + POSE_QW]) = (1.0, 1.0);
        for axis in 0..3 {
            n[LIMITS_X + axis * LIMITS_WIDTH + LIMIT_MIN] = -f32::MAX;
            n[LIMITS_X + axis * LIMITS_WIDTH + LIMIT_MAX] = f32::MAX;
            n[MOTOR_X + axis * MOTOR_WIDTH + MOTOR_MAX_FORCE] = f32::MAX;
        }
        (n[NATURAL_FREQUENCY], n[DAMPING_RATIO]) = (1.0e6, 1.0);
        (w, n)
    }

    pub fn load(&mut self) -> Answer {
        let a = call!(self, katydidzinc_space_load, as_ptr, as_ptr, as_ptr, self.rows.as_ptr(), self.rows.len())?;
        self.built = false;
        Ok(a)
    }

    /// A new pose of a body: its rotation x, y, z, w, and its place.
    pub fn place(&mut self, body: u32, [qx, qy, qz, qw]: [f32; 4], [x, y, z]: [f32; 3]) -> Answer {
        call!(self, katydidzinc_space_place, as_mut_ptr, as_ptr, as_ptr, body, qx, qy, qz, qw, x, y, z)
    }

    pub fn build(&mut self, warm: Option<f32>, substep_id: u32) -> Answer {
        let coefficient = warm.unwrap_or(0.0);
        let a = call!(self, katydidzinc_space_build, as_ptr, as_ptr, as_ptr, self.rows.as_mut_ptr(), self.rows.len(), warm.is_some() as u32, coefficient, substep_id)?;
        self.built = true;
        Ok(a)
    }

    pub fn warm_start(&mut self) -> Answer {
        call!(self, katydidzinc_space_warm_start, as_mut_ptr, as_ptr, as_ptr, self.rows.as_ptr(), self.rows.len())
    }

    /// How many motors of each joint were at a bound in the last round.
    pub fn sweep(&mut self, n: u32) -> Result<[u8; MOST_JOINTS], Refused> {
        let mut counts = [0; MOST_JOINTS];
        call!(self, katydidzinc_space_sweep, as_mut_ptr, as_ptr, as_ptr, self.rows.as_mut_ptr(), self.rows.len(), n, counts.as_mut_ptr(), counts.len())?;
        Ok(counts)
    }

    pub fn remove_bias(&mut self) -> Answer {
        call!(self, katydidzinc_space_remove_bias, as_ptr, as_ptr, as_ptr, self.rows.as_mut_ptr(), self.rows.len())
    }

    pub fn write_back(&mut self) -> Answer {
        call!(self, katydidzinc_space_write_back, as_ptr, as_ptr, as_mut_ptr, self.rows.as_ptr(), self.rows.len())
    }

    /// A joint's rows and their ids, stored from the starts of `out` and `ids`; how many they are.
    pub fn read_rows(&self, joint: u32, out: &mut [f32], ids: &mut [u32]) -> Answer {
        let rows = (self.rows.as_ptr(), self.rows.len());
        call!(self, katydidzinc_space_read_rows, as_ptr, as_ptr, as_ptr, rows.0, rows.1, joint, out.as_mut_ptr(), out.len(), ids.as_mut_ptr(), ids.len())
    }

    /// A body's velocity: linear x, y, z, angular x, y, z.
    pub fn read_velocity(&self, body: u32) -> Result<[f32; VELOCITY_NUMBERS], Refused> {
        let mut v = [0.0; VELOCITY_NUMBERS];
        call!(self, katydidzinc_space_read_velocity, as_ptr, as_ptr, as_ptr, body, v.as_mut_ptr(), v.len())?;
        Ok(v)
    }
}
