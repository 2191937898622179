//! The functions on rows in space, as each side of a comparison has them.

use crate::spatial_rendering;
use rapier3d::pipeline::rows as ours;
use rapier3d_own::pipeline::rows as with_own_derivative;

#[derive(Copy, Clone, Debug, PartialEq, Eq)]
pub enum Function {
    Build,
    Step,
    Warmstart,
    RemoveBias,
    Writeback,
    Finalize,
}

pub type Call = crate::call::Call<Function>;
pub type Library = fn(&mut Call);

/// The call as a module of Rust functions makes it.
macro_rules! made_by(
    ($by: ident, $call: ident) => {{
        let (w, n, lent) = (&$call.words, &$call.numbers, &mut $call.lent);
        match $call.function {
            Function::Build => $call.count = $by::build(w, n, lent, &mut $call.ids),
            Function::Step => {
                $call.count = $by::side(lent, &$call.vels);
                $by::step(lent, &mut $call.vels)
            }
            Function::Warmstart => $by::warmstart(lent, &mut $call.vels),
            Function::RemoveBias => $by::remove_bias(lent),
            Function::Writeback => $by::writeback(w[0], n[0], lent),
            Function::Finalize => $by::finalize(w[0] as usize, lent),
        }
    }}
);

/// The published Rust, with the derivative in request R-14's words.
pub fn oracle(call: &mut Call) {
    made_by!(ours, call)
}

/// The published Rust, with the derivative as rotation_ops.rs has it.
pub fn own(call: &mut Call) {
    made_by!(with_own_derivative, call)
}

/// The second rendering, with the fault that it carries.
pub fn rendered(call: &mut Call) {
    made_by!(spatial_rendering, call)
}

/// The Rattle library.
#[cfg(rattle)]
pub fn rattle(call: &mut Call) {
    exported::run(call)
}

/// The library's functions on rows: structs of floats by value, as C passes them, and a joint's words and numbers as slices.
#[cfg(rattle)]
mod exported {
    use super::{Call, Function};
    use crate::fenced::Fenced;
    use rapier3d::pipeline::records::ROW;

    /// A row is 29 numbers, a velocity six, two of them twelve, a body sixteen, and nine last impulses are nine.
    #[repr(C)]
    #[derive(Copy, Clone)]
    struct Numbers<const N: usize>([f32; N]);

    fn numbers<const N: usize>(x: &[f32], from: usize) -> Numbers<N> {
        Numbers(std::array::from_fn(|i| x[from + i]))
    }

    #[repr(C)]
    struct Stepped {
        row: Numbers<ROW>,
        vels: Numbers<12>,
        side: u32,
    }

    #[repr(C)]
    struct Rows {
        rows: [Numbers<ROW>; 9],
        len: usize,
    }

    unsafe extern "C" {
        fn katydidzinc_space_rows_build(
            words: *const u32,
            words_len: usize,
            numbers: *const f32,
            numbers_len: usize,
            dt: f32,
            length_unit: f32,
            normalized: f32,
            warm: u32,
            coefficient: f32,
            substep_id: u32,
            body1: Numbers<16>,
            body2: Numbers<16>,
            prevs: Numbers<9>,
        ) -> Rows;
        safe fn katydidzinc_space_row_id(
            locked_axes: u32,
            limit_axes: u32,
            motor_axes: u32,
            coupled_axes: u32,
            k: usize,
        ) -> u32;
        safe fn katydidzinc_space_rows_step(
            row: Numbers<ROW>,
            vel1: Numbers<6>,
            vel2: Numbers<6>,
        ) -> Stepped;
        safe fn katydidzinc_space_rows_warmstart(
            row: Numbers<ROW>,
            vel1: Numbers<6>,
            vel2: Numbers<6>,
        ) -> Numbers<12>;
        safe fn katydidzinc_space_rows_remove_bias(row: Numbers<ROW>) -> Numbers<ROW>;
        safe fn katydidzinc_space_rows_finalize(rows: Rows) -> Rows;
        fn katydidzinc_space_rows_writeback(
            id: u32,
            impulse: f32,
            numbers: *mut f32,
            numbers_len: usize,
        );
    }

    /// The first rows of those that came back, in their place; the rest stays.
    fn stored(lent: &mut [f32], made: &Rows, count: usize) {
        for (place, row) in lent.chunks_exact_mut(ROW).zip(&made.rows).take(count) {
            place.copy_from_slice(&row.0);
        }
    }

    pub fn run(call: &mut Call) {
        let (w, n) = (&call.words, &call.numbers);
        let (lent, vels) = (&mut call.lent, &mut call.vels);
        match call.function {
            Function::Build => {
                // A model's words of the joint: its two bodies, masks, motor models, and that it is enabled.
                let words = [0, 1, w[0], w[1], w[2], w[3], w[4], w[5], w[6], 0];
                let joint = &n[35..84];
                let prevs = Numbers(std::array::from_fn(|k| lent[k * ROW]));
                let made = unsafe {
                    katydidzinc_space_rows_build(
                        words.as_ptr(),
                        words.len(),
                        joint.as_ptr(),
                        joint.len(),
                        n[0],
                        n[1],
                        n[2],
                        w[7],
                        n[84],
                        w[8],
                        numbers(n, 3),
                        numbers(n, 19),
                        prevs,
                    )
                };
                call.count = made.len;
                stored(lent, &made, made.len);
                for (k, id) in call.ids.iter_mut().enumerate().take(made.len) {
                    *id = katydidzinc_space_row_id(w[0], w[1], w[2], w[3], k);
                }
            }
            Function::Step => {
                let done = katydidzinc_space_rows_step(
                    numbers(lent, 0),
                    numbers(vels, 0),
                    numbers(vels, 6),
                );
                call.count = done.side as usize;
                lent.copy_from_slice(&done.row.0);
                vels.copy_from_slice(&done.vels.0);
            }
            Function::Warmstart => {
                let done = katydidzinc_space_rows_warmstart(
                    numbers(lent, 0),
                    numbers(vels, 0),
                    numbers(vels, 6),
                );
                vels.copy_from_slice(&done.0);
            }
            Function::RemoveBias => {
                let done = katydidzinc_space_rows_remove_bias(numbers(lent, 0));
                lent.copy_from_slice(&done.0);
            }
            Function::Writeback => {
                let mut fenced = Fenced::new(lent, 12345.678);
                let (place, length) = fenced.place();
                unsafe { katydidzinc_space_rows_writeback(w[0], n[0], place, length) }
                call.outside = fenced.taken_back(lent);
            }
            Function::Finalize => {
                let rows = Rows {
                    rows: std::array::from_fn(|k| numbers(lent, k * ROW)),
                    len: w[0] as usize,
                };
                let done = katydidzinc_space_rows_finalize(rows);
                stored(lent, &done, 9);
            }
        }
    }
}
