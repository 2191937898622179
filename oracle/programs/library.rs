//! The functions on rows, as each side of a comparison has them, and one call of any of them.

use crate::rendering;
use rapier2d::pipeline::rows as ours;

#[derive(Copy, Clone, Debug, PartialEq, Eq)]
pub enum Function {
    CombineCoefficients,
    Spring,
    InvDt,
    MaxCorrectiveVelocity,
    MaxImpulse,
    AngularLimit,
    Build,
    Step,
    Warmstart,
    RemoveBias,
    Writeback,
    Finalize,
    Residual,
    Reaction,
}

pub type Call = crate::call::Call<Function>;
pub type Library = fn(&mut Call);

/// The call as a module of Rust functions makes it.
macro_rules! made_by(
    ($by: ident, $call: ident) => {{
        let (w, n, lent) = (&$call.words, &$call.numbers, &mut $call.lent);
        match $call.function {
            Function::CombineCoefficients => {
                lent.copy_from_slice(&$by::combine_coefficients(w[0], n[0], n[1], n[2]))
            }
            Function::Spring => lent.copy_from_slice(&$by::spring(n[0], n[1], n[2])),
            Function::InvDt => lent[0] = $by::inv_dt(n[0]),
            Function::MaxCorrectiveVelocity => {
                lent[0] = $by::max_corrective_velocity(n[0], n[1])
            }
            Function::MaxImpulse => lent[0] = $by::max_impulse(n[0], n[1]),
            Function::AngularLimit => {
                lent.copy_from_slice(&$by::angular_limit(n[0], n[1], n[2], n[3]))
            }
            Function::Build => $call.count = $by::build(w, n, lent, &mut $call.ids),
            Function::Step => {
                $call.count = $by::side(lent, &$call.vels);
                $by::step(lent, &mut $call.vels)
            }
            Function::Warmstart => $by::warmstart(lent, &mut $call.vels),
            Function::RemoveBias => $by::remove_bias(lent),
            Function::Writeback => $by::writeback(w[0], n[0], lent),
            Function::Finalize => $by::finalize(w[0] as usize, lent),
            Function::Residual => lent[0] = $by::residual(n, &$call.vels),
            Function::Reaction => {
                let (study, rows) = n.split_at(60);
                lent.copy_from_slice(&$by::reaction(&study[3..10], &study[10..17], &study[17..59], rows))
            }
        }
    }}
);

/// The published Rust.
pub fn oracle(call: &mut Call) {
    made_by!(ours, call)
}

/// The second rendering, with the fault that it carries.
pub fn rendered(call: &mut Call) {
    made_by!(rendering, call)
}

/// The Rattle library.
#[cfg(rattle)]
pub fn rattle(call: &mut Call) {
    exported::run(call)
}

#[cfg(rattle)]
mod exported {
    use super::{Call, Function};
    use crate::fenced::Fenced;

    unsafe extern "C" {
        fn katydidzinc_combine_coefficients(
            model: u32,
            dt: f32,
            stiffness: f32,
            damping: f32,
            out: *mut f32,
            outs: usize,
        );
        fn katydidzinc_spring(
            natural_frequency: f32,
            damping_ratio: f32,
            dt: f32,
            out: *mut f32,
            outs: usize,
        );
        fn katydidzinc_inv_dt(dt: f32) -> f32;
        fn katydidzinc_max_corrective_velocity(length_unit: f32, normalized: f32) -> f32;
        fn katydidzinc_max_impulse(max_force: f32, dt: f32) -> f32;
        fn katydidzinc_angular_limit(
            min: f32,
            max: f32,
            cos: f32,
            sin: f32,
            out: *mut f32,
            outs: usize,
        );
        fn katydidzinc_rows_build(
            words: *const u32,
            words_len: usize,
            numbers: *const f32,
            numbers_len: usize,
            rows: *mut f32,
            rows_len: usize,
            ids: *mut u32,
            ids_len: usize,
        ) -> usize;
        fn katydidzinc_rows_step(
            row: *mut f32,
            row_len: usize,
            vels: *mut f32,
            vels_len: usize,
        ) -> u32;
        fn katydidzinc_rows_warmstart(
            row: *mut f32,
            row_len: usize,
            vels: *mut f32,
            vels_len: usize,
        );
        fn katydidzinc_rows_remove_bias(row: *mut f32, row_len: usize);
        fn katydidzinc_rows_writeback(id: u32, impulse: f32, numbers: *mut f32, numbers_len: usize);
        fn katydidzinc_rows_finalize(n: usize, rows: *mut f32, rows_len: usize);
        fn katydidzinc_residual(
            bodies: *const f32,
            bodies_len: usize,
            words: *const u32,
            words_len: usize,
            joint: u32,
            rows: *const f32,
            rows_len: usize,
            k: u32,
        ) -> f32;
        fn katydidzinc_reaction(
            bodies: *const f32,
            bodies_len: usize,
            words: *const u32,
            words_len: usize,
            numbers: *const f32,
            numbers_len: usize,
            joint: u32,
            rows: *const f32,
            rows_len: usize,
            n: u32,
            out: *mut f32,
            out_len: usize,
        ) -> u64;
    }

    /// The words of a joint between bodies 0 and 1.
    const TIED: [u32; 12] = [0, 1, 0, 0, 0, 0, 0, 0, 0, 0, 0, 0];

    pub fn run(call: &mut Call) {
        let n = &call.numbers;
        let w = &call.words;
        let mut fenced = Fenced::new(&call.lent, 12345.678);
        let mut fenced_vels = Fenced::new(&call.vels, 12345.678);
        let mut fenced_ids = Fenced::new(&call.ids, 0xDEAD_BEEF);
        let (lent, lents) = fenced.place();
        let (vels, vels_len) = fenced_vels.place();
        let (ids, ids_len) = fenced_ids.place();
        unsafe {
            match call.function {
                Function::CombineCoefficients => {
                    katydidzinc_combine_coefficients(w[0], n[0], n[1], n[2], lent, lents)
                }
                Function::Spring => katydidzinc_spring(n[0], n[1], n[2], lent, lents),
                Function::InvDt => *lent = katydidzinc_inv_dt(n[0]),
                Function::MaxCorrectiveVelocity => {
                    *lent = katydidzinc_max_corrective_velocity(n[0], n[1])
                }
                Function::MaxImpulse => *lent = katydidzinc_max_impulse(n[0], n[1]),
                Function::AngularLimit => {
                    katydidzinc_angular_limit(n[0], n[1], n[2], n[3], lent, lents)
                }
                Function::Build => {
                    call.count = katydidzinc_rows_build(
                        w.as_ptr(),
                        w.len(),
                        n.as_ptr(),
                        n.len(),
                        lent,
                        lents,
                        ids,
                        ids_len,
                    )
                }
                Function::Step => {
                    call.count = katydidzinc_rows_step(lent, lents, vels, vels_len) as usize
                }
                Function::Warmstart => katydidzinc_rows_warmstart(lent, lents, vels, vels_len),
                Function::RemoveBias => katydidzinc_rows_remove_bias(lent, lents),
                Function::Writeback => katydidzinc_rows_writeback(w[0], n[0], lent, lents),
                Function::Finalize => katydidzinc_rows_finalize(w[0] as usize, lent, lents),
                Function::Residual => {
                    let none = [0.0; 7];
                    let bodies = [&none, &call.vels[..3], &none, &call.vels[3..]].concat();
                    *lent = katydidzinc_residual(
                        bodies.as_ptr(),
                        bodies.len(),
                        TIED.as_ptr(),
                        TIED.len(),
                        0,
                        n.as_ptr(),
                        n.len(),
                        0,
                    )
                }
                Function::Reaction => {
                    let none = [0.0; 3];
                    let bodies = [&n[3..10], &none, &n[10..17], &none].concat();
                    let (joint, rows) = (&n[17..59], &n[60..]);
                    call.count = katydidzinc_reaction(
                        bodies.as_ptr(),
                        bodies.len(),
                        TIED.as_ptr(),
                        TIED.len(),
                        joint.as_ptr(),
                        joint.len(),
                        0,
                        rows.as_ptr(),
                        rows.len(),
                        (rows.len() / 18) as u32,
                        lent,
                        lents,
                    ) as usize
                }
            }
        }
        call.outside = fenced.taken_back(&mut call.lent)
            | fenced_vels.taken_back(&mut call.vels)
            | fenced_ids.taken_back(&mut call.ids);
    }
}
