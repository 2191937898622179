//! The calls on a model in space as each side of a comparison makes them.

use crate::bits::bits;
use crate::spatial_model::{self, Answer, Call, Study};
use crate::spatial_model_rendering;

/// Makes a call on a study; the mark is the side's too.
pub type Side = fn(&mut Study, &Call) -> Answer;

/// The model over the published Rust.
pub const ORACLE: Side = spatial_model::call;

/// The second rendering, with the fault that it carries.
pub const RENDERING: Side = spatial_model_rendering::call;

/// The Rattle library.
#[cfg(rattle)]
pub const RATTLE: Option<Side> = Some(exported::call);
#[cfg(not(rattle))]
pub const RATTLE: Option<Side> = None;

#[cfg(rattle)]
pub use exported::call_lent as rattle_lent;

/// A call of a step by the Rattle library on the study's own storage, with no guards about it; its code.
#[cfg(rattle)]
pub use exported::direct;

/// The sides that are there.
pub fn sides() -> Vec<(&'static str, Side)> {
    let mut all = vec![("the oracle", ORACLE), ("the second rendering", RENDERING)];
    all.extend(RATTLE.map(|side| ("the Rattle library", side)));
    all
}

/// In bits with all NaNs as one.
pub fn same(a: &[f32], b: &[f32]) -> bool {
    a.len() == b.len() && a.iter().zip(b).all(|(x, y)| bits(*x) == bits(*y))
}

pub fn same_answer(a: &Answer, b: &Answer) -> bool {
    a.code == b.code && a.ids == b.ids && a.outside == b.outside && same(&a.out, &b.out)
}

pub fn same_study(a: &Study, b: &Study) -> bool {
    a.built == b.built
        && a.words == b.words
        && same(&a.settings, &b.settings)
        && same(&a.bodies, &b.bodies)
        && same(&a.numbers, &b.numbers)
        && same(&a.rows, &b.rows)
}

#[cfg(rattle)]
mod exported {
    use crate::fenced::Fenced;
    use crate::spatial_model::{Answer, Call, Study};

    /// A function with the header and the slices that every call is handed, then arguments of its own.
    macro_rules! exported(
        ($($name: ident($($argument: ident: $type: ty),*);)*) => {
            unsafe extern "C" {
                $(fn $name(
                    dt: f32,
                    length_unit: f32,
                    normalized: f32,
                    built: u32,
                    bodies: *mut f32,
                    bodies_len: usize,
                    words: *const u32,
                    words_len: usize,
                    numbers: *mut f32,
                    numbers_len: usize,
                    $($argument: $type),*
                ) -> u64;)*
            }
        }
    );
    exported!(
        katydidzinc_space_load(rows: *const f32, rows_len: usize);
        katydidzinc_space_place(body: u32, qx: f32, qy: f32, qz: f32, qw: f32, x: f32, y: f32, z: f32);
        katydidzinc_space_build(rows: *mut f32, rows_len: usize, warm: u32, coefficient: f32, substep_id: u32);
        katydidzinc_space_warm_start(rows: *const f32, rows_len: usize);
        katydidzinc_space_sweep(rows: *mut f32, rows_len: usize, n: u32, counts: *mut u8, counts_len: usize);
        katydidzinc_space_remove_bias(rows: *mut f32, rows_len: usize);
        katydidzinc_space_write_back(rows: *const f32, rows_len: usize);
        katydidzinc_space_read_rows(rows: *const f32, rows_len: usize, joint: u32, out: *mut f32, out_len: usize, ids: *mut u32, ids_len: usize);
        katydidzinc_space_read_velocity(body: u32, out: *mut f32, out_len: usize);
    );

    pub fn call(s: &mut Study, call: &Call) -> Answer {
        call_lent(s, call, Answer::none(call))
    }

    /// The call with the storage that `answer` has. The mark follows from the answer: a granted load clears it, a granted build sets it.
    pub fn call_lent(s: &mut Study, call: &Call, mut answer: Answer) -> Answer {
        let mut bodies_in = Fenced::new(&s.bodies, 12345.678);
        let mut words_in = Fenced::new(&s.words, 0xDEAD_BEEF);
        let mut numbers_in = Fenced::new(&s.numbers, 12345.678);
        let mut rows_in = Fenced::new(&s.rows, 12345.678);
        let mut out_in = Fenced::new(&answer.out, 12345.678);
        let mut ids_in = Fenced::new(&answer.ids, 0xDEAD_BEEF);
        let mut counts = vec![0xEFu8; answer.ids.len()];
        let mut counts_in = Fenced::new(&counts, 0xAD);
        let (b, bs) = bodies_in.place();
        let (w, ws) = words_in.place();
        let (n, ns) = numbers_in.place();
        let (r, rs) = rows_in.place();
        let (out, outs) = out_in.place();
        let (ids, ids_len) = ids_in.place();
        let (cs, cs_len) = counts_in.place();
        let [dt, unit, most] = s.settings;
        let built = s.built as u32;
        macro_rules! made(
            ($name: ident $(, $argument: expr)*) => {
                $name(dt, unit, most, built, b, bs, w, ws, n, ns $(, $argument)*)
            }
        );
        answer.code = unsafe {
            match *call {
                Call::Load => made!(katydidzinc_space_load, r, rs),
                Call::Place {
                    body,
                    pose: [qx, qy, qz, qw, x, y, z],
                } => made!(katydidzinc_space_place, body, qx, qy, qz, qw, x, y, z),
                Call::Build {
                    warm,
                    coefficient,
                    substep,
                } => made!(
                    katydidzinc_space_build,
                    r,
                    rs,
                    warm as u32,
                    coefficient,
                    substep
                ),
                Call::WarmStart => made!(katydidzinc_space_warm_start, r, rs),
                Call::Sweep(rounds) => made!(katydidzinc_space_sweep, r, rs, rounds, cs, cs_len),
                Call::RemoveBias => made!(katydidzinc_space_remove_bias, r, rs),
                Call::WriteBack => made!(katydidzinc_space_write_back, r, rs),
                Call::ReadRows(joint) => {
                    made!(
                        katydidzinc_space_read_rows,
                        r,
                        rs,
                        joint,
                        out,
                        outs,
                        ids,
                        ids_len
                    )
                }
                Call::ReadVelocity(body) => {
                    made!(katydidzinc_space_read_velocity, body, out, outs)
                }
            }
        };
        answer.outside = bodies_in.taken_back(&mut s.bodies)
            | words_in.taken_back(&mut s.words)
            | numbers_in.taken_back(&mut s.numbers)
            | rows_in.taken_back(&mut s.rows)
            | out_in.taken_back(&mut answer.out)
            | ids_in.taken_back(&mut answer.ids)
            | counts_in.taken_back(&mut counts);
        if let Call::Sweep(_) = call {
            if answer.granted() {
                answer.ids = counts.iter().map(|n| u32::from(*n)).collect();
            } else {
                answer.outside |= counts.iter().any(|n| *n != 0xEF);
            }
        }
        match call {
            Call::Load if answer.granted() => s.built = false,
            Call::Build { .. } if answer.granted() => s.built = true,
            _ => {}
        }
        answer
    }

    pub fn direct(s: &mut Study, call: &Call) -> u64 {
        let (b, bs) = (s.bodies.as_mut_ptr(), s.bodies.len());
        let (w, ws) = (s.words.as_ptr(), s.words.len());
        let (n, ns) = (s.numbers.as_mut_ptr(), s.numbers.len());
        let (r, rs) = (s.rows.as_mut_ptr(), s.rows.len());
        let [dt, unit, most] = s.settings;
        let built = s.built as u32;
        macro_rules! made(
            ($name: ident $(, $argument: expr)*) => {
                $name(dt, unit, most, built, b, bs, w, ws, n, ns, r, rs $(, $argument)*)
            }
        );
        unsafe {
            match *call {
                Call::Build {
                    warm,
                    coefficient,
                    substep,
                } => made!(katydidzinc_space_build, warm as u32, coefficient, substep),
                Call::WarmStart => made!(katydidzinc_space_warm_start),
                Call::Sweep(rounds) => {
                    let mut counts = [0u8; 128];
                    made!(katydidzinc_space_sweep, rounds, counts.as_mut_ptr(), 128)
                }
                Call::RemoveBias => made!(katydidzinc_space_remove_bias),
                Call::WriteBack => made!(katydidzinc_space_write_back),
                _ => unreachable!(),
            }
        }
    }
}
