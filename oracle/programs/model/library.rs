//! The model's calls as each side of a comparison makes them.

use crate::bits::bits;
use crate::model::{self, Answer, Call, Study};
use crate::model_rendering;

/// Makes a call on a study; the mark is the side's too.
pub type Side = fn(&mut Study, &Call) -> Answer;

/// The model over the published Rust.
pub const ORACLE: Side = model::call;

/// The second rendering, with the fault that it carries.
pub const RENDERING: Side = model_rendering::call;

/// The Rattle library.
#[cfg(rattle)]
pub const RATTLE: Option<Side> = Some(exported::call);
#[cfg(not(rattle))]
pub const RATTLE: Option<Side> = None;

/// The sides that are there.
pub fn sides() -> Vec<(&'static str, Side)> {
    let mut all = vec![("the oracle", ORACLE), ("the second rendering", RENDERING)];
    all.extend(RATTLE.map(|side| ("the Rattle library", side)));
    all
}

/// In bits with all NaNs as one.
pub fn same(a: &[f32], b: &[f32]) -> bool {
    a.len() == b.len() && a.iter().zip(b).all(|(x, y)| bits(*x) == bits(*y))
}

pub fn same_answer(a: &Answer, b: &Answer) -> bool {
    a.code == b.code && a.ids == b.ids && a.outside == b.outside && same(&a.out, &b.out)
}

pub fn same_study(a: &Study, b: &Study) -> bool {
    a.built == b.built
        && a.words == b.words
        && same(&a.settings, &b.settings)
        && same(&a.bodies, &b.bodies)
        && same(&a.numbers, &b.numbers)
        && same(&a.rows, &b.rows)
}

/// A call of a step by the Rattle library on the study's own storage, with no guards about it; its code.
#[cfg(rattle)]
pub fn direct(s: &mut Study, call: &Call) -> u64 {
    exported::direct(s, call)
}

#[cfg(rattle)]
mod exported {
    use crate::fenced::Fenced;
    use crate::model::{Answer, Call, Study};

    unsafe extern "C" {
        fn katydidzinc_load(
            dt: f32,
            length_unit: f32,
            normalized: f32,
            built: u32,
            bodies: *const f32,
            bodies_len: usize,
            words: *mut u32,
            words_len: usize,
            numbers: *const f32,
            numbers_len: usize,
            rows: *const f32,
            rows_len: usize,
        ) -> u64;
        fn katydidzinc_place(
            dt: f32,
            length_unit: f32,
            normalized: f32,
            built: u32,
            bodies: *mut f32,
            bodies_len: usize,
            words: *const u32,
            words_len: usize,
            numbers: *const f32,
            numbers_len: usize,
            body: u32,
            re: f32,
            im: f32,
            x: f32,
            y: f32,
        ) -> u64;
        fn katydidzinc_build(
            dt: f32,
            length_unit: f32,
            normalized: f32,
            built: u32,
            bodies: *const f32,
            bodies_len: usize,
            words: *const u32,
            words_len: usize,
            numbers: *const f32,
            numbers_len: usize,
            rows: *mut f32,
            rows_len: usize,
            warm: u32,
            coefficient: f32,
            substep: u32,
        ) -> u64;
        fn katydidzinc_warm_start(
            dt: f32,
            length_unit: f32,
            normalized: f32,
            built: u32,
            bodies: *mut f32,
            bodies_len: usize,
            words: *const u32,
            words_len: usize,
            numbers: *const f32,
            numbers_len: usize,
            rows: *const f32,
            rows_len: usize,
        ) -> u64;
        fn katydidzinc_sweep(
            dt: f32,
            length_unit: f32,
            normalized: f32,
            built: u32,
            bodies: *mut f32,
            bodies_len: usize,
            words: *const u32,
            words_len: usize,
            numbers: *const f32,
            numbers_len: usize,
            rows: *mut f32,
            rows_len: usize,
            n: u32,
            counts: *mut u8,
            counts_len: usize,
        ) -> u64;
        fn katydidzinc_remove_bias(
            dt: f32,
            length_unit: f32,
            normalized: f32,
            built: u32,
            bodies: *const f32,
            bodies_len: usize,
            words: *const u32,
            words_len: usize,
            numbers: *const f32,
            numbers_len: usize,
            rows: *mut f32,
            rows_len: usize,
        ) -> u64;
        fn katydidzinc_write_back(
            dt: f32,
            length_unit: f32,
            normalized: f32,
            built: u32,
            bodies: *const f32,
            bodies_len: usize,
            words: *const u32,
            words_len: usize,
            numbers: *mut f32,
            numbers_len: usize,
            rows: *const f32,
            rows_len: usize,
        ) -> u64;
        fn katydidzinc_read_rows(
            dt: f32,
            length_unit: f32,
            normalized: f32,
            built: u32,
            bodies: *const f32,
            bodies_len: usize,
            words: *const u32,
            words_len: usize,
            numbers: *const f32,
            numbers_len: usize,
            rows: *const f32,
            rows_len: usize,
            joint: u32,
            out: *mut f32,
            out_len: usize,
            ids: *mut u32,
            ids_len: usize,
        ) -> u64;
        fn katydidzinc_read_velocity(
            dt: f32,
            length_unit: f32,
            normalized: f32,
            built: u32,
            bodies: *const f32,
            bodies_len: usize,
            words: *const u32,
            words_len: usize,
            numbers: *const f32,
            numbers_len: usize,
            body: u32,
            out: *mut f32,
            out_len: usize,
        ) -> u64;
        fn katydidzinc_set_targets(
            dt: f32,
            length_unit: f32,
            normalized: f32,
            built: u32,
            bodies: *const f32,
            bodies_len: usize,
            words: *const u32,
            words_len: usize,
            numbers: *mut f32,
            numbers_len: usize,
            table: *const u8,
            table_len: usize,
        ) -> u64;
        fn katydidzinc_set_masks(
            dt: f32,
            length_unit: f32,
            normalized: f32,
            built: u32,
            bodies: *const f32,
            bodies_len: usize,
            words: *mut u32,
            words_len: usize,
            numbers: *const f32,
            numbers_len: usize,
            rows: *const f32,
            rows_len: usize,
            joint: u32,
            locked: u32,
            limit: u32,
            motor: u32,
            coupled: u32,
        ) -> u64;
        fn katydidzinc_frame(
            dt: f32,
            length_unit: f32,
            normalized: f32,
            built: u32,
            bodies: *mut f32,
            bodies_len: usize,
            words: *const u32,
            words_len: usize,
            numbers: *mut f32,
            numbers_len: usize,
            rows: *mut f32,
            rows_len: usize,
            warm: u32,
            coefficient: f32,
            sweeps: u32,
            substeps: u32,
            counts: *mut u8,
            counts_len: usize,
        ) -> u64;
    }

    /// The mark follows from the answer: a granted load or mask change clears it, a granted build or frame sets it.
    pub fn call(s: &mut Study, call: &Call) -> Answer {
        let mut answer = Answer::none(call);
        let mut bodies_in = Fenced::new(&s.bodies, 12345.678);
        let mut words_in = Fenced::new(&s.words, 0xDEAD_BEEF);
        let mut numbers_in = Fenced::new(&s.numbers, 12345.678);
        let mut rows_in = Fenced::new(&s.rows, 12345.678);
        let mut out_in = Fenced::new(&answer.out, 12345.678);
        let mut ids_in = Fenced::new(&answer.ids, 0xDEAD_BEEF);
        let mut counts = vec![0xEFu8; answer.ids.len()];
        let mut counts_in = Fenced::new(&counts, 0xAD);
        let (b, bs) = bodies_in.place();
        let (w, ws) = words_in.place();
        let (n, ns) = numbers_in.place();
        let (r, rs) = rows_in.place();
        let (out, outs) = out_in.place();
        let (ids, ids_len) = ids_in.place();
        let (cs, cs_len) = counts_in.place();
        let [dt, unit, most] = s.settings;
        let built = s.built as u32;
        answer.code = unsafe {
            match *call {
                Call::Load => katydidzinc_load(dt, unit, most, built, b, bs, w, ws, n, ns, r, rs),
                Call::Place {
                    body,
                    pose: [re, im, x, y],
                } => katydidzinc_place(
                    dt, unit, most, built, b, bs, w, ws, n, ns, body, re, im, x, y,
                ),
                Call::Build {
                    warm,
                    coefficient,
                    substep,
                } => katydidzinc_build(
                    dt,
                    unit,
                    most,
                    built,
                    b,
                    bs,
                    w,
                    ws,
                    n,
                    ns,
                    r,
                    rs,
                    warm as u32,
                    coefficient,
                    substep,
                ),
                Call::WarmStart => {
                    katydidzinc_warm_start(dt, unit, most, built, b, bs, w, ws, n, ns, r, rs)
                }
                Call::Sweep(rounds) => katydidzinc_sweep(
                    dt, unit, most, built, b, bs, w, ws, n, ns, r, rs, rounds, cs, cs_len,
                ),
                Call::RemoveBias => {
                    katydidzinc_remove_bias(dt, unit, most, built, b, bs, w, ws, n, ns, r, rs)
                }
                Call::WriteBack => {
                    katydidzinc_write_back(dt, unit, most, built, b, bs, w, ws, n, ns, r, rs)
                }
                Call::ReadRows(joint) => katydidzinc_read_rows(
                    dt, unit, most, built, b, bs, w, ws, n, ns, r, rs, joint, out, outs, ids,
                    ids_len,
                ),
                Call::ReadVelocity(body) => katydidzinc_read_velocity(
                    dt, unit, most, built, b, bs, w, ws, n, ns, body, out, outs,
                ),
                Call::SetTargets(table) => katydidzinc_set_targets(
                    dt,
                    unit,
                    most,
                    built,
                    b,
                    bs,
                    w,
                    ws,
                    n,
                    ns,
                    table.as_ptr(),
                    table.len(),
                ),
                Call::SetMasks {
                    joint,
                    masks: [locked, limit, motor, coupled],
                } => katydidzinc_set_masks(
                    dt, unit, most, built, b, bs, w, ws, n, ns, r, rs, joint, locked, limit,
                    motor, coupled,
                ),
                Call::Frame {
                    warm,
                    coefficient,
                    sweeps,
                    substeps,
                } => katydidzinc_frame(
                    dt,
                    unit,
                    most,
                    built,
                    b,
                    bs,
                    w,
                    ws,
                    n,
                    ns,
                    r,
                    rs,
                    warm as u32,
                    coefficient,
                    sweeps,
                    substeps,
                    cs,
                    cs_len,
                ),
            }
        };
        answer.outside = bodies_in.taken_back(&mut s.bodies)
            | words_in.taken_back(&mut s.words)
            | numbers_in.taken_back(&mut s.numbers)
            | rows_in.taken_back(&mut s.rows)
            | out_in.taken_back(&mut answer.out)
            | ids_in.taken_back(&mut answer.ids)
            | counts_in.taken_back(&mut counts);
        if let Call::Sweep(_) | Call::Frame { .. } = call {
            if answer.granted() {
                answer.ids = counts.iter().map(|n| u32::from(*n)).collect();
            } else {
                answer.outside |= counts.iter().any(|n| *n != 0xEF);
            }
        }
        match call {
            Call::Load | Call::SetMasks { .. } if answer.granted() => s.built = false,
            Call::Build { .. } | Call::Frame { .. } if answer.granted() => s.built = true,
            _ => {}
        }
        answer
    }

    pub fn direct(s: &mut Study, call: &Call) -> u64 {
        let (b, bs) = (s.bodies.as_mut_ptr(), s.bodies.len());
        let (w, ws) = (s.words.as_ptr(), s.words.len());
        let (n, ns) = (s.numbers.as_mut_ptr(), s.numbers.len());
        let (r, rs) = (s.rows.as_mut_ptr(), s.rows.len());
        let [dt, unit, most] = s.settings;
        let built = s.built as u32;
        unsafe {
            match *call {
                Call::Build {
                    warm,
                    coefficient: c,
                    substep,
                } => katydidzinc_build(
                    dt, unit, most, built, b, bs, w, ws, n, ns, r, rs, warm as u32, c, substep,
                ),
                Call::WarmStart => {
                    katydidzinc_warm_start(dt, unit, most, built, b, bs, w, ws, n, ns, r, rs)
                }
                Call::Sweep(rounds) => {
                    let mut counts = [0u8; 128];
                    katydidzinc_sweep(
                        dt,
                        unit,
                        most,
                        built,
                        b,
                        bs,
                        w,
                        ws,
                        n,
                        ns,
                        r,
                        rs,
                        rounds,
                        counts.as_mut_ptr(),
                        128,
                    )
                }
                Call::RemoveBias => {
                    katydidzinc_remove_bias(dt, unit, most, built, b, bs, w, ws, n, ns, r, rs)
                }
                Call::WriteBack => {
                    katydidzinc_write_back(dt, unit, most, built, b, bs, w, ws, n, ns, r, rs)
                }
                Call::Frame {
                    warm,
                    coefficient,
                    sweeps,
                    substeps,
                } => {
                    let mut counts = [0u8; 128];
                    let warm = warm as u32;
                    katydidzinc_frame(
                        dt,
                        unit,
                        most,
                        built,
                        b,
                        bs,
                        w,
                        ws,
                        n,
                        ns,
                        r,
                        rs,
                        warm,
                        coefficient,
                        sweeps,
                        substeps,
                        counts.as_mut_ptr(),
                        128,
                    )
                }
                _ => unreachable!(),
            }
        }
    }
}
