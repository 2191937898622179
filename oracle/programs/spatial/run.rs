//! Runs studies in space on both sides and compares after each call.

use crate::bits::{bits, hex};
use crate::draw::Draw;
use crate::library::{Call, Function, Library, oracle, own, rendered};
use crate::spatial_rendering;
use crate::studies::{self, JOINT_AT, Study};
use rapier3d::pipeline::records::{JOINT, ROW};
use std::process::exit;

const MOST_ROWS: usize = 9;
const KINDS: [&str; 3] = ["Dof", "Limit", "Motor"];
const FIELDS: [&str; ROW] = [
    "impulse",
    "impulse_bounds[0]",
    "impulse_bounds[1]",
    "lin_jac.x",
    "lin_jac.y",
    "lin_jac.z",
    "ang_jac1.x",
    "ang_jac1.y",
    "ang_jac1.z",
    "ang_jac2.x",
    "ang_jac2.y",
    "ang_jac2.z",
    "ii_ang_jac1.x",
    "ii_ang_jac1.y",
    "ii_ang_jac1.z",
    "ii_ang_jac2.x",
    "ii_ang_jac2.y",
    "ii_ang_jac2.z",
    "inv_lhs",
    "rhs",
    "rhs_wo_bias",
    "cfm_gain",
    "cfm_coeff",
    "im1.x",
    "im1.y",
    "im1.z",
    "im2.x",
    "im2.y",
    "im2.z",
];

/// What the studies have met.
#[derive(Default)]
struct Tally {
    choices: std::collections::BTreeSet<u32>,
    /// By id: rows built, and those with a NaN.
    built: [u64; 24],
    with_nan: [u64; 24],
    /// By their number: joints with so many rows.
    sizes: [u64; MOST_ROWS + 1],
    /// Results of single steps, and those with a NaN.
    steps: u64,
    steps_with_nan: u64,
    calls: u64,
}

/// A call on which the sides differ: as it was handed over, and as each side left it.
struct Difference {
    before: Call,
    here: Call,
    there: Call,
}

struct Run {
    other: Library,
    /// Whether rows of no joint are compared too.
    loose: bool,
    tally: Tally,
}

type Outcome<T> = Result<T, Box<Difference>>;

impl Run {
    fn new(other: Library, loose: bool) -> Run {
        Run {
            other,
            loose,
            tally: Tally::default(),
        }
    }

    /// Makes the call on both sides; what it left, where they agree.
    fn both(&mut self, before: Call) -> Outcome<Call> {
        let (mut here, mut there) = (before.clone(), before.clone());
        oracle(&mut here);
        (self.other)(&mut there);
        self.tally.calls += 1;
        if here.agrees(&there) {
            return Ok(here);
        }
        Err(Box::new(Difference {
            before,
            here,
            there,
        }))
    }

    /// Rows of no joint: one stepped, warm started and freed of its bias, some made one group.
    fn loose_rows(&mut self, d: &mut Draw) -> Outcome<()> {
        let row = studies::any_row(d);
        for function in [Function::Step, Function::Warmstart] {
            let mut call = Call::new(function, &[], &[], &row);
            call.vels = studies::vels(d).to_vec();
            self.both(call)?;
        }
        self.both(Call::new(Function::RemoveBias, &[], &[], &row))?;

        let rows: Vec<f32> = (0..MOST_ROWS).flat_map(|_| studies::any_row(d)).collect();
        let count = d.below(MOST_ROWS as u64 + 1) as u32;
        self.both(Call::new(Function::Finalize, &[count], &[], &rows))?;
        Ok(())
    }

    fn build(&mut self, study: &Study, rows: &mut [f32], ids: &mut [u32]) -> Outcome<usize> {
        let done = self.both(build_call(study, rows, ids))?;
        rows.copy_from_slice(&done.lent);
        ids.copy_from_slice(&done.ids);
        for (row, id) in rows.chunks(ROW).zip(ids).take(done.count) {
            self.tally.built[*id as usize] += 1;
            self.tally.with_nan[*id as usize] += row.iter().any(|x| x.is_nan()) as u64;
        }
        self.tally.sizes[done.count] += 1;
        Ok(done.count)
    }

    /// Every row in order, by one function of a row and the two velocities.
    fn sweep(&mut self, function: Function, rows: &mut [f32], vels: &mut [f32]) -> Outcome<()> {
        for row in rows.chunks_mut(ROW) {
            let mut call = Call::new(function, &[], &[], row);
            call.vels = vels.to_vec();
            let done = self.both(call)?;
            row.copy_from_slice(&done.lent);
            vels.copy_from_slice(&done.vels);
            self.tally.steps += 1;
            self.tally.steps_with_nan += vels.iter().any(|x| x.is_nan()) as u64;
        }
        Ok(())
    }

    fn study(&mut self, d: &mut Draw, choice: u32) -> Outcome<()> {
        let mut study = studies::study(d, choice);
        self.tally.choices.insert(choice);
        if self.loose {
            self.loose_rows(d)?;
        }

        // The storage holds something before the first build.
        let mut rows: Vec<f32> = (0..MOST_ROWS).flat_map(|_| studies::any_row(d)).collect();
        let mut ids = [0; MOST_ROWS].map(|_| d.word() as u32);
        let any_substep = d.below(4) == 0;
        for substep in 0..3 {
            study.words[8] = if any_substep {
                d.below(3) as u32
            } else {
                substep
            };
            let count = self.build(&study, &mut rows, &mut ids)?;
            let own = &mut rows[..count * ROW];
            let vels = &mut studies::vels(d);
            if study.words[7] != 0 {
                self.sweep(Function::Warmstart, own, vels)?;
            }
            for _ in 0..2 {
                self.sweep(Function::Step, own, vels)?;
            }
            for row in own.chunks_mut(ROW) {
                let done = self.both(Call::new(Function::RemoveBias, &[], &[], row))?;
                row.copy_from_slice(&done.lent);
            }
            self.sweep(Function::Step, own, vels)?;
            for (row, id) in own.chunks(ROW).zip(&ids) {
                let joint = &mut study.numbers[JOINT_AT..][..JOINT];
                let call = Call::new(Function::Writeback, &[*id], &row[..1], joint);
                joint.copy_from_slice(&self.both(call)?.lent);
            }
        }
        Ok(())
    }
}

fn build_call(study: &Study, rows: &[f32], ids: &[u32]) -> Call {
    let mut call = Call::new(Function::Build, &study.words, &study.numbers, rows);
    call.ids = ids.to_vec();
    call
}

/// The mask choice of study k: in turn, and mixed, so that few studies meet many kinds.
fn choice(k: u64) -> u32 {
    (k.wrapping_mul(1597) % 4096) as u32
}

/// Runs up to `count` studies; what stopped them, with the number of studies run.
fn studies(run: &mut Run, seed: u64, count: u64) -> (u64, Option<Box<Difference>>) {
    let d = &mut Draw::new(seed);
    for k in 0..count {
        if let Err(difference) = run.study(d, choice(k)) {
            return (k + 1, Some(difference));
        }
    }
    (count, None)
}

/// The places where the two lists of numbers differ, by their names where they are rows.
fn places(of: &str, here: &[f32], there: &[f32]) {
    for (i, (a, b)) in here.iter().zip(there).enumerate() {
        if bits(*a) != bits(*b) {
            let field = if here.len() % ROW == 0 {
                FIELDS[i % ROW]
            } else {
                ""
            };
            println!(
                "  {of}[{i}] {field}: {} here, {} there",
                hex(&[*a]),
                hex(&[*b])
            );
        }
    }
}

/// A call's lent storage, rows on lines of their own.
fn show_lent(call: &Call) {
    for line in call.lent.chunks(ROW) {
        println!("  lent {}", hex(line));
    }
    println!("  vels {}", hex(&call.vels));
    println!("  ids {:?}", call.ids);
}

fn show(difference: &Difference, study: u64) {
    let Difference {
        before,
        here,
        there,
    } = difference;
    println!("study {study}: {:?} differs", before.function);
    println!("  words {:?}", before.words);
    println!("  numbers {}", hex(&before.numbers));
    show_lent(before);
    for (side, call) in [("here", here), ("there", there)] {
        println!("{side}: count {}", call.count);
        show_lent(call);
        if call.outside {
            println!("  wrote outside the lent storage");
        }
    }
    places("lent", &here.lent, &there.lent);
    places("vels", &here.vels, &there.vels);
}

pub fn compare(other: Library, seed: u64, count: u64) {
    let mut run = Run::new(other, true);
    let (done, difference) = studies(&mut run, seed, count);
    if let Some(difference) = difference {
        show(&difference, done);
        exit(1)
    }
    let tally = &run.tally;
    println!(
        "{done} studies in space, {} calls, no difference, seed {seed}",
        tally.calls
    );
    println!("{} of 4096 legal mask choices", tally.choices.len());
    let share = |part: u64, whole: u64| 100.0 * part as f64 / whole.max(1) as f64;
    for kind in 0..3 {
        let of = 8 * kind..8 * kind + if kind == 0 { 6 } else { 3 };
        let (built, nan) = (&tally.built[of.clone()], &tally.with_nan[of]);
        println!(
            "{} rows built {built:?} by axis, with a NaN {:.1} %",
            KINDS[kind],
            share(nan.iter().sum(), built.iter().sum())
        );
    }
    println!("joints built by their number of rows {:?}", tally.sizes);
    println!(
        "{} steps and warm starts of built rows, velocities with a NaN {:.1} %",
        tally.steps,
        share(tally.steps_with_nan, tally.steps)
    );
}

/// Each fault's number of studies until a difference, with all calls and with joints' rows alone.
pub fn faults(seed: u64, count: u64) {
    println!("| fault | studies | seen in | joints alone |\n|---|---|---|---|");
    let mut unseen = 0;
    for (i, what) in spatial_rendering::FAULTS.iter().enumerate() {
        spatial_rendering::carry(i as u32 + 1);
        let [all, joints] =
            [true, false].map(|loose| studies(&mut Run::new(rendered, loose), seed, count));
        let number = |(done, difference): &(u64, Option<_>)| match difference {
            Some(_) => done.to_string(),
            None => format!("none in {done}"),
        };
        unseen += all.1.is_none() as u32;
        let seen_in = all.1.as_ref().map(|d| format!("{:?}", d.before.function));
        println!(
            "| {}: {what} | {} | {} | {} |",
            i + 1,
            number(&all),
            seen_in.unwrap_or_default(),
            number(&joints)
        );
    }
    println!(
        "\n{} faults, {unseen} not seen",
        spatial_rendering::FAULTS.len()
    );
}

/// How many builds come out otherwise where the derivative is the one that rotation_ops.rs has.
pub fn own_derivative(seed: u64, count: u64) {
    let d = &mut Draw::new(seed);
    let (mut builds, mut differ) = (0u64, 0u64);
    let mut by_id = [[0u64; 2]; 24];
    for k in 0..count {
        let choice = choice(k);
        let study = studies::study(d, choice);
        let call = build_call(&study, &[0.0; MOST_ROWS * ROW], &[0; MOST_ROWS]);
        let (mut here, mut there) = (call.clone(), call);
        oracle(&mut here);
        own(&mut there);
        if here.ids != there.ids || here.count != there.count {
            println!("study {}: other rows", k + 1);
            exit(1)
        }
        if choice >> 9 == 0 {
            // No angular lock: no row asks for the derivative.
            if !here.agrees(&there) {
                println!("study {}: rows without an angular lock differ", k + 1);
                exit(1)
            }
            continue;
        }
        builds += 1;
        differ += !here.agrees(&there) as u64;
        for i in 0..here.count {
            let of = |call: &Call| call.lent[ROW * i..][..ROW].to_vec();
            let same = of(&here)
                .into_iter()
                .map(bits)
                .eq(of(&there).into_iter().map(bits));
            let tally = &mut by_id[here.ids[i] as usize];
            tally[0] += 1;
            tally[1] += !same as u64;
        }
    }
    println!(
        "{differ} of {builds} builds with an angular lock differ between R-14's derivative and the Rust's own, seed {seed}"
    );
    for kind in 0..3 {
        let [rows, other] =
            [0, 1].map(|j| (8 * kind..8 * kind + 8).map(|i| by_id[i][j]).sum::<u64>());
        println!("{} rows: {other} of {rows} differ", KINDS[kind]);
    }
}
