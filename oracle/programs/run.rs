//! Runs studies on both sides and compares after each call.

use crate::bits::{bits, hex};
use crate::draw::Draw;
use crate::library::{Call, Function, Library, oracle};
use crate::rendering;
use crate::studies::{self, JOINT, Study};
use std::process::exit;

const ROW: usize = 18;
const KINDS: [&str; 3] = ["Dof", "Limit", "Motor"];
const FIELDS: [&str; ROW] = [
    "impulse",
    "impulse_bounds[0]",
    "impulse_bounds[1]",
    "lin_jac.x",
    "lin_jac.y",
    "ang_jac1",
    "ang_jac2",
    "ii_ang_jac1",
    "ii_ang_jac2",
    "inv_lhs",
    "rhs",
    "rhs_wo_bias",
    "cfm_gain",
    "cfm_coeff",
    "im1.x",
    "im1.y",
    "im2.x",
    "im2.y",
];

/// What the studies have met.
struct Tally {
    choices: Vec<bool>,
    /// By id: rows built, and those with a NaN.
    built: [u64; 12],
    with_nan: [u64; 12],
    /// Results of single steps, and those with a NaN.
    steps: u64,
    steps_with_nan: u64,
    calls: u64,
}

/// A call on which the sides differ: as it was handed over, and as each side left it.
struct Difference {
    before: Call,
    here: Call,
    there: Call,
}

struct Run {
    other: Library,
    /// Whether leaves and rows of no joint are compared too.
    loose: bool,
    tally: Tally,
}

type Outcome<T> = Result<T, Box<Difference>>;

impl Run {
    fn new(other: Library, loose: bool) -> Run {
        Run {
            other,
            loose,
            tally: Tally {
                choices: vec![false; 4096],
                built: [0; 12],
                with_nan: [0; 12],
                steps: 0,
                steps_with_nan: 0,
                calls: 0,
            },
        }
    }

    /// Makes the call on both sides; what it left, where they agree.
    fn both(&mut self, call: Call) -> Outcome<Call> {
        let (mut here, mut there) = (call.clone(), call.clone());
        oracle(&mut here);
        (self.other)(&mut there);
        self.tally.calls += 1;
        if here.agrees(&there) {
            Ok(here)
        } else {
            Err(Box::new(Difference {
                before: call,
                here,
                there,
            }))
        }
    }

    fn leaf(&mut self, function: Function, words: &[u32], n: &[f32], out: usize) -> Outcome<()> {
        let marks = vec![12345.678; out];
        self.both(Call::new(function, words, n, &marks)).map(|_| ())
    }

    /// The leaves once with the study's numbers and once with any numbers.
    fn leaves(&mut self, d: &mut Draw, study: &Study) -> Outcome<()> {
        let (w, n) = (&study.words, &study.numbers);
        let joint = &n[JOINT..];
        let i = d.below(3) as usize;
        let motor = &joint[17 + 6 * i..];
        let any: Vec<f32> = (0..4).map(|_| d.number()).collect();
        let related = [
            any[0],
            d.related(any[0]),
            d.related(any[0]),
            d.related(any[0]),
        ];

        use Function::*;
        for x in [[n[0], motor[2], motor[3]], [any[0], any[1], any[2]]] {
            self.leaf(CombineCoefficients, &[w[4 + i]], &x, 3)?;
        }
        for x in [[joint[35], joint[36], n[0]], [any[0], any[1], any[2]]] {
            self.leaf(Spring, &[], &x, 2)?;
        }
        for x in [n[0], any[0]] {
            self.leaf(InvDt, &[], &[x], 1)?;
        }
        for x in [[n[1], n[2]], [any[0], any[1]]] {
            self.leaf(MaxCorrectiveVelocity, &[], &x, 1)?;
        }
        for x in [[motor[4], n[0]], [any[0], any[1]]] {
            self.leaf(MaxImpulse, &[], &x, 1)?;
        }
        for x in [[joint[14], joint[15], joint[40], joint[41]], related] {
            self.leaf(AngularLimit, &[], &x, 3)?;
        }
        Ok(())
    }

    /// The residual of a row.
    fn residual(&mut self, row: &[f32], vels: &[f32]) -> Outcome<()> {
        let mut call = Call::new(Function::Residual, &[], row, &[12345.678]);
        call.vels = vels.to_vec();
        self.both(call).map(|_| ())
    }

    /// The reaction of the study's joint, if it has these rows.
    fn reaction(&mut self, study: &Study, rows: &[f32]) -> Outcome<()> {
        let numbers = [&study.numbers, rows].concat();
        self.leaf(Function::Reaction, &[], &numbers, 9)
    }

    /// Rows of no joint: one stepped, warm started and freed of its bias, some summed to a reaction and made one group.
    fn loose_rows(&mut self, d: &mut Draw, study: &Study) -> Outcome<()> {
        let row = studies::any_row(d);
        for function in [Function::Step, Function::Warmstart] {
            let mut call = Call::new(function, &[], &[], &row);
            call.vels = studies::vels(d).to_vec();
            self.residual(&row, &call.vels)?;
            self.both(call)?;
        }
        self.both(Call::new(Function::RemoveBias, &[], &[], &row))?;

        let rows: Vec<f32> = (0..6).flat_map(|_| studies::any_row(d)).collect();
        let count = d.below(7) as u32;
        self.reaction(study, &rows[..count as usize * ROW])?;
        self.both(Call::new(Function::Finalize, &[count], &[], &rows))?;
        Ok(())
    }

    fn build(&mut self, study: &Study, rows: &mut [f32], ids: &mut [u32]) -> Outcome<usize> {
        let mut call = Call::new(Function::Build, &study.words, &study.numbers, rows);
        call.ids = ids.to_vec();
        let done = self.both(call)?;
        rows.copy_from_slice(&done.lent);
        ids.copy_from_slice(&done.ids);
        for (row, id) in rows.chunks(ROW).zip(ids).take(done.count) {
            self.tally.built[*id as usize] += 1;
            self.tally.with_nan[*id as usize] += row.iter().any(|x| x.is_nan()) as u64;
        }
        Ok(done.count)
    }

    /// Every row in order, by one function of a row and the two velocities.
    fn sweep(&mut self, function: Function, rows: &mut [f32], vels: &mut [f32]) -> Outcome<()> {
        for row in rows.chunks_mut(ROW) {
            let mut call = Call::new(function, &[], &[], row);
            call.vels = vels.to_vec();
            let done = self.both(call)?;
            row.copy_from_slice(&done.lent);
            vels.copy_from_slice(&done.vels);
            self.tally.steps += 1;
            self.tally.steps_with_nan += vels.iter().any(|x| x.is_nan()) as u64;
        }
        Ok(())
    }

    fn study(&mut self, d: &mut Draw, choice: u32) -> Outcome<()> {
        let mut study = studies::study(d, choice);
        self.tally.choices[choice as usize] = true;
        if self.loose {
            self.leaves(d, &study)?;
            self.loose_rows(d, &study)?;
        }

        // The storage holds something before the first build.
        let mut rows: Vec<f32> = (0..6).flat_map(|_| studies::any_row(d)).collect();
        let mut ids = [0; 6].map(|_| d.word() as u32);
        let any_substep = d.below(4) == 0;
        for substep in 0..3 {
            study.words[8] = if any_substep {
                d.below(3) as u32
            } else {
                substep
            };
            let count = self.build(&study, &mut rows, &mut ids)?;
            let own = &mut rows[..count * ROW];
            let vels = &mut studies::vels(d);
            if study.words[7] != 0 {
                self.sweep(Function::Warmstart, own, vels)?;
            }
            for _ in 0..2 {
                self.sweep(Function::Step, own, vels)?;
            }
            for row in own.chunks(ROW) {
                self.residual(row, vels)?;
            }
            self.reaction(&study, own)?;
            for row in own.chunks_mut(ROW) {
                let done = self.both(Call::new(Function::RemoveBias, &[], &[], row))?;
                row.copy_from_slice(&done.lent);
            }
            self.sweep(Function::Step, own, vels)?;
            for (row, id) in own.chunks(ROW).zip(&ids) {
                let joint = &mut study.numbers[JOINT..JOINT + 42];
                let call = Call::new(Function::Writeback, &[*id], &row[..1], joint);
                joint.copy_from_slice(&self.both(call)?.lent);
            }
        }
        Ok(())
    }
}

/// The mask choice of study k: in turn, and mixed, so that few studies meet many kinds.
fn choice(k: u64) -> u32 {
    (k.wrapping_mul(1597) % 4096) as u32
}

/// Runs up to `count` studies; what stopped them, with the number of studies run.
fn studies(run: &mut Run, seed: u64, count: u64) -> (u64, Option<Box<Difference>>) {
    let d = &mut Draw::new(seed);
    for k in 0..count {
        if let Err(difference) = run.study(d, choice(k)) {
            return (k + 1, Some(difference));
        }
    }
    (count, None)
}

/// The places where the two lists of numbers differ, by their names where they are rows.
fn places(of: &str, here: &[f32], there: &[f32]) {
    for (i, (a, b)) in here.iter().zip(there).enumerate() {
        if bits(*a) != bits(*b) {
            let field = if here.len() % ROW == 0 {
                FIELDS[i % ROW]
            } else {
                ""
            };
            println!(
                "  {of}[{i}] {field}: {} here, {} there",
                hex(&[*a]),
                hex(&[*b])
            );
        }
    }
}

/// A call's lent storage, rows on lines of their own.
fn show_lent(call: &Call) {
    for line in call.lent.chunks(ROW) {
        println!("  lent {}", hex(line));
    }
    println!("  vels {}", hex(&call.vels));
    println!("  ids {:?}", call.ids);
}

fn show(difference: &Difference, study: u64) {
    let Difference {
        before,
        here,
        there,
    } = difference;
    println!("study {study}: {:?} differs", before.function);
    println!("  words {:?}", before.words);
    println!("  numbers {}", hex(&before.numbers));
    show_lent(before);
    for (side, call) in [("here", here), ("there", there)] {
        println!("{side}: count {}", call.count);
        show_lent(call);
        if call.outside {
            println!("  wrote outside the lent storage");
        }
    }
    places("lent", &here.lent, &there.lent);
    places("vels", &here.vels, &there.vels);
}

pub fn compare(other: Library, seed: u64, count: u64) {
    let mut run = Run::new(other, true);
    let (done, difference) = studies(&mut run, seed, count);
    if let Some(difference) = difference {
        show(&difference, done);
        exit(1)
    }
    let tally = &run.tally;
    println!(
        "{done} studies, {} calls, no difference, seed {seed}",
        tally.calls
    );
    let covered = tally.choices.iter().filter(|c| **c).count();
    println!("{covered} of 4096 mask choices");
    let share = |part: u64, whole: u64| 100.0 * part as f64 / whole.max(1) as f64;
    for kind in 0..3 {
        let of = 4 * kind..4 * kind + 3;
        let (built, nan) = (&tally.built[of.clone()], &tally.with_nan[of]);
        println!(
            "{} rows built {built:?} by axis, with a NaN {:.1} %",
            KINDS[kind],
            share(nan.iter().sum(), built.iter().sum())
        );
    }
    println!(
        "{} steps and warm starts of built rows, velocities with a NaN {:.1} %",
        tally.steps,
        share(tally.steps_with_nan, tally.steps)
    );
}

/// Each fault's number of studies until a difference, with all calls and with joints' rows alone.
pub fn faults(seed: u64, count: u64) {
    println!("| fault | studies | seen in | joints alone |\n|---|---|---|---|");
    let mut unseen = 0;
    for (i, what) in rendering::FAULTS.iter().enumerate() {
        rendering::carry(i as u32 + 1);
        let [all, joints] = [true, false].map(|loose| {
            let run = &mut Run::new(crate::library::rendered, loose);
            studies(run, seed, count)
        });
        let number = |(done, difference): &(u64, Option<_>)| match difference {
            Some(_) => done.to_string(),
            None => format!("none in {done}"),
        };
        unseen += all.1.is_none() as u32;
        println!(
            "| {}: {what} | {} | {} | {} |",
            i + 1,
            number(&all),
            all.1
                .as_ref()
                .map_or(String::new(), |d| format!("{:?}", d.before.function)),
            number(&joints)
        );
    }
    println!("\n{} faults, {unseen} not seen", rendering::FAULTS.len());
}
