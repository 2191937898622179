//! Runs lists of calls on models in space on both sides and compares after each call.

use crate::answers;
use crate::bits::{bits, hex};
use crate::generator::Generator;
use crate::library::{ORACLE, RENDERING, Side, same_answer, same_study};
use crate::pairs;
use crate::spatial_model::{
    Answer, BODY, Call, ENABLED, JOINT, KINDS, POSED, REFUSALS, ROW, Study, WORDS, refusal,
};
use crate::spatial_model_rendering;
use std::collections::BTreeSet;
use std::process::exit;

/// What the lists have met.
#[derive(Default)]
struct Tally {
    studies: u64,
    calls: u64,
    alterations: u64,
    /// By kind of call: granted, then refused by rule.
    by_kind: [[u64; REFUSALS.len() + 1]; KINDS.len()],
    /// Calls refused by 17: of a joint that is switched off, and of bits on locked axes alone.
    seventeen: [u64; 2],
    /// Mask choices of joints that were built.
    choices: BTreeSet<[u32; 3]>,
    rows: u64,
    rows_with_nan: u64,
    /// Sweeps of one round or more, and those that left a NaN in a velocity.
    sweeps: u64,
    sweeps_with_nan: u64,
    /// Motor rows of their last rounds, and those that were low or high.
    motors: [u64; 2],
    largest: [usize; 3],
    /// Joints that were built, by their `JointEnabled`.
    off: [u64; 3],
}

/// A call on which the sides differ: what was handed over, and what each side answered and left.
pub struct Difference {
    pub before: Study,
    pub call: Call,
    pub sides: [(Study, Answer); 2],
}

struct Run {
    other: Side,
    tally: Tally,
    /// Calls to make in all.
    limit: u64,
}

type Outcome<T> = Result<T, Box<Difference>>;

impl Run {
    fn new(other: Side, limit: u64) -> Run {
        Run {
            other,
            tally: Tally::default(),
            limit,
        }
    }

    /// Makes the call on both sides; the study goes on as it was left, where they agree.
    fn both(&mut self, s: &mut Study, call: &Call) -> Outcome<()> {
        let (mut here, mut there) = (s.clone(), s.clone());
        let answer = ORACLE(&mut here, call);
        let other = (self.other)(&mut there, call);
        self.tally.calls += 1;
        if !same_answer(&answer, &other) || !same_study(&here, &there) {
            return Err(Box::new(Difference {
                before: s.clone(),
                call: *call,
                sides: [(here, answer), (there, other)],
            }));
        }
        self.count(&here, call, &answer);
        *s = here;
        Ok(())
    }

    fn count(&mut self, s: &Study, call: &Call, answer: &Answer) {
        let t = &mut self.tally;
        let column = REFUSALS.iter().position(|k| *k == answer.code);
        t.by_kind[call.kind()][column.map_or(0, |k| k + 1)] += 1;
        if answer.code == 17 {
            let bad = |w: &&[u32]| w[5] != 0 || w[3] > 7 || w[4] > 7;
            let mut joints = (0..s.joint_count()).map(|j| s.joint(j)).filter(bad);
            t.seventeen[0] += joints.clone().all(|w| w[ENABLED] != 0) as u64;
            t.seventeen[1] += joints.all(|w| (w[5] | w[3] & !7 | w[4] & !7) & !w[2] == 0) as u64;
        }
        if !answer.granted() {
            return;
        }
        match call {
            Call::Build { .. } => {
                let total = s.total();
                let rows = s.rows.chunks(ROW).take(total);
                t.rows += total as u64;
                t.rows_with_nan += rows.filter(|r| r.iter().any(|x| x.is_nan())).count() as u64;
                for j in 0..s.joint_count() {
                    let w = s.joint(j);
                    t.off[(w[ENABLED] as usize).min(2)] += 1;
                    if w[ENABLED] == 0 {
                        t.choices.insert([w[2], w[3], w[4]]);
                    }
                }
                let now = [s.body_count(), s.joint_count(), total];
                for (most, now) in t.largest.iter_mut().zip(now) {
                    *most = now.max(*most);
                }
            }
            Call::Sweep(n) if *n > 0 => {
                t.sweeps += 1;
                let strange = |n: &[f32]| n[POSED..].iter().any(|x| x.is_nan());
                t.sweeps_with_nan += s.bodies.chunks_exact(BODY).any(strange) as u64;
                for j in 0..s.joint_count() {
                    t.motors[0] += s.ids(j).iter().filter(|id| **id / 8 == 2).count() as u64;
                    t.motors[1] += u64::from(answer.ids[j]);
                }
            }
            _ => {}
        }
    }

    /// One study and its list of calls.
    fn list(&mut self, g: &mut Generator) -> Outcome<()> {
        let mut s = g.study();
        self.tally.studies += 1;
        if !g.d.one_in(8) {
            self.both(&mut s, &Call::Load)?;
        }
        let mut sound = s.clone();
        for _ in 0..4 + g.d.below(36) {
            if refusal(&s, &Call::Load) == 0 {
                sound.clone_from(&s);
            } else if g.d.one_in(3) {
                s.clone_from(&sound);
            }
            if g.d.one_in(6) {
                g.alter(&mut s);
                self.tally.alterations += 1;
            }
            if g.d.one_in(5) {
                // Broken for a while, then as it was.
                let mut broken = s.clone();
                for _ in 0..1 + g.d.below(2) {
                    let mut call = g.call(&broken);
                    g.break_some(&mut broken, &mut call);
                    self.both(&mut broken, &call)?;
                }
                if g.d.one_in(16) {
                    s = broken;
                }
            }
            let call = g.call(&s);
            self.both(&mut s, &call)?;
            if self.tally.calls >= self.limit {
                break;
            }
        }
        Ok(())
    }

    /// Lists until `limit` calls are made or the sides differ.
    fn lists(&mut self, seed: u64) -> Option<Box<Difference>> {
        let g = &mut Generator::new(seed);
        while self.tally.calls < self.limit {
            if let Err(difference) = self.list(g) {
                return Some(difference);
            }
        }
        None
    }
}

fn places(of: &str, here: &[f32], there: &[f32]) {
    for (i, (a, b)) in here.iter().zip(there).enumerate() {
        if bits(*a) != bits(*b) {
            println!("  {of}[{i}]: {} here, {} there", hex(&[*a]), hex(&[*b]));
        }
    }
    if here.len() != there.len() {
        println!("  {of}: {} numbers here, {} there", here.len(), there.len());
    }
}

pub fn show_study(s: &Study) {
    println!("  settings {}, built {}", hex(&s.settings), s.built);
    for n in s.bodies.chunks(BODY) {
        println!("  body {}", hex(n));
    }
    for (j, w) in s.words.chunks(WORDS).enumerate() {
        println!("  words {j} {w:?}");
    }
    for (j, n) in s.numbers.chunks(JOINT).enumerate() {
        println!("  numbers {j} {}", hex(n));
    }
    for n in s.rows.chunks(ROW) {
        println!("  row {}", hex(n));
    }
}

pub fn show(difference: &Difference) {
    let Difference {
        before,
        call,
        sides: [(here, answer), (there, other)],
    } = difference;
    println!("{call:?} differs. Handed over:");
    show_study(before);
    for (side, answer) in [("here", answer), ("there", other)] {
        println!("{side}: answer {}", answer.code);
        if answer.outside {
            println!("  wrote outside the lent storage");
        }
    }
    if answer.ids != other.ids {
        println!("  ids {:?} here, {:?} there", answer.ids, other.ids);
    }
    if here.built != there.built {
        println!("  built {} here, {} there", here.built, there.built);
    }
    for (i, (a, b)) in here.words.iter().zip(&there.words).enumerate() {
        if a != b {
            println!("  words[{i}]: {a} here, {b} there");
        }
    }
    places("out", &answer.out, &other.out);
    places("settings", &here.settings, &there.settings);
    places("bodies", &here.bodies, &there.bodies);
    places("numbers", &here.numbers, &there.numbers);
    places("rows", &here.rows, &there.rows);
}

fn share(part: u64, whole: u64) -> f64 {
    100.0 * part as f64 / whole.max(1) as f64
}

pub fn compare(other: Side, seed: u64, calls: u64) {
    let mut run = Run::new(other, calls);
    let difference = run.lists(seed);
    let t = &run.tally;
    if let Some(difference) = difference {
        println!("study {}, call {} of all:", t.studies, t.calls);
        show(&difference);
        exit(1)
    }
    println!(
        "{} calls on {} studies in space, {} alterations, no difference, seed {seed}",
        t.calls, t.studies, t.alterations
    );
    println!("granted, then refused by {REFUSALS:?}:");
    for (kind, by) in KINDS.iter().zip(&t.by_kind) {
        println!("  {kind:13} {by:?}");
    }
    let [off, locked] = t.seventeen;
    println!(
        "refused by 17: {off} for joints that are switched off alone, {locked} for bits on locked axes alone"
    );
    let [bodies, joints, rows] = t.largest;
    println!(
        "{} of 4096 legal mask choices built; at most {bodies} bodies, {joints} joints, {rows} rows",
        t.choices.len()
    );
    let [on, by_body, off] = t.off;
    println!("joints built: {on} enabled, {by_body} disabled by a body, {off} disabled");
    println!(
        "{} rows built, with a NaN {:.1} %; {} sweeps, with a NaN in a velocity {:.1} %",
        t.rows,
        share(t.rows_with_nan, t.rows),
        t.sweeps,
        share(t.sweeps_with_nan, t.sweeps)
    );
    let [motors, at_bound] = t.motors;
    println!("{motors} motor rows in the last rounds of sweeps, {at_bound} of them low or high");
}

/// Each fault's number of calls until a difference, of pairs, and of lines in the stored answers.
pub fn faults(seed: u64, calls: u64, pairs: u64) {
    println!("| fault | calls | seen in | pairs | answers |\n|---|---|---|---|---|");
    let text = answers::text();
    let mut unseen = 0;
    for (i, what) in spatial_model_rendering::FAULTS.iter().enumerate() {
        spatial_model_rendering::carry(i as u32 + 1);
        let mut run = Run::new(RENDERING, calls);
        let difference = run.lists(seed);
        let (number, seen) = match &difference {
            Some(d) => (run.tally.calls.to_string(), KINDS[d.call.kind()]),
            None => (format!("none in {}", run.tally.calls), ""),
        };
        unseen += difference.is_none() as u32;
        let pairs = pairs::seen(seed, pairs).map_or(String::new(), |n| n.to_string());
        let stored = match answers::replay(RENDERING, &text) {
            (agree, Some(_)) => (agree + 1).to_string(),
            _ => String::new(),
        };
        println!(
            "| {}: {what} | {number} | {seen} | {pairs} | {stored} |",
            i + 1
        );
    }
    println!(
        "\n{} faults, {unseen} not seen",
        spatial_model_rendering::FAULTS.len()
    );
}
