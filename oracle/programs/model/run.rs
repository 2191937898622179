//! Runs lists of calls on both sides and compares after each call.

use crate::answers;
use crate::bits::{bits, hex};
use crate::generator::{Generator, total};
use crate::library::{ORACLE, RENDERING, Side, same_answer, same_study};
use crate::model::{
    Answer, CHOICE, COLUMNS, Call, ENABLED, FIRST, KINDS, ROW, Study, WORDS, refusal, stopped_in,
};
use crate::model_rendering;
use crate::motor_table_rendering;
use crate::pairs;
use std::collections::HashSet;
use std::process::exit;

/// What the lists have met.
struct Tally {
    studies: u64,
    calls: u64,
    alterations: u64,
    /// By kind of call: granted, then refused by rule.
    by_kind: [[u64; COLUMNS]; KINDS.len()],
    /// Mask choices of joints that were built.
    choices: Vec<bool>,
    rows: u64,
    rows_with_nan: u64,
    /// Sweeps of one round or more, and those that left a NaN in a velocity.
    sweeps: u64,
    sweeps_with_nan: u64,
    /// Motor rows of their last rounds, and those that were low or high.
    motors: [u64; 2],
    largest: [usize; 3],
    /// Joints that were built, by their `JointEnabled`.
    off: [u64; 3],
    /// Joints that were built, by whether their centre is typed as an angle; and those of each that
    /// have an angular limit row.
    typed: [[u64; 2]; 2],
    /// Tables that were granted: their records, and those that a later one for the same axis overrides.
    records: [u64; 2],
    /// Granted mask changes: to fewer rows, as many, more; of a joint that is switched off.
    changes: [u64; 3],
    changes_off: u64,
    /// Mask changes that only the new total decides: granted with storage short of the old total, refused with
    /// storage for it. And of missing joints, refused by 8.
    by_new_total: [u64; 2],
    missing_short: u64,
    /// Mask changes refused by 3 for an old mask of the very joint, its new ones being at most 7.
    old_mask: u64,
    /// Granted calls beside load and mask changes on a model in which a first row is not the sum; granted loads and mask
    /// changes on such a model.
    altered: [u64; 2],
    /// Granted frames by their number of substeps; those on a model that was not built; those with a coefficient; those that left a
    /// velocity that is not finite.
    frames: [u64; 17],
    frames_unbuilt: u64,
    frames_warm: u64,
    frames_wild: u64,
    /// Frames that met a pose which is not finite: in their only substep, in the first, a middle and the last of several.
    stopped: [u64; 4],
}

/// A call on which the sides differ: what was handed over, and what each side answered and left.
pub struct Difference {
    pub before: Study,
    pub call: Call,
    pub sides: [(Study, Answer); 2],
}

struct Run {
    other: Side,
    tally: Tally,
    /// Calls to make in all.
    limit: u64,
}

type Outcome<T> = Result<T, Box<Difference>>;

impl Run {
    fn new(other: Side, limit: u64) -> Run {
        Run {
            other,
            tally: Tally {
                studies: 0,
                calls: 0,
                alterations: 0,
                by_kind: [[0; COLUMNS]; KINDS.len()],
                choices: vec![false; 4096],
                rows: 0,
                rows_with_nan: 0,
                sweeps: 0,
                sweeps_with_nan: 0,
                motors: [0; 2],
                largest: [0; 3],
                off: [0; 3],
                typed: [[0; 2]; 2],
                records: [0; 2],
                changes: [0; 3],
                changes_off: 0,
                by_new_total: [0; 2],
                missing_short: 0,
                old_mask: 0,
                altered: [0; 2],
                frames: [0; 17],
                frames_unbuilt: 0,
                frames_warm: 0,
                frames_wild: 0,
                stopped: [0; 4],
            },
            limit,
        }
    }

    /// Makes the call on both sides; the study goes on as it was left, where they agree.
    fn both(&mut self, s: &mut Study, call: &Call) -> Outcome<()> {
        let (mut here, mut there) = (s.clone(), s.clone());
        let answer = ORACLE(&mut here, call);
        let other = (self.other)(&mut there, call);
        self.tally.calls += 1;
        if !same_answer(&answer, &other) || !same_study(&here, &there) {
            return Err(Box::new(Difference {
                before: s.clone(),
                call: *call,
                sides: [(here, answer), (there, other)],
            }));
        }
        self.count(&here, call, &answer);
        self.count_changes(s, call, &answer);
        self.count_frame(s, &here, call, &answer);
        *s = here;
        Ok(())
    }

    /// What a call met that has to do with masks and first rows; `s` is the study before it.
    fn count_changes(&mut self, s: &Study, call: &Call, answer: &Answer) {
        let t = &mut self.tally;
        if answer.granted() {
            let stores = matches!(call, Call::Load | Call::SetMasks { .. });
            let mut first = 0;
            let is_sum = |j| {
                let stored = s.joint(j)[FIRST];
                let sum = first;
                first += s.ids(j).len() as u32;
                stored == sum
            };
            t.altered[stores as usize] += !(0..s.joint_count()).all(is_sum) as u64;
        }
        let Call::SetMasks { joint, masks } = call else {
            return;
        };
        let j = *joint as usize;
        let there = j < s.joint_count();
        match answer.code {
            0 => {
                let mut words = s.joint(j).to_vec();
                let old = s.ids(j).len();
                words[2..6].copy_from_slice(masks);
                let new = rapier2d::pipeline::model::row_ids(&words).len();
                t.changes[1 + (new > old) as usize - (new < old) as usize] += 1;
                t.changes_off += (words[ENABLED] != 0) as u64;
                t.by_new_total[0] += (s.row_capacity() < s.total()) as u64;
            }
            3 => {
                let wide = |masks: &[u32]| masks.iter().any(|m| *m > 7);
                t.old_mask += (there && wide(&s.joint(j)[2..6]) && !wide(masks)) as u64;
            }
            8 if there => t.by_new_total[1] += (s.row_capacity() >= s.total()) as u64,
            8 => t.missing_short += 1,
            _ => {}
        }
    }

    /// What a frame met; `s` is the study before it.
    fn count_frame(&mut self, s: &Study, after: &Study, call: &Call, answer: &Answer) {
        let t = &mut self.tally;
        let Call::Frame { warm, substeps, .. } = *call else {
            return;
        };
        match answer.code {
            0 => {
                t.frames[substeps as usize] += 1;
                t.frames_unbuilt += !s.built as u64;
                t.frames_warm += warm as u64;
                let wild = |n: &[f32]| n[7..].iter().any(|x| !x.is_finite());
                t.frames_wild += after.bodies.chunks_exact(10).any(wild) as u64;
            }
            6 => {
                if let Some(i) = stopped_in(s, call) {
                    let place = match i {
                        _ if substeps == 1 => 0,
                        0 => 1,
                        i if i + 1 < substeps => 2,
                        _ => 3,
                    };
                    t.stopped[place] += 1;
                }
            }
            _ => {}
        }
    }

    fn count(&mut self, s: &Study, call: &Call, answer: &Answer) {
        let t = &mut self.tally;
        let granted = answer.granted();
        let column = if granted { 0 } else { answer.code as usize };
        t.by_kind[call.kind()][column] += 1;
        if !granted {
            return;
        }
        match call {
            Call::Build { .. } => {
                let total = s.total();
                let rows = s.rows.chunks(ROW).take(total);
                t.rows += total as u64;
                t.rows_with_nan += rows.filter(|r| r.iter().any(|x| x.is_nan())).count() as u64;
                for j in 0..s.joint_count() {
                    let w = s.joint(j);
                    t.off[(w[ENABLED] as usize).min(2)] += 1;
                    let typed = &mut t.typed[(w[CHOICE] != 0) as usize];
                    typed[0] += 1;
                    typed[1] += s.ids(j).contains(&6) as u64;
                    if w[ENABLED] != 0 {
                        continue;
                    }
                    t.choices[(w[2] << 9 | w[3] << 6 | w[4] << 3 | w[5]) as usize] = true;
                }
                for (most, now) in
                    t.largest
                        .iter_mut()
                        .zip([s.body_count(), s.joint_count(), total])
                {
                    *most = now.max(*most);
                }
            }
            Call::SetTargets(table) => {
                let read = motor_table_rendering::read(table, s.joint_count() as u32).unwrap();
                let places: HashSet<_> = read.iter().map(|(r, _)| (r.0, r.1)).collect();
                t.records[0] += read.len() as u64;
                t.records[1] += (read.len() - places.len()) as u64;
            }
            Call::Sweep(n) if *n > 0 => {
                t.sweeps += 1;
                t.sweeps_with_nan +=
                    s.bodies
                        .chunks_exact(10)
                        .any(|n| n[7..].iter().any(|x| x.is_nan())) as u64;
                for j in 0..s.joint_count() {
                    t.motors[0] += s.ids(j).iter().filter(|id| **id / 4 == 2).count() as u64;
                    t.motors[1] += u64::from(answer.ids[j]);
                }
            }
            _ => {}
        }
    }

    /// One study and its list of calls.
    fn list(&mut self, g: &mut Generator) -> Outcome<()> {
        let mut s = g.study();
        self.tally.studies += 1;
        if !g.d.one_in(8) {
            self.both(&mut s, &Call::Load)?;
        }
        let mut sound = s.clone();
        for _ in 0..4 + g.d.below(36) {
            if refusal(&s, &Call::Load) == 0 {
                sound.clone_from(&s);
            } else if g.d.one_in(3) {
                s.clone_from(&sound);
            }
            if g.d.one_in(6) {
                g.alter(&mut s);
                self.tally.alterations += 1;
            }
            if g.d.one_in(5) {
                // Broken for a while, then as it was.
                let mut broken = s.clone();
                for _ in 0..1 + g.d.below(2) {
                    let mut call = g.any_call(&broken);
                    g.break_some(&mut broken, &mut call);
                    self.both(&mut broken, &call)?;
                }
                if g.d.one_in(16) {
                    s = broken;
                }
            }
            let call = g.any_call(&s);
            g.throw(&mut s, &call);
            let own = s.rows.clone();
            if !g.d.one_in(3) {
                g.lend(&mut s, &call);
            }
            self.both(&mut s, &call)?;
            // Storage too short for the old total is taken back where the change was refused.
            if matches!(call, Call::SetMasks { .. }) && s.row_capacity() < total(&s) {
                s.rows = own;
            }
            if self.tally.calls >= self.limit {
                break;
            }
        }
        Ok(())
    }

    /// Lists until `limit` calls are made or the sides differ.
    fn lists(&mut self, seed: u64) -> Option<Box<Difference>> {
        let g = &mut Generator::new(seed);
        while self.tally.calls < self.limit {
            if let Err(difference) = self.list(g) {
                return Some(difference);
            }
        }
        None
    }
}

fn places(of: &str, here: &[f32], there: &[f32]) {
    for (i, (a, b)) in here.iter().zip(there).enumerate() {
        if bits(*a) != bits(*b) {
            println!("  {of}[{i}]: {} here, {} there", hex(&[*a]), hex(&[*b]));
        }
    }
    if here.len() != there.len() {
        println!("  {of}: {} numbers here, {} there", here.len(), there.len());
    }
}

pub fn show_study(s: &Study) {
    println!("  settings {}, built {}", hex(&s.settings), s.built);
    for n in s.bodies.chunks(10) {
        println!("  body {}", hex(n));
    }
    for (j, w) in s.words.chunks(WORDS).enumerate() {
        println!("  words {j} {w:?}");
    }
    for (j, n) in s.numbers.chunks(42).enumerate() {
        println!("  numbers {j} {}", hex(n));
    }
    for n in s.rows.chunks(ROW) {
        println!("  row {}", hex(n));
    }
}

pub fn show(difference: &Difference) {
    let Difference {
        before,
        call,
        sides: [(here, answer), (there, other)],
    } = difference;
    println!("{call:?} differs. Handed over:");
    show_study(before);
    for (side, answer) in [("here", answer), ("there", other)] {
        println!("{side}: answer {}", answer.code);
        if answer.outside {
            println!("  wrote outside the lent storage");
        }
    }
    if answer.ids != other.ids {
        println!("  ids {:?} here, {:?} there", answer.ids, other.ids);
    }
    if here.built != there.built {
        println!("  built {} here, {} there", here.built, there.built);
    }
    for (i, (a, b)) in here.words.iter().zip(&there.words).enumerate() {
        if a != b {
            println!("  words[{i}]: {a} here, {b} there");
        }
    }
    places("out", &answer.out, &other.out);
    places("settings", &here.settings, &there.settings);
    places("bodies", &here.bodies, &there.bodies);
    places("numbers", &here.numbers, &there.numbers);
    places("rows", &here.rows, &there.rows);
}

fn share(part: u64, whole: u64) -> f64 {
    100.0 * part as f64 / whole.max(1) as f64
}

pub fn compare(other: Side, seed: u64, calls: u64) {
    let mut run = Run::new(other, calls);
    let difference = run.lists(seed);
    let t = &run.tally;
    if let Some(difference) = difference {
        println!("study {}, call {} of all:", t.studies, t.calls);
        show(&difference);
        exit(1)
    }
    println!(
        "{} calls on {} studies, {} alterations, no difference, seed {seed}",
        t.calls, t.studies, t.alterations
    );
    println!("granted, then refused by 1 to 16:");
    for (kind, by) in KINDS.iter().zip(&t.by_kind) {
        println!("  {kind:13} {by:?}");
    }
    let covered = t.choices.iter().filter(|c| **c).count();
    let [bodies, joints, rows] = t.largest;
    println!(
        "{covered} of 4096 mask choices built; at most {bodies} bodies, {joints} joints, {rows} rows"
    );
    let [on, by_body, off] = t.off;
    println!("joints built: {on} enabled, {by_body} disabled by a body, {off} disabled");
    let [[pairs, of_pairs], [angles, of_angles]] = t.typed;
    println!(
        "centres typed as cosine and sine: {pairs}, {of_pairs} with an angular limit row; as an angle: {angles}, {of_angles}"
    );
    let [records, overridden] = t.records;
    println!("{records} records of tables set, {overridden} of them overridden by a later one");
    println!(
        "{} rows built, with a NaN {:.1} %; {} sweeps, with a NaN in a velocity {:.1} %",
        t.rows,
        share(t.rows_with_nan, t.rows),
        t.sweeps,
        share(t.sweeps_with_nan, t.sweeps)
    );
    let [motors, at_bound] = t.motors;
    println!("{motors} motor rows in the last rounds of sweeps, {at_bound} of them low or high");
    let [fewer, equal, more] = t.changes;
    println!(
        "mask changes granted: {fewer} to fewer rows, {equal} to as many, {more} to more; {} of joints that are switched off",
        t.changes_off
    );
    let [granted, refused] = t.by_new_total;
    println!(
        "  {granted} granted with storage short of the old total, {refused} refused by 8 with storage for it, {} of a missing joint refused by 8, {} refused for an old mask",
        t.missing_short, t.old_mask
    );
    let [others, stores] = t.altered;
    println!(
        "granted where a first row was not the sum: {stores} loads and mask changes, {others} other calls"
    );
    let by_substeps: Vec<String> = t.frames[1..].iter().map(u64::to_string).collect();
    println!("frames granted, by 1 to 16 substeps: {}", by_substeps.join(" "));
    println!(
        "  {} with a coefficient, {} on a model that was not built, {} that left a velocity which is not finite",
        t.frames_warm, t.frames_unbuilt, t.frames_wild
    );
    let [only, first, middle, last] = t.stopped;
    println!(
        "  refused by a new pose: {only} in their only substep, {first} in the first, {middle} in a middle one, {last} in the last of several"
    );
}

/// Each fault's number of calls until a difference, of pairs, and of lines in the stored answers.
pub fn faults(seed: u64, calls: u64, pairs: u64) {
    println!("| fault | calls | seen in | pairs | answers |\n|---|---|---|---|---|");
    let text = answers::text();
    let mut unseen = 0;
    for (i, what) in model_rendering::FAULTS.iter().enumerate() {
        model_rendering::carry(i as u32 + 1);
        let mut run = Run::new(RENDERING, calls);
        let difference = run.lists(seed);
        let (number, seen) = match &difference {
            Some(d) => (run.tally.calls.to_string(), KINDS[d.call.kind()]),
            None => (format!("none in {}", run.tally.calls), ""),
        };
        unseen += difference.is_none() as u32;
        let pairs = pairs::seen(seed, pairs).map_or(String::new(), |n| n.to_string());
        let stored = match answers::replay(RENDERING, &text) {
            (agree, Some(_)) => (agree + 1).to_string(),
            _ => String::new(),
        };
        println!(
            "| {}: {what} | {number} | {seen} | {pairs} | {stored} |",
            i + 1
        );
    }
    println!(
        "\n{} faults, {unseen} not seen",
        model_rendering::FAULTS.len()
    );
}
