//! A second rendering of the model in space, over `spatial_rendering.rs`. It shares no step with spatial_model.rs, and it can carry one fault of
//! `FAULTS` at a time.

use crate::spatial_model::{Answer, Call, GRANTED, Study};
use crate::spatial_rendering as rendering;
use std::sync::atomic::{AtomicU32, Ordering};

static FAULT: AtomicU32 = AtomicU32::new(0);

/// Carries fault `number` from here on; 0 is none.
pub fn carry(number: u32) {
    FAULT.store(number, Ordering::Relaxed)
}

/// Fault k is entry k − 1.
pub const FAULTS: [&str; 129] = [
    // The order of the rules.
    "rules 1 and 2 exchanged",
    "rules 2 and 3 exchanged",
    "rules 3 and 17 exchanged",
    "rules 17 and 4 exchanged",
    "rules 4 and 5 exchanged",
    "rules 5 and 6 exchanged",
    "rules 6 and 7 exchanged",
    "rules 7 and 8 exchanged",
    "rules 8 and 9 exchanged",
    "rules 9 and 10 exchanged",
    "rules 10 and 11 exchanged",
    "17 is tried last",
    "one joint goes through rules 3 to 6 before the next",
    "one joint goes through rules 3 and 17 before the next",
    // Rules 1 to 3.
    "128 bodies are refused",
    "129 bodies are not refused",
    "128 joints are refused",
    "129 joints are not refused",
    "a part of a body's record counts as a body",
    "joints are counted by their words alone, for rule 2",
    "mask 63 is refused",
    "mask 64 is not refused by 3",
    "3 has the plane's bound, 7",
    "3 has the bound 7 for limit and motor masks",
    "3 does not look at the coupled mask",
    "3 looks at the first joint's masks alone",
    "3 cuts a mask above 255 to 8 bits first",
    "3 cuts a mask above 63 to 6 bits first",
    // Rule 17.
    "17 passes over bits on locked axes",
    "17 passes over joints that are switched off",
    "17 does not look at limit bits",
    "17 does not look at motor bits",
    "17 does not look at coupled bits",
    "17 looks at coupled angular bits alone",
    "17 looks at coupled linear bits alone",
    "17 looks at the first joint alone",
    "17 takes axis 2 for an angular one",
    "17 refuses angular locks",
    "17 is tried by builds alone",
    // Rules 4 and 5.
    "a body whose number is the body count is present",
    "the second body is not looked at",
    "the world is no body for a joint",
    "a joint from the world to the world is not refused",
    "only a joint from the world to the world names one body twice",
    // Rules 6 and 7.
    "velocities are looked at",
    "stored impulses are looked at",
    "an infinite maximum force is refused",
    "an infinite limit end is refused",
    "a NaN limit end is not refused",
    "a NaN maximum force is not refused",
    "an infinite target position is not refused",
    "the softness is not looked at",
    "frame 2 is not looked at",
    "a frame's w is not looked at",
    "a frame's z is not looked at",
    "the inverse inertia is not looked at",
    "m33 is not looked at",
    "the third inverse mass is not looked at",
    "the last body is not looked at",
    "the setting normalized_max_corrective_velocity is not looked at",
    "motors without a motor row are not looked at",
    "the limits of axis 2 are not looked at",
    "the coefficient is looked at where none is given",
    "the coefficient is not looked at in substep 0",
    "a new pose is looked at only if its body is present",
    "a new pose: its rotation alone is looked at",
    "a new pose: its last number is not looked at",
    "dt = −0 is refused",
    "dt = 0 is refused",
    // Rule 8.
    "storage of just the total is refused",
    "a part of a row counts as a row",
    "place tries rule 8",
    "load passes over rule 8",
    "a velocity read tries rule 8",
    "storage is asked for nine rows a joint",
    // Rules 9 to 11.
    "a sweep of 64 is refused",
    "a sweep of 65 is not refused",
    "a row read needs no build",
    "write-back needs no build",
    "place needs a build",
    "a warm build in substep 0 needs a build",
    "a cold build in a later substep needs a build",
    "a warm build in substep 1 needs no build",
    "the world is present when asked for",
    "a joint whose number is the joint count is present",
    // The mark.
    "load keeps the mark",
    "place clears the mark",
    "a refused build marks the model built",
    "a refused build clears the mark",
    // Place and build.
    "place leaves the translation",
    "place normalises the rotation",
    "place turns the inertia",
    "only the first joint is built",
    "a joint's rows begin at nine times its number",
    "last impulses are read after the new rows are written",
    "last impulses are read from the storage's first rows",
    "stored impulses are joint 0's",
    "a row past the total is cleared",
    "the total leaves out the last joint",
    "the world stands where body 0 stands",
    // Sweep, warm start, bias removal, write-back, reads.
    "one round for n",
    "joints descending",
    "each joint goes n rounds before the next",
    "velocities are kept across a joint's rows, the world's too",
    "the world's writes go to body 0",
    "body 2's velocity is not written",
    "warm start of the first joint's rows alone",
    "bias removal in all of the storage",
    "write-back goes to the joint's first id",
    "write-back of the last joint's rows alone",
    "write-back of angular locks left out",
    "a row read returns rows from the storage's start",
    "a row read numbers ids as in the plane",
    "a velocity read returns the angular velocity first",
    "a velocity read returns the linear velocity twice",
    // Joints that are switched off.
    "a joint that is switched off still has rows",
    "only the word of Disabled switches a joint off",
    "a word above 2 is Enabled",
    "a joint that is switched off still counts for rule 8 and the places of rows",
    "a joint that is switched off is not looked at by rules 3 to 6",
    "write-back clears what a joint that is switched off has stored",
    "a row read of a joint that is switched off is refused",
    // Motors at a bound.
    "a motor just at a bound counts",
    "every row at a bound counts",
    "the first round's counts are returned",
    "a NaN counts",
    "counts of one joint stand at the next",
    "counts are added up over the rounds",
    "only an impulse above the upper bound counts",
];

fn fault(number: u32) -> bool {
    FAULT.load(Ordering::Relaxed) == number
}

macro_rules! or(
    ($number: expr, $right: expr, $wrong: expr) => { if fault($number) { $wrong } else { $right } }
);

const WORLD: u32 = 4294967295;
/// Where motors and limits of axes 0, 1, 2 begin in a joint's numbers.
const MOTORS: [usize; 3] = [23, 29, 35];
const LIMITS: [usize; 3] = [14, 17, 20];
const DOFS: std::ops::Range<usize> = 43..49;

/// A joint as the model has it.
struct Joint {
    words: [u32; 10],
    numbers: [f32; 49],
    ids: Vec<u32>,
    /// Whether it is switched off.
    off: bool,
    /// Rows that are counted for it whatever its ids; none but by a fault.
    takes: usize,
    /// Place of its first row.
    first: usize,
}

impl Joint {
    /// Its locked, limit, motor and coupled mask.
    fn masks(&self) -> &[u32] {
        &self.words[2..6]
    }

    /// Its row, alone.
    fn single(&self, k: usize) -> Joint {
        Joint {
            words: self.words,
            numbers: self.numbers,
            ids: vec![self.ids[k]],
            off: self.off,
            takes: self.takes,
            first: self.first + k,
        }
    }
}

fn joints(s: &Study) -> Vec<Joint> {
    let mut next = 0;
    let mut all = Vec::new();
    for (w, n) in s.words.chunks_exact(10).zip(s.numbers.chunks_exact(49)) {
        // Bits that no legal mask has make no rows.
        let named = rendering::ids(&[w[2] & 63, w[3] & 7, w[4] & 7, 0]);
        let off = match w[9] {
            0 => false,
            1 => !fault(117),
            2 => true,
            _ => !fault(118),
        };
        let ids = if off && !fault(116) {
            vec![]
        } else {
            named.clone()
        };
        let first = or!(94, next, 9 * all.len());
        next += or!(119, ids.len(), named.len());
        all.push(Joint {
            words: w.try_into().unwrap(),
            numbers: n.try_into().unwrap(),
            ids,
            off,
            takes: or!(119, 0, named.len()),
            first,
        });
    }
    all
}

fn count_of(joints: &[Joint]) -> usize {
    joints.iter().map(|j| j.ids.len().max(j.takes)).sum()
}

fn wild(n: &[f32]) -> bool {
    n.iter().any(|x| !x.is_finite())
}

fn strange(n: &[f32]) -> bool {
    n.iter().any(|x| x.is_nan())
}

/// Whether rule 6 refuses a joint's numbers.
fn joint_wild(joint: &Joint) -> bool {
    let n = &joint.numbers;
    let frame = |at: usize| {
        wild(&n[at..at + 3])
            || wild(&n[at + 3..at + 4]) && !fault(54)
            || wild(&n[at + 4..at + 6])
            || wild(&n[at + 6..at + 7]) && !fault(55)
    };
    let motor = |i: usize| {
        let at = MOTORS[i];
        let used = !fault(61) || joint.ids.contains(&(16 + i as u32));
        let target_pos = or!(51, wild(&n[at + 1..at + 2]), n[at + 1].is_nan());
        let force = &n[at + 4..at + 5];
        used && (wild(&n[at..at + 1])
            || target_pos
            || wild(&n[at + 2..at + 4])
            || or!(47, strange(force), wild(force)) && !fault(50)
            || fault(46) && strange(&n[at + 5..at + 6]))
    };
    let limit = |i: usize| {
        let at = LIMITS[i];
        let ends = &n[at..at + 2];
        let bad = or!(48, strange(ends), wild(ends)) && !fault(49);
        bad && !(fault(62) && i == 2) || fault(46) && wild(&n[at + 2..at + 3])
    };
    frame(0)
        || frame(7) && !fault(53)
        || (0..3).any(limit)
        || (0..3).any(motor)
        || wild(&n[41..43]) && !fault(52)
        || fault(46) && wild(&n[DOFS])
}

/// Whether rule 3 refuses a joint's masks.
fn mask_bad(joint: &Joint) -> bool {
    let masks = &joint.masks()[..or!(25, 4, 3)];
    masks.iter().enumerate().any(|(k, m)| {
        let m = or!(28, or!(27, *m, *m & 255), *m & 63);
        let most = or!(23, or!(22, or!(21, 63, 62), 64), 7);
        m > or!(24, most, if k == 1 || k == 2 { 7 } else { most })
    })
}

/// Whether rule 17 refuses a joint's masks.
fn angular_bad(joint: &Joint) -> bool {
    let [l, t, m, c] = joint.masks() else {
        unreachable!()
    };
    let free = or!(29, !0, !*l);
    let linear = or!(37, 7, 3);
    let coupled = or!(35, or!(34, *c, *c & !7), *c & 7) & free;
    coupled != 0 && !fault(33)
        || t & free & !linear != 0 && !fault(31)
        || m & free & !linear != 0 && !fault(32)
        || fault(38) && l & !7 != 0
}

/// The rules in checking order, and whether each refuses.
fn rules(s: &Study, call: &Call) -> Vec<(u64, bool)> {
    let all = joints(s);
    let looked_at = |j: &&Joint| !(fault(120) && j.off);
    let parts = or!(19, s.bodies.len(), s.bodies.len() + 21) / 22;
    let bodies = parts as u64;

    let too_many = bodies > or!(16, or!(15, 128, 127), 129);
    let counted = or!(20, all.len(), s.words.len() / 10);
    let too_jointed = counted > or!(18, or!(17, 128, 127), 129);
    let stray = |j: &Joint| {
        let named = &j.words[..or!(41, 2, 1)];
        named.iter().any(|b| {
            let here = (*b as u64) < or!(40, bodies, bodies + 1);
            !(here || *b == WORLD && !fault(42))
        })
    };
    let twice = |j: &Joint| {
        j.words[0] == j.words[1]
            && (j.words[0] != WORLD || !fault(43))
            && (j.words[0] == WORLD || !fault(44))
    };
    let records: Vec<&[f32]> = s.bodies.chunks_exact(22).collect();
    let looked = &records[..or!(59, records.len(), records.len().saturating_sub(1))];
    let body_wild = |n: &[f32]| {
        wild(&n[..7])
            || wild(&n[7..or!(57, 13, 12)]) && !fault(56)
            || wild(&n[13..or!(58, 16, 15)])
            || fault(45) && wild(&n[16..])
    };
    let asked = match call {
        Call::Place { body, pose } => {
            let looked = &pose[..or!(67, or!(66, 7, 4), 6)];
            wild(looked) && (!fault(65) || (*body as u64) < bodies)
        }
        Call::Build {
            warm,
            coefficient,
            substep,
        } => (*warm || fault(63)) && !coefficient.is_finite() && !(fault(64) && *substep == 0),
        _ => false,
    };
    let any_wild = wild(&s.settings[..or!(60, 3, 2)])
        || looked.iter().any(|n| body_wild(n))
        || all.iter().filter(looked_at).any(joint_wild)
        || asked;
    let dt = s.settings[0];
    let backwards =
        dt < 0.0 || fault(68) && dt.to_bits() == 0x8000_0000 || fault(69) && dt.to_bits() == 0;

    let needed = or!(75, count_of(&all), 9 * all.len());
    let room = or!(71, s.rows.len(), s.rows.len() + 28) / 29;
    let lent = match call {
        Call::Place { .. } => fault(72),
        Call::ReadVelocity(_) => fault(74),
        Call::Load => !fault(73),
        _ => true,
    };
    let short = lent && (room < needed || fault(70) && room == needed);

    let most = or!(77, or!(76, 64, 63), 65);
    let too_long = matches!(call, Call::Sweep(n) if *n > most);
    let first_needed = match call {
        Call::Load | Call::ReadVelocity(_) => false,
        Call::Place { .. } => fault(80),
        Call::Build { warm, substep, .. } => match (warm, substep) {
            (true, 0) => fault(81),
            (true, 1) => !fault(83),
            (true, _) => true,
            (false, 0) => false,
            (false, _) => fault(82),
        },
        Call::ReadRows(_) => !fault(78),
        Call::WriteBack => !fault(79),
        _ => true,
    };
    let unbuilt = first_needed && !s.built;
    let absent = match call {
        Call::Place { body, .. } | Call::ReadVelocity(body) => {
            *body as u64 >= bodies && !(fault(84) && *body == WORLD)
        }
        Call::ReadRows(joint) => {
            *joint as usize >= or!(85, all.len(), all.len() + 1)
                || fault(122) && all[*joint as usize].off
        }
        _ => false,
    };

    let first = |number: u32| &all[..or!(number, all.len(), all.len().min(1))];
    let seventeen = first(36)
        .iter()
        .filter(looked_at)
        .filter(|j| !(fault(30) && j.off))
        .any(angular_bad)
        && !(fault(39) && !matches!(call, Call::Build { .. }));
    let mut of_joints = [
        (3, first(26).iter().filter(looked_at).any(mask_bad)),
        (17, seventeen),
        (4, all.iter().filter(looked_at).any(stray)),
        (5, all.iter().filter(looked_at).any(twice)),
        (6, any_wild),
    ];
    let by_joint = or!(13, or!(14, 0, 2), 5);
    if by_joint > 0 {
        let broken = |j: &Joint| {
            [
                mask_bad(j),
                angular_bad(j),
                stray(j),
                twice(j),
                joint_wild(j),
            ][..by_joint]
                .to_vec()
        };
        if let Some(first) = all.iter().map(broken).find(|b| b.contains(&true)) {
            for (rule, broken) in of_joints.iter_mut().zip(first) {
                rule.1 = broken;
            }
        }
    }
    let mut order = vec![(1, too_many), (2, too_jointed)];
    order.extend(of_joints);
    order.extend([
        (7, backwards),
        (8, short),
        (9, too_long),
        (10, unbuilt),
        (11, absent),
    ]);
    for k in 0..11 {
        if fault(k as u32 + 1) {
            order.swap(k, k + 1);
        }
    }
    if fault(12) {
        let rule = order.remove(3);
        order.push(rule);
    }
    order
}

/// Body i's numbers; the world's for every number that has no body.
fn body(s: &Study, i: u32) -> [f32; 22] {
    let i = if fault(100) && i == WORLD { 0 } else { i };
    let mut world = [0.0; 22];
    world[3] = 1.0;
    let place = s.bodies.chunks_exact(22).nth(i as usize);
    place.map_or(world, |n| n.try_into().unwrap())
}

fn velocity(s: &Study, i: u32) -> [f32; 6] {
    let place = s.bodies.chunks_exact(22).nth(i as usize);
    place.map_or([0.0; 6], |n| n[16..].try_into().unwrap())
}

fn put_velocity(s: &mut Study, i: u32, vel: &[f32]) {
    let i = if fault(105) && i == WORLD { 0 } else { i };
    if let Some(n) = s.bodies.chunks_exact_mut(22).nth(i as usize) {
        n[16..].copy_from_slice(vel);
    }
}

/// A body at a new pose.
fn place(n: &mut [f32], pose: &[f32; 7]) {
    let mut pose = *pose;
    if fault(91) {
        let length = rendering::dot4(
            [pose[0], pose[1], pose[2], pose[3]],
            [pose[0], pose[1], pose[2], pose[3]],
        )
        .sqrt();
        pose[..4].iter_mut().for_each(|x| *x /= length);
    }
    if fault(92) {
        let q = [pose[0], pose[1], pose[2], pose[3]];
        let columns = rendering::matrix(q).map(|c| rendering::inertia(&n[7..13], c));
        n[7..10].copy_from_slice(&columns[0]);
    }
    let many = or!(90, 7, 4);
    n[..many].copy_from_slice(&pose[..many]);
}

fn build(s: &mut Study, all: &[Joint], warm: Option<f32>, substep: u32) -> usize {
    let built = &all[..or!(93, all.len(), all.len().min(1))];
    for joint in built.iter().filter(|j| !j.off || fault(116)) {
        let mut n = s.settings.to_vec();
        n.extend(&body(s, joint.words[0])[..16]);
        n.extend(&body(s, joint.words[1])[..16]);
        n.extend(joint.numbers);
        n.push(warm.unwrap_or(0.0));
        if fault(97) {
            for k in [16, 19, 22, 28, 34, 40].into_iter().chain(DOFS) {
                n[35 + k] = all[0].numbers[k];
            }
        }
        let mut words = joint.words[2..9].to_vec();
        words.extend([warm.is_some() as u32, substep]);

        let (first, length) = (joint.first * 29, joint.ids.len() * 29);
        let mut rows = [0.0; 261];
        let from = or!(96, first, 0);
        if !fault(95) {
            rows[..length].copy_from_slice(&s.rows[from..from + length]);
        }
        let count = rendering::build(&words, &n, &mut rows, &mut [0; 9]);
        assert!(count == joint.ids.len());
        s.rows[first..first + length].copy_from_slice(&rows[..length]);
    }
    let total = count_of(all);
    if fault(98) {
        s.rows[29 * total..][..29].fill(0.0);
    }
    or!(99, total, count_of(&all[..all.len().saturating_sub(1)]))
}

/// A joint's rows in order, by one function of a row and the two velocities.
fn pass(s: &mut Study, joint: &Joint, by: fn(&mut [f32], &mut [f32])) {
    let [one, two] = [joint.words[0], joint.words[1]];
    let read = |s: &Study| [velocity(s, one), velocity(s, two)].concat();
    let mut vels = read(s);
    for k in joint.first..joint.first + joint.ids.len() {
        if !fault(104) {
            vels = read(s);
        }
        by(&mut s.rows[29 * k..][..29], &mut vels);
        put_velocity(s, one, &vels[..6]);
        if !fault(106) {
            put_velocity(s, two, &vels[6..]);
        }
    }
}

/// Whether an impulse is wanted that the row's bounds do not allow.
fn stopped(row: &[f32], vels: &[f32]) -> bool {
    let wanted = rendering::wanted(row, vels);
    let [low, high] = [row[1], row[2]];
    let below = or!(129, or!(123, wanted < low, wanted <= low), false);
    let above = or!(123, wanted > high, wanted >= high);
    below || above || fault(126) && wanted.is_nan()
}

/// How many of the joint's motor rows the pass finds at a bound; then the pass.
fn counted_pass(s: &mut Study, joint: &Joint) -> u32 {
    let mut count = 0;
    let [one, two] = [joint.words[0], joint.words[1]];
    // Row by row on a copy, so that the pass itself stays as it is for every call.
    let mut copy = s.clone();
    for (k, id) in joint.ids.iter().enumerate() {
        let vels = [velocity(&copy, one), velocity(&copy, two)].concat();
        let row = copy.rows[29 * (joint.first + k)..][..29].to_vec();
        let motor = or!(124, id / 8 == 2, true);
        count += u32::from(motor && stopped(&row, &vels));
        pass(&mut copy, &joint.single(k), rendering::step);
    }
    pass(s, joint, rendering::step);
    count
}

fn sweep(s: &mut Study, all: &[Joint], n: u32) -> Vec<u32> {
    let rounds = or!(101, n, n.min(1));
    let [outer, inner] = or!(103, [rounds, 1], [1, rounds]);
    let mut counts = vec![0; all.len()];
    for round in 0..outer {
        for k in 0..all.len() {
            let j = or!(102, k, all.len() - 1 - k);
            for turn in 0..inner {
                let last = or!(
                    125,
                    round + 1 == outer && turn + 1 == inner,
                    round + turn == 0
                );
                if last || fault(128) {
                    let at = or!(127, j, (j + 1) % all.len());
                    counts[at] = counted_pass(s, &all[j]) + or!(128, 0, counts[at]);
                } else {
                    pass(s, &all[j], rendering::step);
                }
            }
        }
    }
    counts
}

fn write_back(s: &mut Study, all: &[Joint]) {
    let from = or!(110, 0, all.len().saturating_sub(1));
    for (j, joint) in all.iter().enumerate().skip(from) {
        let own = &mut s.numbers[49 * j..][..49];
        if fault(121) && joint.off {
            let [l, t, m, _] = joint.masks() else {
                unreachable!()
            };
            for id in rendering::ids(&[*l, *t, *m, 0]) {
                rendering::writeback(id, 0.0, own);
            }
        }
        for (k, id) in joint.ids.iter().enumerate() {
            let impulse = s.rows[29 * (joint.first + k)];
            let id = or!(109, *id, joint.ids[0]);
            if !(fault(111) && (3..6).contains(&id)) {
                rendering::writeback(id, impulse, own);
            }
        }
    }
}

/// Makes the call; a refused one changes nothing.
pub fn call(s: &mut Study, call: &Call) -> Answer {
    let mut answer = Answer::none(call);
    if let Some((number, _)) = rules(s, call).into_iter().find(|rule| rule.1) {
        answer.code = number;
        if let Call::Build { .. } = call {
            s.built = or!(89, or!(88, s.built, true), false);
        }
        return answer;
    }
    let all = joints(s);
    // A faulty rule 8 or place of rows must not end the program.
    let length = s.rows.len();
    s.rows.resize(length.max(29 * 9 * (all.len() + 1)), 0.0);
    match *call {
        Call::Load => s.built = fault(86) && s.built,
        Call::Place { body, pose } => {
            if let Some(n) = s.bodies.chunks_exact_mut(22).nth(body as usize) {
                place(n, &pose);
            }
            s.built = s.built && !fault(87);
        }
        Call::Build {
            warm,
            coefficient,
            substep,
        } => {
            let total = build(s, &all, warm.then_some(coefficient), substep);
            answer.code = GRANTED + total as u64;
            s.built = true;
        }
        Call::WarmStart => {
            for joint in all.iter().take(or!(107, all.len(), 1)) {
                pass(s, joint, rendering::warmstart);
            }
        }
        Call::Sweep(n) => {
            let counts = sweep(s, &all, n);
            answer.ids.fill(0);
            answer.ids[..counts.len()].copy_from_slice(&counts);
        }
        Call::RemoveBias => {
            let rows = or!(108, count_of(&all), length / 29);
            for row in s.rows.chunks_exact_mut(29).take(rows) {
                rendering::remove_bias(row);
            }
        }
        Call::WriteBack => write_back(s, &all),
        Call::ReadRows(joint) => {
            if let Some(joint) = all.get(joint as usize) {
                let first = or!(112, joint.first, 0) * 29;
                let length = joint.ids.len() * 29;
                answer.out[..length].copy_from_slice(&s.rows[first..first + length]);
                for (place, id) in answer.ids.iter_mut().zip(&joint.ids) {
                    *place = or!(113, *id, id / 8 * 4 + id % 8);
                }
                answer.code = GRANTED + joint.ids.len() as u64;
            }
        }
        Call::ReadVelocity(body) => {
            let vel = velocity(s, body);
            let [linear, angular] = [&vel[..3], &vel[3..]];
            let angular = or!(115, angular, linear);
            answer.out = or!(114, [linear, angular], [angular, linear]).concat();
        }
    }
    s.rows.truncate(length);
    answer
}
