//! The cases of request R-14 and of document 01 about the model in space, on every side that is there.

use crate::library::{Side, same, same_study, sides};
use crate::spatial_model::{
    Answer, BODY, Call, ENABLED, FINITE, GRANTED, JOINT, MOST_ROWS, NUMBER, POSE, POSED, REFUSALS,
    ROW, STORED, Study, WORLD,
};
use std::process::exit;

const INF: f32 = f32::INFINITY;
const COLD: Call = build(None, 0);
const MASKS: usize = 2;

const fn build(warm: Option<f32>, substep: u32) -> Call {
    let (warm, coefficient) = match warm {
        Some(coefficient) => (true, coefficient),
        None => (false, 0.0),
    };
    Call::Build {
        warm,
        coefficient,
        substep,
    }
}

/// A body of unit masses and inertia at (x, 0, 0).
fn body(x: f32) -> [f32; BODY] {
    let mut n = [0.0; BODY];
    n[3] = 1.0;
    n[4] = x;
    n[7..POSED].copy_from_slice(&[1.0, 0.0, 0.0, 1.0, 0.0, 1.0, 1.0, 1.0, 1.0]);
    n
}

/// Identity frames, limits [−1, 1], motors of force 1, stored impulses 1 to 12.
fn numbers() -> [f32; JOINT] {
    let mut n = [0.0; JOINT];
    for i in 0..3 {
        n[14 + 3 * i..][..2].copy_from_slice(&[-1.0, 1.0]);
        n[23 + 6 * i..][..5].copy_from_slice(&[1.0, 0.0, 1.0, 1.0, 1.0]);
    }
    for (k, at) in STORED.into_iter().enumerate() {
        n[at] = 1.0 + k as f32;
    }
    n[3] = 1.0;
    n[10] = 1.0;
    n[41..43].copy_from_slice(&[1.0e6, 1.0]);
    n
}

/// Bodies in a line, two apart; joints with these ends and masks; storage of nine rows a joint.
fn study(bodies: usize, joints: &[([u32; 2], [u32; 4])]) -> Study {
    let mut s = Study {
        settings: [1.0 / 64.0, 1.0, 3.0],
        built: false,
        bodies: (0..bodies).flat_map(|i| body(2.0 * i as f32)).collect(),
        words: Vec::new(),
        numbers: Vec::new(),
        rows: vec![0.5; joints.len() * MOST_ROWS * ROW],
    };
    for (ends, masks) in joints {
        s.words.extend(ends);
        s.words.extend(masks);
        s.words.extend([0; 4]);
        s.numbers.extend(numbers());
    }
    s
}

/// Two bodies, a joint between them and one to the world: 6 and 9 rows.
fn arm() -> Study {
    let mut s = study(2, &[([0, 1], [63, 0, 0, 0]), ([1, WORLD], [56, 7, 7, 0])]);
    for (i, n) in s.bodies.chunks_exact_mut(BODY).enumerate() {
        n[POSED..].copy_from_slice(&[1.0, 2.0 + i as f32, 3.0, 0.5, 0.25, -1.0]);
    }
    s
}

struct Cases {
    side: Side,
    name: &'static str,
    count: u32,
}

impl Cases {
    fn expect(&mut self, what: &str, holds: bool) {
        self.count += 1;
        if !holds {
            println!("{what}: not so by {}", self.name);
            exit(1)
        }
    }

    /// The call's answer on the study as it is; a refused call changes nothing.
    fn code(&mut self, s: &Study, call: &Call) -> u64 {
        let mut after = s.clone();
        let answer = (self.side)(&mut after, call);
        if !answer.granted() {
            let blank = Answer::none(call);
            let left = same_study(s, &after) && same(&blank.out, &answer.out);
            self.expect(&format!("{call:?} refused changes nothing"), left);
        }
        answer.code
    }

    fn refused(&mut self, what: &str, s: &Study, call: &Call, rule: u64) {
        let code = self.code(s, call);
        self.expect(
            &format!("{what}: {call:?} refused by {rule}, not {code}"),
            code == rule,
        );
    }

    fn granted(&mut self, what: &str, s: &Study, call: &Call) {
        let code = self.code(s, call);
        let holds = code == 0 || code >= GRANTED;
        self.expect(&format!("{what}: {call:?} granted, not {code}"), holds);
    }

    /// A granted call.
    fn done(&mut self, s: &mut Study, call: &Call) -> Answer {
        let answer = (self.side)(s, call);
        self.expect(&format!("{call:?} granted"), answer.granted());
        answer
    }

    fn built(&mut self, mut s: Study) -> Study {
        self.done(&mut s, &COLD);
        s
    }

    /// Masks: rules 3 and 17.
    fn masks(&mut self) {
        let load = &Call::Load;
        let with = |masks: [u32; 4]| study(2, &[([0, 1], masks)]);
        for masks in [[63, 7, 7, 0], [0, 0, 0, 0], [56, 7, 7, 0], [63, 0, 0, 0]] {
            self.granted(&format!("masks {masks:?}"), &with(masks), load);
        }
        for masks in [
            [0, 8, 0, 0],
            [63, 8, 0, 0],
            [0, 0, 32, 0],
            [0, 0, 0, 1],
            [0, 0, 0, 63],
            [63, 63, 63, 0],
        ] {
            self.refused(&format!("masks {masks:?}"), &with(masks), load, 17);
        }
        for masks in [
            [64, 0, 0, 0],
            [0, 0, 0, 64],
            [0, 64, 8, 1],
            [0, 0, 64, 0],
            [256, 0, 0, 0],
            [0, 0, 0, u32::MAX],
        ] {
            self.refused(&format!("masks {masks:?}"), &with(masks), load, 3);
        }
        for bit in 0..32 {
            for k in 0..4 {
                let mut masks = [0; 4];
                masks[k] = 1 << bit;
                let rule = match (k, bit) {
                    (_, 6..) => 3,
                    (3, _) => 17,
                    (1 | 2, 3..) => 17,
                    _ => 0,
                };
                for call in [&Call::Load, &COLD, &Call::ReadVelocity(0), &Call::Sweep(1)] {
                    let mut s = with(masks);
                    s.built = true;
                    match rule {
                        0 => self.granted("one bit", &s, call),
                        _ => self.refused("one bit", &s, call, rule),
                    }
                }
            }
        }
        // An absent body comes after 17, and 3 of a later joint before 17 of an earlier one.
        let absent = study(2, &[([0, 9], [0, 8, 0, 0])]);
        self.refused("an absent body and an angular limit", &absent, load, 17);
        let wide = study(2, &[([0, 1], [0, 0, 0, 1]), ([0, 1], [64, 0, 0, 0])]);
        self.refused("17 of joint 0, 3 of joint 1", &wide, load, 3);
        for word in [1, 2, 3, u32::MAX] {
            let mut off = with([63, 8, 0, 0]);
            off.words[ENABLED] = word;
            self.refused(
                "an angular limit of a joint that is switched off",
                &off,
                load,
                17,
            );
            off.words[MASKS..][..4].copy_from_slice(&[63, 7, 7, 64]);
            self.refused("a wide mask of a joint that is switched off", &off, load, 3);
        }
    }

    /// Bounds: rules 1, 2, 4, 5, 8, 9, 10, 11, and what a slice holds.
    fn counts(&mut self) {
        let load = &Call::Load;
        let empty = study(0, &[]);
        self.granted("nothing at all", &empty, load);
        let code = self.code(&empty, &COLD);
        self.expect("no joint makes no row", code == GRANTED);

        self.granted("128 bodies", &study(128, &[]), load);
        self.refused("129 bodies", &study(129, &[]), load, 1);
        let mut part = study(128, &[]);
        part.bodies.extend([f32::NAN; BODY - 1]);
        self.granted("128 bodies and 21 numbers", &part, load);
        self.refused("a part of a body", &part, &Call::ReadVelocity(128), 11);
        let tied = |n: usize| study(2, &vec![([0, 1], [56, 7, 7, 0]); n]);
        self.granted("128 joints", &tied(128), load);
        let code = self.code(&tied(128), &COLD);
        self.expect("128 joints of nine rows", code == GRANTED + 1152);
        self.refused("129 joints", &tied(129), load, 2);
        let mut uneven = tied(129);
        uneven.words.pop();
        self.granted("words of 128 joints and a part", &uneven, load);
        let mut uneven = tied(129);
        uneven.numbers.pop();
        self.granted("numbers of 128 joints and a part", &uneven, load);

        for (ends, rule) in [
            ([0, 2], 4),
            ([2, 0], 4),
            ([WORLD - 1, 0], 4),
            ([0, 0], 5),
            ([WORLD, WORLD], 5),
        ] {
            let s = study(2, &[(ends, [63, 0, 0, 0])]);
            self.refused(&format!("ends {ends:?}"), &s, load, rule);
        }
        for ends in [[0, WORLD], [WORLD, 1], [1, 0]] {
            self.granted(
                &format!("ends {ends:?}"),
                &study(2, &[(ends, [63, 0, 0, 0])]),
                load,
            );
        }

        // Storage.
        let mut s = arm();
        s.rows.truncate(15 * ROW);
        self.granted("storage of just the total", &s, load);
        let code = self.code(&s, &COLD);
        self.expect("nine and six rows", code == GRANTED + 15);
        s.rows.pop();
        for call in [&Call::Load, &COLD] {
            self.refused("storage of a number less", &s, call, 8);
        }
        s.built = true;
        for call in [
            &Call::WarmStart,
            &Call::Sweep(1),
            &Call::RemoveBias,
            &Call::WriteBack,
            &Call::ReadRows(0),
        ] {
            self.refused("storage of a number less", &s, call, 8);
        }
        let pose = [0.0, 0.0, 0.0, 1.0, 5.0, 6.0, 7.0];
        self.granted("no storage", &s, &Call::Place { body: 0, pose });
        self.granted("no storage", &s, &Call::ReadVelocity(1));

        // Rounds, the mark, indices.
        let s = self.built(arm());
        self.granted("a sweep", &s, &Call::Sweep(64));
        self.refused("a sweep", &s, &Call::Sweep(65), 9);
        let unbuilt = arm();
        self.refused("9 before 10", &unbuilt, &Call::Sweep(65), 9);
        for call in [
            &Call::WarmStart,
            &Call::Sweep(1),
            &Call::RemoveBias,
            &Call::WriteBack,
            &Call::ReadRows(9),
            &build(Some(1.0), 1),
        ] {
            self.refused("not built", &unbuilt, call, 10);
        }
        for call in [&build(Some(1.0), 0), &build(None, 1), &COLD] {
            self.granted("not built", &unbuilt, call);
        }
        for joint in [2, WORLD] {
            self.refused("no such joint", &s, &Call::ReadRows(joint), 11);
        }
        for body in [2, WORLD] {
            self.refused("no such body", &s, &Call::ReadVelocity(body), 11);
            self.refused("no such body", &s, &Call::Place { body, pose }, 11);
        }
    }

    /// Rules 6 and 7: each number of a body and of a joint, each bad value.
    fn finite(&mut self) {
        let good = arm();
        for bad in [f32::NAN, INF, -INF] {
            for i in 0..3 {
                let mut s = good.clone();
                s.settings[i] = bad;
                self.refused("a setting", &s, &Call::Load, 6);
            }
            for i in 0..BODY {
                let mut s = good.clone();
                s.bodies[BODY + i] = bad;
                match i < POSED {
                    true => self.refused(&format!("number {i} of a body"), &s, &Call::Load, 6),
                    false => self.granted(&format!("number {i} of a body"), &s, &Call::Load),
                }
            }
            for i in 0..JOINT {
                let mut s = good.clone();
                s.numbers[JOINT + i] = bad;
                let what = format!("number {i} of a joint");
                if FINITE.contains(&i) || NUMBER.contains(&i) && bad.is_nan() {
                    self.refused(&what, &s, &Call::Load, 6);
                } else {
                    self.granted(&what, &s, &Call::Load);
                }
            }
            for i in 0..POSE {
                let mut pose = [0.0; POSE];
                pose[i] = bad;
                for body in [0, 9] {
                    self.refused("a pose", &good, &Call::Place { body, pose }, 6);
                }
            }
            self.refused("a coefficient", &good, &build(Some(bad), 0), 6);
            self.refused("6 before 10", &good, &build(Some(bad), 1), 6);
            let cold = Call::Build {
                warm: false,
                coefficient: bad,
                substep: 0,
            };
            self.granted("no coefficient", &good, &cold);
        }
        let mut s = good;
        for (dt, rule) in [(-1.0, 7), (-1.0e-45, 7), (0.0, 0), (-0.0, 0)] {
            s.settings[0] = dt;
            match rule {
                0 => self.granted("dt", &s, &Call::Load),
                _ => self.refused("dt", &s, &Call::Load, rule),
            }
        }
        self.expect("twelve rules", REFUSALS.len() == 12);
    }

    /// What calls do, seen from outside.
    fn work(&mut self) {
        // Place changes the pose alone.
        let mut s = arm();
        s.built = true;
        let before = s.clone();
        let pose = [0.1, 0.2, 0.3, 0.4, 5.0, 6.0, 7.0];
        self.done(&mut s, &Call::Place { body: 1, pose });
        let mut wanted = before.clone();
        wanted.bodies[BODY..][..POSE].copy_from_slice(&pose);
        self.expect(
            "place writes a pose and nothing else",
            same_study(&s, &wanted),
        );

        // Rows and ids of a joint.
        let mut s = self.built(arm());
        let read = self.done(&mut s, &Call::ReadRows(0));
        let [dof, limit, motor] = [0, 8, 16];
        self.expect("six rows", read.code == GRANTED + 6);
        self.expect(
            "the ids of six locks",
            read.ids[..6] == [dof + 3, dof + 4, dof + 5, dof, dof + 1, dof + 2],
        );
        self.expect("its rows", same(&read.out[..6 * ROW], &s.rows[..6 * ROW]));
        let read = self.done(&mut s, &Call::ReadRows(1));
        self.expect("nine rows", read.code == GRANTED + 9);
        let nine = [
            motor,
            motor + 1,
            motor + 2,
            dof + 3,
            dof + 4,
            dof + 5,
            limit,
            limit + 1,
            limit + 2,
        ];
        self.expect("the ids of nine rows", read.ids[..] == nine);
        self.expect("its rows", same(&read.out, &s.rows[6 * ROW..15 * ROW]));
        let read = self.done(&mut s, &Call::ReadVelocity(1));
        self.expect("a velocity", read.out == [1.0, 3.0, 3.0, 0.5, 0.25, -1.0]);

        // Warm: each row starts at its own stored impulse.
        let mut s = arm();
        self.done(&mut s, &build(Some(2.0), 0));
        let seeds = |n: &[f32]| -> Vec<f32> {
            let mut all = vec![n[28], n[34], n[40]];
            all.extend(&n[46..49]);
            all.extend([n[16], n[19], n[22]]);
            all
        };
        let of = |s: &Study, j: usize| s.numbers[j * JOINT..][..JOINT].to_vec();
        let impulses = |s: &Study, from: usize, n: usize| -> Vec<f32> {
            (from..from + n).map(|k| s.rows[k * ROW]).collect()
        };
        let twice: Vec<f32> = seeds(&of(&s, 1)).iter().map(|x| 2.0 * x).collect();
        self.expect("nine seeds", impulses(&s, 6, 9) == twice);
        let locks: Vec<f32> = [46, 47, 48, 43, 44, 45]
            .iter()
            .map(|i| 2.0 * s.numbers[*i])
            .collect();
        self.expect("six seeds", impulses(&s, 0, 6) == locks);
        // A later substep starts from the row's last impulse.
        for (k, row) in s.rows.chunks_exact_mut(ROW).enumerate() {
            row[0] = 100.0 + k as f32;
        }
        self.done(&mut s, &build(Some(0.5), 3));
        let halves: Vec<f32> = (0..15).map(|k| 50.0 + k as f32 / 2.0).collect();
        self.expect("last impulses", impulses(&s, 0, 15) == halves);
        self.done(&mut s, &COLD);
        self.expect("no impulses", impulses(&s, 0, 15) == vec![0.0; 15]);

        // A sweep of none changes nothing, and a rerun does the same; the counts are of motors.
        let mut t = s.clone();
        let none = self.done(&mut t, &Call::Sweep(0));
        self.expect(
            "a sweep of no rounds",
            same_study(&s, &t) && none.ids.iter().all(|n| *n == 0),
        );
        let mut again = s.clone();
        let one = self.done(&mut t, &Call::Sweep(3));
        let two = self.done(&mut again, &Call::Sweep(3));
        self.expect(
            "the same sweep",
            same_study(&t, &again) && one.ids == two.ids,
        );
        let mut by_one = s.clone();
        for _ in 0..3 {
            self.done(&mut by_one, &Call::Sweep(1));
        }
        self.expect("three sweeps of one round", same_study(&t, &by_one));
        let mut weak = arm();
        for i in 0..3 {
            weak.numbers[JOINT + 23 + 6 * i..][..5]
                .copy_from_slice(&[1000.0, 0.0, 0.0, 1.0, 1.0e-3]);
        }
        let mut weak = self.built(weak);
        let counts = self.done(&mut weak, &Call::Sweep(2)).ids;
        self.expect(
            "three motors at their bounds",
            counts[..2] == [0, 3] && counts[2..].iter().all(|n| *n == 0),
        );

        // Bias removal and write-back.
        self.done(&mut t, &Call::RemoveBias);
        let freed = t
            .rows
            .chunks_exact(ROW)
            .take(15)
            .all(|r| r[19].to_bits() == r[20].to_bits());
        self.expect("no bias is left", freed);
        for (k, row) in t.rows.chunks_exact_mut(ROW).enumerate() {
            row[0] = 200.0 + k as f32;
        }
        let before = t.clone();
        self.done(&mut t, &Call::WriteBack);
        let mut wanted = before;
        for (k, at) in [46, 47, 48, 43, 44, 45].into_iter().enumerate() {
            wanted.numbers[at] = 200.0 + k as f32;
        }
        for (k, at) in [28, 34, 40, 46, 47, 48, 16, 19, 22].into_iter().enumerate() {
            wanted.numbers[JOINT + at] = 206.0 + k as f32;
        }
        self.expect(
            "every impulse is stored in its place",
            same_study(&t, &wanted),
        );

        // The world: no writes, no velocity.
        let mut s = study(1, &[([WORLD, 0], [63, 0, 0, 0])]);
        s.bodies[POSED] = 3.0;
        self.done(&mut s, &COLD);
        self.done(&mut s, &Call::Sweep(8));
        self.expect(
            "a body held by the world stands still",
            s.bodies[POSED].abs() < 1.0e-3,
        );

        // A joint that is switched off has no rows, and the next joint's rows begin where it would.
        let mut s = arm();
        s.words[ENABLED] = 1;
        let mut s = self.built(s);
        let read = self.done(&mut s, &Call::ReadRows(0));
        self.expect("no rows", read.code == GRANTED);
        let read = self.done(&mut s, &Call::ReadRows(1));
        self.expect("the first rows", same(&read.out, &s.rows[..9 * ROW]));
    }
}

/// The library's answers where a slice that it is to write is too short.
#[cfg(rattle)]
fn short_slices() {
    use crate::library::rattle_lent;
    let mut built = arm();
    (crate::library::ORACLE)(&mut built, &COLD);
    let unbuilt = arm();
    let shorter = |call: &Call, out: usize, ids: usize| {
        let mut answer = Answer::none(call);
        answer.out.truncate(answer.out.len() - out);
        answer.ids.truncate(answer.ids.len() - ids);
        answer
    };
    let mut count = 0;
    for (s, call, out, ids, code) in [
        (&built, Call::ReadRows(0), 1, 0, 1000),
        (&built, Call::ReadRows(0), 0, 1, 1000),
        (&built, Call::ReadVelocity(0), 1, 0, 1000),
        (&built, Call::Sweep(1), 0, 1, 1000),
        (&built, Call::Sweep(65), 0, 1, 1000),
        (&built, Call::ReadRows(9), 1, 1, 11),
        (&built, Call::ReadVelocity(9), 1, 0, 11),
        (&unbuilt, Call::ReadRows(0), 1, 1, 10),
        (&unbuilt, Call::Sweep(1), 0, 1, 1000),
    ] {
        let lent = shorter(&call, out, ids);
        let mut after = s.clone();
        let answer = rattle_lent(&mut after, &call, lent.clone());
        let left = same_study(s, &after) && same(&lent.out, &answer.out) && lent.ids == answer.ids;
        count += 1;
        if answer.code != code || answer.outside || !left {
            println!(
                "{call:?} with a short slice: {} by the library",
                answer.code
            );
            exit(1)
        }
    }
    println!("{count} cases about short slices in space by the library");
}

pub fn cases() {
    #[cfg(rattle)]
    short_slices();
    for (name, side) in sides() {
        let mut cases = Cases {
            side,
            name,
            count: 0,
        };
        cases.masks();
        cases.counts();
        cases.finite();
        cases.work();
        println!("{} cases about the model in space by {name}", cases.count);
    }
}
