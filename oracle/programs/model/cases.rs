//! Document 01's cases about the model, on every side that is there.

use crate::generator::{ANGLES, LARGE};
use crate::library::{Side, same, same_study, sides};
use crate::model::{
    Answer, BODY, CHOICE, Call, ENABLED, FINITE, FIRST, GRANTED, JOINT, NUMBER, ROW, Study, WORDS, WORLD,
};
use crate::sines;
use std::process::exit;

const INF: f32 = f32::INFINITY;
const COLD: Call = build(None, 0);

const fn build(warm: Option<f32>, substep: u32) -> Call {
    let (warm, coefficient) = match warm {
        Some(coefficient) => (true, coefficient),
        None => (false, 0.0),
    };
    Call::Build {
        warm,
        coefficient,
        substep,
    }
}

/// A body of mass and inertia 1 at (x, 0).
fn body(x: f32) -> [f32; BODY] {
    [1.0, 0.0, x, 0.0, 1.0, 1.0, 1.0, 0.0, 0.0, 0.0]
}

/// Identity frames, limits [−1, 1], motors of force 1, stored impulses 1 to 9.
fn numbers() -> [f32; JOINT] {
    let mut n = [0.0; JOINT];
    for i in 0..3 {
        n[8 + 3 * i..][..3].copy_from_slice(&[-1.0, 1.0, 1.0 + i as f32]);
        n[17 + 6 * i..][..6].copy_from_slice(&[1.0, 0.0, 1.0, 1.0, 1.0, 4.0 + i as f32]);
        n[37 + i] = 7.0 + i as f32;
    }
    n[0] = 1.0;
    n[4] = 1.0;
    n[35..37].copy_from_slice(&[1.0e6, 1.0]);
    n[40] = 1.0;
    n
}

/// Bodies in a line, two apart; joints with these ends and masks; storage of just the total.
fn study(bodies: usize, joints: &[([u32; 2], [u32; 4])]) -> Study {
    let mut s = Study {
        settings: [1.0 / 64.0, 1.0, 3.0],
        built: false,
        bodies: (0..bodies).flat_map(|i| body(2.0 * i as f32)).collect(),
        words: Vec::new(),
        numbers: Vec::new(),
        rows: Vec::new(),
    };
    for (ends, masks) in joints {
        s.words.extend(ends);
        s.words.extend(masks);
        s.words.extend([0; 6]);
        s.numbers.extend(numbers());
    }
    s.rows = vec![0.5; s.total() * ROW];
    s
}

/// Two bodies, a joint between them and one to the world: 2 and 4 rows.
fn leg() -> Study {
    let mut s = study(2, &[([0, 1], [3, 0, 0, 0]), ([1, WORLD], [3, 4, 4, 0])]);
    for (i, n) in s.bodies.chunks_exact_mut(BODY).enumerate() {
        n[7..].copy_from_slice(&[1.0, 2.0 + i as f32, 3.0]);
    }
    s
}

struct Cases {
    side: Side,
    name: &'static str,
    count: u32,
}

impl Cases {
    fn expect(&mut self, what: &str, holds: bool) {
        self.count += 1;
        if !holds {
            println!("{what}: not so by {}", self.name);
            exit(1)
        }
    }

    /// The call's answer on the study as it is; a refused call changes nothing.
    fn code(&mut self, s: &Study, call: &Call) -> u64 {
        let mut after = s.clone();
        let answer = (self.side)(&mut after, call);
        if !answer.granted() {
            let blank = Answer::none(call);
            let left = same_study(s, &after) && same(&blank.out, &answer.out);
            self.expect(&format!("{call:?} refused changes nothing"), left);
        }
        answer.code
    }

    fn refused(&mut self, what: &str, s: &Study, call: &Call, rule: u64) {
        let code = self.code(s, call);
        self.expect(&format!("{what}: {call:?} refused by {rule}"), code == rule);
    }

    fn granted(&mut self, what: &str, s: &Study, call: &Call) {
        let code = self.code(s, call);
        let holds = code == 0 || code >= GRANTED;
        self.expect(&format!("{what}: {call:?} granted"), holds);
    }

    /// A granted call.
    fn done(&mut self, s: &mut Study, call: &Call) -> Answer {
        let answer = (self.side)(s, call);
        self.expect(&format!("{call:?} granted"), answer.granted());
        answer
    }

    fn built(&mut self, mut s: Study) -> Study {
        self.done(&mut s, &COLD);
        s
    }

    /// Bounds and masks: rules 1 to 5, and what a slice holds.
    fn counts(&mut self) {
        let load = &Call::Load;
        let empty = study(0, &[]);
        self.granted("nothing at all", &empty, load);
        let code = self.code(&empty, &COLD);
        self.expect("no joint makes no row", code == GRANTED);

        self.granted("128 bodies", &study(128, &[]), load);
        self.refused("129 bodies", &study(129, &[]), load, 1);
        let mut part = study(128, &[]);
        part.bodies.extend([f32::NAN; 9]);
        self.granted("128 bodies and nine numbers", &part, load);
        self.refused("a part of a body", &part, &Call::ReadVelocity(128), 11);
        part.words = vec![0; WORDS];
        part.words[1] = 128;
        part.numbers = numbers().to_vec();
        self.refused("a joint to a part of a body", &part, load, 4);

        let many = |n: usize| study(1, &vec![([0, WORLD], [1, 0, 0, 0]); n]);
        self.granted("128 joints", &many(128), load);
        let code = self.code(&many(128), &COLD);
        self.expect("128 joints of one row", code == GRANTED + 128);
        self.refused("129 joints", &many(129), load, 2);
        let mut words = many(128);
        words.words.extend([9; 2 * WORDS]);
        self.granted("128 joints and words without numbers", &words, load);
        let mut numbers = many(128);
        numbers.numbers.extend([f32::NAN; 2 * JOINT]);
        self.granted("128 joints and numbers without words", &numbers, load);

        for mask in 0..4 {
            let mut s = leg();
            s.rows = vec![0.5; 12 * ROW];
            s.words[WORDS + 2 + mask] = 7;
            self.granted("mask 7", &s, load);
            for bad in [8, 9, 256, 263, 1 << 31, u32::MAX] {
                s.words[WORDS + 2 + mask] = bad;
                self.refused(&format!("mask {bad}"), &s, load, 3);
            }
        }
        for (ends, rule) in [
            ([2, 0], 4),
            ([0, 2], 4),
            ([WORLD - 1, 0], 4),
            ([2, 2], 4),
            ([WORLD, WORLD], 5),
            ([1, 1], 5),
        ] {
            let s = study(2, &[([0, 1], [0; 4]), (ends, [0; 4])]);
            self.refused(&format!("a joint between {ends:?}"), &s, load, rule);
        }
        for ends in [[0, WORLD], [WORLD, 0], [0, 1], [1, 0]] {
            let s = study(2, &[(ends, [0; 4])]);
            self.granted(&format!("a joint between {ends:?}"), &s, load);
        }
        let s = study(0, &[([WORLD, WORLD], [0; 4])]);
        self.refused("a joint of the world without bodies", &s, load, 5);
    }

    /// Rules 6 and 7.
    fn finite(&mut self) {
        let load = &Call::Load;
        for bad in [f32::NAN, INF, -INF] {
            let check = |cases: &mut Self, what: String, s: &Study, refused: bool| {
                if refused {
                    cases.refused(&what, s, load, 6)
                } else {
                    cases.granted(&what, s, load)
                }
            };
            for i in 0..3 {
                let mut s = leg();
                s.settings[i] = bad;
                check(self, format!("setting {i} is {bad}"), &s, true);
            }
            for i in 0..BODY {
                let mut s = leg();
                s.bodies[BODY + i] = bad;
                check(self, format!("a body's number {i} is {bad}"), &s, i < 7);
            }
            for i in 0..JOINT {
                let mut s = leg();
                s.numbers[JOINT + i] = bad;
                let refused = FINITE.contains(&i) || NUMBER.contains(&i) && bad.is_nan();
                check(self, format!("a joint's number {i} is {bad}"), &s, refused);
            }
            for i in 0..4 {
                let mut pose = [1.0, 0.0, 0.0, 0.0];
                pose[i] = bad;
                for body in [0, 2, WORLD] {
                    self.refused("a new pose", &leg(), &Call::Place { body, pose }, 6);
                }
            }
            self.refused("the coefficient", &leg(), &build(Some(bad), 0), 6);
            self.refused("6 before 10", &leg(), &build(Some(bad), 1), 6);
            let cold = Call::Build {
                warm: false,
                coefficient: bad,
                substep: 3,
            };
            self.granted("no coefficient", &leg(), &cold);
        }
        for (dt, rule) in [
            (0.0, 0),
            (-0.0, 0),
            (1.0e-45, 0),
            (f32::MAX, 0),
            (-1.0e-45, 7),
            (-f32::MAX, 7),
            (-INF, 6),
        ] {
            let mut s = leg();
            s.settings[0] = dt;
            for call in [
                Call::Load,
                COLD,
                Call::ReadVelocity(0),
                Call::Place {
                    body: 0,
                    pose: [1.0, 0.0, 0.0, 0.0],
                },
            ] {
                if rule == 0 {
                    self.granted(&format!("dt = {dt:?}"), &s, &call)
                } else {
                    self.refused(&format!("dt = {dt:?}"), &s, &call, rule)
                }
            }
        }
    }

    /// Rules 8 to 11, and the mark.
    fn calls(&mut self) {
        let place = |body| Call::Place {
            body,
            pose: [0.0, 1.0, 3.0, 4.0],
        };
        let with_storage = [
            Call::Load,
            COLD,
            Call::WarmStart,
            Call::Sweep(1),
            Call::RemoveBias,
            Call::WriteBack,
            Call::ReadRows(0),
        ];
        let built = self.built(leg());
        for call in with_storage {
            self.granted("storage of just the total", &built, &call);
            for cut in [1, ROW, 6 * ROW] {
                let mut s = built.clone();
                s.rows.truncate(6 * ROW - cut);
                self.refused(&format!("storage {cut} numbers short"), &s, &call, 8);
                self.granted("no storage is handed over", &s, &place(0));
                self.granted("no storage is handed over", &s, &Call::ReadVelocity(0));
                self.refused("8 before 9", &s, &Call::Sweep(65), 8);
            }
        }

        for n in [65, 66, 1000, 1001, u32::MAX] {
            self.refused("9", &built, &Call::Sweep(n), 9);
            self.refused("9 before 10", &leg(), &Call::Sweep(n), 9);
        }
        let mut s = built.clone();
        self.done(&mut s, &Call::Sweep(0));
        self.expect("a sweep of 0 changes nothing", same_study(&s, &built));
        for n in [2, 63, 64] {
            let (mut at_once, mut singly) = (built.clone(), built.clone());
            self.done(&mut at_once, &Call::Sweep(n));
            for _ in 0..n {
                self.done(&mut singly, &Call::Sweep(1));
            }
            self.expect("a sweep of n is n of 1", same_study(&at_once, &singly));
            self.expect("a sweep moves", !same(&at_once.bodies, &built.bodies));
        }

        for call in &with_storage[2..] {
            self.refused("not built", &leg(), call, 10);
        }
        self.refused("10 before 11", &leg(), &Call::ReadRows(2), 10);
        for substep in [1, 2, u32::MAX] {
            self.refused("not built", &leg(), &build(Some(1.0), substep), 10);
            self.granted("built", &built, &build(Some(1.0), substep));
            self.granted("cold", &leg(), &build(None, substep));
        }
        self.granted("warm in substep 0", &leg(), &build(Some(1.0), 0));
        for body in [2, 3, WORLD, WORLD - 1] {
            self.refused("absent", &leg(), &place(body), 11);
            self.refused("absent", &leg(), &Call::ReadVelocity(body), 11);
            self.refused("absent", &built, &Call::ReadRows(body), 11);
        }

        // The mark.
        let mut s = built.clone();
        self.done(&mut s, &place(1));
        self.expect("place keeps the mark", s.built);
        let moved = [0.0, 1.0, 3.0, 4.0, 1.0, 1.0, 1.0, 1.0, 3.0, 3.0];
        let rest = same(&s.bodies[..BODY], &built.bodies[..BODY]) && same(&s.rows, &built.rows);
        self.expect("place", same(&s.bodies[BODY..], &moved) && rest);
        self.done(&mut s, &Call::Load);
        self.expect("load clears the mark", !s.built);
        self.done(&mut s, &place(1));
        self.expect("place keeps the mark", !s.built);
        let mut s = built.clone();
        s.rows.clear();
        for call in [Call::Load, COLD] {
            (self.side)(&mut s, &call);
            self.expect("a refused call keeps the mark", s.built);
        }
        let mut s = leg();
        (self.side)(&mut s, &build(Some(1.0), 1));
        self.expect("a refused call keeps the mark", !s.built);

        // Every rule broken, 3 to 5 in joints 2, 1 and 0: the first in order is told, and the
        // next when that is mended.
        for call in [Call::Sweep(65), Call::ReadRows(200)] {
            let whole = study(3, &[([0, 1], [3, 0, 0, 0]); 3]);
            let mut s = whole.clone();
            s.bodies.resize(129 * BODY, 0.0);
            s.words.resize(129 * WORDS, 0);
            s.numbers.resize(129 * JOINT, 0.0);
            s.words[2 * WORDS + 5] = 8;
            s.words[WORDS] = 200;
            s.words[1] = 0;
            s.bodies[1] = f32::NAN;
            s.words[WORDS + CHOICE] = 1;
            s.numbers[JOINT + 40] = 1025.0;
            s.settings[0] = -1.0;
            s.rows.clear();
            self.refused("all broken", &s, &call, 1);
            s.bodies.truncate(3 * BODY);
            self.refused("all but 1 broken", &s, &call, 2);
            s.words.truncate(3 * WORDS);
            self.refused("3 to 11 broken", &s, &call, 3);
            s.words[2 * WORDS + 5] = 0;
            self.refused("4 to 11 broken", &s, &call, 4);
            s.words[WORDS] = 0;
            self.refused("5 to 11 broken", &s, &call, 5);
            s.words[1] = 1;
            self.refused("6 to 11 broken", &s, &call, 6);
            s.bodies[1] = 0.0;
            self.refused("12 and 7 to 11 broken", &s, &call, 12);
            s.numbers[JOINT + 40] = 1.0;
            self.refused("7 to 11 broken", &s, &call, 7);
            s.settings[0] = 1.0;
            self.refused("8 to 11 broken", &s, &call, 8);
            s.rows = whole.rows;
            if let Call::Sweep(_) = call {
                self.refused("9 to 11 broken", &s, &call, 9);
                self.refused("10 and 11 broken", &s, &Call::Sweep(64), 10);
            } else {
                self.refused("10 and 11 broken", &s, &call, 10);
            }
            s.built = true;
            self.refused("11 broken", &s, &Call::ReadRows(3), 11);
            self.granted("nothing broken", &s, &Call::ReadRows(2));
        }
    }

    /// What build, write-back and reads do.
    fn rows(&mut self) {
        let masks: [([u32; 4], &[u32]); 8] = [
            ([3, 4, 4, 0], &[10, 0, 1, 6]),
            ([0, 7, 7, 0], &[10, 8, 9, 6, 4, 5]),
            ([0, 1, 0, 3], &[4]),
            ([0, 2, 0, 3], &[]),
            ([0, 0, 2, 3], &[8]),
            ([0, 4, 4, 4], &[]),
            ([1, 3, 3, 3], &[8, 0]),
            ([7, 7, 7, 0], &[2, 0, 1]),
        ];
        // All of them one after the other, on three bodies and the world.
        let joints: Vec<_> = (0..8)
            .map(|j| {
                let ends = [[0, 1], [1, 2], [WORLD, 0], [2, WORLD]][j % 4];
                (ends, masks[j].0)
            })
            .collect();
        let mut s = study(3, &joints);
        s.rows.extend((0..40).map(|i| i as f32));
        let past = s.rows[17 * ROW..].to_vec();
        for (i, n) in s.bodies.chunks_exact_mut(BODY).enumerate() {
            n[7..].copy_from_slice(&[i as f32, 1.0, -1.0]);
        }
        let answer = self.done(&mut s, &build(Some(0.5), 0));
        self.expect("the total is the sum", answer.code == GRANTED + 17);

        let stored = |id: u32| match (id / 4, (id % 4) as f32) {
            (0, axis) => 7.0 + axis,
            (1, axis) => 1.0 + axis,
            (_, axis) => 4.0 + axis,
        };
        let mut first = 0;
        for (j, (_, ids)) in masks.iter().enumerate() {
            let answer = self.done(&mut s, &Call::ReadRows(j as u32));
            let count = ids.len();
            let told = answer.code == GRANTED + count as u64 && answer.ids[..count] == **ids;
            self.expect(&format!("the ids of masks {:?}", masks[j].0), told);
            let own = &s.rows[first * ROW..][..count * ROW];
            self.expect("a joint's rows", same(&answer.out[..count * ROW], own));
            let unwritten = answer.out[count * ROW..].iter().all(|x| *x == 12345.678)
                && answer.ids[count..].iter().all(|x| *x == 0xDEAD_BEEF);
            self.expect("what is past a joint's rows stays", unwritten);
            let seeds = own.chunks(ROW).zip(*ids);
            let half = seeds.clone().all(|(row, id)| row[0] == 0.5 * stored(*id));
            self.expect("seeds times the coefficient", half);
            first += count;
        }

        let before = s.clone();
        self.done(&mut s, &build(Some(0.5), 1));
        let halved = |a: &Study, b: &Study| {
            let rows = a.rows.chunks(ROW).zip(b.rows.chunks(ROW)).take(17);
            rows.clone().all(|(a, b)| b[0] == 0.5 * a[0])
        };
        self.expect("last impulses times the coefficient", halved(&before, &s));
        self.done(&mut s, &Call::WarmStart);
        self.done(&mut s, &Call::Sweep(3));
        self.done(&mut s, &Call::RemoveBias);
        let freed = s.rows.chunks(ROW).take(17).all(|row| row[10] == row[11]);
        self.expect("bias removal", freed);
        self.done(&mut s, &Call::Sweep(1));
        let old = s.numbers.clone();
        self.done(&mut s, &Call::WriteBack);
        let mut wanted = old;
        let mut k = 0;
        for (j, (_, ids)) in masks.iter().enumerate() {
            for id in *ids {
                let at = match (id / 4, (id % 4) as usize) {
                    (0, axis) => 37 + axis,
                    (1, axis) => 10 + 3 * axis,
                    (_, axis) => 22 + 6 * axis,
                };
                wanted[j * JOINT + at] = s.rows[k * ROW];
                k += 1;
            }
        }
        self.expect("write-back", same(&s.numbers, &wanted));
        self.done(&mut s, &COLD);
        let cold = s.rows.chunks(ROW).take(17).all(|row| row[0].to_bits() == 0);
        self.expect("no coefficient, no impulse", cold);
        self.expect("storage past the total", same(&s.rows[17 * ROW..], &past));
        for i in 0..3 {
            let answer = self.done(&mut s, &Call::ReadVelocity(i));
            let own = &s.bodies[i as usize * BODY + 7..][..3];
            self.expect("a velocity", same(&answer.out, own));
        }

        // Limits equal to the distance.
        let mut s = study(2, &[([0, 1], [0, 1, 0, 0])]);
        for (ends, bounds) in [
            ([2.0, 2.0], [-INF, INF]),
            ([1.0, 3.0], [0.0, 0.0]),
            ([2.0, 3.0], [-INF, 0.0]),
            ([1.0, 2.0], [0.0, INF]),
        ] {
            s.numbers[8..10].copy_from_slice(&ends);
            self.done(&mut s, &COLD);
            let answer = self.done(&mut s, &Call::ReadRows(0));
            let told = same(&answer.out[1..3], &bounds);
            self.expect(&format!("limits {ends:?} at distance 2"), told);
        }

        // A warm start runs at impulse zero as well: −0 becomes +0.
        let mut s = study(2, &[([0, 1], [1, 0, 0, 0])]);
        s.bodies[7] = -0.0;
        self.done(&mut s, &COLD);
        self.done(&mut s, &Call::WarmStart);
        self.expect("a warm start at impulse zero", s.bodies[7].to_bits() == 0);

        // The world's velocity reads zero at each row, whatever the row before gave it: row 0
        // pushes the world alone, row 1 looks at the velocity between.
        let mut s = study(1, &[([0, WORLD], [3, 0, 0, 0])]);
        self.done(&mut s, &COLD);
        s.rows.fill(0.0);
        s.rows[1..4].copy_from_slice(&[1.0, 1.0, 1.0]);
        s.rows[16] = 1.0;
        s.rows[ROW + 1..ROW + 4].copy_from_slice(&[-10.0, 10.0, 1.0]);
        s.rows[ROW + 9] = 1.0;
        s.bodies[7] = 1.0;
        self.done(&mut s, &Call::Sweep(1));
        self.expect("the world's velocity reads zero", s.rows[ROW] == -1.0);
    }

    /// Centres that are typed as angles: rules 6 and 12, and the rows of the pair.
    fn angles(&mut self) {
        let typed = |word: u32, angle: f32, beside: f32| {
            let mut s = leg();
            s.words[WORDS + CHOICE] = word;
            s.numbers[JOINT + 40] = angle;
            s.numbers[JOINT + 41] = beside;
            s
        };
        let all = [
            Call::Load,
            COLD,
            Call::WarmStart,
            Call::Sweep(1),
            Call::RemoveBias,
            Call::WriteBack,
            Call::ReadRows(0),
            Call::ReadVelocity(0),
            Call::Place {
                body: 0,
                pose: [1.0, 0.0, 0.0, 0.0],
            },
        ];
        for word in [1, 2, 1 << 31, u32::MAX] {
            for angle in LARGE {
                let mut s = typed(word, angle, f32::NAN);
                for call in &all {
                    self.refused(&format!("angle {angle}"), &s, call, 12);
                }
                let nan = Call::Place {
                    body: 9,
                    pose: [1.0, 0.0, f32::NAN, 0.0],
                };
                self.refused("6 before 12", &s, &nan, 6);
                s.settings[0] = -1.0;
                self.refused("12 before 7", &s, &Call::Load, 12);
                s.settings[1] = INF;
                self.refused("6 before 12", &s, &Call::Load, 6);
                s.words[WORDS + CHOICE] = 0;
                s.numbers[JOINT + 41] = 0.0;
                s.settings = leg().settings;
                self.granted("a typed cosine of any size", &s, &Call::Load);
            }
            for angle in [f32::NAN, INF, -INF] {
                let s = typed(word, angle, 0.0);
                for call in &all {
                    self.refused(&format!("angle {angle}"), &s, call, 6);
                }
            }
            // The rows are those of the pair, whatever stands beside the angle.
            for angle in ANGLES.into_iter().chain([0.3, -2.5, 700.0]) {
                let pair = sines::pair(angle);
                for beside in [0.0, 7.0, f32::NAN, INF, -INF] {
                    let mut s = typed(word, angle, beside);
                    self.granted(&format!("angle {angle}"), &s, &Call::Load);
                    let mut by_pair = typed(0, pair[0], pair[1]);
                    let told = self.done(&mut s, &COLD).code == GRANTED + 6;
                    self.done(&mut by_pair, &COLD);
                    let same_rows = same(&s.rows, &by_pair.rows);
                    self.expect(&format!("the rows of angle {angle}"), told && same_rows);
                }
            }
        }
        // An angle below one unit of 2^-30 has the pair of 0.
        for (angle, pair) in [
            (0.0, [1.0, 0.0]),
            (-0.0, [1.0, 0.0]),
            (1.0e-10, [1.0, 0.0]),
            (-1.0e-10, [1.0, 0.0]),
        ] {
            let mut s = typed(1, angle, 5.0);
            let mut by_pair = typed(0, pair[0], pair[1]);
            self.done(&mut s, &COLD);
            self.done(&mut by_pair, &COLD);
            self.expect("a small angle", same(&s.rows, &by_pair.rows));
        }
    }

    /// Joints that are switched off: the first, the middle one, the last, and all of them.
    fn switched_off(&mut self) {
        let joints = [
            ([0, 1], [3, 4, 4, 0]),
            ([1, 2], [7, 0, 0, 0]),
            ([2, WORLD], [0, 7, 7, 0]),
        ];
        let counts = [4, 3, 6];
        for off in [&[0][..], &[1], &[2], &[0, 1, 2]] {
            for word in [1, 2, 3, u32::MAX] {
                let mut s = study(3, &joints);
                for j in off {
                    s.words[j * WORDS + ENABLED] = word;
                }
                let count = |j: usize| if off.contains(&j) { 0 } else { counts[j] };
                let total: usize = (0..3).map(count).sum();
                s.rows = vec![0.5; total * ROW];
                self.granted("storage of the rows of enabled joints", &s, &Call::Load);
                if total > 0 {
                    let mut short = s.clone();
                    short.rows.pop();
                    self.refused("one number less", &short, &Call::Load, 8);
                }
                for (at, bad, rule) in [(2, 8, 3), (0, 200, 4)] {
                    let mut broken = s.clone();
                    broken.words[off[0] * WORDS + at] = bad;
                    self.refused("it is still checked", &broken, &Call::Load, rule);
                }
                let mut broken = s.clone();
                broken.words[off[0] * WORDS + 1] = broken.words[off[0] * WORDS];
                self.refused("it is still checked", &broken, &Call::Load, 5);
                for k in FINITE.iter().chain(&NUMBER) {
                    let mut broken = s.clone();
                    broken.numbers[off[0] * JOINT + k] = f32::NAN;
                    self.refused("it is still checked", &broken, &Call::Load, 6);
                }

                let stored = s.numbers.clone();
                let answer = self.done(&mut s, &build(Some(0.5), 0));
                self.expect("a total without it", answer.code == GRANTED + total as u64);
                for call in [
                    Call::WarmStart,
                    Call::Sweep(2),
                    Call::RemoveBias,
                    Call::WriteBack,
                ] {
                    self.done(&mut s, &call);
                }
                for j in 0..3 {
                    let answer = self.done(&mut s, &Call::ReadRows(j as u32));
                    let told = answer.code == GRANTED + count(j) as u64;
                    self.expect("a row read keeps the index", told);
                    let of = |n: &[f32]| n[j * JOINT..][..JOINT].to_vec();
                    let left = same(&of(&stored), &of(&s.numbers));
                    self.expect("its stored impulses stay", left == off.contains(&j));
                }
            }
        }
    }

    /// Changes of masks: rules 3, 8 and 11, the mark, and first rows.
    fn masks(&mut self) {
        let change = |joint, masks| Call::SetMasks { joint, masks };
        let first_rows = |s: &Study| {
            let joints = s.words.chunks_exact(WORDS);
            joints.map(|w| w[FIRST]).collect::<Vec<_>>()
        };
        let joints = [
            ([0, 1], [3, 4, 4, 0]),
            ([1, 2], [3, 0, 0, 0]),
            ([2, WORLD], [0, 7, 7, 0]),
        ];
        let counts = [4, 2, 6];
        let mut loaded = study(3, &joints);
        self.done(&mut loaded, &Call::Load);
        self.expect("first rows after load", first_rows(&loaded) == [0, 4, 6]);
        let built = self.built(loaded.clone());
        self.expect("a build leaves first rows", built.words == loaded.words);

        // The first joint, a middle one, the last: to more rows, to fewer, to none, to as many.
        for (j, masks, count) in [
            (0, [0, 7, 7, 0], 6),
            (0, [3, 0, 0, 0], 2),
            (0, [0; 4], 0),
            (0, [3, 4, 4, 0], 4),
            (1, [7, 7, 7, 0], 3),
            (1, [0, 0, 1, 0], 1),
            (1, [0; 4], 0),
            (1, [5, 0, 0, 0], 2),
            (2, [7, 0, 0, 0], 3),
            (2, [0, 2, 0, 3], 0),
            (2, [0, 7, 7, 0], 6),
        ] {
            let mut after = counts;
            after[j] = count;
            let new: usize = after.iter().sum();
            let call = change(j as u32, masks);
            for rows in [12 * ROW, new * ROW, new * ROW + 17, 20 * ROW] {
                for before in [&loaded, &built] {
                    let mut s = before.clone();
                    s.rows.resize(rows, 0.25);
                    if rows < new * ROW {
                        self.refused("storage of the old total alone", &s, &call, 8);
                        continue;
                    }
                    let mut wanted = s.clone();
                    wanted.built = false;
                    wanted.words[j * WORDS + 2..][..4].copy_from_slice(&masks);
                    wanted.words[WORDS + FIRST] = after[0] as u32;
                    wanted.words[2 * WORDS + FIRST] = (after[0] + after[1]) as u32;
                    self.done(&mut s, &call);
                    self.expect("masks, first rows and the mark change", same_study(&s, &wanted));
                    self.refused("not built", &s, &build(Some(1.0), 1), 10);
                    let told = self.done(&mut s, &COLD).code;
                    self.expect("the new total", told == GRANTED + new as u64);
                    for (i, count) in after.into_iter().enumerate() {
                        let told = self.done(&mut s, &Call::ReadRows(i as u32)).code;
                        self.expect("a joint's rows", told == GRANTED + count as u64);
                    }
                }
            }
            for less in [1, ROW] {
                if new > 0 {
                    let mut s = built.clone();
                    s.rows.resize(new * ROW - less, 0.25);
                    self.refused("short of the new total", &s, &call, 8);
                }
            }
        }

        // A missing joint: 3 by the new masks, 8 by the old total, 11.
        for joint in [3, 4, WORLD] {
            for masks in [[0; 4], [0, 7, 7, 0]] {
                let mut s = built.clone();
                self.refused("a missing joint", &s, &change(joint, masks), 11);
                s.rows.pop();
                self.refused("8 before 11", &s, &change(joint, masks), 8);
            }
            self.refused("3 before 11", &built, &change(joint, [8, 0, 0, 0]), 3);
        }

        // New masks above 7, before rules 4 to 8; old ones, which the change would mend.
        for k in 0..4 {
            for bad in [8, 9, 256, 263, 1 << 31, u32::MAX] {
                let mut masks = [0; 4];
                masks[k] = bad;
                let mut s = built.clone();
                self.refused("a new mask above 7", &s, &change(1, masks), 3);
                s.words[0] = 200;
                s.rows.clear();
                self.refused("3 before 4 and 8", &s, &change(1, masks), 3);
                let mut s = built.clone();
                s.words[WORDS + 2 + k] = bad;
                self.refused("an old mask above 7", &s, &change(1, [0; 4]), 3);
                self.refused("an old mask above 7", &s, &change(0, [0; 4]), 3);
                s.bodies.resize(129 * BODY, 0.0);
                self.refused("1 before 3", &s, &change(1, masks), 1);
            }
        }

        // Of a joint that is switched off the masks change, and the total does not.
        let mut off = built.clone();
        off.words[WORDS + ENABLED] = 1;
        off.rows.truncate(10 * ROW);
        self.done(&mut off, &change(1, [0, 7, 7, 0]));
        self.expect("its masks change", off.words[WORDS + 2..][..4] == [0, 7, 7, 0]);
        let told = !off.built && first_rows(&off) == [0, 4, 4];
        self.expect("it counts no rows", told);

        // First rows that the caller has altered: calls work from the sum, load and mask changes store it.
        for any in [0, 1, 5, 768, u32::MAX] {
            let mut altered = loaded.clone();
            for w in altered.words.chunks_exact_mut(WORDS) {
                w[FIRST] = any;
            }
            let words = altered.words.clone();
            let mut s = altered.clone();
            let mut other = loaded.clone();
            for call in [
                build(Some(0.5), 0),
                Call::WarmStart,
                Call::Sweep(2),
                Call::RemoveBias,
                Call::WriteBack,
                Call::ReadRows(0),
                Call::ReadRows(1),
                Call::ReadRows(2),
                Call::ReadVelocity(1),
            ] {
                let (a, b) = (self.done(&mut s, &call), self.done(&mut other, &call));
                let alike = a.code == b.code && a.ids == b.ids && same(&a.out, &b.out);
                self.expect("calls work from the sum", alike);
            }
            self.expect("calls leave first rows", s.words == words);
            s.words.clone_from(&other.words);
            self.expect("calls work from the sum", same_study(&s, &other));
            for call in [Call::Load, change(2, [0, 7, 7, 0])] {
                let mut s = altered.clone();
                self.done(&mut s, &call);
                self.expect("the sum is stored", first_rows(&s) == [0, 4, 6]);
                altered.rows.clear();
                self.refused("short storage", &altered, &call, 8);
                altered.rows.clone_from(&loaded.rows);
            }
        }

        // Stored impulses stay: an axis that is freed and locked again finds its old seed.
        let mut s = built.clone();
        for call in [Call::Sweep(3), Call::WriteBack] {
            self.done(&mut s, &call);
        }
        let stored = s.numbers.clone();
        self.done(&mut s, &change(1, [1, 0, 0, 0]));
        for call in [build(Some(1.0), 0), Call::Sweep(1), change(1, [3, 0, 0, 0])] {
            self.done(&mut s, &call);
        }
        self.expect("stored impulses stay", same(&s.numbers, &stored));
        self.done(&mut s, &build(Some(1.0), 0));
        let seeds = [4, 5].map(|k| s.rows[k * ROW]);
        self.expect("the old seeds", same(&seeds, &stored[JOINT + 37..][..2]));
    }
}

const fn frame(warm: Option<f32>, sweeps: u32, substeps: u32) -> Call {
    let (warm, coefficient) = match warm {
        Some(coefficient) => (true, coefficient),
        None => (false, 0.0),
    };
    Call::Frame {
        warm,
        coefficient,
        sweeps,
        substeps,
    }
}

impl Cases {
    /// Frames: their rules in order, dt/n, the moves, and what a refused one leaves.
    fn frames(&mut self) {
        for (warm, sweeps, n) in [(None, 0, 1), (None, 1, 16), (Some(0.5), 64, 2), (Some(1.0), 3, 3)] {
            let call = frame(warm, sweeps, n);
            for s in [leg(), self.built(leg())] {
                let mut s = s;
                let dt = s.settings[0];
                self.done(&mut s, &call);
                self.expect("a frame marks the model built", s.built);
                self.expect("the model keeps its dt", s.settings[0] == dt);
            }
        }
        let bad = [0, 17, 18, 256, 65536, 1 << 24, u32::MAX];
        for n in bad {
            self.refused("substeps", &leg(), &frame(None, 1, n), 16);
            self.refused("substeps", &leg(), &frame(Some(1.0), 64, n), 16);
            self.refused("9 before 16", &leg(), &frame(None, 65, n), 9);
            let mut short = leg();
            short.rows.pop();
            self.refused("8 before 9 and 16", &short, &frame(None, 65, n), 8);
            short.settings[0] = -1.0e-45;
            self.refused("7 before 8", &short, &frame(None, 65, n), 7);
            self.refused("6 before 7", &short, &frame(Some(f32::NAN), 65, n), 6);
            short.words[2] = 8;
            self.refused("3 before 6", &short, &frame(Some(f32::NAN), 65, n), 3);
        }
        for rounds in [65, 66, 256, u32::MAX] {
            self.refused("rounds", &leg(), &frame(None, rounds, 1), 9);
        }
        for bad in [f32::NAN, INF, -INF] {
            self.refused("a coefficient", &leg(), &frame(Some(bad), 1, 1), 6);
            let cold = Call::Frame {
                warm: false,
                coefficient: bad,
                sweeps: 1,
                substeps: 1,
            };
            self.granted("no coefficient", &leg(), &cold);
        }
        let mut back = leg();
        back.settings[0] = -1.0e-45;
        self.refused("dt below zero, though dt/16 is not", &back, &frame(None, 1, 16), 7);

        // A body alone, by a velocity.
        let alone = |dt: f32, body: [f32; BODY]| {
            let mut s = study(0, &[]);
            s.settings[0] = dt;
            s.bodies = body.to_vec();
            s
        };
        let third = f32::from_bits(0x3EAA_AAAB);
        for (dt, n, x) in [
            (1.0, 1, 1.0),
            (1.0, 3, third + third + third),
            (1.0, 4, 1.0),
            (0.0, 3, 0.0),
            (-0.0, 3, 0.0),
        ] {
            let mut s = alone(dt, [1.0, 0.0, 0.0, -0.0, 0.0, 0.0, 0.0, 1.0, -1.0, 0.0]);
            self.done(&mut s, &frame(None, 4, n));
            self.expect("x and y", s.bodies[2] == x && s.bodies[3] == -x);
            self.expect("the settings", s.settings[0].to_bits() == f32::to_bits(dt));
        }
        let turn = |of: [f32; 2], velocity: f32, to: [f32; 2], cases: &mut Cases| {
            let mut s = alone(1.0, [of[0], of[1], 0.0, 0.0, 1.0, 1.0, 1.0, 0.0, 0.0, velocity]);
            cases.done(&mut s, &frame(None, 1, 1));
            cases.expect(&format!("{of:?} turned by {velocity}"), same(&s.bodies[..2], &to));
        };
        for (of, velocity, to) in [
            ([1.0, 0.0], 0.0, [1.0, 0.0]),
            ([1.0, 0.0], 1.0, [1.0 / 2.0f32.sqrt(); 2]),
            ([1.0, 0.0], 3.0e38, [0.0, 0.0]),
            ([0.0, 0.0], 1.0, [0.0, 0.0]),
            ([-0.0, 0.0], 1.0, [-0.0, 0.0]),
            ([1.0e-30, 0.0], 1.0, [1.0e-30, 0.0]),
            ([1.0e-30, 2.0e-30], 0.5, [1.0e-30, 2.0e-30]),
            ([1.0e30, 0.0], 0.0, [0.0, 0.0]),
            ([-0.0, 1.0], 0.0, [-0.0, 1.0]),
            ([2.0, 0.0], 0.0, [1.0, 0.0]),
            ([0.0, -0.25], 0.0, [0.0, -1.0]),
        ] {
            turn(of, velocity, to, self);
        }
        for velocity in [f32::NAN, INF, -INF] {
            for place in 7..10 {
                let mut body = [1.0, 0.0, 0.0, 0.0, 1.0, 1.0, 1.0, 0.0, 0.0, 0.0];
                body[place] = velocity;
                for dt in [1.0, 0.0] {
                    self.refused("a velocity", &alone(dt, body), &frame(None, 1, 2), 6);
                }
            }
        }

        // Past the largest number in one of four substeps, or after them: all is as it was, in storage longer than any model's rows too.
        for (k, length) in [(0, 6 * ROW), (1, 7 * ROW + 5), (2, 20_000), (3, 6 * ROW + 1), (4, 6 * ROW)] {
            for built in [false, true] {
                let mut s = leg();
                s.settings[0] = 1.0;
                s.bodies.extend([1.0, 0.0, 0.0, 0.0, 0.0, 0.0, 0.0, f32::MAX, 0.0, 0.0]);
                s.bodies[2 * BODY + 2] = f32::MAX * (0.875 - 0.25 * k as f32);
                s.bodies.extend([f32::NAN; 7]);
                s.rows = (0..length).map(|i| i as f32).collect();
                s.built = built;
                if k < 4 {
                    self.refused("past the largest number", &s, &frame(Some(0.5), 2, 4), 6);
                } else {
                    self.granted("just not past the largest number", &s, &frame(Some(0.5), 2, 4));
                }
            }
        }
        let mut s = leg();
        s.settings[0] = 64.0;
        s.bodies[8] = 3.0e38;
        self.refused("a velocity of 3e38", &s, &frame(None, 0, 1), 6);

        // Counts are those of the last sweep; no rounds, no counts.
        let mut s = leg();
        s.numbers[JOINT + 17 + 12] = 1000.0;
        let mut none = s.clone();
        let counts = self.done(&mut s, &frame(None, 1, 2)).ids;
        self.expect("a motor at its bound", counts[1] == 1 && counts[2..].iter().all(|n| *n == 0));
        let counts = self.done(&mut none, &frame(None, 0, 2)).ids;
        self.expect("no rounds", counts.iter().all(|n| *n == 0));
    }
}

pub fn cases() {
    for (name, side) in sides() {
        let mut cases = Cases {
            side,
            name,
            count: 0,
        };
        cases.counts();
        cases.finite();
        cases.calls();
        cases.rows();
        cases.angles();
        cases.switched_off();
        cases.masks();
        cases.frames();
        println!("{} cases by {name}", cases.count);
    }
}
