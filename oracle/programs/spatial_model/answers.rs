//! A fixed list of calls on models in space with the oracle's answers, as text that a very simple program can read, and its replay.

use crate::bits::bits;
use crate::generator::{Generator, Size, total};
use crate::library::{ORACLE, Side};
use crate::spatial_model::{
    Answer, BODY, Call, ENABLED, FINITE, JOINT, KINDS, NUMBER, POSED, REFUSALS, ROW, Study,
    VELOCITY, WORDS, WORLD, refusal,
};
use std::fmt::Write;

const SEED: u64 = 20;
const STUDIES: usize = 80;
/// A line's opcode and its arguments.
const TOKENS: usize = 9;

/// One line of a list.
#[derive(Copy, Clone)]
enum Line {
    Call(Call),
    /// The caller writes one number, word, setting or the mark.
    Set {
        slice: Slice,
        index: u32,
        value: u32,
    },
    /// From here on the caller hands over the first so many of bodies, words, numbers and rows.
    Hand([u32; 4]),
}

#[derive(Copy, Clone, Debug)]
enum Slice {
    Bodies,
    Words,
    Numbers,
    Rows,
    Settings,
    Mark,
}

const SLICES: [Slice; 6] = [
    Slice::Bodies,
    Slice::Words,
    Slice::Numbers,
    Slice::Rows,
    Slice::Settings,
    Slice::Mark,
];

impl Line {
    fn tokens(&self) -> [u32; TOKENS] {
        let given: Vec<u32> = match *self {
            Line::Call(call) => {
                let op = call.kind() as u32;
                match call {
                    Call::Place { body, pose } => {
                        [op, body].into_iter().chain(pose.map(bits)).collect()
                    }
                    Call::Build {
                        warm,
                        coefficient,
                        substep,
                    } => vec![op, warm as u32, bits(coefficient), substep],
                    Call::Sweep(i) | Call::ReadRows(i) | Call::ReadVelocity(i) => vec![op, i],
                    _ => vec![op],
                }
            }
            Line::Set {
                slice,
                index,
                value,
            } => vec![9, slice as u32, index, value],
            Line::Hand([b, w, n, r]) => vec![10, b, w, n, r],
        };
        std::array::from_fn(|i| given.get(i).copied().unwrap_or(0))
    }

    fn from_tokens(t: [u32; TOKENS]) -> Line {
        let [op, a, b, c, d, ..] = t;
        let call = match op {
            0 => Call::Load,
            1 => Call::Place {
                body: a,
                pose: std::array::from_fn(|i| f32::from_bits(t[2 + i])),
            },
            2 => Call::Build {
                warm: a != 0,
                coefficient: f32::from_bits(b),
                substep: c,
            },
            3 => Call::WarmStart,
            4 => Call::Sweep(a),
            5 => Call::RemoveBias,
            6 => Call::WriteBack,
            7 => Call::ReadRows(a),
            8 => Call::ReadVelocity(a),
            9 => {
                return Line::Set {
                    slice: SLICES[a as usize],
                    index: b,
                    value: c,
                };
            }
            _ => return Line::Hand([a, b, c, d]),
        };
        Line::Call(call)
    }
}

/// A study in storage of fixed size, and how much of it is handed over.
struct Held {
    all: Study,
    lengths: [usize; 4],
}

impl Held {
    fn new(all: Study) -> Held {
        let lengths = [
            all.bodies.len(),
            all.words.len(),
            all.numbers.len(),
            all.rows.len(),
        ];
        Held { all, lengths }
    }

    fn handed(&self) -> Study {
        let [b, w, n, r] = self.lengths;
        let all = &self.all;
        Study {
            settings: all.settings,
            built: all.built,
            bodies: all.bodies[..b].to_vec(),
            words: all.words[..w].to_vec(),
            numbers: all.numbers[..n].to_vec(),
            rows: all.rows[..r].to_vec(),
        }
    }

    /// The bits of what a write would replace.
    fn value(&self, slice: Slice, index: u32) -> u32 {
        let i = index as usize;
        match slice {
            Slice::Bodies => bits(self.all.bodies[i]),
            Slice::Words => self.all.words[i],
            Slice::Numbers => bits(self.all.numbers[i]),
            Slice::Rows => bits(self.all.rows[i]),
            Slice::Settings => bits(self.all.settings[i]),
            Slice::Mark => self.all.built as u32,
        }
    }

    /// Does what the line says; the answer's code and the checksum.
    fn run(&mut self, side: Side, line: &Line) -> (u64, u32) {
        match *line {
            Line::Call(call) => {
                let mut s = self.handed();
                let answer = side(&mut s, &call);
                let [b, w, n, r] = self.lengths;
                self.all.bodies[..b].copy_from_slice(&s.bodies);
                self.all.words[..w].copy_from_slice(&s.words);
                self.all.numbers[..n].copy_from_slice(&s.numbers);
                self.all.rows[..r].copy_from_slice(&s.rows);
                self.all.built = s.built;
                (answer.code, self.checksum(Some((&call, &answer))))
            }
            Line::Set {
                slice,
                index,
                value,
            } => {
                let (i, x) = (index as usize, f32::from_bits(value));
                match slice {
                    Slice::Bodies => self.all.bodies[i] = x,
                    Slice::Words => self.all.words[i] = value,
                    Slice::Numbers => self.all.numbers[i] = x,
                    Slice::Rows => self.all.rows[i] = x,
                    Slice::Settings => self.all.settings[i] = x,
                    Slice::Mark => self.all.built = value != 0,
                }
                (0, self.checksum(None))
            }
            Line::Hand(lengths) => {
                self.lengths = lengths.map(|n| n as usize);
                (0, self.checksum(None))
            }
        }
    }

    fn checksum(&self, answered: Option<(&Call, &Answer)>) -> u32 {
        let mut h: u32 = 0;
        let mut add = |x: u32| h = h.wrapping_mul(31).wrapping_add(x);
        self.all.bodies.iter().for_each(|x| add(bits(*x)));
        self.all.words.iter().for_each(|x| add(*x));
        self.all.numbers.iter().for_each(|x| add(bits(*x)));
        self.all.rows.iter().for_each(|x| add(bits(*x)));
        if let Some((call, answer)) = answered {
            if answer.granted() {
                let count = match call {
                    Call::ReadRows(_) => answer.code as u32 as usize,
                    _ => 0,
                };
                let numbers = match call {
                    Call::ReadVelocity(_) => VELOCITY,
                    _ => count * ROW,
                };
                answer.out[..numbers].iter().for_each(|x| add(bits(*x)));
                let words = match call {
                    Call::Sweep(_) => answer.ids.len(),
                    _ => count,
                };
                answer.ids[..words].iter().for_each(|x| add(*x));
            }
        }
        h
    }
}

/// What a study's list has met, and its text.
struct Writer {
    text: String,
    lines: u32,
    by_kind: [[u64; REFUSALS.len() + 1]; KINDS.len()],
    longest: [usize; 4],
}

impl Writer {
    fn new() -> Writer {
        Writer {
            text: String::new(),
            lines: 0,
            by_kind: Default::default(),
            longest: [0; 4],
        }
    }

    fn line(&mut self, h: &mut Held, line: Line) -> u64 {
        let (code, checksum) = h.run(ORACLE, &line);
        if let Line::Call(call) = line {
            let column = REFUSALS.iter().position(|k| *k == code);
            self.by_kind[call.kind()][column.map_or(0, |k| k + 1)] += 1;
        }
        let answer = [(code >> 32) as u32, code as u32, checksum];
        self.tokens(line.tokens().into_iter().chain(answer));
        self.lines += 1;
        code
    }

    /// One text line.
    fn tokens(&mut self, tokens: impl IntoIterator<Item = u32>) {
        let mut separator = "";
        for token in tokens {
            write!(self.text, "{separator}{token:08X}").unwrap();
            separator = " ";
        }
        self.text.push('\n');
    }

    fn records(&mut self, tokens: Vec<u32>, width: usize) {
        for line in tokens.chunks(width) {
            self.tokens(line.iter().copied());
        }
    }

    /// A study and its list of lines.
    fn study(&mut self, s: Study, list: impl FnOnce(&mut Writer, &mut Held)) {
        let mut body = Writer::new();
        body.by_kind = self.by_kind;
        list(&mut body, &mut Held::new(s.clone()));
        self.by_kind = body.by_kind;
        self.lines += body.lines;
        let lengths = [s.bodies.len(), s.words.len(), s.numbers.len(), s.rows.len()];
        for (most, now) in self.longest.iter_mut().zip(lengths) {
            *most = now.max(*most);
        }
        let header = lengths.map(|n| n as u32).into_iter();
        let settings = s.settings.map(bits);
        self.tokens(header.chain([body.lines]).chain(settings));
        let all = |n: &[f32]| n.iter().map(|x| bits(*x)).collect();
        self.records(all(&s.bodies), BODY);
        self.records(s.words.clone(), WORDS);
        self.records(all(&s.numbers), JOINT);
        self.records(all(&s.rows), ROW);
        self.text.push_str(&body.text);
    }
}

fn set(slice: Slice, index: usize, value: u32) -> Line {
    Line::Set {
        slice,
        index: index as u32,
        value,
    }
}

fn all_calls() -> Vec<Call> {
    let warm = Call::Build {
        warm: true,
        coefficient: 0.5,
        substep: 1,
    };
    let mut calls = vec![
        Call::Load,
        Call::Place {
            body: 0,
            pose: [0.5, -0.5, 0.5, 0.5, 1.0, 2.0, 3.0],
        },
        Call::Build {
            warm: false,
            coefficient: 0.0,
            substep: 0,
        },
        warm,
    ];
    calls.extend([
        Call::WarmStart,
        Call::Sweep(2),
        Call::RemoveBias,
        Call::WriteBack,
    ]);
    calls.extend([
        Call::ReadRows(0),
        Call::ReadVelocity(0),
        Call::Sweep(65),
        Call::ReadRows(9),
    ]);
    calls
}

/// Rules 1 and 2, on many bodies and joints; the slices are handed over by their first records.
fn many(g: &mut Generator, w: &mut Writer) {
    let mut s = g.study_of(Size {
        bodies: 129,
        joints: 3,
    });
    let joints = s.joint_count();
    for j in 0..129 - joints {
        let [words, numbers] = [
            s.words[j % joints * WORDS..][..WORDS].to_vec(),
            vec![0; JOINT],
        ];
        s.words.extend(words);
        s.numbers.extend(numbers.iter().map(|_| 0.25));
    }
    for w in s.words.chunks_exact_mut(WORDS) {
        w[2..6].fill(0);
    }
    s.words[2..6].copy_from_slice(&[56, 7, 7, 0]);
    s.rows = g.storage(9);
    w.study(s, |w, h| {
        let [_, words, numbers, rows] = h.lengths.map(|x| x as u32);
        for (bodies, joints) in [(128, 128), (129, 128), (128, 129), (129, 129)] {
            let lengths = [
                bodies * BODY as u32,
                (joints * WORDS as u32).min(words),
                (joints * JOINT as u32).min(numbers),
                rows,
            ];
            w.line(h, Line::Hand(lengths));
            for call in [Call::Load, Call::ReadVelocity(127)] {
                w.line(h, Line::Call(call));
            }
        }
        // 129 joints by their words alone; 2 before 3.
        let bodies = 128 * BODY as u32;
        w.line(h, Line::Hand([bodies, words, 128 * JOINT as u32, rows]));
        w.line(h, Line::Call(Call::Load));
        w.line(h, Line::Hand([bodies, words, numbers, rows]));
        w.line(h, set(Slice::Words, 2, 64));
        w.line(h, Line::Call(Call::Load));
    });
}

/// Two rules broken at once, in either joint; each call that a rule of its own refuses.
fn orders(g: &mut Generator, w: &mut Writer) {
    let mut s = tied(g);
    s.settings[0] = 1.0 / 64.0;
    w.study(s, |w, h| {
        let bad = bits(f32::NAN);
        // What a joint's rules look at, and what is written there.
        let breaks = |j: usize| -> [Vec<(Slice, usize, u32)>; 6] {
            let at = j * WORDS;
            let end = 1 - j as u32;
            [
                vec![(Slice::Words, at + 2, 64)],
                vec![(Slice::Words, at + 5, 1)],
                vec![(Slice::Words, at, 9)],
                vec![(Slice::Words, at, end), (Slice::Words, at + 1, end)],
                vec![(Slice::Numbers, j * JOINT + 13, bad)],
                vec![(Slice::Settings, 0, bits(-1.0))],
            ]
        };
        let pose = [0.0, 0.0, 0.0, 1.0, 0.0, 0.0, f32::NAN];
        let mut turned = pose;
        turned.swap(3, 6);
        let build = |coefficient: f32, substep: u32| Call::Build {
            warm: true,
            coefficient,
            substep,
        };
        let calls = [
            Call::Load,
            Call::Sweep(65),
            Call::ReadRows(9),
            Call::Place { body: 9, pose },
            Call::Place { body: 0, pose },
            Call::Place {
                body: 0,
                pose: turned,
            },
            build(f32::NAN, 0),
            build(f32::NAN, 1),
            build(0.5, 1),
        ];
        for one in 0..6 {
            for two in one..6 {
                let writes = match g.d.one_in(2) {
                    true => [&breaks(0)[one][..], &breaks(1)[two]].concat(),
                    false => [&breaks(1)[one][..], &breaks(0)[two]].concat(),
                };
                let old: Vec<u32> = writes.iter().map(|w| h.value(w.0, w.1 as u32)).collect();
                for (slice, index, value) in &writes {
                    w.line(h, set(*slice, *index, *value));
                }
                w.line(h, Line::Call(Call::Load));
                let k = g.d.below(calls.len() as u64) as usize;
                w.line(h, Line::Call(calls[k]));
                for ((slice, index, _), old) in writes.iter().zip(old).rev() {
                    w.line(h, set(*slice, *index, old));
                }
            }
        }
        // The joints exchanged: a later joint's rule before an earlier one's.
        for (one, two) in [(1, 0), (2, 0), (2, 1), (4, 3)] {
            let writes = [&breaks(0)[one][..], &breaks(1)[two]].concat();
            let old: Vec<u32> = writes.iter().map(|w| h.value(w.0, w.1 as u32)).collect();
            for (slice, index, value) in &writes {
                w.line(h, set(*slice, *index, *value));
            }
            w.line(h, Line::Call(Call::Load));
            for ((slice, index, _), old) in writes.iter().zip(old).rev() {
                w.line(h, set(*slice, *index, old));
            }
        }
        let all = h.lengths.map(|n| n as u32);
        let short = Line::Hand([all[0], all[1], all[2], 18 * ROW as u32 - 1]);
        for dt in [1.0, -1.0] {
            w.line(h, set(Slice::Settings, 0, bits(dt)));
            for hand in [Line::Hand(all), short] {
                w.line(h, hand);
                for call in calls {
                    w.line(h, Line::Call(call));
                }
            }
        }
    });
}

/// Bodies at rest and motors of no force: what each row wants lies just at its bounds.
fn still(g: &mut Generator, w: &mut Writer) {
    let mut s = tied(g);
    s.settings = [1.0 / 64.0, 1.0, 3.0];
    for n in s.bodies.chunks_exact_mut(BODY) {
        n.fill(0.0);
        n[3] = 1.0;
        n[7..POSED].copy_from_slice(&[1.0, 0.0, 0.0, 1.0, 0.0, 1.0, 1.0, 1.0, 1.0]);
    }
    for n in s.numbers.chunks_exact_mut(JOINT) {
        n.fill(0.0);
        n[3] = 1.0;
        n[10] = 1.0;
        n[26] = 1.0;
        n[32] = 1.0;
        n[38] = 1.0;
        n[41] = 1.0;
    }
    w.study(s, |w, h| {
        let cold = Call::Build {
            warm: false,
            coefficient: 0.0,
            substep: 0,
        };
        for call in [Call::Load, cold, Call::Sweep(1), Call::Sweep(3)] {
            w.line(h, Line::Call(call));
        }
        for i in 0..3 {
            w.line(h, set(Slice::Bodies, POSED + i, bits(1.0)));
            w.line(h, Line::Call(Call::Sweep(2)));
        }
        // The world reads zero in every row, though rows that the caller altered give it a mass.
        let (limit_x, limit_y) = (15 * ROW, 16 * ROW);
        w.line(h, set(Slice::Rows, limit_x + 26, bits(1.0)));
        w.line(h, set(Slice::Rows, limit_y + 3, bits(1.0)));
        w.line(h, set(Slice::Bodies, BODY + POSED, bits(1.0)));
        w.line(h, Line::Call(Call::Sweep(2)));
        w.line(h, Line::Call(Call::WarmStart));
    });
}

/// Two bodies, a joint between them and one to the world, nine rows each.
fn tied(g: &mut Generator) -> Study {
    let mut s = g.study_of(Size {
        bodies: 2,
        joints: 2,
    });
    for (w, ends) in s.words.chunks_exact_mut(WORDS).zip([[0, 1], [1, WORLD]]) {
        w[..2].copy_from_slice(&ends);
        w[2..6].copy_from_slice(&[56, 7, 7, 0]);
        w[ENABLED] = 0;
    }
    s.rows = g.storage(18);
    s
}

/// Every bit of every mask, on a joint of nine rows; on locked axes, and of a joint that is switched off.
fn masks(g: &mut Generator, w: &mut Writer) {
    let s = tied(g);
    w.study(s, |w, h| {
        for (locked, enabled) in [(56, 0), (63, 0), (0, 2)] {
            w.line(h, set(Slice::Words, 2, locked));
            w.line(h, set(Slice::Words, ENABLED, enabled));
            for k in 0..4 {
                let at = 2 + k;
                let old = h.value(Slice::Words, at as u32);
                for mask in [0, 1, 4, 7, 8, 16, 32, 56, 63, 64, 72, 255, 256, u32::MAX] {
                    w.line(h, set(Slice::Words, at, mask));
                    w.line(h, Line::Call(Call::Load));
                    if g.d.one_in(2) {
                        w.line(h, Line::Call(g.build(false)));
                    }
                }
                w.line(h, set(Slice::Words, at, old));
            }
            for call in all_calls() {
                w.line(h, Line::Call(call));
            }
        }
    });
}

/// Every number of a body and of a joint NaN and infinite.
fn finite(g: &mut Generator, w: &mut Writer) {
    let mut s = g.study_of(Size {
        bodies: 2,
        joints: 1,
    });
    s.words[..2].copy_from_slice(&[1, 0]);
    s.words[2..6].copy_from_slice(&[9, 6, 6, 0]);
    s.words[ENABLED] = 0;
    s.rows = g.storage(6);
    w.study(s, |w, h| {
        for bad in [f32::NAN, f32::INFINITY] {
            for (slice, count) in [
                (Slice::Bodies, 2 * BODY),
                (Slice::Numbers, JOINT),
                (Slice::Settings, 3),
            ] {
                for i in 0..count {
                    let old = h.value(slice, i as u32);
                    w.line(h, set(slice, i, bits(bad)));
                    w.line(h, Line::Call(Call::Load));
                    w.line(h, set(slice, i, old));
                }
            }
        }
        for call in all_calls() {
            w.line(h, Line::Call(call));
        }
    });
}

/// A write by which the caller breaks a rule, or changes what no rule looks at.
fn write_any(g: &mut Generator, s: &Study) -> Option<(Slice, usize, u32)> {
    let (bodies, joints) = (s.body_count(), s.joint_count());
    let d = &mut g.d;
    let bad = d.pick(&[f32::NAN, f32::INFINITY, f32::NEG_INFINITY]);
    let joint = d.below(joints.max(1) as u64) as usize;
    let body = d.below(bodies.max(1) as u64) as usize;
    Some(match d.below(14) {
        0 | 1 if joints > 0 => {
            let k = d.below(4) as usize;
            let mask = d.pick(&[0, 1, 7, 8, 24, 56, 63, 64, 65, 255, 263, u32::MAX]);
            (Slice::Words, joint * WORDS + 2 + k, mask)
        }
        2 if joints > 0 => {
            let end = d.pick(&[bodies as u32, WORLD - 1, WORLD, 0, 1]);
            (Slice::Words, joint * WORDS + d.below(2) as usize, end)
        }
        3 | 4 if joints > 0 => {
            let place = match d.below(3) {
                0 => d.pick(&NUMBER),
                1 => d.pick(&FINITE),
                _ => d.below(JOINT as u64) as usize,
            };
            (Slice::Numbers, joint * JOINT + place, bits(bad))
        }
        5 if bodies > 0 => {
            let place = d.below(BODY as u64) as usize;
            (Slice::Bodies, body * BODY + place, bits(bad))
        }
        6 => (Slice::Settings, d.below(3) as usize, bits(bad)),
        7 => {
            let dt = d.pick(&[-1.0e-45, -1.0, 0.0, -0.0]);
            (Slice::Settings, 0, bits(dt))
        }
        8 => (Slice::Mark, 0, d.below(2) as u32),
        9 if joints > 0 => (Slice::Words, joint * WORDS + ENABLED, d.below(4) as u32),
        10 if bodies > 0 => {
            let place = POSED + d.below(VELOCITY as u64) as usize;
            (Slice::Bodies, body * BODY + place, bits(d.number()))
        }
        11 | 12 if !s.rows.is_empty() => {
            let at = d.below(s.rows.len() as u64) as usize;
            (Slice::Rows, at, bits(d.number()))
        }
        _ => return None,
    })
}

/// Calls of any kind; before some of them something is written or less is handed over, and mostly put back after.
fn any_list(g: &mut Generator, w: &mut Writer, h: &mut Held) {
    w.line(h, Line::Call(Call::Load));
    for _ in 0..16 + g.d.below(16) {
        let mut back = None;
        if g.d.one_in(3) {
            let s = h.handed();
            if let Some((slice, index, value)) = write_any(g, &s) {
                let old = h.value(slice, index as u32);
                w.line(h, set(slice, index, value));
                back = Some(set(slice, index, old));
            }
        } else if g.d.one_in(8) {
            let all = h.lengths.map(|n| n as u32);
            let mut less = all;
            let k = g.d.below(4) as usize;
            less[k] = less[k].saturating_sub(1 + g.d.below(60) as u32);
            w.line(h, Line::Hand(less));
            back = Some(Line::Hand(all));
        }
        let s = h.handed();
        w.line(h, Line::Call(g.call(&s)));
        if let Some(back) = back {
            // A write that no rule refuses may stay.
            if !matches!(back, Line::Set { .. })
                || refusal(&h.handed(), &Call::Load) != 0
                || g.d.one_in(2)
            {
                w.line(h, back);
            }
        }
    }
}

/// The text, and what was met.
fn made() -> Writer {
    let g = &mut Generator::new(SEED);
    let mut w = Writer::new();
    w.tokens([STUDIES as u32]);
    many(g, &mut w);
    masks(g, &mut w);
    finite(g, &mut w);
    orders(g, &mut w);
    still(g, &mut w);
    for _ in 5..STUDIES {
        let size = Size {
            bodies: 1 + g.d.below(5) as usize,
            joints: g.d.below(5) as usize,
        };
        let mut s = g.study_of(size);
        s.rows = g.storage(total(&s));
        g.leftovers(&mut s);
        w.study(s, |w, h| any_list(g, w, h));
    }
    w
}

pub fn text() -> String {
    made().text
}

pub fn answers() {
    let w = made();
    print!("{}", w.text);
    eprintln!("{} lines, {} bytes", w.lines, w.text.len());
    eprintln!("longest bodies, words, numbers, rows: {:?}", w.longest);
    eprintln!("granted, then refused by {REFUSALS:?}:");
    for (kind, by) in KINDS.iter().zip(&w.by_kind) {
        eprintln!("  {kind:13} {by:?}");
    }
}

/// Token after token; each is eight digits and one byte.
struct Reader<'a>(&'a [u8]);

impl Reader<'_> {
    fn token(&mut self) -> u32 {
        let (token, rest) = self.0.split_at(9);
        self.0 = rest;
        let digits = std::str::from_utf8(&token[..8]).unwrap();
        u32::from_str_radix(digits, 16).unwrap()
    }

    fn words(&mut self, n: u32) -> Vec<u32> {
        (0..n).map(|_| self.token()).collect()
    }

    fn numbers(&mut self, n: u32) -> Vec<f32> {
        (0..n).map(|_| f32::from_bits(self.token())).collect()
    }
}

/// Replays the text; how many lines agree, and what stands in the first that does not.
pub fn replay(side: Side, text: &str) -> (u64, Option<String>) {
    let mut r = Reader(text.as_bytes());
    let mut agree = 0;
    for study in 0..r.token() {
        let [b, w, n, rows, lines] = [0; 5].map(|_| r.token());
        let settings = [0; 3].map(|_| f32::from_bits(r.token()));
        let mut h = Held::new(Study {
            settings,
            built: false,
            bodies: r.numbers(b),
            words: r.words(w),
            numbers: r.numbers(n),
            rows: r.numbers(rows),
        });
        for k in 0..lines {
            let tokens = [0; TOKENS].map(|_| r.token());
            let [high, low, checksum] = [0; 3].map(|_| r.token());
            let (code, sum) = h.run(side, &Line::from_tokens(tokens));
            if (code, sum) != ((high as u64) << 32 | low as u64, checksum) {
                let what = format!(
                    "study {study}, line {k}: {tokens:X?} answers {code}, checksum {sum:08X}; \
                     stored are {high:08X} {low:08X}, {checksum:08X}"
                );
                return (agree, Some(what));
            }
            agree += 1;
        }
    }
    assert!(r.0.is_empty());
    (agree, None)
}
