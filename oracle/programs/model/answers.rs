//! A fixed list of calls with the oracle's answers, as text that a very simple program can read,
//! and its replay.

use crate::bits::bits;
use crate::generator::{ANGLES, Generator, LARGE, Size, total};
use crate::library::{ORACLE, Side};
use crate::model::{
    Answer, BODY, CHOICE, COLUMNS, Call, ENABLED, FINITE, FIRST, GRANTED, JOINT, KINDS, NUMBER, ROW, Study, WORDS, WORLD,
};
use std::fmt::Write;

const SEED: u64 = 20;
const STUDIES: usize = 141;

/// The opcode of a motor table, and the largest one that is stored.
const TABLE: u32 = 11;
const LARGEST: usize = 400;
/// The opcodes of a mask change and of a frame.
const MASKS: u32 = 12;
const FRAME: u32 = 13;

/// One line of a list.
#[derive(Copy, Clone)]
enum Line {
    Call(Call),
    /// The caller writes one number, word, setting or the mark.
    Set {
        slice: Slice,
        index: u32,
        value: u32,
    },
    /// From here on the caller hands over the first so many of bodies, words, numbers and rows.
    Hand([u32; 4]),
}

#[derive(Copy, Clone, Debug)]
enum Slice {
    Bodies,
    Words,
    Numbers,
    Rows,
    Settings,
    Mark,
}

const SLICES: [Slice; 6] = [
    Slice::Bodies,
    Slice::Words,
    Slice::Numbers,
    Slice::Rows,
    Slice::Settings,
    Slice::Mark,
];

impl Line {
    /// Opcode and five arguments.
    fn tokens(&self) -> [u32; 6] {
        match *self {
            Line::Call(call) => {
                let op = call.kind() as u32;
                match call {
                    Call::Place { body, pose } => {
                        let [re, im, x, y] = pose.map(bits);
                        [op, body, re, im, x, y]
                    }
                    Call::Build {
                        warm,
                        coefficient,
                        substep,
                    } => [op, warm as u32, bits(coefficient), substep, 0, 0],
                    Call::Sweep(i) | Call::ReadRows(i) | Call::ReadVelocity(i) => {
                        [op, i, 0, 0, 0, 0]
                    }
                    Call::SetTargets(table) => [TABLE, table.len() as u32, 0, 0, 0, 0],
                    Call::SetMasks { joint, masks } => {
                        let [locked, limit, motor, coupled] = masks;
                        [MASKS, joint, locked, limit, motor, coupled]
                    }
                    Call::Frame {
                        warm,
                        coefficient,
                        sweeps,
                        substeps,
                    } => [FRAME, warm as u32, bits(coefficient), sweeps, substeps, 0],
                    _ => [op, 0, 0, 0, 0, 0],
                }
            }
            Line::Set {
                slice,
                index,
                value,
            } => [9, slice as u32, index, value, 0, 0],
            Line::Hand([b, w, n, r]) => [10, b, w, n, r, 0],
        }
    }

    /// The bytes of its table, where it has one; they stand after the line.
    fn table(&self) -> &'static [u8] {
        match self {
            Line::Call(Call::SetTargets(table)) => table,
            _ => &[],
        }
    }

    fn from_tokens([op, a, b, c, d, e]: [u32; 6], table: Vec<u8>) -> Line {
        let call = match op {
            0 => Call::Load,
            1 => Call::Place {
                body: a,
                pose: [b, c, d, e].map(f32::from_bits),
            },
            2 => Call::Build {
                warm: a != 0,
                coefficient: f32::from_bits(b),
                substep: c,
            },
            3 => Call::WarmStart,
            4 => Call::Sweep(a),
            5 => Call::RemoveBias,
            6 => Call::WriteBack,
            7 => Call::ReadRows(a),
            8 => Call::ReadVelocity(a),
            TABLE => Call::SetTargets(table.leak()),
            MASKS => Call::SetMasks {
                joint: a,
                masks: [b, c, d, e],
            },
            FRAME => Call::Frame {
                warm: a != 0,
                coefficient: f32::from_bits(b),
                sweeps: c,
                substeps: d,
            },
            9 => {
                return Line::Set {
                    slice: SLICES[a as usize],
                    index: b,
                    value: c,
                };
            }
            _ => return Line::Hand([a, b, c, d]),
        };
        Line::Call(call)
    }
}

/// A study in storage of fixed size, and how much of it is handed over.
struct Held {
    all: Study,
    lengths: [usize; 4],
}

impl Held {
    fn new(all: Study) -> Held {
        let lengths = [
            all.bodies.len(),
            all.words.len(),
            all.numbers.len(),
            all.rows.len(),
        ];
        Held { all, lengths }
    }

    fn handed(&self) -> Study {
        let [b, w, n, r] = self.lengths;
        let all = &self.all;
        Study {
            settings: all.settings,
            built: all.built,
            bodies: all.bodies[..b].to_vec(),
            words: all.words[..w].to_vec(),
            numbers: all.numbers[..n].to_vec(),
            rows: all.rows[..r].to_vec(),
        }
    }

    /// Does what the line says; the answer's code and the checksum.
    fn run(&mut self, side: Side, line: &Line) -> (u64, u32) {
        match *line {
            Line::Call(call) => {
                let mut s = self.handed();
                let answer = side(&mut s, &call);
                let [b, w, n, r] = self.lengths;
                self.all.bodies[..b].copy_from_slice(&s.bodies);
                self.all.words[..w].copy_from_slice(&s.words);
                self.all.numbers[..n].copy_from_slice(&s.numbers);
                self.all.rows[..r].copy_from_slice(&s.rows);
                self.all.built = s.built;
                (answer.code, self.checksum(Some((&call, &answer))))
            }
            Line::Set {
                slice,
                index,
                value,
            } => {
                let (i, x) = (index as usize, f32::from_bits(value));
                match slice {
                    Slice::Bodies => self.all.bodies[i] = x,
                    Slice::Words => self.all.words[i] = value,
                    Slice::Numbers => self.all.numbers[i] = x,
                    Slice::Rows => self.all.rows[i] = x,
                    Slice::Settings => self.all.settings[i] = x,
                    Slice::Mark => self.all.built = value != 0,
                }
                (0, self.checksum(None))
            }
            Line::Hand(lengths) => {
                self.lengths = lengths.map(|n| n as usize);
                (0, self.checksum(None))
            }
        }
    }

    fn checksum(&self, answered: Option<(&Call, &Answer)>) -> u32 {
        let mut h: u32 = 0;
        let mut add = |x: u32| h = h.wrapping_mul(31).wrapping_add(x);
        self.all.bodies.iter().for_each(|x| add(bits(*x)));
        self.all.words.iter().for_each(|x| add(*x));
        self.all.numbers.iter().for_each(|x| add(bits(*x)));
        self.all.rows.iter().for_each(|x| add(bits(*x)));
        if let Some((call, answer)) = answered {
            if answer.granted() {
                let count = match call {
                    Call::ReadRows(_) => answer.code as u32 as usize,
                    _ => 0,
                };
                let numbers = match call {
                    Call::ReadVelocity(_) => 3,
                    _ => count * ROW,
                };
                answer.out[..numbers].iter().for_each(|x| add(bits(*x)));
                let words = match call {
                    Call::Sweep(_) | Call::Frame { .. } => answer.ids.len(),
                    _ => count,
                };
                answer.ids[..words].iter().for_each(|x| add(*x));
            }
        }
        h
    }
}

/// What a study's list has met, and its text.
struct Writer {
    text: String,
    lines: u32,
    by_kind: [[u64; COLUMNS]; KINDS.len()],
}

impl Writer {
    fn line(&mut self, h: &mut Held, line: Line) -> u64 {
        let (code, checksum) = h.run(ORACLE, &line);
        if let Line::Call(call) = line {
            let column = if code < GRANTED { code as usize } else { 0 };
            self.by_kind[call.kind()][column] += 1;
        }
        let tokens = line.tokens();
        let answer = [(code >> 32) as u32, code as u32, checksum];
        self.tokens(tokens.into_iter().chain(answer));
        self.records(line.table().iter().map(|b| *b as u32).collect(), 16);
        self.lines += 1;
        code
    }

    /// One text line.
    fn tokens(&mut self, tokens: impl IntoIterator<Item = u32>) {
        let mut separator = "";
        for token in tokens {
            write!(self.text, "{separator}{token:08X}").unwrap();
            separator = " ";
        }
        self.text.push('\n');
    }

    fn records(&mut self, tokens: Vec<u32>, width: usize) {
        for line in tokens.chunks(width) {
            self.tokens(line.iter().copied());
        }
    }

    /// A study and its list of lines.
    fn study(&mut self, s: Study, list: impl FnOnce(&mut Writer, &mut Held)) {
        let mut body = Writer {
            text: String::new(),
            lines: 0,
            by_kind: self.by_kind,
        };
        list(&mut body, &mut Held::new(s.clone()));
        self.by_kind = body.by_kind;
        self.lines += body.lines;
        let lengths = [s.bodies.len(), s.words.len(), s.numbers.len(), s.rows.len()];
        let header = lengths.map(|n| n as u32).into_iter();
        let settings = s.settings.map(bits);
        self.tokens(header.chain([body.lines]).chain(settings));
        let all = |n: &[f32]| n.iter().map(|x| bits(*x)).collect();
        self.records(all(&s.bodies), BODY);
        self.records(s.words.clone(), WORDS);
        self.records(all(&s.numbers), JOINT);
        self.records(all(&s.rows), ROW);
        self.text.push_str(&body.text);
    }
}

/// A write by which the caller breaks a rule, or changes what no rule looks at.
fn write_any(g: &mut Generator, s: &Study) -> Option<Line> {
    let (bodies, joints) = (s.body_count() as u64, s.joint_count() as u64);
    let d = &mut g.d;
    let (slice, index, value) = match d.below(17) {
        0 | 1 if joints > 0 => {
            let mask = [8, 9, 263, u32::MAX, 7, 7, 0, 1, 2, 3, 4, 5, 6];
            let at = d.below(joints) * WORDS as u64 + 2 + d.below(4);
            (Slice::Words, at, d.pick(&mask))
        }
        2 | 3 if joints > 0 => {
            let body = [bodies as u32, WORLD - 1, WORLD, 0, 1];
            let at = d.below(joints) * WORDS as u64 + d.below(2);
            (Slice::Words, at, d.pick(&body))
        }
        4 | 5 if joints > 0 => {
            let at = d.below(joints) * 42;
            let infinite = d.pick(&[f32::NAN, f32::INFINITY, f32::NEG_INFINITY]);
            let place = match d.below(3) {
                0 => d.pick(&NUMBER),
                1 => d.pick(&FINITE),
                _ => d.below(42) as usize,
            };
            (Slice::Numbers, at + place as u64, bits(infinite))
        }
        6 if bodies > 0 => {
            let at = d.below(bodies * 10);
            (Slice::Bodies, at, bits(d.number()))
        }
        7 => {
            let dt = [-1.0, -0.0, 0.0, f32::NAN, 1.0, -1.0e-40, f32::MAX];
            (Slice::Settings, 0, bits(d.pick(&dt)))
        }
        8 => (
            Slice::Settings,
            1 + d.below(2),
            bits(d.pick(&[f32::INFINITY, f32::MAX, 0.0])),
        ),
        9 | 10 => (Slice::Mark, 0, d.below(2) as u32),
        11 if joints > 0 => {
            let at = d.below(joints) * WORDS as u64 + ENABLED as u64;
            (Slice::Words, at, d.pick(&[0, 0, 1, 2, 3, u32::MAX]))
        }
        12 if joints > 0 => {
            let at = d.below(joints) * WORDS as u64 + CHOICE as u64;
            (Slice::Words, at, d.pick(&[0, 0, 1, 2, u32::MAX]))
        }
        13 if joints > 0 => {
            let at = d.below(joints) * JOINT as u64 + 40;
            (Slice::Numbers, at, bits(d.pick(&ANGLES)))
        }
        14 | 15 if joints > 0 => {
            let at = d.below(joints) * JOINT as u64 + 40;
            (Slice::Numbers, at, bits(d.pick(&LARGE)))
        }
        _ if !s.rows.is_empty() => {
            let at = d.below(s.rows.len() as u64);
            (Slice::Rows, at, bits(d.number()))
        }
        _ => return None,
    };
    Some(Line::Set {
        slice,
        index: index as u32,
        value,
    })
}

/// The write that takes back `line`.
fn undo(all: &Study, line: &Line) -> Line {
    let Line::Set { slice, index, .. } = *line else {
        unreachable!()
    };
    let i = index as usize;
    let value = match slice {
        Slice::Bodies => bits(all.bodies[i]),
        Slice::Words => all.words[i],
        Slice::Numbers => bits(all.numbers[i]),
        Slice::Rows => bits(all.rows[i]),
        Slice::Settings => bits(all.settings[i]),
        Slice::Mark => all.built as u32,
    };
    Line::Set {
        slice,
        index,
        value,
    }
}

/// Storage shorter than the total, or bodies and joints cut off.
fn hand_less(g: &mut Generator, h: &Held) -> Line {
    let s = h.handed();
    let [mut b, mut w, mut n, mut r] = h.lengths;
    let whole = total(&s) * ROW;
    match g.d.below(6) {
        0 => b = g.d.below(b as u64 + 1) as usize,
        1 => w = g.d.below(w as u64 + 1) as usize,
        2 => n = g.d.below(n as u64 + 1) as usize,
        3 => r = whole.saturating_sub(1),
        4 => r = whole.saturating_sub(ROW),
        _ => r = whole,
    }
    Line::Hand([b, w, n, r.min(h.lengths[3])].map(|x| x as u32))
}

/// Calls with writes and shorter slices between them, most of which are taken back.
fn any_list(g: &mut Generator, w: &mut Writer, h: &mut Held) {
    w.line(h, Line::Call(Call::Load));
    for _ in 0..8 + g.d.below(24) {
        let mut back = None;
        if g.d.one_in(4) {
            if g.d.one_in(4) {
                back = Some(Line::Hand(h.lengths.map(|x| x as u32)));
                let line = hand_less(g, h);
                w.line(h, line);
            } else if let Some(line) = write_any(g, &h.all) {
                back = (!g.d.one_in(6)).then(|| undo(&h.all, &line));
                w.line(h, line);
            }
        }
        let s = h.handed();
        let mut call = g.call(&s);
        while matches!(call, Call::SetTargets(table) if table.len() > LARGEST) {
            call = g.call(&s);
        }
        if g.d.one_in(16) {
            let rule = g.d.pick(&[9, 10, 11]);
            let mut s = s.clone();
            g.break_rule(rule, &mut s, &mut call);
        }
        let granted_build = w.line(h, Line::Call(call)) >= GRANTED && matches!(call, Call::Build { .. });
        if let Some(line) = back {
            w.line(h, line);
        }
        if granted_build && g.d.one_in(2) {
            w.line(h, Line::Call(Call::Sweep(2)));
        }
    }
}

const COLD: Call = Call::Build {
    warm: false,
    coefficient: 0.0,
    substep: 0,
};

fn set(slice: Slice, index: usize, value: u32) -> Line {
    Line::Set {
        slice,
        index: index as u32,
        value,
    }
}

/// 129 bodies and 129 joints, of which few make rows: handed over whole, with 128 bodies, with
/// 128 joints; then every rule broken, and one after the other mended.
fn many(g: &mut Generator, w: &mut Writer) {
    let mut s = g.study_of(Size {
        bodies: 129,
        joints: 129,
    });
    for (j, words) in s.words.chunks_exact_mut(WORDS).enumerate() {
        if j % 16 != 15 {
            words[2..6].fill(0);
        }
        // Body 128 has no joint.
        for end in &mut words[..2] {
            if *end == 128 {
                *end = WORLD;
            }
        }
        if words[0] == words[1] {
            words[..2].copy_from_slice(&[5, WORLD]);
        }
    }
    s.rows = g.storage(total(&s));
    let calls = [
        Call::Load,
        Call::Build {
            warm: true,
            coefficient: 0.5,
            substep: 0,
        },
        Call::WarmStart,
        Call::Sweep(3),
        Call::ReadVelocity(127),
        Call::ReadRows(127),
        Call::Place {
            body: 127,
            pose: [1.0, 0.0, 0.5, -0.5],
        },
        Call::WriteBack,
        Call::RemoveBias,
        Call::Sweep(63),
        Call::Sweep(64),
    ];
    let tables: [&[u8]; 6] = [
        b"127,2,1500\r\n0,0,1\r\n127,2,-250\r\n",
        b"128,0,1",
        b"0,0,1\r\n128,0,1\r\n0,0,x",
        b"0,0,1\r\n0,0\r\n",
        b"0,0,\"1",
        b"",
    ];
    w.study(s, |w, h| {
        let all = h.lengths.map(|x| x as u32);
        let [bodies, words] = [128 * BODY as u32 + 9, 128 * WORDS as u32 + 9];
        let numbers = 128 * JOINT as u32 + 41;
        for handed in [
            all,
            [bodies, all[1], all[2], all[3]],
            [all[0], words, all[2], all[3]],
            [bodies, words, all[2], all[3]],
            [bodies, all[1], numbers, all[3]],
        ] {
            w.line(h, Line::Hand(handed));
            for call in calls {
                w.line(h, Line::Call(call));
            }
            for table in tables {
                w.line(h, Line::Call(Call::SetTargets(table)));
            }
        }

        let asked = [
            Call::Load,
            Call::Sweep(65),
            Call::Sweep(64),
            Call::Sweep(1000),
            Call::Sweep(1001),
            Call::Sweep(u32::MAX),
            Call::ReadRows(200),
            Call::ReadVelocity(WORLD),
            Call::Place {
                body: 200,
                pose: [1.0, 0.0, 0.0, f32::NAN],
            },
            Call::Place {
                body: WORLD,
                pose: [1.0, 0.0, 0.0, 0.0],
            },
            Call::SetTargets(b"0,0,1\r\n128,0,1\r\n"),
        ];
        let short = (total(&h.handed()) * ROW - 1) as u32;
        let mut mends = vec![
            Line::Hand([bodies, all[1], all[2], short]),
            Line::Hand([bodies, words, all[2], short]),
        ];
        for line in [
            set(Slice::Words, 2 * WORDS + 5, 8),
            set(Slice::Words, WORDS, 200),
            set(Slice::Words, 0, h.all.words[1]),
            set(Slice::Bodies, 1, bits(f32::NAN)),
            set(Slice::Words, 3 * WORDS + CHOICE, 1),
            set(Slice::Numbers, 3 * JOINT + 40, bits(LARGE[0])),
            set(Slice::Settings, 0, bits(-1.0)),
        ] {
            mends.push(undo(&h.all, &line));
            w.line(h, line);
        }
        mends.push(Line::Hand([bodies, words, all[2], all[3]]));
        mends.push(set(Slice::Mark, 0, 1));
        w.line(h, set(Slice::Mark, 0, 0));
        w.line(h, Line::Hand([all[0], all[1], all[2], short]));
        for line in mends {
            for call in asked {
                w.line(h, Line::Call(call));
            }
            w.line(h, line);
        }
        for call in asked {
            w.line(h, Line::Call(call));
        }
    });
}

/// Row 0 pushes the world alone, row 1 looks at the velocity between its body and the world.
fn world_reads_zero(g: &mut Generator, w: &mut Writer) {
    let mut s = g.study_of(Size {
        bodies: 1,
        joints: 1,
    });
    s.words[..6].copy_from_slice(&[0, WORLD, 3, 0, 0, 0]);
    s.rows = vec![0.0; 2 * ROW];
    w.study(s, |w, h| {
        w.line(h, Line::Call(COLD));
        let mut rows = [0.0; 2 * ROW];
        rows[1..4].copy_from_slice(&[1.0, 1.0, 1.0]);
        rows[16] = 1.0;
        rows[ROW + 1..ROW + 4].copy_from_slice(&[-10.0, 10.0, 1.0]);
        rows[ROW + 9] = 1.0;
        for (i, x) in rows.into_iter().enumerate() {
            w.line(h, set(Slice::Rows, i, bits(x)));
        }
        for i in 0..3 {
            w.line(h, set(Slice::Bodies, 7 + i, bits(1.0)));
        }
        for call in [Call::Sweep(1), Call::ReadRows(0), Call::ReadVelocity(0)] {
            w.line(h, Line::Call(call));
        }
    });
}

/// Each place of the settings, the last body and the last joint, NaN or infinite for one load.
fn finite(g: &mut Generator, w: &mut Writer) {
    let mut s = g.study_of(Size {
        bodies: 2,
        joints: 2,
    });
    s.rows = g.storage(total(&s));
    w.study(s, |w, h| {
        for bad in [f32::NAN, f32::INFINITY] {
            let settings = (0..3).map(|i| (Slice::Settings, i));
            let body = (0..BODY).map(|i| (Slice::Bodies, BODY + i));
            let joint = (0..JOINT).map(|i| (Slice::Numbers, JOINT + i));
            for (slice, i) in settings.chain(body).chain(joint) {
                let line = set(slice, i, bits(bad));
                let back = undo(&h.all, &line);
                w.line(h, line);
                w.line(h, Line::Call(Call::Load));
                w.line(h, back);
            }
            for (warm, substep) in [(true, 0), (true, 1), (false, 0)] {
                let call = Call::Build {
                    warm,
                    coefficient: bad,
                    substep,
                };
                w.line(h, Line::Call(call));
            }
        }
    });
}

/// Changes of masks of the first joint, a middle one, one that is switched off and the last, with storage about the old
/// and the new total; of missing joints; old masks above 7; first rows that the caller has altered.
fn masks(g: &mut Generator, w: &mut Writer) {
    let joints = [
        [WORLD, 0, 3, 0, 4, 0],
        [0, 1, 3, 4, 0, 0],
        [1, 2, 7, 0, 0, 0],
        [2, 0, 0, 7, 7, 0],
    ];
    let mut s = g.study_of(Size {
        bodies: 3,
        joints: joints.len(),
    });
    for (words, joint) in s.words.chunks_exact_mut(WORDS).zip(joints) {
        words[..6].copy_from_slice(&joint);
        words[ENABLED] = 0;
    }
    s.words[2 * WORDS + ENABLED] = 1;
    s.rows = g.storage(24);
    let warm = |substep| {
        Line::Call(Call::Build {
            warm: true,
            coefficient: 0.5,
            substep,
        })
    };
    let change = |joint: usize, masks| {
        Line::Call(Call::SetMasks {
            joint: joint as u32,
            masks,
        })
    };
    w.study(s, |w, h| {
        let all = h.lengths.map(|x| x as u32);
        let lend = |rows: usize| Line::Hand([all[0], all[1], all[2], rows as u32]);
        w.line(h, Line::Call(Call::Load));
        let old = total(&h.handed());
        for (joint, masks) in [
            (0, [3, 4, 4, 0]),
            (0, [0; 4]),
            (1, [2, 0, 0, 0]),
            (2, [0, 7, 7, 0]),
            (3, [7, 0, 0, 0]),
        ] {
            let mut after = h.handed();
            let own: [u32; 4] = after.words[joint * WORDS + 2..][..4].try_into().unwrap();
            after.words[joint * WORDS + 2..][..4].copy_from_slice(&masks);
            let new = total(&after);
            for rows in [old * ROW, new * ROW, new * ROW - 1, (new - 1) * ROW, old * ROW - 1] {
                for line in [
                    warm(0),
                    lend(rows),
                    change(joint, masks),
                    lend(all[3] as usize),
                    warm(1),
                    warm(0),
                    Line::Call(Call::Sweep(2)),
                    Line::Call(Call::ReadRows(3)),
                    Line::Call(Call::WriteBack),
                    change(joint, own),
                ] {
                    w.line(h, line);
                }
            }
        }
        for joint in [4, 5, WORLD as usize] {
            for rows in [old * ROW, old * ROW - 1] {
                for line in [lend(rows), change(joint, [0, 7, 7, 0]), change(joint, [0, 0, 8, 0])] {
                    w.line(h, line);
                }
            }
        }
        w.line(h, lend(all[3] as usize));
        for place in [2, 3, 4, 5] {
            let line = set(Slice::Words, WORDS + place, 8);
            let back = undo(&h.all, &line);
            for line in [line, change(1, [3, 4, 0, 0]), change(0, [3, 0, 4, 0]), back] {
                w.line(h, line);
            }
        }
        for (stores, any) in [
            (Line::Call(Call::Load), 5),
            (change(1, [3, 4, 0, 0]), u32::MAX),
            (change(3, [0, 7, 7, 0]), 1),
        ] {
            for j in 0..joints.len() {
                w.line(h, set(Slice::Words, j * WORDS + FIRST, any));
            }
            w.line(h, lend(old * ROW - 1));
            w.line(h, stores);
            w.line(h, lend(all[3] as usize));
            for call in [COLD, Call::WarmStart, Call::Sweep(1), Call::RemoveBias, Call::WriteBack] {
                w.line(h, Line::Call(call));
            }
            for j in 0..joints.len() as u32 {
                w.line(h, Line::Call(Call::ReadRows(j)));
            }
            w.line(h, stores);
            w.line(h, Line::Call(Call::Sweep(1)));
        }
    });
}

/// Frames of a chain of two bodies with a motor and a stop, beside a third that no joint holds: warm and cold, of few and of many rounds and
/// substeps, on a model that is built or not; the rules in order; rotations of no length, of a tiny and of a huge one; the third body past
/// the largest number in each of four substeps.
fn frames(g: &mut Generator, w: &mut Writer) {
    let joints = [[WORLD, 0, 3, 0, 4, 0], [0, 1, 3, 4, 0, 0]];
    let mut s = g.study_of(Size {
        bodies: 3,
        joints: joints.len(),
    });
    for n in s.bodies.chunks_exact_mut(BODY) {
        for x in n {
            *x = g.d.tame();
        }
    }
    for (words, joint) in s.words.chunks_exact_mut(WORDS).zip(joints) {
        words[..6].copy_from_slice(&joint);
        words[ENABLED] = 0;
        words[CHOICE] = 0;
    }
    for n in s.numbers.chunks_exact_mut(JOINT) {
        for x in n {
            *x = g.d.tame();
        }
    }
    s.settings = [1.0 / 64.0, 1.0, 10.0];
    s.rows = g.storage(7);
    let frame = |warm: Option<f32>, sweeps, substeps| {
        Line::Call(Call::Frame {
            warm: warm.is_some(),
            coefficient: warm.unwrap_or(0.0),
            sweeps,
            substeps,
        })
    };
    w.study(s, |w, h| {
        let start = h.all.bodies.clone();
        let back = |w: &mut Writer, h: &mut Held| {
            for (i, x) in start.iter().enumerate() {
                if bits(h.all.bodies[i]) != bits(*x) {
                    w.line(h, set(Slice::Bodies, i, bits(*x)));
                }
            }
        };
        w.line(h, Line::Call(Call::Load));
        for warm in [None, Some(0.5), Some(1.0)] {
            for (sweeps, substeps) in [(1, 1), (0, 2), (4, 3), (2, 16), (64, 1), (65, 1), (65, 17), (1, 0), (1, 17), (64, u32::MAX)] {
                w.line(h, frame(warm, sweeps, substeps));
            }
            for call in [Call::ReadRows(0), Call::ReadRows(1), Call::ReadVelocity(1), Call::Sweep(1), Call::WriteBack] {
                w.line(h, Line::Call(call));
            }
            back(w, h);
            w.line(h, set(Slice::Mark, 0, 0));
        }
        // Rules before 16: 8, 7 and 6; dt of either zero.
        let all = h.lengths.map(|x| x as u32);
        let short = (total(&h.handed()) * ROW - 1) as u32;
        w.line(h, Line::Hand([all[0], all[1], all[2], short]));
        w.line(h, frame(None, 65, 17));
        w.line(h, frame(None, 1, 1));
        w.line(h, set(Slice::Settings, 0, bits(-1.0e-45)));
        w.line(h, frame(None, 65, 17));
        w.line(h, frame(Some(f32::NAN), 65, 17));
        w.line(h, Line::Hand(all));
        w.line(h, frame(None, 1, 16));
        for dt in [-0.0, 0.0, 1.0] {
            w.line(h, set(Slice::Settings, 0, bits(dt)));
            w.line(h, frame(Some(0.5), 2, 3));
            back(w, h);
        }
        for rotation in [[0.0, 0.0], [-0.0, 1.0], [1.0e-30, 0.0], [1.0e-23, 1.0e-23], [1.0e30, 0.0], [3.0e38, -3.0e38]] {
            for body in [0, 2] {
                for (k, x) in rotation.into_iter().enumerate() {
                    w.line(h, set(Slice::Bodies, body * BODY + k, bits(x)));
                }
                w.line(h, frame(Some(0.5), 1, 2));
                back(w, h);
            }
        }
        for built in [0, 1] {
            for k in 0..5 {
                w.line(h, set(Slice::Mark, 0, built));
                w.line(h, set(Slice::Bodies, 2 * BODY + 2, bits(f32::MAX * (0.875 - 0.25 * k as f32))));
                w.line(h, set(Slice::Bodies, 2 * BODY + 7, bits(f32::MAX)));
                w.line(h, frame(Some(0.5), 2, 4));
                back(w, h);
            }
        }
        for x in [f32::NAN, f32::INFINITY] {
            for place in [7, BODY + 8, 2 * BODY + 9] {
                w.line(h, set(Slice::Bodies, place, bits(x)));
                w.line(h, frame(None, 1, 2));
                back(w, h);
            }
        }
        w.line(h, frame(Some(1.0), 4, 4));
        w.line(h, Line::Call(Call::ReadRows(1)));
    });
}

/// The text, and what was met.
fn made() -> Writer {
    let g = &mut Generator::new(SEED);
    let mut w = Writer {
        text: String::new(),
        lines: 0,
        by_kind: [[0; COLUMNS]; KINDS.len()],
    };
    w.tokens([STUDIES as u32]);
    many(g, &mut w);
    world_reads_zero(g, &mut w);
    finite(g, &mut w);
    masks(g, &mut w);
    for _ in 5..STUDIES {
        let size = g.small();
        let mut s = g.study_of(size);
        s.rows = g.storage(total(&s));
        g.leftovers(&mut s);
        w.study(s, |w, h| any_list(g, w, h));
    }
    frames(g, &mut w);
    w
}

pub fn text() -> String {
    made().text
}

pub fn answers() {
    let w = made();
    print!("{}", w.text);
    eprintln!("{} lines, {} bytes", w.lines, w.text.len());
    eprintln!("granted, then refused by 1 to 16:");
    for (kind, by) in KINDS.iter().zip(&w.by_kind) {
        eprintln!("  {kind:13} {by:?}");
    }
}

/// Token after token; each is eight digits and one byte.
struct Reader<'a>(&'a [u8]);

impl Reader<'_> {
    fn token(&mut self) -> u32 {
        let (token, rest) = self.0.split_at(9);
        self.0 = rest;
        let digits = std::str::from_utf8(&token[..8]).unwrap();
        u32::from_str_radix(digits, 16).unwrap()
    }

    fn words(&mut self, n: u32) -> Vec<u32> {
        (0..n).map(|_| self.token()).collect()
    }

    fn numbers(&mut self, n: u32) -> Vec<f32> {
        (0..n).map(|_| f32::from_bits(self.token())).collect()
    }
}

/// Replays the text; how many lines agree, and what stands in the first that does not.
pub fn replay(side: Side, text: &str) -> (u64, Option<String>) {
    let mut r = Reader(text.as_bytes());
    let mut agree = 0;
    for study in 0..r.token() {
        let [b, w, n, rows, lines] = [0; 5].map(|_| r.token());
        let settings = [0; 3].map(|_| f32::from_bits(r.token()));
        let mut h = Held::new(Study {
            settings,
            built: false,
            bodies: r.numbers(b),
            words: r.words(w),
            numbers: r.numbers(n),
            rows: r.numbers(rows),
        });
        for k in 0..lines {
            let tokens = [0; 6].map(|_| r.token());
            let [high, low, checksum] = [0; 3].map(|_| r.token());
            let bytes = if tokens[0] == TABLE { tokens[1] } else { 0 };
            let table = r.words(bytes).into_iter().map(|b| b as u8).collect();
            let (code, sum) = h.run(side, &Line::from_tokens(tokens, table));
            if (code, sum) != ((high as u64) << 32 | low as u64, checksum) {
                let what = format!(
                    "study {study}, line {k}: {tokens:X?} answers {code}, checksum {sum:08X}; \
                     stored are {high:08X} {low:08X}, {checksum:08X}"
                );
                return (agree, Some(what));
            }
            agree += 1;
        }
    }
    assert!(r.0.is_empty());
    (agree, None)
}
