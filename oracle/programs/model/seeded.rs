//! Models drawn from seeds (request R-11): the library's against the second rendering, and the calls of a step on each by the unchanged Rust and by the library.

use crate::draw::Draw;
use crate::fenced::Fenced;
use crate::library::{ORACLE, RATTLE, same, same_answer, same_study};
use crate::model::{Call, Study};
use crate::seeded_rendering::{Draws, seeded};
use std::process::exit;

/// What the slices have room for, and how many rows are lent.
const ROOM: [usize; 4] = [3, 80, 96, 336];
const ROWS: usize = 48;

unsafe extern "C" {
    fn katydidzinc_seeded(
        seed: u32,
        settings: *mut f32,
        settings_len: usize,
        bodies: *mut f32,
        bodies_len: usize,
        words: *mut u32,
        words_len: usize,
        numbers: *mut f32,
        numbers_len: usize,
    ) -> u64;
}

/// Four slices as they are lent to the library, or as it left them.
#[derive(Clone)]
struct Lent {
    settings: Vec<f32>,
    bodies: Vec<f32>,
    words: Vec<u32>,
    numbers: Vec<f32>,
}

impl Lent {
    /// Slices of these lengths that hold anything.
    fn any(d: &mut Draw, [settings, bodies, words, numbers]: [usize; 4]) -> Lent {
        let mut floats = |n: usize| -> Vec<f32> { (0..n).map(|_| d.number()).collect() };
        let (settings, bodies, numbers) = (floats(settings), floats(bodies), floats(numbers));
        let words = (0..words).map(|_| d.word() as u32).collect();
        Lent { settings, bodies, words, numbers }
    }

    fn same(&self, other: &Lent) -> bool {
        same(&self.settings, &other.settings)
            && same(&self.bodies, &other.bodies)
            && same(&self.numbers, &other.numbers)
            && self.words == other.words
    }

    /// The library's answer, and whether it wrote outside of the slices.
    fn by_library(&mut self, seed: u32) -> (u64, bool) {
        let mut settings = Fenced::new(&self.settings, 12345.678);
        let mut bodies = Fenced::new(&self.bodies, 12345.678);
        let mut words = Fenced::new(&self.words, 0xDEAD_BEEF);
        let mut numbers = Fenced::new(&self.numbers, 12345.678);
        let (c, cs) = settings.place();
        let (b, bs) = bodies.place();
        let (w, ws) = words.place();
        let (n, ns) = numbers.place();
        let answer = unsafe { katydidzinc_seeded(seed, c, cs, b, bs, w, ws, n, ns) };
        let outside = settings.taken_back(&mut self.settings)
            | bodies.taken_back(&mut self.bodies)
            | words.taken_back(&mut self.words)
            | numbers.taken_back(&mut self.numbers);
        (answer, outside)
    }

    /// The study's records at the front of each slice.
    fn with(mut self, s: &Study) -> Lent {
        self.settings[..3].copy_from_slice(&s.settings);
        self.bodies[..s.bodies.len()].copy_from_slice(&s.bodies);
        self.words[..s.words.len()].copy_from_slice(&s.words);
        self.numbers[..s.numbers.len()].copy_from_slice(&s.numbers);
        self
    }
}

/// What was met: seeds by bodies, by joints, rows made, and a bit for each value that a number, a mask and a second body can have.
struct Tally {
    bodies: [u64; 9],
    joints: [u64; 9],
    rows: u64,
    most_rows: usize,
    numbers: Vec<bool>,
    worlds: u64,
    nan: u64,
}

fn fail(seed: u32, what: &str) -> ! {
    println!("seed {seed}: {what}");
    exit(1)
}

/// Lengths of which one is too short, or all are long enough.
fn lengths(d: &mut Draw) -> ([usize; 4], bool) {
    let mut lengths = ROOM.map(|n| n + if d.one_in(2) { 0 } else { d.below(20) as usize });
    let short = d.one_in(8);
    if short {
        let k = d.below(4) as usize;
        lengths[k] = ROOM[k] - 1 - if d.one_in(2) { 0 } else { d.below(ROOM[k] as u64) as usize };
    }
    (lengths, short)
}

fn one(seed: u32, d: &mut Draw, tally: &mut Tally) {
    let wanted = seeded(seed, ROWS);
    let (n, joints) = (wanted.body_count(), wanted.joint_count());
    let (lengths, short) = lengths(d);
    let before = Lent::any(d, lengths);
    let mut after = before.clone();
    let (answer, outside) = after.by_library(seed);
    if outside {
        fail(seed, "wrote outside of its slices");
    }
    if short {
        if answer != 1000 || !after.same(&before) {
            fail(seed, "a slice is too short: another answer, or something is written");
        }
    } else if answer != (1 << 32) + 65536 * n as u64 + joints as u64 || !after.same(&before.with(&wanted)) {
        fail(seed, "the library's model differs from the second rendering's");
    }
    // row storage holds anything
    let mut s = wanted.clone();
    s.rows.iter_mut().for_each(|x| *x = d.number());
    let warm = d.one_in(2);
    let build = Call::Build { warm, coefficient: 0.5, substep: 0 };
    let rounds = 1 + d.below(8) as u32;
    let step = [
        Call::Load,
        build,
        Call::WarmStart,
        Call::Sweep(rounds),
        Call::RemoveBias,
        Call::Sweep(1),
        Call::WriteBack,
    ];
    let rattle = RATTLE.unwrap();
    for call in step {
        let mut there = s.clone();
        let (here_answer, there_answer) = (ORACLE(&mut s, &call), rattle(&mut there, &call));
        if !here_answer.granted() {
            fail(seed, &format!("{call:?} is refused with {}", here_answer.code));
        }
        if !same_answer(&here_answer, &there_answer) || !same_study(&s, &there) {
            fail(seed, &format!("{call:?} differs between the Rust and the library"));
        }
    }
    tally.bodies[n] += 1;
    tally.joints[joints] += 1;
    tally.rows += s.total() as u64;
    tally.most_rows = tally.most_rows.max(s.total());
    tally.worlds += (0..joints).filter(|j| wanted.joint(*j)[1] == u32::MAX).count() as u64;
    tally.nan += s.bodies.iter().any(|x| x.is_nan()) as u64;
    for x in wanted.numbers.iter().chain(&wanted.bodies).chain(&wanted.settings[1..]) {
        tally.numbers[(x * 8.0 + 1000.0) as usize] = true;
    }
}

/// The first six draws of four seeds.
fn cases() {
    for (seed, first) in [
        (0, [0x8514AE57, 0x0B2B5C2F, 0x894BEBE7, 0x1656B8DF, 0x9DB21537, 0x1395D74F]),
        (1, [0x8514AFD4, 0x0B2B5CAE, 0x894BE860, 0x1656B85E, 0x9DB214B4, 0x1395D7CE]),
        (2, [0x8514AF55, 0x0B2B5F29, 0x894BE8E1, 0x1656B9DD, 0x9DB21435, 0x1395D041]),
        (u32::MAX, [0x8514AED6, 0x0B2B5DAC, 0x894BEB66, 0x1656BB58, 0x9DB215B6, 0x1395D6CC]),
    ] {
        let mut d = Draws(seed);
        if first.map(|_| d.draw()) != first {
            fail(seed, "its first six draws");
        }
    }
}

/// COUNT seeds: 0, 1, 2^31, 2^32 − 1 and their neighbours, the powers of two, a run from 0 on, and then any.
pub fn compare(seed: u64, count: u64) {
    cases();
    let d = &mut Draw::new(seed);
    let mut tally = Tally {
        bodies: [0; 9],
        joints: [0; 9],
        rows: 0,
        most_rows: 0,
        numbers: vec![false; 2001],
        worlds: 0,
        nan: 0,
    };
    let edges = [0, 1, 2, 0x7FFF_FFFF, 0x8000_0000, 0x8000_0001, 0xFFFF_FFFE, 0xFFFF_FFFF];
    let powers = (0..32).map(|k| 1u32 << k);
    let special: Vec<u32> = edges.into_iter().chain(powers).collect();
    for k in 0..count.max(special.len() as u64) {
        let seed = match special.get(k as usize) {
            Some(edge) => *edge,
            None if k < count / 4 => k as u32,
            None => d.word() as u32,
        };
        one(seed, d, &mut tally);
    }
    let all = |counts: &[u64]| counts.iter().map(|n| n.to_string()).collect::<Vec<_>>().join(" ");
    println!("{} seeds: their models by the library and by the second rendering, and a step on each by the Rust and by the library, agree in bits", count.max(special.len() as u64));
    println!("  of 1 to 8 bodies: {}", all(&tally.bodies[1..]));
    println!("  of 0 to 8 joints: {}; {} joints to the world", all(&tally.joints), tally.worlds);
    println!("  {} rows, at most {} in a model; {} of the 2001 numbers were drawn", tally.rows, tally.most_rows, tally.numbers.iter().filter(|x| **x).count());
    println!("  a step left a NaN in {} models", tally.nan);
}
