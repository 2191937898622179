//! A second reading of studies as text (docs/STUDY.md): what the program `study` must print for them, rows by the unchanged Rust
//! and decimals by Rust's own parser.

use crate::generator::body_of;
use crate::model::{BODY, Call, GRANTED, JOINT, ROW, Study, WORDS, WORLD, call};
use crate::rendering::residual;
use crate::sines;
use rapier2d::pipeline::leaves::{inv, micro_report};
use rapier2d::pipeline::rows::reaction;
use std::os::unix::ffi::OsStrExt;

/// How a study ends.
pub struct Ended {
    pub out: String,
    /// 0 granted, 1 refused, 2 not read, 3 a file that it names is not read.
    pub status: u32,
    /// The refusal's number.
    pub refused: u64,
    /// Line and column of what cannot be read.
    pub place: (usize, usize),
}

/// No refusal's number: a file that cannot be read.
const NO_FILE: u64 = 99;
const MOST: usize = 129;
const AXES: [&str; 3] = ["x", "y", "angle"];
/// A joint's words with an axis and numbers: name, place, how many, how far apart the axes are.
const AXIS_FIELDS: [(&str, usize, usize, usize); 9] = [
    ("limits", 8, 2, 3),
    ("limit_impulse", 10, 1, 3),
    ("target_velocity", 17, 1, 6),
    ("target_position", 18, 1, 6),
    ("stiffness", 19, 1, 6),
    ("damping", 20, 1, 6),
    ("max_force", 21, 1, 6),
    ("motor_impulse", 22, 1, 6),
    ("impulse", 37, 1, 1),
];
/// Words with numbers: the item's kind, name, place, how many.
const FIELDS: [(char, &str, usize, usize); 17] = [
    ('s', "dt", 0, 1),
    ('s', "length_unit", 1, 1),
    ('s', "normalized_max_corrective_velocity", 2, 1),
    ('b', "rotation", 0, 2),
    ('b', "position", 2, 2),
    ('b', "inverse_inertia", 4, 1),
    ('b', "inverse_masses", 5, 2),
    ('b', "velocity", 7, 2),
    ('b', "angular_velocity", 9, 1),
    ('j', "frame1_rotation", 0, 2),
    ('j', "frame1", 2, 2),
    ('j', "frame2_rotation", 4, 2),
    ('j', "frame2", 6, 2),
    ('j', "natural_frequency", 35, 1),
    ('j', "damping_ratio", 36, 1),
    ('j', "center", 40, 2),
    ('j', "center_angle", 40, 1),
];
const MASKS: [&str; 4] = ["lock", "limit", "motor", "couple"];
/// A line of new masks ends before this word: the call, its joint, four masks' words and three axes of each.
const MASKS_END: usize = 18;
const CALLS: [&str; 16] = [
    "load",
    "place",
    "build",
    "warm_start",
    "sweep",
    "remove_bias",
    "write_back",
    "read_rows",
    "read_velocity",
    "set_targets",
    "repeat",
    "end",
    "table",
    "settle",
    "masks",
    "frame",
];

/// A number of the text; none where the word is no number or has more than 19 significant digits.
fn number(word: &[u8]) -> Option<f32> {
    let text = std::str::from_utf8(word).ok()?;
    match text {
        "inf" | "+inf" => return Some(f32::INFINITY),
        "-inf" => return Some(f32::NEG_INFINITY),
        _ => (),
    }
    if let Some(bits) = text.strip_prefix("0x") {
        let digits = bits.len() == 8 && bits.bytes().all(|b| b.is_ascii_hexdigit());
        return digits.then(|| f32::from_bits(u32::from_str_radix(bits, 16).unwrap()));
    }
    let unsigned = text.strip_prefix(['+', '-']).unwrap_or(text);
    let (digits, exponent) = match unsigned.find(['e', 'E']) {
        Some(i) => (&unsigned[..i], Some(&unsigned[i + 1..])),
        None => (unsigned, None),
    };
    let whole = |s: &str| !s.is_empty() && s.bytes().all(|b| b.is_ascii_digit());
    let plain: String = digits.chars().filter(|&c| c != '.').collect();
    let points = digits.len() - plain.len();
    if points > 1 || !whole(&plain) {
        return None;
    }
    if let Some(e) = exponent {
        if !whole(e.strip_prefix(['+', '-']).unwrap_or(e)) {
            return None;
        }
    }
    if plain.trim_start_matches('0').len() > 19 {
        return None;
    }
    text.parse().ok()
}

fn whole(word: &[u8]) -> Option<u32> {
    if word.is_empty() {
        return None;
    }
    let mut n: u32 = 0;
    for &b in word {
        if !b.is_ascii_digit() || n > 429496728 {
            return None;
        }
        n = n * 10 + (b - b'0') as u32;
    }
    Some(n)
}

/// The words of a line, each with the column before which it starts.
fn words(line: &[u8]) -> Vec<(usize, Vec<u8>)> {
    let mut found: Vec<(usize, Vec<u8>)> = Vec::new();
    let mut open = false;
    for (i, &b) in line.iter().enumerate() {
        match b {
            b'#' => break,
            b' ' | b'\t' | b'\r' => open = false,
            _ if open => found.last_mut().unwrap().1.push(b),
            _ => {
                found.push((i, vec![b]));
                open = true;
            }
        }
    }
    found
}

/// The words of a line whose second may be a file's name in quotes: the bytes between them are one word. Without bytes where the line holds one quote alone.
fn with_quoted(line: &[u8]) -> Vec<(usize, Vec<u8>)> {
    let mut found = words(line);
    if found.len() < 2 || found[0].1 != b"set_targets" || found[1].1[0] != b'"' {
        return found;
    }
    let from = found[1].0 + 1;
    let name = line[from..].split(|&b| b == b'"').next().unwrap().to_vec();
    let end = from + name.len() + 1;
    found.truncate(1);
    if end > line.len() {
        found.push((from - 1, Vec::new()));
        return found;
    }
    found.push((from - 1, name));
    found.extend(words(&line[end..]).into_iter().map(|(at, w)| (end + at, w)));
    found
}

/// Where a line's comment or end is, past its last word's blanks.
fn line_end(line: &[u8], from: usize) -> usize {
    let mut at = from;
    while at < line.len() && matches!(line[at], b' ' | b'\t' | b'\r') {
        at += 1;
    }
    at
}

struct Line {
    words: Vec<(usize, Vec<u8>)>,
    text: Vec<u8>,
}

impl Line {
    fn word(&self, i: usize) -> &[u8] {
        self.words.get(i).map_or(&[], |w| &w.1)
    }
    /// The column of word i, or of the line's end.
    fn column(&self, i: usize) -> usize {
        match self.words.get(i) {
            Some(w) => w.0,
            None => {
                let from = self.words.last().map_or(0, |w| w.0 + w.1.len());
                line_end(&self.text, from)
            }
        }
    }
    fn is(&self, i: usize, name: &str) -> bool {
        self.word(i) == name.as_bytes() && !name.is_empty()
    }
    fn number(&self, i: usize) -> Result<f32, usize> {
        number(self.word(i)).ok_or(self.column(i))
    }
    fn ends(&self, i: usize) -> Result<(), usize> {
        if self.words.len() > i { Err(self.column(i)) } else { Ok(()) }
    }
    fn axis(&self, i: usize) -> Result<usize, usize> {
        AXES.iter().position(|a| self.is(i, a)).ok_or(self.column(i))
    }
    /// Where a frame's rounds are named: after its warm coefficient, where it has one.
    fn frame_at(&self) -> usize {
        if self.is(1, "warm") { 3 } else { 1 }
    }
    /// New masks after a joint's name: words that name one, and after each its axes, or its bits as a whole number.
    fn masks(&self) -> Result<[u32; 4], usize> {
        let (mut masks, mut named) = ([0; 4], None);
        for i in 2..self.words.len().min(MASKS_END) {
            if let Some(m) = MASKS.iter().position(|m| self.is(i, m)) {
                named = Some(m);
                continue;
            }
            let m: usize = named.ok_or(self.column(i))?;
            masks[m] |= match self.axis(i) {
                Ok(axis) => 1 << axis,
                Err(at) => whole(self.word(i)).ok_or(at)?,
            };
        }
        Ok(masks)
    }
}

struct Draft {
    study: Study,
    bodies: Vec<Vec<u8>>,
    joints: Vec<Vec<u8>>,
    /// 'n' none, 's' settings, 'b' body, 'j' joint, 'c' calls.
    open: char,
    centred: Vec<bool>,
    limited: Vec<bool>,
    calls: Vec<(usize, Line)>,
    repeat: Option<usize>,
    /// The counts of the last round that was swept since the rows were made, if there was one.
    counts: Option<Vec<u32>>,
}

impl Draft {
    fn body(&self, name: &[u8]) -> Option<u32> {
        self.bodies.iter().position(|b| b == name).map(|i| i as u32)
    }
    fn joint(&self, name: &[u8]) -> Option<u32> {
        self.joints.iter().position(|b| b == name).map(|i| i as u32)
    }
    fn free(&self, l: &Line) -> Result<(), usize> {
        let name = l.word(1);
        let taken = self.body(name).is_some() || self.joint(name).is_some();
        let plain = !name.contains(&b',') && !name.contains(&b'"');
        if name.is_empty() || name.len() > 64 || !plain || name == b"world" || taken { Err(l.column(1)) } else { Ok(()) }
    }
    fn item(&mut self) -> &mut [f32] {
        match self.open {
            's' => &mut self.study.settings,
            'b' => {
                let n = self.study.bodies.len();
                &mut self.study.bodies[n - BODY..]
            }
            _ => {
                let n = self.study.numbers.len();
                &mut self.study.numbers[n - JOINT..]
            }
        }
    }
    fn joint_words(&mut self) -> &mut [u32] {
        let n = self.study.words.len();
        &mut self.study.words[n - WORDS..]
    }

    fn open_body(&mut self, l: &Line) -> Result<(), usize> {
        self.free(l)?;
        if self.bodies.len() == MOST {
            return Err(l.column(1));
        }
        self.bodies.push(l.word(1).to_vec());
        self.study.bodies.extend([1.0, 0.0, 0.0, 0.0, 0.0, 0.0, 0.0, 0.0, 0.0, 0.0]);
        self.open = 'b';
        l.ends(2)
    }

    fn open_joint(&mut self, l: &Line) -> Result<(), usize> {
        self.free(l)?;
        if self.joints.len() == MOST {
            return Err(l.column(1));
        }
        self.joints.push(l.word(1).to_vec());
        self.centred.push(false);
        self.limited.push(false);
        let mut w = [0u32; WORDS];
        for i in 0..2 {
            w[i] = if l.is(2 + i, "world") { WORLD } else { self.body(l.word(2 + i)).ok_or(l.column(2 + i))? };
        }
        self.study.words.extend(w);
        let mut n = [0f32; JOINT];
        for i in [0, 4, 36, 40] {
            n[i] = 1.0;
        }
        n[35] = 1.0e6;
        for axis in 0..3 {
            n[8 + 3 * axis] = -f32::MAX;
            n[9 + 3 * axis] = f32::MAX;
            n[21 + 6 * axis] = f32::MAX;
        }
        self.study.numbers.extend(n);
        self.open = 'j';
        l.ends(4)
    }

    fn mask(&mut self, l: &Line, m: usize) -> Result<(), usize> {
        if let Some(n) = whole(l.word(1)) {
            self.joint_words()[2 + m] = n;
            return l.ends(2);
        }
        let mut mask = 1 << l.axis(1)?;
        for i in 2..4.min(l.words.len().max(2)) {
            mask |= 1 << l.axis(i)?;
        }
        self.joint_words()[2 + m] = mask;
        l.ends(4)
    }

    fn field(&mut self, l: &Line) -> Result<(), usize> {
        let at = l.column(0);
        let inside = |open: char, kind: char| if open == kind { Ok(()) } else { Err(at) };
        let open = self.open;
        if let Some(&(kind, name, place, many)) = FIELDS.iter().find(|f| l.is(0, f.1)) {
            inside(open, kind)?;
            for i in 0..many {
                self.item()[place + i] = l.number(1 + i)?;
            }
            if name.starts_with("center") {
                self.joint_words()[10] = (name == "center_angle") as u32;
                *self.centred.last_mut().unwrap() = true;
            }
            return l.ends(1 + many);
        }
        if let Some(&(name, place, many, stride)) = AXIS_FIELDS.iter().find(|f| l.is(0, f.0)) {
            inside(open, 'j')?;
            let axis = l.axis(1)?;
            for i in 0..many {
                self.item()[place + stride * axis + i] = l.number(2 + i)?;
            }
            if name == "limits" && axis == 2 {
                *self.limited.last_mut().unwrap() = true;
            }
            return l.ends(2 + many);
        }
        if let Some(m) = MASKS.iter().position(|m| l.is(0, m)) {
            inside(open, 'j')?;
            return self.mask(l, m);
        }
        if let Some(e) = ["enabled", "disabled_by_attached_body", "disabled"].iter().position(|e| l.is(0, e)) {
            inside(open, 'j')?;
            self.joint_words()[9] = e as u32;
            return l.ends(1);
        }
        if l.is(0, "motor_model") {
            inside(open, 'j')?;
            let axis = l.axis(1)?;
            let force = l.is(2, "force");
            if !force && !l.is(2, "acceleration") {
                return Err(l.column(2));
            }
            self.joint_words()[6 + axis] = force as u32;
            return l.ends(3);
        }
        let angles = [("angle", 'b', 0), ("frame1_angle", 'j', 0), ("frame2_angle", 'j', 4)];
        if let Some(&(_, kind, place)) = angles.iter().find(|a| l.is(0, a.0)) {
            inside(open, kind)?;
            let pair = sines::pair(l.number(1)?);
            self.item()[place..place + 2].copy_from_slice(&pair);
            return l.ends(2);
        }
        if l.is(0, "mass") || l.is(0, "inverse_mass") {
            inside(open, 'b')?;
            let x = l.number(1)?;
            let x = if l.is(0, "mass") { inv(x) } else { x };
            self.item()[5..7].copy_from_slice(&[x, x]);
            return l.ends(2);
        }
        if l.is(0, "inertia") {
            inside(open, 'b')?;
            self.item()[4] = inv(l.number(1)?);
            return l.ends(2);
        }
        Err(at)
    }

    /// A call can be read.
    fn call(&mut self, l: &Line, number_of_line: usize) -> Result<(), usize> {
        let at = match std::str::from_utf8(l.word(0)).unwrap() {
            "place" => {
                self.body(l.word(1)).ok_or(l.column(1))?;
                for i in 2..5 {
                    l.number(i)?;
                }
                if l.words.len() > 5 {
                    l.number(5)?;
                    6
                } else {
                    5
                }
            }
            "build" => {
                let mut at = 1;
                if l.is(1, "warm") {
                    l.number(2)?;
                    at = 3;
                }
                if l.words.len() > at {
                    if !l.is(at, "substep") {
                        return Err(l.column(at));
                    }
                    whole(l.word(at + 1)).ok_or(l.column(at + 1))?;
                    at += 2;
                }
                at
            }
            "sweep" => {
                whole(l.word(1)).ok_or(l.column(1))?;
                2
            }
            "read_rows" => {
                self.joint(l.word(1)).ok_or(l.column(1))?;
                2
            }
            "read_velocity" => {
                self.body(l.word(1)).ok_or(l.column(1))?;
                2
            }
            "set_targets" => {
                if l.word(1).is_empty() {
                    return Err(l.column(1));
                }
                2
            }
            "repeat" => {
                if self.repeat.is_some() {
                    return Err(l.column(0));
                }
                whole(l.word(1)).ok_or(l.column(1))?;
                self.repeat = Some(number_of_line);
                2
            }
            "end" => {
                self.repeat.take().ok_or(l.column(0))?;
                1
            }
            "frame" => {
                let at = l.frame_at();
                if at == 3 {
                    l.number(2)?;
                }
                for (i, name) in [(at, "sweeps"), (at + 2, "substeps")] {
                    if !l.is(i, name) {
                        return Err(l.column(i));
                    }
                    whole(l.word(i + 1)).ok_or(l.column(i + 1))?;
                }
                at + 4
            }
            "masks" => {
                self.joint(l.word(1)).ok_or(l.column(1))?;
                l.masks()?;
                l.words.len().min(MASKS_END)
            }
            "table" => match l.words.len() {
                1 => 1,
                _ if l.is(1, "csv") => 2,
                _ => return Err(l.column(1)),
            },
            "settle" => {
                l.number(1)?;
                if l.words.len() > 2 {
                    whole(l.word(2)).ok_or(l.column(2))?;
                    3
                } else {
                    2
                }
            }
            _ => 1,
        };
        l.ends(at)
    }
}

fn read(text: &[u8]) -> Result<Draft, (usize, usize)> {
    let mut d = Draft {
        study: Study {
            settings: [1.0 / 60.0, 1.0, 3.0],
            built: false,
            bodies: Vec::new(),
            words: Vec::new(),
            numbers: Vec::new(),
            rows: vec![0.0; 6 * MOST * ROW],
        },
        bodies: Vec::new(),
        joints: Vec::new(),
        open: 'n',
        centred: Vec::new(),
        limited: Vec::new(),
        calls: Vec::new(),
        counts: None,
        repeat: None,
    };
    let mut repeat_column = 0;
    for (i, line) in text.split(|&b| b == b'\n').enumerate() {
        let l = Line {
            words: with_quoted(line),
            text: line.to_vec(),
        };
        if l.words.is_empty() {
            continue;
        }
        let is_call = CALLS.iter().any(|c| l.is(0, c));
        let read = if is_call {
            d.open = 'c';
            if l.is(0, "repeat") {
                repeat_column = l.column(0);
            }
            d.call(&l, i)
        } else if ["settings", "body", "joint"].iter().any(|c| l.is(0, c)) {
            if d.open == 'c' {
                Err(l.column(0))
            } else if l.is(0, "settings") {
                d.open = 's';
                l.ends(1)
            } else if l.is(0, "body") {
                d.open_body(&l)
            } else {
                d.open_joint(&l)
            }
        } else {
            d.field(&l)
        };
        read.map_err(|column| (i + 1, column + 1))?;
        if is_call {
            d.calls.push((i, l));
        }
    }
    if let Some(line) = d.repeat {
        return Err((line + 1, repeat_column + 1));
    }
    for j in 0..d.joints.len() {
        let n = &mut d.study.numbers[j * JOINT..];
        if d.limited[j] && !d.centred[j] && (n[15] - n[14]) * 0.5 < std::f32::consts::PI {
            n[40] = (n[14] + n[15]) * 0.5;
            d.study.words[j * WORDS + 10] = 1;
        }
    }
    Ok(d)
}

// ---- what is printed

fn millionths(x: f32) -> String {
    match micro_report(x) {
        4294967296 if x == f32::INFINITY => "inf".to_string(),
        4294967296 if x == f32::NEG_INFINITY => "-inf".to_string(),
        4294967296 => "over".to_string(),
        8589934592 => "nan".to_string(),
        whole => whole.to_string(),
    }
}

/// Document 01's line, definition, Rust function and words, from 0 in its order.
fn rule(id: u32, coupled: u32) -> usize {
    let (kind, axis) = (id / 4, id % 4);
    let turn = [1, 2, 0][axis as usize];
    let together = axis < 2 && coupled >> axis & 1 == 1;
    match kind {
        2 if together => 3,
        2 => turn,
        0 => 4 + turn,
        _ if together => 10,
        _ => 7 + turn,
    }
}

const NUMBERS: [&str; 11] = ["1.1", "1.2", "1.3", "1.4", "2.1", "2.2", "2.3", "2.4", "2.5", "2.6", "2.7"];
const DEFINITIONS: [&str; 11] = [
    "motorAngularOf",
    "motorLinearOf",
    "motorLinearOf",
    "motorLinearCoupledOf",
    "lockAngularOf",
    "lockLinearOf",
    "lockLinearOf",
    "limitAngularOf",
    "limitLinearOf",
    "limitLinearOf",
    "limitLinearCoupledOf",
];

fn stands(x: f32, low: f32, high: f32) -> &'static str {
    if low == high {
        ""
    } else if x == low {
        "low"
    } else if x == high {
        "high"
    } else {
        ""
    }
}

fn name(d: &Draft, i: u32) -> String {
    match i {
        WORLD => "world".to_string(),
        _ => String::from_utf8_lossy(&d.bodies[i as usize]).into_owned(),
    }
}

fn joint_lines(d: &mut Draft, j: usize, csv: bool, out: &mut String, used: &mut u32) -> u64 {
    let read = call(&mut d.study, &Call::ReadRows(j as u32));
    if !read.granted() {
        return read.code;
    }
    let w = d.study.words[j * WORDS..][..WORDS].to_vec();
    let joint = String::from_utf8_lossy(&d.joints[j]).into_owned();
    let (one, two) = (name(d, w[0]), name(d, w[1]));
    let vels = vels_of(d, j);
    for (row, id) in read.out.chunks_exact(ROW).zip(d.study.ids(j)) {
        let kind = ["Dof", "Limit", "Motor"][(id / 4) as usize];
        let (rule, axis) = (rule(id, w[5]), id % 4);
        *used |= 1 << rule;
        let [x, low, high] = [row[0], row[1], row[2]];
        let at = stands(x, low, high);
        let change = residual(row, &vels);
        if csv {
            let unit = if axis == 2 { "N*m*s" } else { "N*s" };
            out.push_str(&format!("{joint},{one},{two},{kind}{axis},{unit}"));
            for v in [x, low, high, change] {
                out.push_str(&csv_number(v));
            }
            let at = if at.is_empty() { "no" } else { at };
            out.push_str(&format!(",{at},{},{}\r\n", NUMBERS[rule], DEFINITIONS[rule]));
        } else {
            let at = if at.is_empty() { "-" } else { at };
            out.push_str(&format!(
                "{joint:11} {one:9} {two:9} {:6} {:>15} {:>15} {:>15} {:>15} {at:4} {} {}\n",
                format!("{kind}{axis}"),
                whole_or_decimal(x),
                whole_or_decimal(low),
                whole_or_decimal(high),
                decimal(change),
                NUMBERS[rule],
                DEFINITIONS[rule],
            ));
        }
    }
    0
}

/// Nine digits as C writes them; the bits of a NaN.
fn decimal(x: f32) -> String {
    if x.is_nan() {
        return "0x7FC00000".to_string();
    }
    if x.is_infinite() {
        return x.to_string();
    }
    let text = format!("{x:.8e}");
    let (digits, exponent) = text.split_once('e').unwrap();
    let exponent: i32 = exponent.parse().unwrap();
    format!("{digits}e{}{:02}", if exponent < 0 { '-' } else { '+' }, exponent.abs())
}

/// Millionths, or where there are none the number itself.
fn whole_or_decimal(x: f32) -> String {
    if micro_report(x) == 4294967296 { decimal(x) } else { millionths(x) }
}

/// A number of comma-separated values, after a comma: its millionths, itself, and its bits.
fn csv_number(x: f32) -> String {
    format!(",{},{},0x{:08x}", millionths(x), decimal(x), canonical(x))
}

/// The velocities of a joint's two bodies.
fn vels_of(d: &Draft, j: usize) -> [f32; 6] {
    let mut vels = [0f32; 6];
    for (i, &b) in d.study.words[j * WORDS..][..2].iter().enumerate() {
        if b != WORLD {
            vels[3 * i..3 * i + 3].copy_from_slice(&d.study.bodies[b as usize * BODY + 7..][..3]);
        }
    }
    vels
}

/// A NaN is larger than any number.
fn is_larger(x: f32, than: f32) -> bool {
    !than.is_nan() && !(x <= than)
}

/// The row that one more step would change most: its joint, its id and the change.
fn largest(d: &mut Draft) -> Option<(usize, u32, f32)> {
    let mut most: Option<(usize, u32, f32)> = None;
    for j in 0..d.joints.len() {
        let read = call(&mut d.study, &Call::ReadRows(j as u32));
        let vels = vels_of(d, j);
        for (row, id) in read.out.chunks_exact(ROW).zip(d.study.ids(j)) {
            let change = residual(row, &vels);
            let change = if change < 0.0 { -change } else { change };
            if most.is_none_or(|m| is_larger(change, m.2)) {
                most = Some((j, id, change));
            }
        }
    }
    most
}

fn residual_line(d: &mut Draft, out: &mut String) {
    if let Some((j, id, change)) = largest(d) {
        let kind = ["Dof", "Limit", "Motor"][(id / 4) as usize];
        let joint = String::from_utf8_lossy(&d.joints[j]);
        out.push_str(&format!("{joint} {kind}{} has the largest residual: {}\n", id % 4, decimal(change)));
    }
}

/// Sweeps of one round.
fn settle(d: &mut Draft, tolerance: f32, most: u32, out: &mut String) -> u64 {
    let first = call(&mut d.study, &Call::Sweep(0)).code;
    if first != 0 && first < GRANTED {
        return first;
    }
    let settled = |d: &mut Draft| largest(d).is_none_or(|m| m.2 <= tolerance);
    let mut rounds = 0;
    while rounds < most && !settled(d) {
        let swept = call(&mut d.study, &Call::Sweep(1));
        d.counts = Some(swept.ids);
        rounds += 1;
    }
    let not = if settled(d) { "" } else { "not " };
    out.push_str(&format!("{not}settled after {rounds} rounds\n"));
    residual_line(d, out);
    0
}

fn canonical(x: f32) -> u32 {
    if x.is_nan() { 0x7FC0_0000 } else { x.to_bits() }
}

/// A joint's reaction: what its rows together gave its bodies. The notes below these lines are not rendered anew.
fn reaction_line(d: &mut Draft, j: usize, csv: bool, out: &mut String) {
    let s = &d.study;
    let rows = &s.rows[s.first_row(j) * ROW..][..s.ids(j).len() * ROW];
    let bodies = [0, 1].map(|k| s.joint(j)[k]);
    let [one, two] = bodies.map(|i| body_of(s, i));
    let [x, y, turn1, _, _, turn2, along_x, along_y, moment] = reaction(&one, &two, &s.numbers[j * JOINT..][..JOINT], rows);
    let joint = String::from_utf8_lossy(&d.joints[j]).into_owned();
    let values = [x, y, along_x, along_y, moment, turn1, turn2];
    let motors = d.counts.as_ref().map_or("-".to_string(), |c| c[j].to_string());
    let [one, two] = bodies.map(|i| name(d, i));
    if csv {
        let numbers: String = values.map(csv_number).concat();
        out.push_str(&format!("{joint},{one},{two}{numbers},{motors},reactionOf\r\n"));
        return;
    }
    out.push_str(&format!("{joint:11} {one:9} {two:9}"));
    for v in values {
        out.push_str(&format!(" {:>15}", whole_or_decimal(v)));
    }
    out.push_str(&format!(" {motors:6} reactionOf\n"));
}

/// The rules' words are not rendered anew: the table's last lines are named by their numbers alone.
fn table(d: &mut Draft, csv: bool, out: &mut String) -> u64 {
    if !d.study.built {
        return 10;
    }
    if csv {
        let numbers = ["impulse", "lower bound", "upper bound", "residual"].map(|n| format!(",{n} [1e-6 unit],{n} [unit],{n} [f32 bits]"));
        out.push_str(&format!("joint,body1,body2,id,unit{},at bound,rule,definition\r\n", numbers.concat()));
    } else {
        out.push_str("joint       body 1    body 2    row            impulse     lower bound     upper bound        residual at   rule\n");
    }
    let mut used = 0;
    for j in 0..d.joints.len() {
        let code = joint_lines(d, j, csv, out, &mut used);
        if code != 0 {
            return code;
        }
    }
    if csv {
        let forces = ["force x", "force y", "along x of frame 1", "along y of frame 1"].map(|n| (format!("{n} on body 1"), "N*s"));
        let turns = ["moment at frame 2 on body 1", "turn of body 1", "turn of body 2"].map(|n| (n.to_string(), "N*m*s"));
        out.push_str("\r\njoint,body1,body2");
        for (n, unit) in forces.iter().chain(&turns) {
            out.push_str(&format!(",{n} [1e-6 {unit}],{n} [{unit}],{n} [f32 bits]"));
        }
        out.push_str(",motors low or high in the last round,definition\r\n");
    } else {
        residual_line(d, out);
        out.push_str("\njoint       body 1    body 2            force x         force y         along x         along y          moment          turn 1          turn 2 motors definition\n");
    }
    for j in 0..d.joints.len() {
        reaction_line(d, j, csv, out);
    }
    if !csv {
        out.push_str("rules:");
        for i in 0..11 {
            if used >> i & 1 == 1 {
                out.push_str(&format!(" {}", NUMBERS[i]));
            }
        }
        out.push('\n');
    }
    0
}

fn run_call(d: &mut Draft, l: &Line, out: &mut String) -> u64 {
    let n = |i: usize| l.number(i).unwrap_or(0.0);
    let plain = match std::str::from_utf8(l.word(0)).unwrap() {
        "load" => Call::Load,
        "place" => {
            let [re, im] = if l.words.len() > 5 { [n(4), n(5)] } else { sines::pair(n(4)) };
            Call::Place {
                body: d.body(l.word(1)).unwrap(),
                pose: [re, im, n(2), n(3)],
            }
        }
        "build" => {
            let warm = l.is(1, "warm");
            let at = if warm { 3 } else { 1 };
            Call::Build {
                warm,
                coefficient: if warm { n(2) } else { 0.0 },
                substep: if l.words.len() > at { whole(l.word(at + 1)).unwrap() } else { 0 },
            }
        }
        "warm_start" => Call::WarmStart,
        "sweep" => Call::Sweep(whole(l.word(1)).unwrap()),
        "remove_bias" => Call::RemoveBias,
        "write_back" => Call::WriteBack,
        "read_rows" => {
            let j = d.joint(l.word(1)).unwrap() as usize;
            return joint_lines(d, j, false, out, &mut 0);
        }
        "read_velocity" => {
            let i = d.body(l.word(1)).unwrap();
            let read = call(&mut d.study, &Call::ReadVelocity(i));
            if !read.granted() {
                return read.code;
            }
            let [x, y, angular] = [0, 1, 2].map(|c| millionths(read.out[c]));
            out.push_str(&format!(
                "{} moves {x} {y} millionths of m/s, turns {angular} millionths of rad/s\n",
                name(d, i)
            ));
            return 0;
        }
        "set_targets" => match std::fs::read(std::ffi::OsStr::from_bytes(l.word(1))) {
            Ok(bytes) if bytes.len() < 262144 => Call::SetTargets(bytes.leak()),
            _ => return NO_FILE,
        },
        "frame" => {
            let at = l.frame_at();
            Call::Frame {
                warm: at == 3,
                coefficient: if at == 3 { n(2) } else { 0.0 },
                sweeps: whole(l.word(at + 1)).unwrap(),
                substeps: whole(l.word(at + 3)).unwrap(),
            }
        }
        "masks" => Call::SetMasks {
            joint: d.joint(l.word(1)).unwrap(),
            masks: l.masks().unwrap(),
        },
        "table" => return table(d, l.is(1, "csv"), out),
        "settle" => return settle(d, n(1), whole(l.word(2)).unwrap_or(4096), out),
        _ => return 0,
    };
    let answer = call(&mut d.study, &plain);
    // how many motors of each joint the last round found low or high: none is known of rows that are made anew
    let rounds = match plain {
        Call::Sweep(rounds) => rounds,
        Call::Frame { sweeps, .. } => sweeps,
        _ => 0,
    };
    if matches!(plain, Call::Load | Call::Build { .. } | Call::SetMasks { .. } | Call::Frame { .. }) {
        d.counts = None;
    }
    if answer.granted() && rounds > 0 {
        d.counts = Some(answer.ids);
    }
    let code = answer.code;
    if code >= GRANTED { 0 } else { code }
}

/// A study's text, read and run; at most so many calls.
pub fn run(text: &[u8]) -> Ended {
    let mut ended = Ended {
        out: String::new(),
        status: 0,
        refused: 0,
        place: (0, 0),
    };
    let mut d = match read(text) {
        Ok(d) => d,
        Err(place) => {
            ended.status = 2;
            ended.place = place;
            return ended;
        }
    };
    let calls = std::mem::take(&mut d.calls);
    let (mut i, mut first, mut left) = (0, 0, 0);
    while i < calls.len() {
        let l = &calls[i].1;
        if l.is(0, "repeat") {
            first = i + 1;
            left = whole(l.word(1)).unwrap();
            if left == 0 {
                while !calls[i].1.is(0, "end") {
                    i += 1;
                }
            } else {
                left -= 1;
            }
            i += 1;
            continue;
        }
        if l.is(0, "end") {
            if left > 0 {
                left -= 1;
                i = first;
            } else {
                i += 1;
            }
            continue;
        }
        let code = run_call(&mut d, l, &mut ended.out);
        if code != 0 {
            ended.status = if code == NO_FILE { 3 } else { 1 };
            ended.refused = code;
            return ended;
        }
        i += 1;
    }
    ended
}
