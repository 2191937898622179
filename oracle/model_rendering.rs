//! A second rendering of the model, over `rendering.rs`. It shares no step with model.rs, and it
//! can carry one fault of `FAULTS` at a time.

use crate::model::{Answer, Call, GRANTED, Study};
use crate::rendering;
use crate::sines;
use std::sync::atomic::{AtomicU32, Ordering};

static FAULT: AtomicU32 = AtomicU32::new(0);

/// Carries fault `number` from here on; 0 is none.
pub fn carry(number: u32) {
    FAULT.store(number, Ordering::Relaxed)
}

/// Fault k is entry k − 1.
pub const FAULTS: [&str; 222] = [
    // The order of the rules.
    "rules 1 and 2 exchanged",
    "rules 2 and 3 exchanged",
    "rules 3 and 4 exchanged",
    "rules 4 and 5 exchanged",
    "rules 5 and 6 exchanged",
    "rules 6 and 7 exchanged",
    "rules 7 and 8 exchanged",
    "rules 8 and 9 exchanged",
    "rules 9 and 10 exchanged",
    "rules 10 and 11 exchanged",
    "one joint goes through rules 3 to 6 before the next",
    // Rules 1 to 5.
    "128 bodies are refused",
    "129 bodies are not refused",
    "128 joints are refused",
    "129 joints are not refused",
    "a part of a body's record counts as a body",
    "joints are counted by their words alone, for rule 2",
    "mask 7 is refused",
    "mask 8 is not refused",
    "masks: the coupled one is not looked at",
    "masks: only the first joint's are looked at",
    "masks: one above 255 is cut to 8 bits first",
    "a body whose number is the body count is present",
    "the second body is not looked at",
    "the world is no body for a joint",
    "a joint from the world to the world is not refused",
    "only a joint from the world to the world names one body twice",
    // Rules 6 and 7.
    "velocities are looked at",
    "stored impulses are looked at",
    "an infinite maximum force is refused",
    "an infinite limit end is refused",
    "a NaN limit end is not refused",
    "a NaN maximum force is not refused",
    "an infinite target position is not refused",
    "the centre is not looked at",
    "the softness is not looked at",
    "frame 2 is not looked at",
    "the inverse inertia is not looked at",
    "the last body is not looked at",
    "the setting normalized_max_corrective_velocity is not looked at",
    "motors without a motor row are not looked at",
    "the coefficient is looked at where none is given",
    "the coefficient is not looked at in substep 0",
    "a new pose is looked at only if its body is present",
    "dt = −0 is refused",
    "dt = 0 is refused",
    // Rule 8.
    "storage of just the total is refused",
    "a part of a row counts as a row",
    "place tries rule 8",
    "load passes over rule 8",
    "a velocity read tries rule 8",
    "storage is asked for six rows a joint",
    // Rules 9 to 11.
    "a sweep of 64 is refused",
    "a sweep of 65 is not refused",
    "a row read needs no build",
    "write-back needs no build",
    "place needs a build",
    "a warm build in substep 0 needs a build",
    "a cold build in a later substep needs a build",
    "a warm build in substep 1 needs no build",
    "the world is present when asked for",
    "a joint whose number is the joint count is present",
    // The mark.
    "load keeps the mark",
    "place clears the mark",
    "a refused build marks the model built",
    "a refused build clears the mark",
    // Build.
    "only the first joint is built",
    "a joint's rows begin at six times its number",
    "last impulses are read after the new rows are written",
    "last impulses are read from the storage's first rows",
    "stored impulses are joint 0's",
    "a row past the total is cleared",
    "the total leaves out the last joint",
    "the world stands where body 0 stands",
    // Sweep, warm start, bias removal, write-back, reads.
    "one round for n",
    "joints descending",
    "each joint goes n rounds before the next",
    "velocities are kept across a joint's rows, the world's too",
    "the world's writes go to body 0",
    "body 2's velocity is not written",
    "warm start of the first joint's rows alone",
    "bias removal in all of the storage",
    "write-back goes to the joint's first id",
    "write-back of the last joint's rows alone",
    "a row read returns rows from the storage's start",
    "a velocity read returns the angular velocity first",
    // Joints that are switched off.
    "a joint that is switched off still has rows",
    "only the word of Disabled switches a joint off",
    "a word above 2 is Enabled",
    "a joint that is switched off still counts for rule 8 and the places of rows",
    "a joint that is switched off is not looked at by rules 3 to 6",
    "write-back clears what a joint that is switched off has stored",
    "a row read of a joint that is switched off is refused",
    // Typed angles.
    "12 is tried before 6",
    "12 is tried after 7",
    "a typed angle of 1024 is refused",
    "a typed angle above 1024 is not refused",
    "a typed angle below −1024 is not refused",
    "the number beside a typed angle is looked at",
    "a typed angle is taken as a cosine",
    "only the word 1 says that an angle is typed",
    "12 looks at typed cosines",
    "12 looks only at joints with an angular limit row",
    "a velocity read passes over 12",
    // Motor tables.
    "the first record for an axis wins",
    "a target goes to the next axis",
    "a target goes to the target position",
    "a target goes to the next joint",
    "a table clears the mark",
    "a table that is refused sets the targets before the faulty record",
    "thousandths are multiplied by 0.001",
    "13 is looked for in the whole table before 14 and 15",
    "14 is looked for in the whole table before 15",
    "15 is tried before 14 in a record",
    "the last faulty record decides",
    "a joint whose number is the joint count is present in a table",
    "a record for a joint that is switched off is refused",
    "an axis of 3 is present",
    "a table tries rule 8",
    "a table needs a build",
    "a last CRLF opens a record",
    "4097 records are not refused",
    "a table's refusal comes before the model's",
    // Motors at a bound.
    "a motor just at a bound counts",
    "every row at a bound counts",
    "the first round's counts are returned",
    "a NaN counts",
    "counts are added up over the rounds",
    "only an impulse above the upper bound counts",
    "counts of one joint stand at the next",
    // Changes of masks, and first rows.
    "a mask change: 11 is tried before 8",
    "a mask change: 8 goes by the old total",
    "a mask change: 8 asks for room for both totals",
    "a mask change: the masks of a missing joint are counted",
    "a mask change: the new masks are not looked at by 3",
    "a mask change: the new masks of a missing joint are not looked at by 3",
    "a mask change: old masks above 7 that it replaces are not refused",
    "a mask change passes over 8",
    "a mask change needs a build",
    "a mask change of a joint that is switched off is refused",
    "a mask change of a joint that is switched off counts its rows",
    "a mask change keeps the mark",
    "a mask change to the same masks keeps the mark",
    "a mask change: locked and limit mask exchanged",
    "a mask change: motor and coupled mask exchanged",
    "a mask change: the first rows of later joints are left",
    "a mask change clears what the joint has stored",
    "a refused mask change stores first rows",
    "load stores no first rows",
    "a refused load stores first rows",
    "first rows count joints that are switched off",
    "a build stores first rows",
    "a row read trusts the stored first row",
    "a build trusts the stored first rows",
    // Frames.
    "a frame: 16 is tried before 9",
    "a frame: 16 is tried before 8",
    "a frame of no substeps is not refused",
    "a frame of 16 substeps is refused",
    "a frame of 17 substeps is not refused",
    "a frame of 64 rounds is refused",
    "a frame of 65 rounds is not refused",
    "a frame passes over 8",
    "a frame with a coefficient needs a build",
    "a frame: the coefficient is not looked at",
    "a frame: the coefficient is looked at where none is given",
    "a frame: 7 looks at dt/n",
    "a frame: builds and moves by dt",
    "a frame: builds by dt",
    "a frame: moves by dt",
    "a frame: dt times 1/n for dt/n",
    "a frame: a velocity times dt, over n",
    "a frame: substeps are numbered from 1",
    "a frame: every substep is number 0",
    "a frame: no warm start",
    "a frame: no warm start without a coefficient",
    "a frame: moves before the first sweep",
    "a frame: moves before the warm start",
    "a frame: moves after the second sweep",
    "a frame: the second move is by the velocities of the first",
    "a frame: no bias removal",
    "a frame: bias is removed before the first sweep",
    "a frame: the second sweep has one round",
    "a frame: no first sweep",
    "a frame: write-back in each substep",
    "a frame: write-back before the last sweep",
    "a frame: no write-back",
    "a frame: the first sweep's counts are returned",
    "a frame: the counts of all sweeps are added up",
    "a frame: the counts of the first substep are returned",
    "a move: the rotation is not divided",
    "a move: the rotation is multiplied by 1/length",
    "a move: the rotation is divided by its length's square",
    "a move: the rotation turns the other way",
    "a move: the new re counts for im",
    "a move: a zero length is divided by",
    "a move: the old rotation stays only if the new one is zero",
    "a move: the old rotation stays if the length is not finite",
    "a move: a length that is not finite is not finite as a pose",
    "a move: the position is not moved",
    "a move: the position is moved after the new rotation",
    "a move: fused products",
    "a move: a body of no inverse mass stays",
    "a move: a body that no joint names stays",
    "a move: only the first body moves",
    "a move: the last body is not moved",
    "a move: only positions are looked at",
    "a move: only rotations are looked at",
    "a frame that leaves a velocity which is not finite is refused",
    "a move: a pose of the last substep is not looked at",
    "a move: a pose of the first substep is not looked at",
    "a move: 11 refuses a pose that is not finite",
    "a refused frame: rows are not put back",
    "a refused frame: bodies are not put back",
    "a refused frame: velocities are not put back",
    "a refused frame: bodies and rows are those of the last substep's start",
    "a refused frame leaves the model built",
    "a refused frame clears the mark",
    "a refused frame: the new dt is kept",
    "a refused frame: the counts are zeros",
    "a granted frame: the new dt is kept",
    "a granted frame leaves the mark as it was",
    "a granted frame clears the mark",
];

fn fault(number: u32) -> bool {
    FAULT.load(Ordering::Relaxed) == number
}

macro_rules! or(
    ($number: expr, $right: expr, $wrong: expr) => { if fault($number) { $wrong } else { $right } }
);

const WORLD: u32 = 4294967295;
const MOTORS: [usize; 3] = [17, 23, 29];
const LIMITS: [usize; 3] = [8, 11, 14];

/// A joint as the model has it.
struct Joint {
    words: [u32; 12],
    numbers: [f32; 42],
    ids: Vec<u32>,
    /// Whether it is switched off.
    off: bool,
    /// Rows that are counted for it whatever its ids; none but by a fault.
    takes: usize,
    /// Place of its first row.
    first: usize,
}

/// The row count of a joint with these words.
fn rows_of(w: &[u32]) -> usize {
    rendering::ids(&w[2..6]).len() * usize::from(w[9] == 0)
}

/// The first row of each joint before joint `end` stored among its words.
fn store_first_rows(s: &mut Study, end: usize) {
    let joints = s.words.chunks_exact_mut(12).zip(s.numbers.chunks_exact(42));
    let mut first = 0;
    for (w, _) in joints.take(end) {
        w[11] = first;
        first += or!(151, rows_of(w), rendering::ids(&w[2..6]).len()) as u32;
    }
}

fn joints(s: &Study) -> Vec<Joint> {
    let mut next = 0;
    let mut all = Vec::new();
    for (w, n) in s.words.chunks_exact(12).zip(s.numbers.chunks_exact(42)) {
        let named = rendering::ids(&w[2..6]);
        let off = match w[9] {
            0 => false,
            1 => !fault(88),
            2 => true,
            _ => !fault(89),
        };
        let ids = if off && !fault(87) {
            vec![]
        } else {
            named.clone()
        };
        let first = or!(68, next, 6 * all.len());
        next += or!(90, ids.len(), named.len());
        all.push(Joint {
            words: w.try_into().unwrap(),
            numbers: n.try_into().unwrap(),
            ids,
            off,
            takes: or!(90, 0, named.len()),
            first,
        });
    }
    all
}

fn count_of(joints: &[Joint]) -> usize {
    joints.iter().map(|j| j.ids.len().max(j.takes)).sum()
}

fn wild(n: &[f32]) -> bool {
    n.iter().any(|x| !x.is_finite())
}

fn strange(n: &[f32]) -> bool {
    n.iter().any(|x| x.is_nan())
}

/// Whether the joint's centre is a typed angle.
fn typed_angle(joint: &Joint) -> bool {
    or!(101, joint.words[10] != 0, joint.words[10] == 1)
}

/// Whether rule 12 refuses it.
fn angle_large(joint: &Joint) -> bool {
    let angle = joint.numbers[40];
    (typed_angle(joint) || fault(102))
        && (!fault(103) || joint.ids.contains(&6))
        && (angle > 1024.0 && !fault(97)
            || angle < -1024.0 && !fault(98)
            || angle.abs() == 1024.0 && fault(96))
}

/// Whether rule 6 refuses a joint's numbers.
fn joint_wild(joint: &Joint) -> bool {
    let n = &joint.numbers;
    let motor = |i: usize| {
        let at = MOTORS[i];
        let used = !fault(41) || joint.ids.contains(&(8 + i as u32));
        let target_pos = or!(34, wild(&n[at + 1..at + 2]), n[at + 1].is_nan());
        let force = &n[at + 4..at + 5];
        used && (wild(&n[at..at + 1])
            || target_pos
            || wild(&n[at + 2..at + 4])
            || or!(30, strange(force), wild(force)) && !fault(33)
            || fault(29) && strange(&n[at + 5..at + 6]))
    };
    let limit = |i: usize| {
        let at = LIMITS[i];
        let ends = &n[at..at + 2];
        or!(31, strange(ends), wild(ends)) && !fault(32) || fault(29) && wild(&n[at + 2..at + 3])
    };
    wild(&n[..4])
        || wild(&n[4..8]) && !fault(37)
        || (0..3).any(limit)
        || (0..3).any(motor)
        || wild(&n[35..37]) && !fault(36)
        || fault(29) && wild(&n[37..40])
        || wild(&n[40..or!(99, 42 - typed_angle(joint) as usize, 42)]) && !fault(35)
}

/// A table's records byte by byte: each record's three numbers, or what it breaks; the rest of the bytes is
/// not read after a break of the grammar.
fn table_records(bytes: &[u8]) -> Vec<Result<[i64; 3], u64>> {
    let mut all = Vec::new();
    let mut rest = bytes;
    while !rest.is_empty() {
        if all.len() == or!(122, 4096, 4097) {
            all.push(Err(13));
            break;
        }
        let mut fields = vec![Vec::new()];
        // 0 before a field's first byte, 1 in a plain field, 2 between quotes, 3 after a second quote
        let mut state = 0;
        let mut good = true;
        loop {
            let Some((&b, after)) = rest.split_first() else {
                good = state != 2;
                break;
            };
            rest = after;
            let plain = (32..127).contains(&b) && b != 34 && b != 44;
            match (state, b) {
                (0, 34) => state = 2,
                (2, 34) => state = 3,
                (3, 34) => {
                    fields.last_mut().unwrap().push(34);
                    state = 2;
                }
                (2, _) if plain || [10, 13, 44].contains(&b) => fields.last_mut().unwrap().push(b),
                (0 | 1, _) if plain => {
                    fields.last_mut().unwrap().push(b);
                    state = 1;
                }
                (0 | 1 | 3, 44) => {
                    fields.push(Vec::new());
                    state = 0;
                }
                (0 | 1 | 3, 13) => {
                    good = rest.first() == Some(&10);
                    rest = rest.get(1..).unwrap_or(&[]);
                    break;
                }
                _ => {
                    good = false;
                    break;
                }
            }
        }
        if !good {
            all.push(Err(13));
            break;
        }
        let parsed: Vec<i64> = fields.iter().filter_map(|f| whole(f)).collect();
        all.push(match (fields.len(), <[i64; 3]>::try_from(parsed)) {
            (3, Ok(numbers)) => Ok(numbers),
            _ => Err(14),
        });
    }
    if fault(121) && bytes.ends_with(b"\r\n") {
        all.push(Err(14));
    }
    all
}

/// The whole number that a field spells, digit by digit.
fn whole(field: &[u8]) -> Option<i64> {
    let (sign, digits) = match field {
        [b'-', digits @ ..] => (-1, digits),
        [b'+', digits @ ..] => (1, digits),
        digits => (1, digits),
    };
    let mut size = (!digits.is_empty()).then_some(0i64)?;
    for b in digits {
        let digit = (b'0'..=b'9').contains(b).then(|| (b - b'0') as i64)?;
        size = (10 * size + digit).min(8_000_001);
    }
    (size <= 8_000_000).then_some(sign * size)
}

/// The records that a table sets, and the number that refuses it; 0 for none.
fn table(all: &[Joint], bytes: &[u8]) -> (Vec<[i64; 3]>, u64) {
    let joints = or!(116, all.len(), all.len() + 1) as i64;
    let axes = or!(118, 3, 4);
    let mut set = Vec::new();
    let mut faults = Vec::new();
    for record in table_records(bytes) {
        let absent = |n: &[i64; 3]| {
            n[0] < 0
                || n[0] >= joints
                || n[1] < 0
                || n[1] >= axes
                || fault(117) && all[n[0] as usize].off
        };
        match record {
            Ok(numbers) if absent(&numbers) => faults.push(15),
            Ok(numbers) if faults.is_empty() => set.push(numbers),
            Ok(_) => {}
            Err(k) => faults.push(or!(114, k, if k == 14 { 15 } else { k })),
        }
    }
    let first = faults.first().copied().unwrap_or(0);
    let number = if fault(112) && faults.contains(&13) {
        13
    } else if fault(113) && first == 15 && faults.contains(&14) {
        14
    } else {
        or!(115, first, faults.last().copied().unwrap_or(0))
    };
    (set, number)
}

fn set_targets(s: &mut Study, records: &[[i64; 3]]) {
    let mut done = Vec::new();
    for [joint, axis, thousandths] in records {
        let place = [*joint, *axis];
        if fault(105) && done.contains(&place) {
            continue;
        }
        done.push(place);
        let joint = *joint as usize + fault(108) as usize;
        let axis = or!(106, *axis as usize, (*axis as usize + 1) % 3);
        let value = or!(111, *thousandths as f32 / 1000.0, *thousandths as f32 * 0.001);
        if let Some(n) = s.numbers.chunks_exact_mut(42).nth(joint) {
            n[MOTORS[axis.min(2)] + fault(107) as usize] = value;
        }
    }
}

/// The rules in checking order, and whether each refuses.
fn rules(s: &Study, call: &Call) -> Vec<(u64, bool)> {
    let all = joints(s);
    let looked_at = |j: &&Joint| !(fault(91) && j.off);
    let parts = or!(16, s.bodies.len(), s.bodies.len() + 9) / 10;
    let bodies = parts as u64;

    let too_many = bodies > or!(13, or!(12, 128, 127), 129);
    let counted = or!(17, all.len(), s.words.len() / 12);
    let too_jointed = counted > or!(15, or!(14, 128, 127), 129);
    let masks_bad = |masks: &[u32]| {
        let seen = masks[..or!(20, 4, 3)].iter().map(|m| or!(22, *m, *m & 255));
        seen.max().unwrap() > or!(19, or!(18, 7, 6), 8)
    };
    let mask_bad = |j: &Joint| masks_bad(&j.words[2..6]);
    // The joint and the masks that the call brings.
    let brought = match call {
        Call::SetMasks { joint, masks } => Some((*joint as usize, masks)),
        _ => None,
    };
    let brought_bad = brought.is_some_and(|(j, masks)| {
        masks_bad(masks) && !fault(135) && !(fault(136) && j >= all.len())
    });
    let mended = |i: usize| fault(137) && brought.is_some_and(|(j, _)| i == j);
    let stray = |j: &Joint| {
        let named = &j.words[..or!(24, 2, 1)];
        named.iter().any(|b| {
            let here = (*b as u64) < or!(23, bodies, bodies + 1);
            !(here || *b == WORLD && !fault(25))
        })
    };
    let twice = |j: &Joint| {
        j.words[0] == j.words[1]
            && (j.words[0] != WORLD || !fault(26))
            && (j.words[0] == WORLD || !fault(27))
    };
    let records: Vec<&[f32]> = s.bodies.chunks_exact(10).collect();
    let looked = &records[..or!(39, records.len(), records.len().saturating_sub(1))];
    let body_wild = |n: &[f32]| {
        wild(&n[..4])
            || wild(&n[4..5]) && !fault(38)
            || wild(&n[5..7])
            || fault(28) && wild(&n[7..])
    };
    let asked = match call {
        Call::Place { body, pose } => wild(pose) && (!fault(44) || (*body as u64) < bodies),
        Call::Build {
            warm,
            coefficient,
            substep,
        } => (*warm || fault(42)) && !coefficient.is_finite() && !(fault(43) && *substep == 0),
        Call::Frame {
            warm, coefficient, ..
        } => (*warm || fault(165)) && !coefficient.is_finite() && !fault(164),
        _ => false,
    };
    let any_wild = wild(&s.settings[..or!(40, 3, 2)])
        || looked.iter().any(|n| body_wild(n))
        || all.iter().filter(looked_at).any(joint_wild)
        || asked;
    // A frame's rounds and substeps.
    let framed = match call {
        Call::Frame {
            sweeps, substeps, ..
        } => Some((*sweeps, *substeps)),
        _ => None,
    };
    let dt = match framed {
        Some((_, n)) if fault(166) => s.settings[0] / n as f32,
        _ => s.settings[0],
    };
    let backwards =
        dt < 0.0 || fault(45) && dt.to_bits() == 0x8000_0000 || fault(46) && dt.to_bits() == 0;

    let total = count_of(&all);
    let changed = match brought {
        Some((j, masks)) => {
            let count = rendering::ids(masks).len();
            match all.get(j) {
                Some(joint) => {
                    let counts = !joint.off || fault(141);
                    total - joint.ids.len().max(joint.takes) + count * usize::from(counts)
                }
                None => total + or!(134, 0, count),
            }
        }
        None => total,
    };
    let by = or!(133, or!(132, changed, total), changed.max(total));
    let needed = or!(52, by, 6 * all.len());
    let room = or!(48, s.rows.len(), s.rows.len() + 17) / 18;
    let lent = match call {
        Call::Place { .. } => fault(49),
        Call::ReadVelocity(_) => fault(51),
        Call::SetTargets(_) => fault(119),
        Call::Load => !fault(50),
        Call::SetMasks { .. } => !fault(138),
        Call::Frame { .. } => !fault(162),
        _ => true,
    };
    let short = lent && (room < needed || fault(47) && room == needed);

    let most = or!(54, or!(53, 64, 63), 65);
    let longest = or!(161, or!(160, 64, 63), 65);
    let too_long = match (call, framed) {
        (Call::Sweep(n), _) => *n > most,
        (_, Some((rounds, _))) => rounds > longest,
        _ => false,
    };
    let substeps_bad = framed.is_some_and(|(_, n)| {
        n == 0 && !fault(157) || n > or!(159, or!(158, 16, 15), 17)
    });
    let first_needed = match call {
        Call::Load | Call::ReadVelocity(_) => false,
        Call::Place { .. } => fault(57),
        Call::SetTargets(_) => fault(120),
        Call::SetMasks { .. } => fault(139),
        Call::Build { warm, substep, .. } => match (warm, substep) {
            (true, 0) => fault(58),
            (true, 1) => !fault(60),
            (true, _) => true,
            (false, 0) => false,
            (false, _) => fault(59),
        },
        Call::ReadRows(_) => !fault(55),
        Call::WriteBack => !fault(56),
        Call::Frame { warm, .. } => *warm && fault(163),
        _ => true,
    };
    let unbuilt = first_needed && !s.built;
    let absent = match call {
        Call::Place { body, .. } | Call::ReadVelocity(body) => {
            *body as u64 >= bodies && !(fault(61) && *body == WORLD)
        }
        Call::ReadRows(joint) => {
            *joint as usize >= or!(62, all.len(), all.len() + 1)
                || fault(93) && all[*joint as usize].off
        }
        Call::SetMasks { joint, .. } => {
            *joint as usize >= or!(62, all.len(), all.len() + 1)
                || fault(140) && all[*joint as usize].off
        }
        _ => false,
    };

    let mut of_joints = [
        (
            3,
            all[..or!(21, all.len(), all.len().min(1))]
                .iter()
                .enumerate()
                .filter(|(i, j)| looked_at(j) && !mended(*i))
                .any(|(_, j)| mask_bad(j))
                || brought_bad,
        ),
        (4, all.iter().filter(looked_at).any(stray)),
        (5, all.iter().filter(looked_at).any(twice)),
        (6, any_wild),
    ];
    if fault(11) {
        let broken = |j: &Joint| [mask_bad(j), stray(j), twice(j), joint_wild(j)];
        if let Some(first) = all.iter().map(broken).find(|b| b.contains(&true)) {
            for (rule, broken) in of_joints.iter_mut().zip(first) {
                rule.1 = broken;
            }
        }
    }
    let large = all.iter().any(angle_large)
        && !(fault(104) && matches!(call, Call::ReadVelocity(_)));
    let faulty = match call {
        Call::SetTargets(bytes) => table(&all, bytes).1,
        _ => 0,
    };
    let mut order = vec![(1, too_many), (2, too_jointed)];
    if fault(123) {
        order.insert(0, (faulty, faulty != 0));
    }
    order.extend(of_joints);
    order.extend([
        (12, large),
        (7, backwards),
        (8, short),
        (9, too_long),
        (10, unbuilt),
        (11, absent),
        (13, faulty == 13),
        (14, faulty == 14),
        (15, faulty == 15),
        (16, substeps_bad),
    ]);
    let mut exchange = |one: u64, two: u64| {
        let [one, two] = [one, two].map(|k| order.iter().position(|rule| rule.0 == k).unwrap());
        order.swap(one, two);
    };
    for k in 1..11 {
        if fault(k as u32) {
            exchange(k, k + 1);
        }
    }
    if fault(94) {
        exchange(6, 12);
    }
    if fault(95) {
        exchange(12, 7);
    }
    if fault(131) && brought.is_some() {
        exchange(8, 11);
    }
    if fault(155) && framed.is_some() {
        exchange(9, 16);
    }
    if fault(156) && framed.is_some() {
        exchange(8, 16);
    }
    order
}

/// Body i's numbers; the world's for every number that has no body.
fn body(s: &Study, i: u32) -> [f32; 10] {
    let i = if fault(74) && i == WORLD { 0 } else { i };
    let world = [1.0, 0.0, 0.0, 0.0, 0.0, 0.0, 0.0, 0.0, 0.0, 0.0];
    let place = s.bodies.chunks_exact(10).nth(i as usize);
    place.map_or(world, |n| n.try_into().unwrap())
}

fn velocity(s: &Study, i: u32) -> [f32; 3] {
    let place = s.bodies.chunks_exact(10).nth(i as usize);
    place.map_or([0.0; 3], |n| n[7..].try_into().unwrap())
}

fn put_velocity(s: &mut Study, i: u32, vel: &[f32]) {
    let i = if fault(79) && i == WORLD { 0 } else { i };
    if let Some(n) = s.bodies.chunks_exact_mut(10).nth(i as usize) {
        n[7..].copy_from_slice(vel);
    }
}

/// The joint's first row as it is stored, which may be any word.
fn stored_first(joint: &Joint, all: &[Joint]) -> usize {
    (joint.words[11] as usize).min(6 * all.len())
}

fn build(s: &mut Study, all: &[Joint], warm: Option<f32>, substep: u32) -> usize {
    let built = &all[..or!(67, all.len(), all.len().min(1))];
    for joint in built.iter().filter(|j| !j.off || fault(87)) {
        let mut n = s.settings.to_vec();
        n.extend(&body(s, joint.words[0])[..7]);
        n.extend(&body(s, joint.words[1])[..7]);
        let mut own = joint.numbers;
        if typed_angle(joint) && !fault(100) {
            let pair = sines::pair(own[40]);
            own[40..].copy_from_slice(&pair);
        }
        n.extend(own);
        n.push(warm.unwrap_or(0.0));
        if fault(71) {
            for k in [10, 13, 16, 22, 28, 34, 37, 38, 39] {
                n[17 + k] = all[0].numbers[k];
            }
        }
        let mut words = joint.words[2..9].to_vec();
        words.extend([warm.is_some() as u32, substep]);

        let first = or!(154, joint.first, stored_first(joint, all));
        let (first, length) = (first * 18, joint.ids.len() * 18);
        let mut rows = [0.0; 108];
        let from = or!(70, first, 0);
        if !fault(69) {
            rows[..length].copy_from_slice(&s.rows[from..from + length]);
        }
        let count = rendering::build(&words, &n, &mut rows, &mut [0; 6]);
        assert!(count == joint.ids.len());
        s.rows[first..first + length].copy_from_slice(&rows[..length]);
    }
    let total = count_of(all);
    if fault(72) {
        if let Some(row) = s.rows.chunks_exact_mut(18).nth(total) {
            row.fill(0.0);
        }
    }
    or!(73, total, count_of(&all[..all.len().saturating_sub(1)]))
}

/// Every joint's rows in order, by one function of a row and the two velocities.
fn pass(s: &mut Study, joint: &Joint, by: fn(&mut [f32], &mut [f32])) {
    let [one, two] = [joint.words[0], joint.words[1]];
    let read = |s: &Study| [velocity(s, one), velocity(s, two)].concat();
    let mut vels = read(s);
    for k in joint.first..joint.first + joint.ids.len() {
        if !fault(78) {
            vels = read(s);
        }
        by(&mut s.rows[18 * k..][..18], &mut vels);
        put_velocity(s, one, &vels[..3]);
        if !fault(80) {
            put_velocity(s, two, &vels[3..]);
        }
    }
}

/// Whether an impulse is wanted that the row's bounds do not allow.
fn stopped(row: &[f32], vels: &[f32]) -> bool {
    let wanted = rendering::wanted(row, vels);
    let [low, high] = [row[1], row[2]];
    let below = or!(129, or!(124, wanted < low, wanted <= low), false);
    let above = or!(124, wanted > high, wanted >= high);
    below || above || fault(127) && wanted.is_nan()
}

/// Each joint's motor rows that a pass finds at a bound, then the pass.
fn counted_pass(s: &mut Study, joint: &Joint) -> u32 {
    let mut count = 0;
    let [one, two] = [joint.words[0], joint.words[1]];
    // Row by row on a copy, so that the pass itself stays as it is for every call.
    let mut copy = s.clone();
    for (k, id) in joint.ids.iter().enumerate() {
        let single = Joint {
            words: joint.words,
            numbers: joint.numbers,
            ids: vec![*id],
            off: joint.off,
            takes: joint.takes,
            first: joint.first + k,
        };
        let vels = [velocity(&copy, one), velocity(&copy, two)].concat();
        let row = copy.rows[18 * single.first..][..18].to_vec();
        let motor = or!(125, id / 4 == 2, true);
        count += u32::from(motor && stopped(&row, &vels));
        pass(&mut copy, &single, rendering::step);
    }
    pass(s, joint, rendering::step);
    count
}

fn sweep(s: &mut Study, all: &[Joint], n: u32) -> Vec<u32> {
    let rounds = or!(75, n, n.min(1));
    let [outer, inner] = or!(77, [rounds, 1], [1, rounds]);
    let mut counts = vec![0; all.len()];
    for round in 0..outer {
        for k in 0..all.len() {
            let j = or!(76, k, all.len() - 1 - k);
            for turn in 0..inner {
                let last = or!(126, round + 1 == outer && turn + 1 == inner, round + turn == 0);
                if last || fault(128) {
                    let count = counted_pass(s, &all[j]);
                    let at = or!(130, j, (j + 1) % all.len());
                    counts[at] = count + or!(128, 0, counts[at]);
                } else {
                    pass(s, &all[j], rendering::step);
                }
            }
        }
    }
    counts
}

fn write_back(s: &mut Study, all: &[Joint]) {
    let from = or!(84, 0, all.len().saturating_sub(1));
    for (j, joint) in all.iter().enumerate().skip(from) {
        if fault(92) && joint.off {
            for id in rendering::ids(&joint.words[2..6]) {
                rendering::writeback(id, 0.0, &mut s.numbers[42 * j..][..42]);
            }
        }
        for (k, id) in joint.ids.iter().enumerate() {
            let impulse = s.rows[18 * (joint.first + k)];
            let id = or!(83, *id, joint.ids[0]);
            rendering::writeback(id, impulse, &mut s.numbers[42 * j..][..42]);
        }
    }
}

/// A body's numbers as they are after a time h of its own velocity.
fn moved(n: &[f32], velocity: &[f32], h: f32, over: f32) -> [f32; 4] {
    let turn = or!(193, 1.0, -1.0) * (velocity[2] * h / over);
    let (c, s) = (n[0], n[1]);
    let mut new = [c + -(turn * s), turn * c + s];
    if fault(194) {
        new[1] = s + turn * new[0];
    }
    if fault(201) {
        new = [(-s).mul_add(turn, c), c.mul_add(turn, s)];
    }
    let square = new[0] * new[0] + new[1] * new[1];
    let long = or!(192, square.sqrt(), square);
    let kept = or!(196, long == 0.0, new == [0.0; 2])
        || fault(197) && !long.is_finite();
    let rotation = if kept && !fault(195) {
        [c, s]
    } else if fault(190) {
        new
    } else if fault(191) {
        new.map(|x| x * (1.0 / long))
    } else if fault(198) && !long.is_finite() {
        [f32::NAN; 2]
    } else {
        new.map(|x| x / long)
    };
    let mut by = [velocity[0] * h / over, velocity[1] * h / over];
    if fault(200) {
        let [x, y] = by;
        by = [rotation[0] * x - rotation[1] * y, rotation[1] * x + rotation[0] * y];
    }
    let mut place = [n[2] + by[0], n[3] + by[1]];
    if fault(201) {
        place = [velocity[0].mul_add(h, n[2]), velocity[1].mul_add(h, n[3])];
    }
    if fault(199) {
        place = [n[2], n[3]];
    }
    [rotation[0], rotation[1], place[0], place[1]]
}

/// Moves every body; whether all new poses are finite.
fn move_bodies(s: &mut Study, all: &[Joint], velocities: &[f32], h: f32, over: f32) -> bool {
    let count = s.bodies.len() / 10;
    let mut finite = true;
    for (i, n) in s.bodies.chunks_exact_mut(10).enumerate() {
        let massless = n[5] == 0.0 && n[6] == 0.0;
        let named = all.iter().any(|j| j.words[..2].contains(&(i as u32)));
        let stays = fault(202) && massless
            || fault(203) && !named
            || fault(204) && i > 0
            || fault(205) && i + 1 == count;
        if stays {
            continue;
        }
        let new = moved(n, &velocities[10 * i + 7..][..3], h, over);
        finite &= !(wild(&new[..2]) && !fault(206)
            || wild(&new[2..]) && !fault(207));
        n[..4].copy_from_slice(&new);
    }
    finite
}

/// The counts of a frame that every rule before the moves grants, or the number that refuses it.
fn frame(s: &mut Study, all: &[Joint], warm: Option<f32>, rounds: u32, n: u32) -> Result<Vec<u32>, u64> {
    let start = s.clone();
    let dt = s.settings[0];
    let part = or!(170, dt / n as f32, dt * (1.0 / n as f32));
    let part = or!(167, part, dt);
    let moves_by = or!(169, part, dt);
    let (moves_by, over) = or!(171, (moves_by, 1.0), (dt, n as f32));
    let mut counts = vec![0; all.len()];
    let mut velocities = s.bodies.clone();
    for i in 0..n {
        let entered = s.clone();
        s.settings[0] = or!(168, part, dt);
        let number = or!(173, or!(172, i, i + 1), 0);
        build(s, all, warm, number);
        s.built = true;
        let mut finite = true;
        if fault(177) {
            velocities.clone_from(&s.bodies);
            finite = move_bodies(s, all, &velocities, moves_by, over);
        }
        let started = or!(175, true, warm.is_some());
        for joint in all.iter().filter(|_| started && !fault(174)) {
            pass(s, joint, rendering::warmstart);
        }
        if fault(176) {
            velocities.clone_from(&s.bodies);
            finite = move_bodies(s, all, &velocities, moves_by, over);
        }
        let removed = |s: &mut Study| {
            for row in s.rows.chunks_exact_mut(18).take(count_of(all)) {
                rendering::remove_bias(row);
            }
        };
        if fault(181) {
            removed(s);
        }
        let first = sweep(s, all, or!(183, rounds, 0));
        if !fault(176) && !fault(177) && !fault(178) {
            if i == 0 || !fault(179) {
                velocities.clone_from(&s.bodies);
            }
            finite = move_bodies(s, all, &velocities, moves_by, over);
        }
        let unseen = fault(209) && i + 1 == n
            || fault(210) && i == 0;
        if !finite && !unseen {
            let reached = s.clone();
            s.bodies = or!(215, start.bodies, entered.bodies);
            s.rows = or!(215, start.rows, entered.rows);
            s.settings[0] = or!(218, dt, part);
            s.built = or!(216, start.built, true) && !fault(217);
            if fault(212) {
                s.rows = reached.rows;
            }
            for (to, from) in s.bodies.chunks_exact_mut(10).zip(reached.bodies.chunks_exact(10)) {
                let kept = or!(214, or!(213, 10, 0), 7);
                to[kept..].copy_from_slice(&from[kept..]);
            }
            return Err(or!(211, 6, 11));
        }
        if i + 1 == n && fault(185) {
            write_back(s, all);
        }
        if !fault(180) {
            removed(s);
        }
        let last = sweep(s, all, or!(182, rounds, rounds.min(1)));
        if fault(178) {
            velocities.clone_from(&s.bodies);
            if !move_bodies(s, all, &velocities, moves_by, over) {
                *s = start;
                return Err(6);
            }
        }
        for (j, count) in counts.iter_mut().enumerate() {
            if fault(188) {
                *count += first[j] + last[j];
            } else if i == 0 || !fault(189) {
                *count = or!(187, last[j], first[j]);
            }
        }
        if fault(184) {
            write_back(s, all);
        }
    }
    if fault(208) && s.bodies.chunks_exact(10).any(|n| wild(&n[7..])) {
        *s = start;
        return Err(6);
    }
    if !fault(185) && !fault(186) {
        write_back(s, all);
    }
    s.settings[0] = or!(220, dt, part);
    s.built = or!(221, true, start.built) && !fault(222);
    Ok(counts)
}

pub fn call(s: &mut Study, call: &Call) -> Answer {
    let mut answer = Answer::none(call);
    if let Some((rule, _)) = rules(s, call).into_iter().find(|(_, refuses)| *refuses) {
        answer.code = rule;
        if matches!(call, Call::Build { .. }) {
            s.built = or!(65, or!(66, s.built, false), true);
        }
        if let (Call::SetTargets(bytes), true) = (call, fault(110) && rule > 12) {
            let set = table(&joints(s), bytes).0;
            set_targets(s, &set);
        }
        if fault(148) && matches!(call, Call::SetMasks { .. }) || fault(150) && *call == Call::Load {
            store_first_rows(s, usize::MAX);
        }
        return answer;
    }
    let all = joints(s);
    // A faulty rule 8 or place of rows must not end the program.
    let length = s.rows.len();
    s.rows.resize(length.max(18 * 6 * (all.len() + 1)), 0.0);
    match *call {
        Call::Load => {
            store_first_rows(s, or!(149, usize::MAX, 0));
            s.built = fault(63) && s.built;
        }
        Call::Place { body, pose } => {
            if let Some(n) = s.bodies.chunks_exact_mut(10).nth(body as usize) {
                n[..4].copy_from_slice(&pose);
            }
            s.built = s.built && !fault(64);
        }
        Call::Build {
            warm,
            coefficient,
            substep,
        } => {
            let total = build(s, &all, warm.then_some(coefficient), substep);
            answer.code = GRANTED + total as u64;
            s.built = true;
            store_first_rows(s, or!(152, 0, usize::MAX));
        }
        Call::WarmStart => {
            for joint in &all[..or!(81, all.len(), all.len().min(1))] {
                pass(s, joint, rendering::warmstart);
            }
        }
        Call::Sweep(n) => {
            let counts = sweep(s, &all, n);
            answer.ids.fill(0);
            for (to, count) in answer.ids.iter_mut().zip(counts) {
                *to = count;
            }
        }
        Call::RemoveBias => {
            let rows = or!(82, count_of(&all), length / 18);
            for row in s.rows.chunks_exact_mut(18).take(rows) {
                rendering::remove_bias(row);
            }
        }
        Call::WriteBack => write_back(s, &all),
        Call::ReadRows(joint) => {
            let (first, ids) = match all.get(joint as usize) {
                Some(joint) => (or!(153, joint.first, stored_first(joint, &all)), &joint.ids[..]),
                None => (0, &[][..]),
            };
            let first = or!(85, first, 0);
            for (k, id) in ids.iter().enumerate() {
                let row = &s.rows[18 * (first + k)..][..18];
                answer.out[18 * k..][..18].copy_from_slice(row);
                answer.ids[k] = *id;
            }
            answer.code = GRANTED + ids.len() as u64;
        }
        Call::ReadVelocity(body) => {
            let [x, y, angular] = velocity(s, body);
            let read = or!(86, [x, y, angular], [angular, x, y]);
            answer.out.copy_from_slice(&read);
        }
        Call::SetTargets(bytes) => {
            set_targets(s, &table(&all, bytes).0);
            s.built = s.built && !fault(109);
        }
        Call::SetMasks { joint, masks } => {
            let j = joint as usize;
            let [locked, limit, motor, coupled] = masks;
            let exchanged = or!(144, [locked, limit, coupled, motor], [limit, locked, motor, coupled]);
            let put = if fault(144) || fault(145) { exchanged } else { masks };
            let mut same = true;
            if let Some(old) = all.get(j) {
                same = old.words[2..6] == put;
                s.words[12 * j + 2..][..4].copy_from_slice(&put);
                for id in &old.ids[..or!(147, 0, old.ids.len())] {
                    rendering::writeback(*id, 0.0, &mut s.numbers[42 * j..][..42]);
                }
            }
            store_first_rows(s, or!(146, usize::MAX, j + 1));
            s.built = s.built && (fault(142) || fault(143) && same);
        }
        Call::Frame {
            warm,
            coefficient,
            sweeps,
            substeps,
        } => match frame(s, &all, warm.then_some(coefficient), sweeps, substeps) {
            Ok(counts) => {
                answer.ids.fill(0);
                for (to, count) in answer.ids.iter_mut().zip(counts) {
                    *to = count;
                }
            }
            Err(rule) => {
                answer.code = rule;
                if fault(219) {
                    answer.ids.fill(0);
                }
            }
        },
    }
    s.rows.truncate(length);
    answer
}
