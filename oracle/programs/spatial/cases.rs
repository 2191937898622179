//! The cases of request R-14 about rows, and the catalogue of all legal mask choices.

use crate::bits::bits;
use crate::library::{Call, Function, Library, oracle, rendered};
use crate::spatial_rendering;
use crate::studies::{self, BODY1_AT, BODY2_AT, JOINT_AT};
use rapier3d::pipeline::records::{BODY, JOINT, ROW, WORLD};
use rapier3d::pipeline::rows::{NUMBERS, WORDS};
use std::process::exit;

const MOST_ROWS: usize = 9;

/// Masks as handed over (locked, limit, motor, coupled), and the ids of the rows in order.
const MASKS: [([u32; 4], &str); 7] = [
    ([63, 0, 0, 0], "Dof3 Dof4 Dof5 Dof0 Dof1 Dof2"),
    (
        [56, 7, 7, 0],
        "Motor0 Motor1 Motor2 Dof3 Dof4 Dof5 Limit0 Limit1 Limit2",
    ),
    ([62, 1, 1, 0], "Motor0 Dof3 Dof4 Dof5 Dof1 Dof2 Limit0"),
    ([41, 6, 5, 0], "Motor2 Dof3 Dof5 Dof0 Limit1 Limit2"),
    ([63, 7, 7, 0], "Dof3 Dof4 Dof5 Dof0 Dof1 Dof2"),
    ([35, 4, 4, 0], "Motor2 Dof5 Dof0 Dof1 Limit2"),
    ([0, 0, 0, 0], ""),
];

/// How many of the 4096 legal choices have 0 to 9 rows.
const SIZES: [usize; MOST_ROWS + 1] = [1, 21, 168, 640, 1218, 1218, 640, 168, 21, 1];

const IDENTITY: [f32; 4] = [0.0, 0.0, 0.0, 1.0];

/// A body of unit masses and inertia.
fn body(rotation: [f32; 4], translation: [f32; 3]) -> [f32; BODY] {
    let mut n = [0.0; BODY];
    n[..4].copy_from_slice(&rotation);
    n[4..7].copy_from_slice(&translation);
    n[7..].copy_from_slice(&[1.0, 0.0, 0.0, 1.0, 0.0, 1.0, 1.0, 1.0, 1.0]);
    n
}

/// Two bodies; identity frames, softness (1e6, 1); all limits [low, high]; all motors of force `max_force`.
fn numbers(
    dt: f32,
    bodies: [[f32; BODY]; 2],
    [low, high]: [f32; 2],
    max_force: f32,
) -> [f32; NUMBERS] {
    let mut n = [0.0; NUMBERS];
    n[..3].copy_from_slice(&[dt, 1.0, 3.0]);
    n[BODY1_AT..BODY2_AT].copy_from_slice(&bodies[0]);
    n[BODY2_AT..JOINT_AT].copy_from_slice(&bodies[1]);
    let joint = &mut n[JOINT_AT..][..JOINT];
    joint[..4].copy_from_slice(&IDENTITY);
    joint[7..11].copy_from_slice(&IDENTITY);
    for i in 0..3 {
        joint[14 + 3 * i..][..2].copy_from_slice(&[low, high]);
        joint[23 + 6 * i + 4] = max_force;
    }
    joint[41..43].copy_from_slice(&[1.0e6, 1.0]);
    n
}

/// The rows of a joint with these masks, and their ids.
fn built(by: Library, masks: [u32; 4], n: &[f32]) -> (Vec<[u32; ROW]>, Vec<String>) {
    let mut words = [0; WORDS];
    words[..4].copy_from_slice(&masks);
    let mut call = Call::new(Function::Build, &words, n, &[0.0; MOST_ROWS * ROW]);
    call.ids = vec![0; MOST_ROWS];
    by(&mut call);
    let name = |id: &u32| format!("{}{}", ["Dof", "Limit", "Motor"][*id as usize / 8], id % 8);
    let row = |n: &[f32]| -> [u32; ROW] { std::array::from_fn(|i| bits(n[i])) };
    (
        call.lent.chunks(ROW).take(call.count).map(row).collect(),
        call.ids[..call.count].iter().map(name).collect(),
    )
}

/// Numbers under which a choice's rows are made: past the limits, at both ends, strictly inside, and limits without ends; motors of some force, of f32
/// MAX, of none and of any.
fn all_numbers() -> [[f32; NUMBERS]; 4] {
    let inf = f32::INFINITY;
    let bodies = |x: f32| [body(IDENTITY, [0.0; 3]), body(IDENTITY, [x; 3])];
    [
        numbers(1.0, bodies(2.0), [-1.0, 1.0], 1.0),
        numbers(1.0, bodies(2.0), [2.0, 2.0], f32::MAX),
        numbers(1.0, bodies(2.0), [1.0, 3.0], 0.0),
        numbers(1.0, bodies(0.0), [-inf, inf], inf),
    ]
}

/// The line of a choice, without its LF; the ids may not depend on the numbers.
fn line(by: Library, masks: [u32; 4]) -> (usize, String) {
    let all = all_numbers().map(|n| built(by, masks, &n).1);
    if all.iter().any(|ids| *ids != all[0]) {
        println!("masks {masks:?}: the ids depend on the numbers: {all:?}");
        exit(1)
    }
    let mut words: Vec<String> = masks.iter().map(u32::to_string).collect();
    words.push(all[0].len().to_string());
    words.extend(all[0].iter().cloned());
    (all[0].len(), words.join(" "))
}

/// Locked slowest, then limit, motor fastest.
pub fn catalogue() {
    for choice in 0..4096 {
        println!("{}", line(oracle, studies::masks(choice)).1);
    }
}

fn side(name: &str, by: Library) {
    let mut count = 0;
    let mut expect = |what: &str, got: &[u32], want: &[u32]| {
        count += 1;
        if got != want {
            println!("{what}, by {name}: {got:08X?}, not {want:08X?}");
            exit(1)
        }
    };
    const NAN: u32 = 0x7FC0_0000;
    let half = 0x3F00_0000;

    let tame = &all_numbers()[0];
    for (masks, ids) in MASKS {
        let same = built(by, masks, tame).1.join(" ") == ids;
        expect(&format!("masks {masks:?}"), &[same as u32], &[1]);
    }
    let mut sizes = [0; MOST_ROWS + 1];
    for choice in 0..4096 {
        let masks = studies::masks(choice);
        let (size, said) = line(by, masks);
        sizes[size] += 1;
        let same = said == line(oracle, masks).1;
        expect(&format!("the rows of {masks:?}"), &[same as u32], &[1]);
    }
    expect(
        "how many choices have 0 to 9 rows",
        &sizes.map(|n| n as u32),
        &SIZES.map(|n| n as u32),
    );

    // Six locks at rest.
    let at_rest = |body1, body2| numbers(1.0 / 64.0, [body1, body2], [0.0, 0.0], 0.0);
    let one = body(IDENTITY, [0.0; 3]);
    let n = at_rest(one, body(IDENTITY, [1.0, 2.0, 3.0]));
    let (rows, _) = built(by, [63, 0, 0, 0], &n);
    for i in 0..3 {
        let mut about = [0; 3];
        about[i] = half;
        let turns = [about; 4].concat();
        expect("an angular lock's linear part", &rows[i][3..6], &[0; 3]);
        expect("an angular lock's angular parts", &rows[i][6..18], &turns);
        let gains = [0x4000_0000, 0, 0, 0x2E64_70CF, 0x2EE4_70CF];
        expect("an angular lock's numbers", &rows[i][18..23], &gains);
        let mut along = [0; 3];
        along[i] = 0x3F80_0000;
        let row = &rows[3 + i];
        expect("a linear lock's linear part", &row[3..6], &along);
        expect("a linear lock's angular parts", &row[6..18], &[0; 12]);
        let rhs = [0x427F_FEAA, 0x42FF_FEAA, 0x433F_FF00][i];
        expect("a linear lock's numbers", &row[18..20], &[half, rhs]);
        expect("a linear lock's gain", &row[21..22], &[0x2F64_70CF]);
    }

    // A dot that is NaN: its sign is plus.
    let big = 1.0e20;
    let n = at_rest(
        body([big, big, 0.0, 0.0], [0.0; 3]),
        body([big, -big, 0.0, 3.0], [0.0; 3]),
    );
    let (rows, _) = built(by, [56, 0, 0, 0], &n);
    expect(
        "a NaN's sign, turns",
        &rows[0][6..9],
        &[0x7F80_0000, NAN, 0xE102_1AB1],
    );
    expect("a NaN's sign, error", &rows[0][19..20], &[0xE482_1A03]);

    // The rotation of one body negated changes no row.
    let q = [0.5, -0.5, 0.5, 0.5];
    let (rows, _) = built(by, [63, 0, 0, 0], &at_rest(one, body(q, [1.0, 2.0, 3.0])));
    let (other, _) = built(
        by,
        [63, 0, 0, 0],
        &at_rest(one, body(q.map(|x| -x), [1.0, 2.0, 3.0])),
    );
    expect(
        "a negated rotation",
        rows.as_flattened(),
        other.as_flattened(),
    );

    // Limits equal to the distance.
    let mut n = at_rest(WORLD, body(IDENTITY, [0.0, 0.0, 2.0]));
    n[JOINT_AT + 20..][..2].copy_from_slice(&[2.0, 2.0]);
    let (rows, ids) = built(by, [35, 4, 4, 0], &n);
    let same = ids.join(" ") == "Motor2 Dof5 Dof0 Dof1 Limit2";
    expect("a limited and motorised axis 2", &[same as u32], &[1]);
    expect(
        "limits equal to the distance",
        &rows[4][1..3],
        &[0xFF80_0000, 0x7F80_0000],
    );

    // A motor of force f32 MAX and dt 1 counts as a lock, and reduces the motors after it; one of infinite force does not.
    let second = |max_force: f32| {
        // Inverse masses that differ make crossing axes depend on each other where the frame is turned.
        let mut two = body(IDENTITY, [2.0; 3]);
        two[13] = 8.0;
        let mut n = numbers(
            1.0,
            [body([0.0, 0.0, 0.6, 0.8], [0.0; 3]), two],
            [0.0; 2],
            max_force,
        );
        n[JOINT_AT + 4] = 1.0;
        built(by, [0, 0, 7, 0], &n).0
    };
    let (free, locking, infinite) = (second(1.0), second(f32::MAX), second(f32::INFINITY));
    let jacobians = |row: &[u32; ROW]| row[3..18].to_vec();
    let reduced = jacobians(&locking[1]) != jacobians(&free[1]);
    expect(
        "a motor of force f32 MAX reduces the next",
        &[reduced as u32],
        &[1],
    );
    expect(
        "a motor of infinite force",
        &jacobians(&infinite[1]),
        &jacobians(&free[1]),
    );
    println!("{count} cases about rows in space by {name}");
}

/// The library's write-back into too few numbers: nothing is written. All else is handed over by value.
fn short_slices(rattle: Library) {
    for id in 0..24 {
        let mut call = Call::new(Function::Writeback, &[id], &[0.5], &[0.25; JOINT - 1]);
        let before = call.clone();
        rattle(&mut call);
        if !call.agrees(&before) {
            println!("write-back of id {id} into {} numbers", JOINT - 1);
            exit(1)
        }
    }
    println!("24 cases about short slices by the library");
}

pub fn cases(rattle: Option<Library>) {
    spatial_rendering::carry(0);
    side("the Rust", oracle);
    side("the second rendering", rendered);
    if let Some(rattle) = rattle {
        side("the library", rattle);
        short_slices(rattle);
    }
}
