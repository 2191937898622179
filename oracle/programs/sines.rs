//! The table of sines and the pair of a typed angle.
//!
//!   sines cases                a few pairs, in bits
//!   sines host SEED COUNT      the pair's distance from the host's cosine and sine in f64
//!   sines compare SEED COUNT   all entries, and COUNT angles, against the Rattle library (built
//!                              with RATTLE_LIB)

mod bits;
mod draw;
#[path = "../sines.rs"]
mod sines;

use bits::{bits, hex};
use draw::Draw;
use sines::Sines;
use std::f64::consts::PI;
use std::process::exit;

fn cases() {
    let sines = Sines::new();
    for (angle, cosine, sine) in [
        (0x0000_0000, 0x3F80_0000, 0x0000_0000),
        (0x8000_0000, 0x3F80_0000, 0x0000_0000),
        (0x8000_0001, 0x3F80_0000, 0x0000_0000),
        (0x3F49_0FDB, 0x3F35_04F3, 0x3F35_04F3),
        (0x3FC9_0FDB, 0xB338_0000, 0x3F80_0000),
        (0xC049_0FDB, 0xBF80_0000, 0x33BA_0000),
        (0x4096_CBE4, 0x3240_0000, 0xBF80_0000),
        (0x4480_0000, 0x3F7C_C335, 0xBE22_5690),
        (0xFF80_0000, 0x7FC0_0000, 0x7FC0_0000),
    ] {
        let got = sines.pair(f32::from_bits(angle));
        if got.map(bits) != [cosine, sine] {
            println!("angle {angle:08X}: {}, not {cosine:08X} {sine:08X}", hex(&got));
            exit(1)
        }
    }
    let entries: Vec<i128> = (0..=4096).map(sines::entry).collect();
    for k in 0..=4096 {
        let sum = entries[k] * entries[k] + entries[4096 - k] * entries[4096 - k];
        if (sum - (1 << 60)).abs() > 1 << 36 {
            println!("entries {k} and {}: squares are {sum}", 4096 - k);
            exit(1)
        }
        if k > 0 && entries[k] <= entries[k - 1] {
            println!("entry {k} is not above the one before it");
            exit(1)
        }
    }
    println!("9 angles, and the squares and the order of 4097 entries");
}

/// Angles that meet every branch: eighths of a turn and the table's places with their neighbours,
/// both zeros, subnormal numbers, the numbers about 1024, and any bit pattern.
fn angle(d: &mut Draw) -> f32 {
    let sign = if d.below(2) == 0 { 1.0 } else { -1.0 };
    match d.below(8) {
        0 => {
            let multiple = d.below(2 * 1304) as f64 * (PI / 4.0);
            let bits = ((sign * multiple) as f32).to_bits();
            d.near(bits, 4)
        }
        1 => {
            let place = d.below(4096 * 8) as f64 * (PI / 2.0 / 4096.0);
            let bits = ((sign * place) as f32).to_bits();
            d.near(bits, 2)
        }
        2 => {
            let bits = ((sign * 1024.0) as f32).to_bits();
            d.near(bits, 3)
        }
        3 => {
            let size = d.pick(&[0, 1, 0x007F_FFFF, 0x0080_0000, 0x3080_0000, 0x3000_0000]);
            let bits = ((sign * 0.0) as f32).to_bits() | size;
            d.near(bits, 3)
        }
        4 => f32::from_bits(d.word() as u32 & 0x807F_FFFF),
        5 => (sign * (d.word() >> 11) as f64 / (1u64 << 43) as f64) as f32,
        6 => d.ordinary(),
        _ => f32::from_bits(d.word() as u32),
    }
}

fn host(seed: u64, count: u64) {
    let sines = Sines::new();
    let mut d = Draw::new(seed);
    // Largest distance and where, up to a turn and up to 1024; and of the squares' sum from 1.
    let mut worst = [(0.0f64, 0.0f32); 3];
    let mut measured = 0;
    while measured < count {
        let x = angle(&mut d);
        if !x.is_finite() || sines::too_large(x) {
            continue;
        }
        measured += 1;
        let [c, s] = sines.pair(x).map(|n| n as f64);
        let exact = x as f64;
        let distance = (c - exact.cos()).abs().max((s - exact.sin()).abs());
        let mut note = |i: usize, much: f64| {
            if much > worst[i].0 {
                worst[i] = (much, x)
            }
        };
        if exact.abs() <= 2.0 * PI {
            note(0, distance);
        }
        note(1, distance);
        note(2, (c * c + s * s - 1.0).abs());
    }
    println!("{measured} angles up to 1024 in size");
    for (what, (much, x)) in [
        "largest distance of a cosine or sine, sizes up to a turn",
        "largest distance of a cosine or sine",
        "largest distance of the rounded pair's squares from 1",
    ]
    .iter()
    .zip(worst)
    {
        println!("{what}: {much:e} at {}", hex(&[x]));
    }
}

#[cfg(not(rattle))]
fn compare(_: u64, _: u64) {
    println!("built without RATTLE_LIB: nothing to compare with");
    exit(2)
}

#[cfg(rattle)]
fn compare(seed: u64, count: u64) {
    unsafe extern "C" {
        fn katydidzinc_sine(k: u32) -> u32;
        fn katydidzinc_rotation_from_angle(angle: f32, out: *mut f32, length: usize);
        // A byte here, so that a value other than 0 and 1 shows as a difference.
        fn katydidzinc_angle_too_large(angle: f32) -> u8;
    }
    for k in (0..=4097).chain([u32::MAX]) {
        let want = if k <= 4096 { sines::entry(k) } else { 0 };
        let got = unsafe { katydidzinc_sine(k) };
        if got as i128 != want {
            println!("entry {k}: {want} here, {got} there");
            exit(1)
        }
    }
    println!("4097 entries, and 0 past them");
    let sines = Sines::new();
    let mut d = Draw::new(seed);
    const OTHER: u32 = 0x7FAB_CDEF;
    let (mut nans, mut large, mut zeros) = (0u64, 0u64, 0u64);
    for i in 0..count {
        let x = angle(&mut d);
        // Room for two numbers; now and then for fewer, where nothing is written.
        let room = if i % 1024 < 2 { (i % 1024) as usize } else { 2 };
        let mut out = [f32::from_bits(OTHER); 4];
        unsafe { katydidzinc_rotation_from_angle(x, out.as_mut_ptr(), room) };
        let mut want = [OTHER; 4];
        if room == 2 {
            want[..2].copy_from_slice(&sines.pair(x).map(bits));
        }
        let got = out.map(|n| if n.to_bits() == OTHER { OTHER } else { bits(n) });
        if got != want {
            println!("angle {}: {want:08X?} here, {got:08X?} there", hex(&[x]));
            exit(1)
        }
        let (left, right) = (sines::too_large(x) as u8, unsafe {
            katydidzinc_angle_too_large(x)
        });
        if left != right {
            println!("angle {} above 1024: {left} here, {right} there", hex(&[x]));
            exit(1)
        }
        nans += x.is_nan() as u64;
        large += left as u64;
        zeros += want[..2].iter().any(|&n| n == 0) as u64;
    }
    println!(
        "{count} angles, NaN {:.1} %, above 1024 {:.1} %, a zero in the pair {:.1} %: no difference, seed {seed}",
        100.0 * nans as f64 / count as f64,
        100.0 * large as f64 / count as f64,
        100.0 * zeros as f64 / count as f64,
    );
}

fn main() {
    let arguments: Vec<String> = std::env::args().skip(1).collect();
    let number = |i: usize, default: u64| match arguments.get(i) {
        None => default,
        Some(text) => text.parse().unwrap_or_else(|_| {
            eprintln!("sines: {text} is not a number");
            exit(2)
        }),
    };
    let (seed, count) = (number(1, 1), number(2, 1_000_000));
    match arguments.first().map(String::as_str) {
        Some("cases") => cases(),
        Some("host") => host(seed, count),
        Some("compare") => compare(seed, count),
        _ => {
            eprintln!("sines: cases | host SEED COUNT | compare SEED COUNT");
            exit(2)
        }
    }
}
