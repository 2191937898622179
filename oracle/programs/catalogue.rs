//! The catalogue of joints (request R-8), by the unchanged Rust: its rows, and the ids that it stores in them.

use crate::cases::{built, numbers};
use std::io::Read;
use std::process::exit;

/// Numbers under which a choice's rows are made: the distance along axis 0 past its limits, at both ends, strictly inside, and limits without
/// ends; motors of some force, of f32 MAX, of none and of any.
fn all_numbers() -> [[f32; rapier2d::pipeline::rows::NUMBERS]; 4] {
    let inf = f32::INFINITY;
    [
        numbers(2.0, [-1.0, 1.0], 1.0),
        numbers(2.0, [2.0, 2.0], f32::MAX),
        numbers(2.0, [1.0, 3.0], 0.0),
        numbers(0.0, [-inf, inf], inf),
    ]
}

/// The line of a choice, without its LF; the Rust's ids may not depend on the numbers.
fn line(masks: [u32; 4]) -> String {
    let lines = all_numbers().map(|n| {
        let (rows, ids) = built(masks, &n);
        let mut words: Vec<String> = masks.iter().map(u32::to_string).collect();
        words.push(rows.len().to_string());
        words.extend(ids);
        words.join(" ")
    });
    if lines.iter().any(|l| *l != lines[0]) {
        println!("masks {masks:?}: the ids depend on the numbers: {lines:?}");
        exit(1)
    }
    let [first, ..] = lines;
    first
}

/// Locked slowest, then limit, motor, coupled fastest.
fn choices() -> impl Iterator<Item = [u32; 4]> {
    (0..8).flat_map(|locked| {
        (0..8).flat_map(move |limit| {
            (0..8).flat_map(move |motor| (0..8).map(move |coupled| [locked, limit, motor, coupled]))
        })
    })
}

pub fn print() {
    for masks in choices() {
        println!("{}", line(masks));
    }
}

/// The four masks that a line starts with.
fn masks_of(line: &str) -> Option<[u32; 4]> {
    let words: Vec<u32> = line
        .split(' ')
        .take(4)
        .filter(|w| w.len() == 1)
        .filter_map(|w| w.parse().ok())
        .collect();
    words.try_into().ok()
}

/// Standard input against the Rust: each line's masks are read back, what else stands on it is what the Rust makes of them,
/// each choice stands there once, and in order.
pub fn compare() {
    let fail = |n: usize, what: String| -> ! {
        println!("line {n} of the catalogue, counted from 0: {what}");
        exit(1)
    };
    let mut text = String::new();
    if std::io::stdin().read_to_string(&mut text).is_err() || !text.ends_with('\n') {
        fail(0, "no text that ends with LF".into())
    }
    let lines: Vec<&str> = text[..text.len() - 1].split('\n').collect();
    let mut seen = [0; 4096];
    for (n, printed) in lines.iter().enumerate() {
        let Some(masks) = masks_of(printed).filter(|m| m.iter().all(|k| *k <= 7)) else {
            fail(n, format!("{printed:?} has no four masks"))
        };
        let rust = line(masks);
        if *printed != rust {
            fail(n, format!("printed {printed:?}, the Rust has {rust:?}"))
        }
        seen[masks.iter().fold(0, |sum, k| 8 * sum + *k as usize)] += 1;
    }
    if seen != [1; 4096] {
        fail(
            lines.len(),
            "not every choice stands there just once".into(),
        )
    }
    for (n, (printed, masks)) in lines.iter().zip(choices()).enumerate() {
        if masks_of(printed) != Some(masks) {
            fail(n, format!("{printed:?} stands where {masks:?} belongs"))
        }
    }
    if masks_of(lines[1824]) != Some([3, 4, 4, 0]) {
        fail(1824, format!("{:?} is not 3, 4, 4, 0", lines[1824]))
    }
    println!(
        "{} lines of the catalogue, each as the Rust has it",
        lines.len()
    );
}
