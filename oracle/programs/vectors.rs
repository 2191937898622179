//! Checks a file of binary32 vectors against the host's floats and the integer root.
//!
//!   vectors FILE

mod bits;

use bits::bits;
use std::process::exit;

fn main() {
    let path = std::env::args().nth(1).unwrap_or_else(|| {
        eprintln!("vectors: FILE");
        exit(2)
    });
    let text = std::fs::read(&path).unwrap_or_else(|error| {
        eprintln!("vectors: {path}: {error}");
        exit(2)
    });
    if text.is_empty() || text.len() % 29 != 0 {
        println!("{path}: not a whole number of 29-byte lines");
        exit(1)
    }
    let mut seen: Vec<(char, u32)> = Vec::new();
    let (mut nans, mut infinite, mut subnormal) = (0, 0, 0);
    for line in text.chunks(29) {
        let shown = String::from_utf8_lossy(line);
        let wrong = |why: &str| -> ! {
            println!("{}: {why}", shown.trim_end());
            exit(1)
        };
        if [line[1], line[10], line[19], line[28]] != *b"   \n" {
            wrong("not in the fixed form")
        }
        let number = |from: usize| match u32::from_str_radix(&shown[from..from + 8], 16) {
            Ok(n) => n,
            Err(_) => wrong("not hexadecimal"),
        };
        let (op, a, b, want) = (line[0] as char, number(2), number(11), number(20));
        let (x, y) = (f32::from_bits(a), f32::from_bits(b));
        let got = match op {
            '+' => bits(x + y),
            '-' => bits(x - y),
            '*' => bits(x * y),
            '/' => bits(x / y),
            '<' => (x < y) as u32,
            'l' => (x <= y) as u32,
            '=' => (x == y) as u32,
            's' => {
                if bits(rapier2d::pipeline::leaves::sqrt(x)) != bits(x.sqrt()) {
                    wrong("the integer root differs from the host's")
                }
                bits(x.sqrt())
            }
            _ => wrong("no such operation"),
        };
        if got != want {
            wrong(&format!("the host has {got:08X}"))
        }
        match seen.iter_mut().find(|(o, _)| *o == op) {
            Some((_, n)) => *n += 1,
            None => seen.push((op, 1)),
        }
        if "+-*/s".contains(op) {
            nans += (want == 0x7FC0_0000) as u32;
            infinite += (want & 0x7FFF_FFFF == 0x7F80_0000) as u32;
            let size = want & 0x7FFF_FFFF;
            subnormal += (size > 0 && size < 0x80_0000) as u32;
        }
    }
    for (op, n) in seen {
        println!("{op} {n}");
    }
    println!(
        "{} lines as the host's; results: {nans} NaN, {infinite} infinite, {subnormal} subnormal",
        text.len() / 29
    );
}
