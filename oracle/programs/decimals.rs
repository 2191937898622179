//! Numbers of a study's text: the Rattle library beside Rust's `str::parse::<f32>`, with the words' grammar rendered a
//! second time here.
//!
//!   decimals cases               a corpus of words with their answers, by the rendering
//!   decimals compare SEED COUNT  the corpus, and COUNT drawn words, by both
//!   decimals bench               how long a number takes

mod draw;

use draw::Draw;
use std::process::exit;

#[derive(Clone, Copy, PartialEq, Debug)]
enum Reading {
    /// the bits, all NaNs as one
    Number(u32),
    TooManyDigits,
    NotANumber,
}
use Reading::*;

const NAN: u32 = 0x7FC0_0000;

fn number(x: f32) -> Reading {
    Number(if x.is_nan() { NAN } else { x.to_bits() })
}

fn all_digits(s: &str) -> bool {
    !s.is_empty() && s.bytes().all(|b| b.is_ascii_digit())
}

/// The grammar by splitting the word; the value by the host's parser.
fn rendering(word: &[u8]) -> Reading {
    let Ok(text) = std::str::from_utf8(word) else { return NotANumber };
    if let Some(digits) = text.strip_prefix("0x") {
        let eight = digits.len() == 8 && digits.bytes().all(|b| b.is_ascii_hexdigit());
        return if eight { number(f32::from_bits(u32::from_str_radix(digits, 16).unwrap())) } else { NotANumber };
    }
    let (negative, size) = match text.strip_prefix('-') {
        Some(rest) => (true, rest),
        None => (false, text.strip_prefix('+').unwrap_or(text)),
    };
    if size == "inf" {
        return number(if negative { f32::NEG_INFINITY } else { f32::INFINITY });
    }
    let (mantissa, exponent) = match size.split_once(['e', 'E']) {
        Some((m, e)) => (m, Some(e)),
        None => (size, None),
    };
    if let Some(e) = exponent {
        if !all_digits(e.strip_prefix(['+', '-']).unwrap_or(e)) {
            return NotANumber;
        }
    }
    let digits = mantissa.replacen('.', "", 1);
    if !all_digits(&digits) {
        return NotANumber;
    }
    if digits.trim_start_matches('0').len() > 19 {
        return TooManyDigits;
    }
    number(text.parse().unwrap())
}

const CASES: &[(&[u8], Reading)] = &[
    // decimals
    (b"0", Number(0)),
    (b"-0", Number(0x8000_0000)),
    (b"-0.000e-7", Number(0x8000_0000)),
    (b"1", Number(0x3F80_0000)),
    (b"+1.5", Number(0x3FC0_0000)),
    (b"5.", Number(0x40A0_0000)),
    (b".5", Number(0x3F00_0000)),
    (b"1E2", Number(0x42C8_0000)),
    (b"1e+2", Number(0x42C8_0000)),
    (b"100e-2", Number(0x3F80_0000)),
    (b"1e000000000000000000000000000002", Number(0x42C8_0000)),
    // ties: to the even one
    (b"16777217", Number(0x4B80_0000)),
    (b"16777219", Number(0x4B80_0002)),
    (b"16777217.00000000001", Number(0x4B80_0001)),
    (b"16777216.99999999999", Number(0x4B80_0000)),
    // the smallest value is 1.4e-45; half of it is 7.0064923216240853546e-46
    (b"1e-45", Number(1)),
    (b"7.006492321624085354e-46", Number(0)),
    (b"7.006492321624085355e-46", Number(1)),
    (b"1.175494350822287507e-38", Number(0x80_0000)),
    (b"1.175494280757364291e-38", Number(0x7F_FFFF)),
    // the largest is 340282346638528859811704183484516925440; from 340282356779733661637539395458142568448 on it is an infinity
    (b"3.4028234663852886e38", Number(0x7F7F_FFFF)),
    (b"3.402823567797336616e38", Number(0x7F7F_FFFF)),
    (b"3.402823567797336617e38", Number(0x7F80_0000)),
    (b"1e39", Number(0x7F80_0000)),
    (b"-1e39", Number(0xFF80_0000)),
    (b"1e99999999999999999999999999999", Number(0x7F80_0000)),
    (b"-1e-99999999999999999999999999999", Number(0x8000_0000)),
    (b"0e99999999999999999999999999999", Number(0)),
    (b"0.00000000000000000000000000000000000000000000000000000000001e59", Number(0x3F80_0000)),
    // digits
    (b"1234567890123456789", Number(0x5D89_1088)),
    (b"0000000000000000000000001234567890123456789", Number(0x5D89_1088)),
    (b"9999999999999999999", Number(0x5F0A_C723)),
    (b"10000000000000000000", TooManyDigits),
    (b"1.0000000000000000000", TooManyDigits),
    (b"12345678901234567890e-400", TooManyDigits),
    (b"0.00000000000000000000", Number(0)),
    // bits and infinities
    (b"0x3F800000", Number(0x3F80_0000)),
    (b"0x3f8000aB", Number(0x3F80_00AB)),
    (b"0xFF800000", Number(0xFF80_0000)),
    (b"0xFFFFFFFF", Number(NAN)),
    (b"inf", Number(0x7F80_0000)),
    (b"+inf", Number(0x7F80_0000)),
    (b"-inf", Number(0xFF80_0000)),
    // words that are none
    (b"", NotANumber),
    (b".", NotANumber),
    (b"+", NotANumber),
    (b"-", NotANumber),
    (b"e5", NotANumber),
    (b".e5", NotANumber),
    (b"1e", NotANumber),
    (b"1e+", NotANumber),
    (b"1e5.", NotANumber),
    (b"1..2", NotANumber),
    (b"1.2.3", NotANumber),
    (b"--1", NotANumber),
    (b"+-1", NotANumber),
    (b" 1", NotANumber),
    (b"1 ", NotANumber),
    (b"1,5", NotANumber),
    (b"1_000", NotANumber),
    (b"nan", NotANumber),
    (b"NaN", NotANumber),
    (b"Inf", NotANumber),
    (b"infinity", NotANumber),
    (b"-infinity", NotANumber),
    (b"in", NotANumber),
    (b"0x", NotANumber),
    (b"0x3F80000", NotANumber),
    (b"0x3F8000000", NotANumber),
    (b"0x3F80000G", NotANumber),
    (b"0X3F800000", NotANumber),
    (b"-0x3F800000", NotANumber),
    (b"x3F800000", NotANumber),
    (b"1e5\0", NotANumber),
    (b"\xFF", NotANumber),
    (b"1\xE2\x82\xAC", NotANumber),
    (b"12345678901234567890x", NotANumber),
];

fn shown(word: &[u8]) -> String {
    word.escape_ascii().to_string()
}

fn expected(word: &[u8], want: Reading, got: Reading, whose: &str) {
    if got != want {
        println!("{}: {whose} {got:08X?}, not {want:08X?}", shown(word));
        exit(1)
    }
}

fn cases() {
    for (word, want) in CASES {
        expected(word, *want, rendering(word), "the rendering");
    }
    println!("{} words as expected", CASES.len())
}

#[cfg(rattle)]
mod rattle {
    use super::Reading;

    unsafe extern "C" {
        fn katydidzinc_decimals_read(word: *const u8, word_len: usize) -> u64;
        fn katydidzinc_decimals_text(bits: u32, i: usize) -> u8;
        fn katydidzinc_decimals_spelled(bits: u32, i: usize) -> u8;
    }

    pub fn read(word: &[u8]) -> Reading {
        match unsafe { katydidzinc_decimals_read(word.as_ptr(), word.len()) } {
            0x1_0000_0000 => Reading::TooManyDigits,
            0x1_0000_0001 => Reading::NotANumber,
            bits => Reading::Number(bits as u32),
        }
    }

    pub fn spelled(bits: u32) -> Vec<u8> {
        (0..).map(|i| unsafe { katydidzinc_decimals_spelled(bits, i) }).take_while(|b| *b != 0).collect()
    }

    pub fn text(bits: u32) -> Vec<u8> {
        (0..).map(|i| unsafe { katydidzinc_decimals_text(bits, i) }).take_while(|b| *b != 0).collect()
    }
}

/// Nine digits as C writes them, by the host's formatting; the bits of a NaN.
#[cfg(rattle)]
fn nine_digits(bits: u32) -> String {
    let x = f32::from_bits(bits);
    if x.is_nan() {
        return format!("0x{NAN:08X}");
    }
    if x.is_infinite() {
        return format!("{x}");
    }
    let text = format!("{x:.8e}");
    let (digits, exponent) = text.split_once('e').unwrap();
    let exponent: i32 = exponent.parse().unwrap();
    format!("{digits}e{}{:02}", if exponent < 0 { '-' } else { '+' }, exponent.abs())
}

/// What is written of a number is nine digits, and reads as it.
#[cfg(rattle)]
fn spelled(bits: u32) {
    let text = rattle::spelled(bits);
    if text != nine_digits(bits).as_bytes() {
        println!("{bits:08X} is written {}, not {}", shown(&text), nine_digits(bits));
        exit(1)
    }
    expected(&text, number(f32::from_bits(bits)), rendering(&text), "the rendering");
    expected(&text, number(f32::from_bits(bits)), rattle::read(&text), "the library");
}

/// The point half way between two neighbours, exactly: f64 holds it, and the value past the largest is taken as 2^128.
fn half_way(bits: u32) -> f64 {
    let next = if bits == 0x7F7F_FFFF { 2f64.powi(128) } else { f32::from_bits(bits + 1) as f64 };
    (f32::from_bits(bits) as f64 + next) / 2.0
}

/// 19 digits of a number, the last one moved by -2 to 2.
fn spelled_about(d: &mut Draw, x: f64) -> String {
    let text = format!("{x:.18e}");
    let (m, e) = text.split_once('e').unwrap();
    let mut digits: u64 = m.replace('.', "").parse().unwrap();
    digits = (digits + d.below(5)).saturating_sub(2);
    let e: i64 = e.parse().unwrap();
    // the point anywhere, with the exponent that makes up for it
    let text = digits.to_string();
    let places = d.below(text.len() as u64 + 1) as usize;
    format!("{}.{}e{}", &text[..text.len() - places], &text[text.len() - places..], e - 18 + places as i64)
}

/// A word and the kind of word it is.
fn drawn(d: &mut Draw) -> (Vec<u8>, usize) {
    let kind = d.below(10) as usize;
    let mut text = match kind {
        0 => {
            let n = 1 + d.below(21);
            let mut s: String = (0..n).map(|_| (b'0' + d.below(10) as u8) as char).collect();
            s.insert(d.below(n + 1) as usize, '.');
            if d.below(2) == 0 {
                s += &format!("e{}", d.below(130) as i64 - 75);
            }
            s
        }
        1 => format!("{:e}", f32::from_bits(d.below(0x7F80_0000) as u32)),
        2 => {
            let bits = d.below(0x7F80_0000) as u32;
            spelled_about(d, half_way(bits))
        }
        // about the ends: subnormal numbers, the least normal, the largest
        3 => {
            let (low, reach) = d.pick(&[(0, 64), (0x7F_FFC0, 128), (0x7F7F_FFC0, 64), (0, 0x80_0000)]);
            let bits = (low + d.below(reach) as u32).min(0x7F7F_FFFF);
            spelled_about(d, half_way(bits))
        }
        // whole numbers with few digits past 24 bits: exact ties
        4 => format!("{}", (d.below(1 << 25) + (1 << 24)) << d.below(3)),
        5 => format!("{}e{}", d.below(1000), d.pick(&[-50, -48, -47, -46, -45, -44, -39, -38, 35, 36, 37, 38, 39, 40]) + d.below(3) as i64 - 1),
        6 => {
            let zeros = "0".repeat(d.below(60) as usize);
            let more = "0".repeat(d.below(60) as usize);
            format!("{zeros}.{more}{}e{}{}{}", d.below(1 << 40), d.pick(&["", "+", "-"]), "0".repeat(d.below(30) as usize), d.below(90))
        }
        7 => format!("{}e{}{}", d.below(3), d.pick(&["", "-"]), format!("{}{}", d.word(), d.word())),
        8 => format!("{:.1}", d.below(2_000_000) as f64 / 1000.0),
        _ => {
            let bits = d.word() as u32;
            let text = if d.below(2) == 0 { format!("0x{bits:08X}") } else { format!("0x{bits:08x}") };
            return damaged(d, text.into_bytes(), kind);
        }
    };
    if d.below(3) == 0 {
        text.insert(0, d.pick(&['-', '-', '+']));
    }
    damaged(d, text.into_bytes(), kind)
}

/// One word in eight has a byte changed, left out or put in.
fn damaged(d: &mut Draw, mut word: Vec<u8>, kind: usize) -> (Vec<u8>, usize) {
    if d.below(8) != 0 {
        return (word, kind);
    }
    let byte = if d.below(4) == 0 { d.word() as u8 } else { d.pick(b"0123456789+-.eExinfa ") };
    let at = d.below(word.len() as u64) as usize;
    match d.below(3) {
        0 => word[at] = byte,
        1 => drop(word.remove(at)),
        _ => word.insert(at, byte),
    }
    (word, 10)
}

#[cfg(rattle)]
fn compare(seed: u64, count: u64) {
    for (word, want) in CASES {
        expected(word, *want, rendering(word), "the rendering");
        expected(word, *want, rattle::read(word), "the library");
    }
    // an exponent that makes up for as many zeros
    for zeros in [1000, 70_000, 200_000] {
        let word = format!("-0.{}15e{}", "0".repeat(zeros), zeros + 1);
        expected(word.as_bytes(), Number(0xBFC0_0000), rendering(word.as_bytes()), "the rendering");
        expected(word.as_bytes(), Number(0xBFC0_0000), rattle::read(word.as_bytes()), "the library");
    }
    // the numbers about each power of two and of ten, and the ends
    let mut about: Vec<u32> = (0..=255).map(|e| e << 23).chain([1, 0x7F_FFFF, 0x7F7F_FFFF]).collect();
    about.extend((-45..=38).map(|e| format!("1e{e}").parse::<f32>().unwrap().to_bits()));
    for bits in about.iter().flat_map(|b| (0..33).map(move |i| b.wrapping_add(i).wrapping_sub(16))) {
        spelled(bits & 0x7FFF_FFFF);
        spelled(bits | 0x8000_0000);
    }
    let mut d = Draw::new(seed);
    let (mut kinds, mut answers) = ([0u64; 11], [0u64; 5]);
    for _ in 0..count {
        let (word, kind) = drawn(&mut d);
        let want = rendering(&word);
        expected(&word, want, rattle::read(&word), "the library");
        kinds[kind] += 1;
        answers[match want {
            Number(b) if b & 0x7FFF_FFFF == 0 => 0,
            Number(b) if b & 0x7F80_0000 == 0x7F80_0000 => 1,
            Number(_) => 2,
            TooManyDigits => 3,
            NotANumber => 4,
        }] += 1;
        let bits = d.word() as u32;
        let text = rattle::text(bits);
        if text != format!("0x{bits:08X}").as_bytes() {
            println!("{bits:08X} is written {}", shown(&text));
            exit(1)
        }
        expected(&text, number(f32::from_bits(bits)), rattle::read(&text), "the library");
        spelled(bits);
    }
    println!(
        "{count} words: digits {}, f32 shown {}, half way {}, about the ends {}, exact ties {}, exponents at the ends {}, zeros {}, long exponents {}, short {}, bits {}, damaged {}",
        kinds[0], kinds[1], kinds[2], kinds[3], kinds[4], kinds[5], kinds[6], kinds[7], kinds[8], kinds[9], kinds[10]
    );
    println!(
        "answers: {} zeros, {} infinities and NaNs, {} other numbers, {} with too many digits, {} no numbers; {count} words of bits written and read back, and {count} of nine digits, the host's",
        answers[0], answers[1], answers[2], answers[3], answers[4]
    )
}

#[cfg(not(rattle))]
fn compare(_: u64, _: u64) {
    println!("decimals: built without the library to compare with");
    exit(1)
}

#[cfg(rattle)]
fn bench() {
    let mut d = Draw::new(1);
    let mut words: Vec<(Vec<u8>, usize)> = (0..200_000).map(|_| drawn(&mut d)).collect();
    words.retain(|w| matches!(rendering(&w.0), Number(_)));
    for (kind, what) in [(8, "short decimals"), (1, "f32 shown"), (2, "19 digits, half way"), (9, "bits")] {
        let of: Vec<&[u8]> = words.iter().filter(|w| w.1 == kind).map(|w| w.0.as_slice()).collect();
        let start = std::time::Instant::now();
        let mut sum = 0u64;
        for word in &of {
            if let Number(b) = rattle::read(word) {
                sum = sum.wrapping_add(b as u64);
            }
        }
        println!("{what}: {:.0} ns a number ({sum:X})", start.elapsed().as_nanos() as f64 / of.len() as f64);
    }
}

#[cfg(not(rattle))]
fn bench() {
    compare(0, 0)
}

fn main() {
    let words: Vec<String> = std::env::args().collect();
    let number = |k: usize| words.get(k).and_then(|w| w.parse().ok()).unwrap_or(1);
    match words.get(1).map(String::as_str) {
        Some("cases") => cases(),
        Some("compare") => compare(number(2), number(3)),
        Some("bench") => bench(),
        _ => {
            println!("decimals cases | compare SEED COUNT | bench");
            exit(1)
        }
    }
}
