//! Motor tables (request R-6): a corpus of RFC 4180 edge cases with their answers, and the comparison of the Rattle library with
//! a second rendering.
//!
//!   motor_table cases               the corpus by the rendering
//!   motor_table compare SEED COUNT  the corpus, and COUNT generated and damaged tables, by both
//!   motor_table bench               a table of the largest size read and written, in megabytes a second

mod draw;
#[path = "../motor_table_rendering.rs"]
mod rendering;

use draw::Draw;
use rendering::Record;
use std::process::exit;

/// Text, joints, and what reading answers: the records or the refusal.
type Case = (&'static [u8], u32, Result<&'static [Record], u32>);

const CASES: &[Case] = &[
    // records and their ends
    (b"", 1, Ok(&[])),
    (b"0,0,1", 1, Ok(&[(0, 0, 1)])),
    (b"0,0,1\r\n", 1, Ok(&[(0, 0, 1)])),
    (b"0,0,1\r\n1,2,-3\r\n", 2, Ok(&[(0, 0, 1), (1, 2, -3)])),
    (b"0,0,1\r\n1,2,-3", 2, Ok(&[(0, 0, 1), (1, 2, -3)])),
    (b"\r\n", 1, Err(14)),
    (b"0,0,1\r\n\r\n", 1, Err(14)),
    (b"\r\n0,0,1", 1, Err(14)),
    (b"0,0,1\r\n\r\n0,0,1", 1, Err(14)),
    (b"joint,axis,target\r\n0,0,1\r\n", 1, Err(14)),
    // a lone CR or LF, and CR at the end
    (b"0,0,1\n", 1, Err(13)),
    (b"0,0,1\n0,0,1", 1, Err(13)),
    (b"0,0,1\r0,0,1", 1, Err(13)),
    (b"0,0,1\r", 1, Err(13)),
    (b"0,0,1\r\r\n", 1, Err(13)),
    (b"\n", 1, Err(13)),
    (b"\r", 1, Err(13)),
    // fields
    (b"0,0", 1, Err(14)),
    (b"0,0,1,", 1, Err(14)),
    (b"0,0,1,2", 1, Err(14)),
    (b"0,0,1,2,3", 1, Err(14)),
    (b",,", 1, Err(14)),
    (b"0,,1", 1, Err(14)),
    (b"0,0,\r\n", 1, Err(14)),
    (b"0;0;1", 1, Err(14)),
    // quotes
    (b"\"0\",\"0\",\"12\"", 1, Ok(&[(0, 0, 12)])),
    (b"\"0\",0,\"-12\"\r\n", 1, Ok(&[(0, 0, -12)])),
    (b"\"0\",0,\"\"", 1, Err(14)),
    (b"0,0,\"1\"2", 1, Err(13)),
    (b"0,0,\"1\" ", 1, Err(13)),
    (b"0,0, \"1\"", 1, Err(13)),
    (b"0,0,1\"", 1, Err(13)),
    (b"0,0,1\"2\"", 1, Err(13)),
    (b"0,0,\"1", 1, Err(13)),
    (b"0,0,\"", 1, Err(13)),
    (b"\"", 1, Err(13)),
    (b"\"\"", 1, Err(14)),
    (b"\"\"\"", 1, Err(13)),
    (b"\"\"\"\"", 1, Err(14)),
    (b"0,0,\"1\"\"\"", 1, Err(14)),
    (b"0,0,\"1\"\"\"\"", 1, Err(13)),
    (b"0,0,\"1,2\"", 1, Err(14)),
    (b"0,0,\"1\r\n2\"", 1, Err(14)),
    (b"0,0,\"1\n2\r\"", 1, Err(14)),
    (b"0,0,\"1\"\n", 1, Err(13)),
    (b"0,0,\"1\"\r", 1, Err(13)),
    (b"0,0,\"1\"\r\n", 1, Ok(&[(0, 0, 1)])),
    // bytes that are no TEXTDATA
    (b"0,0,\t1", 1, Err(13)),
    (b"0,0,1\x7F", 1, Err(13)),
    (b"0,0,\x80", 1, Err(13)),
    (b"0,0,\0", 1, Err(13)),
    (b"0,0,\"\t\"", 1, Err(13)),
    (b"0,0,\"\x7F\"", 1, Err(13)),
    (b"0,0,\"\xC3\xA9\"", 1, Err(13)),
    (b"0,0,~", 1, Err(14)),
    (b"0,0, 1", 1, Err(14)),
    (b"0,0,!", 1, Err(14)),
    // numbers
    (b"+0,-0,+7", 1, Ok(&[(0, 0, 7)])),
    (b"-0,+0,-0", 1, Ok(&[(0, 0, 0)])),
    (b"000,0002,-0007", 1, Ok(&[(0, 2, -7)])),
    (b"0,0,00000000000000000000000000000000008000000", 1, Ok(&[(0, 0, 8_000_000)])),
    (b"0,0,8000000", 1, Ok(&[(0, 0, 8_000_000)])),
    (b"0,0,-8000000", 1, Ok(&[(0, 0, -8_000_000)])),
    (b"0,0,8000001", 1, Err(14)),
    (b"0,0,-8000001", 1, Err(14)),
    (b"0,0,80000000", 1, Err(14)),
    (b"0,0,4294967296", 1, Err(14)),
    (b"0,0,18446744073709551616", 1, Err(14)),
    (b"0,0,-", 1, Err(14)),
    (b"0,0,+", 1, Err(14)),
    (b"0,0,+-1", 1, Err(14)),
    (b"0,0,1-", 1, Err(14)),
    (b"0,0,1.5", 1, Err(14)),
    (b"0,0,1e3", 1, Err(14)),
    (b"0,0,0x1", 1, Err(14)),
    // joints and axes
    (b"0,0,1", 0, Err(15)),
    (b"1,0,1", 1, Err(15)),
    (b"127,2,1", 128, Ok(&[(127, 2, 1)])),
    (b"128,2,1", 128, Err(15)),
    (b"-1,0,1", 1, Err(15)),
    (b"0,3,1", 1, Err(15)),
    (b"0,-1,1", 1, Err(15)),
    (b"8000000,0,1", 1, Err(15)),
    // which fault decides
    (b"9,9,x", 1, Err(14)),
    (b"9,9,x\n", 1, Err(13)),
    (b"9,9,1\r\n0,0,x", 1, Err(15)),
    (b"0,0,x\r\n9,9,1\r\n\"", 1, Err(14)),
    (b"0,0,1\r\n0,0,x\r\n\"", 1, Err(14)),
    (b"x\"", 1, Err(13)),
];

fn expected(case: &Case, got: Result<Vec<Record>, u32>) {
    if got != case.2.map(|r| r.to_vec()) {
        println!("{:?} with {} joints: {got:?}, not {:?}", String::from_utf8_lossy(case.0), case.1, case.2);
        exit(1)
    }
}

fn by_rendering(text: &[u8], joints: u32) -> Result<Vec<Record>, u32> {
    rendering::read(text, joints).map(|rs| rs.into_iter().map(|r| r.0).collect())
}

fn cases() {
    for case in CASES {
        expected(case, by_rendering(case.0, case.1));
    }
    println!("motor tables: {} cases by the rendering", CASES.len());
}

#[cfg(rattle)]
mod rattle {
    use super::rendering::Record;

    unsafe extern "C" {
        fn katydidzinc_motor_table_read(text: *const u8, text_len: usize, joints: u32) -> u64;
        fn katydidzinc_motor_table_record(text: *const u8, text_len: usize, at: usize, words: *mut u32, words_len: usize) -> usize;
        fn katydidzinc_motor_table_target(word: u32) -> f32;
        fn katydidzinc_motor_table_write(table: *const u32, table_len: usize, joints: u32, out: *mut u8, out_len: usize) -> u64;
    }

    pub fn answer(n: u64) -> Result<usize, u32> {
        if n < 1 << 32 { Ok(n as usize) } else { Err((n - (1 << 32)) as u32) }
    }

    pub fn count(text: &[u8], joints: u32) -> Result<usize, u32> {
        answer(unsafe { katydidzinc_motor_table_read(text.as_ptr(), text.len(), joints) })
    }

    /// The record at a position and where the next one starts.
    pub fn record(text: &[u8], at: usize) -> (Record, usize) {
        let mut words = [0u32; 3];
        let next = unsafe { katydidzinc_motor_table_record(text.as_ptr(), text.len(), at, words.as_mut_ptr(), 3) };
        let n = |k: usize| words[k] as i32 as i64;
        ((n(0), n(1), n(2)), next)
    }

    pub fn target(thousandths: i64) -> f32 {
        unsafe { katydidzinc_motor_table_target(thousandths as i32 as u32) }
    }

    pub fn write(table: &[u32], joints: u32, out: &mut [u8]) -> Result<usize, u32> {
        answer(unsafe { katydidzinc_motor_table_write(table.as_ptr(), table.len(), joints, out.as_mut_ptr(), out.len()) })
    }
}

#[cfg(rattle)]
fn by_rattle(text: &[u8], joints: u32) -> Result<Vec<(Record, usize)>, u32> {
    let n = rattle::count(text, joints)?;
    let (mut at, mut records) = (0, Vec::new());
    for _ in 0..n {
        let (r, next) = rattle::record(text, at);
        records.push((r, next));
        at = next;
    }
    Ok(records)
}

/// A number near the edges of what a table may hold, or well inside.
fn value(d: &mut Draw) -> i64 {
    let size = match d.below(12) {
        0 => 0,
        1 => d.below(10) as i64,
        2 => 8_000_000,
        3 => 7_999_990 + d.below(10) as i64,
        4 => 8_000_001 + d.below(2) as i64 * d.below(1 << 30) as i64,
        _ => d.below(8_000_001) as i64,
    };
    if d.below(2) == 0 { size } else { -size }
}

/// A number in one of its spellings.
fn spell(d: &mut Draw, n: i64) -> Vec<u8> {
    let sign = if n < 0 || n == 0 && d.below(4) == 0 { "-" } else if d.below(4) == 0 { "+" } else { "" };
    let zeros = if d.below(5) == 0 { "0".repeat(d.below(30) as usize) } else { String::new() };
    let text = format!("{sign}{zeros}{}", n.abs());
    if d.below(4) == 0 { format!("\"{text}\"").into_bytes() } else { text.into_bytes() }
}

fn table(d: &mut Draw) -> (Vec<Record>, u32) {
    let joints = if d.below(8) == 0 { d.below(4) as u32 } else { 1 + d.below(128) as u32 };
    let count = match d.below(2000) {
        0 => 4095 + d.below(3) as usize,
        1..=40 => d.below(200) as usize,
        _ => d.below(6) as usize,
    };
    let faulty = d.below(3) == 0;
    let records = (0..count)
        .map(|_| {
            let stray = faulty && d.below(4) == 0;
            let joint = if stray { d.below(260) as i64 - 2 } else { d.below(joints.max(1) as u64) as i64 };
            let axis = if stray { d.below(6) as i64 - 1 } else { d.below(3) as i64 };
            let mut n = value(d);
            if !stray && n.abs() > 8_000_000 {
                n %= 8_000_001;
            }
            (joint, axis, n)
        })
        .collect();
    (records, joints)
}

fn text_of(d: &mut Draw, records: &[Record]) -> Vec<u8> {
    let mut text = Vec::new();
    for (k, r) in records.iter().enumerate() {
        for (i, n) in [r.0, r.1, r.2].into_iter().enumerate() {
            if i > 0 {
                text.push(b',');
            }
            text.extend(spell(d, n));
        }
        if k + 1 < records.len() || d.below(2) == 0 {
            text.extend(b"\r\n");
        }
    }
    text
}

/// A few bytes put in, taken out, changed or copied; the ones that the grammar turns on, mostly.
fn damage(d: &mut Draw, text: &mut Vec<u8>) {
    for _ in 0..1 + d.below(3) {
        let at = d.below(text.len() as u64 + 1) as usize;
        let byte = if d.below(4) == 0 { d.word() as u8 } else { d.pick(b"\"\"\",,\r\n\r\n+-0189 x\t~\x7F") };
        match d.below(6) {
            0 | 1 => text.insert(at, byte),
            2 if at < text.len() => text[at] = byte,
            3 if at < text.len() => {
                text.remove(at);
            }
            4 => text.truncate(at),
            _ => {
                let from = d.below(text.len() as u64 + 1) as usize;
                let end = (from + d.below(12) as usize).min(text.len());
                let part = text[from..end].to_vec();
                text.splice(at..at, part);
            }
        }
    }
}

#[cfg(rattle)]
fn compare(seed: u64, count: u64) {
    for case in CASES {
        expected(case, by_rendering(case.0, case.1));
        expected(case, by_rattle(case.0, case.1).map(|rs| rs.into_iter().map(|r| r.0).collect()));
    }
    let many = |n: usize| b"0,0,1\r\n".repeat(n);
    for (n, want) in [(4096, Ok(4096)), (4097, Err(13))] {
        let got = rattle::count(&many(n), 1);
        if got != want || by_rendering(&many(n), 1).map(|r| r.len()) != want {
            println!("{n} records: {got:?}, not {want:?}");
            exit(1)
        }
    }
    let fail = |what: &str, text: &[u8], joints: u32, ours: String, theirs: String| -> ! {
        println!("{what} of {:?} with {joints} joints: {ours} by the rendering, {theirs} by the library", String::from_utf8_lossy(text));
        exit(1)
    };
    let mut d = Draw::new(seed);
    let mut read = [0u64; 16];
    let mut written = [0u64; 16];
    let mut records = 0;
    for _ in 0..count {
        let (entries, joints) = table(&mut d);
        let mut text = text_of(&mut d, &entries);
        if d.below(2) == 0 {
            damage(&mut d, &mut text);
        }
        let (ours, theirs) = (rendering::read(&text, joints), by_rattle(&text, joints));
        if ours != theirs {
            fail("reading", &text, joints, format!("{ours:?}"), format!("{theirs:?}"));
        }
        match &ours {
            Err(k) => read[*k as usize] += 1,
            Ok(rs) => {
                read[0] += 1;
                for (r, _) in rs {
                    records += 1;
                    let (a, b) = (rendering::target(r.2), rattle::target(r.2));
                    if a.to_bits() != b.to_bits() {
                        fail("target", &text, joints, format!("{:08X}", a.to_bits()), format!("{:08X}", b.to_bits()));
                    }
                }
            }
        }
        // the writer, with room to spare, none or too little; bytes past the text and all bytes otherwise stay
        let words: Vec<u32> = entries.iter().flat_map(|r| [r.0, r.1, r.2]).map(|n| n as i32 as u32).collect();
        let ours = rendering::write(&entries, joints);
        let long = ours.as_ref().map_or(32, |t| t.len());
        let room = (long + d.below(9) as usize).saturating_sub(d.below(6) as usize);
        let before: Vec<u8> = (0..room).map(|_| d.word() as u8).collect();
        let mut out = before.clone();
        let theirs = rattle::write(&words, joints, &mut out);
        let mut want = before;
        if let Ok(t) = &ours {
            if t.len() <= room {
                want[..t.len()].copy_from_slice(t);
            }
        }
        if ours.as_ref().map(|t| t.len()).map_err(|k| *k) != theirs || want != out {
            fail("writing", &want, joints, format!("{:?}", ours.map(|t| t.len())), format!("{theirs:?} {:?}", String::from_utf8_lossy(&out)));
        }
        match &ours {
            Err(k) => written[*k as usize] += 1,
            Ok(t) => {
                written[0] += 1;
                let back = by_rattle(t, joints).map(|rs| rs.into_iter().map(|r| r.0).collect::<Vec<_>>());
                if back.as_ref() != Ok(&entries) {
                    fail("reading back", t, joints, format!("{entries:?}"), format!("{back:?}"));
                }
            }
        }
    }
    println!(
        "motor tables: {} cases, {count} tables from seed {seed}: read {} granted ({records} records), refused 13 {}, 14 {}, 15 {}; written {} granted, refused 13 {}, 14 {}, 15 {}; no difference",
        CASES.len(), read[0], read[13], read[14], read[15], written[0], written[13], written[14], written[15]
    );
    if [13, 14, 15].iter().any(|k| read[*k] == 0 || written[*k] == 0) && count >= 100_000 {
        println!("motor tables: a refusal never came up");
        exit(1)
    }
}

#[cfg(rattle)]
fn bench() {
    let time = |what: &str, bytes: usize, f: &dyn Fn()| {
        let rounds = 200;
        let start = std::time::Instant::now();
        for _ in 0..rounds {
            f();
        }
        let s = start.elapsed().as_secs_f64() / rounds as f64;
        println!("{what}: {bytes} bytes, {:.1} MB/s", bytes as f64 / s / 1e6);
    };
    let mut plain = Vec::new();
    let mut quoted = Vec::new();
    let mut words = Vec::new();
    for k in 0..4096i64 {
        let r = [k % 128, k % 3, if k % 2 == 0 { 8_000_000 - k } else { k - 8_000_000 }];
        words.extend(r.map(|n| n as i32 as u32));
        plain.extend(format!("{},{},{}\r\n", r[0], r[1], r[2]).into_bytes());
        quoted.extend(format!("\"{}\",\"{}\",\"{:+030}\"\r\n", r[0], r[1], r[2]).into_bytes());
    }
    time("read, plain, library", plain.len(), &|| assert_eq!(rattle::count(&plain, 128), Ok(4096)));
    time("read, plain, rendering", plain.len(), &|| assert_eq!(rendering::read(&plain, 128).unwrap().len(), 4096));
    time("read, quoted, library", quoted.len(), &|| assert_eq!(rattle::count(&quoted, 128), Ok(4096)));
    time("read, quoted, rendering", quoted.len(), &|| assert_eq!(rendering::read(&quoted, 128).unwrap().len(), 4096));
    let out = std::cell::RefCell::new(vec![0u8; plain.len()]);
    time("write, library", plain.len(), &|| assert_eq!(rattle::write(&words, 128, &mut out.borrow_mut()), Ok(plain.len())));
    assert_eq!(*out.borrow(), plain);
}

#[cfg(not(rattle))]
fn compare(_: u64, _: u64) {
    println!("motor tables: built without the library");
    exit(1)
}

#[cfg(not(rattle))]
fn bench() {
    compare(0, 0)
}

fn main() {
    let words: Vec<String> = std::env::args().collect();
    let number = |k: usize| words.get(k).and_then(|w| w.parse().ok()).unwrap_or(1);
    match words.get(1).map(String::as_str) {
        Some("cases") => cases(),
        Some("compare") => compare(number(2), number(3)),
        Some("bench") => bench(),
        _ => {
            println!("motor_table cases | compare SEED COUNT | bench");
            exit(1)
        }
    }
}
