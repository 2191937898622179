//! The program `study`, run on texts, against the second reading of them.

use crate::draw::Draw;
use crate::study::{Ended, run};
use std::process::{Command, exit};

/// What a run of the program said of one text.
struct Said {
    out: String,
    errors: String,
}

/// Standard output without the words below reactions and the line that names the version, and of the rules' words `rules:` and their numbers alone.
fn without_words(out: &str) -> String {
    let mut text = String::new();
    let mut rules: Option<String> = None;
    let mut notes = false;
    for line in out.split_inclusive('\n') {
        if line.starts_with("A joint's reaction is what") {
            notes = true;
            text.truncate(text.len() - 1);
        }
        if line.starts_with("impulses and bounds in millionths") {
            notes = false;
            rules = Some("rules:".to_string());
        } else if notes {
        } else if let (Some(r), Some(n)) = (&mut rules, line.strip_prefix("  ")) {
            if !line.starts_with("       Definition") {
                r.push_str(&format!(" {}", &n[..3]));
            }
        } else {
            let named = match rules.take() {
                Some(r) => {
                    text.push_str(&r);
                    text.push('\n');
                    line.starts_with("by katydidzinc ")
                }
                None => false,
            };
            if !named {
                text.push_str(line);
            }
        }
    }
    if let Some(r) = rules.take() {
        text.push_str(&r);
        text.push('\n');
    }
    text
}

/// A line of standard error that starts with a file's name, a line and a column: the two numbers and what follows them.
fn message<'a>(name: &str, line: &'a str) -> Option<((usize, usize), &'a str)> {
    let mut parts = line.strip_prefix(name)?.strip_prefix(':')?.splitn(3, ':');
    let place = (parts.next()?.parse().ok()?, parts.next()?.parse().ok()?);
    Some((place, parts.next()?.strip_prefix(' ')?))
}

/// What the program must have said, from how the second reading ended.
fn difference(name: &str, ended: &Ended, said: &Said) -> Option<String> {
    let out = without_words(&said.out);
    if out != ended.out {
        let at = out.bytes().zip(ended.out.bytes()).take_while(|(a, b)| a == b).count();
        let part = |s: &str| String::from_utf8_lossy(&s.as_bytes()[at.min(s.len())..(at + 120).min(s.len())]).into_owned();
        return Some(format!("standard output differs at byte {at}: {:?}, not {:?}", part(&out), part(&ended.out)));
    }
    let not_read = said.errors.lines().find_map(|l| {
        let (place, what) = message(name, l)?;
        (!what.starts_with("warning: ") && !what.starts_with("refused with ")).then_some(place)
    });
    let refused = said.errors.lines().find_map(|l| {
        let rest = message(name, l)?.1.strip_prefix("refused with ")?;
        rest.split(':').next()?.parse::<u64>().ok()
    });
    let expected = match ended.status {
        2 => (Some(ended.place), None),
        1 => (None, Some(ended.refused)),
        // a table of targets that cannot be read: its place is not compared
        3 => (not_read, None),
        _ => (None, None),
    };
    if (not_read, refused) != expected {
        return Some(format!("read or refused: {:?}, not {expected:?}", (not_read, refused)));
    }
    None
}

/// Runs the program on several files, and cuts what it said by file.
fn said(program: &str, names: &[String]) -> Vec<Said> {
    let run = Command::new(program).args(names).output().unwrap();
    if !run.status.success() {
        println!("the program ended with {}", run.status);
        exit(1)
    }
    let cut = |bytes: &[u8]| -> Vec<String> {
        let text = String::from_utf8_lossy(bytes).into_owned();
        if names.len() == 1 {
            return vec![text];
        }
        let mut rest = text.as_str();
        let mut parts = Vec::new();
        for (i, name) in names.iter().enumerate() {
            let head = format!("# {name}\n");
            rest = rest.strip_prefix(head.as_str()).unwrap_or_else(|| {
                println!("no heading for {name}");
                exit(1)
            });
            let end = match names.get(i + 1) {
                Some(next) => rest.find(&format!("# {next}\n")).unwrap_or(rest.len()),
                None => rest.len(),
            };
            parts.push(rest[..end].to_string());
            rest = &rest[end..];
        }
        parts
    };
    let errors = cut(&run.stderr);
    cut(&run.stdout).into_iter().zip(errors).map(|(out, errors)| Said { out, errors }).collect()
}

pub fn compare(arguments: &[String]) {
    let (program, names) = arguments.split_first().unwrap();
    let mut rows = 0;
    for (name, said) in names.iter().zip(said(program, names)) {
        let ended = run(&std::fs::read(name).unwrap());
        if let Some(what) = difference(name, &ended, &said) {
            println!("{name}: {what}");
            exit(1)
        }
        rows += ended.out.lines().count();
    }
    println!("{} studies, {rows} lines: no difference", names.len());
}

pub fn reading(names: &[String]) {
    for name in names {
        println!("# {name}");
        print!("{}", run(&std::fs::read(name).unwrap()).out);
    }
}

/// A copy with bytes changed, cut, doubled or moved.
fn damage(d: &mut Draw, text: &[u8]) -> Vec<u8> {
    let mut t = text.to_vec();
    for _ in 0..1 + d.below(3) {
        if t.is_empty() {
            break;
        }
        let at = d.below(t.len() as u64) as usize;
        let end = (at + 1 + d.below(12) as usize).min(t.len());
        match d.below(7) {
            0 => t[at] ^= 1 << d.below(8),
            1 => t[at] = b" \t\r\n#\"-+.e0179xyabdl"[d.below(20) as usize],
            2 => {
                t.drain(at..end);
            }
            3 => {
                let part = t[at..end].to_vec();
                t.splice(at..at, part);
            }
            4 => t.truncate(at),
            5 => {
                // a line doubled or dropped
                let from = t[..at].iter().rposition(|&b| b == b'\n').map_or(0, |i| i + 1);
                let to = t[at..].iter().position(|&b| b == b'\n').map_or(t.len(), |i| at + i + 1);
                let line: Vec<u8> = t[from..to].to_vec();
                if d.below(2) == 0 {
                    t.splice(from..from, line);
                } else {
                    t.drain(from..to);
                }
            }
            _ => {
                let words: [&[u8]; 24] = [
                    b"inf", b"-inf", b"1e39", b"-0", b"0x7fc00000", b"65", b"8", b"world", b"1e-46", b"repeat 3\n", b"end\n",
                    b"disabled\n", b"place rod 0 0 1e5\n", b"12345678901234567890", b"center_angle 2000\n", b"body b\n",
                    b"masks knee limit angle\n", b"masks pin lock y angle motor angle\n", b"masks ground lock 9\n", b"masks",
                    b"frame warm 1 sweeps 4 substeps 3\n", b"frame sweeps 2 substeps 17\n", b"frame sweeps 65 substeps 0\n", b"frame",
                ];
                let word = words[d.below(24) as usize];
                t.splice(at..at, word.iter().copied());
            }
        }
    }
    t
}

pub fn damaged(program: &str, seed: u64, count: u64, files: &[String]) {
    let texts: Vec<Vec<u8>> = files.iter().map(|f| std::fs::read(f).unwrap()).collect();
    let folder = std::env::temp_dir().join(format!("studies-{}", std::process::id()));
    std::fs::create_dir_all(&folder).unwrap();
    let mut d = Draw::new(seed);
    let mut ends = [0u64; 4];
    let batch = 250;
    let names: Vec<String> = (0..batch).map(|i| folder.join(format!("{i}.study")).display().to_string()).collect();
    let mut left = count;
    while left > 0 {
        let n = left.min(batch) as usize;
        let mut made = Vec::new();
        for name in &names[..n] {
            let whole = &texts[d.below(texts.len() as u64) as usize];
            let mut text = damage(&mut d, whole);
            // A count of turns or rounds that a typist slips into is not run out.
            while run_too_long(&text) {
                text = damage(&mut d, whole);
            }
            std::fs::write(name, &text).unwrap();
            made.push(text);
        }
        for ((name, text), said) in names.iter().zip(&made).zip(said(program, &names[..n])) {
            let ended = run(text);
            ends[ended.status as usize] += 1;
            if let Some(what) = difference(name, &ended, &said) {
                println!("{what}\n---\n{}", String::from_utf8_lossy(text));
                exit(1)
            }
        }
        left -= n as u64;
    }
    std::fs::remove_dir_all(&folder).unwrap();
    println!(
        "{count} damaged studies: {} granted, {} refused, {} not read; no difference",
        ends[0], ends[1], ends[2]
    );
}

/// A `repeat` of more than a thousand turns.
fn run_too_long(text: &[u8]) -> bool {
    String::from_utf8_lossy(text).lines().any(|l| {
        let mut w = l.split_ascii_whitespace();
        w.next() == Some("repeat") && w.next().is_some_and(|n| n.len() > 3)
    })
}
