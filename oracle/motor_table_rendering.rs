//! Request R-6 once more in Rust, written from the request and RFC 4180 with no look at the Rattle: a split into fields first,
//! then numbers by i64, and text by the host's formatting.

/// A record's three numbers.
pub type Record = (i64, i64, i64);

/// One field from `at` on: its bytes and the position after it. None where no field is well formed there.
fn field(bytes: &[u8], mut at: usize) -> Option<(Vec<u8>, usize)> {
    let mut content = Vec::new();
    let textdata = |b: u8| matches!(b, 0x20..=0x21 | 0x23..=0x2B | 0x2D..=0x7E);
    if bytes.get(at) != Some(&b'"') {
        while at < bytes.len() && textdata(bytes[at]) {
            content.push(bytes[at]);
            at += 1;
        }
        return Some((content, at));
    }
    at += 1;
    loop {
        match bytes.get(at)? {
            b'"' if bytes.get(at + 1) == Some(&b'"') => {
                content.push(b'"');
                at += 2;
            }
            b'"' => return Some((content, at + 1)),
            &b if textdata(b) || b == b',' || b == b'\r' || b == b'\n' => {
                content.push(b);
                at += 1;
            }
            _ => return None,
        }
    }
}

/// The record from `at` on, and where the next one starts.
fn record(bytes: &[u8], mut at: usize) -> Option<(Vec<Vec<u8>>, usize)> {
    let mut fields = Vec::new();
    loop {
        let (content, after) = field(bytes, at)?;
        fields.push(content);
        match &bytes[after..] {
            [] => return Some((fields, after)),
            [b',', ..] => at = after + 1,
            [b'\r', b'\n', ..] => return Some((fields, after + 2)),
            _ => return None,
        }
    }
}

fn number(field: &[u8]) -> Option<i64> {
    let text = std::str::from_utf8(field).ok()?;
    let (minus, digits) = match text.as_bytes().first()? {
        b'+' => (false, &text[1..]),
        b'-' => (true, &text[1..]),
        _ => (false, text),
    };
    if digits.is_empty() || !digits.bytes().all(|b| b.is_ascii_digit()) {
        return None;
    }
    let digits = digits.trim_start_matches('0');
    if digits.len() > 7 {
        return None;
    }
    let size: i64 = if digits.is_empty() { 0 } else { digits.parse().ok()? };
    (size <= 8_000_000).then_some(if minus { -size } else { size })
}

fn present(joints: u32, r: &Record) -> bool {
    (0..joints as i64).contains(&r.0) && (0..3).contains(&r.1)
}

/// The records, each with the position after it, or the refusal.
pub fn read(bytes: &[u8], joints: u32) -> Result<Vec<(Record, usize)>, u32> {
    let (mut at, mut records) = (0, Vec::new());
    while at < bytes.len() {
        if records.len() == 4096 {
            return Err(13);
        }
        let (fields, next) = record(bytes, at).ok_or(13u32)?;
        let numbers: Vec<_> = fields.iter().map(|f| number(f)).collect();
        let r = match numbers[..] {
            [Some(a), Some(b), Some(c)] => (a, b, c),
            _ => return Err(14),
        };
        if !present(joints, &r) {
            return Err(15);
        }
        records.push((r, next));
        at = next;
    }
    Ok(records)
}

pub fn target(thousandths: i64) -> f32 {
    thousandths as f32 / 1000.0
}

/// The text of a table, or the refusal.
pub fn write(table: &[Record], joints: u32) -> Result<Vec<u8>, u32> {
    let mut text = String::new();
    for (k, r) in table.iter().enumerate() {
        if k == 4096 {
            return Err(13);
        }
        if [r.0, r.1, r.2].iter().any(|n| n.abs() > 8_000_000) {
            return Err(14);
        }
        if !present(joints, r) {
            return Err(15);
        }
        text += &format!("{},{},{}\r\n", r.0, r.1, r.2);
    }
    Ok(text.into_bytes())
}
