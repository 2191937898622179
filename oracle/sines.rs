//! Document 02's table of sines and the pair of a typed angle, a rendering of its own: signed
//! sums, wide integers, and the last rounding by the host's conversion from f64.

const QUARTER: i128 = 1686629713;
const TURN: i128 = 6746518852;
const UNIT: i128 = 1 << 30;

/// Entry k of the table.
pub fn entry(k: u32) -> i128 {
    let h = k as i128 * QUARTER / 4096;
    let u = h * h / UNIT;
    let (mut term, mut n, mut sign, mut sum) = (h, 0, 1, 0);
    while term != 0 {
        sum += sign * term;
        term = term * u / UNIT / ((2 * n + 2) * (2 * n + 3));
        sign = -sign;
        n += 1;
    }
    sum
}

/// The sine at a place of a quarter, from 0 to a quarter.
fn sine(table: &[i128], p: i128) -> i128 {
    let (k, rest) = ((4096 * p / QUARTER) as usize, 4096 * p % QUARTER);
    match table.get(k + 1) {
        None => table[k],
        Some(next) => (table[k] * QUARTER + (next - table[k]) * rest).div_euclid(QUARTER),
    }
}

/// (cosine, sine) of an angle, by one table that is made once.
pub fn pair(angle: f32) -> [f32; 2] {
    static TABLE: std::sync::LazyLock<Sines> = std::sync::LazyLock::new(Sines::new);
    TABLE.pair(angle)
}

pub struct Sines(Vec<i128>);

impl Sines {
    pub fn new() -> Sines {
        Sines((0..=4096).map(entry).collect())
    }

    /// (cosine, sine) of an angle; NaN twice for one that is not finite.
    pub fn pair(&self, angle: f32) -> [f32; 2] {
        if !angle.is_finite() {
            return [f32::NAN; 2];
        }
        let place = place(angle);
        let p = place % QUARTER;
        let (c, s) = (sine(&self.0, QUARTER - p), sine(&self.0, p));
        let (cosine, sine) = match place / QUARTER {
            0 => (c, s),
            1 => (-s, c),
            2 => (-c, -s),
            _ => (s, -c),
        };
        let sine = if angle < 0.0 { -sine } else { sine };
        // Below 2^31, so that f64 holds the quotient; 0 is +0.
        [cosine, sine].map(|n| (n as f64 / UNIT as f64) as f32)
    }
}

/// The angle's size in units, rounded down, whole turns off.
fn place(angle: f32) -> i128 {
    let bits = angle.to_bits() & 0x7FFF_FFFF;
    let (field, low) = ((bits >> 23) as i32, (bits & 0x7F_FFFF) as i128);
    let (m, e) = if field == 0 {
        (low, -149)
    } else {
        (low + (1 << 23), field - 150)
    };
    let shift = e + 30;
    if shift <= -24 {
        return 0;
    }
    if shift < 0 {
        return (m >> -shift) % TURN;
    }
    // 2^shift by squares, modulo a turn
    let (mut power, mut square, mut left) = (1i128, 2i128, shift);
    while left > 0 {
        if left % 2 == 1 {
            power = power * square % TURN;
        }
        square = square * square % TURN;
        left /= 2;
    }
    m * power % TURN
}

/// Refusal 12's test of a typed angle; one that is not finite is refusal 6's.
pub fn too_large(angle: f32) -> bool {
    angle < -1024.0 || angle > 1024.0
}
