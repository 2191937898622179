//! The stand-ins of document 01 on single numbers, shared by the stand-in crates beside this file.
//! Root, angle and micro report are integer work: no hardware float takes part, save the one
//! division that the angle's recipe asks for.
#![no_std]

/// Over in the micro report's single-number form.
pub const OVER: i64 = 1 << 32;
/// NaN in the micro report's single-number form.
pub const NOT_A_NUMBER: i64 = 1 << 33;

const SIGN: u32 = 0x8000_0000;
const INFINITY: u32 = 0x7F80_0000;
const NAN: u32 = 0x7FC0_0000;

pub fn max(a: f32, b: f32) -> f32 {
    if a >= b { a } else { b }
}

pub fn min(a: f32, b: f32) -> f32 {
    if a <= b { a } else { b }
}

/// Reversed bounds are no error: low wins.
pub fn clamp(x: f32, low: f32, high: f32) -> f32 {
    if x < low {
        low
    } else if x > high {
        high
    } else {
        x
    }
}

/// The sign bit decides, so +0 gives 1 and −0 gives −1.
pub fn signum(x: f32) -> f32 {
    if is_nan(x) {
        f32::from_bits(NAN)
    } else if x.to_bits() & SIGN != 0 {
        -1.0
    } else {
        1.0
    }
}

/// The size of x with the other's sign bit; a sign copied from NaN is plus (request R-14).
pub fn copysign(x: f32, sign: f32) -> f32 {
    let sign = if is_nan(sign) { 0 } else { sign.to_bits() & SIGN };
    f32::from_bits(x.to_bits() & !SIGN | sign)
}

pub fn abs(x: f32) -> f32 {
    f32::from_bits(x.to_bits() & !SIGN)
}

pub fn is_nan(x: f32) -> bool {
    x.to_bits() & !SIGN > INFINITY
}

pub fn is_finite(x: f32) -> bool {
    x.to_bits() & !SIGN < INFINITY
}

/// A finite number's size as m·2^e.
fn parts(x: f32) -> (u128, i32) {
    let bits = x.to_bits() & !SIGN;
    let (field, low) = (bits >> 23, bits & 0x7F_FFFF);
    if field == 0 {
        (low as u128, -149)
    } else {
        ((low | 0x80_0000) as u128, field as i32 - 150)
    }
}

/// q·2^e, plus something smaller than 2^e where `more`, to the nearest f32, ties to even.
/// Only for results in the normal range or zero; q has more than 25 bits where `more`.
fn nearest(q: u128, e: i32, more: bool) -> f32 {
    if q == 0 {
        return 0.0;
    }
    let width = 128 - q.leading_zeros() as i32;
    let (mut m, mut exponent);
    if width <= 24 {
        m = q << (24 - width);
        exponent = e - (24 - width);
    } else {
        let cut = width - 24;
        let rest = q & ((1 << cut) - 1);
        let half = 1u128 << (cut - 1);
        m = q >> cut;
        exponent = e + cut;
        if rest > half || rest == half && (more || m & 1 == 1) {
            m += 1;
        }
        if m == 1 << 24 {
            m >>= 1;
            exponent += 1;
        }
    }
    f32::from_bits(((exponent + 150) as u32) << 23 | (m as u32 & 0x7F_FFFF))
}

/// The largest r with r² ≤ n, one bit at a time.
fn floor_root(n: u128) -> u128 {
    let mut r = 0u128;
    let mut bit = 1u128 << 63;
    while bit != 0 {
        let next = r | bit;
        if next * next <= n {
            r = next;
        }
        bit >>= 1;
    }
    r
}

/// The correctly rounded root. Infinity and NaN stay; below zero it is IEEE's: −0 stays, a
/// negative number has none.
pub fn sqrt(x: f32) -> f32 {
    let bits = x.to_bits();
    if is_nan(x) {
        return f32::from_bits(NAN);
    }
    if bits & !SIGN == 0 || bits == INFINITY {
        return x;
    }
    if bits & SIGN != 0 {
        return f32::from_bits(NAN);
    }
    let (m, e) = parts(x);
    // Enough bits below the point, and an even exponent.
    let shift = if e % 2 == 0 { 80 } else { 81 };
    let n = m << shift;
    let r = floor_root(n);
    nearest(r, (e - shift) / 2, r * r != n)
}

/// The powers p0 to p14 of the recipe, w in units of 2^-30 and at most 2^30.
fn powers(w: u64) -> [u64; 15] {
    let u = (w * w) >> 30;
    let mut p = [w; 15];
    for k in 1..15 {
        p[k] = (p[k - 1] * u) >> 30;
    }
    p
}

/// The sum S(w), over all fifteen powers.
pub fn series(w: u64) -> u64 {
    let mut sum = 0i64;
    for (k, p) in (0..).zip(powers(w)) {
        let term = (p / (2 * k + 1)) as i64;
        if k % 2 == 0 {
            sum += term;
        } else {
            sum -= term;
        }
    }
    sum as u64
}

/// How many of the fifteen powers are not zero.
pub fn series_terms(w: u64) -> u64 {
    powers(w).iter().filter(|&&p| p != 0).count() as u64
}

/// The angle of (re, im), by document 01's recipe, and near zero by request R-7.
pub fn angle(re: f32, im: f32) -> f32 {
    if !is_finite(re) || !is_finite(im) {
        return f32::from_bits(NAN);
    }
    let (x, y) = (abs(re), abs(im));
    let (smaller, larger) = if y > x { (x, y) } else { (y, x) };
    let t = if larger == 0.0 { 0.0 } else { smaller / larger };
    // Request R-7: near zero the angle is t itself. 39800000 is 2^-12.
    if re.to_bits() & SIGN == 0 && y < x && t.to_bits() < 0x3980_0000 {
        return f32::from_bits(t.to_bits() | im.to_bits() & SIGN);
    }
    let (m, e) = parts(t);
    // t ≤ 1, so e ≤ −23 and t·2^30 = m·2^(e + 30) with e + 30 ≤ 7.
    let units = if e + 30 >= 0 {
        (m << (e + 30)) as u64
    } else if e + 30 <= -128 {
        0
    } else {
        (m >> -(e + 30)) as u64
    };
    const ONE: u64 = 1 << 30;
    let mut a = if units < ONE / 2 {
        series(units)
    } else {
        843314857 - series((((ONE - units) as u128 * ONE as u128) / (ONE + units) as u128) as u64)
    };
    if y > x {
        a = 1686629713 - a;
    }
    if re.to_bits() & SIGN != 0 {
        a = 3373259426 - a;
    }
    f32::from_bits(nearest(a as u128, -30, false).to_bits() | im.to_bits() & SIGN)
}

/// Millionths of x, half to even (request R-3), as one number: the whole number, `OVER` or
/// `NOT_A_NUMBER`.
pub fn micro_report(x: f32) -> i64 {
    if is_nan(x) {
        return NOT_A_NUMBER;
    }
    if !is_finite(x) {
        return OVER;
    }
    let (m, e) = parts(x);
    let n = m * 1_000_000;
    // n < 2^44: a shift left by 32 or more of a nonzero n is past 2^31, and a shift right by 46
    // or more leaves less than a half.
    let size = if e >= 32 {
        return OVER;
    } else if e >= 0 {
        n << e
    } else if e > -46 {
        let (low, rest, half) = (n >> -e, n & ((1 << -e) - 1), 1 << (-e - 1));
        low + (rest > half || rest == half && low & 1 == 1) as u128
    } else {
        0
    };
    if size >= 1 << 31 {
        OVER
    } else if x.to_bits() & SIGN != 0 {
        -(size as i64)
    } else {
        size as i64
    }
}
