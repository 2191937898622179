//! The float leaves: document 01's cases, the checks of the integer leaves against the host, and
//! the comparison with the Rattle library.
//!
//!   leaves cases                document 01's cases
//!   leaves host SEED COUNT      root, report and scalar stand-ins against the host's floats
//!   leaves angle SEED COUNT     the angle's distance from the host's atan2 in f64
//!   leaves compare SEED COUNT   every leaf against the Rattle library (built with RATTLE_LIB)
//!   leaves time SEED            how long an angle takes in that library, by the size of t

mod bits;
mod draw;

use bits::{bits, hex};
use draw::Draw;
use rapier2d::pipeline::leaves as ours;
use std::process::exit;

fn fail(name: &str, input: &[f32], left: String, right: String) -> ! {
    println!("{name} of {}: {left} here, {right} there", hex(input));
    exit(1)
}

fn cases() {
    let f = f32::from_bits;
    let (pi, e) = (0x4049_0FDB, 0x1E3C_E508);
    let mut count = 0;
    let mut expect = |what: &str, got: f32, want: u32| {
        count += 1;
        if bits(got) != want {
            println!("{what}: {:08X}, not {want:08X}", bits(got));
            exit(1)
        }
    };
    let nan = 0x7FC0_0000;

    expect("the number e", 1.0e-20, e);
    for sign in [0, 0x8000_0000] {
        expect("inv at e", ours::inv(f(e | sign)), 0);
        expect("inv below e", ours::inv(f(e - 1 | sign)), 0);
        expect(
            "inv above e",
            ours::inv(f(e + 1 | sign)),
            bits(1.0 / f(e + 1 | sign)),
        );
        expect("inv of zero", ours::inv(f(sign)), 0);
        expect(
            "simd_inv at e",
            ours::simd_inv(f(e | sign)),
            bits(1.0 / f(e | sign)),
        );
        expect("simd_inv below e", ours::simd_inv(f(e - 1 | sign)), 0);
        expect(
            "simd_inv above e",
            ours::simd_inv(f(e + 1 | sign)),
            bits(1.0 / f(e + 1 | sign)),
        );
        expect("simd_inv of zero", ours::simd_inv(f(sign)), 0);
    }
    expect("inv of NaN", ours::inv(f32::NAN), nan);
    expect("simd_inv of NaN", ours::simd_inv(f32::NAN), nan);

    expect("signum(+0)", ours::signum(0.0), 0x3F80_0000);
    expect("signum(-0)", ours::signum(-0.0), 0xBF80_0000);
    expect("signum(NaN)", ours::signum(f32::NAN), nan);
    let difference = ours::smallest_abs_diff_between_angles;
    expect("difference of equal angles", difference(1.0, 1.0), 0);
    // s = ±π exactly: |s| < |c| fails at the tie, and c = s − (±2π) has the other sign.
    expect("difference π", difference(f(pi), 0.0), pi | 0x8000_0000);
    expect("difference −π", difference(-f(pi), 0.0), pi);
    expect("difference with NaN", difference(f32::NAN, 0.0), nan);

    expect("max of zeros", ours::max(0.0, -0.0), 0);
    expect("max of zeros", ours::max(-0.0, 0.0), 0x8000_0000);
    expect("max with NaN", ours::max(f32::NAN, 1.0), 0x3F80_0000);
    expect("max with NaN", ours::max(1.0, f32::NAN), nan);
    expect("min of zeros", ours::min(0.0, -0.0), 0);
    expect("min of zeros", ours::min(-0.0, 0.0), 0x8000_0000);
    expect("min with NaN", ours::min(f32::NAN, 1.0), 0x3F80_0000);
    expect("min with NaN", ours::min(1.0, f32::NAN), nan);
    expect("clamp, low", ours::clamp(-2.0, -1.0, 1.0), 0xBF80_0000);
    expect("clamp, high", ours::clamp(2.0, -1.0, 1.0), 0x3F80_0000);
    expect("clamp, inside", ours::clamp(-0.0, -1.0, 1.0), 0x8000_0000);
    expect(
        "clamp, reversed bounds",
        ours::clamp(0.0, 1.0, -1.0),
        0x3F80_0000,
    );
    expect("clamp of NaN", ours::clamp(f32::NAN, -1.0, 1.0), nan);

    expect("root of 2", ours::sqrt(2.0), 0x3FB5_04F3);
    expect("root of infinity", ours::sqrt(f32::INFINITY), 0x7F80_0000);
    expect("root of NaN", ours::sqrt(f32::NAN), nan);
    expect("angle (0, 1)", ours::angle(0.0, 1.0), 0x3FC9_0FDB);
    expect("angle (1, 1)", ours::angle(1.0, 1.0), 0x3F49_0FDB);
    expect("angle (-1, +0)", ours::angle(-1.0, 0.0), pi);
    expect("angle (-1, -0)", ours::angle(-1.0, -0.0), pi | 0x8000_0000);
    expect("angle (0, 0)", ours::angle(0.0, 0.0), 0);
    let near = f(0x397F_FFFF);
    expect("angle (1, 397FFFFF)", ours::angle(1.0, near), 0x397F_FFFF);
    expect("angle (1, B97FFFFF)", ours::angle(1.0, -near), 0xB97F_FFFF);
    expect("angle (1, 00000001)", ours::angle(1.0, f(1)), 1);
    expect("angle (1, 39800000)", ours::angle(1.0, f(0x3980_0000)), 0x3980_0000);
    expect("angle (-1, 397FFFFF)", ours::angle(-1.0, near), 0x4049_0BDB);
    expect("angle (00000001, 0)", ours::angle(f(1), 0.0), 0);
    expect("angle (inf, 1)", ours::angle(f32::INFINITY, 1.0), nan);
    expect("angle (1, inf)", ours::angle(1.0, f32::INFINITY), nan);
    expect("angle (NaN, 1)", ours::angle(f32::NAN, 1.0), nan);

    let over = 1 << 32;
    for (x, want) in [
        (1.0 / 128.0, 7812),
        (-1.0 / 128.0, -7812),
        (3.0 / 128.0, 23438),
        (-3.0 / 128.0, -23438),
        (f32::from_bits((1.0f32 / 128.0).to_bits() + 1), 7813),
        (f32::from_bits((3.0f32 / 128.0).to_bits() - 1), 23437),
        (0.0, 0),
        (-0.0, 0),
        (1.0, 1_000_000),
        (f32::from_bits(1), 0),
        (2147.4836, 2147483643),
        (f32::from_bits(2147.4836f32.to_bits() + 1), over),
        (f32::MAX, over),
        (f32::INFINITY, over),
        (f32::NEG_INFINITY, over),
        (f32::NAN, 2 * over),
    ] {
        count += 1;
        if ours::micro_report(x) != want {
            println!(
                "report of {}: {}, not {want}",
                hex(&[x]),
                ours::micro_report(x)
            );
            exit(1)
        }
    }
    println!("{count} cases");
}

/// Root and report against the host's, and the scalar stand-ins against what the host computes
/// where Rust's own functions agree with document 01.
fn host(seed: u64, count: u64) {
    let mut d = Draw::new(seed);
    for _ in 0..count {
        let x = d.number();
        if bits(ours::sqrt(x)) != bits(x.sqrt()) {
            fail("root", &[x], hex(&[ours::sqrt(x)]), hex(&[x.sqrt()]))
        }
        if ours::is_finite(x) != x.is_finite() {
            fail(
                "is_finite",
                &[x],
                ours::is_finite(x).to_string(),
                x.is_finite().to_string(),
            )
        }
        if bits(ours::signum(x)) != bits(x.signum()) {
            fail("signum", &[x], hex(&[ours::signum(x)]), hex(&[x.signum()]))
        }
        // f64 holds the 44 bits of an f32's millionths.
        let x = d.impulse();
        let millionths = (x as f64 * 1.0e6).round_ties_even();
        let want = if x.is_nan() {
            1 << 33
        } else if millionths.abs() >= 2147483648.0 {
            1 << 32
        } else {
            millionths as i64
        };
        if ours::micro_report(x) != want {
            fail(
                "report",
                &[x],
                ours::micro_report(x).to_string(),
                want.to_string(),
            )
        }
    }
    println!("{count} roots, signs and reports as the host's");
}

/// How far the recipe lies from the angle, over finite pairs. The host's atan2 runs in f64, so
/// its own error is far below an f32's spacing.
fn angle(seed: u64, count: u64) {
    let mut d = Draw::new(seed);
    // Largest absolute distance; largest distance in spacings of f32, and largest relative distance,
    // where the true angle is at least 2^-12; largest distance in spacings where it is below.
    let mut worst = [(0.0f64, 0.0f32, 0.0f32); 4];
    let mut measured = 0u64;
    let mut not_finite = 0u64;
    while measured < count {
        let (re, im) = if measured % 2 == 0 {
            d.direction()
        } else {
            d.near_zero(None)
        };
        let got = ours::angle(re, im);
        if !re.is_finite() || !im.is_finite() {
            not_finite += 1;
            if !got.is_nan() {
                fail("angle", &[re, im], hex(&[got]), "NaN".into())
            }
            continue;
        }
        measured += 1;
        let want = (im as f64).atan2(re as f64);
        let distance = (got as f64 - want).abs();
        let spacing = |x: f32| {
            let size = x.abs();
            (f32::from_bits(size.to_bits() + 1) - size) as f64
        };
        let mut note = |i: usize, much: f64| {
            if much > worst[i].0 {
                worst[i] = (much, re, im)
            }
        };
        note(0, distance);
        if want.abs() >= 1.0 / 4096.0 {
            note(1, distance / spacing(want as f32));
            note(2, distance / want.abs());
        } else {
            note(3, distance / spacing(want as f32));
        }
        if got.is_sign_negative() != im.is_sign_negative() {
            fail("angle's sign", &[re, im], hex(&[got]), hex(&[im]))
        }
    }
    println!("{measured} finite pairs, {not_finite} others (all NaN)");
    for (i, what) in [
        "absolute",
        "in spacings of f32, angles of 2^-12 and more",
        "relative, angles of 2^-12 and more",
        "in spacings of f32, angles below 2^-12",
    ]
    .iter()
    .enumerate()
    {
        let (much, re, im) = worst[i];
        println!(
            "largest distance {what}: {much:e} at (re, im) = {} (angle {:08X}, atan2 {:e})",
            hex(&[re, im]),
            ours::angle(re, im).to_bits(),
            (im as f64).atan2(re as f64)
        );
    }
}

#[cfg(not(rattle))]
fn compare(_: u64, _: u64) {
    println!("built without RATTLE_LIB: nothing to compare with");
    exit(2)
}

#[cfg(rattle)]
fn compare(seed: u64, count: u64) {
    rattle::compare(seed, count)
}

#[cfg(not(rattle))]
fn time(seed: u64) {
    compare(seed, 0)
}

#[cfg(rattle)]
fn time(seed: u64) {
    rattle::time(seed)
}

#[cfg(rattle)]
mod rattle {
    use super::{Draw, bits, fail, hex, ours};

    type Many = unsafe extern "C" fn(*const f32, usize, *mut f32, usize);

    unsafe extern "C" {
        fn katydidzinc_inv(val: f32) -> f32;
        fn katydidzinc_simd_inv(val: f32) -> f32;
        fn katydidzinc_smallest_abs_diff_between_angles(a: f32, b: f32) -> f32;
        fn katydidzinc_signum(x: f32) -> f32;
        fn katydidzinc_max(a: f32, b: f32) -> f32;
        fn katydidzinc_min(a: f32, b: f32) -> f32;
        fn katydidzinc_clamp(x: f32, low: f32, high: f32) -> f32;
        fn katydidzinc_clamp_side(x: f32, low: f32, high: f32) -> u32;
        // A byte here, so that a value other than 0 and 1 shows as a difference.
        fn katydidzinc_is_finite(x: f32) -> u8;
        fn katydidzinc_sqrt(x: f32) -> f32;
        fn katydidzinc_angle(re: f32, im: f32) -> f32;
        fn katydidzinc_series(w: u64) -> u64;
        fn katydidzinc_series_terms(w: u64) -> u64;
        fn katydidzinc_micro_report(x: f32) -> i64;
        fn katydidzinc_vector_products(x: *const f32, xs: usize, out: *mut f32, outs: usize);
        fn katydidzinc_vector_sums(x: *const f32, xs: usize, out: *mut f32, outs: usize);
        fn katydidzinc_rotation_products(x: *const f32, xs: usize, out: *mut f32, outs: usize);
        fn katydidzinc_rotation_columns(x: *const f32, xs: usize, out: *mut f32, outs: usize);
        fn katydidzinc_pose_product(x: *const f32, xs: usize, out: *mut f32, outs: usize);
    }

    /// One function's tally, printed when it has run.
    fn tally(name: &str, results: u64, nans: u64, infinite: u64, zeros: u64) {
        println!(
            "{name}: {results} results, NaN {:.1} %, infinite {:.1} %, zero {:.1} %",
            100.0 * nans as f64 / results as f64,
            100.0 * infinite as f64 / results as f64,
            100.0 * zeros as f64 / results as f64,
        )
    }

    fn each<const K: usize, const R: usize>(
        name: &str,
        d: &mut Draw,
        count: u64,
        input: impl Fn(&mut Draw) -> [f32; K],
        here: impl Fn(&[f32; K]) -> [f32; R],
        there: impl Fn(&[f32; K]) -> [f32; R],
    ) {
        let (mut nans, mut infinite, mut zeros) = (0, 0, 0);
        for _ in 0..count {
            let x = input(d);
            let (left, right) = (here(&x), there(&x));
            if left.map(bits) != right.map(bits) {
                fail(name, &x, hex(&left), hex(&right))
            }
            for r in left {
                nans += r.is_nan() as u64;
                infinite += r.is_infinite() as u64;
                zeros += (r == 0.0) as u64;
            }
        }
        tally(name, count * R as u64, nans, infinite, zeros)
    }

    fn many<const R: usize>(f: Many) -> impl Fn(&[f32; ours::INPUTS]) -> [f32; R] {
        move |x| {
            // A place past the end shows whether more is written than lent.
            let mut out = [f32::from_bits(0x7FAB_CDEF); 8];
            unsafe { f(x.as_ptr(), x.len(), out.as_mut_ptr(), R) };
            if out[R..].iter().any(|o| o.to_bits() != 0x7FAB_CDEF) {
                fail("a write past the lent slice", x, hex(&out), "none".into())
            }
            core::array::from_fn(|i| out[i])
        }
    }

    /// Nanoseconds an angle, by the size of t. The best of twenty rounds over 4096 pairs.
    pub fn time(seed: u64) {
        let d = &mut Draw::new(seed);
        for exponent in [-30, -20, -16, -13, -12, -11, -8, -4, -2, -1] {
            let pairs: Vec<(f32, f32)> = (0..4096)
                .map(|_| {
                    let re = 1.0 + d.below(1 << 20) as f32 / (1 << 20) as f32;
                    let t = (1.0 + d.below(1 << 20) as f32 / (1 << 20) as f32) * (exponent as f32).exp2();
                    (re, re * t)
                })
                .collect();
            let mut best = f64::INFINITY;
            for _ in 0..20 {
                let start = std::time::Instant::now();
                let mut sum = 0.0;
                for &(re, im) in &pairs {
                    sum += unsafe { katydidzinc_angle(re, im) };
                }
                std::hint::black_box(sum);
                best = best.min(start.elapsed().as_nanos() as f64 / pairs.len() as f64);
            }
            println!("t about 2^{exponent}: {best:.1} ns an angle");
        }
    }

    pub fn compare(seed: u64, count: u64) {
        let d = &mut Draw::new(seed);
        each(
            "inv",
            d,
            count,
            |d| [d.number()],
            |x| [ours::inv(x[0])],
            |x| [unsafe { katydidzinc_inv(x[0]) }],
        );
        each(
            "simd_inv",
            d,
            count,
            |d| [d.number()],
            |x| [ours::simd_inv(x[0])],
            |x| [unsafe { katydidzinc_simd_inv(x[0]) }],
        );
        each(
            "smallest_abs_diff_between_angles",
            d,
            count,
            |d| d.angles().into(),
            |x| [ours::smallest_abs_diff_between_angles(x[0], x[1])],
            |x| [unsafe { katydidzinc_smallest_abs_diff_between_angles(x[0], x[1]) }],
        );
        each(
            "signum",
            d,
            count,
            |d| [d.number()],
            |x| [ours::signum(x[0])],
            |x| [unsafe { katydidzinc_signum(x[0]) }],
        );
        let pair = |d: &mut Draw| {
            let a = d.number();
            [a, d.related(a)]
        };
        each(
            "max",
            d,
            count,
            pair,
            |x| [ours::max(x[0], x[1])],
            |x| [unsafe { katydidzinc_max(x[0], x[1]) }],
        );
        each(
            "min",
            d,
            count,
            pair,
            |x| [ours::min(x[0], x[1])],
            |x| [unsafe { katydidzinc_min(x[0], x[1]) }],
        );
        let triple = |d: &mut Draw| {
            let x = d.number();
            [x, d.related(x), d.related(x)]
        };
        each(
            "clamp",
            d,
            count,
            triple,
            |x| [ours::clamp(x[0], x[1], x[2])],
            |x| [unsafe { katydidzinc_clamp(x[0], x[1], x[2]) }],
        );
        // Inside is 0, low 1 and high 2; a number that equals a bound is inside.
        each(
            "which bound clamp met",
            d,
            count,
            |d| {
                let x = d.number();
                match d.below(4) {
                    0 => [x, x, d.related(x)],
                    1 => [x, d.related(x), x],
                    _ => [x, d.related(x), d.related(x)],
                }
            },
            |x| match x {
                [x, low, _] if x < low => [1.0],
                [x, _, high] if high < x => [2.0],
                _ => [0.0],
            },
            |x| [unsafe { katydidzinc_clamp_side(x[0], x[1], x[2]) } as f32],
        );
        each(
            "is_finite",
            d,
            count,
            |d| [d.number()],
            |x| [ours::is_finite(x[0]) as u8 as f32],
            |x| [unsafe { katydidzinc_is_finite(x[0]) } as f32],
        );
        // A dot with itself has no sign, so few of the inputs are negative.
        let square = |d: &mut Draw| {
            let x = d.number();
            [if d.below(8) == 0 { x } else { x.abs() }]
        };
        each(
            "sqrt",
            d,
            count,
            square,
            |x| [ours::sqrt(x[0])],
            |x| [unsafe { katydidzinc_sqrt(x[0]) }],
        );
        each(
            "angle",
            d,
            count,
            |d| d.direction().into(),
            |x| [ours::angle(x[0], x[1])],
            |x| [unsafe { katydidzinc_angle(x[0], x[1]) }],
        );

        // Pairs on both sides of each condition, and how many meet them all.
        for (about, what) in Draw::NEAR_ZERO.iter().enumerate() {
            let (mut near, mut far) = (0u64, 0u64);
            for _ in 0..count {
                let (re, im) = d.near_zero(Some(about as u64));
                let (left, right) = (ours::angle(re, im), unsafe { katydidzinc_angle(re, im) });
                if bits(left) != bits(right) {
                    fail("angle near zero", &[re, im], hex(&[left]), hex(&[right]))
                }
                let finite = re.is_finite() && im.is_finite();
                let small = im.abs() < re.abs() && im.abs() / re.abs() < 1.0 / 4096.0;
                near += (finite && small && !re.is_sign_negative()) as u64;
                far += (finite && small && re.is_sign_negative()) as u64;
            }
            println!("angle near zero, {what}: {count} pairs, {near} its tangent, {far} but for re's sign bit");
        }

        // How often each number of terms came.
        let mut counts = [0u64; 16];
        for _ in 0..count {
            let w = d.tangent();
            let left = (ours::series(w), ours::series_terms(w));
            let right = unsafe { (katydidzinc_series(w), katydidzinc_series_terms(w)) };
            if left != right {
                println!("series of {w}: {left:?} here, {right:?} there");
                std::process::exit(1)
            }
            counts[left.1 as usize] += 1;
        }
        println!("series: {count} sums and numbers of terms, by number: {counts:?}");

        let (mut nans, mut over, mut zeros, mut halves) = (0, 0, 0, 0);
        for _ in 0..count {
            let x = d.impulse();
            halves += ((x as f64 * 1.0e6).abs().fract() == 0.5) as u64;
            let (left, right) = (ours::micro_report(x), unsafe {
                katydidzinc_micro_report(x)
            });
            if left != right {
                fail("micro_report", &[x], left.to_string(), right.to_string())
            }
            nans += (left == 1 << 33) as u64;
            over += (left == 1 << 32) as u64;
            zeros += (left == 0) as u64;
        }
        tally("micro_report (infinite: Over)", count, nans, over, zeros);
        println!("micro_report: {halves} halves among them");

        // Half the inputs are ordinary throughout, so that most results are numbers; in the other
        // half each number is hostile or related to the one before it.
        let thirteen = |d: &mut Draw| {
            let tame = d.below(2) == 0;
            let mut last = 1.0;
            core::array::from_fn(|_| {
                last = if tame {
                    d.ordinary()
                } else if d.below(2) == 0 {
                    d.related(last)
                } else if d.below(2) == 0 {
                    d.number()
                } else {
                    d.ordinary()
                };
                last
            })
        };
        each(
            "vector_products",
            d,
            count,
            thirteen,
            ours::vector_products,
            many(katydidzinc_vector_products),
        );
        each(
            "vector_sums",
            d,
            count,
            thirteen,
            ours::vector_sums,
            many(katydidzinc_vector_sums),
        );
        each(
            "rotation_products",
            d,
            count,
            thirteen,
            ours::rotation_products,
            many(katydidzinc_rotation_products),
        );
        each(
            "rotation_columns",
            d,
            count,
            thirteen,
            ours::rotation_columns,
            many(katydidzinc_rotation_columns),
        );
        each(
            "pose_product",
            d,
            count,
            thirteen,
            ours::pose_product,
            many(katydidzinc_pose_product),
        );
        println!("no difference, seed {seed}");
    }
}

fn main() {
    let arguments: Vec<String> = std::env::args().skip(1).collect();
    let number = |i: usize, default: u64| match arguments.get(i) {
        None => default,
        Some(text) => text.parse().unwrap_or_else(|_| {
            eprintln!("leaves: {text} is not a number");
            exit(2)
        }),
    };
    let (seed, count) = (number(1, 1), number(2, 1_000_000));
    match arguments.first().map(String::as_str) {
        Some("cases") => cases(),
        Some("host") => host(seed, count),
        Some("angle") => angle(seed, count),
        Some("compare") => compare(seed, count),
        Some("time") => time(seed),
        _ => {
            eprintln!("leaves: cases | host SEED COUNT | angle SEED COUNT | compare SEED COUNT | time SEED");
            exit(2)
        }
    }
}
