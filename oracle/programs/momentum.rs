//! Request R-13 measured: how far one row's step moves the exact momentum sum of its two bodies, and how near that comes to
//! the bound. Every step is the unchanged Rust's, and the Rattle library's beside it.
//!
//! The sum is taken times both inverse masses, v1·m2 + v2·m1, and so is the bound: both are then whole numbers of units of
//! 2^-192, whether the inverse masses are powers of two or not.

use crate::bits::hex;
use crate::draw::Draw;
use crate::library::{Call, Function, Library, oracle};
use crate::wide::{Wide, power, spacing};
use std::cmp::Ordering;
use std::process::exit;

/// An inverse mass from 2^-20 to 2^20 in units of 2^-43.
fn mass_units(m: f32) -> u64 {
    let field = m.to_bits() >> 23;
    ((m.to_bits() & 0x7F_FFFF | 0x80_0000) as u64) << (field - (127 - 20))
}

fn is_power_of_two(m: f32) -> bool {
    m.to_bits() & 0x7F_FFFF == 0
}

/// The power of the lowest digit of a finite number that is not zero.
fn lowest(x: f32) -> i32 {
    let (field, digits) = ((x.to_bits() >> 23 & 0xFF) as i32, x.to_bits() & 0x7F_FFFF);
    match field {
        0 => digits.trailing_zeros() as i32 - 149,
        _ => (digits | 0x80_0000).trailing_zeros() as i32 + field - 150,
    }
}

/// A row, and the velocities of its two bodies.
struct Step {
    row: [f32; 18],
    vels: [f32; 6],
}

fn inverse_mass(d: &mut Draw, powers: bool) -> f32 {
    let k = match d.below(4) {
        0 => d.pick(&[-20, 20, 0]),
        _ => d.below(41) as i32 - 20,
    };
    if powers { power(k) } else { f32::from_bits(power(k.min(19)).to_bits() | 1 + d.below(0x7F_FFFF) as u32) }
}

/// A size from about 2^-150 on: mostly near 1, and of few digits as often as of many.
fn size(d: &mut Draw) -> f32 {
    let k = match d.below(8) {
        0 => -149 + d.below(60) as i32,
        1 => 80 + d.below(47) as i32,
        _ => d.below(60) as i32 - 30,
    };
    let digits = match d.below(4) {
        0 => 0,
        1 => (d.below(16) as u32) << 19,
        2 => (d.below(512) as u32) << 14,
        _ => d.word() as u32 & 0x7F_FFFF,
    };
    let x = if k < -126 { power(k) } else { f32::from_bits(power(k).to_bits() | digits) };
    if d.one_in(2) { x } else { -x }
}

/// A velocity for a body that `a` is added to: so that they cancel, that the sum is a tie, subnormal or large, or of any size.
fn velocity(d: &mut Draw, a: f32) -> f32 {
    match d.below(10) {
        0 => -a,
        1 => d.near((-a).to_bits(), 3),
        2 => d.near((-a).to_bits(), 1 << 12),
        3 | 4 if a != 0.0 && a.is_finite() => {
            // the lowest digit of `a` is half of this one's spacing, or a digit or two above
            let k = lowest(a) + 24 - d.below(3) as i32;
            if !(-126..=127).contains(&k) {
                return d.tame();
            }
            let x = f32::from_bits(power(k).to_bits() | d.word() as u32 & 0x7F_FFFF);
            if d.one_in(2) { x } else { -x }
        }
        5 if a.is_finite() => a * power(d.below(61) as i32 - 30),
        6 => d.pick(&[0.0, -0.0, f32::MIN_POSITIVE, -f32::MIN_POSITIVE, f32::MAX, -f32::MAX]),
        7 => f32::from_bits(d.word() as u32 & 0x807F_FFFF),
        8 => d.finite(),
        _ => d.tame(),
    }
}

fn drawn(d: &mut Draw) -> Step {
    let powers = !d.one_in(16);
    let [m1, m2] = [inverse_mass(d, powers), inverse_mass(d, powers)];
    let turn = d.below(1000) as f32 / 100.0;
    let along = match d.below(8) {
        0 | 1 => [1.0, 0.0],
        2 => [0.0, -1.0],
        3 => [0.6, 0.8],
        4 => [turn.cos(), turn.sin()],
        5 => [d.tame(), d.tame()],
        6 => [size(d), size(d)],
        _ => [1.0, 1.0],
    };
    let mut row = [0.0; 18].map(|_| d.tame());
    let mut vels = [0.0; 6].map(|_| d.tame());
    row[3..5].copy_from_slice(&along);
    row[14..18].copy_from_slice(&[m1, m1, m2, m2]);
    if d.one_in(8) {
        row[7] = d.finite();
        row[8] = d.finite();
    }
    if d.one_in(3) {
        // a row as a lock's is: what it wants decides
        row[9] = 1.0 / (m1 + m2 + row[5] * row[7] + row[6] * row[8]);
        let most = d.tame().abs();
        let bounds = [[-f32::MAX, f32::MAX], [0.0, f32::INFINITY], [-most, most]];
        row[1..3].copy_from_slice(&d.pick(&bounds));
        let scale = power(d.below(41) as i32 - 20);
        vels = vels.map(|v| v * scale);
    } else {
        // equal bounds, so that the change of the impulse is `change` but for rounding, whatever the velocities are
        let change = size(d);
        if d.one_in(2) {
            row[0] = 0.0;
        }
        row[1] = row[0] + change;
        row[2] = row[1];
        let p = row[1] - row[0];
        for axis in 0..2 {
            let q = along[axis] * p;
            vels[axis] = velocity(d, q * m1);
            vels[3 + axis] = velocity(d, -(q * m2));
        }
    }
    Step { row, vels }
}

/// What stands beside the premises: which of them a step does not meet.
enum Meets {
    All,
    NotFinite,
    /// A product is not zero and below 2^-126.
    Small,
    /// An inverse mass is no power of two.
    NoPower,
}

/// One axis of a step, measured.
struct Axis {
    drift: Wide,
    bound: Wide,
    narrow: Wide,
    tied: [bool; 2],
}

/// Whether `new` is `old + a` rounded where that lies midway between two neighbours.
fn tied(old: f32, a: f32, new: f32) -> bool {
    let off = Wide::of(old).plus(Wide::of(a)).minus(Wide::of(new));
    if off.is_zero() {
        return false;
    }
    let next = if off.is_negative() { new.next_down() } else { new.next_up() };
    next.is_finite() && off.plus(off) == Wide::of(next).minus(Wide::of(new))
}

fn measured(step: &Step, new: &[f32], impulse: f32, axis: usize) -> Axis {
    let [m1, m2] = [step.row[14 + axis], step.row[16 + axis]];
    let [n1, n2] = [mass_units(m1), mass_units(m2)];
    let sum = |v: &[f32]| Wide::of(v[axis]).times(n2).plus(Wide::of(v[3 + axis]).times(n1));
    let at = |narrow| spacing(new[axis], narrow).times(n2).plus(spacing(new[3 + axis], narrow).times(n1));
    let drift = sum(new).minus(sum(&step.vels)).size();
    let q = step.row[3 + axis] * impulse;
    Axis {
        drift: drift.plus(drift),
        bound: at(false),
        narrow: at(true),
        tied: [tied(step.vels[axis], q * m1, new[axis]), tied(step.vels[3 + axis], -(q * m2), new[3 + axis])],
    }
}

/// Which premises a step meets, by its own numbers and the impulse's change that it applied.
fn meets(step: &Step, new: &[f32], impulse: f32) -> Meets {
    let linear = [new[0], new[1], new[3], new[4]];
    if linear.iter().any(|v| !v.is_finite()) || step.vels.iter().any(|v| !v.is_finite()) {
        return Meets::NotFinite;
    }
    let products = |axis: usize| [step.row[14 + axis], step.row[16 + axis]].map(|m| (step.row[3 + axis] * impulse, m));
    let all: Vec<(f32, f32)> = (0..2).flat_map(products).collect();
    // the exact product in units of 2^-192, of which 2^66 are 2^-126
    let least = Wide::shifted(1, 66);
    let small = all.iter().any(|(q, m)| *q != 0.0 && Wide::of(*q).size().times(mass_units(*m)).compared(least).is_lt());
    match (all.iter().all(|(_, m)| is_power_of_two(*m)), small) {
        (false, _) => Meets::NoPower,
        (true, true) => Meets::Small,
        (true, false) => Meets::All,
    }
}

#[derive(Default)]
struct Tally {
    drawn: u64,
    met: u64,
    not_finite: u64,
    small: [u64; 2],
    no_power: [u64; 2],
    /// Axes by how much of the bound they use: none, up to a quarter, a half, three quarters, below all, all.
    shares: [u64; 6],
    exceeds_narrow: u64,
    subnormal: u64,
    zero: u64,
    cancelled: u64,
    tied: [u64; 3],
    power: u64,
    largest: u64,
    at_bound: u64,
    least_mass: u64,
    most_mass: u64,
    angular: u64,
}

fn show(step: &Step, new: &[f32]) {
    println!("row  {}", hex(&step.row));
    println!("vels {}", hex(&step.vels));
    println!("left {}", hex(new));
}

/// COUNT steps that meet what R-13 asks, each by the Rust and, where it is there, by the library.
pub fn measure(rattle: Option<Library>, seed: u64, count: u64) {
    let d = &mut Draw::new(seed);
    let mut t = Tally::default();
    while t.met < count {
        let step = drawn(d);
        t.drawn += 1;
        let mut call = Call::new(Function::Step, &[], &[], &step.row);
        call.vels = step.vels.to_vec();
        let mut other = call.clone();
        oracle(&mut call);
        if let Some(rattle) = rattle {
            rattle(&mut other);
            if !call.agrees(&other) {
                println!("momentum: the library's step is another, seed {seed}");
                show(&step, &call.vels);
                println!("and  {}", hex(&other.vels));
                exit(1)
            }
        }
        let new = &call.vels;
        // the row's impulse after the step less that before, as the step itself has it
        let impulse = call.lent[0] - step.row[0];
        let meets = meets(&step, new, impulse);
        if let Meets::NotFinite = meets {
            t.not_finite += 1;
            continue;
        }
        let axes = [0, 1].map(|axis| measured(&step, new, impulse, axis));
        let over = axes.iter().any(|a| a.drift.compared(a.bound).is_gt());
        match meets {
            Meets::NotFinite => continue,
            Meets::Small => {
                t.small[0] += 1;
                t.small[1] += over as u64;
                continue;
            }
            Meets::NoPower => {
                t.no_power[0] += 1;
                t.no_power[1] += over as u64;
                continue;
            }
            Meets::All => {}
        }
        t.met += 1;
        if over {
            println!("momentum: a step drifts further than the bound, seed {seed}");
            show(&step, new);
            exit(1)
        }
        for (i, axis) in axes.iter().enumerate() {
            let share = axis.drift.about() / axis.bound.about();
            t.shares[match axis.drift.compared(axis.bound) {
                _ if axis.drift.is_zero() => 0,
                Ordering::Equal => 5,
                _ if share <= 0.25 => 1,
                _ if share <= 0.5 => 2,
                _ if share <= 0.75 => 3,
                _ => 4,
            }] += 1;
            t.exceeds_narrow += axis.drift.compared(axis.narrow).is_gt() as u64;
            let ties = axis.tied.iter().filter(|x| **x).count();
            if ties > 0 {
                t.tied[ties] += 1;
            }
            let bodies = [(step.vels[i], new[i]), (step.vels[3 + i], new[3 + i])];
            let any = |f: &dyn Fn(f32, f32) -> bool| bodies.iter().any(|(old, new)| f(*old, *new)) as u64;
            t.subnormal += any(&|old, x| x.is_subnormal() && x != old);
            t.zero += any(&|old, x| x == 0.0 && old != 0.0);
            t.cancelled += any(&|old, x| x != 0.0 && x.abs() < old.abs() / 4096.0);
            t.power += any(&|_, x| x.is_normal() && x.to_bits() & 0x7F_FFFF == 0);
            t.largest += any(&|_, x| x.abs() >= power(127));
        }
        t.at_bound += (call.count != 0) as u64;
        t.least_mass += (step.row[14] == power(-20) || step.row[16] == power(-20)) as u64;
        t.most_mass += (step.row[14] == power(20) || step.row[16] == power(20)) as u64;
        t.angular += (!new[2].is_finite() || !new[5].is_finite()) as u64;
    }
    let by = if rattle.is_some() { "the Rust and the library alike" } else { "the Rust alone" };
    println!("{} steps that meet what R-13 asks, of {} drawn, by {by}, none beyond the bound, seed {seed}", t.met, t.drawn);
    let [none, quarter, half, three, below, all] = t.shares;
    println!("their {} axes by the share of the bound: none {none}, up to 1/4 {quarter}, 1/2 {half}, 3/4 {three}, below all {below}, the bound itself {all}", 2 * t.met);
    println!("beyond the sum of the narrower spacings: {} axes", t.exceeds_narrow);
    println!(
        "axes with a new velocity that became subnormal {}, zero {}, smaller by 2^12 {}, a power of two {}, 2^127 or more {}",
        t.subnormal, t.zero, t.cancelled, t.power, t.largest
    );
    println!("axes with one tie {}, with two {}", t.tied[1], t.tied[2]);
    println!(
        "steps at a bound of the impulse {}, with an inverse mass of 2^-20 {}, of 2^20 {}, with an angular velocity that is not finite {}",
        t.at_bound, t.least_mass, t.most_mass, t.angular
    );
    println!(
        "left out: {} not finite; {} with a product below 2^-126, of which {} go beyond the bound; {} with another inverse mass, of which {} do",
        t.not_finite, t.small[0], t.small[1], t.no_power[0], t.no_power[1]
    );
    // Each of these says that the measure would tell: without the premise, or with the narrower spacing, the claim is false.
    let seen = [all, t.exceeds_narrow, t.subnormal, t.cancelled, t.tied[1], t.tied[2], t.small[1], t.no_power[1]];
    if count >= 100_000 && seen.contains(&0) {
        println!("momentum: a kind of step was not met");
        exit(1)
    }
}
