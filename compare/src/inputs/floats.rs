//! Values with the corners of binary64.

use crate::rng::Rng;

pub const NANS: [u64; 6] = [
    0x7ff8000000000000,
    0xfff8000000000000,
    0x7ff0000000000001,
    0x7ff0000000000002,
    0x7fffffffffffffff,
    0xfff0000000000001,
];

/// Zeros, subnormals, the ends of the range, powers of two that end a kind of integer, each with
/// its neighbours and both signs; infinities and NaN.
pub fn corners() -> Vec<u64> {
    let mut middles = vec![1, 0x000fffffffffffff, 0x0010000000000000, f64::MAX.to_bits()];
    let powers =
        [-1022, -538, -537, -1, 0, 1, 2, 10, 31, 32, 51, 52, 53, 62, 63, 64, 511, 512, 1023];
    middles.extend(powers.map(|e| power_of_two(e).to_bits()));
    middles.extend([0.5f64, 1.5, 2.5, 3.0, 10.0, 1000.0, 1e-6, 1e-12, 1e15].map(f64::to_bits));
    let mut all: Vec<u64> = middles.iter().flat_map(|m| [m - 1, *m, m + 1]).collect();
    all.extend(all.clone().iter().map(|b| b | 1 << 63));
    all.extend(NANS);
    all
}

/// 2 to the power e, exact from −1074 to 1023.
pub fn power_of_two(e: i64) -> f64 {
    f64::from_bits(if e < -1022 { 1 << (e + 1074) } else { ((e + 1023) as u64) << 52 })
}

/// Any pattern: corners, small integers and halves, powers of two, squares, random bits.
pub fn pattern(rng: &mut Rng) -> u64 {
    let value = match rng.below(10) {
        0 | 1 => return rng.pick(&corners()),
        2 | 3 => return rng.bits(),
        4 => return rng.bits() & 0x800fffffffffffff,
        5 => rng.between(-4000, 4000) as f64 / 2.0,
        6 => power_of_two(rng.between(-1074, 1023)),
        7 => (rng.bits() >> rng.below(64)) as f64 + 0.5 * rng.below(2) as f64,
        8 => (rng.bits() as i64 >> rng.below(64)) as f64,
        _ => (rng.below(1 << 26) as f64).powi(2),
    };
    let nudge = rng.pick(&[0, 0, 1, u64::MAX]);
    value.to_bits().wrapping_add(nudge)
}

/// A value that is finite.
pub fn finite(rng: &mut Rng) -> f64 {
    loop {
        let value = f64::from_bits(pattern(rng));
        if value.is_finite() {
            return value;
        }
    }
}

/// A parameter of a rollup: often in 0..1, else anything.
pub fn parameter(rng: &mut Rng) -> f64 {
    const ENDS: [f64; 14] = [
        0.0,
        -0.0,
        1.0,
        0.5,
        0.25,
        0.6,
        0.99,
        1e-300,
        -1e-300,
        1.0000000000000002,
        0.9999999999999999,
        f64::NAN,
        -1.0,
        f64::INFINITY,
    ];
    match rng.below(8) {
        0..=3 => rng.unit(),
        4..=6 => rng.pick(&ENDS),
        _ => f64::from_bits(pattern(rng)),
    }
}

/// n values of one kind, all finite: counters with restarts, gauges, equal values, zeros,
/// subnormals, values whose difference overflows, steps around the tolerance of 1e-12, any.
pub fn run(rng: &mut Rng, n: usize) -> Vec<f64> {
    let kind = rng.below(11);
    let mut last = match kind {
        0..=2 => rng.between(0, 1000) as f64,
        3 => rng.between(-1000, 1000) as f64 * rng.unit(),
        4 => rng.pick(&[1.0, 1e12, -7.25, 0.1, 1e300]),
        _ => finite(rng),
    };
    let mut values = vec![];
    for _ in 0..n {
        values.push(last);
        last = next(rng, kind, last);
    }
    values
}

fn next(rng: &mut Rng, kind: u64, last: f64) -> f64 {
    match kind {
        0 => counter(rng, last),
        1 => -counter(rng, -last),
        2 => counter(rng, last) + rng.unit(),
        3 => last + rng.unit() * rng.between(-20, 20) as f64,
        4 => last * (1.0 + near_tolerance(rng)),
        5 => last,
        6 => rng.pick(&[0.0, -0.0, 0.0, -0.0, 1.0, -1.0]),
        7 => f64::from_bits(rng.bits() & 0x800fffffffffffff),
        8 => rng.pick(&[-1.0, -0.75, -0.5, 0.5, 0.75, 1.0]) * f64::MAX,
        9 => rng.between(-3, 3) as f64,
        _ => finite(rng),
    }
}

/// A counter goes on, stands still, restarts from near 0, or falls back by a part.
fn counter(rng: &mut Rng, last: f64) -> f64 {
    match rng.below(8) {
        0 => rng.between(0, 5) as f64,
        1 => (last * rng.pick(&[0.5, 0.85, 0.875, 0.9, 0.95])).round(),
        2 => last,
        _ => last + rng.between(0, 50) as f64,
    }
}

/// What a counter counts by: numbers that stay exact or round, subnormals, and numbers so huge that a few
/// restarts overflow.
const UNITS: [f64; 7] = [
    1.0,
    0.1,
    5e-324,
    4e-323,
    f64::MIN_POSITIVE / 8.0,
    f64::MAX / 20.0,
    // 2 to the power 1018.
    f64::from_bits(0x7f90000000000000),
];

/// n values of a counter that restarts now and then or all the time, all finite. Some count downwards:
/// there each count is a fall, and the correction falls.
pub fn restarts(rng: &mut Rng, n: usize) -> Vec<f64> {
    let unit = rng.pick(&UNITS) * rng.pick(&[1.0, 1.0, -1.0]);
    let restart_in = rng.pick(&[1, 2, 3, 8]);
    let first = unit * rng.between(0, 40) as f64;
    let mut next = restarted(rng, first, unit);
    let mut values = vec![];
    for _ in 0..n {
        let last = next.clamp(f64::MIN, f64::MAX);
        values.push(last);
        let restarts = rng.once_in(restart_in);
        next = if restarts { restarted(rng, last, unit) } else { counted(rng, last, unit) };
    }
    values
}

/// From either zero, from a few units on either side of it, from the other sign; or lower by about an
/// eighth, by any part, by the least part.
fn restarted(rng: &mut Rng, last: f64, unit: f64) -> f64 {
    let without_an_eighth = last * 0.875;
    match rng.below(12) {
        0 => 0.0,
        1 => -0.0,
        2 | 3 => unit * rng.between(-5, 20) as f64,
        4 => -last,
        5 | 6 => without_an_eighth,
        7 => without_an_eighth.next_up(),
        8 => without_an_eighth.next_down(),
        9 => last.next_down(),
        _ => last * rng.pick(&[0.5, 0.75, 0.9, 0.99]),
    }
}

/// On by some units, by the least part, by a jump, or not at all.
fn counted(rng: &mut Rng, last: f64, unit: f64) -> f64 {
    match rng.below(12) {
        0 => last,
        1 => last.next_up(),
        2 => last + unit * 1e6,
        _ => last + unit * rng.between(0, 20) as f64,
    }
}

/// A relative change of about 1e-12, or of a few units in the last place, or none.
fn near_tolerance(rng: &mut Rng) -> f64 {
    let size = rng.pick(&[0.0, 1e-12, 0.99e-12, 1.01e-12, 4.5e-13, 2e-12, 2.3e-16]);
    size * rng.pick(&[1.0, -1.0])
}

/// A short length, now and then 30.
pub fn short(rng: &mut Rng) -> usize {
    match rng.below(40) {
        0 => 30,
        1..=5 => rng.below(13) as usize,
        _ => rng.below(7) as usize,
    }
}

/// A window's values, as `run` makes them; now and then with infinities, which preparing can make.
pub fn window(rng: &mut Rng, n: usize) -> Vec<f64> {
    let mut values = run(rng, n);
    if n > 0 && rng.once_in(12) {
        for _ in 0..rng.between(1, 2) {
            let place = rng.below(n as u64) as usize;
            values[place] = rng.pick(&[f64::INFINITY, f64::NEG_INFINITY]);
        }
    }
    values
}
