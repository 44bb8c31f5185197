//! Operations of binary64 on one number or two.

use crate::inputs::floats;
use crate::rng::Rng;
use crate::words::{bits, List};

pub const CASES: &str =
    "op, a, b, result; op 0 sqrt, 1 floor, 2 abs, 3 total_cmp is Less (0 or 1), \
    4 bits, 5 as usize, 6 as i64, 7 usize to f64, 8 i64 to f64, 9 i64 milliseconds to seconds, \
    10 is_nan, 11 is_finite; b is 0 where unused";

pub fn make(rng: &mut Rng, list: &mut List) {
    for op in 0..12 {
        for corner in floats::corners() {
            put(list, op, corner, corner ^ 1 << 63);
        }
        for _ in 0..if op == 0 { 4000 } else { 1000 } {
            let (a, b) = operands(rng, op);
            put(list, op, a, b);
        }
    }
}

/// One case; the order of `total_cmp` is asked of numbers only.
fn put(list: &mut List, op: u64, a: u64, b: u64) {
    let (x, y) = (f64::from_bits(a), f64::from_bits(b));
    if op == 3 && (x.is_nan() || y.is_nan()) {
        return;
    }
    let result = match op {
        0 => bits(x.sqrt()),
        1 => bits(x.floor()),
        2 => bits(x.abs()),
        3 => x.total_cmp(&y).is_lt() as u64,
        4 => bits(x),
        5 => x as usize as u64,
        6 => x as i64 as u64,
        7 => bits(a as usize as f64),
        8 => bits(a as i64 as f64),
        9 => bits(a as i64 as f64 / 1e3),
        10 => x.is_nan() as u64,
        _ => x.is_finite() as u64,
    };
    list.case(&[op, a, if op == 3 { b } else { 0 }, result]);
}

fn operands(rng: &mut Rng, op: u64) -> (u64, u64) {
    match op {
        0 if rng.once_in(2) => (near_square(rng), 0),
        3 if rng.once_in(4) => {
            let a = floats::pattern(rng);
            (a, a.wrapping_add(rng.pick(&[0, 1, u64::MAX, 1 << 63])))
        }
        7..=9 => (integer(rng), 0),
        _ => (floats::pattern(rng), floats::pattern(rng)),
    }
}

/// A number whose root lies next to a number of binary64 or next to the middle of two.
fn near_square(rng: &mut Rng) -> u64 {
    let root = rng.bits() >> 11 | 1 << 52;
    let twice = 2 * root as u128 + rng.below(2) as u128;
    let square = twice * twice;
    let scale = floats::power_of_two(2 * rng.between(-510, 457));
    let near = square as f64 * scale;
    near.to_bits() + rng.below(3) - 1
}

/// Integers of every size, and those around powers of two and multiples of 1000.
fn integer(rng: &mut Rng) -> u64 {
    match rng.below(4) {
        0 => rng.bits() >> rng.below(64),
        1 => (rng.bits() as i64 >> rng.below(64)) as u64,
        2 => (1u64 << rng.below(64)).wrapping_add(rng.below(5)).wrapping_sub(2),
        _ => (1000 * (rng.bits() as i64 >> rng.between(10, 63)) + rng.between(-1, 1)) as u64,
    }
}
