//! Settles that ask for the reach of one estimate each: two readings so far apart have that estimate.

use original::exposed::Settings;

use super::series::TIME_LIMIT;
use crate::call::Case;

/// How far around a bound the estimates go.
const NEAR: i64 = 20;

/// Every estimate from 1 to 100,000, among which are the bounds of the reach's rule, and those around each
/// power of two from there up to 2^51, which is the greatest.
pub fn estimates() -> impl Iterator<Item = i64> {
    let around = (17..=51).flat_map(|power| (1i64 << power) - NEAR..=(1 << power) + NEAR);
    (1..=100_000).chain(around).filter(|estimate| *estimate <= 2 * TIME_LIMIT)
}

/// The window is the step, raised to the reach: both come out as the reach.
pub fn case(estimate: i64) -> Case {
    let timestamps = vec![-TIME_LIMIT, estimate - TIME_LIMIT];
    let settings = Settings { step: 1, may_adjust_window: true, ..Settings::default() };
    Case { timestamps, settings, ..Case::default() }
}
