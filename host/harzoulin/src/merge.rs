//! One series from two logs.

use crate::{MOST, Refusal, lent};

/// The times and the values of the readings that are in at least one of two series, by their times.
/// A reading that is in both is there once; a time with values of different bits is refused. In each of
/// the two series every time is above the one before: here alone are equal times refused. A staleness
/// mark is refused, as any NaN.
///
/// ```
/// let panel = ([0, 60_000, 120_000], [16.5, 16.75, 17.0]);
/// let server = ([60_000, 180_000], [16.75, 18.5]);
/// let (times, values) = harzoulin::merge(&panel.0, &panel.1, &server.0, &server.1)?;
/// assert_eq!(times, [0, 60_000, 120_000, 180_000]);
/// assert_eq!(values, [16.5, 16.75, 17.0, 18.5]);
/// # Ok::<(), harzoulin::Refusal>(())
/// ```
pub fn merge(
    first_timestamps: &[i64],
    first_values: &[f64],
    second_timestamps: &[i64],
    second_values: &[f64],
) -> Result<(Vec<i64>, Vec<f64>), Refusal> {
    // Room for all readings of both, or for the longest series there is, so that 18 is not met. Where
    // it is large it is zeroed memory that the system hands out as it is touched.
    let room = (first_timestamps.len() + second_timestamps.len()).min(MOST);
    let (mut timestamps, mut values) = (vec![0; room], vec![0.0; room]);
    let length = lent::merge(
        first_timestamps,
        first_values,
        second_timestamps,
        second_values,
        &mut timestamps,
        &mut values,
    )?;
    timestamps.truncate(length);
    timestamps.shrink_to_fit();
    values.truncate(length);
    values.shrink_to_fit();
    Ok((timestamps, values))
}
