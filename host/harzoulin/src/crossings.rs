//! Where the values go over a limit, and back under it.

use crate::{Refusal, lent};

/// The index of each reading that lies on the other side of a limit from the one before it, in order:
/// below is less than the limit, above is all else. A staleness mark is refused, as any NaN.
///
/// ```
/// let (timestamps, values) = ([0, 60_000, 120_000, 180_000], [39.0, 40.0, 41.0, 12.0]);
/// assert_eq!(harzoulin::crossings(&timestamps, &values, 40.0)?, [1, 3]);
/// # Ok::<(), harzoulin::Refusal>(())
/// ```
pub fn crossings(timestamps: &[i64], values: &[f64], limit: f64) -> Result<Vec<usize>, Refusal> {
    // Room for a crossing at every reading, so that 16 is not met. Where it is large it is zeroed
    // memory that the system hands out as it is touched, and the core touches what it writes.
    let mut indexes = vec![0; values.len()];
    let count = lent::crossings(timestamps, values, limit, &mut indexes)?;
    indexes.truncate(count);
    indexes.shrink_to_fit();
    Ok(indexes.into_iter().map(|index| index as usize).collect())
}
