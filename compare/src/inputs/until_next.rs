//! What is done to accepted runs of until_next: readings and output times go to the limits.

use original::exposed::Settings;

use super::series::{self, TIME_LIMIT};
use crate::call::Case;
use crate::rng::Rng;

/// Now and then readings move to the limits, and the grid to either. The run is still accepted.
pub fn to_the_limits(rng: &mut Rng, case: &mut Case) {
    series::to_the_limits(rng, &mut case.timestamps);
    if rng.once_in(4) {
        grid_to_a_limit(rng, &mut case.settings);
    }
}

/// As many output times as before, the first at the lower limit or the last at the upper, or just
/// inside.
fn grid_to_a_limit(rng: &mut Rng, s: &mut Settings) {
    let span = (s.end - s.start) / s.step * s.step;
    let inside = rng.below(2) as i64;
    let start = rng.pick(&[-TIME_LIMIT + inside, TIME_LIMIT - inside - span]);
    s.start = start.clamp(-TIME_LIMIT, TIME_LIMIT - span);
    s.end = s.start + span;
}
