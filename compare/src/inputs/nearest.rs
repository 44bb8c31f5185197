//! Calls of nearest: times on a reading, between two and in their middle, before and behind all, at the
//! limits and outside, half of them in series with equal times; rows that are offended by one and two.

use super::cases::{not_above, outside, MOST};
use super::equal_times;
use super::series::TIME_LIMIT;
use crate::call::Case;
use crate::rng::Rng;

pub fn case(rng: &mut Rng) -> Case {
    let timestamps = equal_times::times(rng);
    let time = time(rng, &timestamps);
    let mut case = Case { timestamps, time, ..Case::default() };
    for _ in 0..rng.pick(&[0, 0, 0, 1, 1, 2]) {
        spoil(rng, &mut case);
    }
    case
}

/// On or beside a reading, in the middle of two or just beside it, before the first, behind the last,
/// at the limits, or any within them.
fn time(rng: &mut Rng, timestamps: &[i64]) -> i64 {
    let n = timestamps.len() as u64;
    let place = rng.below(n.max(1)) as usize;
    let near = timestamps.get(place).copied().unwrap_or(0);
    let next = timestamps.iter().copied().find(|time| *time > near).unwrap_or(near);
    let away = rng.pick(&[1, 2, 1000, 1 << 40]);
    let time = match rng.below(10) {
        0 => near,
        1 => near + rng.pick(&[-1, 1]),
        2..=4 => near + (next - near) / 2 + rng.pick(&[-1, 0, 0, 1]),
        5 => rng.between(near, next),
        6 => timestamps.first().map_or(0, |first| first - away),
        7 => timestamps.last().map_or(0, |last| last + away),
        8 => rng.pick(&[-TIME_LIMIT, TIME_LIMIT]),
        _ => rng.between(-TIME_LIMIT, TIME_LIMIT),
    };
    time.clamp(-TIME_LIMIT, TIME_LIMIT)
}

/// Breaks row 3, of a reading or of the asked time, or row 4, or goes to the end of a range.
fn spoil(rng: &mut Rng, case: &mut Case) {
    let n = case.timestamps.len();
    let place = rng.below(n.max(1) as u64) as usize;
    match rng.below(3) {
        0 if n > 0 => case.timestamps[place] = outside(rng, -TIME_LIMIT, TIME_LIMIT),
        1 if place > 0 => case.timestamps[place] = not_above(rng, case.timestamps[place - 1]),
        2 => case.time = outside(rng, -TIME_LIMIT, TIME_LIMIT),
        _ => {}
    }
}

/// As many readings as are allowed, with a time on the first, on the last, between two and behind all,
/// and one more, alone and with all other rows offended.
pub fn longest() -> impl Iterator<Item = Case> {
    let edits: [fn(&mut Case); 6] = [
        |c| c.time = c.timestamps[0],
        |c| c.time = *c.timestamps.last().unwrap(),
        |c| c.time = c.timestamps[c.timestamps.len() / 3] + 1,
        |c| c.time = TIME_LIMIT,
        |c| c.timestamps.push(MOST),
        |c| {
            c.timestamps.push(i64::MIN);
            c.time = i64::MIN;
        },
    ];
    edits.into_iter().map(|edit| {
        let timestamps = (0..MOST).map(|i| 2 * i - MOST).collect();
        let mut case = Case { timestamps, ..Case::default() };
        edit(&mut case);
        case
    })
}
