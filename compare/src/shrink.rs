//! Makes a case that fails smaller, as long as it still fails.

use crate::call::Case;

type Change = Box<dyn Fn(&Case) -> Case>;

const ROUNDS: usize = 12;

/// With more readings than these every try takes long, and where no shorter case fails the length matters.
const LONG: usize = 1_000_000;

/// The case after every change under which it still fails, gone through some times. A long case is
/// left as it is.
pub fn shrink(mut case: Case, fails: impl Fn(&Case) -> bool) -> Case {
    if case.readings() > LONG {
        return case;
    }
    for _ in 0..ROUNDS {
        for change in changes(&case) {
            let smaller = change(&case);
            if fails(&smaller) {
                case = smaller;
            }
        }
    }
    case
}

/// Fewer readings first, then plainer settings, values and slices.
fn changes(case: &Case) -> Vec<Change> {
    let lengths = case.series().map(|(timestamps, _)| timestamps.len());
    let mut changes: Vec<Change> = vec![];
    for (series, n) in lengths.into_iter().enumerate() {
        for parts in [1, 2, 4, 16, 64] {
            let size = n.div_ceil(parts).max(1);
            for from in (0..n).step_by(size).rev() {
                changes.push(Box::new(move |c| without(c, series, from, from + size)));
            }
        }
    }
    changes.extend(plainer_settings());
    changes.extend(shorter_slices());
    for (series, n) in lengths.into_iter().enumerate() {
        for i in 0..n.min(60) {
            changes.push(on_value(series, i, f64::round));
            for plain in [2.0, 1.0, 0.0] {
                changes.push(on_value(series, i, move |_| plain));
            }
        }
    }
    changes
}

fn without(case: &Case, series: usize, from: usize, to: usize) -> Case {
    let mut c = case.clone();
    let (timestamps, values) = &mut c.series_mut()[series];
    timestamps.drain(from.min(timestamps.len())..to.min(timestamps.len()));
    values.drain(from.min(values.len())..to.min(values.len()));
    c
}

fn on_value(series: usize, i: usize, plain: impl Fn(f64) -> f64 + 'static) -> Change {
    Box::new(move |c| {
        let mut c = c.clone();
        if let Some(value) = c.series_mut()[series].1.get_mut(i) {
            *value = plain(f64::from_bits(*value)).to_bits();
        }
        c
    })
}

fn change(edit: fn(&mut Case)) -> Change {
    Box::new(move |c| {
        let mut c = c.clone();
        edit(&mut c);
        c
    })
}

fn plainer_settings() -> Vec<Change> {
    let edits: [fn(&mut Case); 18] = [
        |c| c.settings.end = c.settings.start,
        |c| c.settings.start = c.settings.start.saturating_add(c.settings.step),
        |c| c.settings.end = c.settings.end.saturating_sub(c.settings.step),
        |c| c.settings.step = 1000,
        |c| c.settings.window = 1000,
        |c| c.settings.window = 0,
        |c| c.settings.may_adjust_window = false,
        |c| c.settings.is_default_rollup = false,
        |c| c.settings.lookback_delta = 0,
        |c| c.settings.min_staleness_interval = 0,
        |c| c.settings.max_points_per_series = 0,
        |c| c.settings.samples_scanned_per_call = 0,
        |c| (c.first, c.second) = (0.5, 0.5),
        |c| c.pre = 0,
        |c| c.limit = c.limit.round(),
        |c| c.limit = 1.0,
        |c| c.limit = 0.0,
        |c| c.time = 0,
    ];
    edits.into_iter().map(change).collect()
}

fn shorter_slices() -> Vec<Change> {
    let edits: [fn(&mut Case); 10] = [
        |c| shorten(&mut c.dst_values),
        |c| shorten(&mut c.prepared),
        |c| shorten(&mut c.remaining),
        |c| shorten(&mut c.work),
        |c| c.lent /= 2,
        |c| c.lent = c.lent.saturating_sub(1),
        |c| (c.lent_times, c.lent_values) = (c.lent_times / 2, c.lent_values / 2),
        |c| c.lent_times = c.lent_times.saturating_sub(1),
        |c| c.lent_values = c.lent_values.saturating_sub(1),
        |c| {
            let first = c.timestamps.first().copied().unwrap_or(0);
            for (timestamps, _) in c.series_mut() {
                timestamps.iter_mut().for_each(|t| *t = t.saturating_sub(first));
            }
            c.settings.start = c.settings.start.saturating_sub(first);
            c.settings.end = c.settings.end.saturating_sub(first);
            c.time = c.time.saturating_sub(first);
        },
    ];
    edits.into_iter().map(change).collect()
}

fn shorten<T>(slice: &mut Vec<T>) {
    slice.pop();
}
