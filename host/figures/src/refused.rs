//! What is said of a refusal: the row of the table, and the numbers that met it.

use harzoulin::{Refusal, Rollup, Settings, Step, is_stale, merge};

use crate::failure::Failure;
use crate::series::Series;
use crate::text::excerpt;
use crate::time::Stamp;
use crate::write::Number;

/// The greatest length, limit and magnitude of a time, as the core has it.
const LARGEST: i64 = 1 << 50;

/// The message where figures are refused.
pub fn refused(series: &Series, settings: &Settings, refusal: Refusal) -> Failure {
    message(series, refusal, refusal.reading(), &of_settings(series, settings, refusal))
}

/// The message where a run of a rollup after a step is refused.
pub fn refused_run(
    series: &Series,
    settings: &Settings,
    (pre, rollup): (Step, Rollup),
    refusal: Refusal,
) -> Failure {
    if refusal == Refusal::StepOfMarks {
        let text = format!("{}: {rollup} after {pre}", refusal.sentence());
        return message(series, refusal, None, &text);
    }
    refused(series, settings, refusal)
}

/// The message where the crossings of a limit are refused.
pub fn refused_limit(series: &Series, limit: f64, refusal: Refusal) -> Failure {
    let text = match refusal {
        Refusal::CrossingLimit => format!("{}: {limit}", refusal.sentence()),
        _ => of_values(series, "crossings", refusal),
    };
    message(series, refusal, refusal.reading(), &text)
}

/// The message where the reading nearest to a time is refused: a time with index 0 is the one that is
/// asked for, unless the first reading's own lies outside, which the core looks at before.
pub fn refused_time(series: &Series, asked: Stamp, refusal: Refusal) -> Failure {
    let inside = |time: &i64| (-LARGEST..=LARGEST).contains(time);
    if refusal == Refusal::Time(0) && series.times.first().is_none_or(inside) {
        let text = format!("the asked time lies outside ±2^50 milliseconds: {asked}");
        return message(series, refusal, None, &text);
    }
    message(series, refusal, refusal.reading(), &of_series(series, refusal))
}

/// The message where the merge of two series is refused: of the first that is refused beside an empty
/// one, too, or else of both.
pub fn refused_merge(first: &Series, second: &Series, refusal: Refusal) -> Failure {
    let alone = |series: &&Series| merge(&series.times, &series.values, &[], &[]).is_err();
    if let Some(series) = [first, second].into_iter().find(alone) {
        return message(series, refusal, refusal.reading(), &of_values(series, "merge", refusal));
    }
    let sentence = refusal.sentence();
    if refusal == Refusal::Conflict
        && let Some((here, there)) = conflict(first, second)
    {
        let (time, place) = (Stamp(first.times[here], first.form), second.place(there));
        let [own, other] = [first.values[here], second.values[there]].map(|n| Number(n, None));
        let text = format!("{sentence}: {time} has {own} here and {other} in {place}");
        return message(first, refusal, Some(here), &text);
    }
    let is_new = |time: &&i64| first.times.binary_search(time).is_err();
    let count = first.times.len() + second.times.iter().filter(is_new).count();
    let text = format!("merged with {}, {sentence}: {count}", second.file());
    message(first, refusal, None, &text)
}

/// The readings of the first time that has values of different bits in two series.
fn conflict(first: &Series, second: &Series) -> Option<(usize, usize)> {
    first.times.iter().enumerate().find_map(|(here, time)| {
        let there = second.times.binary_search(time).ok()?;
        let differ = first.values[here].to_bits() != second.values[there].to_bits();
        differ.then_some((here, there))
    })
}

/// The file, the line and the name, where there are such, and the refusal with its numbers.
fn message(series: &Series, refusal: Refusal, reading: Option<usize>, numbers: &str) -> Failure {
    let mut text = reading.map_or(series.file().into(), |reading| series.place(reading));
    if let Some(name) = &series.name {
        text += &format!(": series {}", excerpt(name));
    }
    text += &format!(": refusal {}", refusal.number());
    if let Some(reading) = reading {
        text += &format!(" at reading {}", reading + 1);
    }
    Failure::Input(format!("{text}: {numbers}"))
}

/// The sentence of a refusal, with the numbers of the series that met it.
fn of_series(series: &Series, refusal: Refusal) -> String {
    let time = |place: usize| Stamp(series.times[place], series.form);
    let sentence = refusal.sentence();
    match refusal {
        Refusal::Readings => format!("{sentence}: {}", series.times.len()),
        Refusal::Time(place) => format!("{sentence}: {}", time(place)),
        Refusal::Order(place) | Refusal::NotRising(place) => {
            format!("{sentence}: {} after {}", time(place), time(place - 1))
        }
        Refusal::Value(place) => format!("{sentence}: {}", series.values[place]),
        _ => sentence.into(),
    }
}

/// The same of a call that takes no staleness marks.
fn of_values(series: &Series, call: &str, refusal: Refusal) -> String {
    match refusal {
        Refusal::Value(place) if is_stale(series.values[place]) => {
            format!("the value is a staleness mark, which cannot be handed to {call}")
        }
        _ => of_series(series, refusal),
    }
}

/// The sentence of a refusal, with the numbers of the series or of the settings that met it.
fn of_settings(series: &Series, s: &Settings, refusal: Refusal) -> String {
    let points = || (s.end - s.start) / s.step + 1;
    let sentence = refusal.sentence();
    match refusal {
        Refusal::Step => format!("{sentence}: {}", s.step),
        Refusal::Span => format!("{sentence}: start {}, end {}", s.start, s.end),
        Refusal::Window => {
            format!("the window lies outside 0 to 2^50 milliseconds: {}", s.window)
        }
        Refusal::Limits => limits(s),
        Refusal::Points => format!("{sentence}: {}, limit {}", points(), s.max_points_per_series),
        Refusal::Grid => format!("{sentence}: {}", points()),
        _ => of_series(series, refusal),
    }
}

/// Which of the limits is refused.
fn limits(settings: &Settings) -> String {
    let limits = [
        ("lookback", " milliseconds", settings.lookback_delta),
        ("staleness", " milliseconds", settings.min_staleness_interval),
        ("point limit", "", settings.max_points_per_series),
    ];
    match limits.into_iter().find(|(.., limit)| !(0..=LARGEST).contains(limit)) {
        Some((name, unit, limit)) => format!("the {name} lies outside 0 to 2^50{unit}: {limit}"),
        None => {
            let number = settings.samples_scanned_per_call;
            format!("the per-call number is over 65,535: {number}")
        }
    }
}
