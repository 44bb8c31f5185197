//! Staleness marks: what is taken out for most rollups, what the other two see, and each refusal.

use std::borrow::Cow;
use std::num::NonZero;

use harzoulin::lent::{self, Slices};
use harzoulin::{
    Figures, MOST, ROLLUPS, Refusal, Rollup, STALE, Settings, Step, Workspace, crossings, is_stale,
    merge, nearest, remaining, settle,
};

/// The one NaN that a figure is, unless it is a mark.
const NAN: u64 = 0x7ff8_0000_0000_0000;
const MARK: u64 = 0x7ff0_0000_0000_0002;

const VALUES: [f64; 6] = [5.0, 9.0, 2.5, 2.5, -1.0, 7.0];
const RISING: [i64; 6] = [1000, 2000, 3000, 4000, 5000, 6000];
/// Readings of one time among them.
const EQUAL: [i64; 6] = [1000, 1000, 1000, 4000, 4000, 6000];

fn bits(values: &[f64]) -> Vec<u64> {
    values.iter().map(|value| value.to_bits()).collect()
}

/// The values with a mark in the place of each reading that has its bit set.
fn marked(pattern: usize) -> Vec<f64> {
    let value = |(place, value): (usize, &f64)| {
        if pattern >> place & 1 == 1 { STALE } else { *value }
    };
    VALUES.iter().enumerate().map(value).collect()
}

/// The readings that are no marks.
fn bare(times: &[i64], values: &[f64]) -> (Vec<i64>, Vec<f64>) {
    let readings = times.iter().copied().zip(values.iter().copied());
    readings.filter(|(_, value)| !is_stale(*value)).unzip()
}

/// Windows of two seconds, one each second, from before the readings to after them.
fn settings() -> Settings {
    Settings { end: 8000, step: 1000, window: 2000, ..Settings::default() }
}

/// Settings of which what is settled depends on the times, and such of which it does not.
fn all_settings() -> [Settings; 3] {
    let adjusted = Settings { window: 0, may_adjust_window: true, ..settings() };
    let staleness = Settings { min_staleness_interval: 1500, window: 1, ..settings() };
    [settings(), adjusted, staleness]
}

/// Every rollup.
fn rollups() -> impl Iterator<Item = Rollup> {
    ROLLUPS.iter().map(|about| match about.parameters.len() {
        0 => about.name.parse().unwrap(),
        1 => format!("{}(0.3)", about.name).parse().unwrap(),
        _ => format!("{}(0.3, 0.6)", about.name).parse().unwrap(),
    })
}

/// All of an answer, to the bit.
type Bits = Result<(Vec<u64>, Vec<i64>, Vec<u64>, u64), Refusal>;

fn all(figures: Result<Figures, Refusal>) -> Bits {
    figures.map(|run| (bits(run.values), run.timestamps.to_vec(), bits(run.prepared), run.count))
}

/// A run, which the settled run and the shared ones have to answer alike.
#[track_caller]
fn run(times: &[i64], values: &[f64], pre: Step, rollup: Rollup, settings: &Settings) -> Bits {
    let mut workspace = Workspace::new();
    let whole = all(workspace.run(times, values, pre, rollup, settings));
    for jobs in [1, 3] {
        let jobs = NonZero::new(jobs).unwrap();
        let shared = workspace.run_shared(times, values, pre, rollup, settings, jobs, &|_| ());
        assert_eq!(all(shared), whole, "{rollup} {pre} {jobs}");
    }
    if let Ok(settled) = settle(&remaining(times, values, rollup), settings) {
        let settled = settings.settled(settled);
        let again = workspace.settled_run(times, values, pre, rollup, &settled);
        assert_eq!(all(again), whole, "{rollup} {pre}");
    }
    whole
}

/// Only the one pattern is the mark.
#[test]
fn the_mark() {
    assert_eq!(STALE.to_bits(), MARK);
    assert!(is_stale(STALE) && STALE.is_nan());
    for other in others() {
        assert!(!is_stale(f64::from_bits(other)), "{other:#x}");
    }
    let seeing = rollups().filter(|rollup| rollup.sees_marks());
    assert_eq!(seeing.collect::<Vec<_>>(), [Rollup::Default, Rollup::StaleSamples]);
    assert_eq!(Rollup::StaleSamples.number(), 49);
}

/// The mark's forms with a sign and with the bit of a quiet NaN, and what is next to it.
fn others() -> [u64; 8] {
    let [sign, quiet] = [1 << 63, 1 << 51];
    [MARK | sign, MARK | quiet, MARK | sign | quiet, NAN, MARK - 1, MARK + 1, MARK - 2, 2]
}

/// Marks first, last, alone, in runs, at equal times and everywhere: for all rollups but two the run
/// is one on the readings that remain.
#[test]
fn they_are_taken_out() {
    for (pattern, times) in (0..1 << 6).flat_map(|pattern| [(pattern, RISING), (pattern, EQUAL)]) {
        let values = marked(pattern);
        let (left, readings) = bare(&times, &values);
        for rollup in rollups().filter(|rollup| !rollup.sees_marks()) {
            assert_eq!(*remaining(&times, &values, rollup), left);
            let settings = all_settings()[(pattern + rollup.number() as usize) % 3];
            for pre in Step::ALL {
                let answer = run(&times, &values, pre, rollup, &settings);
                let expected = run(&left, &readings, pre, rollup, &settings);
                assert_eq!(answer, expected, "{pattern:#b} {rollup} {pre}");
                assert_eq!(answer.unwrap().1, left);
            }
        }
    }
}

/// Nothing is taken out for the other two: the readings are as they were handed in, to the bit.
#[test]
fn they_are_seen() {
    for (pattern, times) in (0..1 << 6).flat_map(|pattern| [(pattern, RISING), (pattern, EQUAL)]) {
        let values = marked(pattern);
        for (settings, rollup) in all_settings()
            .into_iter()
            .flat_map(|settings| [(settings, Rollup::Default), (settings, Rollup::StaleSamples)])
        {
            let settled = settle(&times, &settings).unwrap();
            let (mut figures, mut count) = (vec![], times.len() as u64);
            for place in 0..settled.points {
                let at = place as i64 * settings.step;
                let inside = |time: &i64| *time > at - settled.window && *time <= at;
                let window: Vec<u64> = times
                    .iter()
                    .zip(&values)
                    .filter(|(time, _)| inside(time))
                    .map(|(_, value)| value.to_bits())
                    .collect();
                count += window.len() as u64;
                let marks = window.iter().filter(|value| **value == MARK).count() as f64;
                figures.push(match (window.last(), rollup) {
                    (None, _) => NAN,
                    (Some(last), Rollup::Default) => *last,
                    (Some(_), _) => marks.to_bits(),
                });
            }
            let expected = (figures, times.to_vec(), bits(&values), count);
            assert_eq!(run(&times, &values, Step::None, rollup, &settings), Ok(expected));
        }
    }
}

/// A window of one mark, of none, and of several.
#[test]
fn figures_of_marks() {
    let of = |values: &[f64], rollup| {
        let times = &RISING[..values.len()];
        let settings = Settings { start: 1000, end: 5000, ..settings() };
        run(times, values, Step::None, rollup, &settings).unwrap().0
    };
    let values = [5.0, STALE, STALE];
    assert_eq!(of(&values, Rollup::Default), [5f64.to_bits(), MARK, MARK, MARK, NAN]);
    let counts = [0.0, 1.0, 2.0, 1.0].map(f64::to_bits);
    assert_eq!(of(&values, Rollup::StaleSamples), [&counts[..], &[NAN]].concat());
    assert_eq!(of(&values, Rollup::Max), [&[5f64.to_bits(); 2][..], &[NAN; 3]].concat());
    assert_eq!(of(&[STALE], Rollup::Default), [MARK, MARK, NAN, NAN, NAN]);
}

/// What is settled is settled on what the rollup sees.
#[test]
fn settled_on_the_remaining_times() {
    let times: Vec<i64> = (0..60).map(|second| second * 1000).collect();
    let values: Vec<f64> = (0..60).map(|n| if n % 3 == 0 { 1.5 } else { STALE }).collect();
    let settings =
        Settings { end: 60_000, step: 500, window: 0, may_adjust_window: true, ..settings() };
    let [some, every] = [Rollup::Count, Rollup::Default]
        .map(|rollup| settle(&remaining(&times, &values, rollup), &settings).unwrap());
    assert_eq!(every, settle(&times, &settings).unwrap());
    assert!(some.window > every.window && some.reach > every.reach, "{some:?} {every:?}");
    for rollup in [Rollup::Count, Rollup::Delta, Rollup::Default, Rollup::StaleSamples] {
        assert!(run(&times, &values, Step::None, rollup, &settings).is_ok());
    }
}

/// Without a reading that remains there is none at all.
#[test]
fn nothing_but_marks() {
    for rollup in rollups() {
        let answer = run(&RISING, &[STALE; 6], Step::None, rollup, &settings());
        let nothing = run(&[], &[], Step::None, rollup, &settings());
        assert_eq!(answer == nothing, !rollup.sees_marks(), "{rollup}");
    }
    let absent = run(&RISING, &[STALE; 6], Step::ResetsOnce, Rollup::Absent, &settings());
    assert_eq!(absent, Ok((vec![1f64.to_bits(); 9], vec![], vec![], 0)));
}

/// Times are lent on as they are where there is nothing to take out.
#[test]
fn times_are_copied_where_marks_are_taken_out() {
    let lent = |values: &[f64], rollup| {
        matches!(remaining(&RISING[..values.len()], values, rollup), Cow::Borrowed(_))
    };
    assert!(lent(&VALUES, Rollup::Avg) && lent(&[], Rollup::Avg));
    assert!(lent(&[STALE; 6], Rollup::Default) && lent(&[STALE], Rollup::StaleSamples));
    assert!(!lent(&marked(1), Rollup::Avg));
}

/// Slices of some lengths, which hold sevens, and what a run made of them.
struct Room {
    output: Vec<f64>,
    prepared: Vec<f64>,
    remaining: Vec<i64>,
    work: Vec<f64>,
}

impl Room {
    fn new([output, prepared, remaining, work]: [usize; 4]) -> Room {
        let [output, prepared, work] = [output, prepared, work].map(|length| vec![7.0; length]);
        Room { output, prepared, remaining: vec![7; remaining], work }
    }

    /// The count of a run and of the settled run, which agree.
    #[track_caller]
    fn run(&mut self, values: &[f64], pre: Step, rollup: Rollup) -> Result<u64, Refusal> {
        let (times, settings) = (&RISING[..values.len()], settings());
        let settled = settle(&remaining(times, values, rollup), &settings).unwrap();
        let settled = settings.settled(settled);
        let Room { output, prepared, remaining, work } = self;
        let slices = &mut Slices { output, prepared, remaining, work };
        let count = lent::settled_run(times, values, pre, rollup, &settled, slices);
        assert_eq!(lent::run(times, values, pre, rollup, &settings, slices), count);
        count
    }

    /// Whether the slices are as they were, but for so many first entries of each.
    fn untouched(&self, [output, prepared, remaining, work]: [usize; 4]) -> bool {
        let sevens = |slice: &[f64]| slice.iter().all(|value| *value == 7.0);
        sevens(&self.output[output..])
            && sevens(&self.prepared[prepared..])
            && self.remaining[remaining..].iter().all(|time| *time == 7)
            && sevens(&self.work[work..])
    }
}

/// Beyond the remaining readings the slices are as they were, though they have to be as long as all.
#[test]
fn what_is_written() {
    let values = [STALE, 5.0, STALE, STALE, 9.0];
    for more in [0, 3] {
        let lengths = [9, 5, 5, 10].map(|length| length + more);
        let mut room = Room::new(lengths);
        assert_eq!(room.run(&values, Step::Delta, Rollup::Avg), Ok(2 + 2 + 2));
        assert!(room.untouched([9, 2, 2, 4]));
        assert_eq!(
            (&room.prepared[..2], &room.remaining[..2]),
            (&[4.0, 4.0][..], &[2000, 5000][..])
        );
        assert_eq!(bits(&room.work[..4]), [0; 4]);
        let mut room = Room::new(lengths);
        assert_eq!(room.run(&values, Step::None, Rollup::Default), Ok(5 + 10));
        assert!(room.untouched([9, 5, 5, 10]));
        assert_eq!(
            (bits(&room.prepared[..5]), &room.remaining[..5]),
            (bits(&values), &RISING[..5])
        );
        assert_eq!(bits(&room.work[..10]), [0; 10]);
    }
}

/// Lengths are compared with the series as it is handed in, and a step is looked at after them.
#[test]
fn rows_of_slices() {
    let values = [STALE, 5.0, STALE, STALE];
    for (lengths, refusal) in [
        ([8, 3, 3, 7], Refusal::Output),
        ([9, 3, 4, 7], Refusal::Prepared),
        ([9, 4, 3, 7], Refusal::Prepared),
        ([9, 4, 4, 7], Refusal::Work),
    ] {
        for rollup in [Rollup::Avg, Rollup::Default, Rollup::StaleSamples] {
            let mut room = Room::new(lengths);
            assert_eq!(room.run(&values, Step::None, rollup), Err(refusal), "{lengths:?}");
            assert_eq!(room.run(&values, Step::Delta, rollup), Err(refusal), "{lengths:?}");
            assert!(room.untouched([0; 4]));
        }
    }
    let enough = [9, 4, 4, 8];
    for (pre, rollup) in Step::ALL
        .into_iter()
        .flat_map(|pre| [(pre, Rollup::Default), (pre, Rollup::StaleSamples), (pre, Rollup::Avg)])
    {
        let mut room = Room::new(enough);
        let refused = rollup.sees_marks() && pre != Step::None;
        let answer = room.run(&values, pre, rollup);
        assert_eq!(answer.err(), refused.then_some(Refusal::StepOfMarks), "{pre} {rollup}");
        assert_eq!(room.untouched([0; 4]), refused);
    }
    let refusal = Refusal::StepOfMarks;
    assert_eq!((refusal.number(), refusal.index(), refusal.reading()), (19, 0, None));
    let text =
        "refusal 19: default or stale_samples is asked for with a preparing step other than none";
    assert_eq!(refusal.to_string(), text);
}

/// A workspace has no slices that are too short: it goes from the settings to the step, and needs no
/// memory for it.
#[test]
fn a_step_with_a_rollup_that_sees_them() {
    let refused = |times: &[i64], values: &[f64], pre, rollup, settings: &Settings| {
        let mut workspace = Workspace::new();
        let run = all(workspace.run(times, values, pre, rollup, settings));
        let jobs = NonZero::new(2).unwrap();
        let shared = workspace.run_shared(times, values, pre, rollup, settings, jobs, &|_| ());
        assert_eq!(all(shared), run);
        assert_eq!(workspace.bytes(), 0);
        run.unwrap_err()
    };
    for rollup in [Rollup::Default, Rollup::StaleSamples] {
        for pre in Step::ALL.into_iter().filter(|pre| *pre != Step::None) {
            let bad = Settings { step: 0, ..settings() };
            let many = Settings { max_points_per_series: 1, ..settings() };
            for (settings, refusal) in
                [(settings(), Refusal::StepOfMarks), (bad, Refusal::Step), (many, Refusal::Points)]
            {
                for (times, values) in [(&RISING[..], &VALUES[..]), (&[], &[])] {
                    assert_eq!(refused(times, values, pre, rollup, &settings), refusal);
                }
            }
            let value = refused(&RISING[..2], &[STALE, f64::NAN], pre, rollup, &settings());
            assert_eq!(value, Refusal::Value(1));
        }
    }
    // Also where the slices are long enough from a run before.
    let mut workspace = Workspace::new();
    assert!(workspace.run(&RISING, &VALUES, Step::None, Rollup::Default, &settings()).is_ok());
    let again = workspace.run(&RISING, &VALUES, Step::Delta, Rollup::Default, &settings());
    assert_eq!(again, Err(Refusal::StepOfMarks));
}

/// Every other NaN is refused by the runs, with its place among all readings.
#[test]
fn other_values() {
    let others = others().into_iter().map(f64::from_bits).filter(|value| !value.is_finite());
    for bad in others.chain([f64::INFINITY, f64::NEG_INFINITY]) {
        for place in 0..6 {
            let mut values = [STALE; 6];
            values[place] = bad;
            for rollup in [Rollup::Avg, Rollup::Default, Rollup::StaleSamples] {
                let answer = run(&RISING, &values, Step::None, rollup, &settings());
                assert_eq!(answer, Err(Refusal::Value(place)), "{:#x}", bad.to_bits());
            }
        }
    }
}

/// Rows 1 to 4 and the limit of readings count marks, too.
#[test]
fn rows_of_the_series() {
    let refused = |times: &[i64], values: &[f64]| {
        let [one, other] = [Rollup::Avg, Rollup::Default].map(|rollup| {
            let mut workspace = Workspace::new();
            workspace.run(times, values, Step::None, rollup, &settings()).unwrap_err()
        });
        assert_eq!(one, other);
        one
    };
    let mark = STALE;
    assert_eq!(refused(&RISING, &[mark; 5]), Refusal::Lengths);
    assert_eq!(refused(&vec![0; MOST + 1], &vec![mark; MOST + 1]), Refusal::Readings);
    assert_eq!(refused(&[0, 1, 1 << 51], &[1.0, mark, mark]), Refusal::Time(2));
    assert_eq!(refused(&[-1 << 51, 1, 2], &[mark, mark, 1.0]), Refusal::Time(0));
    assert_eq!(refused(&[5, 6, 5], &[1.0, mark, 1.0]), Refusal::Order(2));
    assert_eq!(refused(&[5, 4, 6], &[1.0, mark, 1.0]), Refusal::Order(1));
}

/// All other calls that read values refuse a mark as any NaN.
#[test]
fn calls_that_take_none() {
    for place in 0..6 {
        let values = marked(1 << place);
        let refusal = Refusal::Value(place);
        for pre in Step::ALL {
            let mut workspace = Workspace::new();
            assert_eq!(workspace.prepare(&RISING, &values, pre), Err(refusal));
            assert_eq!(lent::prepare(&RISING, &values, pre, &mut [0.0; 6]), Err(refusal));
        }
        assert_eq!(crossings(&RISING, &values, 1.0), Err(refusal));
        assert_eq!(merge(&RISING, &values, &RISING, &VALUES), Err(refusal));
        assert_eq!(merge(&RISING, &VALUES, &RISING, &values), Err(refusal));
    }
    assert_eq!(crossings(&[0], &[STALE], f64::NAN), Err(Refusal::Value(0)));
    assert_eq!(nearest(&RISING, 2900), Ok(Some(2)));
}
