//! Staleness marks: what the request states of them, asked of the judge; and whether the generated calls reach what
//! they are to reach.

use std::collections::{BTreeMap, BTreeSet};

use compare::call::{Call, Case, Outcome, UNSET};
use compare::inputs::cases;
use compare::inputs::marks::LIKE_MARKS;
use compare::judge::{self, Asked, ROLLUPS, SEE_MARKS};
use compare::model::{self, is_mark, MARK};
use compare::rng::Rng;
use compare::window::{repeats, Window};
use compare::words::{all_bits, bits};
use compare::{oracle, rows};
use original::exposed::{self, Settings};

const RUNS: [Call; 2] = [Call::Run, Call::SettledRun];
const DEFAULT: u32 = 32;
const STALE_SAMPLES: u32 = 49;
const NAN: f64 = f64::NAN;

/// A value of no mark, as bits.
fn v(value: f64) -> u64 {
    value.to_bits()
}

/// What any call may be handed, with one entry more in each slice than is needed.
fn case_of(timestamps: &[i64], values: &[u64], settings: Settings) -> Case {
    let series = (timestamps.to_vec(), vec![0.0; timestamps.len()]);
    Case { values: values.to_vec(), ..cases::for_any_call(&series, settings) }
}

fn grid(start: i64, end: i64, step: i64, window: i64) -> Settings {
    Settings { start, end, step, window, ..Settings::default() }
}

fn asking(rollup: u32, case: &Case) -> Case {
    Case { rollup, ..case.clone() }
}

/// Refused, with nothing written.
fn refuses(call: Call, case: &Case, number: u64, index: u64) {
    let outcome = oracle::outcome(call, case);
    assert_eq!((outcome.number, outcome.index), (number, index));
    let before = Outcome { number, index, ..Outcome::before(case) };
    assert_eq!(outcome.against(&before), [""; 0]);
}

fn accepts(call: Call, case: &Case) -> Outcome {
    let outcome = oracle::outcome(call, case);
    assert_eq!((outcome.number, outcome.index), (0, 0));
    outcome
}

#[test]
fn one_pattern_is_the_mark() {
    assert_eq!(MARK, exposed::STALE_NAN_BITS);
    for pattern in LIKE_MARKS.into_iter().chain([MARK, MARK ^ 1 << 63, MARK | 1 << 51, 0, 2]) {
        assert_eq!(is_mark(pattern), pattern == 0x7ff0000000000002);
        assert_eq!(is_mark(pattern), exposed::is_stale_nan(f64::from_bits(pattern)));
    }
    assert!(!LIKE_MARKS.contains(&MARK));
}

#[test]
fn marks_are_taken_out_with_their_times() {
    let remaining = |values: &[u64]| model::remaining((&[1, 2, 2, 4], values));
    assert_eq!(remaining(&[7, MARK, 8, MARK]), (vec![1, 2], vec![7, 8]));
    assert_eq!(remaining(&[MARK, MARK, 8, 9]), (vec![2, 4], vec![8, 9]));
    assert_eq!(remaining(&[7, 8, MARK, 9]), (vec![1, 2, 4], vec![7, 8, 9]));
    assert_eq!(remaining(&[MARK; 4]), (vec![], vec![]));
    assert_eq!(remaining(&[6, 7, 8, 9]), (vec![1, 2, 2, 4], vec![6, 7, 8, 9]));
}

/// The two runs let the mark pass, and nothing like it; the other calls that read values refuse it.
#[test]
fn row_5() {
    let settings = || grid(0, 3, 1, 1);
    let of = |values: &[u64]| case_of(&[0, 1, 2, 3], values, settings());
    for call in RUNS {
        for rollup in [0, DEFAULT, STALE_SAMPLES] {
            accepts(call, &asking(rollup, &of(&[v(1.0), MARK, MARK, v(2.0)])));
            accepts(call, &asking(rollup, &of(&[MARK; 4])));
            for pattern in LIKE_MARKS {
                let values =
                    [[pattern, MARK, MARK, 0], [MARK, 0, pattern, MARK], [MARK, 0, MARK, pattern]];
                for (values, index) in values.iter().zip([0, 2, 3]) {
                    refuses(call, &asking(rollup, &of(values)), 5, index);
                }
                refuses(call, &asking(rollup, &of(&[MARK, pattern, MARK, pattern])), 5, 1);
            }
        }
    }
    for (values, index) in [([MARK, 0, 0, 0], 0), ([0, 0, MARK, MARK], 2), ([0, 0, 0, MARK], 3)] {
        for call in [Call::Prepare, Call::Crossings, Call::Merge] {
            refuses(call, &of(&values), 5, index);
        }
        let first = case_of(&[7], &[0], settings());
        let second =
            Case { second_timestamps: vec![0, 1, 2, 3], second_values: values.to_vec(), ..first };
        refuses(Call::Merge, &second, 5, index);
    }
}

/// A mark and its time count as one of the series, as it is handed in.
#[test]
fn rows_1_to_4() {
    let limit = 1 << 50;
    for call in RUNS {
        for rollup in [0, DEFAULT, STALE_SAMPLES] {
            let of = |timestamps: &[i64], values: &[u64]| {
                asking(rollup, &case_of(timestamps, values, grid(0, 0, 1, 1)))
            };
            refuses(call, &of(&[0, 1], &[v(1.0), MARK, MARK]), 1, 0);
            refuses(call, &of(&[0, 1, 2], &[v(1.0), MARK]), 1, 0);
            refuses(call, &of(&[0, 1, limit + 1], &[0, 0, MARK]), 3, 2);
            refuses(call, &of(&[0, 5, 4, 6], &[0, 0, MARK, 0]), 4, 2);
            refuses(call, &of(&[0, 5, 4, 6], &[0, MARK, 0, 0]), 4, 2);
            refuses(call, &of(&[0, 5, 4, 6], &[MARK; 4]), 4, 2);
            accepts(call, &of(&[0, 5, 5, 6], &[0, MARK, 0, MARK]));
        }
    }
}

/// So many marks that the remaining readings are few.
#[test]
fn the_limit_of_readings() {
    let n = rows::MOST as usize + 1;
    let mut case = Case {
        timestamps: (0..n as i64).collect(),
        values: vec![MARK; n],
        settings: grid(0, 0, 1, 1),
        reach: 1,
        ..Case::default()
    };
    for call in RUNS {
        assert_eq!(rows::refusal(call, &case), Some((2, 0)));
    }
    case.timestamps.pop();
    case.values.pop();
    for call in RUNS {
        assert_eq!(rows::refusal(call, &case), Some((12, 0)));
    }
}

/// The slices go by the series as it is handed in, and 19 comes last.
#[test]
fn rows_12_to_19() {
    let readings = [v(1.0), MARK, v(2.0), MARK];
    for call in RUNS {
        for rollup in [0, DEFAULT, STALE_SAMPLES] {
            let case = asking(rollup, &case_of(&[0, 1, 2, 3], &readings, grid(0, 3, 1, 1)));
            let lent = |output, prepared, remaining, work| {
                let mut c = case.clone();
                c.dst_values.truncate(output);
                c.prepared.truncate(prepared);
                c.remaining.truncate(remaining);
                c.work.truncate(work);
                c
            };
            accepts(call, &lent(4, 4, 4, 8));
            let short = [(3, 4, 4, 8, 12), (4, 3, 4, 8, 13), (4, 4, 3, 8, 13), (4, 4, 4, 7, 14)];
            // Room for the remaining two.
            let few = [(4, 2, 4, 8, 13), (4, 4, 2, 8, 13), (4, 4, 4, 4, 14), (4, 2, 2, 4, 13)];
            for (output, prepared, remaining, work, number) in short.into_iter().chain(few) {
                let mut case = lent(output, prepared, remaining, work);
                refuses(call, &case, number, 0);
                case.pre = 1;
                refuses(call, &case, number, 0);
            }
        }
    }
}

/// Default and stale_samples alone, with any step, with marks and without.
#[test]
fn row_19() {
    for values in [vec![v(1.0); 3], vec![v(1.0), MARK, MARK], vec![MARK; 3], vec![]] {
        let timestamps: Vec<i64> = (0..values.len() as i64).collect();
        for rollup in 0..ROLLUPS.len() as u32 {
            for pre in 0..6 {
                let case = case_of(&timestamps, &values, grid(0, 3, 1, 1));
                let case = Case { pre, rollup, ..case };
                let sees_marks = ["default", "stale_samples"].contains(&ROLLUPS[rollup as usize]);
                for call in RUNS {
                    match sees_marks && pre > 0 {
                        true => refuses(call, &case, 19, 0),
                        false => drop(accepts(call, &case)),
                    }
                }
            }
        }
    }
    assert_eq!(SEE_MARKS, [DEFAULT as usize, STALE_SAMPLES as usize]);
}

const TIMES: [i64; 7] = [1000, 2000, 3000, 4000, 5000, 6000, 7000];

fn readings() -> [u64; 7] {
    [v(1.0), MARK, v(4.0), MARK, MARK, v(9.0), MARK]
}

/// A rollup at the output times 2000, 4000, 5000 and 8000, each over 2000 milliseconds but the last two.
fn answers(call: Call, rollup: &str, window: i64) -> Outcome {
    let rollup = ROLLUPS.iter().position(|name| *name == rollup).unwrap() as u32;
    let case = case_of(&TIMES, &readings(), grid(2000, 8000, 2000, window));
    accepts(call, &asking(rollup, &case))
}

#[test]
fn a_run_on_the_remaining_readings() {
    for call in RUNS {
        let sum = answers(call, "sum", 2000);
        assert_eq!(sum.dst_values, [v(1.0), v(4.0), v(9.0), bits(NAN), UNSET]);
        // Three samples, and one reading in each window but the last.
        assert_eq!(sum.count, 3 + 3);
        assert_eq!(sum.prepared[..4], [v(1.0), v(4.0), v(9.0), UNSET]);
        assert_eq!(sum.remaining[..4], [1000, 3000, 6000, UNSET as i64]);
        assert_eq!(sum.work[..7], [0, 0, 0, 0, 0, 0, UNSET]);
        for rest in [&sum.prepared[3..], &sum.work[6..]] {
            assert!(rest.iter().all(|entry| *entry == UNSET));
        }
        assert!(sum.remaining[3..].iter().all(|entry| *entry == UNSET as i64));
        assert_eq!([sum.prepared.len(), sum.remaining.len(), sum.work.len()], [8, 8, 15]);
        let count = answers(call, "count", 2000);
        assert_eq!(count.dst_values, [v(1.0), v(1.0), v(1.0), bits(NAN), UNSET]);
        // The next of the remaining readings.
        let waits = answers(call, "until_next", 2000);
        assert_eq!(waits.dst_values, [v(1.0), v(2.0), bits(NAN), bits(NAN), UNSET]);
        // The predecessor is one of them, too.
        let delta = answers(call, "increase_pure", 2000);
        assert_eq!(delta.dst_values[1..3], [v(3.0), v(5.0)]);
    }
}

#[test]
fn a_run_that_sees_marks() {
    for call in RUNS {
        let last = answers(call, "default", 2000);
        assert_eq!(last.dst_values, [MARK, MARK, v(9.0), MARK, UNSET]);
        assert_eq!(last.count, 7 + 2 + 2 + 2 + 1);
        assert_eq!(last.prepared, [&readings()[..], &[UNSET]].concat());
        assert_eq!(last.remaining, [&TIMES[..], &[UNSET as i64]].concat());
        assert_eq!(last.work, [vec![0; 14], vec![UNSET]].concat());
        let marks = answers(call, "stale_samples", 2000);
        assert_eq!(marks.dst_values, [v(1.0), v(1.0), v(1.0), v(1.0), UNSET]);
        assert_eq!((marks.count, marks.work, marks.remaining), (14, last.work, last.remaining));
        let marks = answers(call, "stale_samples", 5000);
        assert_eq!(marks.dst_values, [v(1.0), v(2.0), v(3.0), v(3.0), UNSET]);
        // An empty window, and one with no mark in it.
        let marks = answers(call, "stale_samples", 1);
        assert_eq!(marks.dst_values, [v(1.0), v(1.0), v(0.0), bits(NAN), UNSET]);
        let last = answers(call, "default", 1);
        assert_eq!(last.dst_values, [MARK, MARK, v(9.0), bits(NAN), UNSET]);
    }
}

#[test]
fn a_series_of_marks() {
    for call in RUNS {
        let case = case_of(&[1, 2, 3], &[MARK; 3], grid(0, 4, 2, 2));
        let absent = accepts(call, &asking(14, &case));
        assert_eq!(absent.dst_values, [v(1.0), v(1.0), v(1.0), UNSET]);
        assert_eq!(absent.count, 0);
        assert_eq!((absent.prepared, absent.work), (case.prepared.clone(), case.work.clone()));
        assert_eq!(absent.remaining, case.remaining);
        let last = accepts(call, &asking(DEFAULT, &case));
        assert_eq!((last.dst_values, last.count), (vec![bits(NAN), MARK, MARK, UNSET], 6));
        let marks = accepts(call, &asking(STALE_SAMPLES, &case));
        assert_eq!(marks.dst_values, [bits(NAN), v(2.0), v(1.0), UNSET]);
    }
}

/// The estimate is that of the remaining times, for the rollups that see marks that of all.
#[test]
fn marks_are_taken_out_before_settling() {
    // Every 1000 ms, and every 3000 without the marks.
    let times: Vec<i64> = (0..9).map(|k| 1000 * k).collect();
    let values: Vec<u64> = (0..9).map(|k| if k % 3 == 0 { v(k as f64) } else { MARK }).collect();
    let adjusting = Settings { may_adjust_window: true, ..grid(6000, 6000, 1, 0) };
    let case = case_of(&times, &values, adjusting);
    // The window is the reach: of 3000 ms three times as long, of 1000 ms five times.
    let count = accepts(Call::Run, &asking(16, &case));
    assert_eq!((count.dst_values[0], count.count), (v(3.0), 3 + 3));
    let marks = accepts(Call::Run, &asking(STALE_SAMPLES, &case));
    assert_eq!((marks.dst_values[0], marks.count), (v(3.0), 9 + 5));
    let settle = |times: &[i64]| judge::settle(&case.settings, times);
    assert_eq!((settle(&[0, 3000, 6000]), settle(&times)), ((9000, 9000), (5000, 5000)));
}

/// Prepared values are those of the remaining readings.
#[test]
fn steps_on_the_remaining_readings() {
    for call in RUNS {
        let case = case_of(&TIMES, &readings(), grid(8000, 8000, 1, 8000));
        for (pre, stated) in [(2, [3.0, 5.0, 5.0]), (4, [2.0, 2.0, 3.0]), (1, [1.0, 4.0, 9.0])] {
            let outcome = accepts(call, &Case { pre, ..case.clone() });
            assert_eq!(outcome.prepared[..4], [all_bits(&stated), vec![UNSET]].concat());
            assert_eq!(outcome.remaining[..4], [1000, 3000, 6000, UNSET as i64]);
        }
    }
}

/// The Rust's own window, on values some of which are marks, hands them on as they are.
#[test]
fn the_bits_of_marks_are_kept() {
    let values = readings().map(f64::from_bits);
    let window = Window::at(5000, 5000, 5000, &TIMES, &values);
    let held: Vec<u64> = window.record().values.iter().map(|value| value.to_bits()).collect();
    assert_eq!(held, readings()[..5]);
    let default = exposed::Rollup::new(DEFAULT as usize, 0.0, 0.0);
    assert_eq!(default.eval(&window.record()).to_bits(), MARK);
    let run = exposed::run(&grid(5000, 5000, 1, 5000), default, &values, &TIMES).unwrap();
    assert_eq!((run.0[0].to_bits(), run.1), (MARK, 7 + 5));
    assert_eq!(judge::answer_bits(DEFAULT as usize, f64::from_bits(MARK)), MARK);
    for pattern in LIKE_MARKS.into_iter().filter(|pattern| f64::from_bits(*pattern).is_nan()) {
        assert_eq!(judge::answer_bits(DEFAULT as usize, f64::from_bits(pattern)), bits(NAN));
    }
    // Of no other rollup a mark is an answer: it may come from a parameter.
    assert_eq!(judge::answer_bits(45, f64::from_bits(MARK)), bits(NAN));
}

#[test]
fn stale_samples_is_the_rusts() {
    assert_eq!((ROLLUPS[49], exposed::STALE_SAMPLES), ("stale_samples", 49));
    assert_eq!(exposed::samples_scanned_per_call(49), 0);
    let values = [MARK, v(1.0), LIKE_MARKS[0], MARK, v(NAN)].map(f64::from_bits);
    let count = |n: usize| {
        let window = Window::at(5, n as i64, 1, &[5, 4, 3, 2, 1].map(|t| 6 - t), &values);
        exposed::Rollup::new(49, 0.0, 0.0).eval(&window.record())
    };
    for (n, stated) in [(0, NAN), (1, 0.0), (2, 1.0), (3, 1.0), (4, 1.0), (5, 2.0)] {
        assert_eq!(bits(count(n)), bits(stated));
    }
}

/// Generated calls.
fn generated(call: Call) -> impl Iterator<Item = Case> {
    let mut rng = Rng::new(1);
    (0..20_000).map(move |_| cases::case(&mut rng, call, None))
}

/// Those that are accepted.
fn accepted(call: Call) -> impl Iterator<Item = Case> {
    generated(call).filter(move |case| rows::refusal(call, case).is_none())
}

fn marks(case: &Case) -> usize {
    case.values.iter().filter(|value| is_mark(**value)).count()
}

/// The outcome of a run is that of a run on the remaining readings, handed in as a series of their own.
#[test]
fn a_run_is_that_of_the_remaining_readings() {
    judge::quiet();
    for call in RUNS {
        let marked = accepted(call).filter(|case| marks(case) > 0);
        for case in marked.filter(|case| !SEE_MARKS.contains(&(case.rollup as usize))) {
            let (mut timestamps, mut values) = (case.timestamps.clone(), case.values.clone());
            let mut of_no_mark = case.values.iter().map(|value| !is_mark(*value));
            timestamps.retain(|_| of_no_mark.next().unwrap());
            values.retain(|value| !is_mark(*value));
            let alone = oracle::outcome(call, &Case { timestamps, values, ..case.clone() });
            assert_eq!(oracle::outcome(call, &case).against(&alone), [""; 0]);
        }
    }
}

/// Where times rise the rollups that see marks have the Rust's own run.
#[test]
fn marks_in_the_rusts_own_run() {
    judge::quiet();
    let mut answered = 0;
    for case in accepted(Call::Run).filter(|case| !repeats(&case.timestamps) && marks(case) > 0) {
        let values: Vec<f64> = case.values.iter().map(|b| f64::from_bits(*b)).collect();
        for number in SEE_MARKS {
            let Case { settings, timestamps, .. } = &case;
            let (first, second) = (0.0, 0.0);
            let asked = Asked { settings, number, first, second, values: &values, timestamps };
            let run = judge::by_the_rule(asked);
            answered += run.answers.iter().filter(|answer| **answer == MARK).count();
            assert_eq!(run, judge::by_the_rust(asked));
        }
    }
    assert!(answered > 1000, "{answered}");
}

/// How many of 20,000 are marked, and in how many of them a rollup sees it.
#[test]
fn many_runs_have_marks() {
    for call in RUNS {
        let marked: Vec<Case> = generated(call).filter(|case| marks(case) > 0).collect();
        assert!((5_000..10_000).contains(&marked.len()), "{}", marked.len());
        let see = |case: &&Case| SEE_MARKS.contains(&(case.rollup as usize));
        let see: Vec<&Case> = marked.iter().filter(see).collect();
        assert!(see.len() * 5 > marked.len(), "{} of {}", see.len(), marked.len());
        for number in SEE_MARKS {
            let of = || see.iter().filter(|case| case.rollup as usize == number);
            let no_step = of().filter(|case| case.pre == 0).count();
            assert!(no_step > 500 && of().count() < no_step * 5 / 4);
        }
    }
    for call in [Call::Prepare, Call::Crossings, Call::Merge] {
        let refused = generated(call).filter(|case| {
            let Some((5, index)) = rows::refusal(call, case) else { return false };
            let of =
                |(_, values): (_, &[u64])| values.get(index as usize).is_some_and(|v| is_mark(*v));
            case.series().into_iter().any(of)
        });
        assert!(refused.count() > 100, "{call:?}");
    }
}

#[test]
fn marks_of_every_kind_are_asked() {
    for call in RUNS {
        let all: Vec<Case> = accepted(call).filter(|case| marks(case) > 0).collect();
        for sees_marks in [false, true] {
            let many = |is: &dyn Fn(&[bool]) -> bool| {
                let asks = |case: &&Case| {
                    let marked: Vec<bool> = case.values.iter().map(|v| is_mark(*v)).collect();
                    SEE_MARKS.contains(&(case.rollup as usize)) == sees_marks && is(&marked)
                };
                all.iter().filter(asks).count() > 10
            };
            let count = |marked: &[bool]| marked.iter().filter(|is| **is).count();
            assert!(many(&|marked| marked[0] && count(marked) == 1 && marked.len() > 1));
            assert!(many(&|marked| marked.ends_with(&[true]) && count(marked) == 1));
            assert!(many(&|marked| count(marked) == marked.len() && marked.len() > 1));
            assert!(many(&|marked| marked == [true]));
            assert!(many(&|marked| count(marked) + 1 == marked.len() && marked.len() > 2));
            assert!(many(&|marked| marked.windows(4).any(|part| *part == [true; 4])
                && count(marked) < marked.len()));
            assert!(many(&|marked| {
                let place = marked.iter().position(|is| *is).unwrap();
                marked.len() > 20
                    && marked.iter().enumerate().all(|(i, is)| *is == (i % 10 == place))
            }));
        }
        // One of those with one time, some, all but one, all; and a mark before and behind one.
        let many = |is: &dyn Fn(&[bool]) -> bool| {
            let asks = |case: &&Case| groups(case).iter().any(|marked| is(marked));
            all.iter().filter(asks).count() > 50
        };
        let count = |marked: &[bool]| marked.iter().filter(|is| **is).count();
        assert!(
            many(&|marked| count(marked) == 1) && many(&|marked| count(marked) == marked.len())
        );
        assert!(many(&|marked| count(marked) > 1 && count(marked) + 1 == marked.len()));
        assert!(many(&|marked| marked[0] && !marked[marked.len() - 1]));
        assert!(many(&|marked| !marked[0] && marked[marked.len() - 1]));
    }
}

/// Which readings are marks, of those with each time that several have.
fn groups(case: &Case) -> Vec<Vec<bool>> {
    let mut groups: BTreeMap<i64, Vec<bool>> = BTreeMap::new();
    for (time, value) in case.timestamps.iter().zip(&case.values) {
        groups.entry(*time).or_default().push(is_mark(*value));
    }
    groups.into_values().filter(|marked| marked.len() > 1).collect()
}

/// At an output time, where its window begins and where its reach begins.
#[test]
fn marks_at_every_edge_are_asked() {
    let edges: [fn(i64, i64, i64) -> i64; 3] =
        [|t, _, _| t, |t, window, _| t - window, |t, window, reach| t - window - reach];
    for call in RUNS {
        let all: Vec<Case> = accepted(call).filter(|case| marks(case) > 0).collect();
        for sees_marks in [false, true] {
            for edge in edges {
                let at = |case: &&Case| {
                    let (window, reach) = match call {
                        Call::Run => judge::settle(&case.settings, &oracle::readings(case).0),
                        _ => (case.settings.window, case.reach),
                    };
                    let Settings { start, end, step, .. } = case.settings;
                    let readings = case.timestamps.iter().zip(&case.values);
                    let marked = readings.filter(|(_, value)| is_mark(**value));
                    let marked: BTreeSet<i64> = marked.map(|(time, _)| *time).collect();
                    let mut grid = (start..=end).step_by(step as usize).take(100);
                    SEE_MARKS.contains(&(case.rollup as usize)) == sees_marks
                        && grid.any(|t| marked.contains(&edge(t, window, reach)))
                };
                assert!(all.iter().filter(at).count() > 50);
            }
        }
    }
}

/// The rows from 12 on that a run offends, 13 told apart by the slice.
fn offended(call: Call, case: &Case) -> Vec<&'static str> {
    let n = case.timestamps.len();
    let of_13 =
        [(case.prepared.len() < n, "13 prepared"), (case.remaining.len() < n, "13 remaining")];
    let name = |number: u64| match number {
        12 => vec!["12"],
        13 => of_13.into_iter().filter(|(is, _)| *is).map(|(_, name)| name).collect(),
        14 => vec!["14"],
        _ => vec!["19"],
    };
    if rows::refusal(call, case).is_none_or(|(number, _)| !(12..=19).contains(&number)) {
        return vec!["another"];
    }
    rows::offences(call, case).flat_map(|(number, _)| name(number)).collect()
}

/// Each row alone and every two, with marks in the series and without.
#[test]
fn rows_from_12_on_are_offended() {
    const ROWS: [&str; 5] = ["12", "13 prepared", "13 remaining", "14", "19"];
    for call in RUNS {
        let mut found: BTreeMap<Vec<&str>, [u64; 2]> = BTreeMap::new();
        let mut rng = Rng::new(1);
        for _ in 0..50_000 {
            let case = cases::case(&mut rng, call, None);
            let rows = offended(call, &case);
            found.entry(rows).or_default()[(marks(&case) > 0) as usize] += 1;
        }
        for (i, one) in ROWS.iter().enumerate() {
            assert!(found[&vec![*one]].iter().all(|n| *n > 20), "{one}");
            for other in &ROWS[i + 1..] {
                assert!(found[&vec![*one, *other]].iter().all(|n| *n > 5), "{one}, {other}");
            }
        }
    }
}

/// Room for the remaining readings alone, just for all, and for more.
#[test]
fn slices_of_every_length_are_asked() {
    for call in RUNS {
        let mut kinds: BTreeMap<&str, [u64; 3]> = BTreeMap::new();
        for case in generated(call).filter(|case| marks(case) > 0) {
            let (n, left) = (case.timestamps.len(), case.timestamps.len() - marks(&case));
            let refused = rows::refusal(call, &case).map(|(number, _)| number);
            let slices = [
                ("prepared", case.prepared.len(), n, left, Some(13)),
                ("remaining", case.remaining.len(), n, left, Some(13)),
                ("work", case.work.len(), 2 * n, 2 * left, Some(14)),
            ];
            for (name, length, all, few, number) in slices {
                let found = [
                    length == few && refused == number,
                    length == all && refused.is_none(),
                    length > all && refused.is_none(),
                ];
                let kinds = kinds.entry(name).or_default();
                kinds.iter_mut().zip(found).for_each(|(kind, is)| *kind += is as u64);
            }
        }
        assert!(kinds.values().flatten().all(|kind| *kind > 20), "{kinds:?}");
    }
}

/// Patterns that are no marks stand before marks, between them and behind them.
#[test]
fn patterns_beside_marks_are_asked() {
    for call in RUNS {
        let mut kinds = [0; 3];
        let mut patterns = BTreeMap::new();
        for case in generated(call).filter(|case| marks(case) > 0) {
            let Some((5, index)) = rows::refusal(call, &case) else { continue };
            let (before, from) = case.values.split_at(index as usize);
            let [before, behind] = [before, from].map(|part| part.iter().any(|v| is_mark(*v)));
            let found = [!before && behind, before && behind, before && !behind];
            kinds.iter_mut().zip(found).for_each(|(kind, is)| *kind += is as u64);
            *patterns.entry(case.values[index as usize]).or_insert(0) += 1;
        }
        assert!(kinds.iter().all(|kind| *kind > 20), "{kinds:?}");
        assert!(LIKE_MARKS.iter().all(|pattern| patterns.get(pattern) > Some(&3)), "{patterns:?}");
    }
}
