//! One series from two logs: what is merged, each refusal with its index, and which goes first.

use harzoulin::{MOST, Refusal, lent, merge};

/// Times and values.
type Log<'a> = (&'a [i64], &'a [f64]);

const NOTHING: Log = (&[], &[]);
const PANEL: Log = (&[0, 10, 30, 40], &[1.0, 2.0, 4.0, -0.0]);
const SERVER: Log = (&[-5, 10, 20, 40, 50], &[0.5, 2.0, 3.0, -0.0, 6.0]);
const BOTH: Log = (&[-5, 0, 10, 20, 30, 40, 50], &[0.5, 1.0, 2.0, 3.0, 4.0, -0.0, 6.0]);
/// The largest time, and one that is too large.
const LARGEST: i64 = 1 << 50;
const OUTSIDE: i64 = LARGEST + 1;
const NAN: f64 = f64::NAN;

/// The answer on lent slices of so many entries, and the slices, which held sevens.
type Lent = (Result<usize, Refusal>, Vec<i64>, Vec<u64>);

fn lent(first: Log, second: Log, times: usize, values: usize) -> Lent {
    let (mut timestamps, mut merged) = (vec![7; times], vec![7.0; values]);
    let answer = lent::merge(first.0, first.1, second.0, second.1, &mut timestamps, &mut merged);
    (answer, timestamps, bits(&merged))
}

/// Slices that hold sevens.
fn sevens(times: usize, values: usize) -> (Vec<i64>, Vec<u64>) {
    (vec![7; times], vec![7.0_f64.to_bits(); values])
}

fn bits(values: &[f64]) -> Vec<u64> {
    values.iter().map(|value| value.to_bits()).collect()
}

/// Two logs give a series, in both forms, with nothing written past it.
#[track_caller]
fn merged(first: Log, second: Log, both: Log) {
    let (times, values) = merge(first.0, first.1, second.0, second.1).unwrap();
    assert_eq!((&times[..], bits(&values)), (both.0, bits(both.1)));
    let length = both.0.len();
    assert_eq!((times.capacity(), values.capacity()), (length, length));
    for (more_times, more_values) in [(0, 0), (2, 0), (0, 3)] {
        let (mut times, mut values) = sevens(length + more_times, length + more_values);
        times[..length].copy_from_slice(both.0);
        values[..length].copy_from_slice(&bits(both.1));
        let answer = lent(first, second, length + more_times, length + more_values);
        assert_eq!(answer, (Ok(length), times, values));
    }
}

/// The first refusal that two logs meet, in both forms. The slices have no room, so that row 18 is
/// met as well where there is a reading, and nothing is written.
#[track_caller]
fn refused(first: Log, second: Log, refusal: Refusal) {
    assert_eq!(merge(first.0, first.1, second.0, second.1).unwrap_err(), refusal);
    for room in [0, 3] {
        let (times, values) = sevens(room, room);
        assert_eq!(lent(first, second, room, room), (Err(refusal), times, values));
    }
}

/// Whichever of the two is first.
#[test]
fn logs_that_overlap() {
    merged(PANEL, SERVER, BOTH);
    merged(SERVER, PANEL, BOTH);
    merged(BOTH, PANEL, BOTH);
    merged(SERVER, BOTH, BOTH);
}

#[test]
fn one_after_the_other() {
    let (early, late): (Log, Log) = ((&[1, 2], &[1.0, 2.0]), (&[3, 4], &[3.0, 4.0]));
    let all: Log = (&[1, 2, 3, 4], &[1.0, 2.0, 3.0, 4.0]);
    merged(early, late, all);
    merged(late, early, all);
    let ends: Log = (&[-LARGEST, LARGEST], &[f64::MIN, f64::MAX]);
    merged((&[-LARGEST], &[f64::MIN]), (&[LARGEST], &[f64::MAX]), ends);
}

#[test]
fn with_itself_and_with_nothing() {
    for log in [PANEL, SERVER, BOTH, NOTHING] {
        merged(log, log, log);
        merged(log, NOTHING, log);
        merged(NOTHING, log, log);
    }
}

/// The rows of one series, each before those after it, with the index in that series.
#[test]
fn rows_of_each_series() {
    let (many, values) = (vec![OUTSIDE; MOST + 1], vec![NAN; MOST + 1]);
    let rows: [(Log, Refusal); 7] = [
        ((&many, &[NAN]), Refusal::Lengths),
        ((&many, &values), Refusal::Readings),
        ((&[5, 5, OUTSIDE], &[NAN; 3]), Refusal::Time(2)),
        ((&[0, -OUTSIDE, 0], &[NAN; 3]), Refusal::Time(1)),
        ((&[10, 11, 11], &[NAN; 3]), Refusal::NotRising(2)),
        ((&[10, 9], &[NAN; 2]), Refusal::NotRising(1)),
        ((&[10, 11], &[9.0, f64::INFINITY]), Refusal::Value(1)),
    ];
    for (place, (log, refusal)) in rows.iter().enumerate() {
        refused(*log, PANEL, *refusal);
        refused(PANEL, *log, *refusal);
        refused(NOTHING, *log, *refusal);
        // All of the first series goes before all of the second.
        for (other, _) in &rows[..place] {
            refused(*log, *other, *refusal);
        }
    }
}

/// Over the limit of readings with both, and at it.
#[test]
fn rows_of_the_result() {
    let times: Vec<i64> = (0..=MOST as i64).collect();
    let values = vec![1.0; MOST + 1];
    let part = |first: usize, end: usize| (&times[first..end], &values[first..end]);
    let conflict: Log = (&[5, MOST as i64], &[2.0, 1.0]);
    refused(part(0, MOST), conflict, Refusal::Readings);
    refused(part(0, 9_000_000), part(8_000_000, MOST + 1), Refusal::Readings);
    refused(part(0, MOST), (&conflict.0[..1], &conflict.1[..1]), Refusal::Conflict);
    let ((first, values_of_first), (second, others)) = (part(0, 9_000_000), part(8_000_000, MOST));
    let longest = merge(first, values_of_first, second, others).unwrap();
    assert!(longest.0 == times[..MOST] && longest.1 == values[..MOST]);
}

/// Values of different bits at one time, early, late or more than once.
#[test]
fn a_time_with_two_values() {
    let logs: [Log; 4] = [
        (&[0, 10, 40], &[1.5, 2.0, -0.0]),
        (&[39, 40], &[0.0, 0.0]),
        (&[0, 10, 30], &[1.0, 2.0000000000000004, 5.0]),
        (&[-1, 0, 10, 30, 41], &[0.0, 1.0, 2.0, -4.0, 0.0]),
    ];
    for log in logs {
        refused(PANEL, log, Refusal::Conflict);
        refused(log, PANEL, Refusal::Conflict);
    }
}

#[test]
fn either_slice_may_be_too_short() {
    let length = BOTH.0.len();
    for (times, values) in [(length - 1, length), (length, length - 1), (0, 99), (99, 0), (0, 0)] {
        let (sevens, others) = sevens(times, values);
        let answer = lent(PANEL, SERVER, times, values);
        assert_eq!(answer, (Err(Refusal::Merged), sevens, others));
    }
}

#[test]
fn sentences() {
    let texts = [Refusal::Conflict, Refusal::Merged].map(|refusal| refusal.to_string());
    assert_eq!(texts[0], "refusal 17: a time has values of different bits in the two series");
    assert_eq!(texts[1], "refusal 18: a result slice is shorter than the merged series");
}
