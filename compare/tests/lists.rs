//! The fixed lists: made again byte for byte, small enough for the repository, every word in place.

use compare::lists::{text, MAKERS};
use compare::window::repeats;
use compare::words::{bits, NAN};

#[test]
fn made_again() {
    for maker in MAKERS {
        assert!(text(maker.name, 1).unwrap().text == text(maker.name, 1).unwrap().text);
        assert!(text(maker.name, 1).unwrap().text != text(maker.name, 2).unwrap().text);
    }
}

#[test]
fn format() {
    for maker in MAKERS {
        let list = text(maker.name, 1).unwrap().text;
        assert!(list.len() < 4_000_000 && list.starts_with("# "));
        let words = &list.as_bytes()[list.find('\n').unwrap() + 1..];
        for word in words.chunks(17) {
            assert!(word[..16].iter().all(|c| matches!(c, b'0'..=b'9' | b'a'..=b'f')));
            assert!(word[16] == b' ' || word[16] == b'\n');
        }
    }
}

/// The words of each case of a list.
fn cases(name: &str) -> Vec<Vec<u64>> {
    let list = text(name, 1).unwrap().text;
    let words =
        |line: &str| line.split(' ').map(|word| u64::from_str_radix(word, 16).unwrap()).collect();
    list.lines().skip(1).map(words).collect()
}

/// The last answer but one for a record is the wait for the next reading. Where the Rust made the record a next
/// value has a time; of those made by hand there are some of every kind.
#[test]
fn waits_in_records() {
    let mut kinds = [0; 8];
    for (k, case) in cases("rollup").into_iter().enumerate() {
        assert_eq!(case.len(), 11 + 2 * case[10] as usize + 1 + 50);
        let (has_next, no_value) = (case[6] == 1, case[5] == NAN);
        let [next, time] = [7, 8].map(|place| case[place] as i64);
        let (wait, answer) = (next - time, case[case.len() - 2]);
        if has_next {
            assert!(0 < wait && wait <= 1 << 51 && answer == bits(wait as f64 / 1e3));
        } else {
            assert_eq!((case[6], next, answer), (0, 0, NAN));
        }
        if k < 700 {
            assert!(has_next || no_value);
            continue;
        }
        let found = [
            !has_next && no_value,
            !has_next && !no_value,
            has_next && no_value,
            has_next && !no_value,
            has_next && next == 0,
            has_next && [1, 999, 1000, 12_345].contains(&wait),
            has_next && 1 << 49 < wait && wait < 1 << 51,
            has_next && wait == 1 << 51,
        ];
        kinds.iter_mut().zip(found).for_each(|(kind, is)| *kind += is as u64);
    }
    assert!(kinds.iter().all(|kind| *kind >= 10), "{kinds:?}");
}

/// The mark, whose runs are numbers 32 and 49.
const MARK: u64 = 0x7ff0000000000002;

/// A run of the list: its times, values and grid, the four words of the runs on the remaining readings and of those
/// that see marks, and the answers of each rollup.
struct Run {
    step: u64,
    times: Vec<i64>,
    values: Vec<u64>,
    grid: Vec<i64>,
    remaining: [u64; 4],
    sees_marks: [u64; 4],
    answers: Vec<Vec<u64>>,
}

fn runs() -> Vec<Run> {
    cases("run").into_iter().map(run).collect()
}

fn run(case: Vec<u64>) -> Run {
    let n = case[3] as usize;
    let (series, rest) = case[4..].split_at(2 * n);
    let [remaining, sees_marks] =
        [10, 14].map(|at| <[u64; 4]>::try_from(&rest[at..at + 4]).unwrap());
    let (mut answers, mut left) = (vec![], &rest[19..]);
    for number in 0..50 {
        let g = if [32, 49].contains(&number) { sees_marks[3] } else { remaining[3] };
        let (own, others) = left.split_at(g as usize);
        answers.push(own.to_vec());
        left = others;
    }
    assert!(left.is_empty());
    let [start, step] = [0, 2].map(|place| rest[place] as i64);
    Run {
        step: case[0],
        times: series[..n].iter().map(|time| *time as i64).collect(),
        values: series[n..].to_vec(),
        grid: (0..remaining[3] as i64).map(|k| start + k * step).collect(),
        remaining,
        sees_marks,
        answers,
    }
}

/// The answers of rollup 48 are the waits for the next of the remaining readings.
#[test]
fn waits_in_runs() {
    for run in runs() {
        let readings = run.times.iter().zip(&run.values);
        let times: Vec<i64> = readings.filter(|(_, v)| **v != MARK).map(|(t, _)| *t).collect();
        for (time, answer) in run.grid.iter().zip(&run.answers[48]) {
            let next = times.iter().find(|reading| **reading > *time);
            assert_eq!(*answer, next.map_or(NAN, |next| bits((next - time) as f64 / 1e3)));
        }
    }
}

/// The two fours differ where there are marks or a step, and marks come to be answers of default alone.
#[test]
fn marks_in_runs() {
    let (mut marked, mut only_marks, mut refused, mut answered) = (0, [0; 6], 0, 0);
    for run in runs() {
        let marks = run.values.iter().filter(|value| **value == MARK).count();
        if run.remaining[3] == 0 {
            assert_eq!(run.sees_marks, run.remaining);
            assert!((3..=12).contains(&run.remaining[0]));
            refused += (marks > 0) as u64;
            continue;
        }
        match run.step {
            0 => assert_eq!(run.sees_marks[3], run.remaining[3]),
            _ => assert_eq!(run.sees_marks, [19, 0, 0, 0]),
        }
        if marks == 0 {
            assert!(run.step > 0 || run.sees_marks == run.remaining);
            assert!(run.answers[49].iter().all(|answer| [NAN, 0].contains(answer)));
        }
        marked += (marks > 0) as u64;
        only_marks[run.step as usize] += (marks > 0 && marks == run.values.len()) as u64;
        for (number, answers) in run.answers.iter().enumerate() {
            let is_mark = answers.iter().filter(|answer| **answer == MARK).count();
            assert!(is_mark == 0 || number == 32 && marks > 0);
            answered += is_mark;
        }
    }
    assert!(marked > 68 && refused == 18 && answered > 50, "{marked}, {refused}, {answered}");
    assert!(only_marks.iter().all(|runs| *runs > 0), "{only_marks:?}");
}

/// The times of a case whose number stands at this place, before them.
fn times(case: &[u64], place: usize) -> Vec<i64> {
    let n = case[place] as usize;
    case[place + 1..][..n].iter().map(|time| *time as i64).collect()
}

/// How many cases of a list have equal times.
fn repeating(name: &str, place: usize) -> usize {
    cases(name).iter().filter(|case| repeats(&times(case, place))).count()
}

#[test]
fn equal_times_are_in_the_lists() {
    assert_eq!(repeating("prepare", 1), 600);
    assert_eq!(repeating("settle", 0), 600);
    assert!((68..=140).contains(&repeating("run", 3)));
    // Some windows hold none of them.
    assert!(repeating("rollup", 10) > 200);
}

/// The search finds the number of times that are not after the target; of many series those just after it are equal.
#[test]
fn searches() {
    let (mut before_equals, mut estimates) = (0, 0);
    for case in cases("search").iter().filter(|case| case[0] < 2) {
        let times = times(case, 1);
        if case[0] == 1 {
            estimates += repeats(&times) as u64;
            continue;
        }
        let [target, found] = [2, 4].map(|place| case[place + times.len()] as i64);
        assert_eq!(found, times.iter().filter(|time| **time <= target).count() as i64);
        let after = times.iter().filter(|time| **time == target + 1).count();
        before_equals += (times.len() > 15 && found > 0 && after > 1) as u64;
    }
    assert!(before_equals > 60 && estimates == 250, "{before_equals}, {estimates}");
}
