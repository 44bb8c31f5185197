//! Runs of the original Rust, stored in run.txt: of the list that `vectors run` of compare/ writes,
//! every ninth case. Its first line says what a case holds. The values of a step and the answers of a
//! rollup that the original does not have are the model's of compare/.

use harzoulin::lent::{self, Slices};
use harzoulin::{ROLLUPS, Rollup, Settings, Settled, Step, Workspace, is_stale, remaining, settle};

/// The words of a case, taken in order.
struct Words<'a>(std::str::SplitWhitespace<'a>);

impl Words<'_> {
    fn word(&mut self) -> u64 {
        u64::from_str_radix(self.0.next().unwrap(), 16).unwrap()
    }

    fn int(&mut self) -> i64 {
        self.word() as i64
    }

    fn float(&mut self) -> f64 {
        f64::from_bits(self.word())
    }

    fn floats(&mut self, count: usize) -> Vec<f64> {
        (0..count).map(|_| self.float()).collect()
    }

    fn settings(&mut self) -> Settings {
        Settings {
            start: self.int(),
            end: self.int(),
            step: self.int(),
            window: self.int(),
            may_adjust_window: self.word() == 1,
            is_default_rollup: self.word() == 1,
            lookback_delta: self.int(),
            min_staleness_interval: self.int(),
            max_points_per_series: self.int(),
            samples_scanned_per_call: self.word(),
        }
    }
}

fn bits(values: &[f64]) -> Vec<u64> {
    values.iter().map(|value| value.to_bits()).collect()
}

/// The rollup of a number, by its name.
fn rollup(number: usize, first: f64, second: f64) -> Rollup {
    let about = &ROLLUPS[number];
    let parameters = &[first, second].map(|p| p.to_string())[..about.parameters.len()];
    let text = match parameters {
        [] => about.name.to_string(),
        list => format!("{}({})", about.name, list.join(",")),
    };
    text.parse().unwrap()
}

/// What is stored of the runs of one kind of rollups: what was settled and the count, or, without output
/// times, the number and the index of the refusal.
enum Kind {
    Accepted(Settled, u64),
    Refused(u64, usize),
}

impl Words<'_> {
    fn kind(&mut self) -> Kind {
        let [window, reach, count, points] = [(); 4].map(|()| self.word());
        match points as usize {
            0 => Kind::Refused(window, reach as usize),
            points => {
                let (window, reach) = (window as i64, reach as i64);
                Kind::Accepted(Settled { window, reach, points }, count)
            }
        }
    }
}

/// A stored case.
struct Case {
    times: Vec<i64>,
    values: Vec<f64>,
    pre: Step,
    settings: Settings,
}

impl Case {
    /// The runs of a rollup have the stored answers, and the prepared values are those of the readings
    /// that remain.
    fn accepted(&self, rollup: Rollup, settled: Settled, count: u64, answers: &[f64]) {
        let Case { times, values, pre, settings } = self;
        let (mut workspace, mut other) = (Workspace::new(), Workspace::new());
        let left = remaining(times, values, rollup);
        assert_eq!(settle(&left, settings), Ok(settled));
        let run = workspace.run(times, values, *pre, rollup, settings).unwrap();
        let settings = settings.settled(settled);
        let again = other.settled_run(times, values, *pre, rollup, &settings).unwrap();
        for run in [run, again] {
            assert_eq!((bits(run.values), run.count), (bits(answers), count), "{rollup}");
            assert_eq!(run.timestamps, &left[..]);
        }
        let (prepared, mut bare) = (bits(run.prepared), values.clone());
        if !rollup.sees_marks() {
            bare.retain(|value| !is_stale(*value));
            assert_eq!(bits(workspace.prepare(&left, &bare, *pre).unwrap()), prepared);
        } else {
            assert_eq!(bits(&bare), prepared);
        }
    }

    /// The run is refused where so many places are lent for answers, and all that the others need.
    fn refused(&self, rollup: Rollup, points: usize, number: u64, index: usize) {
        let Case { times, values, pre, settings } = self;
        let readings = times.len();
        let [mut output, mut prepared, mut work] =
            [points, readings, 2 * readings].map(|length| vec![7.0; length]);
        let mut remaining = vec![7; readings];
        let (output, prepared, work) = (&mut output[..], &mut prepared[..], &mut work[..]);
        let slices = &mut Slices { output, prepared, remaining: &mut remaining, work };
        let refusal = lent::run(times, values, *pre, rollup, settings, slices).unwrap_err();
        assert_eq!((u64::from(refusal.number()), refusal.index()), (number, index), "{rollup}");
    }
}

#[test]
fn runs_have_the_bits_of_the_rust() {
    let (mut marks, mut refused) = (0, 0);
    for line in include_str!("run.txt").lines().skip(1) {
        let mut words = Words(line.split_whitespace());
        let pre = Step::ALL[words.word() as usize];
        let (first, second) = (words.float(), words.float());
        let readings = words.word() as usize;
        let times: Vec<i64> = (0..readings).map(|_| words.int()).collect();
        let values = words.floats(readings);
        marks += values.iter().filter(|value| is_stale(**value)).count();
        let case = Case { times, values, pre, settings: words.settings() };
        let kinds = [words.kind(), words.kind()];
        let points = match kinds[0] {
            Kind::Accepted(settled, _) => settled.points,
            Kind::Refused(..) => 0,
        };
        let _departures = words.word();
        for number in 0..ROLLUPS.len() {
            let rollup = rollup(number, first, second);
            match kinds[usize::from(rollup.sees_marks())] {
                Kind::Accepted(settled, count) => {
                    case.accepted(rollup, settled, count, &words.floats(settled.points));
                }
                Kind::Refused(number, index) => {
                    refused += 1;
                    case.refused(rollup, points, number, index);
                }
            }
        }
        assert!(words.0.next().is_none());
    }
    assert!(marks > 0 && refused > 0, "{marks} marks, {refused} refused");
}
