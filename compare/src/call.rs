//! A call of the port: what it is handed, and what can be seen of it afterwards.

use std::fmt;

use original::exposed::Settings;

#[derive(Clone, Copy, Debug, PartialEq)]
pub enum Call {
    Prepare,
    Settle,
    Run,
    SettledRun,
    Crossings,
    Nearest,
    Merge,
}

impl Call {
    pub const ALL: [(&'static str, Call); 7] = [
        ("prepare", Call::Prepare),
        ("settle", Call::Settle),
        ("run", Call::Run),
        ("settled_run", Call::SettledRun),
        ("crossings", Call::Crossings),
        ("nearest", Call::Nearest),
        ("merge", Call::Merge),
    ];
}

/// Times and values, as bit patterns.
pub type Series<'a> = (&'a [i64], &'a [u64]);

/// All that a call is handed; each call reads its own part. For a settled run `settings.window`
/// and `reach` are the settled ones. Values and slices are bit patterns. Only the first `lent`
/// entries of `indexes` are lent, so that a write behind the slice shows, and of the slices for a
/// merged series only the first `lent_times` and `lent_values`.
#[derive(Clone, Debug, Default)]
pub struct Case {
    pub timestamps: Vec<i64>,
    pub values: Vec<u64>,
    pub pre: u32,
    pub rollup: u32,
    pub first: f64,
    pub second: f64,
    pub settings: Settings,
    pub reach: i64,
    pub dst_values: Vec<u64>,
    pub prepared: Vec<u64>,
    pub remaining: Vec<i64>,
    pub work: Vec<u64>,
    pub limit: f64,
    pub indexes: Vec<u64>,
    pub lent: usize,
    pub time: i64,
    pub second_timestamps: Vec<i64>,
    pub second_values: Vec<u64>,
    pub merged_timestamps: Vec<i64>,
    pub merged_values: Vec<u64>,
    pub lent_times: usize,
    pub lent_values: usize,
}

impl Case {
    /// The series of a merge, times and values; other calls read the first alone.
    pub fn series(&self) -> [Series<'_>; 2] {
        [(&self.timestamps, &self.values), (&self.second_timestamps, &self.second_values)]
    }

    /// The same, to be changed.
    pub fn series_mut(&mut self) -> [(&mut Vec<i64>, &mut Vec<u64>); 2] {
        [
            (&mut self.timestamps, &mut self.values),
            (&mut self.second_timestamps, &mut self.second_values),
        ]
    }

    /// The times of both series, counted.
    pub fn readings(&self) -> usize {
        self.timestamps.len() + self.second_timestamps.len()
    }
}

/// What a call leaves: the refusal's number (0: accepted) and index, what it hands out, the lent slices.
#[derive(Clone, Debug)]
pub struct Outcome {
    pub number: u64,
    pub index: u64,
    pub window: i64,
    pub reach: i64,
    pub points: u64,
    pub count: u64,
    pub found: u64,
    pub nearest: u64,
    pub length: u64,
    pub dst_values: Vec<u64>,
    pub prepared: Vec<u64>,
    pub remaining: Vec<i64>,
    pub work: Vec<u64>,
    pub indexes: Vec<u64>,
    pub merged_timestamps: Vec<i64>,
    pub merged_values: Vec<u64>,
}

/// What the places for answers hold before the call.
pub const UNSET: u64 = 0x5ad5ad5ad5ad5ad5;

impl Outcome {
    /// Nothing written yet.
    pub fn before(case: &Case) -> Outcome {
        Outcome {
            number: 0,
            index: UNSET,
            window: UNSET as i64,
            reach: UNSET as i64,
            points: UNSET,
            count: UNSET,
            found: UNSET,
            nearest: UNSET,
            length: UNSET,
            dst_values: case.dst_values.clone(),
            prepared: case.prepared.clone(),
            remaining: case.remaining.clone(),
            work: case.work.clone(),
            indexes: case.indexes.clone(),
            merged_timestamps: case.merged_timestamps.clone(),
            merged_values: case.merged_values.clone(),
        }
    }

    /// A line for each part in which the port's outcome differs from the judge's.
    pub fn against(&self, judge: &Outcome) -> Vec<String> {
        let mut lines = vec![];
        let numbers = [
            ("number", self.number, judge.number),
            ("index", self.index, judge.index),
            ("window", self.window as u64, judge.window as u64),
            ("reach", self.reach as u64, judge.reach as u64),
            ("points", self.points, judge.points),
            ("count", self.count, judge.count),
            ("found", self.found, judge.found),
            ("nearest", self.nearest, judge.nearest),
            ("length", self.length, judge.length),
        ];
        for (name, ours, theirs) in numbers {
            if ours != theirs {
                lines.push(format!("{name}: port {}, judge {}", ours as i64, theirs as i64));
            }
        }
        let (number, time): (fn(u64) -> _, fn(i64) -> _) = (|n| n.to_string(), |t| t.to_string());
        let slices = [
            differing("output", &self.dst_values, &judge.dst_values, show),
            differing("prepared", &self.prepared, &judge.prepared, show),
            differing("remaining", &self.remaining, &judge.remaining, time),
            differing("work", &self.work, &judge.work, show),
            differing("indexes", &self.indexes, &judge.indexes, number),
            differing("merged times", &self.merged_timestamps, &judge.merged_timestamps, time),
            differing("merged values", &self.merged_values, &judge.merged_values, show),
        ];
        lines.extend(slices.into_iter().flatten());
        lines
    }
}

/// The first entry in which a slice differs from the judge's.
fn differing<T: Copy + PartialEq>(
    name: &str,
    ours: &[T],
    theirs: &[T],
    show: fn(T) -> String,
) -> Option<String> {
    let i = (0..ours.len()).find(|i| ours[*i] != theirs[*i])?;
    Some(format!("{name}[{i}]: port {}, judge {}", show(ours[i]), show(theirs[i])))
}

/// A value with its bits.
pub fn show(bits: u64) -> String {
    format!("{:?} ({bits:016x})", f64::from_bits(bits))
}

/// How many readings of a case are printed.
const PRINTED: usize = 100;

impl fmt::Display for Case {
    fn fmt(&self, f: &mut fmt::Formatter) -> fmt::Result {
        let [first, second] = self.series();
        print(f, "", first)?;
        print(f, "second ", second)?;
        writeln!(
            f,
            "  step {}, rollup {} ({:?}, {:?})",
            self.pre, self.rollup, self.first, self.second
        )?;
        writeln!(f, "  {:?}, reach {}", self.settings, self.reach)?;
        writeln!(f, "  limit {}, asked time {}", show(self.limit.to_bits()), self.time)?;
        let lengths = [self.dst_values.len(), self.prepared.len(), self.remaining.len()];
        writeln!(f, "  lengths of output, prepared and remaining: {lengths:?}")?;
        let lengths = [self.work.len(), self.lent];
        writeln!(f, "  lengths of work and index slice: {lengths:?}")?;
        let lengths = [self.lent_times, self.lent_values];
        write!(f, "  lengths of the slices for merged times and values: {lengths:?}")
    }
}

/// The times and values of a series, or the first of them.
fn print(f: &mut fmt::Formatter, which: &str, (timestamps, values): Series) -> fmt::Result {
    let readings = timestamps.len();
    if readings.max(values.len()) > PRINTED {
        writeln!(
            f,
            "  {readings} {which}times and {} values, of which the first are",
            values.len()
        )?;
    }
    let values: Vec<String> = values.iter().take(PRINTED).map(|b| show(*b)).collect();
    writeln!(f, "  {which}times {:?}", &timestamps[..readings.min(PRINTED)])?;
    writeln!(f, "  {which}values {}", values.join(", "))
}
