//! The 50 rollups. The table at the end of this file has a row for each, in the order of the
//! numbers by which the core knows them.

use std::error::Error;
use std::fmt;
use std::str::FromStr;

/// What a rollup is called and what it gives.
#[derive(Debug)]
pub struct About {
    /// The name that it is written by: the source's, if it is there, without `rollup_`.
    pub name: &'static str,
    /// The names of its parameters.
    pub parameters: &'static [&'static str],
    /// What it belongs to.
    pub group: Group,
    /// The unit of its figures.
    pub unit: Unit,
    /// What it gives, in a few words.
    pub sentence: &'static str,
}

impl fmt::Display for About {
    /// As `quantile(phi)`.
    fn fmt(&self, f: &mut fmt::Formatter) -> fmt::Result {
        match self.parameters {
            [] => f.pad(self.name),
            list => f.pad(&format!("{}({})", self.name, list.join(", "))),
        }
    }
}

/// What rollups are about.
#[derive(Clone, Copy, Debug, PartialEq, Eq)]
pub enum Group {
    /// How high the values are.
    Level,
    /// How far apart they are.
    Spread,
    /// What they add up to.
    Sum,
    /// How much they changed.
    Increase,
    /// How often they changed.
    Changes,
    /// How fast they change, and where that leads.
    Slope,
    /// When readings were taken.
    Time,
    /// Whether and how many readings there are.
    Presence,
    /// Open, close, high and low.
    Candlestick,
}

impl Group {
    /// Every group, in the order in which people look for them.
    pub const ALL: [Group; 9] = [
        Group::Level,
        Group::Spread,
        Group::Sum,
        Group::Increase,
        Group::Changes,
        Group::Slope,
        Group::Time,
        Group::Presence,
        Group::Candlestick,
    ];
}

/// The unit of a figure, from that of the values.
#[derive(Clone, Copy, Debug, PartialEq, Eq)]
pub enum Unit {
    /// That of the values.
    Value,
    /// Its square.
    Squared,
    /// Per second.
    PerSecond,
    /// Times seconds.
    TimesSeconds,
    /// Seconds.
    Seconds,
    /// Seconds since 1 January 1970.
    Unix,
    /// A plain number.
    Number,
}

/// The text names no rollup.
#[derive(Clone, Copy, Debug)]
pub enum UnknownRollup {
    /// No rollup has the name.
    Name,
    /// The rollup has other parameters.
    Parameters(&'static About),
}

impl fmt::Display for UnknownRollup {
    fn fmt(&self, f: &mut fmt::Formatter) -> fmt::Result {
        match self {
            UnknownRollup::Name => f.write_str("expected the name of a rollup, such as avg"),
            UnknownRollup::Parameters(about) if about.parameters.is_empty() => {
                write!(f, "expected {about} without parameters")
            }
            UnknownRollup::Parameters(about) => write!(f, "expected {about} with numbers"),
        }
    }
}

impl Error for UnknownRollup {}

impl Rollup {
    /// The row of the table.
    pub fn about(self) -> &'static About {
        &ROLLUPS[self.number() as usize]
    }

    /// Whether it sees staleness marks. For all others they are taken out of the series before.
    pub fn sees_marks(self) -> bool {
        matches!(self, Rollup::Default | Rollup::StaleSamples)
    }

    /// The parameters, 0 where there is none.
    pub(crate) fn parameters(self) -> (f64, f64) {
        match self {
            Rollup::Quantile(first) | Rollup::PredictLinear(first) => (first, 0.0),
            Rollup::HoltWinters(first, second) => (first, second),
            _ => (0.0, 0.0),
        }
    }
}

impl fmt::Display for Rollup {
    fn fmt(&self, f: &mut fmt::Formatter) -> fmt::Result {
        let (name, (first, second)) = (self.about().name, self.parameters());
        match self.about().parameters.len() {
            0 => f.pad(name),
            1 => f.pad(&format!("{name}({first})")),
            _ => f.pad(&format!("{name}({first}, {second})")),
        }
    }
}

impl FromStr for Rollup {
    type Err = UnknownRollup;

    /// As `avg`, `quantile(0.9)` or `holt_winters(0.5, 0.1)`.
    fn from_str(text: &str) -> Result<Rollup, UnknownRollup> {
        let (name, list) = match text.strip_suffix(')').and_then(|open| open.split_once('(')) {
            Some((name, list)) => (name, list.split(',').map(|p| p.trim().parse()).collect()),
            None => (text, Ok(vec![])),
        };
        let about = ROLLUPS.iter().find(|about| about.name == name).ok_or(UnknownRollup::Name)?;
        match list {
            Ok(list) if list.len() == about.parameters.len() => Ok(Rollup::of(name, &list)),
            _ => Err(UnknownRollup::Parameters(about)),
        }
    }
}

/// The type of a parameter.
macro_rules! number {
    ($parameter:ident) => {
        f64
    };
}

/// From the rows: the enum, its numbers and the table.
macro_rules! rollups {
    ($($name:literal $variant:ident $(($($parameter:ident),+))? $group:ident $unit:ident $sentence:literal)*) => {
        /// What is made of the readings of a window.
        #[derive(Clone, Copy, Debug, PartialEq)]
        pub enum Rollup {
            $(#[doc = $sentence] $variant $(($(number!($parameter)),+))?,)*
        }

        enum Number {
            $($variant,)*
        }

        impl Rollup {
            /// Its number in the exported form.
            pub fn number(self) -> u32 {
                match self {
                    $(Rollup::$variant { .. } => Number::$variant as u32,)*
                }
            }

            /// The rollup of a name in the table, with as many parameters as it has.
            fn of(name: &str, parameters: &[f64]) -> Rollup {
                let mut _rest = parameters.iter().copied();
                match name {
                    $($name => Rollup::$variant $(($({
                        let $parameter = _rest.next();
                        $parameter.expect("as many parameters as the table has")
                    }),+))?,)*
                    _ => unreachable!("the name is in the table"),
                }
            }
        }

        /// A row for each rollup, in the order of their numbers.
        pub const ROLLUPS: [About; 50] = [
            $(About {
                name: $name,
                parameters: &[$($(stringify!($parameter)),+)?],
                group: Group::$group,
                unit: Unit::$unit,
                sentence: $sentence,
            },)*
        ];
    };
}

rollups! {
    "avg" Avg Level Value "the mean"
    "min" Min Level Value "the least value"
    "max" Max Level Value "the greatest value"
    "mad" Mad Spread Value "the median of the distances from the median"
    "median" Median Level Value "the median"
    "tmin" Tmin Time Unix "when the least value was read, the last time of several"
    "tmax" Tmax Time Unix "when the greatest value was read, the last time of several"
    "tfirst" Tfirst Time Unix "when the first reading was taken"
    "tlast" Tlast Time Unix "when the last reading was taken"
    "tlast_change" TlastChange Time Unix "when the value last changed"
    "sum" Sum Sum Value "the sum"
    "sum2" Sum2 Sum Squared "the sum of the squares"
    "rate_over_sum" RateOverSum Sum PerSecond "the sum over the window's seconds"
    "range" Range Spread Value "the greatest less the least value"
    "absent" Absent Presence Number "1 where the window is empty"
    "present" Present Presence Number "1 where the window has a reading"
    "count" Count Presence Number "the number of readings"
    "stddev" Stddev Spread Value "the standard deviation"
    "stdvar" Stdvar Spread Squared "the variance"
    "increase_pure" IncreasePure Increase Value "the last value less the predecessor, which is 0 where there is none"
    "lifetime" Lifetime Time Seconds "from the predecessor, or else the first reading, to the last"
    "lag" Lag Time Seconds "from the last reading, or else the predecessor, to the output time"
    "scrape_interval" ScrapeInterval Time Seconds "the mean time from reading to reading"
    "changes" Changes Changes Number "how often the value changed; without a predecessor the first reading counts"
    "changes_prometheus" ChangesPrometheus Changes Number "how often the value changed inside the window"
    "increases" Increases Changes Number "how often the value rose"
    "resets" Resets Changes Number "how often the value fell"
    "mode_over_time" ModeOverTime Level Value "the most frequent value"
    "ascent_over_time" AscentOverTime Increase Value "the sum of all rises"
    "descent_over_time" DescentOverTime Increase Value "the sum of all falls"
    "zscore_over_time" ZscoreOverTime Spread Number "how many standard deviations the last value lies from the mean"
    "first" First Level Value "the first value"
    "default" Default Level Value "the last value, also where it is a staleness mark"
    "distinct" Distinct Presence Number "the number of different values"
    "deriv_slow" DerivSlow Slope PerSecond "the slope of the line of least squares"
    "deriv_fast" DerivFast Slope PerSecond "the slope from the predecessor, or else the first reading, to the last"
    "ideriv" Ideriv Slope PerSecond "the slope between the last two readings"
    "delta" Delta Increase Value "the last value less the predecessor, which is guessed where there is none"
    "delta_prometheus" DeltaPrometheus Increase Value "the last value less the first"
    "idelta" Idelta Increase Value "the last value less the one before"
    "open" Open Candlestick Value "the predecessor, if it stands at the window's start, or else the first value"
    "close" Close Candlestick Value "the last value before the last reading earlier than the output time"
    "high" High Candlestick Value "the greatest value of those that open and close choose from"
    "low" Low Candlestick Value "the least value of those that open and close choose from"
    "integrate" Integrate Sum TimesSeconds "the area under the values, each held until the next"
    "quantile" Quantile(phi) Level Value "the value that a share phi of the readings does not exceed"
    "predict_linear" PredictLinear(seconds) Slope Value "where the line of least squares is after that many seconds"
    "holt_winters" HoltWinters(smoothing, trend) Slope Value "double exponential smoothing"
    "until_next" UntilNext Time Seconds "from the output time to the next reading, whatever the window holds"
    "stale_samples" StaleSamples Presence Number "the number of staleness marks"
}
