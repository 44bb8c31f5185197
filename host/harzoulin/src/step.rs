//! The preparing steps.

use std::error::Error;
use std::fmt;
use std::str::FromStr;

/// What is done to the values before the rollup sees them.
#[derive(Clone, Copy, Debug, Default, PartialEq, Eq)]
pub enum Step {
    /// The values as they are.
    #[default]
    None,
    /// A counter's restarts added back, as the original does: one is corrected again at each later
    /// value that is still below the one before it as corrected. 10, 2, 3 becomes 10, 12, 25.
    Resets,
    /// The step to the next value.
    Delta,
    /// The step to the next value, per second.
    Deriv,
    /// The whole seconds since the reading before.
    Intervals,
    /// A counter's restarts added back, each once: 10, 2, 3 becomes 10, 12, 13.
    ResetsOnce,
}

impl Step {
    /// Every step, in the order of its number.
    pub const ALL: [Step; 6] =
        [Step::None, Step::Resets, Step::Delta, Step::Deriv, Step::Intervals, Step::ResetsOnce];

    /// The name that it is written by.
    pub fn name(self) -> &'static str {
        ["none", "resets", "delta", "deriv", "intervals", "resets_once"][self as usize]
    }
}

impl fmt::Display for Step {
    fn fmt(&self, f: &mut fmt::Formatter) -> fmt::Result {
        f.pad(self.name())
    }
}

impl FromStr for Step {
    type Err = UnknownStep;

    fn from_str(text: &str) -> Result<Step, UnknownStep> {
        Step::ALL.into_iter().find(|step| step.name() == text).ok_or(UnknownStep)
    }
}

/// The text names no step.
#[derive(Clone, Copy, Debug, PartialEq, Eq)]
pub struct UnknownStep;

impl fmt::Display for UnknownStep {
    fn fmt(&self, f: &mut fmt::Formatter) -> fmt::Result {
        let names = Step::ALL.map(Step::name).join(", ");
        write!(f, "expected a preparing step: one of {names}")
    }
}

impl Error for UnknownStep {}
