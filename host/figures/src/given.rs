//! The options as they were written, and which of them mean something where they stand.

use std::str::FromStr;

use crate::failure::Failure;
use crate::text::excerpt;
use crate::time;

/// What options and files are given to.
#[derive(Clone, Copy, Debug, PartialEq)]
pub enum Task {
    Figures,
    Explain,
    Crossings,
    Nearest,
    Merge,
    Readings,
    List,
    Demo,
}

impl Task {
    /// The task of a first argument, if it is the word for one.
    pub fn named(word: &str) -> Option<Task> {
        use Task::{Crossings, Demo, Explain, List, Merge, Nearest, Readings};
        let words = [Explain, Crossings, Nearest, Merge, Readings, List, Demo];
        words.into_iter().find(|task| task.word() == word)
    }

    pub fn word(self) -> &'static str {
        match self {
            Task::Figures => "",
            Task::Explain => "explain",
            Task::Crossings => "crossings",
            Task::Nearest => "nearest",
            Task::Merge => "merge",
            Task::Readings => "readings",
            Task::List => "list",
            Task::Demo => "demo",
        }
    }
}

/// An option: whether a value follows it, and the tasks that take it.
struct Known {
    name: &'static str,
    valued: bool,
    tasks: &'static [Task],
}

const fn valued(name: &'static str, tasks: &'static [Task]) -> Known {
    Known { name, valued: true, tasks }
}

const fn flag(name: &'static str, tasks: &'static [Task]) -> Known {
    Known { name, valued: false, tasks }
}

const ALONE: &[Task] = &[Task::Figures];
const BOTH: &[Task] = &[Task::Figures, Task::Explain];
const SHOWN: &[Task] = &[Task::Figures, Task::Crossings, Task::Nearest];
const FORMATS: &[Task] = &[Task::Figures, Task::Crossings, Task::Nearest, Task::Readings];
const WRITTEN: &[Task] =
    &[Task::Figures, Task::Crossings, Task::Nearest, Task::Merge, Task::Readings];
const FILES: &[Task] =
    &[Task::Figures, Task::Explain, Task::Crossings, Task::Nearest, Task::Merge, Task::Readings];

const OPTIONS: [Known; 30] = [
    flag("--adjust-window", BOTH),
    valued("--at", &[Task::Explain, Task::Nearest]),
    valued("--decimals", SHOWN),
    flag("--default-rollup", BOTH),
    valued("--end", BOTH),
    valued("--format", FORMATS),
    valued("--holt-winters", BOTH),
    valued("--jobs", WRITTEN),
    valued("--limit", &[Task::Crossings]),
    valued("--lookback", BOTH),
    valued("--max-points", BOTH),
    valued("--min-readings", ALONE),
    valued("--name-column", FILES),
    valued("--output", WRITTEN),
    valued("--per-call", ALONE),
    valued("--plot", &[Task::Figures, Task::Crossings, Task::Demo]),
    valued("--pre", BOTH),
    valued("--predict-linear", BOTH),
    valued("--quantile", BOTH),
    flag("--readings", ALONE),
    valued("--rollup", BOTH),
    valued("--staleness", BOTH),
    valued("--start", BOTH),
    flag("--stats", ALONE),
    valued("--step", BOTH),
    valued("--time-column", FILES),
    valued("--times", FILES),
    valued("--unit", &[Task::Figures, Task::Crossings]),
    valued("--value-column", FILES),
    valued("--window", BOTH),
];

/// Options that mean nothing without another, and with another.
const WITHOUT: [(&str, &str); 3] =
    [("--default-rollup", "--lookback"), ("--per-call", "--stats"), ("--unit", "--plot")];
const WITH: [(&str, &str); 2] = [("--adjust-window", "--window"), ("--default-rollup", "--window")];

/// The options with their values, and the files.
#[derive(Default)]
pub struct Given {
    options: Vec<(&'static str, String)>,
    pub files: Vec<String>,
}

impl Given {
    /// Takes an argument, and the next one if that is its value.
    pub fn take(
        &mut self,
        argument: String,
        rest: &mut impl Iterator<Item = String>,
    ) -> Result<(), Failure> {
        if argument == "-" || !argument.starts_with('-') {
            self.files.push(argument);
            return Ok(());
        }
        let (name, value) = match argument.split_once('=') {
            Some((name, value)) => (name.to_string(), Some(value.to_string())),
            None => (argument, None),
        };
        let known = OPTIONS.iter().find(|known| known.name == name);
        let known = known.filter(|known| known.valued || value.is_none());
        let known = known.ok_or_else(|| usage(format!("{} is no option", excerpt(&name))))?;
        let value = match known.valued {
            true => value.or_else(|| rest.next()),
            false => Some(String::new()),
        };
        let value = value.ok_or_else(|| usage(format!("{name}: expected a value")))?;
        if self.flag(known.name) && known.name != "--rollup" {
            return Err(usage(format!("{name} is given twice")));
        }
        self.options.push((known.name, value));
        Ok(())
    }

    /// An error where an option or a file means nothing to the task, or beside the others.
    pub fn meaningful(&self, task: Task) -> Result<(), Failure> {
        let given = self.options.iter();
        let mut known =
            given.filter_map(|(name, _)| OPTIONS.iter().find(|known| known.name == *name));
        let nothing = known.find(|known| !known.tasks.contains(&task));
        if let (Some(Known { name, tasks, .. }), Task::Figures) = (nothing, task) {
            let words: Vec<&str> = tasks.iter().map(|task| task.word()).collect();
            return Err(usage(format!("{name} means nothing without {}", words.join(" or "))));
        }
        let no_files = matches!(task, Task::List | Task::Demo);
        let file = self.files.first().filter(|_| no_files).map(|file| excerpt(file));
        if let Some(name) = nothing.map(|known| known.name.to_string()).or(file) {
            return Err(usage(format!("figures {} takes no {name}", task.word())));
        }
        let without =
            WITHOUT.into_iter().find(|(name, other)| self.flag(name) && !self.flag(other));
        if let Some((name, other)) = without {
            return Err(usage(format!("{name} means nothing without {other}")));
        }
        match WITH.into_iter().find(|(name, other)| self.flag(name) && self.flag(other)) {
            Some((name, other)) => Err(usage(format!("{name} means nothing with {other}"))),
            None => Ok(()),
        }
    }

    /// The value of an option.
    pub fn text(&self, name: &str) -> Option<&str> {
        self.texts(name).next()
    }

    /// The values of an option that may stand more than once.
    pub fn texts(&self, name: &str) -> impl Iterator<Item = &str> {
        let found = self.options.iter().filter(move |(given, _)| *given == name);
        found.map(|(_, value)| value.as_str())
    }

    pub fn flag(&self, name: &str) -> bool {
        self.text(name).is_some()
    }

    /// The value of an option as a function reads it.
    pub fn read<T, E: ToString>(
        &self,
        name: &str,
        read: impl Fn(&str) -> Result<T, E>,
    ) -> Result<Option<T>, Failure> {
        self.text(name).map(|text| value(name, text, &read)).transpose()
    }

    pub fn duration(&self, name: &str) -> Result<Option<i64>, Failure> {
        self.read(name, time::parse_duration)
    }

    pub fn number<T: FromStr>(&self, name: &str) -> Result<Option<T>, Failure> {
        self.read(name, |text| text.parse().map_err(|_| "expected a whole number"))
    }

    pub fn positive<T: FromStr>(&self, name: &str) -> Result<Option<T>, Failure> {
        self.read(name, |text| text.parse().map_err(|_| "expected a whole number from 1 on"))
    }
}

/// The value of an option as a function reads it.
pub fn value<T, E: ToString>(
    name: &str,
    text: &str,
    read: impl Fn(&str) -> Result<T, E>,
) -> Result<T, Failure> {
    read(text).map_err(|expected| {
        usage(format!("{name}: {}, found \"{}\"", expected.to_string(), excerpt(text)))
    })
}

/// A command line that is not understood.
pub fn usage(message: impl Into<String>) -> Failure {
    Failure::Usage(message.into())
}

#[cfg(test)]
mod tests {
    use super::*;
    use crate::arguments::HELP;

    /// The help text has each option, with a value where it takes one.
    #[test]
    fn the_help_is_complete() {
        for known in &OPTIONS {
            let (_, after) = HELP.split_once(&format!("  {} ", known.name)).unwrap_or_else(|| {
                HELP.split_once(&format!(" {} ", known.name)).expect(known.name)
            });
            let valued = after.starts_with(|letter: char| letter.is_ascii_alphabetic());
            assert_eq!(valued, known.valued, "{}", known.name);
        }
        let listed = HELP.split_whitespace().filter(|word| word.starts_with("--"));
        for word in listed {
            assert!(OPTIONS.iter().any(|known| known.name == word.trim_end_matches(':')), "{word}");
        }
    }
}
