//! Rollups by the names that people know: those of the core, and MetricsQL's.

use harzoulin::{ROLLUPS, Rollup, UnknownRollup};

/// Each of these MetricsQL calls `.._over_time`.
const OVER_TIME: [&str; 23] = [
    "absent",
    "avg",
    "count",
    "distinct",
    "first",
    "increases",
    "mad",
    "max",
    "median",
    "min",
    "present",
    "quantile",
    "range",
    "stale_samples",
    "stddev",
    "stdvar",
    "sum",
    "sum2",
    "tfirst",
    "tlast",
    "tlast_change",
    "tmax",
    "tmin",
];

/// Other names of MetricsQL, and the rollup that each is.
const METRICSQL: [(&str, &str); 6] = [
    ("decreases_over_time", "resets"),
    ("default_rollup", "default"),
    ("deriv", "deriv_slow"),
    ("last_over_time", "default"),
    ("timestamp", "tlast"),
    ("timestamp_with_name", "tlast"),
];

/// What MetricsQL works out after it has taken a counter's restarts out.
const PREPARED: [(&str, &str); 4] = [
    ("increase", "delta"),
    ("increase_prometheus", "delta_prometheus"),
    ("irate", "ideriv"),
    ("rate", "deriv_fast"),
];

/// Words for a rollup that are not like its name.
const WORDS: [(&str, &str); 5] = [
    ("average", "avg"),
    ("last", "default"),
    ("mean", "avg"),
    ("stale", "stale_samples"),
    ("variance", "stdvar"),
];

/// The rollup of a text, or what was expected.
pub fn parse(text: &str) -> Result<Rollup, String> {
    match known(text).parse() {
        Err(UnknownRollup::Name) => Err(expected(name(text))),
        rollup => rollup.map_err(|expected| expected.to_string()),
    }
}

/// The text with the core's name, where it has a name of MetricsQL.
fn known(text: &str) -> String {
    let name = name(text);
    let short = name.strip_suffix("_over_time").filter(|short| OVER_TIME.contains(short));
    let core = short.or(other(&METRICSQL, name)).unwrap_or(name);
    format!("{core}{}", &text[name.len()..])
}

fn name(text: &str) -> &str {
    text.split_once('(').map_or(text, |(name, _)| name)
}

fn other(names: &[(&str, &'static str)], name: &str) -> Option<&'static str> {
    names.iter().find(|(known, _)| *known == name).map(|(_, core)| *core)
}

/// What is said of a name that no rollup has.
fn expected(name: &str) -> String {
    if let Some(core) = other(&PREPARED, name) {
        return format!("expected a rollup: MetricsQL's {name} is {core} after --pre resets_once");
    }
    let near = match other(&WORDS, name) {
        Some(core) => vec![core],
        None => nearest(name),
    };
    match near[..] {
        [] => "expected a rollup: see figures list".into(),
        _ => format!("expected a rollup, perhaps {}", near.join(" or ")),
    }
}

/// The names that are nearest, if they are near: a third of the letters may differ.
fn nearest(name: &str) -> Vec<&'static str> {
    let far = name.chars().count() / 3;
    let distances = ROLLUPS.iter().map(|about| (distance(name, about.name, far), about.name));
    let near: Vec<_> = distances.filter(|(distance, _)| *distance <= far).collect();
    let least = near.iter().map(|(distance, _)| *distance).min();
    near.into_iter().filter(|(d, _)| Some(*d) == least).map(|(_, name)| name).collect()
}

/// How many letters have to be put in, left out or changed; more than `far` where the lengths say so.
fn distance(one: &str, other: &str, far: usize) -> usize {
    if one.chars().count().abs_diff(other.len()) > far {
        return far + 1;
    }
    let mut row: Vec<usize> = (0..=other.len()).collect();
    for (line, letter) in one.chars().enumerate() {
        let mut before = row[0];
        row[0] = line + 1;
        for (place, target) in other.chars().enumerate() {
            let changed = before + usize::from(letter != target);
            before = row[place + 1];
            row[place + 1] = changed.min(before + 1).min(row[place] + 1);
        }
    }
    row[other.len()]
}

#[cfg(test)]
mod tests {
    use super::*;

    /// The original's own table of functions.
    const SOURCE: &str =
        include_str!("../../../docs/src/runtime/src/functions/rollup/rollup_fns.rs");

    /// Every function of the original that is one of the rollups is understood as that.
    #[test]
    fn metricsql_s_names_are_understood() {
        let mut found = 0;
        for line in SOURCE.lines().filter_map(|line| line.strip_prefix("make_factory!(new_rollup_"))
        {
            let (name, function) = line.trim_end_matches(");").split_once(", ").unwrap();
            let core = match function {
                "ROLLUP_LAST" => "default",
                "ROLLUP_DECREASES" => "resets",
                _ => function.strip_prefix("rollup_").unwrap(),
            };
            if ROLLUPS.iter().any(|about| about.name == core) {
                assert_eq!(parse(name).map(|rollup| rollup.to_string()), Ok(core.into()));
                found += 1;
            }
        }
        assert_eq!(found, 39);
        assert_eq!(parse("quantile_over_time(0.5)"), Ok(Rollup::Quantile(0.5)));
        assert_eq!(parse("deriv"), Ok(Rollup::DerivSlow));
        assert_eq!(parse("stale_samples_over_time"), Ok(Rollup::StaleSamples));
    }

    #[test]
    fn other_names_are_told_the_nearest() {
        let message = |text: &str| parse(text).unwrap_err();
        assert_eq!(message("aveg"), "expected a rollup, perhaps avg");
        assert_eq!(message("mean"), "expected a rollup, perhaps avg");
        assert_eq!(message("stale"), "expected a rollup, perhaps stale_samples");
        assert_eq!(message("qantile(0.5)"), "expected a rollup, perhaps quantile");
        assert_eq!(message("tmix"), "expected a rollup, perhaps tmin or tmax");
        assert_eq!(message("avg_over_tim"), "expected a rollup: see figures list");
        assert_eq!(message(""), "expected a rollup: see figures list");
        assert_eq!(message(&"x".repeat(100_000)), "expected a rollup: see figures list");
        let rate = "expected a rollup: MetricsQL's rate is deriv_fast after --pre resets_once";
        assert_eq!(message("rate"), rate);
        assert_eq!(message("quantile_over_time"), "expected quantile(phi) with numbers");
    }

    #[test]
    fn a_distance_counts_letters() {
        for (one, other, count) in [
            ("avg", "avg", 0),
            ("aveg", "avg", 1),
            ("avg", "max", 3),
            ("", "sum", 3),
            ("üm", "sum", 2),
        ] {
            assert_eq!(distance(one, other, 9), count, "{one} {other}");
        }
    }
}
