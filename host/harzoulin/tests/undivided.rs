//! No division stands between the estimate and the settled reach. A compiler makes a shift of a
//! division by a power of two, so the archive cannot show it: the proved source is read.

const SETTLE: &str = include_str!("../../../crates/config/src/settle.rt");
const REACH: &str = include_str!("../../../crates/config/src/reach.rt");

/// What an accepted settle calls besides: the estimate, the grid's size, which divides, and the lesser and the greater of two numbers.
const BESIDE: [&str; 4] =
    ["estimate::get_scrape_interval", "times::grid::points", "reach::min", "reach::max"];

/// A function's parameters, contract and body, without comments.
fn function(source: &str, name: &str) -> Option<String> {
    let (before, from) = source.split_once(&format!("fn {name}("))?;
    let line = &before[before.rfind('\n')? + 1..];
    let indent = &line[..line.len() - line.trim_start().len()];
    let (text, _) = from.split_once(&format!("\n{indent}}}\n"))?;
    Some(text.lines().map(|line| line.split("//").next().unwrap_or("")).collect())
}

/// The paths that are called: those with a parenthesis right behind them. A method is one of reach's settings.
fn calls(text: &str) -> impl Iterator<Item = String> + '_ {
    let in_path = |c: char| c.is_alphanumeric() || c == '_' || c == ':';
    let before = text.match_indices('(').map(|(at, _)| &text[..at]);
    let paths = before.map(move |text| text.split_at(text.trim_end_matches(in_path).len()));
    paths.filter(|(_, path)| !path.is_empty()).map(|(before, path)| match before.ends_with('.') {
        true => format!("reach::{path}"),
        false => path.to_string(),
    })
}

/// The functions that an accepted settle goes through, or the one that divides or is not found.
fn undivided(settle: &str, reach: &str) -> Result<Vec<String>, String> {
    let mut read = vec![];
    let mut left = vec!["settle::settle_accepted".to_string()];
    while let Some(path) = left.pop() {
        if BESIDE.contains(&&*path) || read.contains(&path) {
            continue;
        }
        let (file, text) = match path.split_once("::") {
            Some(("settle", name)) => ("settle", function(settle, name)),
            Some(("reach", name)) => ("reach", function(reach, name)),
            _ => ("", None),
        };
        let text = text.ok_or(format!("{path} is not found"))?;
        if text.contains(['/', '%']) {
            return Err(format!("{path} divides"));
        }
        let whole = |call: String| match call.contains("::") {
            true => call,
            false => format!("{file}::{call}"),
        };
        left.extend(calls(&text).map(whole));
        read.push(path);
    }
    read.sort();
    Ok(read)
}

#[test]
fn no_division() {
    let read = [
        "reach::adjusted_window",
        "reach::bounded_reach",
        "reach::capped",
        "reach::get_max_prev_interval",
        "reach::raised_step",
        "settle::settle_accepted",
    ];
    assert_eq!(undivided(SETTLE, REACH).unwrap(), read);
}

/// A text with one place of it replaced.
fn with(text: &str, old: &str, new: &str) -> String {
    assert_eq!(text.matches(old).count(), 1, "{old}");
    text.replace(old, new)
}

#[test]
fn a_division_put_back_is_seen() {
    let edits = [
        (">> 1", "/ 2", "reach::get_max_prev_interval divides"),
        (">> 2", "/ 4", "reach::get_max_prev_interval divides"),
        (">> 3", "/ 8", "reach::get_max_prev_interval divides"),
        ("n.min(limit)", "n % limit", "reach::capped divides"),
        (".max(self.min_staleness_interval)", " / 1", "reach::bounded_reach divides"),
        ("self.step.max(reach)", "self.scaled(reach)", "reach::scaled is not found"),
        ("scrape_interval * 5", "scaled(scrape_interval)", "reach::scaled is not found"),
        ("scrape_interval * 5", "ieee::scaled(5)", "ieee::scaled is not found"),
    ];
    for (old, new, seen) in edits {
        assert_eq!(undivided(SETTLE, &with(REACH, old, new)), Err(seen.to_string()));
    }
    let settle = with(SETTLE, "reach: far as i64", "reach: (far / 1) as i64");
    assert_eq!(undivided(&settle, REACH), Err("settle::settle_accepted divides".to_string()));
}
