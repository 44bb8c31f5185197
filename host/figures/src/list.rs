//! The table of rollups.

use harzoulin::{Group, ROLLUPS};

/// The rollups by their groups, with a line each.
pub fn text() -> String {
    let width = ROLLUPS.iter().map(|about| about.to_string().len()).max().unwrap_or(0);
    let mut text = String::new();
    for group in Group::ALL {
        text += &format!("{}\n", title(group));
        for about in ROLLUPS.iter().filter(|about| about.group == group) {
            text += &format!("  {about:width$}  {}\n", about.sentence);
        }
    }
    text
}

fn title(group: Group) -> &'static str {
    match group {
        Group::Level => "How high the values are",
        Group::Spread => "How far apart they are",
        Group::Sum => "What they add up to",
        Group::Increase => "How much they changed",
        Group::Changes => "How often they changed",
        Group::Slope => "How fast they change, and where that leads",
        Group::Time => "When readings were taken",
        Group::Presence => "Whether and how many readings there are",
        Group::Candlestick => "Open, close, high and low",
    }
}
