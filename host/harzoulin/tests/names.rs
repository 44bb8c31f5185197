//! Names of steps and rollups, read and written.

use harzoulin::{ROLLUPS, Rollup, Step};

#[test]
fn a_name_reads_back() {
    for step in Step::ALL {
        assert_eq!(step.to_string().parse(), Ok(step));
    }
    for (number, about) in ROLLUPS.iter().enumerate() {
        let text = match about.parameters.len() {
            0 => about.name.to_string(),
            1 => format!("{}(0.9)", about.name),
            _ => format!("{}(0.5, 0.1)", about.name),
        };
        let rollup: Rollup = text.parse().unwrap();
        assert_eq!((rollup.number(), rollup.to_string()), (number as u32, text));
    }
}

#[test]
fn other_text_is_told_what_was_expected() {
    let message = |text: &str| text.parse::<Rollup>().unwrap_err().to_string();
    assert_eq!(message("mean"), "expected the name of a rollup, such as avg");
    assert_eq!(message("quantile"), "expected quantile(phi) with numbers");
    assert_eq!(message("quantile(x)"), "expected quantile(phi) with numbers");
    assert_eq!(message("holt_winters(1)"), "expected holt_winters(smoothing, trend) with numbers");
    assert_eq!(message("avg(1)"), "expected avg without parameters");
    let step = "rate".parse::<Step>().unwrap_err().to_string();
    let names = "none, resets, delta, deriv, intervals, resets_once";
    assert_eq!(step, format!("expected a preparing step: one of {names}"));
}
