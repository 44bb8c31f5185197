//! A workspace keeps its memory from call to call, and nothing else.

use harzoulin::{MOST, Rollup, Settings, Settled, Step, Workspace};

/// A series of some readings, one a minute, and a grid of as many output times.
fn series(readings: i64) -> (Vec<i64>, Vec<f64>, Settings) {
    let times: Vec<i64> = (0..readings).map(|reading| reading * 60_000).collect();
    let values = (0..readings).map(|reading| (reading * 7919 % 1009) as f64).collect();
    let end = (readings - 1).max(0) * 60_000;
    (times, values, Settings { end, step: 60_000, window: 600_000, ..Settings::default() })
}

#[test]
fn shorter_series_need_no_memory() {
    let mut workspace = Workspace::new();
    let mut places = |readings| {
        let (times, values, settings) = series(readings);
        let run = workspace.run(&times, &values, Step::Resets, Rollup::Median, &settings).unwrap();
        (run.values.as_ptr(), run.timestamps.as_ptr(), run.prepared.as_ptr())
    };
    let longest = places(1000);
    for readings in [1, 999, 0, 500, 1000] {
        assert_eq!(places(readings), longest);
    }
}

#[test]
fn a_used_workspace_answers_as_a_new_one() {
    let mut used = Workspace::new();
    for readings in [300, 7, 0, 1, 299, 2] {
        let (times, values, settings) = series(readings);
        for pre in Step::ALL {
            let mut new = Workspace::new();
            let [used, new] = [&mut used, &mut new].map(|workspace| {
                let run = workspace.run(&times, &values, pre, Rollup::Quantile(0.9), &settings);
                let run = run.unwrap();
                let bits =
                    |numbers: &[f64]| numbers.iter().map(|n| n.to_bits()).collect::<Vec<_>>();
                (bits(run.values), run.timestamps.to_vec(), bits(run.prepared), run.count)
            });
            assert_eq!(used, new);
        }
    }
}

/// The two steps for a counter: one corrects a restart at each later value, the other once.
#[test]
fn a_restart_again_and_once() {
    let (times, values) = ([0, 1, 2], [10.0, 2.0, 3.0]);
    let mut workspace = Workspace::new();
    let again = workspace.prepare(&times, &values, Step::Resets);
    assert_eq!(again, Ok(&[10.0, 12.0, 25.0][..]));
    let once = workspace.prepare(&times, &values, Step::ResetsOnce);
    assert_eq!(once, Ok(&[10.0, 12.0, 13.0][..]));
    let first = workspace.prepare(&times[..1], &[-0.0], Step::ResetsOnce).unwrap();
    assert_eq!(first[0].to_bits(), 0);
}

/// What VictoriaMetrics' own tests state of its counter adjustment, which corrects a restart once.
#[test]
fn published_adjustments() {
    let mut workspace = Workspace::new();
    let stated: [(&[f64], &[f64]); 3] = [
        (
            &[123., 34., 44., 21., 54., 34., 99., 12., 44., 32., 34., 34.],
            &[123., 157., 167., 188., 221., 255., 320., 332., 364., 396., 398., 398.],
        ),
        (&[-100., -200., -300., -400.], &[-100.; 4]),
        (&[100., 95., 120., 119., 139., 50.], &[100., 100., 125., 125., 145., 195.]),
    ];
    for (values, adjusted) in stated {
        let times: Vec<i64> = (0..values.len() as i64).collect();
        assert_eq!(workspace.prepare(&times, values, Step::ResetsOnce), Ok(adjusted));
    }
}

/// Refused calls leave the memory as it was, at any row.
#[test]
fn a_refusal_needs_no_memory() {
    let mut workspace = Workspace::new();
    let (times, values, good) = series(1000);
    let many = vec![0; MOST + 1];
    let mut refused = |times: &[i64], values: &[f64], settings: Settings| {
        let run = workspace.run(times, values, Step::None, Rollup::Avg, &settings);
        let number = run.unwrap_err().number();
        let settled = Settled { window: 1, reach: 1, points: 0 };
        let settings = settings.settled(settled);
        let run = workspace.settled_run(times, values, Step::None, Rollup::Avg, &settings);
        assert_eq!(run.unwrap_err().number(), number);
        assert!(number > 5 || workspace.prepare(times, values, Step::None).is_err());
        assert_eq!(workspace.bytes(), 0, "{number}");
        number
    };
    assert_eq!(refused(&times, &values[1..], good), 1);
    assert_eq!(refused(&many, &vec![0.0; MOST + 1], good), 2);
    assert_eq!(refused(&times, &vec![f64::NAN; 1000], good), 5);
    assert_eq!(refused(&times, &values, Settings { step: 0, ..good }), 6);
    assert_eq!(refused(&times, &values, Settings { start: i64::MIN, end: i64::MAX, ..good }), 7);
    assert_eq!(refused(&times, &values, Settings { end: MOST as i64, step: 1, ..good }), 11);
}

/// An accepted run needs the output, the prepared values, the remaining times and twice as much to work
/// in.
#[test]
fn memory_of_a_run() {
    let mut workspace = Workspace::new();
    let (times, values, settings) = series(1000);
    workspace.run(&times, &values, Step::None, Rollup::Avg, &settings).unwrap();
    assert_eq!(workspace.bytes(), 8 * (1000 + 4 * 1000));
}

/// A workspace may be moved to another thread.
#[test]
fn workspaces_are_sent() {
    fn sent<T: Send>(_: T) {}
    sent(Workspace::new());
}
