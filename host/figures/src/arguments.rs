//! The command line.

use std::num::NonZero;
use std::thread;

use harzoulin::{Rollup, Settings};

use crate::columns::Chosen;
use crate::failure::Failure;
use crate::given::{Given, Task, usage, value};
use crate::options::{Common, Format, Options, ReadingsFormat};
use crate::rollups;
use crate::time::{self, Form, Stamp};

/// What `figures --help` prints.
pub const HELP: &str = include_str!("help.txt");

/// The most digits after the point that can be asked for.
const DECIMALS: usize = 20;

/// What is to be done.
#[derive(Debug)]
pub enum Command {
    /// Figures of files.
    Figures(Options),
    /// One figure at a time.
    Explain(Options, i64),
    /// The crossings of a limit.
    Crossings(Common, f64),
    /// The readings nearest to a time.
    Nearest(Common, Stamp),
    /// One series from two logs.
    Merge(Common),
    /// The readings themselves.
    Readings(Common, ReadingsFormat),
    /// The table of rollups.
    List,
    /// The series that ship, with the file for the picture.
    Demo(String),
    /// The help text.
    Help,
    /// The version.
    Version,
}

/// The command of the arguments.
pub fn parse(arguments: impl Iterator<Item = String>) -> Result<Command, Failure> {
    let mut arguments = arguments.peekable();
    let task = arguments.peek().and_then(|first| Task::named(first));
    if task.is_some() {
        arguments.next();
    }
    let mut given = Given::default();
    while let Some(argument) = arguments.next() {
        match argument.as_str() {
            "--help" | "-h" => return Ok(Command::Help),
            "--version" => return Ok(Command::Version),
            _ => given.take(argument, &mut arguments)?,
        }
    }
    let task = task.unwrap_or(Task::Figures);
    given.meaningful(task)?;
    match task {
        Task::Figures => options(&given).map(Command::Figures),
        Task::Explain => explain(&given),
        Task::Crossings => {
            let limit = given.read("--limit", limit)?;
            let limit = limit.ok_or_else(|| usage("expected --limit NUMBER for crossings"))?;
            Ok(Command::Crossings(common(&given)?, limit))
        }
        Task::Nearest => {
            let asked = asked(&given, task)?;
            Ok(Command::Nearest(common(&given)?, asked))
        }
        Task::Merge => match given.files.len() {
            2 => common(&given).map(Command::Merge),
            count => Err(usage(format!("expected two files for merge, found {count}"))),
        },
        Task::Readings => readings(&given),
        Task::List => Ok(Command::List),
        Task::Demo => Ok(Command::Demo(picture(&given)?.unwrap_or("demo.svg".into()))),
    }
}

/// The time that is asked for, as it is written.
fn asked(given: &Given, task: Task) -> Result<Stamp, Failure> {
    let at = given.read("--at", time::parse)?;
    let expected = || usage(format!("expected --at TIME for {}", task.word()));
    at.map(|(at, form)| Stamp(at, form)).ok_or_else(expected)
}

fn explain(given: &Given) -> Result<Command, Failure> {
    let Stamp(at, _) = asked(given, Task::Explain)?;
    let options = options(given)?;
    match options.rollups.len() {
        1 => Ok(Command::Explain(options, at)),
        _ => Err(usage("figures explain takes one rollup")),
    }
}

/// The rollups that have parameters by an option of their own.
const PARAMETERS: [(&str, &str); 3] = [
    ("--quantile", "quantile"),
    ("--predict-linear", "predict_linear"),
    ("--holt-winters", "holt_winters"),
];

/// The rollups, each once.
fn chosen_rollups(given: &Given) -> Result<Vec<Rollup>, Failure> {
    let by_option: Vec<_> = PARAMETERS.iter().filter(|(option, _)| given.flag(option)).collect();
    match by_option[..] {
        [] => {}
        [(option, name)] => return parameters(given, option, name).map(|rollup| vec![rollup]),
        [(first, _), (second, _), ..] => {
            return Err(usage(format!("expected one of {first} and {second}")));
        }
    }
    let mut rollups = vec![];
    for text in given.texts("--rollup") {
        let rollup = value("--rollup", text, rollups::parse)?;
        if rollups.contains(&rollup) {
            return Err(usage(format!("--rollup {rollup} is given twice")));
        }
        rollups.push(rollup);
    }
    if rollups.is_empty() { Err(usage("expected --rollup NAME")) } else { Ok(rollups) }
}

/// The rollup whose parameters an option has. Its name may be given besides, but no other.
fn parameters(given: &Given, option: &str, name: &str) -> Result<Rollup, Failure> {
    let full = |parameters: &str| format!("{name}({parameters})").parse::<Rollup>();
    let rollup = given.read(option, full)?.ok_or_else(|| usage("expected --rollup NAME"))?;
    match given.texts("--rollup").all(|other| other == name) {
        true => Ok(rollup),
        false => {
            Err(usage(format!("expected --rollup {rollup} beside other rollups, found {option}")))
        }
    }
}

fn options(given: &Given) -> Result<Options, Failure> {
    let common = common(given)?;
    let window = given.duration("--window")?;
    let step = given.duration("--step")?.or(window);
    let rollups = chosen_rollups(given)?;
    let step = step.ok_or_else(|| usage("expected --step or --window"))?;
    let settings = Settings {
        step,
        window: window.unwrap_or(0),
        may_adjust_window: given.flag("--adjust-window"),
        is_default_rollup: given.flag("--default-rollup"),
        lookback_delta: given.duration("--lookback")?.unwrap_or(0),
        min_staleness_interval: given.duration("--staleness")?.unwrap_or(0),
        max_points_per_series: given.number("--max-points")?.unwrap_or(0),
        samples_scanned_per_call: given.number("--per-call")?.unwrap_or(0),
        ..Settings::default()
    };
    let options = Options {
        pre: given.read("--pre", str::parse)?.unwrap_or_default(),
        rollups,
        start: given.read("--start", time::parse)?.map(|(time, _)| time),
        end: given.read("--end", time::parse)?.map(|(time, _)| time),
        settings,
        min_readings: given.positive("--min-readings")?.map_or(0, NonZero::get),
        readings: given.flag("--readings"),
        stats: given.flag("--stats"),
        common,
    };
    if options.readings && options.common.format != Format::Csv {
        let format = given.text("--format").unwrap_or_default();
        let message = format!("--readings means nothing with --format {format}, which has them");
        return Err(usage(message));
    }
    Ok(options)
}

/// In bytes times are of one form.
fn readings(given: &Given) -> Result<Command, Failure> {
    let common = but_for_format(given)?;
    let format = given.read("--format", readings_format)?.unwrap_or_default();
    match (format, common.times) {
        (ReadingsFormat::Raw, Some(_)) => Err(usage("--times means nothing with --format raw")),
        _ => Ok(Command::Readings(common, format)),
    }
}

/// The files, and how what comes of them is shown.
fn common(given: &Given) -> Result<Common, Failure> {
    let common = but_for_format(given)?;
    Ok(Common { format: given.read("--format", format)?.unwrap_or_default(), ..common })
}

/// All of that but for the format, which is the usual one: not all tasks have the same.
fn but_for_format(given: &Given) -> Result<Common, Failure> {
    if given.files.is_empty() {
        return Err(usage("expected a file, or - for standard input"));
    }
    if given.files.iter().filter(|file| *file == "-").count() > 1 {
        return Err(usage("expected - once"));
    }
    let [time, value, name] = ["--time-column", "--value-column", "--name-column"]
        .map(|option| given.text(option).map(String::from));
    let jobs = given.positive("--jobs")?.or(thread::available_parallelism().ok());
    Ok(Common {
        files: given.files.clone(),
        chosen: Chosen { time, value, name },
        format: Format::default(),
        decimals: given.read("--decimals", decimals)?,
        times: given.read("--times", form)?,
        output: given.text("--output").filter(|file| *file != "-").map(String::from),
        plot: picture(given)?,
        unit: given.text("--unit").unwrap_or_default().into(),
        jobs: jobs.map_or(1, NonZero::get),
    })
}

/// The file of the picture.
fn picture(given: &Given) -> Result<Option<String>, Failure> {
    given.read("--plot", |file| match file {
        "-" => Err("expected a file"),
        _ => Ok(file.to_string()),
    })
}

fn limit(text: &str) -> Result<f64, &'static str> {
    text.parse().map_err(|_| "expected a number")
}

fn decimals(text: &str) -> Result<usize, String> {
    let number = text.parse().ok().filter(|number| *number <= DECIMALS);
    number.ok_or_else(|| format!("expected a whole number up to {DECIMALS}"))
}

fn format(text: &str) -> Result<Format, &'static str> {
    match text {
        "csv" => Ok(Format::Csv),
        "text" => Ok(Format::Text),
        "json" => Ok(Format::Json),
        _ => Err("expected csv, text or json"),
    }
}

fn readings_format(text: &str) -> Result<ReadingsFormat, &'static str> {
    match text {
        "csv" => Ok(ReadingsFormat::Csv),
        "raw" => Ok(ReadingsFormat::Raw),
        _ => Err("expected csv or raw"),
    }
}

fn form(text: &str) -> Result<Form, &'static str> {
    match text {
        "ms" => Ok(Form::Millis),
        "rfc3339" => Ok(Form::Rfc3339),
        _ => Err("expected ms or rfc3339"),
    }
}
