//! A picture of readings and figures, as SVG: for each series the readings above, the figures with
//! their windows below, and the time under both. Or of readings with the crossings of a limit.

mod axis;
mod canvas;
mod crossed;
mod curve;
mod figures;
mod panel;
mod part;
mod readings;

use std::io::Write;

use crate::answer::Answer;
use crate::crossings::Crossed;
use crate::failure::Failure;
use crate::files::Files;
use crate::options::{Common, Options};
use part::{HEIGHT, Part};

const WIDTH: f64 = 1000.0;
const STYLE: &str = "text{font:12px sans-serif;fill:#333}.title{font-weight:bold;font-size:14px}\
.frame{fill:none;stroke:#999}.mark{stroke:#e4e4e4}.gap{fill:#eceff1}.note{fill:#78909c}\
.line{fill:none;stroke:#1f77b4;stroke-width:1.2;stroke-linejoin:round;stroke-linecap:round}.dot{fill:#1f77b4}\
.corrected{fill:none;stroke:#1f77b4;stroke-width:1.2;stroke-opacity:.4;stroke-linejoin:round;stroke-linecap:round}\
.window{stroke:#d95f02;stroke-width:2.4;stroke-opacity:.75}.figure{fill:#d95f02}\
.none{stroke:#78909c;stroke-width:1.5}.stale{stroke:#7b1fa2;stroke-width:1.5}\
.away{stroke:#7b1fa2;stroke-width:1.2;stroke-dasharray:2 3}\
.figures{fill:none;stroke:#d95f02;stroke-width:1.2;stroke-linejoin:round;stroke-linecap:round}\
.window.thin{stroke-dasharray:3 3}.figure.thin{fill:#fff;stroke:#d95f02}.figures.thin{stroke-opacity:.4}";

/// The most parts of a picture.
const PARTS: usize = 24;

/// An error where a picture would have too many parts to be looked at: one for each of something.
pub fn fits(common: &Common, parts: usize, of: &str) -> Result<(), Failure> {
    match &common.plot {
        Some(path) if parts > PARTS => Err(Failure::Input(format!(
            "--plot {path}: expected at most {PARTS} {of} for a picture, found {parts}"
        ))),
        _ => Ok(()),
    }
}

/// Writes a picture of all the answers, with a part for each series and rollup.
pub fn write(
    path: &str,
    groups: &[(&[Answer], &Options)],
    files: &mut Files,
) -> Result<(), Failure> {
    let parts: Vec<_> = groups
        .iter()
        .flat_map(|(answers, options)| answers.iter().map(move |answer| (answer, *options)))
        .flat_map(|(answer, options)| {
            (0..options.rollups.len()).map(move |rollup| (answer, options, rollup))
        })
        .collect();
    let draw =
        |part: &(&Answer, &Options, usize), top| Part::new(part.0, part.1, part.2, top).draw();
    picture(path, STYLE, (&parts, HEIGHT), draw, files)
}

/// Writes a picture of crossings, with a part for each series.
pub fn crossings(
    path: &str,
    found: &[Crossed],
    common: &Common,
    files: &mut Files,
) -> Result<(), Failure> {
    let style = format!("{STYLE}{}", crossed::STYLE);
    let draw = |crossed: &Crossed, top| crossed::draw(crossed, common, top);
    picture(path, &style, (found, crossed::HEIGHT), draw, files)
}

/// Writes a picture of parts, each of which has a height and is drawn under those before it.
fn picture<T>(
    path: &str,
    style: &str,
    (parts, each): (&[T], f64),
    draw: impl Fn(&T, f64) -> String,
    files: &mut Files,
) -> Result<(), Failure> {
    let height = each * parts.len() as f64;
    let mut svg = format!(
        "<svg xmlns=\"http://www.w3.org/2000/svg\" viewBox=\"0 0 {WIDTH} {height}\" \
         width=\"{WIDTH}\" height=\"{height}\">\n<style>{style}</style>\n\
         <rect width=\"{WIDTH}\" height=\"{height}\" fill=\"#fff\"/>\n"
    );
    for (place, part) in parts.iter().enumerate() {
        svg += &draw(part, each * place as f64);
    }
    svg += "</svg>\n";
    files.write(path, |out| out.write_all(svg.as_bytes()))
}
