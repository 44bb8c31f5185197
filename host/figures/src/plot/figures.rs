//! The figures of a part, in the panel below the readings.

use harzoulin::is_stale;

use super::curve::SINGLE;
use super::part::Part;

impl Part<'_> {
    /// The figures, as [`single`](Part::single) ones if they are few, else as a line. Where there
    /// is no figure a tick stands at the bottom, and where it is a mark one of the mark's colour.
    pub fn figures(&mut self) {
        self.ticks("none", |figure| !figure.is_finite() && !is_stale(figure));
        if self.figures.iter().any(|figure| is_stale(*figure)) {
            self.ticks("stale", is_stale);
        }
        for (thin, class) in [(false, ""), (true, " thin")] {
            let figure = |place: usize| match self.is_thin(place) == thin {
                true => self.figures[place],
                false => f64::NAN,
            };
            let figures: Vec<f64> = (0..self.figures.len()).map(figure).collect();
            if figures.len() > SINGLE {
                self.line(&figures, class);
            } else {
                self.single(&figures, class);
            }
        }
    }

    /// A tick at the bottom for each figure of a kind.
    fn ticks(&mut self, class: &str, is: impl Fn(f64) -> bool) {
        let bottom = self.canvas.panels[1].bottom;
        let found = (0..self.figures.len()).filter(|place| is(self.figures[*place]));
        let ticks = found.map(|place| self.canvas.inside(self.answer.time(place)).round());
        let mut ticks: Vec<f64> = ticks.collect();
        ticks.dedup();
        let ticks: String = ticks.iter().map(|x| format!("M{x} {}v-6", bottom - 1.0)).collect();
        self.canvas.put(format_args!("<path class=\"{class}\" d=\"{ticks}\"/>"));
    }

    /// Each figure as a bar along its window, with a dot at its output time.
    fn single(&mut self, figures: &[f64], class: &str) {
        let (answer, window) = (self.answer, self.window());
        for place in (0..figures.len()).filter(|place| figures[*place].is_finite()) {
            let time = answer.time(place);
            let (from, to) = (self.canvas.inside(time - window), self.canvas.inside(time));
            let height = self.canvas.panels[1].y.place(figures[place]);
            self.canvas
                .put(format_args!("<path class=\"window{class}\" d=\"M{from} {height}H{to}\"/>"));
            self.canvas.put(format_args!(
                "<circle class=\"figure{class}\" cx=\"{to}\" cy=\"{height}\" r=\"2.6\"/>"
            ));
        }
    }

    /// The figures as a line that is broken where there is none.
    fn line(&mut self, figures: &[f64], class: &str) {
        let missing = |place: usize| !figures[place].is_finite();
        let breaks = |place| missing(place) || missing(place + 1);
        let time = |place| self.answer.time(place);
        let path =
            self.canvas.path(&self.canvas.panels[1].y, 0..figures.len(), time, figures, breaks);
        self.canvas.put(format_args!("<path class=\"figures{class}\" d=\"{path}\"/>"));
    }
}
