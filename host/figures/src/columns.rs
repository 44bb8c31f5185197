//! The columns of a file: which field of a line is the time, the value and the name.

use std::borrow::Cow;

use harzoulin::Rollup;

use crate::text::excerpt;

/// The columns that are chosen by their names.
#[derive(Clone, Debug, Default)]
pub struct Chosen {
    pub time: Option<String>,
    pub value: Option<String>,
    pub name: Option<String>,
}

/// Where the fields of a line stand, and how many there are.
#[derive(Clone, Debug)]
pub struct Columns {
    pub time: usize,
    pub value: usize,
    pub name: Option<usize>,
    pub count: usize,
    /// Whether the values are figures, as the command writes them: NaN says that there is none.
    pub figures: bool,
    /// The names of the columns that are not used.
    pub unused: Vec<String>,
}

/// What each column is usually called.
const TIME: [&str; 2] = ["time", "timestamp"];
const VALUE: [&str; 2] = ["value", "reading"];
const NAME: [&str; 2] = ["name", "series"];

/// The column of counts that `--readings` writes, beside figures.
pub const READINGS: &str = "readings";

impl Columns {
    /// Without a header: time and value, or a name before them.
    pub fn usual(count: usize) -> Option<Columns> {
        let [time, value] = if count == 3 { [1, 2] } else { [0, 1] };
        let (name, unused) = ((count == 3).then_some(0), vec![]);
        matches!(count, 2 | 3).then_some(Columns {
            time,
            value,
            name,
            count,
            figures: false,
            unused,
        })
    }

    /// The columns that a header names; none where the line is no header.
    pub fn named(fields: &[Cow<str>], chosen: &Chosen) -> Result<Option<Columns>, String> {
        let fields: Vec<&str> = fields.iter().map(|field| field.trim_ascii()).collect();
        let time = find(&fields, "times", chosen.time.as_deref(), &TIME)?;
        let value = find(&fields, "values", chosen.value.as_deref(), &VALUE)?;
        let name = find(&fields, "names", chosen.name.as_deref(), &NAME)?;
        if (time, value, name) == (None, None, None) {
            return Ok(None);
        }
        let is_figures = |place: &usize| fields[*place].parse::<Rollup>().is_ok();
        let figures: Vec<usize> = (0..fields.len()).filter(is_figures).collect();
        let value = match value {
            None => one_of(&fields, "values", &figures)?,
            found => found,
        };
        let (Some(time), Some(value)) = (time, value) else {
            return Err("expected a header with time and value, and perhaps name".into());
        };
        if time == value || name.is_some_and(|name| name == time || name == value) {
            return Err("expected a column each for times, values and names".into());
        }
        let used = [Some(time), Some(value), name];
        let unused = (0..fields.len()).filter(|place| !used.contains(&Some(*place)));
        let unused: Vec<String> = unused.map(|place| fields[place].into()).collect();
        let figures = figures.contains(&value);
        if let Some(other) = unused.iter().find(|name| !figures || *name != READINGS)
            && !chosen.any()
        {
            return Err(format!(
                "expected a header with time and value, and perhaps name, found {} besides: choose \
                 columns by --time-column, --value-column or --name-column",
                excerpt(other)
            ));
        }
        Ok(Some(Columns { time, value, name, count: fields.len(), figures, unused }))
    }

    /// What a line of another length is told.
    pub fn expected(&self, found: usize) -> String {
        let names = match (self.count, self.name) {
            (2, _) => ", time and value,",
            (3, Some(_)) => ", name, time and value,",
            _ => "",
        };
        format!("expected {} fields{names} found {found}", self.count)
    }
}

impl Chosen {
    fn any(&self) -> bool {
        [&self.time, &self.value, &self.name].into_iter().any(Option::is_some)
    }
}

/// The place of the column of a name that is chosen, or else of one of the usual names.
fn find(
    fields: &[&str],
    what: &str,
    chosen: Option<&str>,
    usual: &[&str],
) -> Result<Option<usize>, String> {
    let is_named = |field: &str| match chosen {
        Some(name) => field == name,
        None => usual.iter().any(|name| field.eq_ignore_ascii_case(name)),
    };
    let places: Vec<usize> = (0..fields.len()).filter(|place| is_named(fields[*place])).collect();
    match (chosen.map(excerpt), places.len()) {
        (None, _) => one_of(fields, what, &places),
        (Some(_), 1) => Ok(Some(places[0])),
        (Some(name), 0) => Err(format!("expected a header with a column {name}")),
        (Some(name), count) => Err(format!("expected one column {name}, found {count}")),
    }
}

/// The one place of several, if there is any.
fn one_of(fields: &[&str], what: &str, places: &[usize]) -> Result<Option<usize>, String> {
    match places {
        [first, second, ..] => Err(format!(
            "expected one column of {what}, found {} and {}: choose one by --{}-column",
            excerpt(fields[*first]),
            excerpt(fields[*second]),
            what.trim_end_matches('s')
        )),
        places => Ok(places.first().copied()),
    }
}
