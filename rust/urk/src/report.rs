//! The reals in a column of a table: how many, least, greatest, sum and mean; and a plot of them.

use std::ffi::OsStr;
use std::fmt::Write as _;

use urkibasko::{Database, Record, Summary, Value};

use crate::database;
use crate::files;
use crate::json::{self, Object};
use crate::map::escape;
use crate::refused::{self, Asked};
use crate::schema::{Columns, Schema};
use crate::words::Words;
use crate::{out, Done, Stop};

/// Columns and lines of the plot in the terminal.
const WIDTH: usize = 64;
const HEIGHT: usize = 10;

pub fn run(words: &Words) -> Done {
    let input = database::open(words)?;
    let database = Database::new(&input.image).map_err(|refusal| refused::stop(&input, refusal, Asked::Whole, words.json()))?;
    let schema = Schema::of(&input.image);
    let root = schema.root(words, words.place(1))?;
    let column = column_of(words, &schema.columns(root), words.place(2))?;
    let refused = |refusal| refused::stop(&input, refusal, Asked::Root(root), words.json());
    let mut room = vec![0; urkibasko::MAX_PAYLOAD];
    let summary = database.report(root, column, &mut room).map_err(refused)?;
    let mut levels = Vec::new();
    for row in database.rows(root) {
        let row = row.map_err(refused)?;
        let payload = urkibasko::payload(&input.image, row.page, row.cell, &mut room).map_err(refused)?;
        if let Some(Value::Real(level)) = Record::new(payload).and_then(|record| record.column(column)) {
            levels.push(level);
        }
    }
    if let Some(path) = words.value_path("--svg") {
        let file = files::create(path, &input.paths())?;
        let title = format!("{}: column {column} of the table at page {root}", input.short_name());
        files::write(file, path, picture(&title, &summary, &levels).as_bytes())?;
    }
    if words.json() {
        return out::print(&(object(&summary) + "\n"));
    }
    let plot = if words.has("--svg") { String::new() } else { plot(&levels) };
    out::print(&(told(&summary) + &plot))
}

/// A column by its name, or by its number from 1.
fn column_of(words: &Words, columns: &Columns, word: &OsStr) -> Result<u64, Stop> {
    let text = word.to_string_lossy();
    if text.bytes().all(|byte| byte.is_ascii_digit()) {
        return words.number("COLUMN", word);
    }
    let named = columns.names().iter().position(|name| name.eq_ignore_ascii_case(&text));
    named
        .map(|column| column as u64 + 1)
        .ok_or_else(|| words.off(format!("'{text}' is neither a number nor one of the columns {}", columns.names().join(", "))))
}

fn object(summary: &Summary) -> String {
    let real = |real: Option<f64>| real.map(json::real);
    let met = summary.count > 0;
    Object::new()
        .field("count", summary.count)
        .maybe("least", real(met.then_some(summary.least)))
        .maybe("greatest", real(met.then_some(summary.greatest)))
        .maybe("sum", real(summary.sum))
        .maybe("mean", real(summary.mean()))
        .end()
}

/// The summary, a line each.
fn told(summary: &Summary) -> String {
    let mut text = format!("count     {}\n", summary.count);
    if summary.count > 0 {
        let real = |real: Option<f64>| real.map_or("not a number: it met infinities of both signs".to_owned(), |real| format!("{real:?}"));
        let _ = writeln!(text, "least     {:?}\ngreatest  {:?}\nsum       {}", summary.least, summary.greatest, real(summary.sum));
        if let Some(mean) = summary.mean() {
            let _ = writeln!(text, "mean      {mean:?}");
        }
    }
    text
}

/// Levels that can be drawn, with the least and the greatest of them; none where there are none.
struct Drawn {
    levels: Vec<f64>,
    least: f64,
    greatest: f64,
}

impl Drawn {
    fn new(levels: &[f64]) -> Option<Drawn> {
        let levels: Vec<f64> = levels.iter().copied().filter(|level| level.is_finite()).collect();
        let least = levels.iter().copied().reduce(f64::min)?;
        let greatest = levels.iter().copied().reduce(f64::max)?;
        Some(Drawn { levels, least, greatest })
    }

    /// How high a level stands, from 0 to 1. Halves are taken first: the span itself may be infinite.
    fn height(&self, level: f64) -> f64 {
        let span = self.greatest / 2.0 - self.least / 2.0;
        if span > 0.0 {
            (level / 2.0 - self.least / 2.0) / span
        } else {
            0.5
        }
    }

    /// The levels in at most so many columns, left to right: of each column how low and how high it reaches.
    fn columns(&self, most: usize) -> Vec<(f64, f64)> {
        let count = self.levels.len();
        let width = count.min(most);
        (0..width)
            .map(|i| {
                let part = &self.levels[i * count / width..(i + 1) * count / width];
                let heights = || part.iter().map(|&level| self.height(level));
                (heights().fold(1.0, f64::min), heights().fold(0.0, f64::max))
            })
            .collect()
    }
}

/// The levels in the order of the rows, from the first on; several in a column where there are many. Infinities are not drawn.
fn plot(levels: &[f64]) -> String {
    let Some(drawn) = Drawn::new(levels) else {
        return String::new();
    };
    let line = |height: f64| (height * (HEIGHT - 1) as f64).round() as usize;
    let columns = drawn.columns(WIDTH);
    let mut text = String::from("\n");
    for at in (0..HEIGHT).rev() {
        let marks: String = columns.iter().map(|&(low, high)| if (line(low)..=line(high)).contains(&at) { '*' } else { ' ' }).collect();
        let label = match at {
            _ if at == HEIGHT - 1 => format!("  {:?}", drawn.greatest),
            0 => format!("  {:?}", drawn.least),
            _ => String::new(),
        };
        let _ = writeln!(text, "{}", format!("|{marks:<width$}|{label}", width = columns.len()).trim_end());
    }
    let left_out = levels.len() - drawn.levels.len();
    if left_out > 0 {
        let _ = writeln!(text, "{left_out} infinite, not drawn");
    }
    text
}

/// The same as a picture: a bar a column from its lowest to its highest level, with the mean as a line.
fn picture(title: &str, summary: &Summary, levels: &[f64]) -> String {
    const WIDE: usize = 800;
    const HIGH: f64 = 300.0;
    let (left, top) = (20.0, 60.0);
    let mut svg = format!(
        "<svg xmlns=\"http://www.w3.org/2000/svg\" width=\"{0}\" height=\"{1}\" viewBox=\"0 0 {0} {1}\" font-family=\"sans-serif\" font-size=\"13\">\n\
         <rect width=\"100%\" height=\"100%\" fill=\"white\"/>\n<text x=\"{left}\" y=\"34\" font-size=\"16\">{2}: {3} reals</text>\n",
        WIDE + 240,
        top + HIGH + 40.0,
        escape(title),
        summary.count,
    );
    if let Some(drawn) = Drawn::new(levels) {
        let y = |height: f64| top + HIGH * (1.0 - height);
        let columns = drawn.columns(WIDE);
        let step = WIDE as f64 / columns.len() as f64;
        for (i, (low, high)) in columns.iter().enumerate() {
            let _ = writeln!(
                svg,
                "<rect x=\"{:.2}\" y=\"{:.2}\" width=\"{:.2}\" height=\"{:.2}\" fill=\"#1f4e79\"/>",
                left + i as f64 * step,
                y(*high) - 1.5,
                step.min(12.0),
                y(*low) - y(*high) + 3.0
            );
        }
        let mut label = |height: f64, text: String| {
            let _ = writeln!(svg, "<text x=\"{}\" y=\"{:.2}\">{}</text>", left + WIDE as f64 + 12.0, y(height) + 4.0, escape(&text));
        };
        label(1.0, format!("{:?}", drawn.greatest));
        label(0.0, format!("{:?}", drawn.least));
        if let Some(mean) = summary.mean().filter(|mean| mean.is_finite()) {
            let at = y(drawn.height(mean));
            let _ = writeln!(
                svg,
                "<path d=\"M {left} {at:.2} H {:.2}\" stroke=\"#b45f06\" stroke-dasharray=\"6 4\"><title>mean {mean:?}</title></path>",
                left + WIDE as f64
            );
        }
    }
    svg.push_str("</svg>\n");
    svg
}
