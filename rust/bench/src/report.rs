//! Tables in Markdown, ready to be pasted into docs/SPEED.md.

/// A table: what the library takes, and that over what the others take.
pub struct Table {
    others: Vec<&'static str>,
    /// For each group of rows, those of each ratio.
    spans: Vec<(String, Vec<Option<Span>>)>,
}

/// The least and the most.
type Span = (f64, f64);

pub const LIBRARY: &str = "library";

pub fn shown(nanoseconds: f64) -> String {
    match nanoseconds {
        n if n < 1e3 => format!("{n:.1} ns"),
        n if n < 1e6 => format!("{:.1} µs", n / 1e3),
        n if n < 1e9 => format!("{:.2} ms", n / 1e6),
        n => format!("{:.2} s", n / 1e9),
    }
}

/// The same for one of many units: of a byte, to the picosecond.
fn each(nanoseconds: f64) -> String {
    if nanoseconds < 10.0 {
        format!("{nanoseconds:.3} ns")
    } else {
        shown(nanoseconds)
    }
}

/// The head of a table; the first column, which has none, says what is measured.
pub fn head<T: AsRef<str>>(title: &str, columns: &[T]) {
    let columns: Vec<&str> = columns.iter().map(AsRef::as_ref).collect();
    println!("\n## {title}\n\n| | {} |\n|---|{}", columns.join(" | "), "---|".repeat(columns.len()));
}

/// A number with three places or so.
pub fn ratio(ratio: f64) -> String {
    match ratio {
        r if r < 10.0 => format!("{r:.2}"),
        r if r < 100.0 => format!("{r:.1}"),
        r => format!("{r:.0}"),
    }
}

impl Table {
    /// `each` heads what the library takes for one unit, where the rows say how many there are.
    pub fn new(title: &str, each: Option<&str>, others: &[&'static str]) -> Table {
        let mut columns = vec![LIBRARY.to_owned()];
        columns.extend(each.map(str::to_owned));
        columns.extend(others.iter().map(|other| format!("/ {other}")));
        head(title, &columns);
        Table { others: others.to_vec(), spans: Vec::new() }
    }

    /// A row of a group; `units` where the table has a column for one of them.
    pub fn row(&mut self, group: &str, what: &str, units: Option<usize>, times: &[(&'static str, f64)]) {
        let time = |name: &str| times.iter().find(|(of, _)| *of == name).map(|(_, time)| *time);
        let library = time(LIBRARY).expect("the library is measured");
        let mut columns = vec![what.to_owned(), shown(library)];
        columns.extend(units.map(|units| each(library / units as f64)));
        let ratios: Vec<Option<f64>> = self.others.iter().map(|other| time(other).map(|time| library / time)).collect();
        columns.extend(ratios.iter().map(|other| other.map_or("-".into(), ratio)));
        println!("| {} |", columns.join(" | "));
        if self.spans.last().is_none_or(|(last, _)| last != group) {
            self.spans.push((group.to_owned(), vec![None; ratios.len()]));
        }
        let (_, spans) = self.spans.last_mut().expect("a group");
        for (span, ratio) in spans.iter_mut().zip(ratios) {
            if let Some(ratio) = ratio {
                *span = Some(span.map_or((ratio, ratio), |(least, most)| (ratio.min(least), ratio.max(most))));
            }
        }
    }

    /// The least and the most of each ratio, a row for each group.
    pub fn spans(&self, title: &str) {
        head(title, &self.others.iter().map(|other| format!("{LIBRARY} / {other}")).collect::<Vec<_>>());
        for (group, spans) in &self.spans {
            let shown = |span: &Option<Span>| span.map_or("-".into(), |(least, most)| format!("{} to {}", ratio(least), ratio(most)));
            println!("| {group} | {} |", spans.iter().map(shown).collect::<Vec<_>>().join(" | "));
        }
    }
}

/// A table in which the library stands beside an earlier archive, with the spread of the ratios over the runs.
#[cfg(before)]
pub mod beside {
    use super::{head, shown};

    pub fn table(title: &str) {
        head(title, &["before", "now", "plain", "before / now", "now / plain"]);
    }

    /// The middle of the runs, and the least and the most of each ratio; `each` units in a call.
    pub fn row(what: &str, each: f64, runs: &[Vec<f64>]) {
        let sorted = |mut times: Vec<f64>| {
            times.sort_by(f64::total_cmp);
            times
        };
        let middle = |run: &Vec<f64>| shown(sorted(run.clone())[run.len() / 2] / each);
        let ratio = |a: &Vec<f64>, b: &Vec<f64>| {
            let ratios = sorted(a.iter().zip(b).map(|(a, b)| a / b).collect());
            format!("{:.2} ({:.2} to {:.2})", ratios[ratios.len() / 2], ratios[0], ratios[ratios.len() - 1])
        };
        let [before, now, plain] = runs else { panic!("three ways") };
        println!("| {what} | {} | {} | {} | {} | {} |", middle(before), middle(now), middle(plain), ratio(before, now), ratio(now, plain));
    }
}
