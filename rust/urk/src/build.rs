//! `urk build`: a fresh database of one table, from rows as `urk rows --json` prints them.

use std::io::BufRead;
use std::path::Path;

use urkibasko::{Builder, NotBuilt, Value};

use crate::create::{self, Table};
use crate::header::counted;
use crate::json::Object;
use crate::parse::{parse, Json};
use crate::schema::Columns;
use crate::show::Encoding;
use crate::words::Words;
use crate::{files, out, Done, Stop};

/// No line is longer: one of the largest payload in hexadecimal, or as a text of escapes, is not.
const MOST_LINE: u64 = 1 << 20;

pub fn run(words: &Words) -> Done {
    let missing = |what: &str| words.off(format!("{what} is missing"));
    let sql = words.value("--schema").ok_or_else(|| missing("--schema SQL"))?;
    let rows = words.value_path("--rows").ok_or_else(|| missing("--rows ROWS"))?;
    let out_path = words.value_path("--out").ok_or_else(|| missing("--out OUT"))?;
    let sql = sql.to_str().ok_or_else(|| words.off("--schema is a text in UTF-8".into()))?;
    let table = create::table(sql).map_err(|why| words.off(format!("--schema: {why}")))?;
    let new = files::create(out_path, &[rows])?;
    // Nothing half done is left behind; the file is one that this command made.
    let undo = |stop| {
        let _ = std::fs::remove_file(out_path);
        stop
    };
    let builder = read(words, &table, rows).map_err(undo)?;
    let image = builder.build().map_err(|refused| undo(words.said(refused.to_string(), status(&refused))))?;
    files::write(new, out_path, &image)?;
    out::print(&told(words, out_path, &image, &table.name, builder.rows()))
}

/// One line, or one object, on a file that was made.
pub fn told(words: &Words, out_path: &Path, image: &[u8], table: &str, rows: usize) -> String {
    let (out, pages) = (out_path.display().to_string(), image.len() / 1024);
    if words.json() {
        return Object::new().text("out", &out).field("length", image.len()).field("pages", pages).text("table", table).field("rows", rows).end()
            + "\n";
    }
    format!("{out}: {}, {} bytes: table '{}', {}\n", counted(pages as u64, "page"), image.len(), table.escape_debug(), counted(rows as u64, "row"))
}

/// Limits are told apart from inputs that are off.
pub fn status(refused: &NotBuilt) -> u8 {
    if refused.limit {
        3
    } else {
        2
    }
}

fn read(words: &Words, table: &Table, path: &Path) -> Result<Builder, Stop> {
    let (name, mut lines) = files::lines(path)?;
    let mut builder = Builder::new(&table.name, &table.sql);
    let mut before = None;
    for count in 1u64.. {
        let mut line = Vec::new();
        let read = std::io::Read::take(&mut lines, MOST_LINE).read_until(b'\n', &mut line).map_err(|error| Stop::File(format!("{name}: {error}")))?;
        if read == 0 {
            break;
        }
        let off = |why: &str| words.said(format!("{name}, line {count}: {why}"), 2);
        if read as u64 == MOST_LINE && line.last() != Some(&b'\n') {
            return Err(off("it has over 1 MiB"));
        }
        let line = std::str::from_utf8(&line).map_err(|_| off("it is no UTF-8"))?;
        if line.trim().is_empty() {
            continue;
        }
        let (row, payload) = row(line, table, before).map_err(|why| off(&why))?;
        builder.push_record(row, &payload).map_err(|refused| words.said(format!("{name}, line {count}: {refused}"), status(&refused)))?;
        before = Some(row);
    }
    Ok(builder)
}

/// `{"row":7,"columns":["text",3,2.5,null,{"blob":"00ff"}]}`, or the record itself in hexadecimal: `{"row":7,"bytes":"021178"}`. Without a number it is one more than the row before.
fn row(line: &str, table: &Table, before: Option<i64>) -> Result<(i64, Vec<u8>), String> {
    let Json::Object(fields) = parse(line)? else { return Err("a line is an object: {\"row\":7,\"columns\":[..]}".into()) };
    let next = before.map_or(Some(1), |before| before.checked_add(1));
    let (mut row, mut columns, mut bytes) = (next, None, None);
    for (i, (name, value)) in fields.iter().enumerate() {
        if fields[..i].iter().any(|field| field.0 == *name) {
            return Err(format!("\"{name}\" is there twice"));
        }
        match (name.as_str(), value) {
            ("row", Json::Number(number)) => {
                row = Some(number.parse().map_err(|_| format!("{number} is no row number: a whole number of 64 bits is"))?)
            }
            ("row", _) => return Err("\"row\" is a number".into()),
            ("columns", Json::Array(values)) => columns = Some(values),
            ("columns", _) => return Err("\"columns\" is an array".into()),
            ("bytes", Json::Text(text)) => bytes = Some(hex(text)?),
            ("bytes", _) => return Err("\"bytes\" is a text of hexadecimal digits".into()),
            _ => return Err(format!("\"{name}\" is not known: there are \"row\", \"columns\" and \"bytes\"")),
        }
    }
    let row = row.ok_or("there is no row number past the one before")?;
    match (columns, bytes) {
        (Some(columns), None) => Ok((row, record(columns, row, &table.columns, Encoding::Utf8)?)),
        (None, Some(bytes)) => Ok((row, bytes)),
        _ => Err("either \"columns\" or \"bytes\" is wanted".into()),
    }
}

/// A record of columns for a row of a table, whose texts are in an encoding. Where the table's text gives no names there may be any number of them.
pub fn record(columns: &[Json], row: i64, table: &Columns, encoding: Encoding) -> Result<Vec<u8>, String> {
    let names = table.names();
    if columns.len() > names.len() && !names.is_empty() {
        return Err(format!("it has {}, and the table has {}", counted(columns.len() as u64, "column"), names.len()));
    }
    let bytes = columns.iter().map(|column| bytes(column, encoding)).collect::<Result<Vec<_>, _>>()?;
    let mut values = Vec::new();
    for (i, (column, bytes)) in columns.iter().zip(&bytes).enumerate() {
        let name = names.get(i).map_or_else(|| (i + 1).to_string(), |name| name.escape_debug().to_string());
        let value = value(column, bytes).map_err(|why| format!("column '{name}': {why}"))?;
        // The row number's own column is kept as null.
        values.push(match (table.row_number == Some(i as u64 + 1), value) {
            (false, value) => value,
            (true, Value::Null) => Value::Null,
            (true, Value::Integer(integer)) if integer == row => Value::Null,
            (true, _) => return Err(format!("column '{name}' is the row number, {row}, and may be null or that")),
        });
    }
    Ok(urkibasko::encode(&values))
}

/// The bytes of a column that is a text or a blob; none of another.
fn bytes(column: &Json, encoding: Encoding) -> Result<Vec<u8>, String> {
    match column {
        Json::Text(text) => Ok(encoding.encode(text)),
        Json::Object(fields) => match &fields[..] {
            [(name, Json::Text(text))] if name == "blob" => hex(text),
            _ => Ok(Vec::new()),
        },
        _ => Ok(Vec::new()),
    }
}

fn value<'a>(column: &Json, bytes: &'a [u8]) -> Result<Value<'a>, String> {
    Ok(match column {
        Json::Null => Value::Null,
        Json::Bool(truth) => Value::Integer(i64::from(*truth)),
        Json::Text(_) => Value::Text(bytes),
        Json::Number(number) if number.contains(['.', 'e', 'E']) => {
            let real: f64 = number.parse().map_err(|_| format!("{number} is no number"))?;
            Value::Real(Some(real).filter(|real| real.is_finite()).ok_or_else(|| format!("{number} is past all reals: write {{\"real\":\"inf\"}}"))?)
        }
        Json::Number(number) => {
            Value::Integer(number.parse().map_err(|_| format!("{number} is past 64 bits: write it as a real ({number}.0) or as a text"))?)
        }
        Json::Object(fields) => match &fields[..] {
            [(name, Json::Text(_))] if name == "blob" => bytes.into(),
            [(name, Json::Text(text))] if name == "real" => Value::Real(match text.as_str() {
                "inf" => f64::INFINITY,
                "-inf" => f64::NEG_INFINITY,
                _ => return Err(format!("'{}' is no real: inf or -inf is", text.escape_debug())),
            }),
            _ => return Err("an object is {\"blob\":\"00ff\"} or {\"real\":\"inf\"}".into()),
        },
        Json::Array(_) => return Err("a value is no array".into()),
    })
}

/// Pairs of hexadecimal digits.
pub fn hex(text: &str) -> Result<Vec<u8>, String> {
    let digits: Option<Vec<u32>> = text.chars().map(|c| c.to_digit(16)).collect();
    let digits =
        digits.filter(|digits| digits.len() % 2 == 0).ok_or_else(|| format!("'{}' are no pairs of hexadecimal digits", text.escape_debug()))?;
    Ok(digits.chunks(2).map(|pair| (pair[0] * 16 + pair[1]) as u8).collect())
}
