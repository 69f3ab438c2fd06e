//! `urk lookup` and `urk record`: one row, one cell.

use std::ffi::OsStr;

use urkibasko::Record;

use crate::database;
use crate::json::{self, Object};
use crate::refused::{self, Asked};
use crate::schema::{Columns, Schema};
use crate::show::{self, Encoding};
use crate::words::Words;
use crate::{out, Done, Stop};

pub fn lookup(words: &Words) -> Done {
    let row: i64 = words.number("ROW", words.place(2))?;
    let input = database::open(words)?;
    let schema = Schema::of(&input.image);
    let root = schema.root(words, words.place(1))?;
    let stop = |refusal| refused::stop(&input, refusal, Asked::Root(root), words.json());
    let Some(cell) = urkibasko::lookup(&input.image, root, row).map_err(stop)? else {
        let text = if words.json() { Object::new().field("row", row).field("found", false).end() } else { format!("no row {row}") };
        return Err(Stop::Said(text + "\n", 4));
    };
    let mut room = vec![0; urkibasko::MAX_PAYLOAD];
    let payload = urkibasko::payload(&input.image, cell.page, cell.cell, &mut room);
    let payload = payload.map_err(|refusal| refused::stop(&input, refusal, Asked::Cell(cell.page, cell.cell), words.json()))?;
    let columns = schema.columns(root);
    let encoding = Encoding::of(&input.image);
    if words.json() {
        let object =
            Object::new().field("row", row).field("found", true).field("page", cell.page).field("cell", cell.cell).field("length", cell.length);
        let record = Record::new(payload).ok_or_else(|| no_record(words))?;
        return out::print(&(fields(object, &record, &columns, Some(row), encoding).end() + "\n"));
    }
    let head = format!("row {row}: page {}, cell {}, {} bytes\n", cell.page, cell.cell, cell.length);
    out::print(&(head + &record_lines(words, payload, &columns, Some(row), encoding)?))
}

pub fn record(words: &Words) -> Done {
    if let Some(bytes) = words.value("--hex") {
        if words.count() > 0 {
            return Err(words.off("FILE PAGE CELL or --hex BYTES, not both".into()));
        }
        return shown(words, &hex(words, bytes)?, Encoding::Utf8);
    }
    if words.count() < 3 {
        return Err(words.off(format!("{} is missing", ["FILE", "PAGE", "CELL"][words.count()])));
    }
    let (page, cell) = (words.number("PAGE", words.place(1))?, words.number("CELL", words.place(2))?);
    let input = database::open(words)?;
    let mut room = vec![0; urkibasko::MAX_PAYLOAD];
    let payload = urkibasko::payload(&input.image, page, cell, &mut room);
    let payload = payload.map_err(|refusal| refused::stop(&input, refusal, Asked::Cell(page, cell), words.json()))?;
    shown(words, payload, Encoding::of(&input.image))
}

fn shown(words: &Words, payload: &[u8], encoding: Encoding) -> Done {
    if words.json() {
        let record = Record::new(payload).ok_or_else(|| no_record(words))?;
        return out::print(&(fields(Object::new().field("length", payload.len()), &record, &Columns::default(), None, encoding).end() + "\n"));
    }
    out::print(&record_lines(words, payload, &Columns::default(), None, encoding)?)
}

fn hex(words: &Words, text: &OsStr) -> Result<Vec<u8>, Stop> {
    let digits: Option<Vec<u32>> = text.to_string_lossy().chars().filter(|c| !c.is_whitespace()).map(|c| c.to_digit(16)).collect();
    let digits = digits.filter(|digits| digits.len() % 2 == 0);
    let digits = digits.ok_or_else(|| words.off(format!("BYTES are pairs of hexadecimal digits, which '{}' is not", text.to_string_lossy())))?;
    Ok(digits.chunks(2).map(|pair| (pair[0] * 16 + pair[1]) as u8).collect())
}

fn no_record(words: &Words) -> Stop {
    words.said("the bytes do not read as a record".into(), 1)
}

/// The columns of a record as JSON, by name too where the table's text gives names to all of them.
fn fields(object: Object, record: &Record, columns: &Columns, row: Option<i64>, encoding: Encoding) -> Object {
    let values = (1..).zip(record.values()).map(|(column, value)| match row {
        Some(row) if columns.row_number == Some(column) => row.to_string(),
        _ => show::json(value, encoding),
    });
    let object = object.field("columns", json::array(values));
    match columns.names() {
        [] => object,
        names => object.field("names", json::array(names.iter().map(|name| json::text(name)))),
    }
}

/// The columns of a record, a line each: by name where there is one, else by number.
fn record_lines(words: &Words, bytes: &[u8], columns: &Columns, row: Option<i64>, encoding: Encoding) -> Result<String, Stop> {
    let record = Record::new(bytes).ok_or_else(|| no_record(words))?;
    let mut text = String::new();
    for (column, value) in (1..).zip(record.values()) {
        let name = columns.name(column).map_or_else(|| column.to_string(), |name| name.escape_debug().to_string());
        text += &match row {
            Some(row) if columns.row_number == Some(column) => format!("{name}: {row} (the row number)\n"),
            _ => format!("{name}: {}\n", show::value(value, encoding)),
        };
    }
    Ok(text)
}
