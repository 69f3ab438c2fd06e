//! `urk rows`: the rows of a table, one a line.

use std::io::{BufWriter, Write};

use urkibasko::{Database, Record, Refusal, Row, Rows};

use crate::database;
use crate::files::Input;
use crate::refused::{self, Asked};
use crate::schema::Schema;
use crate::show::{self, Encoding};
use crate::words::Words;
use crate::{out, Done};

/// Pages that one step may enter in an image that was not judged.
const MOST_PAGES: u64 = 100_000;

pub fn run(words: &Words) -> Done {
    let from = words.value("--from").map(|word| words.number("--from", word)).transpose()?;
    let input = database::open(words)?;
    let judged = match words.has("--unchecked") {
        true => None,
        false => Some(Database::new(&input.image).map_err(|refusal| refused::stop(&input, refusal, Asked::Whole, words.json()))?),
    };
    let root = Schema::of(&input.image).root(words, words.place(1))?;
    let Some(database) = judged else {
        let rows =
            Rows::unchecked(&input.image, root, from, MOST_PAGES).map_err(|bound| words.said(format!("{}: not listed: {bound}", input.name), 1))?;
        return list(&input, root, rows, |row, room| held(&input.image, row, room), words.json());
    };
    let rows = from.map_or_else(|| database.rows(root), |row| database.rows_from(root, row));
    // Every row of an accepted image has a record: that is proved.
    list(&input, root, rows, |row, room| Held::Columns(database.record(row, room).expect("a row of an accepted image has a record")), words.json())
}

/// What a row holds. In an accepted image that is a record.
enum Held<'a> {
    Columns(Record<'a>),
    /// No record.
    Bytes(&'a [u8]),
    Refused(Refusal),
}

/// What a row of an image that was not judged holds.
fn held<'r>(image: &[u8], row: &Row, room: &'r mut [u8]) -> Held<'r> {
    match urkibasko::payload(image, row.page, row.cell, room) {
        Ok(payload) => Record::new(payload).map_or(Held::Bytes(payload), Held::Columns),
        Err(refusal) => Held::Refused(refusal),
    }
}

fn list(input: &Input, root: u32, rows: Rows, held: impl for<'r> Fn(&Row, &'r mut [u8]) -> Held<'r>, as_json: bool) -> Done {
    let encoding = Encoding::of(&input.image);
    let line = if as_json { json_line } else { table_line };
    let mut room = vec![0; urkibasko::MAX_PAYLOAD];
    let mut lines = BufWriter::new(std::io::stdout().lock());
    let mut refused = None;
    for row in rows {
        let row = match row {
            Ok(row) => row,
            Err(refusal) => {
                refused = Some((refusal, Asked::Root(root)));
                break;
            }
        };
        let held = held(&row, &mut room);
        if let Held::Refused(refusal) = held {
            refused = refused.or(Some((refusal, Asked::Cell(row.page, row.cell))));
        }
        writeln!(lines, "{}", line(row, held, encoding)).map_err(out::failed)?;
    }
    lines.flush().map_err(out::failed)?;
    refused.map_or(Ok(()), |(refusal, asked)| Err(refused::stop(input, refusal, asked, as_json)))
}

fn hex(bytes: &[u8]) -> String {
    bytes.iter().map(|byte| format!("{byte:02x}")).collect()
}

/// `7 | 'text' | 3 | null`
fn table_line(row: Row, held: Held, encoding: Encoding) -> String {
    let columns = match held {
        Held::Columns(record) => record.values().map(|value| show::value(value, encoding)).collect(),
        Held::Bytes(bytes) => vec![format!("no record: x'{}'", hex(bytes))],
        Held::Refused(refusal) => vec![refusal.to_string()],
    };
    std::iter::once(row.number.to_string()).chain(columns).collect::<Vec<_>>().join(" | ")
}

/// `{"row":7,"columns":["text",3,null]}`; a blob is `{"blob":"00ff"}`, an infinity `{"real":"inf"}`. Without a record `"bytes"` or `"refused"` and `"page"` stand for the columns.
fn json_line(row: Row, held: Held, encoding: Encoding) -> String {
    let rest = match held {
        Held::Columns(record) => {
            let columns: Vec<String> = record.values().map(|value| show::json(value, encoding)).collect();
            format!("\"columns\":[{}]", columns.join(","))
        }
        Held::Bytes(bytes) => format!("\"bytes\":\"{}\"", hex(bytes)),
        Held::Refused(refusal) => format!("\"refused\":{},\"page\":{}", refusal.rule.number(), refusal.page.unwrap_or(0)),
    };
    format!("{{\"row\":{},{rest}}}", row.number)
}
