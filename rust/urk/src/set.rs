//! `urk set`: a copy with one row set to another record, and which indexes of its table that leaves stale.

use urkibasko::{Changing, Database, Record, Rule, Value};

use crate::create::quoted_line;
use crate::header::counted;
use crate::parse::{parse, Json};
use crate::refused::{self, Asked};
use crate::schema::{Columns, Entry, Schema};
use crate::show::Encoding;
use crate::words::Words;
use crate::{build, database, files, indexes, out, Done, Stop};

/// What a change of the row does to an index of its table.
enum Index<'a> {
    /// It has a column that changed.
    Stale(&'a Entry, &'a str),
    /// Its text does not tell for sure.
    Perhaps(&'a Entry),
}

pub fn run(words: &Words) -> Done {
    let given = words.value("--json").ok_or_else(|| words.off("--json RECORD is missing".into()))?;
    let out_path = words.value_path("--out").ok_or_else(|| words.off("--out OUT is missing".into()))?;
    let row: i64 = words.number("ROW", words.place(2))?;
    let given = given.to_str().ok_or_else(|| words.off("RECORD is a text in UTF-8".into()))?;
    let input = database::open_whole(words)?;
    if (input.image.len() as u64) < input.length {
        return Err(words.said(format!("{}: not supported: it is too long to be copied here", input.name), 3));
    }
    let schema = Schema::of(&input.image);
    let root = schema.root(words, words.place(1))?;
    let columns = schema.columns(root);
    let record = read(given, row, &columns, Encoding::of(&input.image)).map_err(|why| words.said(format!("RECORD: {why}"), 2))?;
    let stop = |refusal, asked| refused::stop(&input, refusal, asked, false);
    let database = Database::new(&input.image).map_err(|refusal| stop(refusal, Asked::Whole))?;
    let Some(old) = database.lookup(root, row).map_err(|refusal| stop(refusal, Asked::Root(root)))? else {
        return Err(words.said(format!("no row {row}"), 4));
    };
    let mut room = vec![0; urkibasko::MAX_PAYLOAD];
    let before = database.payload(old, &mut room).map_err(|refusal| stop(refusal, Asked::Cell(old.page, old.cell)))?.to_vec();
    // The rules take such a record; sqlite3 calls the file malformed where it meets one.
    if Record::new(&record).is_some_and(|record| record.values().next().is_none()) {
        return Err(words.said("RECORD: it has no column, and sqlite3 takes no such row".into(), 2));
    }
    let mut image = Vec::new();
    if image.try_reserve_exact(input.image.len()).is_err() {
        return Err(Stop::File(format!("{}: there is not enough memory for it", input.name)));
    }
    image.extend_from_slice(&input.image);
    let mut changing = Changing::new(&mut image).map_err(|refusal| stop(refusal, Asked::Whole))?;
    let set = changing.set(root, row, &record).map_err(|refusal| {
        if refusal.rule == Rule::BadRecord {
            return words.said("RECORD: the bytes do not read as a record".into(), 2);
        }
        let (class, next) = refused::by_itself(refusal);
        words.said(format!("{}: {refusal}\n  {next}", input.name), class.status())
    })?;
    let Some(cell) = set else { return Err(words.said(format!("no row {row}"), 4)) };
    // That the copy is accepted with that ledger is proved; a file that is to be trusted is judged all the same.
    let changed = changing.done();
    let again = Database::new(changed.image()).ok().filter(|again| again.ledger() == changed.ledger());
    if again.and_then(|again| again.payload(cell, &mut room).ok().map(|payload| payload == record)) != Some(true) {
        return Err(Stop::File(format!("{}: the copy would not be what it is to be: nothing is written, and urk is wrong", input.name)));
    }
    files::write(files::create(out_path, &input.paths())?, out_path, changed.image())?;
    let table = schema.entry(words.place(1), root).map_or_else(|| format!("page {root}"), Entry::words);
    let mut text = format!(
        "{}: {}, {} with row {row} of {table} set: page {}, cell {}, {} where there were {}\n",
        out_path.display(),
        counted(changed.image().len() as u64, "byte"),
        input.name,
        cell.page,
        cell.cell,
        counted(record.len() as u64, "byte"),
        before.len()
    );
    for index in stale(&schema, root, &columns, &before, &record) {
        text += &match index {
            Index::Stale(entry, column) => format!("stale: {} at page {}, which has column '{}'", entry.words(), entry.root, column.escape_debug()),
            Index::Perhaps(entry) => format!("perhaps stale: {} at page {}, whose text does not tell its columns here", entry.words(), entry.root),
        };
        text += &format!(": sqlite3's REINDEX main.{} makes it anew, where the new value breaks no UNIQUE\n", quoted_line(index.name()));
    }
    out::print(&text)
}

impl Index<'_> {
    fn name(&self) -> &str {
        match self {
            Index::Stale(entry, _) | Index::Perhaps(entry) => &entry.name,
        }
    }
}

/// The columns as an array, or an object with them or with the record itself, as `urk rows --json` prints it.
fn read(text: &str, row: i64, columns: &Columns, encoding: Encoding) -> Result<Vec<u8>, String> {
    match parse(text)? {
        Json::Array(values) => build::record(&values, row, columns, encoding),
        Json::Object(fields) => match &fields[..] {
            [(name, Json::Array(values))] if name == "columns" => build::record(values, row, columns, encoding),
            [(name, Json::Text(text))] if name == "bytes" => build::hex(text),
            _ => Err("an object is {\"columns\":[..]} or {\"bytes\":\"0209\"}".into()),
        },
        _ => Err("it is an array of the columns, or an object that has it".into()),
    }
}

/// The indexes of a table that a row's change leaves stale, and those of which that is not told for sure.
fn stale<'a>(schema: &'a Schema, root: u32, columns: &'a Columns, before: &[u8], after: &[u8]) -> Vec<Index<'a>> {
    let (Some(before), Some(after)) = (Record::new(before), Record::new(after)) else { return Vec::new() };
    let count = before.columns().max(after.columns());
    let differs = |column: u64| !alike(before.column(column), after.column(column));
    if !(1..=count).any(differs) {
        return Vec::new();
    }
    let tables: Vec<&Entry> = schema.0.iter().filter(|entry| entry.root == root && entry.kind == "table").collect();
    let own = schema.0.iter().filter(|entry| entry.kind == "index" && tables.iter().any(|table| entry.table.eq_ignore_ascii_case(&table.name)));
    let told = |entry: &'a Entry| {
        let Some(names) = indexes::columns_of(schema, entry).filter(|_| columns.stored) else { return Some(Index::Perhaps(entry)) };
        let place = |name: &String| columns.names().iter().position(|column| column.eq_ignore_ascii_case(name));
        let places: Option<Vec<usize>> = names.iter().map(place).collect();
        let Some(places) = places else { return Some(Index::Perhaps(entry)) };
        let changed = places.into_iter().find(|&place| differs(place as u64 + 1));
        changed.map(|place| Index::Stale(entry, columns.names()[place].as_str()))
    };
    own.filter_map(told).collect()
}

fn alike(one: Option<Value>, other: Option<Value>) -> bool {
    match (one, other) {
        (Some(Value::Real(one)), Some(Value::Real(other))) => one.to_bits() == other.to_bits(),
        _ => one == other,
    }
}
