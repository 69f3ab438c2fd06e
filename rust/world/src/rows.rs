//! Lookup, payload and the cursor, held against the sqlite3 program's rows.

use std::collections::{BTreeMap, BTreeSet};
use std::fmt::Write as _;

use crate::corpus::Database;
use crate::reader::Reader;
use crate::sqlite;

/// The largest payload.
const ROOM: usize = 65536;

/// How many rows, keys and absent rows were compared.
#[derive(Clone, Copy, Debug, Default)]
pub struct Counts {
    pub rows: usize,
    pub keys: usize,
    pub absent: usize,
    /// Rows that the cursor showed, from the first and from given numbers.
    pub listed: usize,
    /// Numbers to start at.
    pub starts: usize,
}

/// The words of a cursor.
const WORDS: usize = 41;

pub(crate) fn quoted(name: &str) -> String {
    format!("\"{}\"", name.replace('"', "\"\""))
}

/// SQL for a column in the form that [`shown`] has; reals by their bits.
fn column_sql(expression: &str) -> String {
    format!(
        "CASE typeof({expression}) WHEN 'null' THEN 'null' WHEN 'integer' THEN 'i'||{expression} WHEN 'real' THEN 'r'||lower(hex(ieee754_to_blob({expression})))
         WHEN 'text' THEN 't'||hex(CAST({expression} AS BLOB)) ELSE 'b'||hex({expression}) END"
    )
}

fn hex(bytes: &[u8]) -> String {
    bytes.iter().fold(String::with_capacity(2 * bytes.len()), |mut text, byte| {
        let _ = write!(text, "{byte:02X}");
        text
    })
}

/// The columns of a record, as [`column_sql`] prints them; reals by their bits.
fn shown(reader: &dyn Reader, record: &[u8]) -> Vec<String> {
    let columns = reader.record_columns(record);
    assert_eq!(columns.status, 0, "the record reads");
    assert_eq!(reader.record_column(record, 0).status, 2);
    assert_eq!(reader.record_column(record, columns.count + 1).status, 2);
    (1..=columns.count)
        .map(|i| {
            let column = reader.record_column(record, i);
            assert_eq!(column.status, 0, "column {i} has a value");
            let bytes = || hex(&record[column.place as usize..(column.place + column.length) as usize]);
            match column.kind {
                0 => "null".to_owned(),
                1 => format!("i{}", column.integer),
                2 => format!("r{:016x}", column.real.to_bits()),
                3 => format!("t{}", bytes()),
                4 => format!("b{}", bytes()),
                kind => panic!("kind {kind}"),
            }
        })
        .collect()
}

/// Whether a stored value stands for a value that sqlite3 shows: a real that is a whole number may be stored as an integer, and the row number's
/// column is stored as null.
fn stands_for(stored: &str, value: &str, row: Option<i64>) -> bool {
    if stored == value || (stored == "null" && row.is_some_and(|row| value == format!("i{row}"))) {
        return true;
    }
    match (stored.strip_prefix('i').and_then(|i| i.parse::<i64>().ok()), value.strip_prefix('r')) {
        (Some(integer), Some(bits)) => format!("{:016x}", (integer as f64).to_bits()) == bits,
        _ => false,
    }
}

/// A value with a whole real as the integer that may be stored for it.
fn as_stored(value: &str) -> String {
    let real = value.strip_prefix('r').map(|bits| f64::from_bits(u64::from_str_radix(bits, 16).expect("bits")));
    match real {
        Some(real) if real == real.trunc() && real.abs() < 1e15 => format!("i{}", real as i64),
        _ => value.to_owned(),
    }
}

/// The payload of a cell; none past the last cell.
fn payload(reader: &dyn Reader, image: &[u8], page: u32, cell: u32) -> Option<Vec<u8>> {
    let mut out = vec![0xaa; ROOM];
    let answer = reader.payload_fetch(image, page, cell, &mut out);
    if answer.refusal == 46 {
        return None;
    }
    assert_eq!(answer.refusal, 0, "page {page} cell {cell}");
    let guard = &out[answer.length as usize..];
    assert!(guard[..guard.len().min(64)].iter().all(|&byte| byte == 0xaa), "nothing past the payload");
    out.truncate(answer.length as usize);
    Some(out)
}

/// Tables and indexes: name, root, and for a table with row numbers its columns, for a tree of keys its columns in stored order.
pub(crate) struct Trees {
    pub(crate) tables: Vec<(String, u32, Vec<String>)>,
    keys: Vec<(String, u32, Vec<String>)>,
}

pub(crate) fn trees(database: &Database) -> Trees {
    let printed = sqlite::run(
        &database.path,
        "SELECT 't|'||l.name||'|'||s.rootpage||'|'||l.wr FROM pragma_table_list l JOIN sqlite_schema s ON s.name=l.name
            WHERE l.schema='main' AND s.type='table' AND s.rootpage>0;
         SELECT 'c|'||s.name||'|'||t.name FROM sqlite_schema s, pragma_table_info(s.name) t WHERE s.type='table' AND s.rootpage>0 ORDER BY s.rowid, t.cid;
         SELECT 'k|'||i.name||'|'||s.name||'|'||coalesce(x.rootpage,s.rootpage)||'|'||i.partial||'|'||k.cid||'|'||coalesce(k.name,'')
            FROM sqlite_schema s, pragma_index_list(s.name) i LEFT JOIN sqlite_schema x ON x.name=i.name, pragma_index_xinfo(i.name) k
            WHERE s.type='table' AND s.rootpage>0 ORDER BY i.name, k.seqno;",
    );
    let mut tables: BTreeMap<String, (u32, bool, Vec<String>)> = BTreeMap::new();
    let mut keys: BTreeMap<String, (String, u32, bool, Vec<String>)> = BTreeMap::new();
    for line in printed.lines() {
        let fields: Vec<&str> = line.split('|').collect();
        match fields[..] {
            ["t", name, root, without_rowid] => {
                tables.insert(name.to_owned(), (root.parse().expect("a root"), without_rowid == "1", Vec::new()));
            }
            ["c", table, column] => {
                if let Some(entry) = tables.get_mut(table) {
                    entry.2.push(quoted(column));
                }
            }
            ["k", index, table, root, partial, cid, column] => {
                let entry = keys.entry(index.to_owned()).or_insert((table.to_owned(), root.parse().expect("a root"), true, Vec::new()));
                entry.2 &= partial == "0" && cid != "-2";
                entry.3.push(if cid == "-1" { "rowid".to_owned() } else { quoted(column) });
            }
            _ => panic!("{}: {line}", database.name),
        }
    }
    Trees {
        tables: tables.into_iter().filter(|(_, t)| !t.1).map(|(name, (root, _, columns))| (name, root, columns)).collect(),
        keys: keys.into_values().filter(|k| k.2).map(|(table, root, _, columns)| (table, root, columns)).collect(),
    }
}

/// Every row of every table is found by its number with just its values, no other is found, and every key of every index is there.
pub fn compare(reader: &dyn Reader, database: &Database, image: &[u8], kinds: &[u8], namers: &[u32]) -> Counts {
    let trees = trees(database);
    let mut counts = Counts::default();
    for (table, root, columns) in &trees.tables {
        table_rows(reader, database, image, table, *root, columns, &mut counts);
    }
    for (table, root, columns) in &trees.keys {
        index_keys(reader, database, image, (table, *root, columns), (kinds, namers), &mut counts);
    }
    counts
}

fn table_rows(reader: &dyn Reader, database: &Database, image: &[u8], table: &str, root: u32, columns: &[String], counts: &mut Counts) {
    let list: Vec<String> = columns.iter().map(|c| column_sql(c)).collect();
    let query = format!("SELECT rowid, {} FROM {} ORDER BY rowid;", list.join(","), quoted(table));
    let mut present = BTreeSet::new();
    let mut cells = Vec::new();
    for line in sqlite::run(&database.path, &query).lines() {
        let place = || format!("{}: {table}: {}", database.name, &line[..line.len().min(60)]);
        let mut values = line.split('|');
        let row: i64 = values.next().and_then(|row| row.parse().ok()).expect("a row number");
        let found = reader.lookup(image, root, row);
        assert_eq!((found.refusal, found.found), (0, 1), "{}: found", place());
        let record = payload(reader, image, found.page, found.cell).expect("a payload");
        assert_eq!(record.len(), found.length as usize, "{}: length", place());
        let stored = shown(reader, &record);
        let values: Vec<&str> = values.collect();
        assert_eq!(stored.len(), values.len(), "{}: columns", place());
        for (stored, value) in stored.iter().zip(values) {
            assert!(stands_for(stored, value, Some(row)), "{}: {stored} for {value}", place());
        }
        present.insert(row);
        cells.push((found.page, found.cell, found.length, row));
        counts.rows += 1;
    }
    listed(reader, database, image, (table, root), &cells, counts);
    let near = present.iter().flat_map(|&row| [row.saturating_sub(1), row.saturating_add(1)]);
    let far = [i64::MIN, -1, 0, 1, i64::MAX];
    for row in near.chain(far).filter(|row| !present.contains(row)).collect::<BTreeSet<_>>() {
        let found = reader.lookup(image, root, row);
        assert_eq!((found.refusal, found.found), (0, 0), "{}: {table}: absent row {row}", database.name);
        counts.absent += 1;
    }
}

/// The cursor shows all rows in the order of `SELECT rowid .. ORDER BY rowid`, each in the cell where lookup finds it, and then the end, which stays; started at a number,
/// those from there on.
fn listed(reader: &dyn Reader, database: &Database, image: &[u8], (table, root): (&str, u32), cells: &[(u32, u32, u32, i64)], counts: &mut Counts) {
    let place = |row: Option<i64>| format!("{}: {table}: rows from {row:?}", database.name);
    let mut run = |from: Option<i64>, most: usize| {
        let expected = &cells[cells.partition_point(|cell| from.is_some_and(|from| cell.3 < from))..];
        let mut words = [0xaaaa_aaaa; WORDS + 3];
        let mut answer = match from {
            None => reader.rows_first(image, root, &mut words),
            Some(row) => reader.rows_seek(image, root, row, &mut words),
        };
        for cell in expected.iter().take(most) {
            assert_eq!((answer.refusal, answer.found), (0, 1), "{}: a row", place(from));
            assert_eq!((answer.page, answer.cell, answer.length, answer.row), *cell, "{}: the next", place(from));
            let levels = words[0] as usize;
            assert_eq!((words[2 * levels - 1], words[2 * levels]), (answer.page, answer.cell), "{}: the path's end", place(from));
            counts.listed += 1;
            answer = reader.rows_step(image, &mut words);
        }
        if expected.len() <= most {
            for _ in 0..2 {
                assert_eq!((answer.refusal, answer.found, answer.page, answer.row), (0, 0, 0, 0), "{}: the end", place(from));
                assert!(words[..WORDS].iter().all(|&word| word == 0), "{}: the end's words", place(from));
                answer = reader.rows_step(image, &mut words);
            }
        }
        assert!(words[WORDS..].iter().all(|&word| word == 0xaaaa_aaaa), "{}: nothing past the words", place(from));
    };
    run(None, usize::MAX);
    let some = cells.iter().step_by(cells.len().div_ceil(40).max(1)).flat_map(|cell| [cell.3.saturating_sub(1), cell.3, cell.3.saturating_add(1)]);
    for row in some.chain([i64::MIN, -1, 0, 1, i64::MAX]).collect::<BTreeSet<_>>() {
        run(Some(row), 3);
        counts.starts += 1;
    }
}

fn index_keys(
    reader: &dyn Reader,
    database: &Database,
    image: &[u8],
    (table, root, columns): (&str, u32, &[String]),
    (kinds, namers): (&[u8], &[u32]),
    counts: &mut Counts,
) {
    let list: Vec<String> = columns.iter().map(|c| column_sql(c)).collect();
    let query = format!("SELECT {} FROM {};", list.join(","), quoted(table));
    let mut expected: Vec<Vec<String>> =
        sqlite::run(&database.path, &query).lines().map(|line| line.split('|').map(str::to_owned).collect()).collect();
    let in_tree = |page: u32| {
        let mut page = page;
        while kinds[page as usize - 1] == 6 {
            page = namers[page as usize - 1];
        }
        page == root
    };
    let mut stored = Vec::new();
    for page in (1..=kinds.len() as u32).filter(|&page| matches!(kinds[page as usize - 1], 1 | 6) && in_tree(page)) {
        let records = (0..).map_while(|cell| payload(reader, image, page, cell));
        stored.extend(records.map(|record| shown(reader, &record)));
    }
    assert_eq!(stored.len(), expected.len(), "{}: keys of {table} at {root}", database.name);
    for keys in [&mut stored, &mut expected] {
        keys.iter_mut().flatten().for_each(|value| *value = as_stored(value));
        keys.sort();
    }
    assert!(stored == expected, "{}: keys of {table} at {root}", database.name);
    counts.keys += stored.len();
}
