//! Files past 1 GiB, made by the sqlite3 program: the lock-byte page, with and without pointer maps around it, in a log and in a journal. Not part of `against`: they take some minutes and 5 GB of a disk.

use std::path::Path;
use std::time::Instant;

use crate::corpus::Database;
use crate::reader::Reader;
use crate::torn::{caught, numbers, Kind};
use crate::{compare, sqlite};

const LOCK_BYTE: u8 = 8;
/// The words of a cursor, and the largest payload.
const WORDS: usize = 41;
const ROOM: usize = 65536;
/// Of the rows every so manieth is compared byte by byte.
const COMPARED: usize = 97;

struct Shape {
    name: &'static str,
    page_size: usize,
    pragmas: &'static str,
    rows: usize,
    /// Digits of the text in each row.
    digits: usize,
}

/// With 65,536-byte pages a row fills a leaf; with 1,024 it has a chain of 59 pages, and the pointer map that would be page 1048577 is the next one.
const SHAPES: [Shape; 2] = [
    Shape { name: "past-1-gib-65536", page_size: 65536, pragmas: "", rows: 16_600, digits: 65_000 },
    Shape { name: "past-1-gib-1024-vacuum", page_size: 1024, pragmas: "PRAGMA auto_vacuum=INCREMENTAL;", rows: 17_900, digits: 60_000 },
];

/// Makes the files in a folder, which is made anew, and holds a reader's answers against sqlite3's own. Panics where one differs.
pub fn sqlite(reader: &dyn Reader, dir: &Path) {
    if dir.exists() {
        std::fs::remove_dir_all(dir).expect("the old folder goes");
    }
    std::fs::create_dir_all(dir).expect("the new folder comes");
    println!("sqlite3 {}", sqlite::version());
    for shape in &SHAPES {
        let start = Instant::now();
        let database = Database { name: shape.name.to_owned(), path: dir.join(format!("{}.db", shape.name)) };
        made(shape, &database);
        let image = database.bytes();
        let account = compare::account(&database);
        let (kinds, namers) = compare::verdict(reader, &database, &image, &account);
        let lock = (1 << 30) / shape.page_size;
        assert_eq!((kinds[lock], namers[lock]), (LOCK_BYTE, 0), "{}: the lock-byte page", shape.name);
        let listed = rows(reader, shape, &database, &image);
        println!("{}: {} pages, each with the kind and namer that sqlite3 says; {listed} rows ({:.1?})", shape.name, account.pages, start.elapsed());
    }
    recovered(reader, dir, &SHAPES[0]);
}

fn made(shape: &Shape, database: &Database) {
    let Shape { page_size, pragmas, rows, digits, .. } = shape;
    sqlite::run(
        &database.path,
        &format!(
            ".output /dev/null\nPRAGMA page_size={page_size}; PRAGMA synchronous=OFF; PRAGMA journal_mode=OFF; {pragmas} CREATE TABLE t(a INTEGER PRIMARY KEY, b);
             {} INSERT INTO t SELECT x, printf('%0{digits}d', x) FROM c; DELETE FROM t WHERE a%1000=7;",
            numbers(*rows)
        ),
    );
}

/// The cursor's rows are those of `SELECT`; some are looked up and compared byte by byte.
fn rows(reader: &dyn Reader, shape: &Shape, database: &Database, image: &[u8]) -> usize {
    let printed = sqlite::run(&database.path, "SELECT rootpage FROM sqlite_schema; SELECT a||'|'||length(b) FROM t ORDER BY a;");
    let mut lines = printed.lines();
    let root: u32 = lines.next().and_then(|line| line.parse().ok()).expect("a root");
    let mut cursor = [0; WORDS];
    let mut row = reader.rows_first(image, root, &mut cursor);
    let mut listed = 0;
    let mut room = vec![0; ROOM];
    for line in lines {
        assert_eq!((row.refusal, row.found, format!("{}|{}", row.row, shape.digits).as_str()), (0, 1, line), "{}: the cursor", shape.name);
        if listed % COMPARED == 0 {
            let found = reader.lookup(image, root, row.row);
            assert_eq!((found.refusal, found.found, found.page, found.cell), (0, 1, row.page, row.cell), "{}: row {}", shape.name, row.row);
            let length = reader.payload_fetch(image, found.page, found.cell, &mut room).length as usize;
            let text = format!("{:0digits$}", row.row, digits = shape.digits);
            assert!(length == found.length as usize && room[..length].ends_with(text.as_bytes()), "{}: the text of row {}", shape.name, row.row);
        }
        row = reader.rows_step(image, &mut cursor);
        listed += 1;
    }
    assert_eq!((row.refusal, row.found), (0, 0), "{}: the cursor's end", shape.name);
    listed
}

/// A log and a journal with pages on both sides of the lock-byte page, in files that grow past it and shrink below it.
fn recovered(reader: &dyn Reader, dir: &Path, shape: &Shape) {
    let start = Instant::now();
    let wide = |a: &str| format!("printf('%0{}d', {a})", shape.digits);
    let (few, rows) = (16_350, shape.rows);
    let log = format!(
        "PRAGMA synchronous=OFF; PRAGMA journal_mode=WAL; PRAGMA wal_autocheckpoint=0;
         UPDATE t SET b={} WHERE a%3000=1; INSERT INTO t(b) VALUES({}); INSERT INTO t(b) VALUES({});
         @log
         PRAGMA journal_mode=DELETE;",
        wide("-a"),
        wide("1"),
        wide("2")
    );
    let journal = format!(
        "PRAGMA synchronous=OFF; PRAGMA cache_size=2; BEGIN; UPDATE t SET b={} WHERE a%3000=2; INSERT INTO t(b) VALUES({});
         @journal
         ROLLBACK;",
        wide("-a"),
        wide("3")
    );
    // The file is cut below the lock-byte page before it grows again, so that the image has no such page.
    let grown = format!(
        "PRAGMA synchronous=OFF; PRAGMA cache_size=2; DELETE FROM t WHERE a>{few}; VACUUM; PRAGMA journal_mode=WAL; PRAGMA wal_autocheckpoint=0;
         {} INSERT INTO t SELECT {rows}+x, {} FROM c;
         @grown",
        numbers(90),
        wide("x")
    );
    for (kind, script) in [(Kind::Log, log), (Kind::Journal, journal), (Kind::Log, grown)] {
        for torn in caught(dir, shape.name, kind, "", &script) {
            let image = torn.by_reader(reader).unwrap_or_else(|refusal| panic!("{}: refused with {refusal}", torn.name));
            assert!(image == torn.by_sqlite(dir), "{}: another image than sqlite3's", torn.name);
            println!(
                "{}: {} bytes beside {}, recovered as sqlite3 does: {} ({:.1?})",
                torn.name,
                torn.side.len(),
                torn.image.len(),
                image.len(),
                start.elapsed()
            );
        }
    }
}
