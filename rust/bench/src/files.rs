//! The files that are measured, made by sqlite3.

use std::path::{Path, PathBuf};

use world::rng::Rng;
use world::sqlite;

/// A kind of database. Its table `t` is at page 2. In `made`, `:rows` is the number of rows, and `c` counts them by `x`.
pub struct Shape {
    pub name: &'static str,
    /// The table's last column.
    pub column: &'static str,
    bytes_a_row: usize,
    table: &'static str,
    made: &'static str,
    after: &'static str,
}

const TABLE: &str = "CREATE TABLE t(a, b); CREATE INDEX i ON t(a);";
const ROWS: &str = "INSERT INTO t SELECT printf('%016x', x*2654435761%4294967296),
    CAST(printf('%0*d', CASE x%500 WHEN 0 THEN 9000 ELSE 80 END, x) AS BLOB) FROM c;";

/// A table with an index, and overflow chains here and there.
pub const TYPICAL: Shape = Shape { name: "typical", column: "b", bytes_a_row: 165, table: TABLE, made: ROWS, after: "" };

/// Rows of one small number.
pub const TINY: Shape =
    Shape { name: "tiny rows", column: "a", bytes_a_row: 9, table: "CREATE TABLE t(a);", made: "INSERT INTO t SELECT x%100 FROM c;", after: "" };

/// Rows of 2,000 to 32,000 bytes.
pub const LARGE: Shape = Shape {
    name: "large rows",
    column: "b",
    bytes_a_row: 17_500,
    table: "CREATE TABLE t(a, b);",
    made: "INSERT INTO t SELECT x, CAST(printf('%0*d', 2000 + x*7919%30000, x) AS BLOB) FROM c;",
    after: "",
};

/// The typical one after many changes: freeblocks, fragments, free pages.
pub const CHURNED: Shape = Shape {
    name: "churned",
    column: "b",
    bytes_a_row: 165,
    table: TABLE,
    made: ROWS,
    after: "DELETE FROM t WHERE rowid%7=3; DELETE FROM t WHERE rowid BETWEEN :rows/2 AND :rows*3/4;
        UPDATE t SET b=substr(b, 1, 20 + rowid*7919%58) WHERE rowid%5=1;
        UPDATE t SET a=printf('%012x', rowid*40503%65536) WHERE rowid%11=2;
        UPDATE t SET b=CAST(printf('%0*d', 30 + rowid%40, rowid) AS BLOB) WHERE rowid%9=4;",
};

/// Rows of forty columns: integers, texts, reals and nulls.
pub const WIDE: Shape = Shape {
    name: "wide rows", column: "d9",
    bytes_a_row: 180,
    table: "CREATE TABLE t(a0, a1, a2, a3, a4, a5, a6, a7, a8, a9, b0, b1, b2, b3, b4, b5, b6, b7, b8, b9,
        c0, c1, c2, c3, c4, c5, c6, c7, c8, c9, d0, d1, d2, d3, d4, d5, d6, d7, d8, d9);",
    made: "INSERT INTO t SELECT x, 'name', x%7, x*0.5, NULL, x*1000, 'a text', 0, 1, printf('%08x', x),
        x, 'name', x%7, x*0.5, NULL, x*1000, 'a text', 0, 1, printf('%08x', x), x, 'name', x%7, x*0.5, NULL, x*1000, 'a text', 0, 1, printf('%08x', x),
        x, 'name', x%7, x*0.5, NULL, x*1000, 'a text', 0, 1, printf('%08x', x) FROM c;",
    after: "",
};

/// Tiny rows whose numbers take nine bytes.
pub const FAR: Shape = Shape {
    name: "9-byte row numbers",
    column: "a",
    bytes_a_row: 17,
    table: "CREATE TABLE t(n INTEGER PRIMARY KEY, a);",
    made: "INSERT INTO t SELECT 1152921504606846976 + x*1000003, x%100 FROM c;",
    after: "",
};

pub const SHAPES: [&Shape; 6] = [&TYPICAL, &TINY, &LARGE, &CHURNED, &WIDE, &FAR];

/// The path of what sqlite3 makes by a script, where it is not there yet.
fn made(dir: &Path, name: String, page_size: usize, script: impl FnOnce() -> String) -> PathBuf {
    let path = dir.join(name);
    if !path.exists() {
        let unfinished = path.with_extension("unfinished");
        let _ = std::fs::remove_file(&unfinished);
        let settings = "PRAGMA journal_mode=OFF; PRAGMA synchronous=OFF; PRAGMA cache_size=-4000000;";
        sqlite::run(&unfinished, &format!(".output /dev/null\nPRAGMA page_size={page_size}; {settings}\n{}\n", script()));
        std::fs::rename(&unfinished, &path).expect("the file gets its name");
    }
    path
}

/// An image of about so many bytes.
pub fn path(dir: &Path, shape: &Shape, page_size: usize, bytes: usize) -> PathBuf {
    let rows = (bytes / shape.bytes_a_row).max(2);
    let counted = format!("WITH RECURSIVE c(x) AS (SELECT 1 UNION ALL SELECT x+1 FROM c WHERE x<{rows})");
    let name = format!("{}-{page_size}-{bytes}.db", shape.name.replace(' ', "-"));
    made(dir, name, page_size, || {
        let Shape { table, made, after, .. } = shape;
        format!("{table} BEGIN; {counted} {made} COMMIT; BEGIN; {} COMMIT;", after.replace(":rows", &rows.to_string()))
    })
}

pub fn image(dir: &Path, shape: &Shape, page_size: usize, bytes: usize) -> Vec<u8> {
    std::fs::read(path(dir, shape, page_size, bytes)).expect("the image is read")
}

/// Some row numbers of an image's table, in a random order.
pub fn numbers(path: &Path) -> Vec<i64> {
    let all = sqlite::run(path, "SELECT rowid FROM t;");
    let all: Vec<i64> = all.lines().map(|row| row.parse().expect("a number")).collect();
    let mut rng = Rng::new(1);
    (0..1000).map(|_| *rng.pick(&all)).collect()
}

/// An image that is mostly indexes, and their roots: over texts, over integers beside reals, over both, and over texts of which one in twenty runs over a
/// chain.
pub fn indexed(dir: &Path, page_size: usize, rows: usize) -> (Vec<u8>, Vec<u32>) {
    let path = made(dir, format!("indexed-{page_size}-{rows}.db"), page_size, || {
        format!(
            "CREATE TABLE t(n INTEGER PRIMARY KEY, a, b, c);
             BEGIN; WITH RECURSIVE c(x) AS (SELECT 1 UNION ALL SELECT x+1 FROM c WHERE x<{rows})
             INSERT INTO t SELECT x, printf('%016x', x*2654435761%4294967296), CASE x%2 WHEN 0 THEN x*7919%100003 ELSE x*7919%100003+0.5 END,
             printf('%0*d', CASE x%20 WHEN 0 THEN 2000 ELSE 40 END, x*2654435761%4294967296) FROM c;
             CREATE INDEX ia ON t(a); CREATE INDEX ib ON t(b); CREATE INDEX iba ON t(b, a); CREATE INDEX ic ON t(c); COMMIT;"
        )
    });
    let roots = sqlite::run(&path, "SELECT rootpage FROM sqlite_schema WHERE type='index';");
    (std::fs::read(path).expect("the image is read"), roots.lines().map(|root| root.parse().expect("a root")).collect())
}

/// A database with a log of at least so many frames of 1,024 bytes beside it.
pub fn log(dir: &Path, frames: usize) -> PathBuf {
    let path = dir.join(format!("log-{frames}.db"));
    let caught = dir.join(format!("caught-{frames}.db"));
    if !caught.exists() {
        let mut script = ".output /dev/null\nPRAGMA page_size=1024; PRAGMA synchronous=OFF; PRAGMA journal_mode=WAL; PRAGMA wal_autocheckpoint=0;
             CREATE TABLE t(a, b); WITH RECURSIVE c(x) AS (SELECT 1 UNION ALL SELECT x+1 FROM c WHERE x<400) INSERT INTO t SELECT x, zeroblob(400) FROM c;
             PRAGMA wal_checkpoint(TRUNCATE);\n"
            .to_owned();
        for i in 0..frames / 7 {
            script += &format!("UPDATE t SET a={i} WHERE rowid%50={};\n", i % 50);
        }
        let (from, to) = (path.display(), caught.display());
        script += &format!(".shell cp '{from}' '{to}' && cp '{from}-wal' '{to}-wal'\n");
        sqlite::run(&path, &script);
    }
    caught
}

/// A log with one frame for each of these pages, of which there are so many, and an image with all of them; every tenth frame and the last is a commit.
fn log_of(page_size: usize, numbers: &[u32], pages: u32, big_endian: bool) -> (Vec<u8>, Vec<u8>) {
    let mut rng = Rng::new(3);
    let mut log = vec![0; 32];
    for (at, number) in [(0, 0x377f_0682), (4, 3_007_000), (8, page_size as u32), (16, 11), (20, 12)] {
        log[at..at + 4].copy_from_slice(&u32::to_be_bytes(number));
    }
    for (i, &number) in numbers.iter().enumerate() {
        let commit = i % 10 == 9 || i + 1 == numbers.len();
        for number in [number, if commit { pages } else { 0 }, 11, 12, 0, 0] {
            log.extend(number.to_be_bytes());
        }
        let at = log.len();
        log.resize(at + page_size, 0);
        rng.fill(&mut log[at..at + 64]);
    }
    world::torn::resum(&mut log, big_endian);
    (log, vec![7; pages as usize * page_size])
}

/// So many frames of 1,024 bytes, for random pages of half as many.
pub fn long_log(frames: usize) -> (Vec<u8>, Vec<u8>) {
    let mut rng = Rng::new(3);
    let numbers: Vec<u32> = (0..frames).map(|_| 1 + rng.below(frames / 2) as u32).collect();
    log_of(1024, &numbers, (frames / 2) as u32, false)
}

/// So many frames, the last of which holds page 2, all others page 1.
pub fn last_log(page_size: usize, frames: usize, big_endian: bool) -> (Vec<u8>, Vec<u8>) {
    let mut numbers = vec![1; frames];
    numbers[frames - 1] = 2;
    log_of(page_size, &numbers, 2, big_endian)
}
