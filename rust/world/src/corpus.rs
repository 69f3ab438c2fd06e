//! Databases in many shapes.

use std::fmt::Write as _;
use std::path::{Path, PathBuf};

use crate::sqlite;
use crate::PAGE_SIZES;

/// A database that the sqlite3 program made.
#[derive(Clone, Debug)]
pub struct Database {
    pub name: String,
    pub path: PathBuf,
}

impl Database {
    pub fn bytes(&self) -> Vec<u8> {
        std::fs::read(&self.path).expect("the database is there")
    }
}

/// Numbers from 1 to `n`, as a table `c(x)`.
fn numbers(n: usize) -> String {
    format!("WITH RECURSIVE c(x) AS (SELECT 1 UNION ALL SELECT x+1 FROM c WHERE x<{n})")
}

/// A text of a length, which depends on a number; both are SQL expressions.
fn text(number: &str, length: &str) -> String {
    format!("substr(replace(hex(zeroblob(({length})/8+1)),'00',printf('%08x',({number})*2654435761%4294967296)),1,{length})")
}

fn blob(number: &str, length: &str) -> String {
    format!("CAST({} AS BLOB)", text(number, length))
}

type Shape = (&'static str, fn(usize) -> String);

/// The shapes: each a name, and SQL for a page size.
const SHAPES: [Shape; 18] = [
    ("empty", |_| "CREATE TABLE t(a); DROP TABLE t; VACUUM;".into()),
    ("single", single),
    ("overflow", overflow),
    ("freelist", freelist),
    ("index", index),
    ("norowid", norowid),
    ("schema", schema),
    ("deep", deep),
    ("tables", tables),
    ("churn", churn),
    ("rows", rows),
    ("types", types),
    ("utf16", |page_size| format!("PRAGMA encoding='UTF-16le'; {}", index(page_size))),
    ("analyze", |page_size| format!("{} ANALYZE;", index(page_size))),
    ("walmode", |page_size| format!("PRAGMA journal_mode=WAL; {}", churn(page_size))),
    ("altered", altered),
    ("signals", signals),
    ("wide", wide),
];

fn single(_: usize) -> String {
    "CREATE TABLE t(a INTEGER PRIMARY KEY, b, c REAL); INSERT INTO t VALUES(1,'one',1.5),(2,NULL,2),(5,x'00ff',-0.25);".into()
}

/// Payloads around every edge of the payload split and of the overflow pages.
fn overflow(page_size: usize) -> String {
    let mut sql = "CREATE TABLE t(a, b); CREATE INDEX i ON t(b); CREATE TABLE longest(a);".to_owned();
    let _ = write!(sql, "INSERT INTO longest VALUES({});", text("1", "65532"));
    let least = (page_size - 12) * 32 / 255 - 23;
    let most_index = (page_size - 12) * 64 / 255 - 23;
    let mut lengths: Vec<usize> = vec![0, 1, 127, 128];
    for edge in [least, most_index, page_size - 35, page_size - 4, least + page_size - 4, 2 * page_size, 3 * (page_size - 4) + least] {
        lengths.extend((edge.saturating_sub(9)..edge + 4).filter(|&length| length < 65500));
    }
    lengths.extend([5 * page_size + 3, 17 * page_size + 100, 65529].iter().filter(|&&length| length < 65530));
    for (i, length) in lengths.iter().enumerate() {
        let (i, length) = (i.to_string(), length.to_string());
        let _ = write!(sql, "INSERT INTO t VALUES({},{i}); INSERT INTO t VALUES({i},{});", blob(&i, &length), text(&i, &length));
    }
    sql
}

/// A freelist, with several trunks on the smaller page sizes; then some of it taken again.
fn freelist(page_size: usize) -> String {
    let per_trunk = page_size / 4 - 8;
    let pages = (3 * per_trunk + 10).min(16_000_000 / page_size).min(2600);
    format!(
        "PRAGMA secure_delete=OFF; CREATE TABLE k(a); INSERT INTO k VALUES(1);
         CREATE TABLE t(a); {} INSERT INTO t SELECT {} FROM c;
         CREATE TABLE u(a); INSERT INTO u VALUES(2);
         DELETE FROM t WHERE rowid%17<>0; {} INSERT INTO u SELECT {} FROM c;",
        numbers(pages),
        blob("x", &(page_size - 60).to_string()),
        numbers(7),
        text("x", &(2 * page_size).min(60000).to_string()),
    )
}

fn index(page_size: usize) -> String {
    let rows = (300_000 / page_size).clamp(40, 400);
    format!(
        "CREATE TABLE t(a TEXT, b INT, c BLOB); CREATE INDEX ta ON t(a); CREATE UNIQUE INDEX tb ON t(b,a); CREATE INDEX tc ON t(c DESC, b);
         {} INSERT INTO t SELECT {}, (x*7919)%100003, {} FROM c;",
        numbers(rows),
        text("x", "1+(x*37)%90"),
        blob("x", &format!("(x*x*31)%{}", page_size.min(2000))),
    )
}

/// WITHOUT ROWID tables, with cells of under four bytes among them.
fn norowid(page_size: usize) -> String {
    format!(
        "CREATE TABLE z(k PRIMARY KEY) WITHOUT ROWID; INSERT INTO z VALUES(0),(1);
         CREATE TABLE w(k TEXT PRIMARY KEY, v, n INT) WITHOUT ROWID; CREATE INDEX wn ON w(n);
         {} INSERT INTO w SELECT 'k'||((x*7919)%100003), {}, x%10 FROM c;
         CREATE TABLE p(a INT, b INT, c, PRIMARY KEY(b,a)) WITHOUT ROWID; {} INSERT INTO p SELECT x%7, x, NULL FROM c;",
        numbers(120),
        blob("x", &format!("(x*29)%{}", page_size.min(3000))),
        numbers(200),
    )
}

/// Views, triggers, virtual tables and a schema row over several overflow pages.
fn schema(page_size: usize) -> String {
    let long = "x".repeat((3 * page_size + 77).min(60000));
    let longer = "y".repeat((page_size / 2).min(20000));
    format!(
        "CREATE TABLE t(a INTEGER PRIMARY KEY AUTOINCREMENT, b /* {long} */); CREATE VIEW v AS SELECT b /* {longer} */ FROM t;
         CREATE TABLE log(a, b); CREATE TRIGGER tr AFTER INSERT ON t BEGIN INSERT INTO log VALUES(new.a, new.b); END;
         CREATE TABLE \"odd name\"(\"a b\", [c d]); CREATE INDEX \"odd index\" ON \"odd name\"(\"a b\" COLLATE NOCASE);
         INSERT INTO t(b) VALUES('one'),('two'),('three'); INSERT INTO \"odd name\" VALUES('A','b'),('a','c');
         CREATE VIRTUAL TABLE f USING fts5(body); INSERT INTO f VALUES('words of one kind'),('words of another');
         CREATE VIRTUAL TABLE r USING rtree(id, x0, x1); INSERT INTO r VALUES(1,0,1),(2,0.5,3);
         CREATE TABLE last(a UNIQUE, b UNIQUE ON CONFLICT REPLACE /* {longer} */); INSERT INTO last VALUES(1,2),(3,4);"
    )
}

/// Trees of many levels: index keys that just fit, and many short rows.
fn deep(page_size: usize) -> String {
    let key = ((page_size - 12) * 64 / 255 - 23 - 8).min(8000);
    let rows = (700_000 / page_size).clamp(60, 1400);
    format!(
        "CREATE TABLE d(a PRIMARY KEY) WITHOUT ROWID; {} INSERT INTO d SELECT {} FROM c;
         CREATE TABLE s(a); {} INSERT INTO s SELECT x FROM c;",
        numbers(rows),
        text("x", &key.to_string()),
        numbers(if page_size > 4096 { 6000 } else { 20000 }),
    )
}

fn tables(page_size: usize) -> String {
    let count = (2_600_000 / page_size).clamp(40, 260);
    let mut sql = String::new();
    for i in 0..count {
        let _ = write!(sql, "CREATE TABLE t{i}(a, column_{i} INT); INSERT INTO t{i} VALUES({i},'{}');", "v".repeat(i % 40));
        if i % 5 == 0 {
            let _ = write!(sql, "CREATE INDEX i{i} ON t{i}(a);");
        }
        if i % 7 == 0 {
            let _ = write!(sql, "CREATE VIEW v{i} AS SELECT * FROM t{i};");
        }
        if i % 11 == 3 {
            let _ = write!(sql, "DROP TABLE t{};", i - 1);
        }
    }
    sql
}

/// Freeblocks and fragments: rows that come, go, grow and shrink.
fn churn(page_size: usize) -> String {
    let rows = (400_000 / page_size).clamp(100, 600);
    let mut sql = format!(
        "CREATE TABLE t(a INTEGER PRIMARY KEY, b, c); CREATE INDEX tb ON t(b); {} INSERT INTO t SELECT x*3, {}, x FROM c;",
        numbers(rows),
        text("x", "(x*13)%60"),
    );
    for round in 1..8 {
        let _ = write!(
            sql,
            "DELETE FROM t WHERE a%{}={}; UPDATE t SET b={} WHERE a%5={}; INSERT OR IGNORE INTO t SELECT a+{round}, {}, a FROM t WHERE a%4=1;",
            round + 3,
            round % 3,
            text("a", &format!("(a*{round})%{}", 20 + 9 * round)),
            round % 5,
            text("a+1", &format!("1+(a*7)%{}", 30 + round)),
        );
    }
    sql
}

/// Row numbers of every length, negative ones too.
fn rows(_: usize) -> String {
    let mut sql = "CREATE TABLE t(a);".to_owned();
    let mut add = |row: i128| {
        if i64::try_from(row).is_ok() {
            let _ = write!(sql, "INSERT OR IGNORE INTO t(rowid,a) VALUES({row},'row {row}');");
        }
    };
    for shift in 0..64 {
        for delta in -1..=1 {
            add((1i128 << shift) + delta);
            add(-(1i128 << shift) + delta);
        }
    }
    sql
}

/// A column of every serial type.
fn types(page_size: usize) -> String {
    let mut sql = "CREATE TABLE t(a, b REAL, c); CREATE INDEX ta ON t(a);".to_owned();
    for shift in [0, 6, 7, 8, 14, 15, 16, 22, 23, 24, 30, 31, 32, 46, 47, 48, 61, 62] {
        for value in [1i64 << shift, (1i64 << shift) - 1, -(1i64 << shift), -(1i64 << shift) - 1] {
            let _ = write!(sql, "INSERT INTO t VALUES({value},{},{}.5);", value % 4096, value % 1000);
        }
    }
    let _ = write!(sql, "INSERT INTO t VALUES(NULL,NULL,NULL),(9223372036854775807,1e300,-1e300),(0.0,-0.0,9e999),(-9e999,0.1,x'');");
    let _ = write!(sql, "INSERT INTO t VALUES('',x'','{}'),({},'text',x'ff');", "é".repeat(100), text("7", &page_size.min(30000).to_string()));
    sql
}

/// Reals of all sorts, with sums where order matters, infinities of one sign and of both, subnormals, zeros of both signs, rows without a real, and levels that stand on overflow pages.
fn signals(page_size: usize) -> String {
    let rows = (100_000 / page_size).clamp(40, 200);
    format!(
        "CREATE TABLE t(a, b REAL, c); {} INSERT INTO t SELECT (x*7919)%1009/7.0-40.0, x/8.0,
            CASE x%9 WHEN 0 THEN x WHEN 1 THEN NULL WHEN 2 THEN 'text' WHEN 3 THEN 1e16 WHEN 4 THEN 1.0 WHEN 5 THEN -1e16 ELSE x*1e-9 END FROM c;
         CREATE TABLE both(a); INSERT INTO both VALUES(1.5),(9e999),(2.5),(-9e999),(9e999),(-3.25);
         CREATE TABLE up(a); INSERT INTO up VALUES(1e308),(1e308),(-1e308),(9e999),(9e999);
         CREATE TABLE down(a); INSERT INTO down VALUES(-1e308),(-1e308),(1e308);
         CREATE TABLE tiny(a); INSERT INTO tiny VALUES(4.9e-324),(1e-310),(-4.9e-324),(2.2250738585072014e-308),(-1e-320);
         CREATE TABLE zeros(a, b, c); INSERT INTO zeros VALUES(-0.0,0.0,-0.0),(0.0,-0.0,-0.0),(-0.0,0.0,-0.0);
         CREATE TABLE none(a); INSERT INTO none VALUES(1),('1.5'),(NULL),(x'00');
         CREATE TABLE over(pad, a); {} INSERT INTO over SELECT {}, x/3.0 FROM c;",
        numbers(rows),
        numbers(12),
        blob("x", &format!("min(x*{page_size}/4,60000)")),
    )
}

/// Records of many columns: on small pages their headers run over the chain, in the table and on leaves and interior pages of the index.
fn wide(page_size: usize) -> String {
    let columns = if page_size <= 1024 { 150 } else { 20 };
    let list = |of: fn(usize) -> String| (1..=columns).map(of).collect::<Vec<_>>().join(",");
    format!(
        "CREATE TABLE t({}, pad); CREATE INDEX w ON t({}); {} INSERT INTO t SELECT {}, zeroblob(abs(x*7919)%{page_size}) FROM c;",
        list(|column| format!("c{column}")),
        list(|column| format!("c{column}")),
        numbers(60),
        list(|column| format!("CASE (x*{column})%7 WHEN 0 THEN NULL WHEN 1 THEN 'a' WHEN 2 THEN x*1000 ELSE x*{column}%2 END")),
    )
}

fn altered(_: usize) -> String {
    format!(
        "CREATE TABLE t(a, b, c); {} INSERT INTO t SELECT x, x*x, 'c'||x FROM c; ALTER TABLE t DROP COLUMN b; ALTER TABLE t RENAME TO u;
         CREATE INDEX part ON u(a) WHERE a>50; CREATE INDEX expr ON u(a+1); REINDEX; DELETE FROM u WHERE a<20; PRAGMA user_version=7;
         CREATE TABLE gone(x); INSERT INTO gone SELECT c FROM u; DROP TABLE gone;",
        numbers(100)
    )
}

/// Auto-vacuum, full or incremental, set before the first table: freelists that are given back, whole or in part, and rows, chains and roots that move.
const VACUUMS: [Shape; 6] = [
    ("full", |page_size| format!("PRAGMA auto_vacuum=FULL; {}", freelist(page_size))),
    ("full-tables", |page_size| format!("PRAGMA auto_vacuum=FULL; {}", tables(page_size))),
    ("incremental", |page_size| {
        format!("PRAGMA auto_vacuum=INCREMENTAL; {} DELETE FROM t WHERE rowid%3=0; PRAGMA incremental_vacuum(3);", overflow(page_size))
    }),
    ("incremental-index", |page_size| format!("PRAGMA auto_vacuum=INCREMENTAL; {} DELETE FROM t WHERE b%3=0;", index(page_size))),
    ("turned-on", |page_size| format!("{} PRAGMA auto_vacuum=INCREMENTAL; VACUUM;", churn(page_size))),
    ("maps", maps),
];

/// Several pointer maps, as far as some 3,600 pages go: three up to 8,192-byte pages, two at 16,384. Then some pages are freed, and some of those given back.
fn maps(page_size: usize) -> String {
    let between = page_size / 5 + 1;
    let further = [2, 1, 0].into_iter().find(|maps| maps * between < 3600).unwrap_or(0);
    let pages = further * between + (between / 8).min(120);
    let per_row = (60_000 / page_size).clamp(1, 12);
    format!(
        "PRAGMA auto_vacuum=INCREMENTAL; CREATE TABLE k(a INTEGER PRIMARY KEY, b); CREATE TABLE t(a); {} INSERT INTO t SELECT {} FROM c;
         CREATE TABLE late(a); CREATE INDEX later ON late(a); {} INSERT INTO late SELECT {} FROM c; {} INSERT INTO k SELECT x, {} FROM c;
         DELETE FROM t WHERE rowid%7=0; PRAGMA incremental_vacuum({});",
        numbers(pages / per_row),
        blob("x", &(per_row * (page_size - 4) - 60).to_string()),
        numbers(30),
        text("x", "50"),
        numbers(20),
        text("x", "(x*9)%40"),
        pages / 100,
    )
}

/// Makes one database of a shape.
fn make(dir: &Path, name: String, page_size: usize, reserved: usize, sql: &str) -> Database {
    let path = dir.join(format!("{name}.db"));
    let reserve = if reserved > 0 { format!(".filectrl reserve_bytes {reserved}\n") } else { String::new() };
    let script = format!(
        ".output /dev/null\n{reserve}PRAGMA page_size={page_size}; PRAGMA synchronous=OFF; PRAGMA journal_mode=MEMORY; PRAGMA auto_vacuum=0;\n{sql}\n"
    );
    sqlite::run(&path, &script);
    Database { name, path }
}

/// Makes all databases in an empty folder.
pub fn databases(dir: &Path) -> Vec<Database> {
    let mut made = Vec::new();
    for page_size in PAGE_SIZES {
        for (name, sql) in SHAPES {
            made.push(make(dir, format!("{name}-{page_size}"), page_size, 0, &sql(page_size)));
        }
        for (name, sql) in VACUUMS {
            made.push(make(dir, format!("vacuum-{name}-{page_size}"), page_size, 0, &sql(page_size)));
        }
        if (1024..=4096).contains(&page_size) {
            let (name, sql) = VACUUMS[[0, 2, 5][page_size / 2048]];
            made.push(make(dir, format!("vacuum-{name}-{page_size}-reserved-77"), page_size, 77, &sql(page_size - 77)));
        }
        for reserved in [1, 8, 32, 200, 255] {
            if page_size - reserved >= 480 {
                let (name, sql) = SHAPES[[2, 9, 5, 4, 6][reserved % 5]];
                made.push(make(dir, format!("{name}-{page_size}-reserved-{reserved}"), page_size, reserved, &sql(page_size - reserved)));
            }
        }
    }
    made
}
