//! The order of records and of an index's keys, held against the sqlite3 program: its own indexes, over columns of every type, mixed, with big integers beside reals and long keys with
//! overflow, and WITHOUT ROWID tables; and its `integrity_check` as the judge of damaged ones.
//!
//! Where keys are exchanged, or a value is changed in the index and in its table's row alike, the index still has the same entries as its table, all of them different. Then a search finds each of
//! them exactly where they rise: the verdict has to refuse with 33 exactly where `integrity_check` misses a row of that index, or finds rows of a WITHOUT ROWID table out of order. Where the index
//! alone is changed, a row is missing in any case, which the verdict does not look for: there it may accept, and never refuses what `integrity_check` passes. Left out are changes that make a NaN.

use std::path::Path;

use plain::c::{Order, Verdict};
use plain::header::{header, Header};
use plain::number::{be32, read_varint, signed};
use plain::page::{page_bytes, tree_page, Marks, INDEX_INTERIOR, INDEX_LEAF, TABLE_LEAF};

use crate::corpus::Database;
use crate::reader::Reader;
use crate::rng::Rng;
use crate::{sqlite, PAGE_SIZES};

/// Damaged copies of each tree.
const DAMAGED: usize = 14;

/// How much was compared.
#[derive(Clone, Copy, Debug, Default)]
pub struct Counts {
    pub indexes: usize,
    pub pairs: usize,
    /// Damaged with the table in step: out of order, or still in order.
    pub broken: usize,
    pub kept: usize,
    /// Damaged in the index alone: out of order, or in order and at odds with the table.
    pub broken_alone: usize,
    pub kept_alone: usize,
}

/// Values that lie close together or at the edges of their kinds, as SQL.
#[rustfmt::skip]
const VALUES: [&str; 34] = [
    "NULL", "0", "-0.0", "0.0", "1", "1.0", "-1", "0.5", "-0.5", "5e-324", "9007199254740991", "9007199254740992", "9007199254740992.0", "9007199254740993",
    "-9007199254740993", "-9007199254740992.0", "9223372036854775807", "9223372036854775807.0", "-9223372036854775808", "-9223372036854775808.0", "1e300",
    "-1e300", "9e999", "-9e999", "''", "'a'", "'a' || char(0)", "'ab'", "'B'", "'\u{e9}'", "x''", "x'00'", "x'61'", "x'ff'",
];

/// The root of table t, which is made first.
const TABLE: u32 = 2;
/// The indexes of table t: by which of its columns, counted from 0.
const INDEXES: [(&str, &[usize]); 6] = [("by_a", &[1]), ("by_ab", &[1, 2]), ("by_b", &[2, 1, 3]), ("by_r", &[3]), ("by_s", &[4, 5]), ("by_i", &[5])];

/// A database with indexes over such values, in pages of a size; some with overflow, up to about three times so many bytes.
fn made(dir: &Path, name: &str, page_size: usize, rows: usize, long: usize) -> Database {
    let name = format!("{name}-{page_size}");
    let path = dir.join(format!("{name}.db"));
    let mut rng = Rng::new(page_size as u64);
    let mut script = format!("PRAGMA page_size={page_size}; BEGIN; CREATE TABLE t(n INTEGER PRIMARY KEY, a, b, r REAL, s TEXT, i INTEGER);\n");
    for (name, columns) in INDEXES {
        let columns: Vec<&str> = columns.iter().map(|&column| ["n", "a", "b", "r", "s", "i"][column]).collect();
        script += &format!("CREATE INDEX {name} ON t({});\n", columns.join(", "));
    }
    script += "CREATE TABLE w(k, v, x, PRIMARY KEY(k, v)) WITHOUT ROWID; CREATE INDEX w_by_x ON w(x);\n";
    for row in 0..rows {
        let value = |rng: &mut Rng| match rng.below(7) {
            0 => format!("'{}'", "long".repeat(rng.below(long / 2))),
            1 => format!("zeroblob({})", rng.below(3 * long)),
            2 => format!("{}", rng.word() as i64 >> rng.below(64)),
            3 => format!("{:?}", f64::from_bits(rng.word() >> 2)),
            // Reals side by side, each its neighbour's next.
            4 => format!("{:?}", f64::from_bits(0.1f64.to_bits() + rng.below(60) as u64)),
            _ => (*rng.pick(&VALUES)).to_owned(),
        };
        let (a, b, r, s, i) = (value(&mut rng), value(&mut rng), value(&mut rng), value(&mut rng), value(&mut rng));
        script += &format!("INSERT INTO t VALUES({row}, {a}, {b}, {r}, {s}, {i});\n");
        let (k, v, x) = (value(&mut rng), value(&mut rng), value(&mut rng));
        script += &format!("INSERT OR IGNORE INTO w SELECT {k}, {v}, {x} WHERE {k} IS NOT NULL AND {v} IS NOT NULL;\n");
    }
    sqlite::run(&path, &(script + "COMMIT;"));
    Database { name, path }
}

/// A tree of keys.
struct Tree {
    name: String,
    root: u32,
    /// It is a WITHOUT ROWID table.
    is_table: bool,
}

/// The trees of keys whose columns are plain and ascending, by sqlite3's own account: no DESC, no COLLATE but BINARY, no expression.
fn plain_trees(database: &Database) -> Vec<Tree> {
    const OFF: &str = "(\"desc\"<>0 OR coll<>'BINARY' OR cid=-2)";
    let printed = sqlite::run(
        &database.path,
        &format!(
            "SELECT 'index|'||rootpage||'|'||name FROM sqlite_schema s WHERE type='index' AND NOT EXISTS(SELECT 1 FROM pragma_index_xinfo(s.name) WHERE {OFF});
             SELECT 'table|'||rootpage||'|'||s.name FROM sqlite_schema s JOIN pragma_table_list t ON t.name=s.name AND t.schema='main' WHERE s.type='table' AND t.wr=1 AND NOT EXISTS(
             SELECT 1 FROM pragma_index_list(s.name) l, pragma_index_xinfo(l.name) x WHERE l.origin='pk' AND key=1 AND {OFF});"
        ),
    );
    let tree = |line: &str| {
        let mut fields = line.splitn(3, '|');
        let (kind, root, name) = (fields.next()?, fields.next()?, fields.next()?);
        Some(Tree { name: name.to_owned(), root: root.parse().ok()?, is_table: kind == "table" })
    };
    printed.lines().map(|line| tree(line).expect("a tree")).collect()
}

/// The page and cell of every key under a page, from left to right.
pub fn keys(image: &[u8], header: &Header, page: u32, found: &mut Vec<(u32, u32)>) {
    let tree = tree_page(image, header, page, &[INDEX_INTERIOR, INDEX_LEAF], &mut Marks::default()).expect("an index page");
    for i in 0..tree.cells {
        if !tree.is_leaf() {
            keys(image, header, tree.cell(i).child, found);
        }
        found.push((page, i as u32));
    }
    if !tree.is_leaf() {
        keys(image, header, tree.right, found);
    }
}

fn record(reader: &dyn Reader, image: &[u8], (page, cell): (u32, u32)) -> Vec<u8> {
    let mut out = vec![0; 65536];
    let answer = reader.payload_fetch(image, page, cell, &mut out);
    assert_eq!(answer.refusal, 0, "page {page} cell {cell}");
    out.truncate(answer.length as usize);
    out
}

/// Each key of an index is less than the next, as sqlite3 put them.
fn rising(reader: &dyn Reader, image: &[u8], found: &[(u32, u32)]) -> usize {
    let records: Vec<Vec<u8>> = found.iter().map(|&key| record(reader, image, key)).collect();
    for (i, pair) in records.windows(2).enumerate() {
        let order = |order| Order { status: 0, order };
        assert_eq!(reader.record_order(&pair[0], &pair[1]), order(-1), "keys {:?} and {:?}", found[i], found[i + 1]);
        assert_eq!(reader.record_order(&pair[1], &pair[0]), order(1), "keys {:?} and {:?}", found[i + 1], found[i]);
        assert_eq!(reader.record_order(&pair[0], &pair[0]), order(0), "key {:?}", found[i]);
    }
    records.len().saturating_sub(1)
}

fn verdict(reader: &dyn Reader, image: &[u8], names: &[u32]) -> (Verdict, [Vec<u32>; 3]) {
    let pages = image.len() / 512;
    let (mut kinds, mut namers, mut steps) = (vec![0; pages], vec![0; pages], vec![0; pages]);
    let answer = reader.check_ordered(image, names, &mut kinds, &mut namers, &mut steps);
    (answer, [kinds.into_iter().map(u32::from).collect(), namers, steps])
}

/// A database that sqlite3 made, with every plain ascending index named: the verdict and the ledgers are those without names, or 34 where its texts are UTF-16. Answers how many there are.
pub fn named(reader: &dyn Reader, database: &Database, image: &[u8]) -> usize {
    let name = &database.name;
    let names: Vec<u32> = plain_trees(database).iter().map(|tree| tree.root).collect();
    let without = verdict(reader, image, &[]);
    if be32(image, 56) != 1 {
        let refused = Verdict { refusal: 34, ..Verdict::default() };
        assert_eq!(verdict(reader, image, &[1]).0, refused, "{name}: texts are UTF-16");
        return 0;
    }
    assert_eq!(verdict(reader, image, &names), without, "{name}: all plain indexes named");
    // A table's root last of the names, and page 1.
    let table = sqlite::run(&database.path, "SELECT rootpage FROM sqlite_schema s JOIN pragma_table_list t ON t.name=s.name AND t.schema='main' WHERE s.type='table' AND t.wr=0 AND rootpage>0 LIMIT 1;");
    for other in table.trim().parse::<u32>().into_iter().chain([1]) {
        let with: Vec<u32> = names.iter().copied().chain([other]).collect();
        assert_eq!(
            verdict(reader, image, &with).0,
            Verdict { refusal: 35, page: other, ..Verdict::default() },
            "{name}: page {other} is no index root"
        );
    }
    names.len()
}

/// Where each byte of a cell's payload stands in the image.
pub fn places(image: &[u8], header: &Header, (page, cell): (u32, u32)) -> Vec<usize> {
    let tree = tree_page(image, header, page, &[INDEX_INTERIOR, INDEX_LEAF, TABLE_LEAF], &mut Marks::default()).expect("a page with payloads");
    let cell = tree.cell(cell as usize);
    let start = |page: u32| (page as usize - 1) * header.page_size;
    let mut places: Vec<usize> = (0..cell.local).map(|i| start(page) + cell.local_at + i).collect();
    let mut next = cell.overflow;
    while places.len() < cell.payload {
        let part = (cell.payload - places.len()).min(header.usable - 4);
        places.extend((0..part).map(|i| start(next) + 4 + i));
        next = be32(page_bytes(image, header, next), 0);
    }
    places
}

/// The serial type, place and length of each column of a record.
pub fn columns(record: &[u8]) -> Vec<(i64, usize, usize)> {
    let (header, mut at) = read_varint(record).expect("a record");
    let mut place = header as usize;
    let mut found = Vec::new();
    while at < header as usize {
        let (serial, taken) = read_varint(&record[at..]).expect("a serial type");
        let length = match serial {
            0 | 8 | 9 => 0,
            1..=4 => serial as usize,
            5 => 6,
            6 | 7 => 8,
            _ => (serial as usize - 12) / 2,
        };
        found.push((serial, place, length));
        at += taken;
        place += length;
    }
    found
}

/// The whole number in a column.
fn whole(record: &[u8], (serial, place, length): (i64, usize, usize)) -> i64 {
    match serial {
        8 => 0,
        9 => 1,
        _ => signed(&record[place..place + length]),
    }
}

/// One damaged copy, and whether the index still has the entries of its table.
fn damaged(reader: &dyn Reader, image: &[u8], header: &Header, tree: &Tree, found: &[(u32, u32)], rng: &mut Rng) -> Option<(Vec<u8>, bool)> {
    let mut copy = image.to_vec();
    let one = rng.below(found.len());
    let spots = places(image, header, found[one]);
    match rng.below(5) {
        // Two keys of one length exchange their places, anywhere in the tree; those side by side among them.
        0 | 1 => {
            let near = |other: &usize| rng.below(2) == 0 || other.abs_diff(one) < 3;
            let others: Vec<usize> = (0..found.len()).filter(|&other| other != one).filter(near).collect();
            let other = others.into_iter().find(|&other| places(image, header, found[other]).len() == spots.len())?;
            for (a, b) in spots.iter().zip(places(image, header, found[other])) {
                copy.swap(*a, b);
            }
            Some((copy, true))
        }
        // A key is its neighbour's copy.
        2 => {
            let other = if one > 0 { one - 1 } else { 1 };
            let from = places(image, header, *found.get(other)?);
            if from.len() != spots.len() {
                return None;
            }
            for (a, b) in spots.iter().zip(from) {
                copy[*a] = image[b];
            }
            Some((copy, false))
        }
        // A bit of a value: the last, or any.
        sort => {
            let key = record(reader, image, found[one]);
            let parts = columns(&key);
            let column = rng.below(if tree.is_table { 2 } else { parts.len() - 1 });
            let (serial, place, length) = parts[column];
            if length == 0 {
                return None;
            }
            let (back, bit) = if rng.below(2) == 0 { (0, 0) } else { (rng.below(length), rng.below(8)) };
            let flip = |copy: &mut [u8], spots: &[usize], place: usize| copy[spots[place + length - 1 - back]] ^= 1 << bit;
            flip(&mut copy, &spots, place);
            // sqlite3, which writes no NaN, takes one that it finds in an index for the same as any real.
            let bytes: Vec<u8> = spots[place..place + length].iter().map(|&spot| copy[spot]).collect();
            if serial == 7 && f64::from_bits(signed(&bytes) as u64).is_nan() {
                return None;
            }
            if tree.is_table || sort == 3 {
                return Some((copy, tree.is_table));
            }
            let (_, indexed) = INDEXES.iter().find(|(name, _)| *name == tree.name)?;
            let row = whole(&key, *parts.last()?);
            let cell = reader.lookup(image, TABLE, row);
            assert_eq!(cell.found, 1, "row {row} of index {}", tree.name);
            let of_row = columns(&record(reader, image, (cell.page, cell.cell)));
            let (same, place, _) = of_row[indexed[column]];
            if same != serial {
                return None;
            }
            flip(&mut copy, &places(image, header, (cell.page, cell.cell)), place);
            Some((copy, true))
        }
    }
}

/// Whether sqlite3's `integrity_check` misses a row of the index, or finds the table's rows out of order.
fn reported(dir: &Path, image: &[u8], tree: &Tree) -> bool {
    let path = dir.join("damaged.order");
    std::fs::write(&path, image).expect("the copy is written");
    let printed = sqlite::run(&path, "PRAGMA integrity_check(1000000);");
    std::fs::remove_file(&path).expect("the copy goes");
    let missing = format!(" missing from index {}", tree.name);
    let disorder = format!("row not in PRIMARY KEY order for {}", tree.name);
    printed.lines().any(|line| line == disorder || (line.starts_with("row ") && line.ends_with(&missing)))
}

pub fn compare(reader: &dyn Reader, dir: &Path) -> Counts {
    let mut counts = Counts::default();
    let large = PAGE_SIZES.map(|page_size| ("ordered", page_size, 240, page_size.min(4096)));
    let small = [512, 1024, 4096].map(|page_size| ("keys", page_size, 40, 150));
    for (name, page_size, rows, long) in large.into_iter().chain(small) {
        let database = made(dir, name, page_size, rows, long);
        let image = database.bytes();
        let header = header(&image).expect("a database");
        let trees = plain_trees(&database);
        assert_eq!(trees.len(), INDEXES.len() + 2, "every index, and the table w");
        assert_eq!(named(reader, &database, &image), trees.len());
        let mut rng = Rng::new(page_size as u64 + 1);
        for tree in &trees {
            let mut found = Vec::new();
            keys(&image, &header, tree.root, &mut found);
            counts.indexes += 1;
            counts.pairs += rising(reader, &image, &found);
            for _ in 0..DAMAGED {
                let Some((damaged, in_step)) = damaged(reader, &image, &header, tree, &found, &mut rng) else { continue };
                let answer = verdict(reader, &damaged, &[tree.root]).0;
                assert!(matches!(answer.refusal, 0 | 33), "{}, {}: {answer:?}", database.name, tree.name);
                assert_eq!(verdict(reader, &damaged, &[]).0.refusal, 0, "{}, {}: without names", database.name, tree.name);
                let (refused, reported) = (answer.refusal == 33, reported(dir, &damaged, tree));
                let what =
                    || format!("{}, {}: {answer:?}, integrity_check {}", database.name, tree.name, if reported { "complains" } else { "is silent" });
                if in_step {
                    assert_eq!(refused, reported, "{}", what());
                } else {
                    assert!(reported || !refused, "{}", what());
                }
                *match (in_step, refused) {
                    (true, true) => &mut counts.broken,
                    (true, false) => &mut counts.kept,
                    (false, true) => &mut counts.broken_alone,
                    (false, false) => &mut counts.kept_alone,
                } += 1;
            }
        }
    }
    counts
}
