//! Fresh files: rows in every shape that the layout has an edge for, built, and held against the sqlite3 program: its integrity check, its account of every page, its rows.

use std::path::Path;

use plain::number::write_varint;

use crate::corpus::Database;
use crate::reader::Reader;
use crate::{compare, rows, sqlite};

/// An output of so many bytes is always enough.
pub const MOST: usize = 4096 * 1024;

/// Rows to be built: a table of two columns, `t(a, b)`.
#[derive(Clone, Debug)]
pub struct Fresh {
    pub name: String,
    pub rows: Vec<(i64, Vec<u8>)>,
}

impl Fresh {
    fn new(name: impl ToString, rows: Vec<(i64, Vec<u8>)>) -> Fresh {
        Fresh { name: name.to_string(), rows }
    }

    pub fn numbers(&self) -> Vec<i64> {
        self.rows.iter().map(|row| row.0).collect()
    }

    pub fn lengths(&self) -> Vec<u32> {
        self.rows.iter().map(|row| row.1.len() as u32).collect()
    }

    /// The payloads one behind the other.
    pub fn payloads(&self) -> Vec<u8> {
        self.rows.iter().flat_map(|row| row.1.iter().copied()).collect()
    }
}

fn varint(value: i64) -> Vec<u8> {
    let mut out = [0; 9];
    let length = write_varint(value, &mut out).expect("nine bytes are enough");
    out[..length].to_vec()
}

/// A record of serial types and values whose header's length takes one byte.
fn record(types: &[i64], values: &[u8]) -> Vec<u8> {
    let types: Vec<u8> = types.iter().flat_map(|&serial| varint(serial)).collect();
    [&[1 + types.len() as u8], &types[..], values].concat()
}

/// The schema record of a table `t`; the text is at the record's end.
pub fn schema(sql: &str) -> Vec<u8> {
    let values = [b"tablett\x02", sql.as_bytes()].concat();
    record(&[13 + 2 * 5, 15, 15, 1, 13 + 2 * sql.len() as i64], &values)
}

pub const SQL: &str = "CREATE TABLE t(a, b)";

/// A record of two columns, null or a number and a blob, of just so many bytes, three or more; the bytes depend on a number.
pub fn sized(length: usize, tag: u64) -> Vec<u8> {
    let fits = |first: usize, bytes: usize| 2 + varint(12 + 2 * bytes as i64).len() + first + bytes == length;
    let (first, bytes) = (0..2)
        .flat_map(|first| (length.saturating_sub(6)..length).map(move |bytes| (first, bytes)))
        .find(|&(first, bytes)| fits(first, bytes))
        .unwrap_or_else(|| panic!("a record of {length} bytes"));
    let mut values: Vec<u8> = vec![7; first];
    values.extend((0..bytes).map(|i| (tag as usize * 131 + i * 7 + i / 251) as u8));
    record(&[first as i64, 12 + 2 * bytes as i64], &values)
}

/// Rows of these lengths, numbered from `first` on.
fn listed(first: i64, lengths: impl IntoIterator<Item = usize>) -> Vec<(i64, Vec<u8>)> {
    lengths.into_iter().enumerate().map(|(i, length)| (first + i as i64, sized(length, i as u64))).collect()
}

/// A leaf each for rows of this length.
const ALONE: usize = 700;

/// Shapes that the layout has an edge for. All can be built.
pub fn shapes() -> Vec<Fresh> {
    let mut all = vec![
        Fresh::new("none", Vec::new()),
        Fresh::new("one", listed(1, [3])),
        Fresh::new("range", [i64::MIN, i64::MIN + 1, -1, 0, 1, i64::MAX - 1, i64::MAX].map(|row| (row, sized(9, 3))).to_vec()),
        Fresh::new("longest", listed(-2, [65536, 3, 65535, 65534, 65536])),
        Fresh::new("4096-rows", listed(-2000, (0..4096).map(|i| 3 + i % 9))),
        Fresh::new("4096-apart", (0..4096).map(|i| (i64::MIN + (i * 0x000f_ffff_ffff_ffff), sized(3, i as u64))).collect()),
        Fresh::new("4096-wide", listed(i64::MAX - 4095, (0..4096).map(|i| 200 + i % 300))),
    ];
    // Row numbers of every length of a varint, on both sides of each.
    let edges = (0..9).flat_map(|k| [(1i64 << (7 * k)) - 1, 1i64 << (7 * k), (1i64 << (7 * k)) + 1]);
    let mut numbers: Vec<i64> = edges.flat_map(|edge| [edge, -edge]).collect();
    numbers.sort_unstable();
    numbers.dedup();
    all.push(Fresh::new("numbers", numbers.iter().map(|&row| (row, sized(40, row as u64))).collect()));
    // A row on each leaf: keys of every length, on two levels and on three.
    let spread = |n: i64| (0..n).map(|i| (if i % 2 == 0 { i } else { 1i64 << (i % 62) }, i)).collect::<Vec<_>>();
    let mut keys: Vec<i64> = spread(150).into_iter().map(|pair| pair.0).collect();
    keys.sort_unstable();
    keys.dedup();
    all.push(Fresh::new("keys", keys.iter().map(|&row| (row, sized(ALONE, row as u64))).collect()));
    // Each length around the edges of the split, short ones that are padded, and of a cell that just fits a page.
    for length in (3..12).chain(56..64).chain(975..1000).chain(1088..1098).chain(2005..2013).chain(2108..2116) {
        all.push(Fresh::new(format!("payload-{length}"), listed(-1, [length, 5, length])));
    }
    // Chains of every length: one byte short of full, full, one byte past; and where K passes what a page holds.
    for (k, part) in (1..64).collect::<Vec<usize>>().chunks(8).enumerate() {
        let edges = part.iter().flat_map(|&k| [103 + 1020 * k, 989 + 1020 * k, 1010 + 1020 * k]).flat_map(|edge| [edge - 1, edge, edge + 1]);
        all.push(Fresh::new(format!("chains-{k}"), listed(0, edges.filter(|&edge| edge <= 65536))));
    }
    // Two rows on a leaf: they just fit, and do not.
    for length in 495..515 {
        all.push(Fresh::new(format!("pair-{length}"), listed(100, [500, length, 500, length, 500])));
    }
    // As many leaves as an interior page holds, by long keys and by short ones, and one or two more: the one child alone.
    for leaves in [2, 3, 67, 68, 69, 70, 71, 135, 136, 137, 138, 139, 203, 204, 205, 206, 340, 341, 1000] {
        all.push(Fresh::new(format!("leaves-{leaves}"), listed(i64::MIN, std::iter::repeat_n(ALONE, leaves))));
    }
    for leaves in (124..132).chain(140..150).chain([255, 256, 257, 258, 300, 2000]) {
        all.push(Fresh::new(format!("short-keys-{leaves}"), listed(0, std::iter::repeat_n(ALONE, leaves))));
    }
    all.push(Fresh::new("most-pages", most_pages()));
    all
}

/// Just 4,096 pages: 4,034 leaves, 60 interior pages above them, the root, the schema.
pub fn most_pages() -> Vec<(i64, Vec<u8>)> {
    listed(i64::MIN, std::iter::repeat_n(ALONE, 4034))
}

/// What was compared.
#[derive(Clone, Copy, Debug, Default)]
pub struct Counts {
    pub files: usize,
    pub pages: usize,
    pub rows: usize,
    pub bytes: usize,
}

/// Builds each shape and asks sqlite3. Panics where anything differs.
pub fn sqlite(reader: &dyn Reader, dir: &Path) -> Counts {
    let mut counts = Counts::default();
    let mut out = vec![0; MOST];
    for fresh in shapes() {
        let Fresh { name, rows } = &fresh;
        let built = reader.build(&schema(SQL), &fresh.numbers(), &fresh.lengths(), &fresh.payloads(), &mut out);
        assert_eq!((built.refusal, built.length), (0, u64::from(built.pages) * 1024), "{name}");
        let database = Database { name: format!("fresh-{name}"), path: dir.join(format!("fresh-{name}.image")) };
        let image = &out[..built.length as usize];
        std::fs::write(&database.path, image).expect("the image is written");
        if name == "most-pages" {
            assert_eq!(built.pages, 4096, "{name}");
        }
        let account = compare::account(&database);
        assert_eq!(account.pages, built.pages as usize, "{name}: pages");
        let (kinds, namers) = compare::verdict(reader, &database, image, &account);
        given(reader, &fresh, image);
        rows::compare(reader, &database, image, &kinds, &namers);
        let printed = sqlite::run(
            &database.path,
            "SELECT count(*)||'|'||coalesce(total(length(b)), 0) FROM t; SELECT type, name, tbl_name, rootpage, sql FROM sqlite_schema;",
        );
        let blobs: usize = rows.iter().map(|row| blob_length(&row.1)).sum();
        assert_eq!(printed, format!("{}|{:?}\ntable|t|t|2|{SQL}\n", rows.len(), blobs as f64), "{name}: sqlite3's own count");
        counts.files += 1;
        counts.pages += account.pages;
        counts.rows += rows.len();
        counts.bytes += rows.iter().map(|row| row.1.len()).sum::<usize>();
    }
    counts
}

/// The length of the blob in a record that [`sized`] made.
fn blob_length(record: &[u8]) -> usize {
    match plain::record::column(record, 2) {
        plain::record::Column::Value(plain::record::Value::Blob { length, .. }) => length,
        other => panic!("a blob: {other:?}"),
    }
}

/// Each row that was given is found, with the very bytes given.
fn given(reader: &dyn Reader, fresh: &Fresh, image: &[u8]) {
    let mut room = vec![0; 65536];
    for (row, payload) in &fresh.rows {
        let found = reader.lookup(image, 2, *row);
        assert_eq!((found.refusal, found.found, found.length as usize), (0, 1, payload.len()), "{}: row {row}", fresh.name);
        let fetched = reader.payload_fetch(image, found.page, found.cell, &mut room);
        assert_eq!((fetched.refusal, &room[..fetched.length as usize]), (0, &payload[..]), "{}: row {row}", fresh.name);
    }
}
