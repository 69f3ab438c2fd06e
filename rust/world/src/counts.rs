//! Databases whose header counts other pages than are present: made by hand from real ones, with the sqlite3 program as the judge.

use std::path::Path;

use crate::corpus::Database;
use crate::reader::Reader;
use crate::rng::Rng;
use crate::sqlite;

const SEED: u64 = 20240607;
/// Shapes to take the real ones from: one for each page size and change, by turns. None is in WAL mode.
const SHAPES: [&str; 8] = ["single", "overflow", "freelist", "index", "norowid", "schema", "churn", "types"];

fn number(image: &[u8], at: usize) -> u32 {
    u32::from_be_bytes([image[at], image[at + 1], image[at + 2], image[at + 3]])
}

fn put(image: &mut [u8], at: usize, number: u32) {
    image[at..at + 4].copy_from_slice(&number.to_be_bytes());
}

fn changed(image: &mut [u8], count: u32) {
    put(image, 24, number(image, 24).wrapping_add(1));
    put(image, 28, count);
}

/// A change of an image, given with its page size and number of pages.
type Change = (&'static str, fn(&mut Vec<u8>, usize, u32));

/// The same database after each: sqlite3 finds all that was there, and nothing else.
const HARMLESS: [Change; 8] = [
    // As versions before 3.7 wrote: no count, and nothing at 92 and 96.
    ("old", |image, _, _| {
        image[28..32].fill(0);
        image[92..100].fill(0);
    }),
    // As they left a file that a later version had written: 24 went on, and the count is of other days.
    ("changed-more", |image, _, pages| changed(image, pages + 3)),
    ("changed-fewer", |image, _, pages| changed(image, pages - 1)),
    ("changed-most", |image, _, _| changed(image, u32::MAX)),
    ("changed-grown", |image, _, pages| changed(image, pages.div_ceil(2))),
    ("zero", |image, _, _| put(image, 28, 0)),
    // Room taken beforehand, never cleared; and much of it.
    ("grown", |image, page_size, _| {
        let length = image.len();
        image.resize(length + 5 * page_size, 0);
        Rng::new(SEED).fill(&mut image[length..]);
    }),
    ("grown-far", |image, page_size, _| {
        let pages = if page_size <= 1024 { 4100 } else { image.len() / page_size + 1 };
        image.resize(pages * page_size, 0);
    }),
];

/// After these sqlite3 finds the database damaged.
const HARMFUL: [Change; 3] = [
    ("one-more", |image, _, pages| put(image, 28, pages + 1)),
    ("many-more", |image, _, _| put(image, 28, 5000)),
    // The last page, which is in use, is not counted.
    ("one-fewer", |image, _, pages| put(image, 28, pages - 1)),
];

fn made(dir: &Path, databases: &[Database], turn: usize, page_size: usize, change: Change, ending: &str) -> Database {
    let shape = format!("{}-{page_size}", SHAPES[turn % SHAPES.len()]);
    let real = databases.iter().find(|database| database.name == shape).expect("the shape is there at every page size");
    let mut image = real.bytes();
    let pages = (image.len() / page_size) as u32;
    assert!(number(&image, 28) == pages && number(&image, 24) == number(&image, 92), "{shape}: this sqlite3 keeps the count");
    (change.1)(&mut image, page_size, pages);
    let name = format!("{shape}-count-{}", change.0);
    let path = dir.join(format!("{name}.{ending}"));
    std::fs::write(&path, image).expect("the image is written");
    Database { name, path }
}

/// The harmless ones, to be compared as any other database.
pub fn harmless(dir: &Path, databases: &[Database]) -> Vec<Database> {
    let turns = crate::PAGE_SIZES.iter().enumerate();
    turns
        .flat_map(|(i, &page_size)| HARMLESS.iter().enumerate().map(move |(j, &change)| made(dir, databases, i + j, page_size, change, "db")))
        .collect()
}

/// The harmful ones: sqlite3 does not say "ok", and the reader refuses; with 9 where more pages are counted than present. Answers how many.
pub fn harmful(reader: &dyn Reader, dir: &Path, databases: &[Database]) -> usize {
    let mut tried = 0;
    for (i, page_size) in crate::PAGE_SIZES.into_iter().enumerate() {
        for (j, change) in HARMFUL.into_iter().enumerate() {
            let database = made(dir, databases, i + j, page_size, change, "damaged");
            let said = sqlite::attempt(database.path.to_str().expect("the path is text"), "PRAGMA integrity_check;");
            assert!(!said.as_ref().is_ok_and(|said| said == "ok\n"), "{}: integrity_check", database.name);
            let refusal = reader.check(&database.bytes(), &mut [0; 4096], &mut [0; 4096], &mut [0; 4096]).refusal;
            let expected = if change.0 == "one-fewer" { refusal == 20 || refusal == 28 } else { refusal == 9 };
            assert!(expected, "{}: refused with {refusal}", database.name);
            tried += 1;
        }
    }
    tried
}
