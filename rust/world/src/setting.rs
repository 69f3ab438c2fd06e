//! Rows set in files of sqlite3's own: its integrity check and its selects say that the row is what was set, and all others what they were.

use std::path::Path;

use crate::reader::Reader;
use crate::rng::Rng;
use crate::{sqlite, PAGE_SIZES};

const SEED: u64 = 20240607;
/// Reserved bytes, where a page has so many to spare.
const RESERVED: [usize; 4] = [0, 1, 32, 255];
const SETS: usize = 40;

/// What was compared.
#[derive(Clone, Copy, Debug, Default)]
pub struct Counts {
    pub files: usize,
    pub sets: usize,
    /// Sets that were refused with 54: a chain, or no room.
    pub no_room: usize,
}

/// Files with freeblocks and fragments, rows of every short length, and tables of one leaf and of many; a list of rows that come and go.
fn script(page_size: usize, reserved: usize) -> String {
    let rows = if page_size > 8192 { 300 } else { 700 };
    let reserve = if reserved > 0 { format!(".filectrl reserve_bytes {reserved}\n") } else { String::new() };
    format!(
        ".output /dev/null\n{reserve}PRAGMA page_size={page_size}; PRAGMA secure_delete=OFF; PRAGMA synchronous=OFF;
         CREATE TABLE counter(value, note); INSERT INTO counter VALUES(127, 'a'),(128, NULL),(32767, x'00'),(-1, '');
         CREATE TABLE many(value, note); CREATE TABLE other(a); INSERT INTO other SELECT 1 FROM counter;
         WITH RECURSIVE c(x) AS (SELECT 1 UNION ALL SELECT x+1 FROM c WHERE x<{rows})
         INSERT INTO many SELECT x*x, substr(hex(zeroblob(60)), 1, (x*7)%90) FROM c;
         DELETE FROM many WHERE rowid%5=2; UPDATE many SET note=substr(note, 1, length(note)/2) WHERE rowid%7=3;
         UPDATE many SET note=note||'xyz' WHERE rowid%11=4;\n"
    )
}

/// A record of an integer and a text, as sqlite3 spells them.
fn record(value: i64, note: &str) -> Vec<u8> {
    let bytes = value.to_be_bytes();
    let (kind, from) = match value {
        0 => (8, 8),
        1 => (9, 8),
        -0x80..=0x7f => (1, 7),
        -0x8000..=0x7fff => (2, 6),
        -0x80_0000..=0x7f_ffff => (3, 5),
        -0x8000_0000..=0x7fff_ffff => (4, 4),
        _ => (6, 0),
    };
    let text = 13 + 2 * note.len() as i64;
    let mut spelled = [0; 9];
    let length = plain::number::write_varint(text, &mut spelled).expect("nine bytes are enough");
    let mut record = vec![2 + length as u8, kind];
    record.extend(&spelled[..length]);
    record.extend(&bytes[from..]);
    record.extend(note.as_bytes());
    record
}

/// Every row of the three tables, by sqlite3.
fn rows(path: &Path) -> (String, Vec<String>) {
    let said = sqlite::run(
        path,
        "PRAGMA integrity_check; SELECT 'counter', rowid, value, note FROM counter; SELECT 'many', rowid, value, note FROM many;
         SELECT 'other', rowid, a FROM other;\n",
    );
    let (check, rows) = said.split_once('\n').expect("a line and more");
    (check.to_owned(), rows.lines().map(str::to_owned).collect())
}

pub fn compare(reader: &dyn Reader, dir: &Path) -> Counts {
    let mut counts = Counts::default();
    let mut rng = Rng::new(SEED);
    for page_size in PAGE_SIZES {
        for reserved in RESERVED.into_iter().filter(|&reserved| page_size - reserved >= 480) {
            let path = dir.join(format!("set-{page_size}-{reserved}.db"));
            sqlite::run(&path, &script(page_size, reserved));
            counts.files += 1;
            let mut image = std::fs::read(&path).expect("the file is there");
            let entries = image.len() / 512;
            let mut kinds = vec![0; entries];
            let verdict = reader.check(&image, &mut kinds, &mut vec![0; entries], &mut vec![0; entries]);
            assert_eq!(verdict.refusal, 0, "{}", path.display());
            kinds.truncate(verdict.pages as usize);
            let (check, mut before) = rows(&path);
            assert_eq!(check, "ok");
            for turn in 0..SETS {
                // A counter that grows from 127 to 128 and 32768 and back; then any row and value.
                let grown = [127, 128, 32767, 32768, 8_388_608, 32768, 128, 127, 1, 0, -1, i64::MAX];
                let (table, root, row) = if turn < grown.len() { ("counter", 2, 1) } else { ("many", 3, 1 + rng.below(200) as i64) };
                let value = grown.get(turn).copied().unwrap_or(rng.word() as i64 >> rng.below(64));
                let note = "n".repeat(if turn < grown.len() { 1 } else { rng.below(if turn % 4 == 0 { page_size } else { 120 }) });
                let there = before.iter().position(|line| line.starts_with(&format!("{table}|{row}|")));
                let old = image.clone();
                let answer = reader.row_set(&mut image, &kinds, root, row, &record(value, &note));
                match answer.refusal {
                    0 => assert_eq!(answer.found == 1, there.is_some(), "{}: row {row} of {table}", path.display()),
                    54 => counts.no_room += 1,
                    refusal => panic!("{}: refused {refusal}", path.display()),
                }
                if answer.found == 0 {
                    assert!(image == old, "{}: the image of a row that was not set", path.display());
                    continue;
                }
                counts.sets += 1;
                before[there.expect("it is there")] = format!("{table}|{row}|{value}|{note}");
                if turn % 4 == 3 || turn < 2 || turn + 4 > SETS {
                    std::fs::write(&path, &image).expect("the file is written");
                    let (check, after) = rows(&path);
                    assert_eq!(check, "ok", "{}: set {turn}", path.display());
                    assert_eq!(after, before, "{}: set {turn}", path.display());
                }
            }
            std::fs::write(&path, &image).expect("the file is written");
            assert_eq!(rows(&path), ("ok".to_owned(), before), "{}: at the end", path.display());
            // sqlite3 goes on with it.
            let more = sqlite::run(&path, "UPDATE many SET note=note||note; DELETE FROM many WHERE rowid%3=0; VACUUM; PRAGMA integrity_check;\n");
            assert_eq!(more.trim(), "ok", "{}: written on by sqlite3", path.display());
        }
    }
    assert!(counts.sets > 0 && counts.no_room > 0, "{counts:?}");
    counts
}
