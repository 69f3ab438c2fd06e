//! A reader against the sqlite3 program: everything that can be asked of both.

use std::path::Path;
use std::time::Instant;

use crate::reader::Reader;
use crate::rng::Rng;
use crate::rows::Counts;
use crate::torn::{Kind, Torn};
use crate::{appending, compare, corpus, counts, fresh, orders, reports, rows, setting, several, sqlite, torn, PAGE_SIZES};

const SEED: u64 = 20240607;
/// Cuts and changed bits tried on each log and journal.
const VARIANTS: usize = 4;
/// Of the journals every so manieth has a record with the lock-byte page's number, and of those of several segments a later header damaged.
const DAMAGED: usize = 3;

/// Makes all files in a folder, which is made anew, and holds a reader's answers against sqlite3's own. Panics where one differs.
pub fn sqlite(reader: &dyn Reader, dir: &Path) {
    if dir.exists() {
        std::fs::remove_dir_all(dir).expect("the old folder goes");
    }
    std::fs::create_dir_all(dir).expect("the new folder comes");
    println!("sqlite3 {}", sqlite::version());
    databases(reader, dir);
    let ordered = orders::compare(reader, dir);
    println!("order of records: {} indexes, {} pairs of keys, each as sqlite3 put them", ordered.indexes, ordered.pairs);
    println!(
        "order of keys: damaged with the table in step {} refused, {} accepted, each as sqlite3's integrity_check says; in the index alone {} refused, all of which it reports, {} accepted",
        ordered.broken, ordered.kept, ordered.broken_alone, ordered.kept_alone
    );
    fresh_files(reader, dir);
    rows_set(reader, dir);
    logs_and_journals(reader, dir);
    several_files(reader, dir);
}

fn several_files(reader: &dyn Reader, dir: &Path) {
    let start = Instant::now();
    let several::Counts { stages, unnamed, there, gone } = several::compare(reader, dir);
    println!(
        "transactions over two files: killed at {stages} moments; journals with no name {unnamed}, with a super-journal that is there {there}, that is gone {gone}; each file as sqlite3 then makes it ({:.1?})",
        start.elapsed()
    );
}

fn databases(reader: &dyn Reader, dir: &Path) {
    let start = Instant::now();
    let mut databases = corpus::databases(dir);
    let harmful = counts::harmful(reader, dir, &databases);
    let harmless = counts::harmless(dir, &databases);
    println!("the count at 28: of {} databases changed by hand it is not the number of pages present, in {harmful} more it is wrong", harmless.len());
    databases.extend(harmless);
    let mut total = Counts::default();
    let mut reported = reports::Counts::default();
    let (mut pages, mut named) = (0, 0);
    for database in &databases {
        let image = database.bytes();
        let account = compare::account(database);
        let (kinds, namers) = compare::verdict(reader, database, &image, &account);
        let counts = rows::compare(reader, database, &image, &kinds, &namers);
        named += orders::named(reader, database, &image);
        pages += account.pages;
        total.rows += counts.rows;
        total.keys += counts.keys;
        total.absent += counts.absent;
        total.listed += counts.listed;
        total.starts += counts.starts;
        reported.add(reports::compare(reader, database, &image));
    }
    println!(
        "verdict: {} databases, {pages} pages, each with the kind and namer that sqlite3 says and a step past its namer's; {named} indexes named, all in order",
        databases.len()
    );
    println!(
        "lookup and payload: {} rows, {} index keys and {} absent rows; cursor: {} rows in order, {} starts; all as sqlite3 says ({:.1?})",
        total.rows,
        total.keys,
        total.absent,
        total.listed,
        total.starts,
        start.elapsed()
    );
    println!(
        "report: {} columns, {} reals, {} sums that turn to NaN, as sqlite3's count, min and max say, and a sum of its rows from left to right",
        reported.columns, reported.reals, reported.nans
    );
}

fn rows_set(reader: &dyn Reader, dir: &Path) {
    let start = Instant::now();
    let setting::Counts { files, sets, no_room } = setting::compare(reader, dir);
    println!(
        "rows set: {sets} in {files} files, each as sqlite3's integrity check and selects say, {no_room} with no room for them ({:.1?})",
        start.elapsed()
    );
}

fn fresh_files(reader: &dyn Reader, dir: &Path) {
    let start = Instant::now();
    let fresh::Counts { files, pages, rows, bytes } = fresh::sqlite(reader, dir);
    println!("fresh files: {files} built, {pages} pages, {rows} rows, {bytes} bytes of payloads; each as sqlite3's integrity check, dbstat and rows say ({:.1?})", start.elapsed());
}

fn logs_and_journals(reader: &dyn Reader, dir: &Path) {
    let start = Instant::now();
    let caught = torn::caught_everywhere(dir);
    println!("seed {SEED}");
    let mut rng = Rng::new(SEED);
    let (mut same, mut refused) = (0, 0);
    let mut compare = |torn: &Torn, asked: &Torn| match torn.by_reader(reader) {
        Ok(recovered) => {
            assert!(recovered == asked.by_sqlite(dir), "{}: another image than sqlite3's", torn.name);
            same += 1;
        }
        // sqlite3 lays down a page that is twice in a journal.
        Err(45) => refused += 1,
        Err(refusal) => panic!("{}: refused with {refusal}", torn.name),
    };
    for torn in caught.iter().flat_map(|one| torn::variants(one, &mut rng, VARIANTS)) {
        compare(&torn, &torn);
    }
    let mut locked = 0;
    for one in caught.iter().filter(|one| one.kind == Kind::Journal).step_by(DAMAGED) {
        if let Some(torn) = torn::lock_record(one, &mut rng) {
            compare(&torn, &torn);
            locked += 1;
        }
    }
    let several: Vec<&Torn> = caught.iter().filter(|one| one.kind == Kind::Journal && torn::segments(&one.side).len() > 1).collect();
    for one in several.iter().step_by(DAMAGED) {
        for (torn, asked) in torn::damaged_headers(one, &mut rng) {
            compare(&torn, &asked);
        }
    }
    for page_size in PAGE_SIZES {
        let of_size = several.iter().filter(|one| one.side[24..28] == (page_size as u32).to_be_bytes() && torn::segments(&one.side).len() > 2);
        let least = of_size.min_by_key(|one| one.side.len()).expect("a journal of three segments");
        for torn in torn::cut_everywhere(least) {
            compare(&torn, &torn);
        }
    }
    println!(
        "recovery: {} logs and journals caught, {} of them journals of several segments; {same} images, byte for byte as sqlite3 makes them ({locked} by a journal that ends at a record of the lock-byte page); {refused} refused by rule 45 alone ({:.1?})",
        caught.len(),
        several.len(),
        start.elapsed()
    );
    appended(reader, dir, &caught);
}

fn appended(reader: &dyn Reader, dir: &Path, caught: &[Torn]) {
    let start = Instant::now();
    let appending::Counts { logs, again, commits, frames, by_sqlite, opened } = appending::compare(reader, dir, caught);
    println!(
        "appending: {again} commits of {logs} logs written again, byte for byte; {commits} commits of {frames} frames appended, {by_sqlite} by sqlite3 \
         behind them; {opened} logs, whole and cut at and around each border of a frame, each as sqlite3 reads it ({:.1?})",
        start.elapsed()
    );
}
