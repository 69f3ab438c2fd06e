//! The library beside an earlier archive of itself, in one process by turns. `URK_BEFORE=ARCHIVE cargo run --release --package bench -- FOLDER before`, or `before-verdict` and so on:
//! the build gives the archive's functions other names and links both. It answers in the structs of `raw`.
//!
//! Each row is measured in several runs; the spread of a ratio is that over the runs.

use std::hint::black_box;
use std::path::Path;

use urkibasko::raw;
use world::rng::Rng;

use crate::clock::{runs, way, Way, SPREAD};
use crate::files::{self, SHAPES, TYPICAL};
use crate::report::beside::{row, table as head};
use crate::varints::plain_read;

/// The functions that are held against those before, each with its type.
macro_rules! functions {
    ($($before:ident: $kind:ident = ($($argument:ident: $of:ty),*) -> $answer:ident;)*) => {
        $(type $kind = unsafe extern "C" fn($($of),*) -> raw::$answer;)*
        extern "C" {
            $(fn $before($($argument: $of),*) -> raw::$answer;)*
        }
    };
}

type Bytes = *const u8;

functions! {
    before_urk_varint_read: Read = (bytes: Bytes, length: usize) -> urk_varint;
    before_urk_record_columns: Columns = (bytes: Bytes, length: usize) -> urk_columns;
    before_urk_check: Check = (image: Bytes, a: usize, kinds: *mut u8, b: usize, namers: *mut u32, c: usize, steps: *mut u32, d: usize) -> urk_verdict;
    before_urk_lookup: Lookup = (image: Bytes, length: usize, root: u32, row: i64) -> urk_found;
    before_urk_log_page: LogPage = (log: Bytes, a: usize, image: Bytes, b: usize, page: u32) -> urk_part;
}

/// A zero in so many bytes.
fn spelled(length: usize, out: &mut Vec<u8>) {
    out.extend(std::iter::repeat_n(0x80, length - 1));
    out.push(0);
}

/// Lengths as files have them: mostly one byte or two.
fn mixed() -> Vec<usize> {
    let mut rng = Rng::new(3);
    (0..1500)
        .map(|_| match rng.below(100) {
            0..=69 => 1,
            70..=91 => 2,
            92..=97 => 3,
            _ => 1 + rng.below(9),
        })
        .collect()
}

/// Zeros one behind the other, and a record with as many nulls so spelled.
fn varints_of(lengths: &[usize]) -> (Vec<u8>, Vec<u8>) {
    let mut page = Vec::new();
    lengths.iter().for_each(|&length| spelled(length, &mut page));
    let header = page.len() + 3;
    let mut record = vec![0x80, 0x80 | (header >> 7) as u8, header as u8 & 0x7f];
    record.extend(&page);
    page.extend([0; 16]);
    (page, record)
}

/// All varints of a page, each where the one before it ends.
#[inline(always)]
fn walk(page: &[u8], count: usize, read: impl Fn(&[u8]) -> (i64, usize)) -> i64 {
    let (mut at, mut sum) = (0, 0);
    for _ in 0..count {
        let (value, length) = read(&page[at..]);
        sum += value;
        at += length;
    }
    sum
}

fn by_c(read: Read) -> impl Fn(&[u8]) -> (i64, usize) {
    move |bytes| {
        // SAFETY: pointer and length are those of a slice.
        let answer = unsafe { read(bytes.as_ptr(), bytes.len()) };
        (answer.value, answer.length as usize)
    }
}

/// A row: the function before and now, each within a call of so many units, and the straightforward reader.
fn beside<'a, F: Copy, C: FnMut() + 'a>(what: &str, units: usize, [before, now]: [F; 2], call: impl Fn(F) -> C, plain: impl FnMut() + 'a) {
    let mut ways: [Way<'a>; 3] = [way("before", call(black_box(before))), way("now", call(black_box(now))), way("plain", plain)];
    row(what, units as f64, &runs(SPREAD, &mut ways));
}

/// All of the following.
pub fn all(dir: &Path) {
    varints(dir);
    verdict(dir);
    lookup(dir);
    sums(dir);
}

pub fn varints(_: &Path) {
    let all: Vec<(String, Vec<usize>)> =
        (1..=9).map(|length| (format!("{length}"), vec![length; 4000 / length])).chain([("mixed".to_owned(), mixed())]).collect();
    head("Varints out of a page, one call each");
    for (what, lengths) in &all {
        let (page, _) = varints_of(lengths);
        let (page, count) = (&page, lengths.len());
        let call = |read: Read| move || assert_eq!(walk(black_box(page), count, by_c(read)), 0);
        let plain = || assert_eq!(walk(black_box(page), count, |bytes| plain_read(bytes).unwrap_or((0, 1))), 0);
        beside(what, count, [before_urk_varint_read, raw::urk_varint_read], call, plain);
    }
    head("Serial types of a record, one call for all");
    for (what, lengths) in &all {
        let (_, record) = varints_of(lengths);
        let record = &record;
        // SAFETY: pointer and length are those of a slice.
        let call = |columns: Columns| move || assert_eq!(unsafe { columns(record.as_ptr(), record.len()) }.status, 0);
        let plain = || assert!(plain::record::columns(black_box(record)).is_some());
        beside(what, lengths.len(), [before_urk_record_columns, raw::urk_record_columns], call, plain);
    }
}

pub fn verdict(dir: &Path) {
    head("Verdict");
    let shapes = SHAPES.into_iter().flat_map(|shape| [512, 4096, 65536].map(|page_size| (shape, 1, page_size)));
    for (shape, mebibytes, page_size) in shapes.chain([(&TYPICAL, 16, 4096), (&TYPICAL, 64, 16384)]) {
        let image = files::image(dir, shape, page_size, mebibytes << 20);
        let (image, pages) = (&image, image.len() / 512);
        let call = |check: Check| {
            let (mut kinds, mut namers, mut steps) = (vec![0u8; pages], vec![0u32; pages], vec![0u32; pages]);
            move || {
                let (kinds, namers, steps) = (kinds.as_mut_ptr(), namers.as_mut_ptr(), steps.as_mut_ptr());
                // SAFETY: pointers and lengths are those of slices.
                assert_eq!(unsafe { check(image.as_ptr(), image.len(), kinds, pages, namers, pages, steps, pages) }.refusal, 0)
            }
        };
        let (mut kinds, mut namers, mut steps) = (vec![0; pages], vec![0; pages], vec![0; pages]);
        let plain = || assert!(plain::verdict::verdict(image, &mut kinds, &mut namers, &mut steps).is_ok());
        let what = format!("{}, {mebibytes} MiB, pages of {page_size}", shape.name);
        beside(&what, 1, [before_urk_check, raw::urk_check], call, plain);
    }
}

pub fn lookup(dir: &Path) {
    head("Lookup");
    for page_size in [512, 4096, 65536] {
        let path = files::path(dir, &TYPICAL, page_size, 1 << 20);
        let image = std::fs::read(&path).expect("the image is read");
        let (image, rows) = (&image, &files::numbers(&path)[..100]);
        // SAFETY: pointer and length are those of a slice.
        let call = |lookup: Lookup| move || rows.iter().for_each(|&row| assert_eq!(unsafe { lookup(image.as_ptr(), image.len(), 2, row) }.found, 1));
        let plain = || rows.iter().for_each(|&row| assert!(plain::lookup::lookup(image, 2, row).is_ok()));
        beside(&format!("pages of {page_size}"), rows.len(), [before_urk_lookup, raw::urk_lookup], call, plain);
    }
}

pub fn sums(_: &Path) {
    head("The sums of a log, a kilobyte");
    for (big_endian, order) in [(false, "little-endian"), (true, "big-endian")] {
        for page_size in world::PAGE_SIZES {
            let (log, image) = files::last_log(page_size, (1 << 20) / page_size, big_endian);
            let (log, image) = (&log, &image);
            // SAFETY: pointers and lengths are those of slices.
            let call = |page: LogPage| move || assert_eq!(unsafe { page(log.as_ptr(), log.len(), image.as_ptr(), image.len(), 2) }.from_log, 1);
            let plain = || assert!(plain::wal::page(log, image, 2).is_ok());
            beside(&format!("{order}, pages of {page_size}"), log.len() / 1000, [before_urk_log_page, raw::urk_log_page], call, plain);
        }
    }
}
