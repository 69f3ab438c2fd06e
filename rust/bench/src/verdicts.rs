//! The verdict, beside what sqlite3 tests, the straightforward reader, and a sum over the bytes.

use std::hint::black_box;
use std::path::Path;

use crate::clock::{by_turns, way, Way};
use crate::files::{self, SHAPES, TYPICAL};
use crate::libsqlite::Prepared;
use crate::report::{Table, LIBRARY};

const OTHERS: [&str; 5] = ["integrity_check", "quick_check", "plain", "sum", "byte sum"];

/// Room for an answer.
#[derive(Clone)]
struct Ledger {
    kinds: Vec<u8>,
    namers: Vec<u32>,
    steps: Vec<u32>,
}

impl Ledger {
    fn of(image: &[u8]) -> Ledger {
        let pages = image.len() / 512;
        Ledger { kinds: vec![0; pages], namers: vec![0; pages], steps: vec![0; pages] }
    }
}

/// The limit: whoever looks at every byte does at least this, eight bytes at a time.
pub fn sum(image: &[u8]) -> u64 {
    image.chunks_exact(8).fold(0, |sum, word| sum.wrapping_add(u64::from_le_bytes(word.try_into().expect("eight bytes"))))
}

/// The same by single bytes.
fn byte_sum(image: &[u8]) -> u64 {
    image.iter().fold(0, |sum, &byte| sum.wrapping_add(u64::from(byte)))
}

/// A pragma that answers "ok", where libsqlite3 is there.
fn pragma<'a>(image: &[u8], name: &'static str) -> Option<Way<'a>> {
    let check = Prepared::over(image, &format!("PRAGMA {name}"))?;
    assert_eq!(check.run(None), 2, "{name} says ok");
    Some(way(name, move || {
        check.run(None);
    }))
}

/// All ways to a verdict on an image that is accepted.
pub fn ways(image: &[u8]) -> Vec<Way<'_>> {
    ways_with(image, &["quick_check", "integrity_check"])
}

/// Each pragma has its own copy of the image.
fn ways_with<'a>(image: &'a [u8], pragmas: &[&'static str]) -> Vec<Way<'a>> {
    let mut ledger = Ledger::of(image);
    urkibasko::check_into(image, &mut ledger.kinds, &mut ledger.namers, &mut ledger.steps).expect("the image is accepted");
    let mut too = ledger.clone();
    let mut ways = vec![
        way(LIBRARY, move || {
            black_box(urkibasko::check_into(black_box(image), &mut ledger.kinds, &mut ledger.namers, &mut ledger.steps)).ok();
        }),
        way("plain", move || {
            black_box(plain::verdict::verdict(black_box(image), &mut too.kinds, &mut too.namers, &mut too.steps)).ok();
        }),
        way("sum", || {
            black_box(sum(black_box(image)));
        }),
        way("byte sum", || {
            black_box(byte_sum(black_box(image)));
        }),
    ];
    ways.extend(pragmas.iter().filter_map(|name| pragma(image, name)));
    ways
}

fn size(bytes: usize) -> String {
    match bytes {
        b if b < 1 << 20 => format!("{} KiB", b >> 10),
        b if b < 100 << 20 => format!("{:.1} MiB", b as f64 / 1048576.0),
        b => format!("{} MiB", b >> 20),
    }
}

/// All shapes on all page sizes, about 1 MiB each.
pub fn verdict(dir: &Path) {
    let mut table = Table::new("Verdict", Some("a byte"), &OTHERS);
    for shape in SHAPES {
        for page_size in world::PAGE_SIZES {
            let image = files::image(dir, shape, page_size, 1 << 20);
            let what = format!("{}, {}, pages of {page_size}", shape.name, size(image.len()));
            table.row(shape.name, &what, Some(image.len()), &by_turns(ways(&image)));
        }
    }
    table.spans("Verdict, all page sizes");
}

/// The cost against the size, the shape and the page size being one.
fn sizes_to(dir: &Path, most: u32) {
    let mut table = Table::new("Verdict against size, typical, pages of 4096", Some("a byte"), &OTHERS);
    for bits in (16..=most).step_by(2) {
        let image = files::image(dir, &TYPICAL, 4096, 1 << bits);
        table.row(TYPICAL.name, &size(image.len()), Some(image.len()), &by_turns(ways(&image)));
    }
}

pub fn sizes(dir: &Path) {
    sizes_to(dir, 26);
}

/// To 1 GiB; takes 3 GB of files and of memory.
pub fn sizes_all(dir: &Path) {
    sizes_to(dir, 30);
}

/// The most pages, and 4 GB, each beside a file with few pages of the same size; takes 6 GB of files and 9 of memory.
pub fn big(dir: &Path) {
    let mut table = Table::new("Big files", Some("a page"), &["plain", "quick_check"]);
    for (page_size, bytes) in [(512, 2_000_000), (512, 1_000_000_000), (65536, 250_000_000), (65536, 4_000_000_000)] {
        let image = files::image(dir, &TYPICAL, page_size, bytes);
        let pages = image.len() / page_size;
        let ways = ways_with(&image, &["quick_check"]);
        table.row("", &format!("{}, {pages} pages of {page_size}", size(image.len())), Some(pages), &by_turns(ways));
    }
}

/// The verdict with the order of keys in all indexes, without, and what sqlite3 tests instead, which looks each row up in each index.
pub fn orders(dir: &Path) {
    let mut table = Table::new("Verdict with all indexes named", Some("a byte"), &["none named", "integrity_check", "plain"]);
    let one = |page_size: usize, bytes: usize| ("one index", page_size, (files::image(dir, &TYPICAL, page_size, bytes), vec![3]));
    let four = |page_size: usize, rows: usize| ("four indexes", page_size, files::indexed(dir, page_size, rows));
    let all =
        [one(512, 1 << 20), one(4096, 1 << 20), one(4096, 16 << 20), four(512, 3000), four(4096, 3000), four(4096, 40_000), four(65536, 40_000)];
    for (what, page_size, (image, roots)) in &all {
        let mut named = Ledger::of(image);
        let (mut unnamed, mut too) = (named.clone(), named.clone());
        urkibasko::check_ordered_into(image, roots, &mut named.kinds, &mut named.namers, &mut named.steps).expect("the image is accepted");
        let mut ways = vec![
            way(LIBRARY, || {
                black_box(urkibasko::check_ordered_into(black_box(image), roots, &mut named.kinds, &mut named.namers, &mut named.steps)).ok();
            }),
            way("none named", || {
                black_box(urkibasko::check_into(black_box(image), &mut unnamed.kinds, &mut unnamed.namers, &mut unnamed.steps)).ok();
            }),
            way("plain", || {
                black_box(plain::verdict::verdict_ordered(black_box(image), roots, &mut too.kinds, &mut too.namers, &mut too.steps)).ok();
            }),
        ];
        ways.extend(pragma(image, "integrity_check"));
        table.row(what, &format!("{what}, {}, pages of {page_size}", size(image.len())), Some(image.len()), &by_turns(ways));
    }
}
