//! Write-ahead logs: the sums, one page, whole recovery, and a table of frames.

use std::hint::black_box;
use std::path::{Path, PathBuf};

use world::rng::Rng;

use crate::clock::{by_turns, way, Way};
use crate::files;
use crate::libsqlite::Prepared;
use crate::report::{Table, LIBRARY};

/// A log in which page 2 stands in the last frame alone: one page of it costs the sums over all frames, and little else.
pub fn sum_ways<'a>(log: &'a [u8], image: &'a [u8]) -> Vec<Way<'a>> {
    assert!(urkibasko::log_page(log, image, 2).is_ok(), "page 2 is shown");
    vec![
        way(LIBRARY, move || {
            black_box(urkibasko::log_page(black_box(log), image, 2)).ok();
        }),
        way("plain", move || {
            black_box(plain::wal::page(black_box(log), image, 2)).ok();
        }),
        way("sum", move || {
            black_box(crate::verdicts::sum(black_box(log)));
        }),
    ]
}

/// The sums over a log of about 1 MiB, on all page sizes, in both orders of bytes.
pub fn sums(_: &Path) {
    let mut table = Table::new("The sums of a log", Some("a byte"), &["plain", "sum"]);
    for (big, order) in [(false, "little-endian"), (true, "big-endian")] {
        for page_size in world::PAGE_SIZES {
            let (log, image) = files::last_log(page_size, (1 << 20) / page_size, big);
            table.row(order, &format!("{order}, pages of {page_size}"), Some(log.len()), &by_turns(sum_ways(&log, &image)));
        }
    }
    table.spans("The sums of a log, all page sizes");
}

/// Opening a database whose log was never seen, and reading from it.
fn opening(path: &Path) -> Option<Way<'_>> {
    const SQL: &str = "SELECT count(*) FROM sqlite_schema";
    let shared = PathBuf::from(format!("{}-shm", path.display()));
    let open = move || {
        let _ = std::fs::remove_file(&shared);
        Prepared::over_file(path, SQL).map(|statement| statement.run(None))
    };
    open()?;
    Some(way("opening and reading", move || {
        open();
    }))
}

fn table_of(dir: &Path, sizes: &[usize]) {
    let mut table = Table::new("Logs", None, &["opening and reading", "plain"]);
    for &frames in sizes {
        let path = files::log(dir, frames);
        let image = std::fs::read(&path).expect("the image is read");
        let log = std::fs::read(format!("{}-wal", path.display())).expect("the log is read");
        let counted = (log.len() - 32) / 1048;
        let (mut out, mut out_too) = (vec![0; 4 << 20], vec![0; 4 << 20]);
        urkibasko::log_recover(&log, &image, &mut out).expect("the log is recovered");
        let (mut rng, mut rng_too) = (Rng::new(2), Rng::new(2));
        let page = |rng: &mut Rng| 1 + rng.below(image.len() / 1024) as u32;
        let times = by_turns(vec![
            way(LIBRARY, || {
                black_box(urkibasko::log_page(&log, &image, page(&mut rng))).ok();
            }),
            way("plain", || {
                black_box(plain::wal::page(&log, &image, page(&mut rng_too))).ok();
            }),
        ]);
        table.row("one page", &format!("one page, {counted} frames of 1024"), None, &times);
        let mut ways = vec![
            way(LIBRARY, || {
                black_box(urkibasko::log_recover(&log, &image, &mut out)).ok();
            }),
            way("plain", || {
                black_box(plain::wal::recover(&log, &image, &mut out_too)).ok();
            }),
        ];
        ways.extend(opening(&path));
        table.row("whole recovery", &format!("whole recovery, {counted} frames of 1024"), None, &by_turns(ways));
    }
}

pub fn logs(dir: &Path) {
    table_of(dir, &[100, 10_000]);
}

pub fn long(dir: &Path) {
    table_of(dir, &[10_000, 200_000]);
}

#[inline(never)]
fn plain_page<'a>(view: &plain::wal::View<'a>, page: u32) -> Result<&'a [u8], plain::Refusal> {
    view.page(page)
}

fn first_byte<E>(page: Result<&[u8], E>) -> u64 {
    page.map_or(0, |page| u64::from(page[0]))
}

/// Pages of a long log by a table that is filled once: one page at random, with and without a look at it, and the fill with all pages in a random order.
pub fn tables(_: &Path) {
    let mut table = Table::new("Long logs, by a table of frames", None, &["plain", "scan"]);
    for frames in [10_000, 100_000] {
        let (log, image) = files::long_log(frames);
        let view = urkibasko::LogView::new(&log, &image).expect("a commit");
        let own = plain::wal::View::new(&log, &image).expect("a commit");
        let mut rng = Rng::new(4);
        let mut order: Vec<u32> = (1..=view.pages()).collect();
        for i in (1..order.len()).rev() {
            order.swap(i, rng.below(i + 1));
        }
        let next = || {
            let mut next = order.iter().cycle();
            move || *next.next().unwrap_or(&1)
        };
        let (mut a, mut b, mut c) = (next(), next(), next());
        let one_page = vec![
            way(LIBRARY, || {
                black_box(view.page(a())).ok();
            }),
            way("plain", || {
                black_box(plain_page(&own, b())).ok();
            }),
            way("scan", || {
                black_box(urkibasko::log_page(&log, &image, c())).ok();
            }),
        ];
        table.row("", &format!("one page, {frames} frames of 1024"), None, &by_turns(one_page));
        let (mut a, mut b) = (next(), next());
        let with_byte = vec![
            way(LIBRARY, || {
                black_box(first_byte(view.page(a())));
            }),
            way("plain", || {
                black_box(first_byte(plain_page(&own, b())));
            }),
        ];
        table.row("", &format!("one page and its first byte, {frames} frames"), None, &by_turns(with_byte));
        let fill = vec![
            way(LIBRARY, || {
                black_box(urkibasko::LogView::new(black_box(&log), &image)).ok();
            }),
            way("plain", || {
                black_box(plain::wal::View::new(black_box(&log), &image)).ok();
            }),
        ];
        table.row("", &format!("the fill, {frames} frames"), None, &by_turns(fill));
        let all_pages = vec![
            way(LIBRARY, || {
                let view = urkibasko::LogView::new(black_box(&log), &image).expect("a commit");
                black_box(order.iter().map(|&page| first_byte(view.page(page))).sum::<u64>());
            }),
            way("plain", || {
                let own = plain::wal::View::new(black_box(&log), &image).expect("a commit");
                black_box(order.iter().map(|&page| first_byte(plain_page(&own, page))).sum::<u64>());
            }),
        ];
        table.row("", &format!("the fill and all {} pages, {frames} frames", order.len()), None, &by_turns(all_pages));
    }
}
