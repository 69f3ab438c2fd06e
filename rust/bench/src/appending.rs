//! A commit appended to a log: beside a copy of its pages, sqlite3's own commit of the same pages into a log in memory, the straightforward writer, and a
//! reader's scan of the frames.

use std::hint::black_box;
use std::path::Path;

use plain::appending as own;
use urkibasko::LogWriter;

use crate::clock::{by_turns, way, Way};
use crate::report::{Table, LIBRARY};

/// A commit: the log before it, which is a header, and what is appended.
struct Commit {
    header: Vec<u8>,
    numbers: Vec<u32>,
    pages: Vec<u8>,
    n: u32,
}

#[cfg(libsqlite3)]
type Committed = Option<crate::memory::Logged>;
#[cfg(not(libsqlite3))]
type Committed = Option<()>;

/// The pages of the last commit of a log, which has so many.
#[cfg(libsqlite3)]
fn last(log: &[u8], page_size: usize, count: usize) -> Commit {
    let number = |frame: &[u8], at: usize| u32::from_be_bytes(frame[at..at + 4].try_into().expect("four bytes"));
    let frames: Vec<&[u8]> = log[log.len() - count * (24 + page_size)..].chunks_exact(24 + page_size).collect();
    let n = number(frames[count - 1], 4);
    assert!(n != 0 && frames[..count - 1].iter().all(|frame| number(frame, 4) == 0), "the last commit has {count} pages");
    Commit {
        header: log[..32].to_vec(),
        numbers: frames.iter().map(|frame| number(frame, 0)).collect(),
        pages: frames.iter().flat_map(|frame| frame[24..].iter().copied()).collect(),
        n,
    }
}

/// What sqlite3 commits, where it is there; else pages of any bytes.
fn commit(page_size: usize, count: usize) -> (Commit, Committed) {
    #[cfg(libsqlite3)]
    {
        let logged = crate::memory::Logged::new(page_size, count);
        (last(&logged.log(), page_size, count), Some(logged))
    }
    #[cfg(not(libsqlite3))]
    {
        let (_, header) = LogWriter::begin(page_size as u32, 0, [1, 2]).expect("a page size");
        let pages = (0..count * page_size).map(|at| (at * 7 + at / 251) as u8).collect();
        (Commit { header: header.to_vec(), numbers: (2..).take(count).collect(), pages, n: count as u32 + 1 }, None)
    }
}

fn by_sqlite<'a>(logged: &'a Committed) -> Option<Way<'a>> {
    #[cfg(libsqlite3)]
    return logged.as_ref().map(|logged| way("sqlite3's commit", move || logged.commit()));
    #[cfg(not(libsqlite3))]
    return logged.map(|()| way("sqlite3's commit", || ()));
}

/// All page sizes, a MiB of pages each; then few pages.
pub fn appending(_: &Path) {
    let mut table = Table::new("Appending a commit", Some("a byte"), &["copy", "sqlite3's commit", "plain", "scan"]);
    let whole = world::PAGE_SIZES.map(|page_size| (page_size, (1 << 20) / page_size));
    for (group, sizes) in [("1 MiB", &whole[..]), ("few pages", &[(512, 1), (1024, 3), (4096, 1), (4096, 3), (4096, 10), (65536, 1)])] {
        for &(page_size, count) in sizes {
            for big_endian in [false, true] {
                // In the other order of bytes for one of them: sqlite3 does not write it here.
                if big_endian && (page_size, group) != (4096, "1 MiB") {
                    continue;
                }
                let (mut commit, logged) = commit(page_size, count);
                if big_endian {
                    world::torn::resum(&mut commit.header, true);
                }
                row(&mut table, group, page_size, count, &commit, if big_endian { &None } else { &logged });
            }
        }
    }
    table.spans("Appending a commit, all page sizes");
}

fn row(table: &mut Table, group: &str, page_size: usize, count: usize, commit: &Commit, logged: &Committed) {
    let Commit { header, numbers, pages, n } = commit;
    let mut writer = LogWriter::open(header).expect("a header");
    let order = if header[3] & 1 == 1 { ", big-endian" } else { "" };
    let mut tail = own::tail(header).expect("a header");
    let [mut out, mut copied, mut laid] = [(); 3].map(|()| vec![0; writer.room(count)]);
    let frames = writer.clone().append_into(numbers, pages, *n, &mut out).expect("a commit").bytes.to_vec();
    let log = [&header[..], &frames].concat();
    let mut ways = vec![
        way(LIBRARY, || {
            black_box(writer.append_into(black_box(numbers), black_box(pages), *n, &mut out)).ok();
        }),
        way("copy", || {
            copied[..pages.len()].copy_from_slice(black_box(pages));
            black_box(&mut copied);
        }),
        way("plain", || {
            tail = black_box(own::append(tail, black_box(numbers), black_box(pages), *n, &mut laid)).expect("a commit").0;
        }),
        way("scan", || {
            black_box(urkibasko::log_inspect(black_box(&log)));
        }),
    ];
    ways.extend(by_sqlite(logged));
    let what = format!("{count} page{} of {page_size}{order}", if count == 1 { "" } else { "s" });
    table.row(group, &what, Some(pages.len()), &by_turns(ways));
}
