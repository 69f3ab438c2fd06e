//! Speed, side by side in one run: the proved library, the straightforward reader, and the system's libsqlite3.
//!
//! `bench FOLDER [TABLE ..]`: makes its files in FOLDER, and prints tables in Markdown: those of `ORDINARY`, or those that are named. All times are processor
//! time, the least of many rounds by turns; nothing is read from files but where libsqlite3 opens a log. Lent buffers are not cleared between calls.

mod appending;
#[cfg(before)]
mod before;
mod clock;
mod files;
mod instructions;
mod libsqlite;
mod logs;
#[cfg(libsqlite3)]
mod memory;
mod report;
mod rows;
mod varints;
mod verdicts;

use std::path::{Path, PathBuf};

use world::sqlite;

type Tables = [(&'static str, fn(&Path))];

/// Some five minutes in all.
const ORDINARY: &Tables = &[
    ("verdict", verdicts::verdict),
    ("sizes", verdicts::sizes),
    ("orders", verdicts::orders),
    ("rows", rows::rows),
    ("scans", rows::scans),
    ("sums", logs::sums),
    ("logs", logs::logs),
    ("tables", logs::tables),
    ("appending", appending::appending),
    ("varints", varints::varints),
];

/// Only where asked for: large files, other programs, an earlier archive.
const MORE: &Tables = &[
    ("sizes-all", verdicts::sizes_all),
    ("big", verdicts::big),
    ("logs-long", logs::long),
    ("instructions", instructions::table),
    ("instructions-small", instructions::small),
    #[cfg(before)]
    ("before", before::all),
    #[cfg(before)]
    ("before-varints", before::varints),
    #[cfg(before)]
    ("before-verdict", before::verdict),
    #[cfg(before)]
    ("before-lookup", before::lookup),
    #[cfg(before)]
    ("before-sums", before::sums),
];

fn main() {
    let mut arguments = std::env::args().skip(1);
    let dir = PathBuf::from(arguments.next().unwrap_or_else(|| usage()));
    let wanted: Vec<String> = arguments.collect();
    if let [once, rest @ ..] = &wanted[..] {
        if once == instructions::ONE {
            return instructions::one(&dir, rest);
        }
    }
    let named = |name: &String| ORDINARY.iter().chain(MORE).find(|(of, _)| of == name).unwrap_or_else(|| usage()).1;
    let tables: Vec<fn(&Path)> =
        if wanted.is_empty() { ORDINARY.iter().map(|(_, table)| *table).collect() } else { wanted.iter().map(named).collect() };
    std::fs::create_dir_all(&dir).expect("the folder comes");
    println!("{}, sqlite3 {}", machine(), sqlite::version());
    tables.iter().for_each(|table| table(&dir));
}

fn usage() -> ! {
    let names: Vec<&str> = ORDINARY.iter().chain(MORE).map(|(name, _)| *name).collect();
    eprintln!("usage: bench FOLDER [{}]..", names.join(" | "));
    std::process::exit(2)
}

fn machine() -> String {
    let info = std::fs::read_to_string("/proc/cpuinfo").unwrap_or_default();
    let model = info.lines().find_map(|line| line.strip_prefix("model name")).map_or("", |rest| rest.trim_start_matches([' ', '\t', ':']));
    format!("{model}, {} processors", std::thread::available_parallelism().map_or(1, usize::from))
}
