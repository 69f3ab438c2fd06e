//! Reads SQLite 3 database images, write-ahead logs and rollback journals out of bytes in memory.
//!
//! The work is done by a library each of whose functions is proved to meet its contract; this crate puts Rust's own types around it. Every function takes any
//! bytes. Limits: 2,200,000 pages, payloads of 65,536 bytes, trees of 20 levels.
//!
//! [`Database`] is an image that was checked: rows, lookups and payloads of it are those that the check vouches for. The functions beside it take any bytes, and test only what they come to.
//!
//! ```
//! # let image = include_bytes!("../../../examples/counter.db");
//! let database = urkibasko::Database::new(image)?;
//! let mut room = vec![0; urkibasko::MAX_PAYLOAD];
//! for row in database.rows(2) {
//!     let row = row?;
//!     let payload = database.payload(row.cell(), &mut room)?;
//!     println!("row {}: {} bytes", row.number, payload.len());
//! }
//! # Ok::<(), urkibasko::Refusal>(())
//! ```
//!
//! What is not whole is refused by a rule, and the page that breaks it:
//!
//! ```
//! # let mut image = include_bytes!("../../../examples/counter.db").to_vec();
//! # image[2 * 512 + 3] = 2;
//! let refusal = urkibasko::Database::new(&image).expect_err("page 3 names page 2, which has a namer");
//! assert_eq!((refusal.rule, refusal.page), (urkibasko::Rule::NamedTwice, Some(2)));
//! ```
//!
//! [`Builder`] makes a fresh database of one table, [`Changing`] sets rows in place, [`LogWriter`] makes the bytes of commits for a write-ahead log.
//!
//! The archive `liburkibasko.a` is looked for in the folder that the environment variable `URKIBASKO_LIB_DIR` names; else in `target/staticlib` at the
//! repository's root, where `tools/library build` makes it; else in `dist`.

mod append;
mod build;
mod change;
mod inspect;
mod ledger;
mod log;
mod record;
mod refusal;
mod report;
mod rows;
mod unread;

pub mod raw;
pub mod varint;

pub use append::{Appended, LogWriter, LOG_HEADER};
pub use build::{build, build_into, encode, schema_record, Builder, Built, NotBuilt, BUILD_MOST, BUILD_ROWS, BUILD_SCHEMA};
pub use change::Changing;
pub use inspect::{journal_inspect, journal_super, log_inspect, JournalHeader, JournalStop, JournalSummary, LogHeader, LogStop, LogSummary};
pub use ledger::{check_proposal, Proposal};
pub use log::LogView;
pub use record::{Record, Value};
pub use refusal::{Refusal, Rule};
pub use report::Summary;
pub use rows::{Database, Row, Rows, TooManyPages, CURSOR_WORDS};
pub use unread::Unread;

/// The most pages that a database may have. An image may hold more bytes behind those that its header counts.
pub const MAX_PAGES: usize = 2_200_000;
/// The most bytes that a payload may have.
pub const MAX_PAYLOAD: usize = 65536;

/// A page's office in a database.
#[derive(Clone, Copy, Debug, PartialEq, Eq, Hash)]
#[non_exhaustive]
#[repr(u8)]
pub enum Kind {
    /// The root of a tree, page 1 among them.
    Root = 1,
    /// A freelist trunk.
    Trunk = 2,
    /// A free page that a trunk names.
    FreeLeaf = 3,
    /// The first page of an overflow chain.
    FirstOverflow = 4,
    /// A later page of an overflow chain.
    LaterOverflow = 5,
    /// A tree page that is no root.
    Tree = 6,
    /// A pointer map, which is one by its place: no page names it.
    PointerMap = 7,
    /// The page that holds byte 1073741824, which is kept for locks: no page names it, and a check reads none of its bytes.
    LockByte = 8,
}

impl Kind {
    fn from_number(number: u8) -> Kind {
        match number {
            1 => Kind::Root,
            2 => Kind::Trunk,
            3 => Kind::FreeLeaf,
            4 => Kind::FirstOverflow,
            5 => Kind::LaterOverflow,
            6 => Kind::Tree,
            7 => Kind::PointerMap,
            8 => Kind::LockByte,
            _ => unreachable!("an accepted image has kinds 1 to 8"),
        }
    }
}

/// What every page of an accepted image is, which page names it, and how many steps it is from page 1.
#[derive(Clone, Debug, PartialEq, Eq)]
pub struct Ledger {
    kinds: Vec<u8>,
    namers: Vec<u32>,
    steps: Vec<u32>,
    long_spellings: u64,
}

impl Ledger {
    /// The number N of pages: as many as the header counts, where that count holds, else as many as are present.
    pub fn pages(&self) -> u32 {
        self.kinds.len() as u32
    }

    /// How many payload lengths, row numbers and interior keys, in cells of all tree pages, are not in their shortest spelling. sqlite3 writes none.
    pub fn long_spellings(&self) -> u64 {
        self.long_spellings
    }

    /// The kind of a page, counted from 1; none where there is no such page.
    pub fn kind(&self, page: u32) -> Option<Kind> {
        self.kinds.get((page as usize).checked_sub(1)?).map(|&kind| Kind::from_number(kind))
    }

    /// The page that names a page; none for page 1, pointer maps and the lock-byte page, which nothing names, and where there is no such page.
    pub fn namer(&self, page: u32) -> Option<u32> {
        self.namers.get((page as usize).checked_sub(1)?).copied().filter(|&namer| namer != 0)
    }

    /// How many pages, each named by the one before it, lead from page 1 to a page: 0 for page 1, for pointer maps and for the lock-byte page; none where
    /// there is no such page.
    pub fn step(&self, page: u32) -> Option<u32> {
        self.steps.get((page as usize).checked_sub(1)?).copied()
    }
}

/// A leaf cell: its page, its index from 0 and the length of its payload.
#[derive(Clone, Copy, Debug, PartialEq, Eq, Hash)]
pub struct Cell {
    pub page: u32,
    pub cell: u32,
    pub length: usize,
}

/// The size of a recovered database. `pages` is 0 where there was no journal and the image was copied as it is.
#[derive(Clone, Copy, Debug, PartialEq, Eq, Hash)]
pub struct Recovered {
    pub pages: u32,
    pub length: usize,
}

/// Judges an image: is it a whole, consistent database?
///
/// ```
/// # let image = include_bytes!("../../../examples/counter.db");
/// let ledger = urkibasko::check(image)?;
/// assert_eq!(ledger.pages(), 17);
/// assert_eq!((ledger.kind(3), ledger.namer(3)), (Some(urkibasko::Kind::FirstOverflow), Some(2)));
/// # Ok::<(), urkibasko::Refusal>(())
/// ```
pub fn check(image: &[u8]) -> Result<Ledger, Refusal> {
    check_ordered(image, &[])
}

/// Judges an image, and the order of keys in the indexes whose root pages are named: in each of them keys are to rise strictly, as [`Record::order`] compares them ([`Rule::KeyOrder`]). Only
/// indexes that are plain and ascending are to be named: no DESC, no COLLATE but BINARY, in the index or on its columns. A WITHOUT ROWID table whose PRIMARY KEY is so is such an index too;
/// an index of a WITHOUT ROWID table ends with that table's PRIMARY KEY, which must then be so as well.
/// A database whose text encoding is not UTF-8 is refused ([`Rule::TextEncoding`]) where any is named, and last a name that is no index root ([`Rule::NoIndexRoot`], with the first such name).
///
/// ```
/// # let image = include_bytes!("../../../examples/counter.db");
/// use urkibasko::{check, check_ordered, Refusal, Rule};
/// // Page 6 is the root of an index, page 7 that of a table.
/// assert_eq!(check_ordered(image, &[6]), check(image));
/// assert_eq!(check_ordered(image, &[6, 7]), Err(Refusal { rule: Rule::NoIndexRoot, page: Some(7) }));
/// ```
pub fn check_ordered(image: &[u8], indexes: &[u32]) -> Result<Ledger, Refusal> {
    // The walk begins only where N is at most 2,200,000 and all N pages are present, each of at least 512 bytes.
    let room = (image.len() / 512).min(MAX_PAGES);
    let mut ledger = Ledger { kinds: vec![0; room], namers: vec![0; room], steps: vec![0; room], long_spellings: 0 };
    let accepted = check_ordered_into(image, indexes, &mut ledger.kinds, &mut ledger.namers, &mut ledger.steps)?;
    ledger.kinds.truncate(accepted.pages as usize);
    ledger.namers.truncate(accepted.pages as usize);
    ledger.steps.truncate(accepted.pages as usize);
    ledger.long_spellings = accepted.long_spellings;
    Ok(ledger)
}

/// An accepted image: its number of pages, and how many numbers in cells of its tree pages are not in their shortest spelling.
#[derive(Clone, Copy, Debug, PartialEq, Eq, Hash)]
pub struct Accepted {
    pub pages: u32,
    pub long_spellings: u64,
}

/// Judges an image with ledgers of the caller's: answers the number N of pages and of numbers spelled long, and leaves kind, namer and step of page p in
/// entry p - 1. A refusal by rules 1 to 12 leaves the ledgers as they were, a later one zeroes the first N entries; entries past N never change.
pub fn check_into(image: &[u8], kinds: &mut [u8], namers: &mut [u32], steps: &mut [u32]) -> Result<Accepted, Refusal> {
    check_ordered_into(image, &[], kinds, namers, steps)
}

/// [`check_ordered`] with ledgers of the caller's, as [`check_into`]; rule 34 too leaves them as they were.
pub fn check_ordered_into(image: &[u8], indexes: &[u32], kinds: &mut [u8], namers: &mut [u32], steps: &mut [u32]) -> Result<Accepted, Refusal> {
    // SAFETY: pointers and lengths are those of slices, and the borrow checker keeps the lent ones apart.
    let answer = unsafe {
        raw::urk_check_ordered(
            image.as_ptr(),
            image.len(),
            indexes.as_ptr(),
            indexes.len(),
            kinds.as_mut_ptr(),
            kinds.len(),
            namers.as_mut_ptr(),
            namers.len(),
            steps.as_mut_ptr(),
            steps.len(),
        )
    };
    Refusal::test(answer.refusal, answer.page)?;
    Ok(Accepted { pages: answer.pages, long_spellings: answer.long_spellings })
}

/// Looks for a row number in the table tree at page `root`. In an image that was not judged a refusal, or no row, tells of the pages on the way alone: see [`Database::lookup`].
pub fn lookup(image: &[u8], root: u32, row: i64) -> Result<Option<Cell>, Refusal> {
    // SAFETY: pointer and length are those of a slice.
    let answer = unsafe { raw::urk_lookup(image.as_ptr(), image.len(), root, row) };
    Refusal::test(answer.refusal, answer.page)?;
    Ok((answer.found == 1).then_some(Cell { page: answer.page, cell: answer.cell, length: answer.length as usize }))
}

/// Copies the payload of a cell to the start of `out` and shows it there. `out` is as it was on a refusal, and past the payload.
pub fn payload<'o>(image: &[u8], page: u32, cell: u32, out: &'o mut [u8]) -> Result<&'o mut [u8], Refusal> {
    // SAFETY: pointers and lengths are those of slices, and the borrow checker keeps the lent one apart.
    let answer = unsafe { raw::urk_payload_fetch(image.as_ptr(), image.len(), page, cell, out.as_mut_ptr(), out.len()) };
    Refusal::test(answer.refusal, answer.page)?;
    Ok(&mut out[..answer.length as usize])
}

/// A part of the log or of the image.
fn part_of<'a>(log: &'a [u8], image: &'a [u8], part: raw::urk_part) -> &'a [u8] {
    let from = if part.from_log == 1 { log } else { image };
    let start = part.start as usize;
    &from[start..start + part.length as usize]
}

/// The bytes of a page of the recovered database: a part of the log or of the image. Each call scans the log: [`LogView`] scans it once.
///
/// ```
/// # let image = include_bytes!("../../../examples/counter.db");
/// // With nothing to recover the image is shown.
/// assert_eq!(urkibasko::log_page(&[], image, 2)?, &image[512..1024]);
/// # Ok::<(), urkibasko::Refusal>(())
/// ```
pub fn log_page<'a>(log: &'a [u8], image: &'a [u8], page: u32) -> Result<&'a [u8], Refusal> {
    // SAFETY: pointers and lengths are those of slices.
    let part = unsafe { raw::urk_log_page(log.as_ptr(), log.len(), image.as_ptr(), image.len(), page) };
    Refusal::test(part.refusal, 0)?;
    Ok(part_of(log, image, part))
}

/// Copies the database that a write-ahead log recovers to the start of `out`, which is as it was on a refusal, and past the recovered length.
pub fn log_recover(log: &[u8], image: &[u8], out: &mut [u8]) -> Result<Recovered, Refusal> {
    // SAFETY: pointers and lengths are those of slices, and the borrow checker keeps the lent one apart.
    let answer = unsafe { raw::urk_log_recover(log.as_ptr(), log.len(), image.as_ptr(), image.len(), out.as_mut_ptr(), out.len()) };
    Refusal::test(answer.refusal, 0)?;
    Ok(Recovered { pages: answer.pages, length: answer.length as usize })
}

/// Copies the database that a rollback journal, of one segment or several, restores to the start of `out`, which is as it was on a refusal, and past the recovered length.
/// A journal whose super-journal is gone is not in force, and not to be given here: see [`journal_super`].
pub fn journal_recover(journal: &[u8], image: &[u8], out: &mut [u8]) -> Result<Recovered, Refusal> {
    // SAFETY: pointers and lengths are those of slices, and the borrow checker keeps the lent one apart.
    let answer = unsafe { raw::urk_journal_recover(journal.as_ptr(), journal.len(), image.as_ptr(), image.len(), out.as_mut_ptr(), out.len()) };
    Refusal::test(answer.refusal, 0)?;
    Ok(Recovered { pages: answer.pages, length: answer.length as usize })
}
