//! The rows of a table, one after the other.

use std::fmt;

use crate::{check_ordered, raw, Cell, Kind, Ledger, Record, Refusal, Rule, MAX_PAGES};

/// The words of a cursor.
pub const CURSOR_WORDS: usize = 41;

/// A row of a table: its number, and its leaf cell by page, index from 0 and length of the payload.
#[derive(Clone, Copy, Debug, PartialEq, Eq, Hash)]
pub struct Row {
    pub number: i64,
    pub page: u32,
    pub cell: u32,
    pub length: usize,
}

impl Row {
    /// Its leaf cell.
    pub fn cell(&self) -> Cell {
        Cell { page: self.page, cell: self.cell, length: self.length }
    }
}

/// An image that was accepted. It can be had by a check alone, and so what it tells is told of a whole database: under a table's root no row is refused or left out, a row is found exactly
/// when the table has it, and every payload is fetched.
///
/// ```
/// # let image = include_bytes!("../../../examples/counter.db");
/// use urkibasko::{Database, Record, Value};
/// let database = Database::new(image)?;
/// let cell = database.lookup(2, 3)?.expect("the table at page 2 has a row 3");
/// let mut room = vec![0; urkibasko::MAX_PAYLOAD];
/// let record = Record::new(database.payload(cell, &mut room)?).expect("it reads as a record");
/// assert_eq!(record.column(1), Some(Value::Text(b"faults")));
/// # Ok::<(), urkibasko::Refusal>(())
/// ```
#[derive(Clone, Debug)]
pub struct Database<'a> {
    image: &'a [u8],
    ledger: Ledger,
}

impl<'a> Database<'a> {
    /// Judges an image.
    pub fn new(image: &'a [u8]) -> Result<Database<'a>, Refusal> {
        Database::with_ordered(image, &[])
    }

    /// An image with the ledger of its own.
    pub(crate) fn checked(image: &'a [u8], ledger: Ledger) -> Database<'a> {
        Database { image, ledger }
    }

    /// Judges an image, and the order of keys in the indexes whose root pages are named: see [`check_ordered`].
    pub fn with_ordered(image: &'a [u8], indexes: &[u32]) -> Result<Database<'a>, Refusal> {
        Ok(Database { image, ledger: check_ordered(image, indexes)? })
    }

    pub fn image(&self) -> &'a [u8] {
        self.image
    }

    /// What every page is.
    pub fn ledger(&self) -> &Ledger {
        &self.ledger
    }

    /// The rows of the table tree at page `root`, by rising number. Under a table's root no row is refused. A root that is no page is refused
    /// ([`Rule::PointerRange`]), and so is one that is no tree page of the database, or one of an index ([`Rule::PageType`]).
    pub fn rows(&self, root: u32) -> Rows<'a> {
        self.listing(root, Start::First)
    }

    /// The cell of a row of the table at page `root`, if the table has it. Roots are refused as by [`Database::rows`]. The row is found by halving, and no page is tested again: the
    /// check vouches for the pages.
    pub fn lookup(&self, root: u32, row: i64) -> Result<Option<Cell>, Refusal> {
        self.may_be_root(root)?;
        find(self.image, root, row)
    }

    /// Copies the payload of a cell to the start of `room` and shows it there; [`crate::MAX_PAYLOAD`] bytes are always enough. A page that is no tree page of the database is refused.
    /// The page is not tested again.
    pub fn payload<'o>(&self, cell: Cell, room: &'o mut [u8]) -> Result<&'o mut [u8], Refusal> {
        match self.ledger.kind(cell.page) {
            None | Some(Kind::Root | Kind::Tree) => payload_quick(self.image, cell.page, cell.cell, room),
            Some(_) => Err(Refusal { rule: Rule::PageType, page: Some(cell.page) }),
        }
    }

    /// What a free or overflow page holds was not judged, and its bytes may look like a tree without end.
    fn may_be_root(&self, root: u32) -> Result<(), Refusal> {
        match self.ledger.kind(root) {
            None | Some(Kind::Root | Kind::Tree) => Ok(()),
            Some(_) => Err(Refusal { rule: Rule::PageType, page: Some(root) }),
        }
    }

    /// The rows whose numbers are not below `row`.
    ///
    /// ```
    /// # let image = include_bytes!("../../../examples/counter.db");
    /// let database = urkibasko::Database::new(image)?;
    /// let numbers: Result<Vec<i64>, _> = database.rows_from(7, 585).map(|row| Ok(row?.number)).collect();
    /// assert_eq!(numbers?, [590, 600]);
    /// # Ok::<(), urkibasko::Refusal>(())
    /// ```
    pub fn rows_from(&self, root: u32, row: i64) -> Rows<'a> {
        self.listing(root, Start::From(row))
    }

    /// The record of a row that [`Database::rows`] or [`Database::rows_from`] showed, whose payload goes to the start of `room`. Every payload in the database's trees reads as a
    /// record, so that with [`MAX_PAYLOAD`](crate::MAX_PAYLOAD) bytes of room there is one for each of these rows: none only where the row is not one of them, or the room too small.
    pub fn record<'o>(&self, row: &Row, room: &'o mut [u8]) -> Option<Record<'o>> {
        self.payload(row.cell(), room).ok().and_then(|payload| Record::new(payload))
    }

    fn listing(&self, root: u32, start: Start) -> Rows<'a> {
        Rows::new(self.image, root, self.may_be_root(root).map_or_else(Start::Refused, |()| start))
    }
}

/// A row of an image that was accepted. In any image it is safe, and its answer that of `urk_find`.
pub(crate) fn find(image: &[u8], root: u32, row: i64) -> Result<Option<Cell>, Refusal> {
    // SAFETY: pointer and length are those of a slice.
    let answer = unsafe { raw::urk_find(image.as_ptr(), image.len(), root, row) };
    Refusal::test(answer.refusal, answer.page)?;
    Ok((answer.found == 1).then_some(Cell { page: answer.page, cell: answer.cell, length: answer.length as usize }))
}

/// A payload of an image that was accepted, as [`crate::payload`] copies it.
pub(crate) fn payload_quick<'o>(image: &[u8], page: u32, cell: u32, out: &'o mut [u8]) -> Result<&'o mut [u8], Refusal> {
    // SAFETY: pointers and lengths are those of slices, and the borrow checker keeps the lent one apart.
    let answer = unsafe { raw::urk_payload_quick(image.as_ptr(), image.len(), page, cell, out.as_mut_ptr(), out.len()) };
    Refusal::test(answer.refusal, answer.page)?;
    Ok(&mut out[..answer.length as usize])
}

#[derive(Clone, Copy, Debug)]
enum Start {
    First,
    From(i64),
    Refused(Refusal),
    Over,
    Stepping,
}

/// Goes from row to row. After the end, or a refusal, there is nothing more.
#[derive(Clone, Debug)]
pub struct Rows<'a> {
    image: &'a [u8],
    root: u32,
    start: Start,
    cursor: [u32; CURSOR_WORDS],
}

impl<'a> Rows<'a> {
    fn new(image: &'a [u8], root: u32, start: Start) -> Rows<'a> {
        Rows { image, root, start, cursor: [0; CURSOR_WORDS] }
    }

    /// The rows under a page of an image that was not judged; from a number on, where one is given. Where a page is named many times, one step may have to enter pages
    /// once for each way to them: where these could be over `most` in all, nothing is listed.
    pub fn unchecked(image: &'a [u8], root: u32, from: Option<i64>, most: u64) -> Result<Rows<'a>, TooManyPages> {
        if entries(image, root) > most {
            return Err(TooManyPages { root, most });
        }
        Ok(Rows::new(image, root, from.map_or(Start::First, Start::From)))
    }

    /// The same rows from another number on. What bounds a step under the root bounds these too.
    pub fn restarted(&self, from: i64) -> Rows<'a> {
        Rows::new(self.image, self.root, Start::From(from))
    }
}

impl Iterator for Rows<'_> {
    type Item = Result<Row, Refusal>;

    fn next(&mut self) -> Option<Result<Row, Refusal>> {
        let (image, cursor) = ((self.image.as_ptr(), self.image.len()), (self.cursor.as_mut_ptr(), self.cursor.len()));
        // SAFETY: pointers and lengths are those of a slice and of an array that is borrowed alone.
        let answer = unsafe {
            match self.start {
                Start::First => raw::urk_rows_first(image.0, image.1, self.root, cursor.0, cursor.1),
                Start::From(row) => raw::urk_rows_seek(image.0, image.1, self.root, row, cursor.0, cursor.1),
                Start::Stepping => raw::urk_rows_step(image.0, image.1, cursor.0, cursor.1),
                Start::Refused(refusal) => {
                    self.start = Start::Over;
                    return Some(Err(refusal));
                }
                Start::Over => return None,
            }
        };
        self.start = Start::Over;
        if let Err(refusal) = Refusal::test(answer.refusal, answer.page) {
            return Some(Err(refusal));
        }
        if answer.found == 0 {
            return None;
        }
        self.start = Start::Stepping;
        Some(Ok(Row { number: answer.row, page: answer.page, cell: answer.cell, length: answer.length as usize }))
    }
}

impl std::iter::FusedIterator for Rows<'_> {}

/// One step in an image that was not judged could enter more pages than the caller allows.
#[derive(Clone, Copy, Debug, PartialEq, Eq)]
pub struct TooManyPages {
    pub root: u32,
    pub most: u64,
}

impl fmt::Display for TooManyPages {
    fn fmt(&self, f: &mut fmt::Formatter) -> fmt::Result {
        write!(f, "a step under page {} could enter over {} pages: pages there are named again and again", self.root, self.most)
    }
}

impl std::error::Error for TooManyPages {}

const LEVELS: usize = 20;
const TABLE_INTERIOR: u8 = 5;

/// No step under `root` enters more pages than this, a page being counted once for each way down to it. It is counted level by level from the lowest up, by type bytes and
/// pointers alone: a page that is refused has no pages below it, so that no way is left out. The pages on a stored path, at most 20, are not counted.
fn entries(image: &[u8], root: u32) -> u64 {
    let page_size = match image.get(16..18) {
        Some(&[0, 1]) => 65536,
        Some(&[high, low]) => usize::from(high) * 256 + usize::from(low),
        _ => 0,
    };
    if page_size < 512 {
        return 0;
    }
    let pages: Vec<&[u8]> = image.chunks_exact(page_size).take(MAX_PAGES).collect();
    let children: Vec<Vec<u32>> = (0..pages.len()).map(|page| children(pages[page], if page == 0 { 100 } else { 0 }, pages.len())).collect();
    // ways[p]: the pages entered under page p + 1, itself included, with so many levels left.
    let mut ways = vec![0u64; pages.len()];
    for _ in 0..LEVELS {
        ways = children.iter().map(|children| children.iter().fold(1u64, |sum, &child| sum.saturating_add(ways[child as usize]))).collect();
    }
    (root as usize).checked_sub(1).and_then(|page| ways.get(page)).copied().unwrap_or(0)
}

/// The children of a table interior page that are pages of the image, counted from 0.
fn children(page: &[u8], at: usize, pages: usize) -> Vec<u32> {
    let two = |at: usize| page.get(at..at + 2).map_or(0, |two| usize::from(two[0]) * 256 + usize::from(two[1]));
    let four = |at: usize| page.get(at..at + 4).map_or(0, |four| u32::from_be_bytes([four[0], four[1], four[2], four[3]]) as usize);
    if page[at] != TABLE_INTERIOR {
        return Vec::new();
    }
    let cells = two(at + 3).min(page.len() / 2);
    let all = (0..cells).map(|i| four(two(at + 12 + 2 * i))).chain([four(at + 8)]);
    all.filter(|&child| (1..=pages).contains(&child)).map(|child| child as u32 - 1).collect()
}
