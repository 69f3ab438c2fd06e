//! Rows set in an image that was accepted.

use crate::rows::{find, payload_quick};
use crate::{check_ordered, raw, varint, Cell, Database, Ledger, Refusal};

/// An image that was accepted, and whose rows are set in place. What the check vouches for it vouches for after every set: the image is accepted with the
/// same kinds, namers and steps, every row stands where it stood, and every other payload is what it was. So it is checked once.
///
/// ```
/// # let mut image = include_bytes!("../../../examples/counter.db").to_vec();
/// use urkibasko::{encode, Changing, Database, Value};
/// let mut changing = Changing::new(&mut image)?;
/// let record = encode(&["frames".into(), Value::Integer(90_211), Value::Null]);
/// let cell = changing.set(2, 1, &record)?.expect("the table at page 2 has a row 1");
/// let mut room = vec![0; urkibasko::MAX_PAYLOAD];
/// assert_eq!(changing.payload(cell, &mut room)?, record);
/// let ledger = changing.done().ledger().clone();
/// assert_eq!(Database::new(&image)?.ledger(), &ledger);
/// # Ok::<(), urkibasko::Refusal>(())
/// ```
///
/// **Nothing ties an index to its table**: after a change of a column that an index has, that index is stale. sqlite3's REINDEX makes it
/// anew, where the new values break no UNIQUE: no constraint of the table is looked at.
///
/// Of the old record nothing is left on its page. A log, a journal or a free page may have it still.
#[derive(Debug)]
pub struct Changing<'a> {
    image: &'a mut [u8],
    ledger: Ledger,
}

impl<'a> Changing<'a> {
    /// Judges an image.
    pub fn new(image: &'a mut [u8]) -> Result<Changing<'a>, Refusal> {
        Changing::with_ordered(image, &[])
    }

    /// Judges an image, and the order of keys in the indexes whose root pages are named: see [`check_ordered`].
    pub fn with_ordered(image: &'a mut [u8], indexes: &[u32]) -> Result<Changing<'a>, Refusal> {
        let ledger = check_ordered(image, indexes)?;
        Ok(Changing { image, ledger })
    }

    pub fn image(&self) -> &[u8] {
        self.image
    }

    /// What every page is; the count of long spellings is that of the image as it is now.
    pub fn ledger(&self) -> &Ledger {
        &self.ledger
    }

    /// The cell of a row of the table at page `root`, if the table has it.
    pub fn lookup(&self, root: u32, row: i64) -> Result<Option<Cell>, Refusal> {
        crate::lookup(self.image, root, row)
    }

    /// Copies the payload of a cell of a tree page to the start of `room` and shows it there.
    pub fn payload<'o>(&self, cell: Cell, room: &'o mut [u8]) -> Result<&'o mut [u8], Refusal> {
        payload_quick(self.image, cell.page, cell.cell, room)
    }

    /// Sets a row of the table at page `root` to a record: see [`encode`](crate::encode). Answers its cell, or nothing where the table has no such row. The
    /// column that is an INTEGER PRIMARY KEY is null in it.
    ///
    /// Refused is first what [`lookup`](crate::lookup) refuses. Of a row that is there: what is no table's root, page 1 too
    /// ([`Rule::NoTableRoot`](crate::Rule::NoTableRoot)); bytes that do not read as a record
    /// ([`Rule::BadRecord`](crate::Rule::BadRecord)); a row with an overflow chain, and a record that needs one or has no room on the row's page
    /// ([`Rule::DoesNotFit`](crate::Rule::DoesNotFit)). Then nothing changes.
    pub fn set(&mut self, root: u32, row: i64, record: &[u8]) -> Result<Option<Cell>, Refusal> {
        let long = find(self.image, root, row).ok().flatten().map_or(0, |cell| self.long_spellings(cell));
        let kinds = &self.ledger.kinds;
        // SAFETY: pointers and lengths are those of slices, and the image is borrowed alone.
        let answer = unsafe {
            raw::urk_row_set(self.image.as_mut_ptr(), self.image.len(), kinds.as_ptr(), kinds.len(), root, row, record.as_ptr(), record.len())
        };
        Refusal::test(answer.refusal, answer.page)?;
        if answer.found == 0 {
            return Ok(None);
        }
        self.ledger.long_spellings -= long;
        Ok(Some(Cell { page: answer.page, cell: answer.cell, length: answer.length as usize }))
    }

    /// How many of the two numbers of a leaf cell are not in their shortest spelling.
    fn long_spellings(&self, cell: Cell) -> u64 {
        let two = |at: usize| self.image.get(at..at + 2).map_or(0, |two| usize::from(u16::from_be_bytes([two[0], two[1]])));
        let size = match two(16) {
            1 => 65536,
            size => size,
        };
        let start = (cell.page as usize - 1) * size;
        let head = start + if cell.page == 1 { 100 } else { 0 };
        let mut at = start + two(head + 8 + 2 * cell.cell as usize);
        let mut long = 0;
        for _ in 0..2 {
            let Some(number) = self.image.get(at..).and_then(varint::read) else { break };
            long += u64::from(!number.shortest);
            at += number.length;
        }
        long
    }

    /// The database as it is now, which needs no other check.
    pub fn done(self) -> Database<'a> {
        Database::checked(self.image, self.ledger)
    }
}
