//! Rows by number and payloads, of an image that was accepted: by halving, with no test of soundness. Of the cells that are looked at only the row numbers are read, and then one cell.

use crate::header::{header, Header};
use crate::lookup::{self, Found};
use crate::number::{be16, be32, read_varint};
use crate::page::{page_bytes, read_cell, Cell, INDEX_INTERIOR, INDEX_LEAF, TABLE_INTERIOR, TABLE_LEAF};
use crate::{Refusal, MAX_LEVELS};

/// A page as its header says it is.
struct Untested<'a> {
    bytes: &'a [u8],
    /// Where its header begins.
    at: usize,
}

impl<'a> Untested<'a> {
    fn new(image: &'a [u8], header: &Header, number: u32) -> Untested<'a> {
        Untested { bytes: page_bytes(image, header, number), at: if number == 1 { 100 } else { 0 } }
    }

    fn kind(&self) -> u8 {
        self.bytes[self.at]
    }

    fn cells(&self) -> usize {
        usize::from(be16(self.bytes, self.at + 3))
    }

    /// Where cell `i` begins: 23 where its pointer runs past U, or lies before the content or past U.
    fn start(&self, i: usize) -> Result<usize, u32> {
        let content = match be16(self.bytes, self.at + 5) {
            0 => 65536,
            content => usize::from(content),
        };
        let interior = self.kind() == INDEX_INTERIOR || self.kind() == TABLE_INTERIOR;
        let pointer = self.at + if interior { 12 } else { 8 } + 2 * i;
        if pointer + 2 > self.bytes.len() {
            return Err(23);
        }
        let start = usize::from(be16(self.bytes, pointer));
        if start < content || start >= self.bytes.len() {
            return Err(23);
        }
        Ok(start)
    }

    /// Cell `i`, with its own 23 and 26.
    fn cell(&self, i: usize) -> Result<Cell, u32> {
        read_cell(self.bytes, self.kind(), self.start(i)?)
    }

    /// The row number of cell `i`, and nothing else of it.
    fn row(&self, i: usize) -> Result<i64, u32> {
        let varint = |at: usize| self.bytes.get(at..).and_then(read_varint).ok_or(23u32);
        let start = self.start(i)?;
        let at = if self.kind() == TABLE_LEAF { start + varint(start)?.1 } else { start + 4 };
        Ok(varint(at)?.0)
    }

    /// Where halving ends: the least index from which on no row is smaller, where rows rise.
    fn halve(&self, row: i64) -> Result<usize, u32> {
        let (mut a, mut z) = (0, self.cells());
        while a < z {
            let middle = a + (z - a) / 2;
            if self.row(middle)? < row {
                a = middle + 1;
            } else {
                z = middle;
            }
        }
        Ok(z)
    }

    /// The cell there, if it is one, and its index.
    fn cell_for(&self, row: i64) -> Result<Option<(usize, Cell)>, u32> {
        let i = self.halve(row)?;
        (i < self.cells()).then(|| Ok((i, self.cell(i)?))).transpose()
    }
}

/// Looks for a row number in the table tree at `root`.
pub fn find(image: &[u8], root: u32, row: i64) -> Result<Option<Found>, Refusal> {
    let header = header(image).map_err(Refusal::general)?;
    let in_range = |page: u32| page >= 1 && page as usize <= header.pages;
    if !in_range(root) {
        return Err(Refusal::general(20));
    }
    let mut number = root;
    for _ in 0..MAX_LEVELS {
        let page = Untested::new(image, &header, number);
        if page.kind() != TABLE_INTERIOR && page.kind() != TABLE_LEAF {
            return Err(Refusal::new(22, number));
        }
        let at = page.cell_for(row).map_err(|refusal| Refusal::new(refusal, number))?;
        if page.kind() == TABLE_LEAF {
            let carries = at.filter(|(_, cell)| cell.key == row);
            return Ok(carries.map(|(i, cell)| Found { page: number, cell: i, payload: cell.payload }));
        }
        let child = at.map_or_else(|| be32(page.bytes, page.at + 8), |(_, cell)| cell.child);
        if !in_range(child) {
            return Err(Refusal::new(20, number));
        }
        number = child;
    }
    Err(Refusal::new(24, number))
}

/// Copies the payload of a cell to the start of `out` and answers its length; on a refusal `out` is as it was.
pub fn payload(image: &[u8], number: u32, index: u32, out: &mut [u8]) -> Result<usize, Refusal> {
    let header = header(image).map_err(Refusal::general)?;
    if number == 0 || number as usize > header.pages {
        return Err(Refusal::general(46));
    }
    let page = Untested::new(image, &header, number);
    if ![INDEX_INTERIOR, INDEX_LEAF, TABLE_LEAF].contains(&page.kind()) {
        return Err(Refusal::new(22, number));
    }
    if index as usize >= page.cells() {
        return Err(Refusal::general(46));
    }
    let cell = page.cell(index as usize).map_err(|refusal| Refusal::new(refusal, number))?;
    lookup::copy(image, &header, number, &cell, out)
}
