//! Rows by number, and payloads.

use crate::header::{header, Header};
use crate::number::be32;
use crate::page::{page_bytes, tree_page, Cell, Marks, INDEX_INTERIOR, INDEX_LEAF, TABLE_INTERIOR, TABLE_LEAF};
use crate::{Refusal, MAX_LEVELS};

/// A leaf cell: its page, its index from 0 and the length of its payload.
#[derive(Clone, Copy, Debug, PartialEq, Eq)]
pub struct Found {
    pub page: u32,
    pub cell: usize,
    pub payload: usize,
}

/// Looks for a row number in the table tree at `root`.
pub fn lookup(image: &[u8], root: u32, row: i64) -> Result<Option<Found>, Refusal> {
    let header = header(image).map_err(Refusal::general)?;
    let in_range = |page: u32| page >= 1 && page as usize <= header.pages;
    if !in_range(root) {
        return Err(Refusal::general(20));
    }
    let mut marks = Marks::default();
    let mut number = root;
    for _ in 0..MAX_LEVELS {
        let page = tree_page(image, &header, number, &[TABLE_INTERIOR, TABLE_LEAF], &mut marks)?;
        let mut cells = (0..page.cells).map(|i| (i, page.cell(i)));
        if page.is_leaf() {
            let found = cells.find(|(_, cell)| cell.key == row);
            return Ok(found.map(|(i, cell)| Found { page: number, cell: i, payload: cell.payload }));
        }
        let child = cells.find(|(_, cell)| cell.key >= row).map_or(page.right, |(_, cell)| cell.child);
        if !in_range(child) {
            return Err(Refusal::new(20, number));
        }
        number = child;
    }
    Err(Refusal::new(24, number))
}

/// Copies the payload of a cell to the start of `out` and answers its length; on a refusal `out` is as it was.
pub fn payload(image: &[u8], number: u32, index: u32, out: &mut [u8]) -> Result<usize, Refusal> {
    let header = header(image).map_err(Refusal::general)?;
    if number == 0 || number as usize > header.pages {
        return Err(Refusal::general(46));
    }
    let page = tree_page(image, &header, number, &[INDEX_INTERIOR, INDEX_LEAF, TABLE_LEAF], &mut Marks::default())?;
    if index as usize >= page.cells {
        return Err(Refusal::general(46));
    }
    copy(image, &header, number, &page.cell(index as usize), out)
}

/// Copies the payload of a cell of page `number`, once its chain is known to be whole and to fit.
pub(crate) fn copy(image: &[u8], header: &Header, number: u32, cell: &Cell, out: &mut [u8]) -> Result<usize, Refusal> {
    let room = header.usable - 4;

    let mut parts = vec![&page_bytes(image, header, number)[cell.local_at..cell.local_at + cell.local]];
    let mut rest = cell.payload - cell.local;
    let mut holder = number;
    let mut next = cell.overflow;
    while rest > 0 {
        if next == 0 {
            return Err(Refusal::new(27, holder));
        }
        if next as usize > header.pages {
            return Err(Refusal::new(20, holder));
        }
        holder = next;
        let bytes = page_bytes(image, header, holder);
        let part = rest.min(room);
        parts.push(&bytes[4..4 + part]);
        rest -= part;
        next = be32(bytes, 0);
    }
    if parts.len() > 1 && next != 0 {
        return Err(Refusal::new(27, holder));
    }
    let out = out.get_mut(..cell.payload).ok_or(Refusal::general(44))?;
    let mut at = 0;
    for part in parts {
        out[at..at + part.len()].copy_from_slice(part);
        at += part.len();
    }
    Ok(cell.payload)
}
