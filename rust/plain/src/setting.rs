//! A row set to a record: its leaf laid anew in the image.

use crate::header::header;
use crate::lookup::{lookup, Found};
use crate::number::{be16, write_varint};
use crate::page::{tree_page, Marks, TABLE_LEAF};
use crate::{record, Refusal};

/// Why a cell that lookup shows is not set: the root or the leaf is not one whose rows may be, the record does not read, or it does not fit.
const MAY_NOT: u32 = 53;
const NO_RECORD: u32 = 28;
const NO_ROOM: u32 = 54;

/// Sets a row of the table at `root`, by the ledger of kinds of the image; on a refusal, and where there is no such row, the image is as it was.
pub fn set(image: &mut [u8], kinds: &[u8], root: u32, row: i64, record: &[u8]) -> Result<Option<Found>, Refusal> {
    let Some(found) = lookup(image, root, row)? else { return Ok(None) };
    let is_root = kinds.get(root as usize - 1) == Some(&1);
    if root == 1 || !is_root || found.page == 1 {
        return Err(Refusal::new(MAY_NOT, found.page));
    }
    if record::columns(record).is_none() {
        return Err(Refusal::general(NO_RECORD));
    }
    let (start, page) = anew(image, found, row, record).ok_or(Refusal::new(NO_ROOM, found.page))?;
    image[start..start + page.len()].copy_from_slice(&page);
    Ok(Some(Found { payload: record.len(), ..found }))
}

/// The row's leaf up to U with the record in place of what it has, and where the page begins; none where it does not fit.
fn anew(image: &[u8], found: Found, row: i64, record: &[u8]) -> Option<(usize, Vec<u8>)> {
    let header = header(image).ok()?;
    let old = tree_page(image, &header, found.page, &[TABLE_LEAF], &mut Marks::default()).ok()?;
    let (usable, cell) = (header.usable, old.cell(found.cell));
    if cell.local < cell.payload || record.len() > usable - 35 {
        return None;
    }
    let mut page = vec![0; usable];
    page[0] = TABLE_LEAF;
    page[3..5].copy_from_slice(&old.bytes[3..5]);
    let pointers_end = 8 + 2 * old.cells;
    let mut at = usable;
    for i in 0..old.cells {
        let here = usize::from(be16(old.bytes, 8 + 2 * i));
        let bytes = if i == found.cell { row_cell(row, record) } else { old.bytes[here..old.cell(i).end].to_vec() };
        at = at.checked_sub(bytes.len()).filter(|&at| at >= pointers_end)?;
        page[at..at + bytes.len()].copy_from_slice(&bytes);
        page[8 + 2 * i..][..2].copy_from_slice(&(at as u16).to_be_bytes());
    }
    page[5..7].copy_from_slice(&(at as u16).to_be_bytes());
    Some(((found.page as usize - 1) * header.page_size, page))
}

/// Length, row number, record, and zeros up to four bytes.
fn row_cell(row: i64, record: &[u8]) -> Vec<u8> {
    let mut cell = Vec::new();
    for number in [record.len() as i64, row] {
        let mut varint = [0; 9];
        let length = write_varint(number, &mut varint).expect("nine bytes are enough");
        cell.extend(&varint[..length]);
    }
    cell.extend(record);
    cell.resize(cell.len().max(4), 0);
    cell
}
