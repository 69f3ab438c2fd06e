//! Records that do not read, in cells of every sort.

use plain::header::{header, Header};
use plain::number::write_varint;
use plain::page::{tree_page, Marks};
use world::reader::{Plain, Reader};
use world::rng::Rng;

use crate::images::{put, some_cell, TREE_TYPES};

/// Damages the record in a cell: its header's length, a serial type, or how many bytes its values take. Only the bytes on the cell's own page.
pub fn record_damage(image: &mut [u8], shape: &Header, page: u32, rng: &mut Rng) {
    let Some((_, _, cell, _)) = some_cell(image, shape, page, rng) else { return };
    if cell.local == 0 {
        return;
    }
    let from = (page as usize - 1) * shape.page_size + cell.local_at;
    let header_length = usize::from(image[from]).clamp(2, cell.local.max(2));
    let place = from + 1 + rng.below(header_length.min(cell.local).max(2) - 1).min(cell.local - 1);
    match rng.below(7) {
        0 => image[from] = image[from].wrapping_add(*rng.pick(&[1, 255])),
        1 => image[from] = *rng.pick(&[0, 1, 2, 127, 128, 255]),
        // A type whose value takes more bytes, or fewer, by one or two.
        2 | 3 => image[place] = image[place].wrapping_add(*rng.pick(&[1, 2, 4, 254, 252])),
        4 => image[place] = *rng.pick(&[0, 1, 6, 7, 8, 9, 10, 11, 12, 13]),
        // A type that is negative, or past all records.
        5 if cell.local >= 10 => {
            let mut varint = [0; 9];
            let length = write_varint(*rng.pick(&[-1, i64::MIN, i64::MAX, 12, 1 << 40]), &mut varint).unwrap_or(9);
            put(image, from + 1, &varint[..length.min(cell.local - 1)]);
        }
        _ => image[place] ^= 1 << rng.below(8),
    }
}

/// Of an image that the verdict refused with 28 at a page past the first: the page's type, and whether the record that does not read runs over a chain.
pub fn unread(image: &[u8], page: u32) -> Option<(u8, bool)> {
    let shape = header(image).ok().filter(|_| page > 1)?;
    let tree = tree_page(image, &shape, page, &TREE_TYPES, &mut Marks::default()).ok()?;
    let mut out = vec![0; 65536];
    (0..tree.cells).find_map(|i| {
        let answer = Plain.payload_fetch(image, page, i as u32, &mut out);
        let reads = answer.refusal != 0 || Plain.record_columns(&out[..answer.length as usize]).status == 0;
        (!reads).then(|| (tree.kind, tree.cell(i).local < tree.cell(i).payload))
    })
}
