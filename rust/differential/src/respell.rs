//! Images whose numbers are spelled longer than need be. sqlite3 writes none, so they are made of its own: the cells of tree pages are laid down anew.

use plain::header::{header, Header};
use plain::number::varint_len;
use plain::page::{tree_page, Marks};
use world::rng::Rng;

use crate::images::{Base, TREE_TYPES};

/// The spelling of a number in `length` bytes, which are enough for it.
fn spelled(value: i64, length: usize) -> Vec<u8> {
    let bits = value as u64;
    let (mut rest, last) = if length == 9 { (bits >> 8, bits as u8) } else { (bits >> 7, (bits & 0x7f) as u8) };
    let mut bytes = vec![last];
    for _ in 1..length {
        bytes.push(0x80 | (rest & 0x7f) as u8);
        rest >>= 7;
    }
    bytes.reverse();
    bytes
}

/// A length for the spelling of a number: often the shortest, else any.
fn some_length(value: i64, rng: &mut Rng) -> usize {
    let least = varint_len(value);
    match rng.below(3) {
        0 => least + rng.below(10 - least),
        1 => (least + 1).min(9),
        _ => least,
    }
}

/// Lays the cells of a sound tree page down anew, side by side, with some numbers spelled long. Where they have no room the page stays as it is.
pub fn respell(image: &mut [u8], shape: &Header, page: u32, rng: &mut Rng) {
    let from = (page as usize - 1) * shape.page_size;
    if image.len() < from + shape.page_size {
        return;
    }
    let Ok(tree) = tree_page(image, shape, page, &TREE_TYPES, &mut Marks::default()) else { return };
    let head = if page == 1 { 100 } else { 0 };
    let pointers = head + if tree.is_leaf() { 8 } else { 12 };
    let cells: Vec<Vec<u8>> = (0..tree.cells)
        .map(|i| {
            let cell = tree.cell(i);
            let mut bytes = if tree.is_leaf() { Vec::new() } else { cell.child.to_be_bytes().to_vec() };
            if tree.kind != 5 {
                let length = cell.payload as i64;
                bytes.extend(spelled(length, some_length(length, rng)));
            }
            if tree.kind == 5 || tree.kind == 13 {
                bytes.extend(spelled(cell.key, some_length(cell.key, rng)));
            }
            let link = if cell.local < cell.payload { 4 } else { 0 };
            bytes.extend(&tree.bytes[cell.local_at..cell.local_at + cell.local + link]);
            bytes.resize(bytes.len().max(4), 0);
            bytes
        })
        .collect();
    let (room, total) = (shape.usable, cells.iter().map(Vec::len).sum::<usize>());
    if pointers + 2 * cells.len() + total > room {
        return;
    }
    let bytes = &mut image[from..from + room];
    let mut at = room;
    for (i, cell) in cells.iter().enumerate() {
        at -= cell.len();
        bytes[at..at + cell.len()].copy_from_slice(cell);
        bytes[pointers + 2 * i..][..2].copy_from_slice(&(at as u16).to_be_bytes());
    }
    bytes[head + 1..head + 3].fill(0);
    bytes[head + 5..head + 7].copy_from_slice(&(at as u16).to_be_bytes());
    bytes[head + 7] = 0;
}

/// A base with every tree page laid down anew.
pub fn respelled(base: &Base, rng: &mut Rng) -> Option<Base> {
    let shape = header(&base.image).ok().filter(|_| base.accepted())?;
    let mut image = base.image.clone();
    for page in base.trees() {
        respell(&mut image, &shape, page, rng);
    }
    Some(Base::new(&format!("{}, respelled", base.name), image))
}
