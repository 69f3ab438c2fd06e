//! Reports: of tables as they are, damaged, and of leaves full of reals that are hard to add.

use plain::number::write_varint;
use world::rng::Rng;

use crate::hold::{Held, Hold};
use crate::images::{damage, Base};

/// No report of a case looks at more bytes of pages than this.
const MOST: u64 = 4 << 20;

/// Reals by their bits: zeros, subnormals, the least normal, ones that round, the greatest, infinities and NaNs, of both signs.
const BITS: [u64; 12] = [
    0,
    1,
    0x000f_ffff_ffff_ffff,
    0x0010_0000_0000_0000,
    0x3ca0_0000_0000_0000,
    0x3ff0_0000_0000_0000,
    0x3ff0_0000_0000_0001,
    0x4340_0000_0000_0000,
    0x7fe0_0000_0000_0000,
    0x7fef_ffff_ffff_ffff,
    0x7ff0_0000_0000_0000,
    0x7ff8_0000_0000_0000,
];

pub fn case(bases: &[Base], large: &[Base], hold: &mut Hold, rng: &mut Rng) -> (String, Held) {
    let from = if rng.below(200) == 0 { large } else { bases };
    let base = rng.pick(from);
    if rng.below(4) == 0 {
        let two_pages = bases.iter().find(|base| base.name == "single-512.db").expect("a database of two pages");
        let image = reals(&two_pages.image, rng);
        let room = *rng.pick(&[0, 5, 9, 10, 11, 12, 40, 40, 40, 40]);
        return ("reals".to_owned(), hold.report(&image, 2, *rng.pick(&[0, 1, 1, 1, 1, 1, 2, 3, u64::MAX]), room, MOST));
    }
    let mut image = base.image.clone();
    for _ in 0..*rng.pick(&[0, 0, 1, 1, 1, 2, 3]) {
        damage(base, &mut image, rng);
    }
    let pages = plain::header::header(&image).map_or(image.len() / 512, |shape| shape.pages);
    let root = match (rng.below(10), base.root(rng)) {
        (0, _) | (_, None) => *rng.pick(&[0, 1, 2, pages as u32, pages as u32 + 1, u32::MAX]),
        (1 | 2, _) => 1 + rng.below(pages.max(1)) as u32,
        (_, Some(root)) => root,
    };
    let column = *rng.pick(&[0, 1, 1, 1, 2, 2, 3, 4, 5, u64::MAX]);
    let room = match rng.below(6) {
        0 => rng.below(60),
        1 => rng.below(2000),
        2 => 0,
        _ => 65536,
    };
    (base.name.clone(), hold.report(&image, root, column, room, MOST))
}

/// A database whose table, at page 2, is one leaf: a record a row, of a real and now and then another column or no real at all.
fn reals(two_pages: &[u8], rng: &mut Rng) -> Vec<u8> {
    let mut image = two_pages[..1024].to_vec();
    let page = &mut image[512..];
    page.fill(0);
    page[0] = 13;
    let (few, cells) = (1 + rng.below(12), rng.below(30));
    let some: Vec<u64> = (0..few).map(|_| real(rng)).collect();
    let (mut at, mut row) = (512, 0i64);
    for i in 0..cells {
        row += 1 + rng.below(9) as i64;
        let mut record = match rng.below(12) {
            0 => vec![2, *rng.pick(&[0, 8, 9])],
            1 => vec![2, 1, rng.byte()],
            2 => vec![3, 7, 9],
            _ => vec![2, 7],
        };
        if record[1] == 7 {
            record.extend(rng.pick(&some).to_be_bytes());
        }
        if rng.below(60) == 0 {
            record[0] = rng.byte();
        }
        let mut cell = vec![record.len() as u8, 0, 0, 0, 0];
        let length = write_varint(row, &mut cell[1..]).expect("room");
        cell.truncate(1 + length);
        cell.extend(record);
        at -= cell.len().max(4);
        page[at..at + cell.len()].copy_from_slice(&cell);
        page[8 + 2 * i..10 + 2 * i].copy_from_slice(&(at as u16).to_be_bytes());
    }
    page[3..5].copy_from_slice(&(cells as u16).to_be_bytes());
    page[5..7].copy_from_slice(&(at as u16).to_be_bytes());
    image
}

fn real(rng: &mut Rng) -> u64 {
    let sign = (rng.below(2) as u64) << 63;
    match rng.below(4) {
        0 => rng.word(),
        // Near one, where sums round.
        1 => sign | (0x3fe0_0000_0000_0000 + (rng.word() >> 10)),
        _ => sign | *rng.pick(&BITS),
    }
}
