//! Quick reading of accepted images, held against lookup and payload: rows of every table, numbers beside them and at both ends of the numbers, and
//! payloads of every tree page, up to a few hundred of each.

use std::collections::BTreeMap;

use plain::cursor;
use world::reader::Reader;

use crate::hold::{same, same_bytes, Held};
use crate::images::Base;
use crate::proved::Proved;

/// Rows asked for under each tree page, and cells of each: at most so many. Counts row numbers that were there (0), that were not (1), and payloads (2).
pub fn whole(base: &Base, most: usize, met: &mut BTreeMap<(&'static str, u32), u64>) -> Held {
    if !base.accepted() {
        return Ok(());
    }
    let image = &base.image[..];
    let room = image.len() / 512;
    let (mut kinds, mut namers, mut steps) = (vec![0; room], vec![0; room], vec![0; room]);
    let pages = Proved.check(image, &mut kinds, &mut namers, &mut steps).pages;
    for page in (1..=pages).filter(|&page| matches!(kinds[page as usize - 1], 1 | 6)) {
        let mut numbers = vec![i64::MIN, i64::MIN + 1, -1, 0, 1, i64::MAX - 1, i64::MAX];
        let mut words = vec![0; cursor::WORDS];
        let mut row = Proved.rows_first(image, page, &mut words);
        for _ in 0..most {
            if row.refusal != 0 || row.found == 0 {
                break;
            }
            numbers.extend([row.row.wrapping_sub(1), row.row, row.row.wrapping_add(1)]);
            row = Proved.rows_step(image, &mut words);
        }
        for number in numbers {
            let found = Proved.lookup(image, page, number);
            same(&format!("urk_find and urk_lookup, root {page} row {number}"), Proved.find(image, page, number), found)?;
            *met.entry(("quick, whole images", u32::from(found.found == 0))).or_default() += 1;
        }
        for cell in 0..most as u32 {
            let (mut quick, mut tested) = (vec![0xee; 65536], vec![0xee; 65536]);
            let answer = Proved.payload_fetch(image, page, cell, &mut tested);
            same(
                &format!("urk_payload_quick and urk_payload_fetch, page {page} cell {cell}"),
                Proved.payload_quick(image, page, cell, &mut quick),
                answer,
            )?;
            same_bytes("their payloads", &quick, &tested)?;
            if answer.refusal != 0 {
                break;
            }
            *met.entry(("quick, whole images", 2)).or_default() += 1;
        }
    }
    Ok(())
}
