//! The rollback journal, of one segment or several.

use std::ops::Range;

use crate::number::be32;
use crate::wal::lay_down;
use crate::{lock_page, Refusal, MAX_PAGES};

const MAGIC: [u8; 8] = [0xd9, 0xd5, 0x05, 0xf9, 0x20, 0xa1, 0x63, 0xd7];
const HEADER: usize = 28;

/// The sum of a record: the nonce and every 200th byte from the end of the page.
fn sum(nonce: u32, page: &[u8]) -> u32 {
    let mut sum = nonce;
    let mut at = page.len();
    while at > 200 {
        at -= 200;
        sum = sum.wrapping_add(u32::from(page[at]));
    }
    sum
}

/// The records of all segments, each a page's number and the page, up to the first that fails. Segments begin at multiples of the sector size: the
/// first at 0, each other where the records that the one before it counts have ended.
fn records(journal: &[u8], sector_size: usize, page_size: usize) -> Vec<(usize, &[u8])> {
    let mut found = Vec::new();
    let mut segment = 0;
    while let Some(header) = journal.get(segment..segment + HEADER) {
        if header[..8] != MAGIC || header[20..] != journal[20..HEADER] {
            break;
        }
        let [count, nonce] = [8, 12].map(|at| be32(header, at));
        let limit = if count == u32::MAX { usize::MAX } else { count as usize };
        let mut at = segment + sector_size;
        for _ in 0..limit {
            let Some(record) = journal.get(at..at + page_size + 8) else {
                return found;
            };
            let (number, page) = (be32(record, 0) as usize, &record[4..4 + page_size]);
            if number == 0 || number == lock_page(page_size) || be32(record, 4 + page_size) != sum(nonce, page) {
                return found;
            }
            found.push((number, page));
            at += record.len();
        }
        segment = at.next_multiple_of(sector_size);
    }
    found
}

/// Rolls an image back into the start of `out` and answers the number of pages and the length; on a refusal `out` is as it was. Where there is no
/// journal the image is copied as it is, and the number of pages is told as 0.
pub fn recover(journal: &[u8], image: &[u8], out: &mut [u8]) -> Result<(usize, usize), Refusal> {
    if journal.len() < HEADER || journal[..8] != MAGIC {
        let out = out.get_mut(..image.len()).ok_or(Refusal::general(44))?;
        out.copy_from_slice(image);
        return Ok((0, image.len()));
    }
    let [pages, sector_size, page_size] = [16, 20, 24].map(|at| be32(journal, at));
    let is_size = |size: u32| (512..=65536).contains(&size) && size.is_power_of_two();
    if !is_size(sector_size) || !is_size(page_size) {
        return Err(Refusal::general(41));
    }
    let (pages, sector_size, page_size) = (pages as usize, sector_size as usize, page_size as usize);
    if pages > MAX_PAGES {
        return Err(Refusal::general(42));
    }
    let mut recorded: Vec<Option<&[u8]>> = vec![None; pages];
    for (number, page) in records(journal, sector_size, page_size) {
        if number <= pages && recorded[number - 1].replace(page).is_some() {
            return Err(Refusal::general(45));
        }
    }
    let parts: Vec<Option<&[u8]>> =
        recorded.iter().enumerate().map(|(i, page)| page.or_else(|| image.get(i * page_size..(i + 1) * page_size))).collect();
    lay_down(parts, page_size, out)
}

/// Where the name of the super-journal stands, if the journal names one: right before the last 16 bytes, which are its length, its sum and the magic.
pub fn super_name(journal: &[u8]) -> Option<Range<usize>> {
    let (before, end) = journal.split_at(journal.len().checked_sub(16)?);
    let (length, sum) = (be32(end, 0) as usize, be32(end, 4));
    if end[8..] != MAGIC || length == 0 || length > 512 || length > before.len() {
        return None;
    }
    let start = before.len() - length;
    let name = &before[start..];
    let signed: i32 = name.iter().map(|&byte| i32::from(byte as i8)).sum();
    (signed as u32 == sum && name[0] != 0).then_some(start..before.len())
}
